/*
 * A control unit with two routes that send, two that receive and a key that is updated again and again, over a file as its device.
 * Power goes at any byte of any write, and between writes. No freshness may come twice under a Data ID, and no key that was confirmed
 * may be lost.
 *
 *     control_unit FILE EVENTS [DUTY]
 *
 * With DUTY the unit breaks one of the duties that rathonsi_store.h names, and the program ends well if the harm of it is seen, or if a
 * call refuses it, as with two_cells and opens_nothing:
 *     says_done_first   says that a plan is done before it is
 *     gate_first        does the writes of a plan in another order
 *     rewrites_pages    its device loses a whole page if power goes within a write
 *     forgets_done      does a plan, and plans anew without saying that it is done
 *     two_tasks         another task sends with an image, a plan and a route of its own
 *     two_cells         two routes send under one Data ID
 *     drops_begun       drops a plan after writes of it are done, and goes on
 *     goes_on           goes on with a plan after a write of it failed
 *     loses_writes      its device loses, if power goes, the write before, which was durable
 *     reads_loose       it reads at power-up what a write that was cut has left in a cache, and what is gone in the next life
 *     opens_nothing     it opens no route after a power-up, and its routes are then zero but for what it fills in
 *     keeps_plan        its plan outlives a power-up, and is done after it
 */
#include <stdio.h>
#include <stdlib.h>
#include <string.h>

#include "rathonsi_store.h"

enum { ROUTES = 4, SENDERS = 2, SLOT = 4, MASTER = 1, PAGE = 64 };
enum duty { KEEPS_ALL, SAYS_DONE_FIRST, GATE_FIRST, REWRITES_PAGES, FORGETS_DONE, TWO_TASKS, TWO_CELLS, DROPS_BEGUN, GOES_ON,
            LOSES_WRITES, READS_LOOSE, OPENS_NOTHING, KEEPS_PLAN, DUTIES };
static const char *const duty_names[DUTIES] = {"", "says_done_first", "gate_first", "rewrites_pages", "forgets_done", "two_tasks",
                                               "two_cells", "drops_begun", "goes_on", "loses_writes", "reads_loose",
                                               "opens_nothing", "keeps_plan"};

/* The control unit: all that it has in RAM, and its device. */
static uint8_t image[RATHONSI_STORE_SIZE(ROUTES)];
static RathonsiPlan plan;
static RathonsiRoute routes[ROUTES];
static FILE *device;
static enum duty broken;
static uint8_t other_image[sizeof image]; /* of another task, if there is one */
static RathonsiPlan other_plan;
static RathonsiRoute other_route;
static RathonsiWrite lost;  /* what the last write wrote over */
static RathonsiWrite loose; /* what a write that was cut wrote over, and in how many lives that is back */
static int loose_lives;

static const uint8_t uid[15] = {1, 2, 3, 4, 5, 6, 7, 8, 9, 10, 11, 12, 13, 14, 15};
static const uint8_t master[16] = {15, 14, 13, 12, 11, 10, 9, 8, 7, 6, 5, 4, 3, 2, 1, 0};

/* What the world has seen, which no power cut takes back. */
static uint64_t highest[ROUTES]; /* freshness that was sent or accepted */
static uint64_t far_end[ROUTES]; /* the counter of who sends to a route that receives */
static RathonsiUpdate confirmed; /* the last update that was confirmed */
static RathonsiUpdate loading;   /* the one that is being loaded */
static int is_loading;
static const char *harm;
static uint8_t pdu_in[RATHONSI_PDU_MOST]; /* the PDU that came last */
static size_t pdu_in_length;
static long sent, accepted, again, replayed, done, loaded, cuts, loaded_by_cut;

static uint32_t random_state = 2463534242u;

static uint32_t draw(uint32_t below) {
    random_state ^= random_state << 13;
    random_state ^= random_state >> 17;
    random_state ^= random_state << 5;
    return random_state % below;
}

static void expect(int holds, const char *what) {
    if (!holds && harm == NULL)
        harm = what;
}

/* ---- The device ---- */

static void write_file(uint32_t offset, const uint8_t *bytes, size_t length) {
    if (fseek(device, (long)offset, SEEK_SET) != 0 || fwrite(bytes, 1, length, device) != length || fflush(device) != 0) {
        perror("the device");
        exit(2);
    }
}

static void read_file(uint32_t offset, uint8_t *bytes, size_t length) {
    if (fseek(device, (long)offset, SEEK_SET) != 0 || fread(bytes, 1, length, device) != length) {
        perror("the device");
        exit(2);
    }
}

/* Power goes within a write: of its bytes anything is left. In half of the cases it is cut at a byte: those before are written. */
static void tear(const RathonsiWrite *write) {
    uint8_t bytes[sizeof write->bytes];
    uint32_t whole = draw(2) == 0 ? draw(write->length + 1) : UINT32_MAX;
    read_file(write->offset, bytes, write->length);
    if (broken == READS_LOOSE) {
        loose = *write;
        loose_lives = 2;
        memcpy(loose.bytes, bytes, sizeof bytes);
        write_file(write->offset, write->bytes, write->length);
        return;
    }
    for (uint32_t i = 0; i < write->length; i++) {
        uint32_t what = whole == UINT32_MAX ? draw(4) : i < whole ? 0 : i == whole ? 1 : 3;
        if (what == 0)
            bytes[i] = write->bytes[i];
        else if (what == 1)
            bytes[i] = (uint8_t)draw(256);
        else if (what == 2)
            bytes[i] = 0xa7;
    }
    if (broken == REWRITES_PAGES) {
        uint8_t page[PAGE] = {0};
        uint32_t at = write->offset - write->offset % PAGE;
        write_file(at, page, sizeof image - at < PAGE ? sizeof image - at : PAGE);
    }
    write_file(write->offset, bytes, write->length);
}

static void write_durably(const RathonsiWrite *write) {
    lost = *write;
    read_file(write->offset, lost.bytes, write->length);
    write_file(write->offset, write->bytes, write->length);
}

/* ---- The control unit ---- */

/* The bound is what the counter is then, so who sends to a receiver begins there. */
static void open_route(int which) {
    expect(rathonsi_route_open(&routes[which], image, sizeof image) == RATHONSI_OK, "a bound is damaged");
    expect(routes[which].counter >= highest[which], "a counter fell back");
    if (far_end[which] < routes[which].counter)
        far_end[which] = routes[which].counter;
}

/* All routes, or none if two of them are one. */
static void open_routes(void) {
    uint32_t which = 0;
    int32_t status = rathonsi_routes_open(routes, ROUTES, image, sizeof image, &which);
    expect(status != RATHONSI_BAD_VALUE, "two routes of one Data ID are refused");
    expect(status == RATHONSI_OK, "a bound is damaged");
}

/* A call on a route that isn't open is refused. */
static void look_open(int32_t status) {
    expect(status != RATHONSI_BAD_VALUE, "a route that isn't open is refused");
}

static void power_up(void) {
    read_file(0, image, sizeof image);
    if (broken != KEEPS_PLAN || cuts == 0)
        memset(&plan, 0, sizeof plan);
    expect(rathonsi_store_check(image, sizeof image) == RATHONSI_OK, "the store is damaged");
    for (int i = 0; i < ROUTES; i++) {
        routes[i].reserve = (uint16_t)(i == 0 ? 1 : 1 + draw(128)); /* another one in each life */
        routes[i].booted = (uint8_t)draw(2);
        routes[i].counter = 0;
        routes[i].opened = 0;
    }
    if (broken != OPENS_NOTHING || cuts == 0) {
        open_routes();
        for (int i = 0; i < ROUTES; i++)
            open_route(i);
    }
    memcpy(other_image, image, sizeof image);
    memset(&other_plan, 0, sizeof other_plan);
    other_route = routes[0];
}

/* The key as it is confirmed now: the one that was confirmed last, or, if power went within a load, the one that was loaded. */
static void confirm(void) {
    RathonsiRequest request;
    RathonsiReply reply, wanted;
    expect(rathonsi_she_make_update(master, sizeof master, &confirmed, &request) == RATHONSI_OK, "no request is made");
    expect(rathonsi_slot_confirm(uid, request.m1, image, sizeof image, &reply) == RATHONSI_OK, "the slot is empty or damaged");
    expect(rathonsi_she_confirm(&loading, uid, &wanted) == RATHONSI_OK, "no reply is made");
    if (is_loading && memcmp(&reply, &wanted, sizeof reply) == 0) {
        confirmed = loading;
        loaded_by_cut++;
    }
    is_loading = 0;
    expect(rathonsi_she_confirm(&confirmed, uid, &wanted) == RATHONSI_OK, "no reply is made");
    expect(memcmp(&reply, &wanted, sizeof reply) == 0, "a confirmed key is lost");
}

static void cut_power(void) {
    cuts++;
    if (broken == LOSES_WRITES)
        write_file(lost.offset, lost.bytes, lost.length);
    if (loose_lives > 0 && --loose_lives == 0)
        write_file(loose.offset, loose.bytes, loose.length);
    power_up();
    confirm();
}

static int32_t send_on(int which, RathonsiRoute *route, const uint8_t *from) {
    uint8_t payload[RATHONSI_PAYLOAD_MOST], pdu[RATHONSI_PDU_MOST];
    size_t length = 1 + draw(sizeof payload);
    RathonsiRoute before = *route;
    for (size_t i = 0; i < length; i++)
        payload[i] = (uint8_t)draw(256);
    int32_t status = rathonsi_route_send(route, from, sizeof image, payload, length, pdu, sizeof pdu);
    look_open(status);
    if (status != RATHONSI_OK) {
        expect(memcmp(&before, route, sizeof before) == 0, "a refused call changed its route");
        return status;
    }
    RathonsiVerdict verdict =
        rathonsi_secoc_verify(confirmed.key, 16, route->data_id, before.counter, 1, pdu, length + RATHONSI_TRAILER);
    expect(verdict.status == RATHONSI_OK && memcmp(pdu, payload, length) == 0, "a PDU isn't the one of its payload");
    expect(route->counter > highest[which], "a freshness is sent twice");
    highest[which] = route->counter;
    sent++;
    return status;
}

/* A PDU of the far end, and now and then an old one. The freshness to reserve, if there is one. */
static int32_t receive_on(int which, uint64_t *wanted) {
    RathonsiRoute *route = &routes[which];
    RathonsiRoute before = *route;
    uint8_t payload[8] = {9};
    int old = draw(4) == 0;
    uint64_t freshness = far_end[which] + 1 + draw(3);
    if (old)
        freshness = highest[which] - draw((uint32_t)(highest[which] < 60 ? highest[which] + 1 : 60));
    pdu_in_length = sizeof payload + RATHONSI_TRAILER;
    expect(rathonsi_secoc_protect(confirmed.key, 16, route->data_id, freshness, payload, sizeof payload, pdu_in, sizeof pdu_in) == RATHONSI_OK,
           "no PDU is made");
    RathonsiVerdict verdict = rathonsi_route_receive(route, image, sizeof image, pdu_in, pdu_in_length);
    look_open(verdict.status);
    *wanted = verdict.freshness;
    if (verdict.status != RATHONSI_OK)
        expect(memcmp(&before, route, sizeof before) == 0, "a refused call changed its route");
    if (old) {
        replayed++;
        expect(verdict.status != RATHONSI_OK || verdict.freshness > highest[which], "an old PDU is accepted");
        return RATHONSI_OK;
    }
    far_end[which] = freshness;
    if (verdict.status == RATHONSI_OK) {
        expect(verdict.freshness == freshness && freshness > highest[which], "a freshness is accepted twice");
        highest[which] = freshness;
        accepted++;
    } else if (verdict.status == RATHONSI_FRESHNESS_FAILURE) {
        far_end[which] = route->counter; /* the far end went too far ahead, and begins again */
        return RATHONSI_OK;
    }
    return verdict.status;
}

/* The PDU that came last, once more: its freshness is reserved now. */
static void receive_again(int which, uint64_t freshness) {
    RathonsiVerdict verdict = rathonsi_route_receive(&routes[which], image, sizeof image, pdu_in, pdu_in_length);
    expect(verdict.status == RATHONSI_OK && verdict.freshness == freshness, "a PDU that was reserved for isn't accepted");
    highest[which] = freshness;
    accepted++;
    again++;
}

enum outcome { POWER_WENT, DROPPED, DONE };

/* Does the plan: three writes at most, each durable before the next. Now and then it is dropped before the first. */
static enum outcome do_plan(void) {
    static const int in_order[3] = {0, 1, 2}, gate_before[3] = {0, 2, 1};
    const int *order = broken == GATE_FIRST ? gate_before : in_order;
    RathonsiPlan todo = plan;
    if (broken == SAYS_DONE_FIRST) {
        expect(rathonsi_store_done(image, sizeof image, &plan) == RATHONSI_OK, "a plan reaches beyond the image");
        send_on(0, &routes[0], image);
    }
    if (broken != SAYS_DONE_FIRST && draw(50) == 0) {
        memset(&plan, 0, sizeof plan);
        return DROPPED;
    }
    for (int i = 0; i < 3; i++) {
        const RathonsiWrite *write = &todo.writes[order[i]];
        if (write->length == 0)
            continue;
        if (broken != SAYS_DONE_FIRST && draw(3) == 0)
            send_on(1, &routes[1], image); /* other work goes on meanwhile */
        if (draw(12) == 0) {
            tear(write);
            if (broken != GOES_ON)
                return POWER_WENT;
        } else
            write_durably(write);
        if (broken == DROPS_BEGUN && draw(4) == 0) {
            memset(&plan, 0, sizeof plan);
            return DROPPED;
        }
    }
    done++;
    if (broken == FORGETS_DONE && draw(3) == 0) {
        memset(&plan, 0, sizeof plan);
        return DONE;
    }
    expect(rathonsi_store_done(image, sizeof image, &plan) == RATHONSI_OK, "a plan reaches beyond the image");
    return DONE;
}

/* A plan that outlived a power-up is done (or dropped, as do_plan may) before another one is asked for, which is BUSY until then, however
 * often the power goes. It may have been a key's. Whether there was one. */
static int do_kept_plan(void) {
    int kept = plan.writes[1].length != 0;
    while (plan.writes[1].length != 0) {
        is_loading = 1;
        enum outcome outcome = do_plan();
        if (outcome == POWER_WENT)
            cut_power();
        else if (outcome == DONE)
            confirm();
    }
    is_loading = 0;
    return kept;
}

static enum outcome reserve(int which, uint64_t freshness) {
    if (broken == KEEPS_PLAN && do_kept_plan())
        return POWER_WENT;
    int32_t status = rathonsi_route_reserve(&routes[which], freshness, image, sizeof image, &plan);
    look_open(status);
    expect(status == RATHONSI_OK, "a bound isn't planned");
    if (plan.writes[1].length == 0)
        return DONE;
    expect(rathonsi_route_reserve(&routes[which], freshness, image, sizeof image, &plan) == RATHONSI_BUSY, "a plan is planned over");
    enum outcome outcome = do_plan();
    if (outcome == POWER_WENT)
        cut_power();
    return outcome;
}

static void do_other_task(void) {
    if (send_on(0, &other_route, other_image) != RATHONSI_RESERVE)
        return;
    expect(rathonsi_route_reserve(&other_route, other_route.counter + 1, other_image, sizeof other_image, &other_plan) == RATHONSI_OK,
           "a bound isn't planned");
    for (int i = 0; i < 3; i++)
        write_file(other_plan.writes[i].offset, other_plan.writes[i].bytes, other_plan.writes[i].length);
    expect(rathonsi_store_done(other_image, sizeof other_image, &other_plan) == RATHONSI_OK, "a plan reaches beyond the image");
}

static void load_key(void) {
    RathonsiRequest request;
    RathonsiReply reply, wanted;
    if (broken == KEEPS_PLAN && do_kept_plan())
        return;
    loading = confirmed;
    loading.counter++;
    for (int i = 0; i < 16; i++)
        loading.key[i] = (uint8_t)draw(256);
    expect(rathonsi_she_make_update(master, sizeof master, &loading, &request) == RATHONSI_OK, "no request is made");
    expect(rathonsi_she_confirm(&loading, uid, &wanted) == RATHONSI_OK, "no reply is made");
    if (rathonsi_slot_load(uid, 0, &request, image, sizeof image, &plan) != RATHONSI_OK) {
        expect(0, "a key isn't planned");
        return;
    }
    expect(rathonsi_slot_confirm(uid, request.m1, image, sizeof image, &reply) == RATHONSI_OK, "the slot is empty or damaged");
    expect(memcmp(&reply, &wanted, sizeof reply) != 0, "a key is confirmed before it is durable");
    is_loading = 1;
    enum outcome outcome = do_plan();
    if (outcome == POWER_WENT)
        cut_power();
    is_loading = 0;
    if (outcome != DONE)
        return;
    expect(rathonsi_slot_confirm(uid, request.m1, image, sizeof image, &reply) == RATHONSI_OK, "the slot is empty or damaged");
    expect(memcmp(&reply, &wanted, sizeof reply) == 0, "a key that was loaded isn't confirmed");
    confirmed = loading;
    loaded++;
    expect(rathonsi_slot_load(uid, 0, &request, image, sizeof image, &plan) == RATHONSI_KEY_UPDATE_ERROR, "an old update is taken again");
}

/* ---- The production line ---- */

static RathonsiUpdate first_key(uint8_t slot, const uint8_t *key, uint8_t flags) {
    RathonsiUpdate update;
    memset(&update, 0, sizeof update);
    memcpy(update.uid, uid, sizeof uid);
    memcpy(update.key, key, 16);
    update.id = slot;
    update.auth = slot;
    update.flags = flags;
    update.counter = 1;
    return update;
}

/* An empty slot takes a key that authorises itself with sixteen bytes ff. */
static void put_first_key(const RathonsiUpdate *update) {
    uint8_t empty[16];
    RathonsiRequest request;
    memset(empty, 0xff, sizeof empty);
    expect(rathonsi_she_make_update(empty, sizeof empty, update, &request) == RATHONSI_OK, "no request is made");
    expect(rathonsi_slot_load(uid, 0, &request, image, sizeof image, &plan) == RATHONSI_OK, "a first key isn't taken");
    expect(rathonsi_store_done(image, sizeof image, &plan) == RATHONSI_OK, "a plan reaches beyond the image");
}

static void make_store(void) {
    static const uint8_t no_header[32] = {0};
    uint8_t key[16] = {0x2b, 0x7e, 0x15, 0x16, 0x28, 0xae, 0xd2, 0xa6, 0xab, 0xf7, 0x15, 0x88, 0x09, 0xcf, 0x4f, 0x3c};
    RathonsiUpdate authorising = first_key(MASTER, master, 0);
    memset(routes, 0, sizeof routes);
    memset(&plan, 0, sizeof plan);
    expect(rathonsi_store_make(image, sizeof image) == RATHONSI_OK, "no store is made");
    for (int i = 0; i < ROUTES; i++) {
        routes[i].data_id = (uint16_t)(broken == TWO_CELLS && i < SENDERS ? 0x120e : 0x120e + i);
        routes[i].cell = (uint16_t)(RATHONSI_SLOT_CELLS + (unsigned)i);
        routes[i].reserve = (uint16_t)(i == 0 ? 1 : 1 + draw(128));
        routes[i].window = 256;
        routes[i].slot = SLOT;
        routes[i].direction = i < SENDERS ? RATHONSI_SENDS : RATHONSI_RECEIVES;
        expect(rathonsi_route_make(&routes[i], 0, image, sizeof image) == RATHONSI_OK, "no bound is made");
    }
    put_first_key(&authorising);
    confirmed = first_key(SLOT, key, RATHONSI_KEY_USAGE);
    put_first_key(&confirmed);
    confirmed.auth = MASTER;
    write_file(0, no_header, sizeof no_header);
    write_file(sizeof no_header, image + sizeof no_header, sizeof image - sizeof no_header);
    write_file(0, image, sizeof no_header);
}

static void one_event(void) {
    int which = (int)draw(ROUTES);
    uint64_t wanted;
    int32_t status = RATHONSI_RESERVE;
    int received = 0;
    if (draw(300) == 0) {
        cut_power();
        return;
    }
    if (draw(400) == 0) /* opened again within a life */
        open_route(which);
    wanted = routes[which].counter + 1;
    if (draw(200) == 0) {
        load_key();
        return;
    }
    if (broken == TWO_TASKS && draw(20) == 0)
        do_other_task();
    if (draw(6) != 0) { /* else ahead of need */
        received = which >= SENDERS;
        status = received ? receive_on(which, &wanted) : send_on(broken == TWO_CELLS ? 0 : which, &routes[which], image);
    }
    if (status == RATHONSI_RESERVE) {
        if (reserve(which, wanted) == DONE && received && broken != FORGETS_DONE)
            receive_again(which, wanted);
    } else
        expect(status == RATHONSI_OK, "a call is refused");
}

int main(int count, char **words) {
    long events = count > 2 ? atol(words[2]) : 0;
    for (int i = 1; i < DUTIES; i++)
        if (count == 4 && strcmp(words[3], duty_names[i]) == 0)
            broken = (enum duty)i;
    if (count < 3 || count > 4 || events < 1 || (count == 4 && broken == KEEPS_ALL)
        || (device = fopen(words[1], "w+b")) == NULL) {
        fprintf(stderr, "usage: control_unit FILE EVENTS [DUTY]\n");
        return 2;
    }
    make_store();
    power_up();
    long n = 0;
    while (n < events && harm == NULL) {
        one_event();
        n++;
    }
    fclose(device);
    printf("%ld events: sent %ld, accepted %ld, %ld of them once their freshness was reserved, replays refused %ld, plans done %ld, "
           "keys loaded %ld and %ld by a cut, power cuts %ld\n", n, sent, accepted, again, replayed, done, loaded, loaded_by_cut, cuts);
    printf("%s%s%s\n", duty_names[broken], broken == KEEPS_ALL ? "" : ": ", harm != NULL ? harm : "no harm");
    return (harm != NULL) == (broken != KEEPS_ALL) ? 0 : 1;
}
