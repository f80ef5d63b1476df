/*
 * Two control units, of which one sends what the other receives, under one to eight Data IDs: new software adds routes, and the store
 * grows, or a spare cell becomes a route's. Power goes at any byte of any write, and between writes. Older software may start in between,
 * within a growth that was cut, or come back later. The receiver sleeps, falls behind and takes an answer of the sender, or rejoins by
 * it. An attacker repeats PDUs and answers, and alters answers. No freshness may come twice, no key may be lost, no receiver may stay
 * locked out, and no unit may stay down.
 *
 *     growing_unit EVENTS [DUTY]
 *
 * With DUTY a unit breaks a duty, and the program ends well if some units never come up again:
 *
 *     stops_without     it doesn't call rathonsi_store_mend or rathonsi_store_grow if the number of cells in the header is none
 *     grows_once        it calls rathonsi_store_grow at the first power-up after an update alone
 *     believes_number   it takes the number of cells in the header for the size, and mends nothing
 */
#include <stdio.h>
#include <stdlib.h>
#include <string.h>

#include "rathonsi_store.h"

enum { MOST = 8, SLOT = 4, PAYLOAD = 8, PDU = PAYLOAD + RATHONSI_TRAILER, KEPT = 64, MISSES = 3, IN_A_ROW = 3000 };
enum duty { KEEPS_ALL, STOPS_WITHOUT, GROWS_ONCE, BELIEVES_NUMBER, DUTIES };
static const char *const duty_names[DUTIES] = {"", "stops_without", "grows_once", "believes_number"};
static enum duty broken;

/* What comes of a try to come up. */
enum outcome { UP, CUT, STOPPED };

/* A unit: its device, with room after the store, and all that it has in RAM. Its image has room for the store of any later software, too. */
struct unit {
    uint8_t device[RATHONSI_STORE_SIZE(MOST + 1)];
    uint8_t image[RATHONSI_STORE_SIZE(MOST + 1)];
    uint32_t size; /* of the store, which may have more routes than its software */
    RathonsiPlan plan;
    RathonsiRoute routes[MOST];
    unsigned count; /* how many routes its software has */
    int is_new;     /* whether its software never came up */
};

static struct unit sender, receiver;
static const uint8_t uid[15] = {1, 2, 3};
static uint8_t key[16];
static RathonsiRequest first_request;
static RathonsiReply first_reply;

/* What the world has seen, which no power cut takes back. */
static uint64_t sent_last[MOST], accepted_last[MOST];
static unsigned missed[MOST], in_a_row[MOST];
static uint8_t old_pdus[MOST][KEPT][PDU];
static uint8_t old_answers[MOST][RATHONSI_ANSWER];
static unsigned asleep; /* for so many PDUs */
static int is_lost; /* a unit never comes up again */
static long units, lost, sent, accepted, refused, replays, cuts, grown, claimed, mended, answers, taken, rolled_back, stopped,
    went_down;
static const char *harm;
static uint32_t random_state = 2463534242u;

static uint32_t draw(uint32_t below) {
    random_state ^= random_state << 13;
    random_state ^= random_state >> 17;
    random_state ^= random_state << 5;
    return random_state % below;
}

static void fill(uint8_t *bytes, size_t length) {
    for (size_t i = 0; i < length; i++)
        bytes[i] = (uint8_t)draw(256);
}

static void expect(int holds, const char *what) {
    if (!holds && harm == NULL)
        harm = what;
}

/* ---- The device ---- */

/* Does a write; 0 if power goes within it, as it does once in so many: of its bytes anything is left. */
static int write_device(struct unit *unit, const RathonsiWrite *write, uint32_t once_in) {
    uint8_t *at = unit->device + write->offset;
    int cut = draw(once_in) == 0;
    for (uint32_t i = 0; i < write->length; i++) {
        uint32_t what = cut ? draw(5) : 0;
        if (what == 0)
            at[i] = write->bytes[i];
        else if (what == 1)
            at[i] = (uint8_t)(draw(2) == 0 ? draw(256) : at[i] ^ draw(4));
        else if (what == 2)
            at[i] |= write->bytes[i];
        else if (what == 3)
            at[i] = 0xff;
    }
    cuts += cut;
    return !cut;
}

/* Does the plan; 0 if power goes. */
static int do_plan(struct unit *unit, uint32_t once_in) {
    for (int i = 0; i < 3; i++)
        if (unit->plan.writes[i].length != 0u && !write_device(unit, &unit->plan.writes[i], once_in))
            return 0;
    expect(rathonsi_store_done(unit->image, sizeof unit->image, &unit->plan) == RATHONSI_OK, "a plan reaches beyond the image");
    return 1;
}

/* ---- Power-up ---- */

/* The key that was confirmed at first is confirmed. */
static void look_for_key(const struct unit *unit) {
    RathonsiReply reply;
    RathonsiSlotState state;
    expect(rathonsi_slot_state(SLOT, unit->image, unit->size, &state) == RATHONSI_OK && state.filled == 1, "a slot is empty");
    expect(rathonsi_slot_confirm(uid, first_request.m1, unit->image, unit->size, &reply) == RATHONSI_OK, "a slot is damaged");
    expect(memcmp(&reply, &first_reply, sizeof reply) == 0, "a key is lost");
}

/* The number of cells in the header. */
static uint32_t number_in(const struct unit *unit) {
    return ((uint32_t)unit->image[10] << 8) + unit->image[11];
}

/* Whether the unit breaks a duty, and takes the number in the header for the size. */
static int believes(const struct unit *unit) {
    return broken == BELIEVES_NUMBER && number_in(unit) >= RATHONSI_SLOT_CELLS + unit->count;
}

/* The number of cells is what the cells say, whatever a cut left of it. */
static enum outcome mend_store(struct unit *unit) {
    if (broken == STOPS_WITHOUT && (number_in(unit) < RATHONSI_SLOT_CELLS || number_in(unit) > 270u))
        return STOPPED;
    if (rathonsi_store_mend(unit->image, sizeof unit->image, &unit->plan) != RATHONSI_OK)
        return STOPPED;
    mended += unit->plan.writes[2].length != 0u;
    return do_plan(unit, 8) ? UP : CUT;
}

/* The store gets the cell of this route, unless it has it: then the call plans nothing. */
static enum outcome grow_by(struct unit *unit, const RathonsiRoute *route) {
    for (unsigned calls = 1;; calls++) {
        if (rathonsi_store_grow(route, 0, unit->image, sizeof unit->image, &unit->plan) != RATHONSI_OK)
            return STOPPED;
        if (unit->plan.writes[2].length == 0u) /* nothing is planned: the last write of a growth is never empty */
            return UP;
        expect(calls < 3, "a third call plans something");
        grown += unit->plan.writes[1].length == 1u;
        claimed += unit->plan.writes[1].length == 33u;
        if (!do_plan(unit, 8))
            return CUT;
    }
}

/* The store gets the cells of all routes that the production line didn't make, in the order of their cells. */
static enum outcome grow_store(struct unit *unit) {
    enum outcome outcome = UP;
    for (unsigned i = 1; i < unit->count && outcome == UP; i++)
        if (broken != GROWS_ONCE || unit->is_new)
            outcome = grow_by(unit, &unit->routes[i]);
    unit->is_new = 0;
    return outcome;
}

/* What comes after the growths: the size, which may be that of a store with more routes, the check, and the routes. */
static enum outcome open_store(struct unit *unit) {
    uint32_t which = 0;
    for (unsigned i = 0; i < MOST; i++) {
        unit->routes[i].opened = 0;
        unit->routes[i].reserve = (uint16_t)(1 + draw(128)); /* another one in each life */
    }
    unit->size = 32u + 68u * number_in(unit);
    if ((!believes(unit) && rathonsi_store_size(unit->image, sizeof unit->image, &unit->size) != RATHONSI_OK)
        || unit->size > sizeof unit->image || rathonsi_store_check(unit->image, unit->size) != RATHONSI_OK
        || rathonsi_routes_open(unit->routes, unit->count, unit->image, unit->size, &which) != RATHONSI_OK)
        return STOPPED;
    return UP;
}

/* A unit that is up has all that it had. */
static void look_at(const struct unit *unit) {
    uint16_t cell = 0;
    expect(rathonsi_store_look(unit->image, unit->size, &cell) == RATHONSI_OK, "a cell is odd");
    for (unsigned i = 0; i < unit->count; i++)
        expect(unit->routes[i].counter >= (unit == &sender ? sent_last[i] : accepted_last[i]), "a counter fell back");
    look_for_key(unit);
}

/* One try to come up, as rathonsi_store.h and docs/units.md say. */
static enum outcome come_up(struct unit *unit) {
    memset(&unit->plan, 0, sizeof unit->plan);
    memcpy(unit->image, unit->device, sizeof unit->image);
    enum outcome outcome = UP;
    if (!believes(unit))
        outcome = mend_store(unit);
    if (outcome == UP && !believes(unit))
        outcome = grow_store(unit);
    if (outcome == UP)
        outcome = open_store(unit);
    if (outcome == UP)
        look_at(unit);
    return outcome;
}

/* Older software starts once, over a store that may be in the middle of a growth. It finds all that it had. */
static enum outcome try_older(struct unit *unit) {
    unsigned count = unit->count;
    int is_new = unit->is_new;
    unit->count = 1u + draw(count);
    enum outcome outcome = come_up(unit);
    stopped += outcome == STOPPED;
    rolled_back += outcome == UP;
    unit->count = count;
    unit->is_new = is_new;
    return outcome;
}

static void power_up(struct unit *unit) {
    enum outcome outcome = come_up(unit);
    while (outcome == CUT && harm == NULL) {
        if (draw(3) == 0)
            try_older(unit);
        outcome = come_up(unit);
    }
    if (outcome == STOPPED)
        is_lost = 1;
}

static void cut_power(struct unit *unit) {
    cuts++;
    power_up(unit);
}

/* A route more of new software. */
static void add_route(struct unit *unit) {
    unsigned which = unit->count++;
    RathonsiRoute *route = &unit->routes[which];
    memset(route, 0, sizeof *route);
    route->data_id = (uint16_t)(0x1200 + which);
    route->cell = (uint16_t)(RATHONSI_SLOT_CELLS + which);
    route->reserve = 1;
    route->window = 256;
    route->slot = SLOT;
    route->direction = unit == &sender ? RATHONSI_SENDS : RATHONSI_RECEIVES;
}

/* New software, with one route more, or with two. */
static void update(struct unit *unit) {
    add_route(unit);
    if (unit->count < MOST && draw(2) == 0)
        add_route(unit);
    unit->is_new = 1;
    power_up(unit);
}

/* Older software comes back, for a while or until the next update. The store keeps its cells. */
static void roll_back(struct unit *unit) {
    unit->count = 1u + draw(unit->count);
    rolled_back++;
    power_up(unit);
}

/* ---- The production line ---- */

/* Makes a unit of one route and up to three spare cells, with all the room behind its store erased. A device that began with old bytes
 * there couldn't grow. */
static void make_unit(struct unit *unit) {
    unit->count = 0;
    add_route(unit);
    unit->is_new = 0;
    unit->size = RATHONSI_STORE_SIZE(1u + draw(4)); /* some cells are spare */
    memset(&unit->plan, 0, sizeof unit->plan);
    fill(unit->image, unit->size); /* old bytes */
    memset(unit->image + unit->size, 0xff, sizeof unit->image - unit->size);
    expect(rathonsi_store_make(unit->image, unit->size) == RATHONSI_OK, "no store is made");
    expect(rathonsi_route_make(&unit->routes[0], 0, unit->image, unit->size) == RATHONSI_OK, "no bound is made");
    expect(rathonsi_slot_load(uid, 0, &first_request, unit->image, unit->size, &unit->plan) == RATHONSI_OK, "a first key isn't taken");
    expect(rathonsi_store_done(unit->image, unit->size, &unit->plan) == RATHONSI_OK, "no key is loaded");
    memcpy(unit->device, unit->image, sizeof unit->device);
}

static void make_units(void) {
    RathonsiUpdate update_of;
    uint8_t empty[16];
    memset(&update_of, 0, sizeof update_of);
    memset(empty, 0xff, sizeof empty);
    fill(key, sizeof key);
    memcpy(update_of.uid, uid, sizeof uid);
    memcpy(update_of.key, key, sizeof key);
    update_of.id = update_of.auth = SLOT;
    update_of.flags = RATHONSI_KEY_USAGE;
    update_of.counter = 1;
    expect(rathonsi_she_make_update(empty, sizeof empty, &update_of, &first_request) == RATHONSI_OK, "no request is made");
    expect(rathonsi_she_confirm(&update_of, uid, &first_reply) == RATHONSI_OK, "no reply is made");
    memset(sent_last, 0, sizeof sent_last);
    memset(accepted_last, 0, sizeof accepted_last);
    memset(missed, 0, sizeof missed);
    memset(in_a_row, 0, sizeof in_a_row);
    memset(old_pdus, 0, sizeof old_pdus);
    memset(old_answers, 0, sizeof old_answers);
    asleep = 0;
    is_lost = 0;
    units++;
    make_unit(&sender);
    make_unit(&receiver);
    power_up(&sender);
    power_up(&receiver);
}

/* ---- PDUs ---- */

/* Reserves; 0 if power goes. */
static int reserve(struct unit *unit, unsigned which, uint64_t freshness, int any) {
    const RathonsiRoute *route = &unit->routes[which];
    int32_t status = any ? rathonsi_route_advance(route, freshness, unit->image, unit->size, &unit->plan)
                         : rathonsi_route_reserve(route, freshness, unit->image, unit->size, &unit->plan);
    expect(status == RATHONSI_OK, "a bound isn't planned");
    if (do_plan(unit, 40))
        return 1;
    power_up(unit);
    return 0;
}

/* A PDU comes to the receiver; whether it is accepted. */
static int arrive(unsigned which, const uint8_t *pdu) {
    RathonsiRoute *route = &receiver.routes[which];
    RathonsiVerdict verdict = rathonsi_route_receive(route, receiver.image, receiver.size, pdu, PDU);
    if (verdict.status == RATHONSI_RESERVE && reserve(&receiver, which, verdict.freshness, 0))
        verdict = rathonsi_route_receive(route, receiver.image, receiver.size, pdu, PDU);
    if (verdict.status != RATHONSI_OK)
        return 0;
    expect(verdict.freshness > accepted_last[which], "a freshness is accepted twice");
    expect(verdict.freshness <= sent_last[which], "a freshness is accepted that nobody sent");
    accepted_last[which] = verdict.freshness;
    accepted++;
    return 1;
}

/* The sender sends; 0 if power goes. */
static int send_one(unsigned which, uint8_t *pdu) {
    uint8_t payload[PAYLOAD];
    RathonsiRoute *route = &sender.routes[which];
    fill(payload, sizeof payload);
    int32_t status = rathonsi_route_send(route, sender.image, sender.size, payload, PAYLOAD, pdu, PDU);
    if (status == RATHONSI_RESERVE) {
        if (!reserve(&sender, which, route->counter + 1u, 0))
            return 0;
        status = rathonsi_route_send(route, sender.image, sender.size, payload, PAYLOAD, pdu, PDU);
    }
    expect(status == RATHONSI_OK, "a PDU isn't sent");
    expect(route->counter > sent_last[which], "a freshness is sent twice");
    sent_last[which] = route->counter;
    memcpy(old_pdus[which][draw(KEPT)], pdu, PDU);
    sent++;
    return 1;
}

/* What the receiver makes of an answer: it takes it, or rejoins by it. */
static RathonsiVerdict judge(int is_rejoin, unsigned which, const RathonsiQuestion *question, const uint8_t *answer) {
    RathonsiRoute *route = &receiver.routes[which];
    return is_rejoin ? rathonsi_sync_rejoin(route, receiver.image, receiver.size, question, answer)
                     : rathonsi_sync_take(route, receiver.image, receiver.size, question, answer);
}

/* The receiver asks the sender for its counter. The attacker comes first, with an old answer and an altered one. */
static void ask(unsigned which) {
    int is_rejoin = draw(2) == 0;
    uint8_t answer[RATHONSI_ANSWER], altered[RATHONSI_ANSWER], pdu[PDU];
    RathonsiQuestion question = {2, 1, {0}}; /* the receiver, which is unit 2, asks unit 1 */
    RathonsiRoute *route = &receiver.routes[which];
    RathonsiVerdict verdict;
    fill(question.nonce, sizeof question.nonce);
    verdict = judge(is_rejoin, which, &question, old_answers[which]);
    expect(verdict.status == RATHONSI_VERIFICATION_FAILURE, "an old answer is taken");
    expect(rathonsi_sync_answer(&sender.routes[which], sender.image, sender.size, &question, answer) == RATHONSI_OK, "no answer is made");
    memcpy(old_answers[which], answer, sizeof answer);
    memcpy(altered, answer, sizeof answer);
    altered[draw(RATHONSI_ANSWER)] ^= (uint8_t)(1u << draw(8));
    verdict = judge(is_rejoin, which, &question, altered);
    expect(verdict.status == RATHONSI_VERIFICATION_FAILURE, "an altered answer is taken");
    answers++;
    uint64_t before_it = route->counter;
    verdict = judge(is_rejoin, which, &question, answer);
    if (verdict.status == RATHONSI_RESERVE) {
        expect(verdict.freshness == sender.routes[which].counter, "another counter is to be reserved");
        if (!reserve(&receiver, which, verdict.freshness, 1))
            return;
        verdict = judge(is_rejoin, which, &question, answer);
    }
    if (verdict.status == RATHONSI_FRESHNESS_FAILURE) { /* it isn't behind: it refuses what it reserved before a cut */
        expect(route->counter >= sender.routes[which].counter, "a receiver that is behind is told that it isn't");
        return;
    }
    expect(verdict.status == RATHONSI_OK && route->counter == sender.routes[which].counter, "an answer isn't taken");
    taken++;
    went_down += route->counter < before_it;
    long before = cuts;
    if (send_one(which, pdu))
        expect(arrive(which, pdu) || cuts != before, "a PDU after an answer isn't accepted");
}

/* A PDU is sent, and comes unless the receiver sleeps. */
static void send_and_receive(unsigned which) {
    uint8_t pdu[PDU];
    if (!send_one(which, pdu))
        return;
    if (asleep > 0) {
        asleep--;
        return;
    }
    if (arrive(which, pdu)) {
        missed[which] = in_a_row[which] = 0;
        return;
    }
    if (is_lost)
        return;
    refused++;
    expect(++in_a_row[which] < IN_A_ROW, "a receiver stays locked out");
    if (++missed[which] >= MISSES) {
        missed[which] = 0;
        ask(which);
    }
}

static void one_event(void) {
    unsigned both = sender.count < receiver.count ? sender.count : receiver.count;
    unsigned which = draw(both);
    switch (draw(100)) {
    case 0:
        if (draw(3) == 0)
            cut_power(draw(2) == 0 ? &sender : &receiver);
        break;
    case 1:
        if (draw(5) == 0)
            asleep = draw(3000);
        break;
    case 2: roll_back(draw(2) == 0 ? &sender : &receiver); break;
    case 3:
        if (both == MOST)
            make_units();
        else
            update(sender.count == both ? &sender : &receiver);
        break;
    default:
        if (draw(5) == 0 && asleep == 0) { /* the attacker repeats one */
            arrive(which, old_pdus[which][draw(KEPT)]);
            replays++;
        } else
            send_and_receive(which);
        break;
    }
}

int main(int count, char **words) {
    long events = count > 1 ? atol(words[1]) : 0;
    for (int i = 1; i < DUTIES; i++)
        if (count == 3 && strcmp(words[2], duty_names[i]) == 0)
            broken = (enum duty)i;
    if (count < 2 || count > 3 || events < 1 || (count == 3 && broken == KEEPS_ALL)) {
        fprintf(stderr, "usage: growing_unit EVENTS [DUTY]\n");
        return 2;
    }
    make_units();
    for (long i = 0; i < events && harm == NULL; i++) {
        one_event();
        if (is_lost) {
            lost++;
            make_units();
        }
    }
    printf("%ld pairs of units: sent %ld, accepted %ld, refused %ld, repeated %ld, power cuts %ld, cells grown %ld and claimed %ld, numbers "
           "mended %ld, older software up %ld and stopped %ld, answers %ld, taken %ld, of which %ld moved a counter down\n", units, sent, accepted, refused, replays, cuts,
           grown, claimed, mended, rolled_back, stopped, answers, taken, went_down);
    printf("%s%s%s, units lost %ld\n", duty_names[broken], broken == KEEPS_ALL ? "" : ": ", harm != NULL ? harm : "no harm", lost);
    if (broken != KEEPS_ALL)
        return harm == NULL && lost > 0 ? 0 : 1;
    return harm == NULL && lost == 0 && grown > 0 && claimed > 0 && mended > 0 && taken > 0 && went_down > 0 && rolled_back > 0 && stopped == 0 ? 0 : 1;
}
