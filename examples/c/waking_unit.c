/*
 * A unit that sends eight PDUs and wakes up: it reserves for all routes at once, so the first PDU of each goes out after three durable
 * steps, and not after three a route. Power goes within any step: several of its writes may be torn at once, others are done, others not
 * begun. No freshness may come twice, no cell may be damaged, and the device has to have what the image has.
 *
 *     waking_unit EVENTS [DUTY]     DUTY 1 is broken if it is named: the second and the third writes are made in one step. Then there has
 *                                   to be harm.
 */
#include <stdio.h>
#include <stdlib.h>
#include <string.h>

#include "rathonsi_store.h"

enum { ROUTES = 8, SLOT = 4, LEAST = 3, SIZE = RATHONSI_STORE_SIZE(ROUTES), PAYLOAD = 8, PDU = PAYLOAD + RATHONSI_TRAILER };

static uint8_t device[SIZE], image[SIZE];
static RathonsiPlan plans[ROUTES]; /* one a route */
static RathonsiRoute routes[ROUTES];

static uint64_t sent_last[ROUTES]; /* what the world has seen, which no power cut takes back */
static uint64_t events, sent, power_ups, cuts, torn, steps, first_steps;
static int is_mixed; /* with duty 1 */
static const char *harm;

static uint64_t draw(uint64_t below) {
    static uint64_t state = UINT64_C(88172645463325252);
    state ^= state << 13;
    state ^= state >> 7;
    state ^= state << 17;
    return state % below;
}

static void expect(int holds, const char *what) {
    if (!holds && harm == NULL)
        harm = what;
}

/* ---- Durable steps ---- */

/* A write of a step that is cut: it is done, isn't begun, or leaves anything in its own bytes. */
static void cut_write(const RathonsiWrite *write) {
    uint64_t what = draw(3);
    if (what == 0)
        memcpy(device + write->offset, write->bytes, write->length);
    if (what != 2)
        return;
    torn++;
    for (uint32_t i = 0; i < write->length; i++)
        if (draw(2) == 0)
            device[write->offset + i] = draw(2) == 0 ? write->bytes[i] : (uint8_t)draw(256);
}

/* These writes of all plans, in any order, and then the device makes them durable; 0 if power goes meanwhile. */
static int do_step(int first, int last) {
    uint64_t begin = draw(ROUTES);
    int is_cut = draw(25) == 0;
    steps++;
    for (int which = first; which <= last; which++)
        for (uint64_t i = 0; i < ROUTES; i++) {
            const RathonsiWrite *write = &plans[(begin + i) % ROUTES].writes[which];
            if (is_cut)
                cut_write(write);
            else
                memcpy(device + write->offset, write->bytes, write->length);
        }
    cuts += (uint64_t)is_cut;
    return !is_cut;
}

/* While a step is under way, a route sends what its bound still covers. */
static void send_one(uint64_t which) {
    static const uint8_t payload[PAYLOAD] = {1, 2, 3, 4, 5, 6, 7, 8};
    uint8_t pdu[PDU];
    RathonsiRoute *route = &routes[which];
    int32_t status = rathonsi_route_send(route, image, SIZE, payload, PAYLOAD, pdu, PDU);
    if (status == RATHONSI_RESERVE)
        return;
    expect(status == RATHONSI_OK && route->counter > sent_last[which], "a PDU isn't sent, or a freshness comes twice");
    sent_last[which] = route->counter;
    sent++;
}

/* All plans, in three steps; 0 if power goes. */
static int do_plans(void) {
    for (int which = 0; which < 3; which++) {
        int last = is_mixed && which == 1 ? 2 : which;
        if (!do_step(which, last))
            return 0;
        which = last;
        send_one(draw(ROUTES));
    }
    for (uint64_t i = 0, begin = draw(ROUTES); i < ROUTES; i++)
        expect(rathonsi_store_done(image, SIZE, &plans[(begin + i) % ROUTES]) == RATHONSI_OK, "a plan isn't done");
    expect(memcmp(image, device, SIZE) == 0, "the device has something else than the image");
    return 1;
}

/* Each route that has fewer left reserves, into a plan of its own. A plan of one that has enough stays empty. */
static void plan_all(void) {
    for (int i = 0; i < ROUTES; i++) {
        int32_t status = rathonsi_route_reserve_ahead(&routes[i], LEAST, image, SIZE, &plans[i]);
        expect(status == RATHONSI_OK || status == RATHONSI_COVERED, "no reserve");
    }
}

/* ---- A life ---- */

static void open_all(void) {
    uint32_t which = 0;
    power_ups++;
    memset(plans, 0, sizeof plans);
    memcpy(image, device, SIZE);
    for (int i = 0; i < ROUTES; i++)
        routes[i].opened = 0;
    expect(rathonsi_store_check(image, SIZE) == RATHONSI_OK, "a cell is damaged");
    expect(rathonsi_routes_open(routes, ROUTES, image, SIZE, &which) == RATHONSI_OK, "the routes don't open");
}

/* From a power-up to the first PDU of each route; 0 if power goes. */
static int wake_up(void) {
    uint64_t before = steps;
    open_all();
    plan_all();
    if (!do_plans())
        return 0;
    first_steps = steps - before;
    for (uint64_t i = 0; i < ROUTES; i++) {
        uint64_t last = sent_last[i];
        send_one(i);
        expect(sent_last[i] > last, "a first PDU isn't sent");
    }
    return 1;
}

static void live(void) {
    if (!wake_up())
        return;
    for (uint64_t left = draw(200); left > 0 && harm == NULL; left--) {
        send_one(draw(ROUTES));
        if (draw(10) == 0) {
            plan_all();
            if (!do_plans())
                return;
        }
    }
}

/* ---- The line ---- */

static void load_key(void) {
    static const uint8_t key[16] = {3, 1, 4, 1, 5, 9, 2, 6}, uid[15] = {7};
    uint8_t empty[16];
    RathonsiUpdate update;
    RathonsiRequest request;
    memset(empty, 0xff, sizeof empty);
    memset(&update, 0, sizeof update);
    memcpy(update.uid, uid, sizeof uid);
    memcpy(update.key, key, sizeof key);
    update.id = update.auth = SLOT;
    update.flags = RATHONSI_KEY_USAGE;
    update.counter = 1;
    expect(rathonsi_she_make_update(empty, 16, &update, &request) == RATHONSI_OK, "a request");
    expect(rathonsi_slot_load(uid, 0, &request, image, SIZE, &plans[0]) == RATHONSI_OK, "a key is loaded");
    expect(rathonsi_store_done(image, SIZE, &plans[0]) == RATHONSI_OK, "done");
}

static void make(void) {
    expect(rathonsi_store_make(image, SIZE) == RATHONSI_OK, "a store");
    for (int i = 0; i < ROUTES; i++) {
        RathonsiRoute *route = &routes[i];
        memset(route, 0, sizeof *route);
        route->data_id = (uint16_t)(0x120 + i);
        route->cell = (uint16_t)(RATHONSI_SLOT_CELLS + i);
        route->reserve = (uint16_t)(8u << (i % 4));
        route->window = 64;
        route->slot = SLOT;
        route->direction = RATHONSI_SENDS;
        expect(rathonsi_route_make(route, 0, image, SIZE) == RATHONSI_OK, "a route");
    }
    load_key();
    memcpy(device, image, SIZE);
}

int main(int count, char **words) {
    uint64_t most;
    if (count < 2) {
        puts("usage: waking_unit EVENTS [DUTY]");
        return 0;
    }
    most = strtoull(words[1], NULL, 10);
    is_mixed = count > 2 && strcmp(words[2], "1") == 0;
    make();
    while (sent + cuts < most && harm == NULL) {
        live();
        events++;
    }
    printf("lives %llu, power-ups %llu, PDUs %llu, power cuts %llu, torn writes %llu, durable steps until the first PDUs %llu\n", (unsigned long long)events,
           (unsigned long long)power_ups, (unsigned long long)sent, (unsigned long long)cuts, (unsigned long long)torn, (unsigned long long)first_steps);
    puts(harm == NULL ? "no harm" : harm);
    return (harm != NULL) != is_mixed;
}
