/*
 * Every status of the calls of rathonsi_store.h, each from one change of a store and a call that answer RATHONSI_OK; if two causes
 * stand together, the first that the header names. With each status but RATHONSI_OK it looks that nothing was written: image, plan,
 * route, PDU, reply and what is told are compared whole. Only an opening that fails closes its route. At the end: how far a reserve
 * reaches.
 */
#include <stdio.h>
#include <stdlib.h>
#include <string.h>

#include "open_by_hand.h"
#include "rathonsi_store.h"

enum { ROUTES = 2, SLOT = 4, SIZE = RATHONSI_STORE_SIZE(ROUTES), PAYLOAD = 8, PDU = PAYLOAD + RATHONSI_TRAILER };

static int calls;
static int failures;

/* All that the calls read and write; `before` is what it was. */
struct unit {
    uint8_t *image, *payload, *pdu;
    size_t image_length, payload_length, pdu_length;
    RathonsiRoute route;
    RathonsiPlan plan;
    RathonsiRequest request;
    RathonsiReply reply;
    RathonsiRouteState route_state;
    RathonsiSlotState slot_state;
    uint8_t booted;
    uint64_t freshness;
    int32_t verdict;
};

static const uint8_t uid[15] = {1};
static const uint8_t master[16] = {15, 14, 13, 12, 11, 10, 9, 8, 7, 6, 5, 4, 3, 2, 1, 0};
static const uint8_t key[16] = {0x2b, 0x7e, 0x15, 0x16, 0x28, 0xae, 0xd2, 0xa6, 0xab, 0xf7, 0x15, 0x88, 0x09, 0xcf, 0x4f, 0x3c};
static uint8_t made[SIZE]; /* a whole store, whose route 0 sends and whose route 1 receives, both with a bound of 4 */

static RathonsiRoute route_of(int which) {
    RathonsiRoute route;
    memset(&route, 0, sizeof route);
    route.data_id = (uint16_t)(0x1200 + which);
    route.cell = (uint16_t)(RATHONSI_SLOT_CELLS + (unsigned)which);
    route.reserve = 8;
    route.window = 16;
    route.slot = SLOT;
    route.direction = which == 0 ? RATHONSI_SENDS : RATHONSI_RECEIVES;
    open_by_hand(&route, 3); /* the counter is one below its bound */
    return route;
}

static RathonsiUpdate update_of(uint8_t slot, uint8_t auth, const uint8_t *value, uint8_t flags, uint32_t counter) {
    RathonsiUpdate update;
    memset(&update, 0, sizeof update);
    memcpy(update.uid, uid, sizeof uid);
    memcpy(update.key, value, 16);
    update.id = slot;
    update.auth = auth;
    update.flags = flags;
    update.counter = counter;
    return update;
}

static void expect(int32_t status, int32_t wanted, const char *what) {
    calls++;
    if (status != wanted) {
        failures++;
        printf("%s: status %d, wanted %d\n", what, (int)status, (int)wanted);
    }
}

static void put_key(uint8_t *image, uint8_t slot, const uint8_t *value, uint8_t flags) {
    uint8_t empty[16];
    RathonsiUpdate update = update_of(slot, slot, value, flags, 1);
    RathonsiRequest request;
    RathonsiPlan plan;
    memset(empty, 0xff, sizeof empty);
    memset(&plan, 0, sizeof plan);
    expect(rathonsi_she_make_update(empty, sizeof empty, &update, &request), RATHONSI_OK, "a request");
    expect(rathonsi_slot_load(uid, 0, &request, image, SIZE, &plan), RATHONSI_OK, "a first key");
    expect(rathonsi_store_done(image, SIZE, &plan), RATHONSI_OK, "done");
}

static uint8_t *copy_of(const uint8_t *bytes, size_t length) {
    uint8_t *copy = malloc(length + (length == 0));
    if (copy == NULL)
        exit(2);
    memcpy(copy, bytes, length);
    return copy;
}

/* A unit all of whose calls answer RATHONSI_OK. Of the slots 5 to 9 each has a key, with flags of its own. */
static struct unit unit_of(int which) {
    struct unit unit;
    static const uint8_t zeros[PDU] = {0};
    RathonsiUpdate update = update_of(SLOT, 1, key, RATHONSI_KEY_USAGE, 2);
    memset(&unit, 0, sizeof unit);
    unit.image_length = SIZE;
    unit.image = copy_of(made, SIZE);
    unit.payload_length = PAYLOAD;
    unit.payload = copy_of(zeros, PAYLOAD);
    unit.pdu_length = PDU;
    unit.pdu = copy_of(zeros, PDU);
    unit.route = route_of(which);
    unit.freshness = 4;
    unit.verdict = RATHONSI_RESERVE;
    expect(rathonsi_she_make_update(master, 16, &update, &unit.request), RATHONSI_OK, "a request");
    if (which == 1)
        expect(rathonsi_secoc_protect(key, 16, unit.route.data_id, 4, unit.payload, PAYLOAD, unit.pdu, PDU), RATHONSI_OK, "a PDU");
    return unit;
}

enum call { OPEN, RESERVE, RESERVE_NEXT, RESERVE_FOR, RESERVE_AHEAD, ADVANCE, SEND, RECEIVE, LOAD, CONFIRM, DONE, CHECK, MAKE, ROUTE_MAKE, ROUTE_STATE, SLOT_STATE, CALLS };
static const char *const names[CALLS] = {"open", "reserve", "reserve_next", "reserve_for", "reserve_ahead", "advance", "send", "receive", "load", "confirm", "done", "check", "make", "route_make",
                                         "route_state", "slot_state"};

static int32_t call_on(struct unit *unit, enum call call) {
    RathonsiVerdict verdict;
    switch (call) {
    case OPEN: return rathonsi_route_open(&unit->route, unit->image, unit->image_length);
    case RESERVE: return rathonsi_route_reserve(&unit->route, unit->freshness, unit->image, unit->image_length, &unit->plan);
    case RESERVE_NEXT: return rathonsi_route_reserve_next(&unit->route, unit->image, unit->image_length, &unit->plan);
    case RESERVE_FOR:
        verdict.status = unit->verdict;
        verdict.payload_length = 0;
        verdict.freshness = unit->freshness;
        return rathonsi_route_reserve_for(&unit->route, &verdict, unit->image, unit->image_length, &unit->plan);
    case RESERVE_AHEAD: return rathonsi_route_reserve_ahead(&unit->route, 2, unit->image, unit->image_length, &unit->plan);
    case ADVANCE: return rathonsi_route_advance(&unit->route, unit->freshness, unit->image, unit->image_length, &unit->plan);
    case SEND:
        return rathonsi_route_send(&unit->route, unit->image, unit->image_length, unit->payload, unit->payload_length, unit->pdu,
                                   unit->pdu_length);
    case RECEIVE:
        verdict = rathonsi_route_receive(&unit->route, unit->image, unit->image_length, unit->pdu, unit->pdu_length);
        if (verdict.payload_length != (verdict.status == RATHONSI_OK ? unit->pdu_length - RATHONSI_TRAILER : 0))
            failures++;
        if ((verdict.freshness != 0) != (verdict.status == RATHONSI_OK || verdict.status == RATHONSI_RESERVE))
            failures++;
        return verdict.status;
    case LOAD: return rathonsi_slot_load(uid, unit->booted, &unit->request, unit->image, unit->image_length, &unit->plan);
    case CONFIRM: return rathonsi_slot_confirm(uid, unit->request.m1, unit->image, unit->image_length, &unit->reply);
    case DONE: return rathonsi_store_done(unit->image, unit->image_length, &unit->plan);
    case CHECK: return rathonsi_store_check(unit->image, unit->image_length);
    case MAKE: return rathonsi_store_make(unit->image, unit->image_length);
    case ROUTE_MAKE: return rathonsi_route_make(&unit->route, 4, unit->image, unit->image_length);
    case ROUTE_STATE: return rathonsi_route_state(&unit->route, unit->image, unit->image_length, &unit->route_state);
    default: return rathonsi_slot_state(unit->route.slot, unit->image, unit->image_length, &unit->slot_state);
    }
}

/* ---- What is changed ---- */

static void gates_closed(struct unit *unit, unsigned cell) {
    unit->image[32 + 68 * cell] = 0;
    unit->image[66 + 68 * cell] = 0;
}
static void nothing(struct unit *unit) { (void)unit; }
static void no_payload(struct unit *unit) { unit->payload_length = 0; }
static void long_payload(struct unit *unit) {
    free(unit->payload);
    free(unit->pdu);
    unit->payload = calloc(1, 61);
    unit->pdu = calloc(1, 65);
    if (unit->payload == NULL || unit->pdu == NULL)
        exit(2);
    unit->payload_length = 61;
    unit->pdu_length = 65;
}
static void short_pdu(struct unit *unit) { unit->pdu_length = unit->payload_length + 3; }
static void four_bytes(struct unit *unit) { unit->pdu_length = 4; }
static void low_cell(struct unit *unit) { unit->route.cell = 13; }
static void far_cell(struct unit *unit) { unit->route.cell = RATHONSI_SLOT_CELLS + ROUTES; }
static void next_cell(struct unit *unit) { unit->route.cell++; }
static void cell_before(struct unit *unit) { unit->route.cell--; }
static void next_cell_other_direction(struct unit *unit) {
    unit->route.cell++;
    unit->route.direction ^= 3;
}
static void no_reserve(struct unit *unit) { unit->route.reserve = 0; }
static void long_reserve(struct unit *unit) { unit->route.reserve = 129; }
static void no_window(struct unit *unit) { unit->route.window = 0; }
static void long_window(struct unit *unit) { unit->route.window = 257; }
static void low_slot(struct unit *unit) { unit->route.slot = 3; }
static void high_slot(struct unit *unit) { unit->route.slot = 14; }
static void third_direction(struct unit *unit) { unit->route.direction = 3; }
static void other_direction(struct unit *unit) { unit->route.direction ^= 3; }
static void booted_twice(struct unit *unit) { unit->route.booted = unit->booted = 2; }
static void damaged_bound(struct unit *unit) { gates_closed(unit, unit->route.cell); }
static void damaged_slot(struct unit *unit) { gates_closed(unit, SLOT); }
static void damaged_authority(struct unit *unit) { gates_closed(unit, 1); }
static void four_cells(struct unit *unit) { unit->image_length = 32 + 68 * 4; }
static void damaged_last_slot(struct unit *unit) { gates_closed(unit, 13); }
static void other_id(struct unit *unit) {
    unit->route.data_id++;
    open_by_hand(&unit->route, 3);
}
static void id_by_hand(struct unit *unit) { unit->route.data_id++; }
static void counter_by_hand(struct unit *unit) { unit->route.counter = 0; }
static void by_chance(struct unit *unit) { /* opened is 1, and nothing else was written by an opening */
    memset(unit->route.check, 0, sizeof unit->route.check);
}
static void short_image(struct unit *unit) { unit->image_length = RATHONSI_STORE_SIZE(0) + 67; }
static void shorter_image(struct unit *unit) { unit->image_length = 32 + 68 * 13; }
static void odd_image(struct unit *unit) { unit->image_length = SIZE - 1; }
static void other_header(struct unit *unit) { unit->image[0] = 's'; }
static void other_count(struct unit *unit) { unit->image[11]++; }
static void empty_slot(struct unit *unit) { unit->route.slot = 13; }
static void cipher_slot(struct unit *unit) { unit->route.slot = 5; }
static void boot_slot(struct unit *unit) { unit->route.slot = 6; }
static void boot_and_booted(struct unit *unit) {
    unit->route.slot = 6;
    unit->route.booted = 1;
}
static void last_counter(struct unit *unit) { open_by_hand(&unit->route, UINT64_MAX); }
static void counter_at_bound(struct unit *unit) { open_by_hand(&unit->route, 4); }
static void empty_and_last(struct unit *unit) {
    empty_slot(unit);
    last_counter(unit);
}
static void busy(struct unit *unit) { unit->plan.writes[2].length = 1; }
static void busy_and_wrong(struct unit *unit) {
    busy(unit);
    low_cell(unit);
    booted_twice(unit);
}
static void not_open(struct unit *unit) { unit->route.opened = 0; }
static void open_twice(struct unit *unit) { unit->route.opened = 3; }
static void mark_by_hand(struct unit *unit) { unit->route.opened = 1; }
static void before_the_last(struct unit *unit) { unit->freshness = UINT64_MAX - 8; }
static void no_place(struct unit *unit) { unit->freshness = UINT64_MAX - 7; }
static void last_freshness(struct unit *unit) { unit->freshness = UINT64_MAX; }
static void farthest(struct unit *unit) { unit->freshness = 4 + 256; }
static void too_far(struct unit *unit) { unit->freshness = 4 + 257; }
static void never_made(struct unit *unit) { memset(unit->image + 32 + 68 * unit->route.cell + 2, 0, 32); }
static void far_ahead(struct unit *unit) {
    expect(rathonsi_secoc_protect(key, 16, unit->route.data_id, 3 + 17, unit->payload, PAYLOAD, unit->pdu, PDU), RATHONSI_OK, "a PDU");
}
static void above_bound(struct unit *unit) {
    expect(rathonsi_secoc_protect(key, 16, unit->route.data_id, 5, unit->payload, PAYLOAD, unit->pdu, PDU), RATHONSI_OK, "a PDU");
}
static void other_tag(struct unit *unit) { unit->pdu[PDU - 1] ^= 1; }
static void above_bound_other_tag(struct unit *unit) {
    above_bound(unit);
    other_tag(unit);
}
static void request_of(struct unit *unit, uint8_t slot, uint8_t auth, const uint8_t *authkey, uint32_t counter) {
    RathonsiUpdate update = update_of(slot, auth, key, RATHONSI_KEY_USAGE, counter);
    expect(rathonsi_she_make_update(authkey, 16, &update, &unit->request), RATHONSI_OK, "a request");
}
static void no_pair(struct unit *unit) { request_of(unit, SLOT, 5, key, 2); }
static void protected_slot(struct unit *unit) { request_of(unit, 7, 1, master, 2); }
static void empty_authority(struct unit *unit) { request_of(unit, 3, 2, master, 2); }
static void boot_authority(struct unit *unit) { request_of(unit, 6, 6, key, 2); }
static void same_counter(struct unit *unit) { request_of(unit, SLOT, 1, master, 1); }
static void other_m3(struct unit *unit) { unit->request.m3[0] ^= 1; }
static void no_slots(struct unit *unit) { unit->request.m1[15] = 0xe1; }
static void empty_target(struct unit *unit) { unit->request.m1[15] = 0xd1; }
static void beyond(struct unit *unit) {
    unit->plan.writes[1].offset = SIZE - 3;
    unit->plan.writes[1].length = 4;
}
static void too_many(struct unit *unit) { unit->plan.writes[0].length = 41; }

/* The first plan of several, each done but perhaps the first. */
static RathonsiPlan first_plan(struct unit *unit, enum call call, int plans, int first_is_done) {
    RathonsiPlan first = unit->plan;
    for (int i = 0; i < plans; i++) {
        unit->freshness = 6 + 20u * (unsigned)i;
        if (call == LOAD)
            request_of(unit, SLOT, 1, master, 2 + (uint32_t)i);
        expect(call_on(unit, call), RATHONSI_OK, "a plan before an old one");
        if (i == 0)
            first = unit->plan;
        if (i == 0 && !first_is_done)
            memset(&unit->plan, 0, sizeof unit->plan);
        else
            expect(call_on(unit, DONE), RATHONSI_OK, "done before an old one");
    }
    return first;
}

static void same_bound(struct unit *unit) { unit->plan = first_plan(unit, RESERVE, 1, 1); }
static void old_bound(struct unit *unit) { unit->plan = first_plan(unit, RESERVE, 3, 1); }
static void dropped_bound(struct unit *unit) { unit->plan = first_plan(unit, RESERVE, 2, 0); }
static void same_key(struct unit *unit) { unit->plan = first_plan(unit, LOAD, 1, 1); }
static void old_key(struct unit *unit) { unit->plan = first_plan(unit, LOAD, 3, 1); }
static void dropped_key(struct unit *unit) { unit->plan = first_plan(unit, LOAD, 2, 0); }
static void gate_of(struct unit *unit, uint32_t offset) { /* of a cell whose second copy has the bound that was put last */
    first_plan(unit, RESERVE, 1, 1);
    unit->plan.writes[2].offset = offset + 68 * 14;
    unit->plan.writes[2].length = 1;
}
static void closed_gate(struct unit *unit) { gate_of(unit, 66); }
static void other_gate(struct unit *unit) { gate_of(unit, 32); }
static void no_header(struct unit *unit) {
    closed_gate(unit);
    unit->image[0] ^= 1;
}
static void over_two_cells(struct unit *unit) {
    first_plan(unit, RESERVE, 1, 1);
    unit->plan.writes[0].offset = 70 + 68 * 14;
    unit->plan.writes[0].length = 40;
}
static void bytes_alone(struct unit *unit) { /* a plan is empty by its lengths */
    for (int i = 0; i < 3; i++) {
        unit->plan.writes[i].offset = 77;
        unit->plan.writes[i].bytes[39 - i] = 7;
    }
}
static void busy_and_closed(struct unit *unit) {
    unit->plan.writes[1].length = 1;
    unit->route.opened = 0;
}
static void counter_far_above(struct unit *unit) { open_by_hand(&unit->route, 4 + 256); }
static void counter_above(struct unit *unit) { open_by_hand(&unit->route, 4 + 255); }
static void freshness_far_above(struct unit *unit) { unit->freshness = 4 + 257; }
static void reserve_of_one(struct unit *unit) { unit->route.reserve = 1; }
static void accepted(struct unit *unit) { unit->verdict = RATHONSI_OK; }
static void two_left(struct unit *unit) { open_by_hand(&unit->route, 2); }
static void over_the_header(struct unit *unit) { unit->plan.writes[0].length = 32; }

static const struct {
    enum call call;
    int route;
    void (*change)(struct unit *unit);
    int32_t status;
    const char *what;
} rows[] = {
    {OPEN, 0, nothing, RATHONSI_OK, "sends"},
    {OPEN, 1, nothing, RATHONSI_OK, "receives"},
    {OPEN, 0, low_cell, RATHONSI_BAD_VALUE, "cell 13"},
    {OPEN, 0, no_reserve, RATHONSI_BAD_VALUE, "reserve 0"},
    {OPEN, 0, long_reserve, RATHONSI_BAD_VALUE, "reserve 129"},
    {OPEN, 0, no_window, RATHONSI_BAD_VALUE, "window 0"},
    {OPEN, 0, long_window, RATHONSI_BAD_VALUE, "window 257"},
    {OPEN, 0, low_slot, RATHONSI_BAD_VALUE, "slot 3"},
    {OPEN, 0, high_slot, RATHONSI_BAD_VALUE, "slot 14"},
    {OPEN, 0, third_direction, RATHONSI_BAD_VALUE, "direction 3"},
    {OPEN, 0, booted_twice, RATHONSI_BAD_VALUE, "booted 2"},
    {OPEN, 0, other_direction, RATHONSI_WRONG_CELL, "the other direction"},
    {OPEN, 0, other_id, RATHONSI_WRONG_CELL, "another Data ID"},
    {OPEN, 0, far_cell, RATHONSI_WRONG_CELL, "a cell behind the last"},
    {OPEN, 0, damaged_bound, RATHONSI_DAMAGED, "a damaged cell"},
    {OPEN, 0, short_image, RATHONSI_WRONG_CELL, "an image that ends within the cell"},
    {OPEN, 0, never_made, RATHONSI_WRONG_CELL, "a cell of zero bytes"},
    {OPEN, 0, not_open, RATHONSI_OK, "a route that isn't open"},
    {RESERVE, 0, nothing, RATHONSI_OK, "a bound"},
    {RESERVE, 0, busy, RATHONSI_BUSY, "a plan"},
    {RESERVE, 0, busy_and_wrong, RATHONSI_BUSY, "a plan and cell 13"},
    {RESERVE, 0, low_cell, RATHONSI_BAD_VALUE, "cell 13"},
    {RESERVE, 0, not_open, RATHONSI_BAD_VALUE, "a route that isn't open"},
    {RESERVE, 0, other_id, RATHONSI_WRONG_CELL, "another Data ID"},
    {RESERVE, 0, damaged_bound, RATHONSI_DAMAGED, "a damaged cell"},
    {RESERVE, 0, farthest, RATHONSI_OK, "256 above the bound"},
    {RESERVE, 0, too_far, RATHONSI_BAD_VALUE, "257 above the bound"},
    {RESERVE_NEXT, 0, nothing, RATHONSI_OK, "a sender"},
    {RESERVE_NEXT, 0, busy_and_closed, RATHONSI_BUSY, "a plan, and a route that isn't open"},
    {RESERVE_NEXT, 0, not_open, RATHONSI_BAD_VALUE, "a route that isn't open"},
    {RESERVE_NEXT, 1, nothing, RATHONSI_BAD_VALUE, "a route that receives"},
    {RESERVE_NEXT, 0, other_id, RATHONSI_WRONG_CELL, "another Data ID"},
    {RESERVE_NEXT, 0, damaged_bound, RATHONSI_DAMAGED, "a damaged cell"},
    {RESERVE_NEXT, 0, last_counter, RATHONSI_EXHAUSTED, "the last counter"},
    {RESERVE_NEXT, 0, counter_far_above, RATHONSI_BAD_VALUE, "a counter 256 above the bound"},
    {RESERVE_NEXT, 0, counter_above, RATHONSI_OK, "a counter 255 above the bound"},
    {RESERVE_NEXT, 0, reserve_of_one, RATHONSI_COVERED, "a bound that covers it"},
    {RESERVE_FOR, 1, nothing, RATHONSI_OK, "a receiver"},
    {RESERVE_FOR, 1, busy_and_closed, RATHONSI_BUSY, "a plan, and a route that isn't open"},
    {RESERVE_FOR, 1, accepted, RATHONSI_BAD_VALUE, "a PDU that was accepted"},
    {RESERVE_FOR, 1, not_open, RATHONSI_BAD_VALUE, "a route that isn't open"},
    {RESERVE_FOR, 0, nothing, RATHONSI_BAD_VALUE, "a route that sends"},
    {RESERVE_FOR, 1, other_id, RATHONSI_WRONG_CELL, "another Data ID"},
    {RESERVE_FOR, 1, damaged_bound, RATHONSI_DAMAGED, "a damaged cell"},
    {RESERVE_FOR, 1, freshness_far_above, RATHONSI_BAD_VALUE, "a freshness 257 above the bound"},
    {RESERVE_FOR, 1, reserve_of_one, RATHONSI_COVERED, "a bound that covers it"},
    {RESERVE_AHEAD, 0, nothing, RATHONSI_OK, "one is left"},
    {RESERVE_AHEAD, 1, counter_above, RATHONSI_OK, "none is left"},
    {RESERVE_AHEAD, 0, busy_and_closed, RATHONSI_BUSY, "a plan, and a route that isn't open"},
    {RESERVE_AHEAD, 0, not_open, RATHONSI_BAD_VALUE, "a route that isn't open"},
    {RESERVE_AHEAD, 0, other_id, RATHONSI_WRONG_CELL, "another Data ID"},
    {RESERVE_AHEAD, 0, damaged_bound, RATHONSI_DAMAGED, "a damaged cell"},
    {RESERVE_AHEAD, 0, two_left, RATHONSI_COVERED, "two are left"},
    {ADVANCE, 0, too_far, RATHONSI_OK, "257 above the bound"},
    {ADVANCE, 0, busy_and_wrong, RATHONSI_BUSY, "a plan and cell 13"},
    {ADVANCE, 0, low_cell, RATHONSI_BAD_VALUE, "cell 13"},
    {ADVANCE, 0, not_open, RATHONSI_BAD_VALUE, "a route that isn't open"},
    {ADVANCE, 0, other_id, RATHONSI_WRONG_CELL, "another Data ID"},
    {ADVANCE, 0, damaged_bound, RATHONSI_DAMAGED, "a damaged cell"},
    {ADVANCE, 0, before_the_last, RATHONSI_OK, "one freshness left above the bound"},
    {ADVANCE, 0, no_place, RATHONSI_EXHAUSTED, "none left"},
    {ADVANCE, 0, last_freshness, RATHONSI_EXHAUSTED, "the last freshness"},
    {ADVANCE, 1, last_freshness, RATHONSI_EXHAUSTED, "the last freshness of a receiver"},
    {RESERVE, 0, counter_by_hand, RATHONSI_BAD_VALUE, "a counter that was set by hand"},
    {RESERVE_NEXT, 0, counter_by_hand, RATHONSI_BAD_VALUE, "a counter that was set by hand"},
    {RESERVE_FOR, 1, counter_by_hand, RATHONSI_BAD_VALUE, "a counter that was set by hand"},
    {RESERVE_AHEAD, 0, counter_by_hand, RATHONSI_BAD_VALUE, "a counter that was set by hand"},
    {ADVANCE, 0, counter_by_hand, RATHONSI_BAD_VALUE, "a counter that was set by hand"},
    {SEND, 0, counter_by_hand, RATHONSI_BAD_VALUE, "a counter that was set by hand"},
    {SEND, 0, id_by_hand, RATHONSI_BAD_VALUE, "another Data ID after the opening"},
    {SEND, 0, by_chance, RATHONSI_BAD_VALUE, "opened without a check value"},
    {RECEIVE, 1, counter_by_hand, RATHONSI_BAD_VALUE, "a counter that was set by hand"},
    {RECEIVE, 1, by_chance, RATHONSI_BAD_VALUE, "opened without a check value"},
    {SEND, 0, nothing, RATHONSI_OK, "a payload"},
    {SEND, 0, no_payload, RATHONSI_BAD_LENGTH, "no payload"},
    {SEND, 0, long_payload, RATHONSI_BAD_LENGTH, "61 bytes"},
    {SEND, 0, short_pdu, RATHONSI_BAD_LENGTH, "a buffer of 11 bytes"},
    {SEND, 0, low_cell, RATHONSI_BAD_VALUE, "cell 13"},
    {SEND, 1, nothing, RATHONSI_BAD_VALUE, "a route that receives"},
    {SEND, 0, not_open, RATHONSI_BAD_VALUE, "a route that isn't open"},
    {SEND, 0, open_twice, RATHONSI_BAD_VALUE, "opened 3"},
    {SEND, 0, mark_by_hand, RATHONSI_BAD_VALUE, "a mark that was set by hand"},
    {SEND, 0, other_id, RATHONSI_WRONG_CELL, "another Data ID"},
    {SEND, 0, damaged_bound, RATHONSI_DAMAGED, "a damaged bound"},
    {SEND, 0, damaged_slot, RATHONSI_DAMAGED, "a damaged slot"},
    {SEND, 0, empty_slot, RATHONSI_KEY_EMPTY, "an empty slot"},
    {SEND, 0, cipher_slot, RATHONSI_KEY_INVALID, "a key for ciphers"},
    {SEND, 0, boot_slot, RATHONSI_KEY_NOT_AVAILABLE, "a key behind the boot"},
    {SEND, 0, boot_and_booted, RATHONSI_OK, "the same after a boot"},
    {SEND, 0, empty_and_last, RATHONSI_KEY_EMPTY, "an empty slot and the last counter"},
    {SEND, 0, last_counter, RATHONSI_EXHAUSTED, "the last counter"},
    {SEND, 0, counter_at_bound, RATHONSI_RESERVE, "a counter at its bound"},
    {RECEIVE, 1, nothing, RATHONSI_OK, "a PDU"},
    {RECEIVE, 1, four_bytes, RATHONSI_BAD_LENGTH, "four bytes"},
    {RECEIVE, 0, nothing, RATHONSI_BAD_VALUE, "a route that sends"},
    {RECEIVE, 1, not_open, RATHONSI_BAD_VALUE, "a route that isn't open"},
    {RECEIVE, 1, other_id, RATHONSI_WRONG_CELL, "another Data ID"},
    {RECEIVE, 1, damaged_bound, RATHONSI_DAMAGED, "a damaged bound"},
    {RECEIVE, 1, damaged_slot, RATHONSI_DAMAGED, "a damaged slot"},
    {RECEIVE, 1, empty_slot, RATHONSI_KEY_EMPTY, "an empty slot"},
    {RECEIVE, 1, cipher_slot, RATHONSI_KEY_INVALID, "a key for ciphers"},
    {RECEIVE, 1, boot_slot, RATHONSI_KEY_NOT_AVAILABLE, "a key behind the boot"},
    {RECEIVE, 1, far_ahead, RATHONSI_FRESHNESS_FAILURE, "beyond the window"},
    {RECEIVE, 1, counter_at_bound, RATHONSI_FRESHNESS_FAILURE, "the freshness of the counter"},
    {RECEIVE, 1, other_tag, RATHONSI_VERIFICATION_FAILURE, "another authenticator"},
    {RECEIVE, 1, above_bound_other_tag, RATHONSI_VERIFICATION_FAILURE, "another authenticator above the bound"},
    {RECEIVE, 1, above_bound, RATHONSI_RESERVE, "a freshness above the bound"},
    {LOAD, 0, nothing, RATHONSI_OK, "an update"},
    {LOAD, 0, busy_and_wrong, RATHONSI_BUSY, "a plan, and booted 2"},
    {LOAD, 0, booted_twice, RATHONSI_BAD_VALUE, "booted 2"},
    {LOAD, 0, damaged_slot, RATHONSI_DAMAGED, "a damaged slot"},
    {LOAD, 0, damaged_authority, RATHONSI_DAMAGED, "a damaged authorising slot"},
    {LOAD, 0, damaged_last_slot, RATHONSI_OK, "another slot that is damaged"},
    {LOAD, 0, four_cells, RATHONSI_DAMAGED, "an image without its slot"},
    {LOAD, 0, no_slots, RATHONSI_KEY_INVALID, "ID 14"},
    {LOAD, 0, no_pair, RATHONSI_KEY_INVALID, "no pair of slots"},
    {LOAD, 0, protected_slot, RATHONSI_KEY_WRITE_PROTECTED, "a protected slot"},
    {LOAD, 0, empty_authority, RATHONSI_KEY_EMPTY, "an empty authorising slot"},
    {LOAD, 0, boot_authority, RATHONSI_KEY_NOT_AVAILABLE, "an authorising key behind the boot"},
    {LOAD, 0, same_counter, RATHONSI_KEY_UPDATE_ERROR, "the same counter"},
    {LOAD, 0, other_m3, RATHONSI_KEY_UPDATE_ERROR, "another M3"},
    {CONFIRM, 0, nothing, RATHONSI_OK, "a key"},
    {CONFIRM, 0, no_slots, RATHONSI_BAD_ID, "ID 14"},
    {CONFIRM, 0, damaged_slot, RATHONSI_DAMAGED, "a damaged slot"},
    {CONFIRM, 0, empty_target, RATHONSI_KEY_EMPTY, "an empty slot"},
    {DONE, 0, nothing, RATHONSI_OK, "an empty plan"},
    {DONE, 0, beyond, RATHONSI_BAD_VALUE, "a write beyond the image"},
    {DONE, 0, too_many, RATHONSI_BAD_VALUE, "a write of 41 bytes"},
    {RESERVE, 0, bytes_alone, RATHONSI_OK, "an empty plan with bytes"},
    {ADVANCE, 0, bytes_alone, RATHONSI_OK, "an empty plan with bytes"},
    {LOAD, 0, bytes_alone, RATHONSI_OK, "an empty plan with bytes"},
    {DONE, 0, bytes_alone, RATHONSI_OK, "an empty plan with bytes"},
    {DONE, 0, same_bound, RATHONSI_OK, "the plan of a bound again"},
    {DONE, 0, old_bound, RATHONSI_STALE_PLAN, "the plan of a lower bound"},
    {DONE, 0, dropped_bound, RATHONSI_STALE_PLAN, "a plan that was dropped, of a lower bound"},
    {DONE, 0, same_key, RATHONSI_OK, "the plan of a key again"},
    {DONE, 0, old_key, RATHONSI_STALE_PLAN, "the plan of an older key"},
    {DONE, 0, dropped_key, RATHONSI_STALE_PLAN, "a plan that was dropped, of an older key"},
    {DONE, 0, closed_gate, RATHONSI_STALE_PLAN, "a plan that closes the gate of the copy that counts"},
    {DONE, 0, other_gate, RATHONSI_OK, "a plan that closes the other gate"},
    {DONE, 0, no_header, RATHONSI_OK, "the first without a header"},
    {DONE, 0, over_two_cells, RATHONSI_STALE_PLAN, "a plan over the end of a cell"},
    {DONE, 0, over_the_header, RATHONSI_OK, "a plan over the header alone"},
    {CHECK, 0, nothing, RATHONSI_OK, "a store"},
    {CHECK, 0, odd_image, RATHONSI_BAD_LENGTH, "a byte less"},
    {CHECK, 0, other_header, RATHONSI_NO_STORE, "another header"},
    {CHECK, 0, other_count, RATHONSI_NO_STORE, "the header of a longer store"},
    {CHECK, 0, damaged_bound, RATHONSI_DAMAGED, "a damaged cell"},
    {MAKE, 0, nothing, RATHONSI_OK, "a store"},
    {MAKE, 0, odd_image, RATHONSI_BAD_LENGTH, "a byte less"},
    {MAKE, 0, shorter_image, RATHONSI_BAD_LENGTH, "no room for fourteen slots"},
    {ROUTE_MAKE, 0, nothing, RATHONSI_OK, "a bound"},
    {ROUTE_MAKE, 0, odd_image, RATHONSI_BAD_LENGTH, "a byte less"},
    {ROUTE_MAKE, 0, far_cell, RATHONSI_BAD_VALUE, "a cell behind the last"},
    {ROUTE_MAKE, 0, low_slot, RATHONSI_BAD_VALUE, "slot 3"},
    {ROUTE_MAKE, 0, next_cell, RATHONSI_DUPLICATE_ID, "a Data ID that another cell has"},
    {ROUTE_MAKE, 1, cell_before, RATHONSI_DUPLICATE_ID, "a Data ID that a later cell has"},
    {ROUTE_MAKE, 0, next_cell_other_direction, RATHONSI_OK, "its other direction"},
    {ROUTE_STATE, 0, not_open, RATHONSI_OK, "a route that isn't open"},
    {ROUTE_STATE, 0, low_slot, RATHONSI_BAD_VALUE, "slot 3"},
    {ROUTE_STATE, 0, other_id, RATHONSI_WRONG_CELL, "another Data ID"},
    {ROUTE_STATE, 0, damaged_bound, RATHONSI_DAMAGED, "a damaged cell"},
    {SLOT_STATE, 0, nothing, RATHONSI_OK, "a key"},
    {SLOT_STATE, 0, empty_slot, RATHONSI_OK, "an empty slot"},
    {SLOT_STATE, 0, high_slot, RATHONSI_BAD_VALUE, "slot 14"},
    {SLOT_STATE, 0, damaged_slot, RATHONSI_DAMAGED, "a damaged slot"},
};

/* From a bound of 4 on, a reserve of 8 from the freshness 6 on covers all up to 13, and no more. */
static void reserve_reaches(void) {
    struct unit unit = unit_of(0);
    counter_at_bound(&unit);
    unit.freshness = 6;
    expect(call_on(&unit, SEND), RATHONSI_RESERVE, "send: a counter at its bound");
    expect(call_on(&unit, RESERVE), RATHONSI_OK, "reserve: 6 and seven more");
    expect(call_on(&unit, DONE), RATHONSI_OK, "done: the plan of a bound");
    for (uint64_t freshness = 5; freshness <= 13; freshness++) {
        expect(call_on(&unit, SEND), RATHONSI_OK, "send: a freshness that is reserved");
        expect(unit.route.counter == freshness, 1, "send: its counter");
    }
    expect(call_on(&unit, SEND), RATHONSI_RESERVE, "send: behind the reserve");
    expect(unit.route.counter == 13, 1, "send: the counter stays");
    free(unit.image);
    free(unit.payload);
    free(unit.pdu);
}

int main(void) {
    expect(sizeof(RathonsiWrite), 48, "a write has no padding");
    expect(sizeof(RathonsiPlan), 144, "a plan has no padding");
    expect(sizeof(RathonsiRoute), 24, "a route has no padding");
    expect(sizeof(RathonsiRouteState), 16, "what is told of a route has no padding");
    expect(sizeof(RathonsiSlotState), 8, "what is told of a slot has no padding");
    expect((int32_t)rathonsi_version(), RATHONSI_VERSION, "the version of header and library");
    expect(rathonsi_store_make(made, SIZE), RATHONSI_OK, "make");
    for (int i = 0; i < ROUTES; i++) {
        RathonsiRoute route = route_of(i);
        expect(rathonsi_route_make(&route, 4, made, SIZE), RATHONSI_OK, "route_make");
    }
    put_key(made, 1, master, 0);
    put_key(made, SLOT, key, RATHONSI_KEY_USAGE);
    put_key(made, 5, key, 0);
    put_key(made, 6, key, RATHONSI_KEY_USAGE | RATHONSI_BOOT_PROTECTION);
    put_key(made, 7, key, RATHONSI_KEY_USAGE | RATHONSI_WRITE_PROTECTION);
    for (size_t i = 0; i < sizeof rows / sizeof rows[0]; i++) {
        struct unit unit = unit_of(rows[i].route);
        rows[i].change(&unit);
        struct unit before = unit;
        uint8_t *image = copy_of(unit.image, SIZE);
        uint8_t *pdu = copy_of(unit.pdu, unit.pdu_length);
        char what[80];
        snprintf(what, sizeof what, "%s: %s", names[rows[i].call], rows[i].what);
        int32_t status = call_on(&unit, rows[i].call);
        expect(status, rows[i].status, what);
        if (rows[i].call == OPEN)
            before.route.opened = 0; /* an opening that fails closes the route */
        if (status != RATHONSI_OK
            && (memcmp(&before, &unit, sizeof unit) != 0 || memcmp(image, unit.image, SIZE) != 0
                || memcmp(pdu, unit.pdu, unit.pdu_length) != 0)) {
            failures++;
            printf("%s: something was written\n", what);
        }
        free(image);
        free(pdu);
        free(unit.image);
        free(unit.payload);
        free(unit.pdu);
    }
    reserve_reaches();
    printf("%d calls, %d failures\n", calls, failures);
    return failures != 0;
}
