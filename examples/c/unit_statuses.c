/*
 * Every status of the calls that open all routes of a unit, look at its store, grow it, tell its size, answer and take a nonce, boot, take
 * a MAC in pieces, and send and receive in two steps. With each status but RATHONSI_OK it looks that nothing was written but what the
 * headers name.
 */
#include <stdio.h>
#include <string.h>

#include "open_by_hand.h"
#include "rathonsi_store.h"

enum { ROUTES = 2, SLOT = 4, SIZE = RATHONSI_STORE_SIZE(ROUTES), GROWN = SIZE + 68, ROOM = GROWN + 136, PAYLOAD = 8,
       PDU = PAYLOAD + RATHONSI_TRAILER };

static const uint8_t uid[15] = {1};
static const uint8_t master[16] = {15, 14, 13, 12, 11, 10, 9, 8, 7, 6, 5, 4, 3, 2, 1, 0};
static const uint8_t key[16] = {0x2b, 0x7e, 0x15, 0x16, 0x28, 0xae, 0xd2, 0xa6, 0xab, 0xf7, 0x15, 0x88, 0x09, 0xcf, 0x4f, 0x3c};
static RathonsiQuestion question = {7, 8, {1, 2, 3}};
static const uint8_t payload[PAYLOAD] = {9, 8, 7};
static uint8_t made[ROOM], image[ROOM];
static RathonsiRoute routes[ROUTES];
static RathonsiPlan plan, no_plan;
static int calls, failures;

static void expect(long found, long wanted, const char *what) {
    calls++;
    if (found != wanted) {
        failures++;
        printf("%s: %ld, wanted %ld\n", what, found, wanted);
    }
}

static void same(const void *a, const void *b, size_t length, const char *what) {
    expect(memcmp(a, b, length), 0, what);
}

static RathonsiRoute route_of(unsigned which) {
    RathonsiRoute route;
    memset(&route, 0, sizeof route);
    route.data_id = (uint16_t)(0x1200 + which);
    route.cell = (uint16_t)(RATHONSI_SLOT_CELLS + which);
    route.reserve = 8;
    route.window = 16;
    route.slot = SLOT;
    route.direction = which == 0 ? RATHONSI_SENDS : RATHONSI_RECEIVES;
    return route;
}

static void put_key(uint8_t slot, uint8_t auth, const uint8_t *authkey, const uint8_t *value, uint8_t flags) {
    RathonsiUpdate update;
    RathonsiRequest request;
    memset(&update, 0, sizeof update);
    memcpy(update.uid, uid, sizeof uid);
    memcpy(update.key, value, 16);
    update.id = slot;
    update.auth = auth;
    update.flags = flags;
    update.counter = 1;
    expect(rathonsi_she_make_update(authkey, 16, &update, &request), RATHONSI_OK, "a request");
    expect(rathonsi_slot_load(uid, 0, &request, image, SIZE, &plan), RATHONSI_OK, "a first key");
    expect(rathonsi_store_done(image, SIZE, &plan), RATHONSI_OK, "done");
}

/* The store as it was made, with routes that are open at a bound of 4. */
static void begin(void) {
    uint32_t which;
    memcpy(image, made, sizeof image);
    plan = no_plan;
    for (unsigned i = 0; i < ROUTES; i++)
        routes[i] = route_of(i);
    expect(rathonsi_routes_open(routes, ROUTES, image, SIZE, &which), RATHONSI_OK, "all routes open");
    for (unsigned i = 0; i < ROUTES; i++)
        open_by_hand(&routes[i], 3); /* as it was before its bound was reserved */
}

static void gates_closed(unsigned cell) {
    image[32 + 68 * cell] = 0;
    image[66 + 68 * cell] = 0;
}

/* ---- Opening, looking ---- */

static void opens(int32_t status, long named, const char *what) {
    uint32_t which = 77;
    RathonsiRoute before[ROUTES];
    memcpy(before, routes, sizeof routes);
    expect(rathonsi_routes_open(routes, ROUTES, image, SIZE, &which), status, what);
    expect((long)which, named, what);
    if (status != RATHONSI_OK)
        for (unsigned i = 0; i < ROUTES; i++)
            before[i].opened = 0;
    else
        memcpy(before, routes, sizeof routes);
    same(before, routes, sizeof routes, what);
}

static void open_all(void) {
    uint32_t which = 77;
    RathonsiInput input;
    begin();
    opens(RATHONSI_OK, 77, "open: all");
    expect(rathonsi_routes_open(routes, 0, image, SIZE, &which), RATHONSI_OK, "open: none");
    expect(rathonsi_routes_open(routes, 257, image, SIZE, &which), RATHONSI_BAD_LENGTH, "open: 257 routes");
    expect((long)which, 77, "open: nothing is named");
    routes[0].window = 0;
    expect(rathonsi_route_open(&routes[0], image, SIZE), RATHONSI_BAD_VALUE, "open: window 0");
    routes[0].window = 16;
    expect(rathonsi_send_input(&routes[0], image, SIZE, payload, PAYLOAD, &input), RATHONSI_BAD_VALUE, "open: it is closed then");
    begin();
    routes[1].reserve = 0;
    opens(RATHONSI_BAD_VALUE, 1, "open: reserve 0");
    expect(rathonsi_send_input(&routes[0], image, SIZE, payload, PAYLOAD, &input), RATHONSI_BAD_VALUE, "open: all are closed then");
    begin();
    routes[1].cell = routes[0].cell;
    opens(RATHONSI_BAD_VALUE, 1, "open: two of one cell");
    begin();
    routes[1].data_id = routes[0].data_id;
    routes[1].direction = routes[0].direction;
    opens(RATHONSI_BAD_VALUE, 1, "open: two of one Data ID and direction");
    begin();
    routes[0].data_id++;
    opens(RATHONSI_WRONG_CELL, 0, "open: another Data ID");
    begin();
    gates_closed(routes[1].cell);
    opens(RATHONSI_DAMAGED, 1, "open: a damaged cell");
}

static void looks(size_t length, int32_t status, long named, const char *what) {
    uint16_t cell = 77;
    expect(rathonsi_store_look(image, length, &cell), status, what);
    expect(cell, named, what);
}

static void look(void) {
    begin();
    looks(SIZE, RATHONSI_OK, 77, "look: a store");
    looks(SIZE - 1, RATHONSI_BAD_LENGTH, 77, "look: a byte less");
    looks(SIZE - 68, RATHONSI_NO_STORE, 77, "look: a cell less");
    image[32 + 68 * 9 + 2] = 3;
    looks(SIZE, RATHONSI_WRONG_CELL, 9, "look: no slot");
    gates_closed(5);
    looks(SIZE, RATHONSI_DAMAGED, 5, "look: a damaged cell before it");
    begin();
    memset(image + 32 + 68 * 15 + 2, 0, 32);
    looks(SIZE, RATHONSI_OK, 77, "look: a cell that was never made");
    image[32 + 68 * 15 + 3] = 1;
    looks(SIZE, RATHONSI_WRONG_CELL, 15, "look: no bound");
    begin();
    memcpy(image + 32 + 68 * 15, image + 32 + 68 * 14, 68);
    looks(SIZE, RATHONSI_DUPLICATE_ID, 15, "look: a Data ID that a cell before it has");
    image[32 + 68 * 15 + 3] ^= 3;
    looks(SIZE, RATHONSI_OK, 77, "look: its other direction");
    memset(image + 32 + 68 * 14 + 2, 0, 32);
    memset(image + 32 + 68 * 15 + 2, 0, 32);
    looks(SIZE, RATHONSI_OK, 77, "look: two cells that were never made");
}

/* ---- Growing ---- */

static void grows(const RathonsiRoute *route, size_t length, int32_t status, const char *what) {
    RathonsiPlan before = plan;
    expect(rathonsi_store_grow(route, 6, image, length, &plan), status, what);
    if (status != RATHONSI_OK)
        same(&before, &plan, sizeof plan, what);
}

static void grow(void) {
    RathonsiRoute route = route_of(ROUTES);
    begin();
    plan.writes[0].length = 1;
    grows(&route, ROOM, RATHONSI_BUSY, "grow: a plan");
    plan = no_plan;
    route.window = 0;
    grows(&route, ROOM, RATHONSI_BAD_VALUE, "grow: window 0");
    route = route_of(ROUTES);
    grows(&route, GROWN + 67, RATHONSI_BAD_LENGTH, "grow: no room");
    route.cell = 270;
    grows(&route, ROOM, RATHONSI_BAD_LENGTH, "grow: too many cells");
    for (unsigned i = 0; i < ROUTES; i++) {
        route = route_of(i);
        route.cell = RATHONSI_SLOT_CELLS + ROUTES;
        grows(&route, ROOM, RATHONSI_DUPLICATE_ID, "grow: a Data ID that a cell has");
    }
    route = route_of(ROUTES);
    grows(&route, ROOM, RATHONSI_OK, "grow: a cell");
    expect(plan.writes[0].length + plan.writes[1].length + plan.writes[2].length, 33 + 1 + 2, "grow: three writes");
    expect(rathonsi_store_done(image, GROWN, &plan), RATHONSI_OK, "grow: done");
    grows(&route, ROOM, RATHONSI_OK, "grow: it has the cell");
    same(&plan, &no_plan, sizeof plan, "grow: nothing is planned then");
    expect(rathonsi_store_check(image, GROWN), RATHONSI_OK, "grow: the store is whole");
    expect(rathonsi_route_open(&route, image, GROWN), RATHONSI_OK, "grow: the route opens");
    expect((long)route.counter, 6, "grow: at its bound");
    RathonsiRoute twice = route_of(0);
    twice.cell = route.cell;
    grows(&twice, ROOM, RATHONSI_DUPLICATE_ID, "grow: a Data ID that a cell has, and the cell is another's");
    route.data_id++;
    grows(&route, ROOM, RATHONSI_WRONG_CELL, "grow: the cell is another's");
    gates_closed(route.cell);
    grows(&route, ROOM, RATHONSI_DAMAGED, "grow: the cell is damaged");
    begin();
    route = route_of(ROUTES + 1);
    grows(&route, ROOM, RATHONSI_WRONG_CELL, "grow: the cell before it is missing");
    route = route_of(ROUTES);
    image[GROWN + 5] = 1;
    grows(&route, ROOM, RATHONSI_DAMAGED, "grow: what is after it isn't erased");
    begin();
    image[SIZE + 34] = 0xa7;
    image[SIZE + 35] = 3;
    grows(&route, ROOM, RATHONSI_DAMAGED, "grow: a gate is open there");
    begin();
    grows(&route, GROWN - 1, RATHONSI_BAD_LENGTH, "grow: the image ends before the cell does");
    image[0] = 's';
    grows(&route, ROOM, RATHONSI_NO_STORE, "grow: no store");
}

/* A spare cell becomes a route's by one put, wherever it is. */
static void claims(void) {
    RathonsiRoute route = route_of(0);
    begin();
    memset(image + 32 + 68 * route.cell + 2, 0, 32);
    memset(image + 66 + 68 * route.cell + 2, 0, 32);
    expect(rathonsi_route_open(&route, image, SIZE), RATHONSI_WRONG_CELL, "claim: it is nobody's");
    RathonsiRoute twice = route_of(1);
    twice.cell = route.cell;
    grows(&twice, SIZE, RATHONSI_DUPLICATE_ID, "claim: a later cell has the Data ID");
    grows(&route, SIZE, RATHONSI_OK, "claim: a cell of zero bytes");
    expect(plan.writes[0].length + plan.writes[1].length + plan.writes[2].length, 1 + 33 + 1, "claim: one put");
    expect(rathonsi_store_done(image, SIZE, &plan), RATHONSI_OK, "claim: done");
    grows(&route, SIZE, RATHONSI_OK, "claim: it is the route's");
    same(&plan, &no_plan, sizeof plan, "claim: nothing is planned then");
    expect(rathonsi_route_open(&route, image, SIZE), RATHONSI_OK, "claim: the route opens");
    expect((long)route.counter, 6, "claim: at its bound");
    route.data_id += 5;
    grows(&route, SIZE, RATHONSI_WRONG_CELL, "claim: the cell is another's");
}

static void sizes(size_t length, int32_t status, long told, const char *what) {
    uint32_t size = 77;
    expect(rathonsi_store_size(image, length, &size), status, what);
    expect((long)size, told, what);
    if (status != RATHONSI_OK) {
        expect(rathonsi_store_mend(image, length, &plan), status, what);
        same(&plan, &no_plan, sizeof plan, what);
    }
}

static void number(unsigned count) {
    image[10] = (uint8_t)(count >> 8);
    image[11] = (uint8_t)count;
}

/* The size is what the cells say, and the number in the header is mended. */
static void size(void) {
    begin();
    sizes(ROOM, RATHONSI_OK, SIZE, "size");
    sizes(SIZE, RATHONSI_OK, SIZE, "size: no room after the store");
    sizes(RATHONSI_STORE_SIZE(0) - 1, RATHONSI_BAD_LENGTH, 77, "size: no fourteen cells");
    sizes(SIZE - 1, RATHONSI_BAD_LENGTH, 77, "size: the image ends before the store does");
    plan.writes[1].length = 1;
    expect(rathonsi_store_mend(image, ROOM, &plan), RATHONSI_BUSY, "mend: a plan");
    plan = no_plan;
    expect(rathonsi_store_mend(image, ROOM, &plan), RATHONSI_OK, "mend: the number is right");
    same(&plan, &no_plan, sizeof plan, "mend: nothing is planned then");
    number(300);
    sizes(ROOM, RATHONSI_OK, SIZE, "size: another number");
    sizes(SIZE, RATHONSI_BAD_LENGTH, 77, "size: another number, and no room after the store");
    image[SIZE + 3] = 1;
    sizes(ROOM, RATHONSI_DAMAGED, 77, "size: another number, and what is after the cells isn't erased");
    begin();
    gates_closed(routes[1].cell);
    sizes(ROOM, RATHONSI_DAMAGED, 77, "size: the last cell is damaged");
    begin();
    memset(image + 32 + 68 * routes[0].cell, 0xff, 68);
    sizes(ROOM, RATHONSI_DAMAGED, 77, "size: a cell counts after an erased one");
    begin();
    gates_closed(3);
    sizes(ROOM, RATHONSI_DAMAGED, 77, "size: a slot's cell is damaged");
    begin();
    image[20] = 1;
    sizes(ROOM, RATHONSI_NO_STORE, 77, "size: no store");
}

/* An old copy of the plan of a growth, once the cell has counted, is stale. So is that of a cell that isn't the last. */
static void old_growth(void) {
    RathonsiRoute route = route_of(ROUTES), next = route_of(ROUTES + 1);
    begin();
    grows(&route, ROOM, RATHONSI_OK, "old: a cell");
    RathonsiPlan old = plan;
    expect(rathonsi_store_done(image, ROOM, &plan), RATHONSI_OK, "old: done");
    plan = old;
    expect(rathonsi_store_done(image, ROOM, &plan), RATHONSI_OK, "old: the same again");
    expect(rathonsi_route_open(&route, image, GROWN), RATHONSI_OK, "old: it opens");
    expect(rathonsi_route_reserve(&route, 7, image, GROWN, &plan), RATHONSI_OK, "old: it counts");
    expect(rathonsi_store_done(image, GROWN, &plan), RATHONSI_OK, "old: its bound is there");
    expect(rathonsi_route_reserve(&route, 20, image, GROWN, &plan), RATHONSI_OK, "old: it counts on, in the copy that the growth wrote");
    expect(rathonsi_store_done(image, GROWN, &plan), RATHONSI_OK, "old: that bound is there");
    for (int i = 0; i < 2; i++) {
        uint8_t before[ROOM];
        memcpy(before, image, sizeof before);
        plan = old;
        expect(rathonsi_store_done(image, ROOM, &plan), RATHONSI_STALE_PLAN, "old: the growth again");
        same(before, image, sizeof before, "old: the image stays");
        same(&old, &plan, sizeof plan, "old: the plan stays");
        plan = no_plan;
        grows(&next, ROOM, RATHONSI_OK, "old: another cell");
        expect(rathonsi_store_done(image, ROOM, &plan), RATHONSI_OK, "old: done");
    }
}

/* Each of the 65,536 numbers of cells that a cut may leave is put right: by software without the new route, and by the growth. */
static void torn_counts(void) {
    RathonsiRoute route = route_of(ROUTES);
    uint8_t grown[GROWN];
    uint32_t size = 0;
    long wrong = 0;
    begin();
    grows(&route, ROOM, RATHONSI_OK, "torn: a cell");
    expect(rathonsi_store_done(image, GROWN, &plan), RATHONSI_OK, "torn: done");
    memcpy(grown, image, sizeof grown);
    for (unsigned count = 0; count < 65536u; count++)
        for (int grows_it = 0; grows_it < 2; grows_it++) {
            number(count);
            wrong += rathonsi_store_size(image, ROOM, &size) != RATHONSI_OK || size != GROWN;
            if (grows_it)
                wrong += rathonsi_store_grow(&route, 6, image, ROOM, &plan) != RATHONSI_OK;
            else
                wrong += rathonsi_store_mend(image, ROOM, &plan) != RATHONSI_OK;
            wrong += plan.writes[0].length + plan.writes[1].length != 0u;
            wrong += rathonsi_store_done(image, ROOM, &plan) != RATHONSI_OK;
            wrong += memcmp(image, grown, sizeof grown) != 0;
        }
    expect(wrong, 0, "torn: numbers that weren't put right");
}

/* With two new routes, of which the first was used as the second one's number was cut: the first keeps its bound. */
static void torn_counts_of_two(void) {
    RathonsiRoute first = route_of(ROUTES), second = route_of(ROUTES + 1);
    uint8_t grown[ROOM];
    long wrong = 0;
    begin();
    grows(&first, ROOM, RATHONSI_OK, "two: a cell");
    expect(rathonsi_store_done(image, ROOM, &plan), RATHONSI_OK, "two: done");
    expect(rathonsi_route_open(&first, image, GROWN), RATHONSI_OK, "two: the first opens");
    expect(rathonsi_route_reserve(&first, 20, image, GROWN, &plan), RATHONSI_OK, "two: the first is used");
    expect(rathonsi_store_done(image, GROWN, &plan), RATHONSI_OK, "two: its bound is there");
    grows(&second, ROOM, RATHONSI_OK, "two: another cell");
    expect(rathonsi_store_done(image, ROOM, &plan), RATHONSI_OK, "two: done again");
    memcpy(grown, image, sizeof grown);
    for (unsigned count = 0; count < 65536u; count++) {
        number(count);
        for (int i = 0; i < 3; i++) {
            wrong += rathonsi_store_grow(i < 2 ? &first : &second, 6, image, ROOM, &plan) != RATHONSI_OK;
            wrong += i > 0 && memcmp(&plan, &no_plan, sizeof plan) != 0;
            wrong += rathonsi_store_done(image, ROOM, &plan) != RATHONSI_OK;
            wrong += memcmp(image, grown, sizeof grown) != 0;
        }
    }
    expect(wrong, 0, "two: numbers that weren't put right");
}

/* A store has the cells of two new routes, and the second one's is damaged, in any bit or whole: no growth plans anything. */
static void damaged_after_it(void) {
    RathonsiRoute first = route_of(ROUTES), second = route_of(ROUTES + 1);
    uint8_t *cell = image + 32 + 68 * second.cell;
    long wrong = 0, damaged = 0, twice = 0;
    begin();
    grows(&first, ROOM, RATHONSI_OK, "damaged: a cell");
    expect(rathonsi_store_done(image, ROOM, &plan), RATHONSI_OK, "damaged: done");
    grows(&second, ROOM, RATHONSI_OK, "damaged: another cell");
    expect(rathonsi_store_done(image, ROOM, &plan), RATHONSI_OK, "damaged: done again");
    for (unsigned bit = 0; bit < 68 * 8; bit++) {
        cell[bit / 8] ^= (uint8_t)(1u << bit % 8);
        int32_t status = rathonsi_store_grow(&first, 6, image, ROOM, &plan);
        damaged += status == RATHONSI_DAMAGED;
        twice += status == RATHONSI_DUPLICATE_ID;
        wrong += status != RATHONSI_OK && status != RATHONSI_DAMAGED && status != RATHONSI_DUPLICATE_ID;
        wrong += memcmp(&plan, &no_plan, sizeof plan) != 0;
        cell[bit / 8] ^= (uint8_t)(1u << bit % 8);
    }
    expect(wrong, 0, "damaged: a bit");
    expect(damaged, 8 + 6, "damaged: the bits of the gate, and of the mark but the lowest two");
    expect(twice, 1, "damaged: the bit that makes its Data ID the first one's");
    gates_closed(second.cell);
    grows(&first, ROOM, RATHONSI_DAMAGED, "damaged: whole");
    grows(&second, ROOM, RATHONSI_DAMAGED, "damaged: it is told");
}

/* ---- A nonce ---- */

static void answers(int32_t status, const char *what) {
    uint8_t answer[24] = {0}, none[24] = {0};
    expect(rathonsi_sync_answer(&routes[0], image, SIZE, &question, answer), status, what);
    if (status != RATHONSI_OK)
        same(answer, none, sizeof answer, what);
}

static void takes(const uint8_t answer[24], int32_t status, const char *what) {
    RathonsiRoute before = routes[1];
    RathonsiVerdict verdict = rathonsi_sync_take(&routes[1], image, SIZE, &question, answer);
    expect(verdict.status, status, what);
    expect(verdict.freshness != 0, status == RATHONSI_OK || status == RATHONSI_RESERVE, what);
    expect(verdict.payload_length, 0, what);
    if (status != RATHONSI_OK)
        same(&before, &routes[1], sizeof before, what);
}

/* The unit answers what it asks itself: under its own name, or by a route of the same direction. */
static void own_answer(void) {
    uint8_t answer[24];
    const RathonsiQuestion asked = question;
    question.asker = asked.answerer;
    question.answerer = asked.asker; /* the name of this unit, which asks below */
    expect(rathonsi_sync_answer(&routes[0], image, SIZE, &question, answer), RATHONSI_OK, "take: an answer of its own");
    question = asked;
    takes(answer, RATHONSI_VERIFICATION_FAILURE, "take: an answer of its own");
    RathonsiRoute receiver = routes[1];
    open_by_hand(&receiver, 1000);
    expect(rathonsi_sync_answer(&receiver, image, SIZE, &question, answer), RATHONSI_OK, "take: a receiver's answer");
    takes(answer, RATHONSI_VERIFICATION_FAILURE, "take: a receiver's answer to a receiver");
    RathonsiRoute behind = routes[0];
    open_by_hand(&behind, 4);
    RathonsiVerdict verdict = rathonsi_sync_take(&behind, image, SIZE, &question, answer);
    expect(verdict.status, RATHONSI_OK, "take: a receiver's answer to a sender");
    expect((long)behind.counter, 1000, "take: the sender's counter");
}

/* A receiver that is fresh goes down to what the answer tells, once; one whose counter a call moved doesn't. */
static void rejoins(const uint8_t *answer) {
    RathonsiAnswerInput input;
    RathonsiVerdict verdict;
    uint8_t mac[16];
    RathonsiRoute route = routes[1], before;
    route.opened = 0;
    expect(rathonsi_route_make(&route, 100, image, SIZE), RATHONSI_OK, "rejoin: a bound far above");
    expect(rathonsi_route_open(&route, image, SIZE), RATHONSI_OK, "rejoin: the route opens");
    before = route;
    expect(rathonsi_sync_take(&route, image, SIZE, &question, answer).status, RATHONSI_FRESHNESS_FAILURE, "rejoin: a take doesn't go down");
    same(&before, &route, sizeof route, "rejoin: nothing is written");
    expect(rathonsi_sync_take_input(&route, image, SIZE, &question, answer, &input), RATHONSI_OK, "rejoin: its input");
    expect(rathonsi_cmac(key, 16, input.bytes, sizeof input.bytes, mac), RATHONSI_OK, "rejoin: the MAC of the input");
    verdict = rathonsi_sync_rejoin_mac(&before, image, SIZE, &question, answer, &input, mac);
    expect(verdict.status, RATHONSI_OK, "rejoin_mac");
    verdict = rathonsi_sync_rejoin(&route, image, SIZE, &question, answer);
    expect(verdict.status, RATHONSI_OK, "rejoin");
    expect((long)route.counter, 4, "rejoin: the counter that was told");
    same(&before, &route, sizeof route, "rejoin: both leave one route");
    expect(rathonsi_sync_rejoin(&route, image, SIZE, &question, answer).status, RATHONSI_FRESHNESS_FAILURE, "rejoin: once");
    expect(rathonsi_route_open(&route, image, SIZE), RATHONSI_OK, "rejoin: opened again");
    expect((long)route.counter, 100, "rejoin: at its bound");
    expect(rathonsi_sync_rejoin(&route, image, SIZE, &question, answer).status, RATHONSI_FRESHNESS_FAILURE, "rejoin: not in this life again");
    expect(rathonsi_sync_rejoin(&routes[0], image, SIZE, &question, answer).status, RATHONSI_BAD_VALUE, "rejoin: a route that sends");
    expect(rathonsi_route_make(&route, 4, image, SIZE), RATHONSI_OK, "rejoin: the bound of before");
}

/* The same answer by two steps, and what the steps refuse. */
static void answer_in_two_steps(const uint8_t *answer) {
    RathonsiAnswerInput input, wrong;
    uint8_t mac[16], two[24], none[24] = {0};
    RathonsiVerdict verdict;
    RathonsiRoute ahead = routes[1], before;
    expect(rathonsi_sync_answer_input(&routes[0], image, SIZE, &question, &input), RATHONSI_OK, "answer_input");
    expect(input.counter == routes[0].counter, 1, "answer_input: its counter");
    expect(rathonsi_cmac(key, 16, input.bytes, sizeof input.bytes, mac), RATHONSI_OK, "the MAC of the input");
    expect(rathonsi_sync_answer_mac(&input, mac, two), RATHONSI_OK, "answer_mac");
    same(two, answer, sizeof two, "two steps make the answer of one");
    wrong = input;
    wrong.counter++;
    memset(two, 0, sizeof two);
    expect(rathonsi_sync_answer_mac(&wrong, mac, two), RATHONSI_BAD_VALUE, "answer_mac: another counter");
    same(two, none, sizeof two, "answer_mac: nothing is written");
    question.asker = 8;
    expect(rathonsi_sync_answer_input(&routes[0], image, SIZE, &question, &input), RATHONSI_BAD_VALUE, "answer_input: one name");
    expect(rathonsi_sync_take_input(&ahead, image, SIZE, &question, answer, &input), RATHONSI_BAD_VALUE, "take_input: one name");
    question.asker = 7;
    open_by_hand(&ahead, 3);
    expect(rathonsi_sync_take_input(&ahead, image, SIZE, &question, answer, &wrong), RATHONSI_OK, "take_input");
    same(&wrong, &input, sizeof input, "both sides have one input");
    before = ahead;
    wrong.bytes[60] ^= 1;
    verdict = rathonsi_sync_take_mac(&ahead, image, SIZE, &question, answer, &wrong, mac);
    expect(verdict.status, RATHONSI_BAD_VALUE, "take_mac: another input");
    mac[15] ^= 1;
    verdict = rathonsi_sync_take_mac(&ahead, image, SIZE, &question, answer, &input, mac);
    expect(verdict.status, RATHONSI_VERIFICATION_FAILURE, "take_mac: another MAC");
    mac[15] ^= 1;
    same(&before, &ahead, sizeof before, "take_mac: nothing is written");
    verdict = rathonsi_sync_take_mac(&ahead, image, SIZE, &question, answer, &input, mac);
    expect(verdict.status, RATHONSI_OK, "take_mac");
    expect((long)ahead.counter, 4, "take_mac: its counter");
    verdict = rathonsi_sync_take_mac(&ahead, image, SIZE, &question, answer, &input, mac);
    expect(verdict.status, RATHONSI_FRESHNESS_FAILURE, "take_mac: the same again");
    rejoins(answer);
    ahead.opened = 0;
    expect(rathonsi_sync_answer_input(&ahead, image, SIZE, &question, &input), RATHONSI_BAD_VALUE, "answer_input: not open");
    expect(rathonsi_sync_take_input(&ahead, image, SIZE, &question, answer, &input), RATHONSI_BAD_VALUE, "take_input: not open");
    verdict = rathonsi_sync_take_mac(&ahead, image, SIZE, &question, answer, &input, mac);
    expect(verdict.status, RATHONSI_BAD_VALUE, "take_mac: not open");
}

static void makes(int32_t status, const char *what) {
    uint8_t nonce[16] = {0}, none[16] = {0};
    const RathonsiRoute before = routes[0];
    expect(rathonsi_sync_nonce(&routes[0], image, SIZE, 0x01020304, nonce), status, what);
    if (status != RATHONSI_OK) {
        same(nonce, none, sizeof nonce, what);
        same(&before, &routes[0], sizeof before, what);
        return;
    }
    static const char label[] = "RATHONSI NONCE OF THIS UNIT: A COUNT THAT IS DURABLE BEFORE IT IS.";
    uint8_t input[80] = {0}, mac[16];
    memcpy(input, label, 66);
    input[66] = (uint8_t)(routes[0].data_id >> 8);
    input[67] = (uint8_t)routes[0].data_id;
    for (unsigned i = 0; i < 4; i++)
        input[68 + i] = (uint8_t)(i + 1);
    input[79] = (uint8_t)routes[0].counter; /* a small one */
    expect(rathonsi_cmac(key, 16, input, sizeof input, mac), RATHONSI_OK, what);
    same(nonce, mac, sizeof mac, what);
    expect((long)(routes[0].counter - before.counter), 1, what);
}

static void make_nonces(void) {
    begin();
    makes(RATHONSI_BAD_VALUE, "nonce: a route with PDUs");
    routes[0].freshness_only = 1;
    expect(rathonsi_route_open(&routes[0], image, SIZE), RATHONSI_OK, "nonce: its bound");
    makes(RATHONSI_RESERVE, "nonce: nothing is reserved");
    expect(rathonsi_route_reserve_next(&routes[0], image, SIZE, &plan), RATHONSI_OK, "nonce: a reserve");
    expect(rathonsi_store_done(image, SIZE, &plan), RATHONSI_OK, "nonce: it is done");
    makes(RATHONSI_OK, "nonce: one");
    makes(RATHONSI_OK, "nonce: and another");
    open_by_hand(&routes[0], UINT64_MAX);
    makes(RATHONSI_EXHAUSTED, "nonce: the last counter");
    routes[0].opened = 0;
    makes(RATHONSI_BAD_VALUE, "nonce: not open");
    routes[0].data_id++;
    open_by_hand(&routes[0], 3);
    makes(RATHONSI_WRONG_CELL, "nonce: another Data ID");
    begin();
    routes[0].freshness_only = 1;
    gates_closed(SLOT);
    makes(RATHONSI_DAMAGED, "nonce: a damaged slot");
    begin();
    routes[0].freshness_only = 1;
    routes[0].slot = 13;
    makes(RATHONSI_KEY_EMPTY, "nonce: an empty slot");
    routes[0].slot = 5;
    makes(RATHONSI_KEY_INVALID, "nonce: a key for ciphers");
    routes[0].slot = 6;
    makes(RATHONSI_KEY_NOT_AVAILABLE, "nonce: a key behind the boot");
    routes[1].freshness_only = 1;
    routes[0] = routes[1];
    makes(RATHONSI_BAD_VALUE, "nonce: a route that receives");
}

static void answer_nonce(void) {
    uint8_t answer[24];
    begin();
    answers(RATHONSI_OK, "answer");
    open_by_hand(&routes[0], UINT64_MAX);
    answers(RATHONSI_OK, "answer: the last counter");
    routes[0].opened = 0;
    answers(RATHONSI_BAD_VALUE, "answer: not open");
    begin();
    routes[0].data_id++;
    answers(RATHONSI_BAD_VALUE, "answer: another Data ID after the opening");
    open_by_hand(&routes[0], 3);
    answers(RATHONSI_WRONG_CELL, "answer: another Data ID");
    begin();
    gates_closed(SLOT);
    answers(RATHONSI_DAMAGED, "answer: a damaged slot");
    begin();
    routes[0].slot = 13;
    answers(RATHONSI_KEY_EMPTY, "answer: an empty slot");
    routes[0].slot = 5;
    answers(RATHONSI_KEY_INVALID, "answer: a key for ciphers");
    routes[0].slot = 6;
    answers(RATHONSI_KEY_NOT_AVAILABLE, "answer: a key behind the boot");

    begin();
    question.answerer = question.asker;
    answers(RATHONSI_BAD_VALUE, "answer: asker and answerer are one");
    takes(answer, RATHONSI_BAD_VALUE, "take: asker and answerer are one");
    question.answerer = 8;
    begin();
    routes[0].data_id = routes[1].data_id; /* a sender of the same Data ID, whose cell is made for it */
    expect(rathonsi_route_make(&routes[0], 1000, image, SIZE), RATHONSI_OK, "take: a sender");
    open_by_hand(&routes[0], 4);
    expect(rathonsi_sync_answer(&routes[0], image, SIZE, &question, answer), RATHONSI_OK, "take: its answer");
    takes(answer, RATHONSI_OK, "take: within the bound");
    takes(answer, RATHONSI_FRESHNESS_FAILURE, "take: the same again");
    routes[1].opened = 0;
    takes(answer, RATHONSI_BAD_VALUE, "take: not open");
    routes[1].opened = 2;
    answer[8] ^= 1;
    takes(answer, RATHONSI_VERIFICATION_FAILURE, "take: another MAC");
    answer[8] ^= 1;
    question.answerer = 9;
    takes(answer, RATHONSI_VERIFICATION_FAILURE, "take: the answer of another unit");
    question.answerer = 8;
    question.asker = 9;
    takes(answer, RATHONSI_VERIFICATION_FAILURE, "take: the answer to another unit");
    question.asker = 7;
    question.nonce[15] ^= 1;
    takes(answer, RATHONSI_VERIFICATION_FAILURE, "take: the answer to another nonce");
    question.nonce[15] ^= 1;
    own_answer();
    answer_in_two_steps(answer);
    answer[0] = 1;
    takes(answer, RATHONSI_VERIFICATION_FAILURE, "take: another counter");
    open_by_hand(&routes[0], 1000);
    expect(rathonsi_sync_answer(&routes[0], image, SIZE, &question, answer), RATHONSI_OK, "take: an answer far ahead");
    takes(answer, RATHONSI_RESERVE, "take: above the bound");
    expect(rathonsi_route_reserve(&routes[1], 1000, image, SIZE, &plan), RATHONSI_BAD_VALUE, "take: too far for a reserve");
    expect(rathonsi_route_advance(&routes[1], 1000, image, SIZE, &plan), RATHONSI_OK, "take: an advance");
    expect(rathonsi_store_done(image, SIZE, &plan), RATHONSI_OK, "take: done");
    takes(answer, RATHONSI_OK, "take: once it is reserved");
    routes[1].slot = 13;
    takes(answer, RATHONSI_KEY_EMPTY, "take: an empty slot");
    routes[1].slot = 5;
    takes(answer, RATHONSI_KEY_INVALID, "take: a key for ciphers");
    routes[1].slot = 6;
    takes(answer, RATHONSI_KEY_NOT_AVAILABLE, "take: a key behind the boot");
    gates_closed(6);
    takes(answer, RATHONSI_DAMAGED, "take: a damaged slot");
    routes[1].data_id++;
    open_by_hand(&routes[1], 3);
    takes(answer, RATHONSI_WRONG_CELL, "take: another Data ID");
}

/* ---- Faults of a route ---- */

/* The number of the first field outside its range; a field before it and one after it are right. */
static void faults(void) {
    begin();
    for (unsigned field = 0; field <= 8; field++)
        for (unsigned low = 0; low < 2; low++) {
            RathonsiRoute route = routes[0];
            if (field == 1) route.cell = (uint16_t)(low ? 13 : 0);
            if (field == 2) route.reserve = (uint16_t)(low ? 0 : 129);
            if (field == 3) route.window = (uint16_t)(low ? 0 : 257);
            if (field == 4) route.slot = (uint8_t)(low ? 3 : 14);
            if (field == 5) route.direction = (uint8_t)(low ? 0 : 3);
            if (field == 6) route.booted = (uint8_t)(low ? 2 : 255);
            if (field == 7) route.freshness_only = (uint8_t)(low ? 2 : 255);
            if (field == 8) route.opened = (uint8_t)(low ? 0 : 3);
            expect((long)rathonsi_route_fault(&route), (long)field, "fault: the field");
            if (field < 8) route.opened = 0;
            expect((long)rathonsi_route_fault(&route), field == 0 ? 8 : (long)field, "fault: before the opening");
            for (unsigned after = field + 1; after <= 7; after++) {
                if (after == 2) route.reserve = 0;
                if (after == 3) route.window = 0;
                if (after == 4) route.slot = 0;
                if (after == 5) route.direction = 0;
                if (after == 6) route.booted = 9;
                if (after == 7) route.freshness_only = 9;
                if (field != 0)
                    expect((long)rathonsi_route_fault(&route), (long)field, "fault: the first field");
            }
        }
    routes[0].counter++;
    expect((long)rathonsi_route_fault(&routes[0]), 8, "fault: a counter that was set by hand");
}

/* ---- Two steps ---- */

static void two_steps(void) {
    RathonsiInput input, wrong;
    RathonsiVerdict verdict;
    uint8_t mac[16], pdu[PDU], plain[PDU];
    RathonsiRoute plain_route;
    begin();
    expect(rathonsi_send_input(&routes[0], image, SIZE, payload, 0, &input), RATHONSI_BAD_LENGTH, "send_input: no payload");
    expect(rathonsi_send_input(&routes[1], image, SIZE, payload, PAYLOAD, &input), RATHONSI_BAD_VALUE, "send_input: receives");
    expect(rathonsi_send_input(&routes[0], image, SIZE, payload, PAYLOAD, &input), RATHONSI_OK, "send_input");
    expect(rathonsi_cmac(key, 16, input.bytes, input.length, mac), RATHONSI_OK, "the MAC of the input");
    plain_route = routes[0];
    expect(rathonsi_route_send(&plain_route, image, SIZE, payload, PAYLOAD, plain, PDU), RATHONSI_OK, "one step");
    wrong = input;
    wrong.bytes[2] ^= 1;
    expect(rathonsi_send_mac(&routes[0], image, SIZE, payload, PAYLOAD, &wrong, mac, pdu, PDU), RATHONSI_BAD_VALUE, "send_mac: another input");
    expect(rathonsi_send_mac(&routes[0], image, SIZE, payload, PAYLOAD, &input, mac, pdu, PDU - 1), RATHONSI_BAD_LENGTH, "send_mac: no room");
    expect(rathonsi_send_mac(&routes[0], image, SIZE, payload, PAYLOAD, &input, mac, pdu, PDU), RATHONSI_OK, "send_mac");
    same(pdu, plain, PDU, "two steps make the PDU of one");
    same(&routes[0], &plain_route, sizeof plain_route, "and the route");
    expect(rathonsi_send_mac(&routes[0], image, SIZE, payload, PAYLOAD, &input, mac, pdu, PDU), RATHONSI_RESERVE, "send_mac: twice");
    open_by_hand(&routes[0], UINT64_MAX);
    expect(rathonsi_send_input(&routes[0], image, SIZE, payload, PAYLOAD, &input), RATHONSI_EXHAUSTED, "send_input: the last counter");

    expect(rathonsi_secoc_protect(key, 16, routes[1].data_id, 4, payload, PAYLOAD, pdu, PDU), RATHONSI_OK, "a PDU");
    expect(rathonsi_receive_input(&routes[1], image, SIZE, pdu, 4, &input), RATHONSI_BAD_LENGTH, "receive_input: four bytes");
    expect(rathonsi_receive_input(&routes[0], image, SIZE, pdu, PDU, &input), RATHONSI_BAD_VALUE, "receive_input: sends");
    expect(rathonsi_receive_input(&routes[1], image, SIZE, pdu, PDU, &input), RATHONSI_OK, "receive_input");
    expect(rathonsi_cmac(key, 16, input.bytes, input.length, mac), RATHONSI_OK, "the MAC of the input");
    verdict = rathonsi_receive_mac(&routes[1], image, SIZE, pdu, PDU, &wrong, mac);
    expect(verdict.status, RATHONSI_BAD_VALUE, "receive_mac: another input");
    mac[0] ^= 1;
    verdict = rathonsi_receive_mac(&routes[1], image, SIZE, pdu, PDU, &input, mac);
    expect(verdict.status, RATHONSI_VERIFICATION_FAILURE, "receive_mac: another MAC");
    mac[0] ^= 1;
    verdict = rathonsi_receive_mac(&routes[1], image, SIZE, pdu, PDU, &input, mac);
    expect(verdict.status, RATHONSI_OK, "receive_mac");
    expect((long)verdict.freshness, 4, "receive_mac: its freshness");
    verdict = rathonsi_receive_mac(&routes[1], image, SIZE, pdu, PDU, &input, mac);
    expect(verdict.status, RATHONSI_FRESHNESS_FAILURE, "receive_mac: twice");
    expect(rathonsi_receive_input(&routes[1], image, SIZE, pdu, PDU, &input), RATHONSI_FRESHNESS_FAILURE, "receive_input: twice");
    expect(rathonsi_secoc_protect(key, 16, routes[1].data_id, 5, payload, PAYLOAD, pdu, PDU), RATHONSI_OK, "a PDU above the bound");
    expect(rathonsi_receive_input(&routes[1], image, SIZE, pdu, PDU, &input), RATHONSI_OK, "receive_input: above the bound");
    expect(rathonsi_cmac(key, 16, input.bytes, input.length, mac), RATHONSI_OK, "the MAC of the input");
    verdict = rathonsi_receive_mac(&routes[1], image, SIZE, pdu, PDU, &input, mac);
    expect(verdict.status, RATHONSI_RESERVE, "receive_mac: above the bound");
    gates_closed(SLOT);
    expect(rathonsi_receive_input(&routes[1], image, SIZE, pdu, PDU, &input), RATHONSI_OK, "receive_input: reads no slot");
    gates_closed(routes[1].cell);
    expect(rathonsi_receive_input(&routes[1], image, SIZE, pdu, PDU, &input), RATHONSI_DAMAGED, "receive_input: a damaged cell");
    routes[0].data_id++;
    open_by_hand(&routes[0], 3);
    expect(rathonsi_send_input(&routes[0], image, SIZE, payload, PAYLOAD, &input), RATHONSI_WRONG_CELL, "send_input: another Data ID");
}

/* ---- MACs in pieces, boot ---- */

static void pieces(void) {
    uint8_t whole[16], tag[16] = {0};
    RathonsiMac mac;
    memset(&mac, 0, sizeof mac);
    expect(rathonsi_mac_update(&mac, made, 5), RATHONSI_BAD_VALUE, "mac_update: not begun");
    expect(rathonsi_mac_finish(&mac, tag), RATHONSI_BAD_VALUE, "mac_finish: not begun");
    expect(rathonsi_mac_begin(key, 15, &mac), RATHONSI_BAD_LENGTH, "mac_begin: 15 bytes");
    for (size_t length = 0; length < 70; length++)
        for (size_t cut = 0; cut <= length; cut++) {
            expect(rathonsi_mac_begin(key, 16, &mac), RATHONSI_OK, "mac_begin");
            expect(rathonsi_mac_update(&mac, made, cut), RATHONSI_OK, "mac_update");
            expect(rathonsi_mac_update(&mac, made + cut, length - cut), RATHONSI_OK, "mac_update");
            expect(rathonsi_mac_finish(&mac, tag), RATHONSI_OK, "mac_finish");
            expect(rathonsi_cmac(key, 16, made, length, whole), RATHONSI_OK, "cmac");
            same(tag, whole, 16, "two pieces have the MAC of the whole");
        }
}

static void boot(void) {
    enum { LENGTH = 40 };
    static const uint8_t program[LENGTH + 1] = {1, 2, 3};
    static const uint8_t head[16] = {0, 0, 0, 0, 0, 0, 0, 0, 0, 0, 0, 0, 0, 0, 1, 64};
    uint8_t booted = 77, mac[16];
    RathonsiMac of_program;
    RathonsiBoot state;
    memset(&state, 0, sizeof state);
    begin();
    expect(rathonsi_boot(image, SIZE, program, 0, &booted), RATHONSI_BAD_LENGTH, "boot: no program");
    expect(rathonsi_boot(image, SIZE, program, LENGTH, &booted), RATHONSI_KEY_EMPTY, "boot: no key");
    expect(rathonsi_boot(image, 32 + 68 * 2, program, LENGTH, &booted), RATHONSI_DAMAGED, "boot: no slot");
    expect(booted, 77, "boot: nothing is said");
    expect(rathonsi_mac_begin(key, 16, &of_program), RATHONSI_OK, "mac_begin");
    expect(rathonsi_mac_update(&of_program, head, sizeof head), RATHONSI_OK, "mac_update");
    expect(rathonsi_mac_update(&of_program, program, LENGTH), RATHONSI_OK, "mac_update");
    expect(rathonsi_mac_finish(&of_program, mac), RATHONSI_OK, "mac_finish");
    put_key(2, 1, master, key, 0);
    put_key(3, 1, master, mac, 0);
    expect(rathonsi_boot(image, SIZE, program, LENGTH, &booted), RATHONSI_OK, "boot");
    expect(booted, 1, "boot: the program");
    expect(rathonsi_boot(image, SIZE, program, LENGTH - 1, &booted), RATHONSI_OK, "boot: a byte less");
    expect(booted, 0, "boot: another program");
    expect(rathonsi_boot_update(&state, program, 1), RATHONSI_BAD_VALUE, "boot_update: not begun");
    expect(rathonsi_boot_finish(&state, &booted), RATHONSI_BAD_VALUE, "boot_finish: not begun");
    expect(rathonsi_boot_begin(image, SIZE, 0, &state), RATHONSI_BAD_LENGTH, "boot_begin: no program");
    expect(rathonsi_boot_begin(image, SIZE, 0x20000000, &state), RATHONSI_BAD_LENGTH, "boot_begin: too long");
    expect(rathonsi_boot_begin(image, SIZE, LENGTH, &state), RATHONSI_OK, "boot_begin");
    expect(rathonsi_boot_update(&state, program, 17), RATHONSI_OK, "boot_update");
    expect(rathonsi_boot_finish(&state, &booted), RATHONSI_BAD_LENGTH, "boot_finish: bytes are to come");
    expect(rathonsi_boot_update(&state, program + 17, 24), RATHONSI_BAD_LENGTH, "boot_update: a byte too many");
    expect(rathonsi_boot_update(&state, program + 17, 23), RATHONSI_OK, "boot_update: the rest");
    expect(rathonsi_boot_finish(&state, &booted), RATHONSI_OK, "boot_finish");
    expect(booted, 1, "boot_finish: the program");
}

int main(void) {
    expect(rathonsi_store_make(image, SIZE), RATHONSI_OK, "make");
    for (unsigned i = 0; i < ROUTES; i++) {
        RathonsiRoute route = route_of(i);
        expect(rathonsi_route_make(&route, 4, image, SIZE), RATHONSI_OK, "route_make");
    }
    {
        uint8_t empty[16];
        memset(empty, 0xff, sizeof empty);
        put_key(1, 1, empty, master, 0);
        put_key(SLOT, SLOT, empty, key, RATHONSI_KEY_USAGE);
        put_key(5, 5, empty, key, 0);
        put_key(6, 6, empty, key, RATHONSI_KEY_USAGE | RATHONSI_BOOT_PROTECTION);
    }
    memcpy(made, image, sizeof made);
    open_all();
    look();
    grow();
    claims();
    size();
    old_growth();
    torn_counts();
    torn_counts_of_two();
    damaged_after_it();
    answer_nonce();
    make_nonces();
    faults();
    two_steps();
    pieces();
    boot();
    printf("%d calls, %d failures\n", calls, failures);
    return failures != 0;
}
