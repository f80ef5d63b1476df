/*
 * The calls of rathonsi_freshness.h: worked rows of candidates, drawn rows beside a search through the whole window, and every status.
 * With each status it looks that nothing was written but what the header names.
 */
#include <stdio.h>
#include <string.h>

#include "open_by_hand.h"
#include "rathonsi_freshness.h"

enum { ROUTES = 2, SLOT = 4, SIZE = RATHONSI_STORE_SIZE(ROUTES) };

static uint8_t image[SIZE];
static RathonsiRoute sender, receiver;
static RathonsiPlan plan;
static int calls, failures;

static void expect(long found, long wanted, const char *what) {
    calls++;
    if (found != wanted) {
        failures++;
        printf("%s: %ld, wanted %ld\n", what, found, wanted);
    }
}

static void tells(uint64_t found, uint64_t wanted, const char *what) {
    expect(found == wanted, 1, what);
}

static uint64_t draw(void) {
    static uint64_t state = UINT64_C(88172645463325252);
    state ^= state << 13;
    state ^= state >> 7;
    state ^= state << 17;
    return state;
}

/* A route of this direction at a bound, made and opened. */
static RathonsiRoute route_at(uint8_t direction, uint64_t bound) {
    RathonsiRoute route;
    memset(&route, 0, sizeof route);
    route.data_id = 0x1234;
    route.cell = (uint16_t)(RATHONSI_SLOT_CELLS + direction - 1u);
    route.reserve = 8;
    route.window = 16;
    route.slot = SLOT;
    route.direction = direction;
    route.freshness_only = 1;
    expect(rathonsi_route_make(&route, bound, image, SIZE), RATHONSI_OK, "route_make");
    expect(rathonsi_route_open(&route, image, SIZE), RATHONSI_OK, "route_open");
    return route;
}

static void start(uint64_t bound) {
    expect(rathonsi_store_make(image, SIZE), RATHONSI_OK, "store_make");
    sender = route_at(RATHONSI_SENDS, bound);
    receiver = route_at(RATHONSI_RECEIVES, bound);
}

/* Reserves this freshness of a route, and says that the plan is done. */
static void reserve(const RathonsiRoute *route, uint64_t freshness) {
    memset(&plan, 0, sizeof plan);
    expect(rathonsi_route_reserve(route, freshness, image, SIZE, &plan), RATHONSI_OK, "route_reserve");
    expect(rathonsi_store_done(image, SIZE, &plan), RATHONSI_OK, "store_done");
}

/* Worked by hand: the counter, the window, how many bits and which, and the freshness; 0 if there is none. */
static const struct {
    uint64_t counter, truncated, freshness;
    uint16_t window;
    uint8_t bits;
} rows[] = {
    {0, 1, 1, 16, 4},
    {0, 0, 16, 16, 4},
    {15, 0, 16, 16, 4},
    {14, 14, 30, 16, 4},
    {100, 3, 0, 2, 8},
    {254, 0, 256, 2, 8},
    {0x1234ff, 1, 0x123501, 256, 8},
    {0x1234ff, 0xff, 0x1235ff, 256, 8},
    {0x1234ff, 0xff, 0, 255, 8},
    {0xffffffff, 0, UINT64_C(0x100000000), 1, 32},
    {0xffffffff, 1, 0, 1, 32},
    {7, 8, 8, 1, 64},
    {7, 7, 0, 256, 64},
    {7, 6, 0, 256, 64},
    {UINT64_MAX - 1, UINT64_MAX, UINT64_MAX, 256, 64},
    {UINT64_MAX - 1, 15, UINT64_MAX, 16, 4},
    {UINT64_MAX - 1, 0, 0, 16, 4},
    {UINT64_MAX, 0, 0, 2, 1},
    {5, 0, 6, 2, 1},
    {5, 1, 7, 2, 1},
};

static void worked_rows(void) {
    for (size_t i = 0; i < sizeof rows / sizeof rows[0]; i++) {
        uint64_t told = 77;
        open_by_hand(&receiver, rows[i].counter);
        receiver.window = rows[i].window;
        int32_t status = rathonsi_freshness_candidate(&receiver, image, SIZE, rows[i].truncated, rows[i].bits, &told);
        expect(status, rows[i].freshness == 0 ? RATHONSI_FRESHNESS_FAILURE : RATHONSI_OK, "a worked row");
        tells(told, rows[i].freshness == 0 ? 77 : rows[i].freshness, "the freshness of a worked row");
    }
}

/* Whether a freshness has these low bits: each of them is looked at. */
static int has_bits(uint64_t freshness, uint64_t truncated, unsigned bits) {
    for (unsigned i = 0; i < bits; i++)
        if ((freshness >> i & 1u) != (truncated >> i & 1u)) return 0;
    return 1;
}

/* Every freshness of the window is looked at. */
static void drawn_rows(long count) {
    for (long i = 0; i < count; i++) {
        const unsigned bits = 1 + (unsigned)(draw() % 64);
        const uint64_t most = bits < 9 ? UINT64_C(1) << bits : 256;
        uint64_t told = 77, wanted = 77, found = 0;
        open_by_hand(&receiver, draw() % 4 == 0 ? UINT64_MAX - draw() % 600 : draw() >> draw() % 64);
        receiver.window = (uint16_t)(1 + draw() % most);
        uint64_t truncated = receiver.counter + draw() % 300;
        if (bits < 64) truncated &= (UINT64_C(1) << bits) - 1;
        for (uint64_t k = 1; k <= receiver.window && receiver.counter + k > receiver.counter; k++)
            if (has_bits(receiver.counter + k, truncated, bits)) {
                wanted = receiver.counter + k;
                found++;
            }
        int32_t status = rathonsi_freshness_candidate(&receiver, image, SIZE, truncated, (uint8_t)bits, &told);
        expect(status, found == 0 ? RATHONSI_FRESHNESS_FAILURE : RATHONSI_OK, "a drawn row");
        tells(told, wanted, "the freshness of a drawn row");
        expect(found <= 1, 1, "one candidate");
    }
}

/* What each call answers of a route that isn't as it has to be. */
static void refused_routes(void) {
    for (int which = 0; which < 6; which++) {
        uint64_t told = 77;
        start(100);
        const size_t size = which == 4 ? SIZE - 68u * ROUTES : SIZE;
        RathonsiRoute *const both[2] = {&sender, &receiver};
        for (int i = 0; i < 2; i++) {
            if (which == 0) both[i]->freshness_only = 0;
            if (which == 1) both[i]->opened = 0;
            if (which == 2) both[i]->direction = (uint8_t)(3 - both[i]->direction);
            if (which == 3) both[i]->reserve = 129;
            if (which == 5) memset(image + 32u + 68u * both[i]->cell, 0x55, 68);
        }
        const RathonsiRoute before[2] = {sender, receiver};
        const int32_t wanted = which < 4 ? RATHONSI_BAD_VALUE : which == 4 ? RATHONSI_WRONG_CELL : RATHONSI_DAMAGED;
        expect(rathonsi_freshness_next(&sender, image, size, &told), wanted, "next, a refused route");
        expect(rathonsi_freshness_candidate(&receiver, image, size, 5, 4, &told), wanted, "candidate, a refused route");
        expect(rathonsi_freshness_accept(&receiver, image, size, 101), wanted, "accept, a refused route");
        tells(told, 77, "a refused route: nothing is told");
        expect(memcmp(&sender, &before[0], sizeof sender), 0, "a refused sender is as before");
        expect(memcmp(&receiver, &before[1], sizeof receiver), 0, "a refused receiver is as before");
    }
}

static void senders(void) {
    uint64_t told = 77;
    start(100);
    expect(rathonsi_freshness_next(&sender, image, SIZE, &told), RATHONSI_RESERVE, "next, nothing reserved");
    tells(told, 77, "next, nothing reserved: nothing is told");
    reserve(&sender, sender.counter + 1);
    for (uint64_t wanted = 101; wanted <= 108; wanted++) {
        expect(rathonsi_freshness_next(&sender, image, SIZE, &told), RATHONSI_OK, "next");
        tells(told, wanted, "what next gives");
    }
    expect(rathonsi_freshness_next(&sender, image, SIZE, &told), RATHONSI_RESERVE, "next, behind what is reserved");
    start(UINT64_MAX);
    expect(rathonsi_freshness_next(&sender, image, SIZE, &told), RATHONSI_EXHAUSTED, "next at 2^64 - 1");
}

static void receivers(void) {
    static const struct { uint64_t truncated; uint8_t bits; uint16_t window; } wrong[] = {
        {0, 0, 1}, {0, 65, 16}, {16, 4, 16}, {0, 4, 17}, {2, 1, 1}, {0, 1, 3}, {UINT64_MAX, 63, 16},
    };
    uint64_t told = 77;
    start(100);
    for (size_t i = 0; i < sizeof wrong / sizeof wrong[0]; i++) {
        receiver.window = wrong[i].window;
        expect(rathonsi_freshness_candidate(&receiver, image, SIZE, wrong[i].truncated, wrong[i].bits, &told), RATHONSI_BAD_VALUE, "wrong bits");
    }
    tells(told, 77, "wrong bits: nothing is told");
    receiver.window = 16;
    expect(rathonsi_freshness_candidate(&receiver, image, SIZE, 110 & 15, 4, &told), RATHONSI_RESERVE, "a candidate above the bound");
    tells(told, 110, "the freshness to reserve");
    expect(rathonsi_freshness_accept(&receiver, image, SIZE, told), RATHONSI_RESERVE, "accept above the bound");
    reserve(&receiver, told);
    expect(rathonsi_freshness_candidate(&receiver, image, SIZE, 110 & 15, 4, &told), RATHONSI_OK, "the same once it is reserved");
    expect(rathonsi_freshness_accept(&receiver, image, SIZE, 117), RATHONSI_FRESHNESS_FAILURE, "accept beyond the window");
    expect(rathonsi_freshness_accept(&receiver, image, SIZE, 100), RATHONSI_FRESHNESS_FAILURE, "accept of the counter");
    tells(receiver.counter, 100, "nothing was accepted");
    expect(rathonsi_freshness_accept(&receiver, image, SIZE, told), RATHONSI_OK, "accept");
    tells(receiver.counter, 110, "what was accepted is the counter");
    expect(rathonsi_freshness_accept(&receiver, image, SIZE, told), RATHONSI_FRESHNESS_FAILURE, "accept once more");
}

/* How often candidates that nobody can verify make the device write while the counter stays. */
static void writes(uint16_t window, uint16_t most) {
    int plans = 0;
    start(100);
    receiver.window = window;
    for (uint64_t i = 1; i <= 256; i++) {
        uint64_t told = 0;
        if (rathonsi_freshness_candidate(&receiver, image, SIZE, 100 + i, 32, &told) == RATHONSI_RESERVE) {
            reserve(&receiver, told);
            plans++;
        }
    }
    expect(plans, most, "writes for candidates alone");
}

static void slot_macs(void) {
    static const uint8_t uid[15] = {1}, all_ones[16] = {255, 255, 255, 255, 255, 255, 255, 255, 255, 255, 255, 255, 255, 255, 255, 255};
    static const uint8_t message[5] = {9, 8, 7, 6, 5};
    const uint8_t before[16] = {7};
    uint8_t mac[16] = {7}, wanted[16];
    RathonsiUpdate update = {{1}, SLOT, SLOT, RATHONSI_KEY_USAGE, 1, {0x2b, 0x7e, 0x15, 0x16}};
    RathonsiRequest request;
    start(0);
    expect(rathonsi_slot_mac(3, 0, image, SIZE, message, 5, mac), RATHONSI_BAD_VALUE, "slot_mac, slot 3");
    expect(rathonsi_slot_mac(14, 0, image, SIZE, message, 5, mac), RATHONSI_BAD_VALUE, "slot_mac, slot 14");
    expect(rathonsi_slot_mac(SLOT, 2, image, SIZE, message, 5, mac), RATHONSI_BAD_VALUE, "slot_mac, booted 2");
    expect(rathonsi_slot_mac(SLOT, 0, image, SIZE, message, 5, mac), RATHONSI_KEY_EMPTY, "slot_mac, an empty slot");
    expect(rathonsi_slot_mac(SLOT, 0, image, 32, message, 5, mac), RATHONSI_DAMAGED, "slot_mac, no cell");
    for (int flags = 0; flags < 2; flags++) {
        expect(memcmp(mac, before, sizeof mac), 0, "slot_mac: nothing is written");
        if (flags == 1) update.flags = (uint8_t)(RATHONSI_KEY_USAGE | RATHONSI_BOOT_PROTECTION);
        else update.flags = 0;
        expect(rathonsi_she_make_update(flags == 0 ? all_ones : update.key, 16, &update, &request), RATHONSI_OK, "she_make_update");
        memset(&plan, 0, sizeof plan);
        expect(rathonsi_slot_load(uid, 1, &request, image, SIZE, &plan), RATHONSI_OK, "slot_load");
        expect(rathonsi_store_done(image, SIZE, &plan), RATHONSI_OK, "store_done");
        update.counter++;
        expect(rathonsi_slot_mac(SLOT, 0, image, SIZE, message, 5, mac), flags == 0 ? RATHONSI_KEY_INVALID : RATHONSI_KEY_NOT_AVAILABLE, "slot_mac");
    }
    expect(rathonsi_slot_mac(SLOT, 1, image, SIZE, message, 5, mac), RATHONSI_OK, "slot_mac after a boot");
    expect(rathonsi_cmac(update.key, 16, message, 5, wanted), RATHONSI_OK, "cmac");
    expect(memcmp(mac, wanted, sizeof mac), 0, "the MAC is that of the slot's key");
}

int main(void) {
    start(UINT64_MAX);
    worked_rows();
    drawn_rows(100000);
    refused_routes();
    senders();
    receivers();
    writes(16, 2);
    writes(8, 1);
    writes(256, 32);
    slot_macs();
    printf("%d calls, %d failures\n", calls, failures);
    return failures != 0;
}
