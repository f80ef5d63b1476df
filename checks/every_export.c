/*
 * every_export [ROUNDS [SEED]]: calls every export of the library with drawn arguments, right and wrong, over damaged stores and plans, too,
 * and prints a sum of all that comes out after each thousand rounds, and how often each status came. One seed gives the same lines on
 * every processor, unless two builds of the library differ.
 */
#include <stdio.h>
#include <stdlib.h>
#include <string.h>

#include "../examples/c/open_by_hand.h"
#include "rathonsi_flash.h"
#include "rathonsi_freshness.h"

enum { ROUTES = 3, SIZE = RATHONSI_STORE_SIZE(ROUTES), MORE = 68, SLOTS = 14, STATUSES = 22 };
enum { CELLS = RATHONSI_FLASH_CELLS(ROUTES), LINES = CELLS + 6, BANKS = 3 };

static uint8_t image[SIZE + 2 * MORE], key[16], uid[15], text[320], pdu[80], payload[80], mac[16], iv[16], keys[SLOTS][16];
static RathonsiRoute routes[ROUTES];
static RathonsiPlan plan;
static RathonsiUpdate update;
static RathonsiRequest request;
static RathonsiReply reply;
static RathonsiFlash flash;
static RathonsiFlashOperation operation;
static RathonsiCell cells[CELLS], scratch[CELLS];
static uint8_t lines[BANKS][LINES * 48];
static uint32_t state, loads;
static unsigned long seen[STATUSES];
static uint64_t sum = UINT64_C(0xcbf29ce484222325);

static uint32_t below(uint32_t n) {
    state ^= state << 13;
    state ^= state >> 17;
    state ^= state << 5;
    return state % n;
}

static int one_in(uint32_t n) {
    return below(n) == 0;
}

static void fill(uint8_t *at, size_t length) {
    for (size_t i = 0; i < length; i++) at[i] = (uint8_t)below(256);
}

static void flip(void *at, uint32_t length) {
    uint8_t *bytes = at;
    uint32_t i = below(length), bit = below(8);
    bytes[i] = (uint8_t)(bytes[i] ^ (1u << bit));
}

static void add(const void *at, size_t length) {
    const uint8_t *bytes = at;
    for (size_t i = 0; i < length; i++) sum = (sum ^ bytes[i]) * UINT64_C(0x100000001b3);
}

static void add_number(uint64_t number) {
    uint8_t bytes[8];
    for (int i = 0; i < 8; i++) bytes[i] = (uint8_t)(number >> (8 * i));
    add(bytes, 8);
}

static int32_t status(int32_t it) {
    if (it < 0 || it >= STATUSES) {
        printf("status %ld\n", (long)it);
        exit(1);
    }
    seen[it]++;
    add_number((uint64_t)it);
    return it;
}

static int32_t add_verdict(RathonsiVerdict it) {
    add_number(it.payload_length);
    add_number(it.freshness);
    return status(it.status);
}

static void add_update(void) {
    add(update.uid, 15);
    add_number(update.id);
    add_number(update.auth);
    add_number(update.flags);
    add_number(update.counter);
    add(update.key, 16);
}

static void add_plan(void) {
    for (int i = 0; i < 3; i++) {
        add_number(plan.writes[i].offset);
        add_number(plan.writes[i].length);
        add(plan.writes[i].bytes, sizeof plan.writes[i].bytes);
    }
}

static void add_route(const RathonsiRoute *it) {
    const uint64_t numbers[10] = {it->counter,   it->data_id, it->cell,   it->reserve, it->window, it->slot,
                                  it->direction, it->booted,  it->opened, it->freshness_only};
    for (int i = 0; i < 10; i++) add_number(numbers[i]);
    add(it->check, sizeof it->check);
}

static size_t key_length(void) {
    return one_in(12) ? below(17) : 16;
}

static uint64_t freshness(void) {
    uint64_t high = below(3), low = below(256);
    switch (below(4)) {
    case 0: return below(600);
    case 1: return UINT64_MAX - below(300);
    case 2: return (uint64_t)below(UINT32_MAX) << 32 | low;
    default: return (high << 32) - below(4);
    }
}

static void call_cipher(void) {
    size_t k = key_length(), n = one_in(5) ? below(300) : 16 * below(19);
    fill(key, 16);
    fill(text, n);
    fill(iv, 16);
    switch (below(5)) {
    case 0: status(rathonsi_aes128_encrypt(key, k, text, n)); break;
    case 1: status(rathonsi_aes128_decrypt(key, k, text, n)); break;
    case 2: status(rathonsi_aes128_cbc_encrypt(key, k, iv, text, n)); break;
    case 3: status(rathonsi_aes128_cbc_decrypt(key, k, iv, text, n)); break;
    default: status(rathonsi_cmac(key, k, text, n, mac)); break;
    }
    add(mac, 16);
    add(text, sizeof text);
}

static void call_pdu(void) {
    size_t k = key_length(), n = below(66), more = below(3), room = one_in(4) ? below(76) : n + RATHONSI_TRAILER + more;
    uint64_t counter = freshness();
    uint16_t id = (uint16_t)below(65536);
    fill(key, 16);
    fill(payload, n);
    fill(pdu, sizeof pdu);
    if (one_in(2)) status(rathonsi_secoc_protect(key, k, id, counter, payload, n, pdu, room));
    else status(rathonsi_secoc_protect_in_place(key, k, id, counter, pdu, room, n));
    add(pdu, sizeof pdu);
    if (one_in(6)) flip(pdu, sizeof pdu);
    counter -= below(5);
    uint16_t window = (uint16_t)(one_in(5) ? below(65536) : 1 + below(256));
    size_t length = one_in(8) ? below(80) : n + RATHONSI_TRAILER;
    add_verdict(rathonsi_secoc_verify(key, k, id, counter, window, pdu, length));
}

static void draw_update(void) {
    fill(uid, 15);
    if (!one_in(3)) {
        memset(uid, 0, 15);
        uid[14] = 1;
    }
    memcpy(update.uid, uid, 15);
    if (one_in(4)) memset(update.uid, 0, 15);
    update.id = (uint8_t)below(one_in(8) ? 40 : SLOTS);
    update.auth = (uint8_t)(one_in(2) ? update.id : below(SLOTS));
    update.flags = (uint8_t)(one_in(8) ? below(256) : below(32));
    uint32_t shift = below(8);
    update.counter = one_in(3) ? below(UINT32_MAX) >> shift : 1 + below(20);
    fill(update.key, 16);
}

static void call_update(void) {
    uint8_t derived[16] = {0};
    size_t k = key_length();
    fill(key, 16);
    uint32_t which = 1 + below(3);
    status(rathonsi_she_derive(key, k, which, derived));
    add(derived, 16);
    draw_update();
    status(rathonsi_she_make_update(key, k, &update, &request));
    add(&request, sizeof request);
    if (one_in(4)) flip(&request, sizeof request);
    k = key_length();
    status(rathonsi_she_read_update(key, k, &request, &update));
    add_update();
    status(rathonsi_she_confirm(&update, uid, &reply));
    add(&reply, sizeof reply);
}

static void make_store(void) {
    status(rathonsi_store_make(image, SIZE + (one_in(4) ? MORE : 0)));
    status(rathonsi_store_make(image, SIZE));
    memset(&plan, 0, sizeof plan);
    memset(keys, 0xff, sizeof keys);
    loads = 0;
    for (int i = 0; i < ROUTES; i++) {
        RathonsiRoute *it = &routes[i];
        it->counter = freshness();
        it->data_id = (uint16_t)below(65536);
        it->cell = (uint16_t)(RATHONSI_SLOT_CELLS + (unsigned)i);
        it->reserve = (uint16_t)(1 + below(128));
        it->window = (uint16_t)(1 + below(256));
        it->slot = (uint8_t)(4 + below(3));
        it->direction = (uint8_t)(1 + i % 2);
        it->booted = (uint8_t)!one_in(4);
        if (!one_in(6)) open_by_hand(it, it->counter);
        uint64_t bound = freshness();
        status(rathonsi_route_make(it, bound, image, SIZE));
    }
}

/* Says that the plan is done, now and then of a damaged plan, or over a part of the image; or leaves it as it is. */
static void finish(void) {
    add_plan();
    if (one_in(30)) return;
    if (one_in(40)) {
        RathonsiWrite *it = &plan.writes[below(3)];
        it->length = below(60);
        it->offset = one_in(2) ? below(UINT32_MAX) : below(SIZE + 50);
    }
    if (status(rathonsi_store_done(image, one_in(40) ? below(SIZE) : SIZE, &plan)) != RATHONSI_OK) memset(&plan, 0, sizeof plan);
}

static void damage_route(RathonsiRoute *it) {
    switch (below(8)) {
    case 6: it->opened = (uint8_t)below(3); break;
    case 0: it->cell = (uint16_t)below(20); break;
    case 1: it->reserve = (uint16_t)below(300); break;
    case 2: it->window = (uint16_t)below(300); break;
    case 3: it->slot = (uint8_t)below(16); break;
    case 4: it->direction = (uint8_t)below(4); break;
    case 5: it->booted = (uint8_t)below(3); break;
    default:
        if (one_in(4)) it->counter = freshness();
        else open_by_hand(it, freshness());
    }
    add_number(rathonsi_route_fault(it));
}

static void reserve(const RathonsiRoute *it, uint64_t bound, size_t size) {
    RathonsiVerdict verdict = {one_in(9) ? RATHONSI_OK : RATHONSI_RESERVE, 0, bound};
    switch (below(6)) {
    case 0: status(rathonsi_route_advance(it, bound, image, size, &plan)); break;
    case 1: status(rathonsi_route_reserve_next(it, image, size, &plan)); break;
    case 2: status(rathonsi_route_reserve_for(it, &verdict, image, size, &plan)); break;
    case 3: status(rathonsi_route_reserve_ahead(it, below(200), image, size, &plan)); break;
    default: status(rathonsi_route_reserve(it, bound, image, size, &plan));
    }
    finish();
}

static void send(RathonsiRoute *it, size_t n, size_t size) {
    fill(payload, n);
    int32_t said = status(rathonsi_route_send(it, image, size, payload, n, pdu, one_in(10) ? below(80) : n + RATHONSI_TRAILER));
    add(pdu, sizeof pdu);
    if (said == RATHONSI_RESERVE) reserve(it, it->counter + 1, SIZE);
}

static void receive(RathonsiRoute *it, size_t n, size_t size) {
    if (!one_in(3)) {
        const uint8_t *of = keys[it->slot < SLOTS ? it->slot : 4];
        uint64_t next = it->counter + 1 + below(3);
        fill(payload, n);
        status(rathonsi_secoc_protect(of, 16, it->data_id, next, payload, n, pdu, sizeof pdu));
    }
    size_t length = one_in(10) ? below(80) : n + RATHONSI_TRAILER;
    RathonsiVerdict said = rathonsi_route_receive(it, image, size, pdu, length);
    if (add_verdict(said) == RATHONSI_RESERVE) {
        reserve(it, said.freshness, SIZE);
        add_verdict(rathonsi_route_receive(it, image, SIZE, pdu, length));
    }
}

static void load(size_t size) {
    draw_update();
    if (!one_in(4)) {
        update.id = update.auth = (uint8_t)(4 + below(3));
        update.flags = RATHONSI_KEY_USAGE;
        if (one_in(6)) update.flags = (uint8_t)(update.flags | RATHONSI_BOOT_PROTECTION);
        if (one_in(200)) update.flags = (uint8_t)(update.flags | RATHONSI_WRITE_PROTECTION);
        update.counter = ++loads;
        memset(uid, 0, 15);
        uid[14] = 1;
        memcpy(update.uid, uid, 15);
    }
    status(rathonsi_she_make_update(keys[update.auth < SLOTS ? update.auth : 0], 16, &update, &request));
    if (one_in(10)) flip(&request, sizeof request);
    if (status(rathonsi_slot_load(uid, (uint8_t)below(one_in(9) ? 4 : 2), &request, image, size, &plan)) == RATHONSI_OK) {
        finish();
        if (update.id < SLOTS) memcpy(keys[update.id], update.key, 16);
    }
    memset(&reply, 7, sizeof reply);
    status(rathonsi_slot_confirm(uid, request.m1, image, size, &reply));
    add(&reply, sizeof reply);
}

static void tell(const RathonsiRoute *it, size_t size) {
    RathonsiSlotState slot = {7, 7, 7, {7, 7}};
    RathonsiRouteState route = {7, 7};
    status(rathonsi_slot_state((uint8_t)below(one_in(5) ? 40 : SLOTS), image, size, &slot));
    add_number(slot.counter);
    add_number(slot.filled);
    add_number(slot.flags);
    add(slot.unused, sizeof slot.unused);
    status(rathonsi_route_state(it, image, size, &route));
    add_number(route.counter);
    add_number(route.bound);
}

/* Room for a cell more, and a route whose cell that is. */
static void grow(void) {
    RathonsiRoute it = routes[0];
    uint8_t store[SIZE + 2 * MORE];
    uint32_t told = 7, which = 7;
    uint16_t cell = 7;
    RathonsiRoute all[ROUTES];
    memcpy(all, routes, sizeof routes);
    status(rathonsi_routes_open(all, ROUTES, image, SIZE, &which));
    add_number(which);
    for (int i = 0; i < ROUTES; i++) add_route(&all[i]);
    status(rathonsi_store_look(image, one_in(9) ? below(SIZE) : SIZE, &cell));
    add_number(cell);
    memcpy(store, image, sizeof store);
    if (one_in(2)) flip(store, one_in(2) ? 32 : sizeof store);
    status(rathonsi_store_size(store, one_in(8) ? below(SIZE) : sizeof store, &told));
    add_number(told);
    status(rathonsi_store_mend(store, one_in(8) ? SIZE : sizeof store, &plan));
    add_plan();
    if (plan.writes[2].offset == 10) memset(&plan, 0, sizeof plan);
    it.cell = (uint16_t)(RATHONSI_SLOT_CELLS + ROUTES - (one_in(6) ? 1u : 0u));
    it.data_id++;
    if (one_in(8)) {
        it.data_id = routes[0].data_id;
        it.direction = routes[0].direction;
    }
    const uint64_t bound = freshness(); /* the arguments of a call are evaluated in any order */
    status(rathonsi_store_grow(&it, bound, image, one_in(8) ? SIZE : SIZE + 2 * MORE, &plan));
    add_plan();
    if (plan.writes[2].offset == 10) memset(&plan, 0, sizeof plan);
}

static void answer_nonce(RathonsiRoute *it, size_t size) {
    uint8_t answer[24], mac[16] = {0};
    RathonsiRoute other = *it;
    RathonsiQuestion question;
    RathonsiAnswerInput input;
    question.asker = below(3);
    question.answerer = below(3);
    fill(question.nonce, sizeof question.nonce);
    fill(answer, sizeof answer);
    memset(&input, 7, sizeof input);
    status(rathonsi_sync_answer(it, image, size, &question, answer));
    add(answer, sizeof answer);
    status(rathonsi_sync_answer_input(it, image, size, &question, &input));
    add_number(input.counter);
    add(input.bytes, sizeof input.bytes);
    if (one_in(2)) { /* the answer to the route of the other direction, which the same unit has here */
        other.direction ^= 3;
        open_by_hand(&other, freshness());
        status(rathonsi_sync_answer_input(&other, image, size, &question, &input));
        status(rathonsi_cmac(keys[it->slot < SLOTS ? it->slot : 4], 16, input.bytes, sizeof input.bytes, mac));
        if (one_in(9)) flip(input.bytes, sizeof input.bytes);
        status(rathonsi_sync_answer_mac(&input, mac, answer));
        other.direction ^= 3;
    }
    if (one_in(3)) flip(answer, sizeof answer);
    open_by_hand(&other, freshness());
    if (one_in(2)) add_verdict(rathonsi_sync_take(&other, image, size, &question, answer));
    else {
        status(rathonsi_sync_take_input(&other, image, size, &question, answer, &input));
        add(input.bytes, sizeof input.bytes);
        status(rathonsi_cmac(keys[it->slot < SLOTS ? it->slot : 4], 16, input.bytes, sizeof input.bytes, mac));
        if (one_in(9)) flip(input.bytes, sizeof input.bytes);
        add_verdict(rathonsi_sync_take_mac(&other, image, size, &question, answer, &input, mac));
    }
    add_route(&other);
    const uint64_t bound = freshness();
    open_with(&other, bound, (uint8_t)(1 + below(2))); /* fresh, or a call moved its counter */
    if (one_in(2)) add_verdict(rathonsi_sync_rejoin(&other, image, size, &question, answer));
    else add_verdict(rathonsi_sync_rejoin_mac(&other, image, size, &question, answer, &input, mac));
    add_route(&other);
    other.freshness_only = (uint8_t)below(2);
    open_by_hand(&other, freshness());
    status(rathonsi_sync_nonce(&other, image, size, question.asker, mac));
    add(mac, sizeof mac);
    add_route(&other);
}

static void step(RathonsiRoute *it, size_t n, size_t size) {
    RathonsiInput input;
    memset(&input, 7, sizeof input);
    fill(payload, n);
    status(rathonsi_send_input(it, image, size, payload, n, &input));
    if (one_in(5)) flip(input.bytes, sizeof input.bytes);
    if (input.length <= 70) status(rathonsi_cmac(keys[4], 16, input.bytes, input.length, mac));
    status(rathonsi_send_mac(it, image, size, payload, n, &input, mac, pdu, one_in(10) ? below(80) : n + RATHONSI_TRAILER));
    add(pdu, sizeof pdu);
    status(rathonsi_receive_input(it, image, size, pdu, n + RATHONSI_TRAILER, &input));
    add_number(input.freshness);
    add_number(input.length);
    add(input.bytes, sizeof input.bytes);
    add_verdict(rathonsi_receive_mac(it, image, size, pdu, n + RATHONSI_TRAILER, &input, mac));
}

/* The calls for another SecOC module, mostly on a route that is for these alone. */
static void manage(RathonsiRoute *it, size_t size) {
    uint64_t told = 7, sent = it->counter + 1 + below(300);
    const uint8_t bits = (uint8_t)(one_in(8) ? below(256) : 1 + below(64));
    if (bits != 0 && bits < 64 && !one_in(9)) sent &= (UINT64_C(1) << bits) - 1;
    it->freshness_only = (uint8_t)(one_in(30) ? below(256) : !one_in(5));
    if (status(rathonsi_freshness_next(it, image, size, &told)) == RATHONSI_RESERVE) reserve(it, it->counter + 1, SIZE);
    add_number(told);
    if (status(rathonsi_freshness_candidate(it, image, size, sent, bits, &told)) == RATHONSI_RESERVE) reserve(it, told, SIZE);
    add_number(told);
    if (one_in(3)) told = freshness();
    status(rathonsi_freshness_accept(it, image, size, told));
    it->freshness_only = 0;
    const uint8_t slot = (uint8_t)(one_in(6) ? below(20) : 4 + below(3)), booted = (uint8_t)below(one_in(9) ? 4 : 2);
    const size_t n = below(100);
    fill(text, n);
    status(rathonsi_slot_mac(slot, booted, image, size, text, n, mac));
    add(mac, 16);
}

static void boot(size_t size) {
    RathonsiBoot booting;
    RathonsiMac of;
    uint8_t booted = 7;
    size_t n = below(300), cut = below((uint32_t)n + 1);
    memset(&booting, 0, sizeof booting);
    memset(&of, 0, sizeof of);
    fill(text, n);
    status(rathonsi_boot(image, size, text, n, &booted));
    status(rathonsi_boot_begin(image, size, (uint32_t)n, &booting));
    status(rathonsi_boot_update(&booting, text, cut));
    status(rathonsi_boot_finish(&booting, &booted));
    add_number(booted);
    status(rathonsi_mac_begin(key, key_length(), &of));
    status(rathonsi_mac_update(&of, text, cut));
    status(rathonsi_mac_update(&of, text + cut, n - cut));
    status(rathonsi_mac_finish(&of, mac));
    add(mac, sizeof mac);
}

static void call_store(void) {
    RathonsiRoute *it = &routes[below(ROUTES)];
    size_t n = one_in(12) ? below(70) : 1 + below(60), size = one_in(60) ? below(SIZE + MORE + 1) : SIZE;
    if (one_in(60)) damage_route(it);
    if (plan.writes[1].length != 0 && one_in(2)) finish();
    switch (below(14)) {
    case 13: manage(it, size); break;
    case 0: status(rathonsi_route_open(it, image, size)); break;
    case 8: tell(it, size); break;
    case 9: grow(); break;
    case 10: answer_nonce(it, size); break;
    case 11: step(it, n, size); break;
    case 12: boot(size); break;
    case 1: reserve(it, one_in(3) ? freshness() : it->counter + 1, size); break;
    case 2: case 3: send(it, n, size); break;
    case 4: case 5: receive(it, n, size); break;
    case 6: load(size); break;
    default:
        status(rathonsi_store_check(image, size));
        if (one_in(90)) flip(image, SIZE);
        if (one_in(60)) make_store();
        break;
    }
    add_route(it);
    add(image, sizeof image);
}

/* Performs the operation on the lines; now and then it fails, or gives something else. */
static uint32_t perform_operation(void) {
    uint8_t *at;
    if (operation.bank >= BANKS || operation.offset > sizeof lines[0] - 48u || one_in(400)) return below(5);
    at = lines[operation.bank] + operation.offset;
    switch (operation.kind) {
    case RATHONSI_FLASH_READ: memcpy(operation.bytes, at, 48); break;
    case RATHONSI_FLASH_ERASE: memset(lines[operation.bank], 0xff, sizeof lines[0]); break;
    default: memcpy(at, operation.bytes, 48); break;
    }
    if (one_in(2000)) flip(operation.bytes, 48);
    return operation.kind == RATHONSI_FLASH_READ && operation.bytes[47] == 0xff ? RATHONSI_FLASH_BLANK : RATHONSI_FLASH_DONE;
}

/* One operation: what comes next, and its outcome. */
static int32_t one_operation(size_t n) {
    int32_t is = status(rathonsi_flash_next(&flash, cells, n, &operation));
    add_number(operation.kind);
    add_number(operation.bank);
    add_number(operation.offset);
    add_number(operation.length);
    if (is != RATHONSI_OK || operation.kind == RATHONSI_FLASH_NONE) return is;
    if (operation.kind == RATHONSI_FLASH_PROGRAM) add(operation.bytes, operation.length);
    const size_t m = n > 0 && one_in(80) ? n - 1 : n;
    const uint32_t outcome = perform_operation();
    status(rathonsi_flash_did(&flash, cells, n, scratch, m, outcome, &operation));
    return is;
}

static void begin_flash(size_t n, size_t size) {
    const uint16_t unit = (uint16_t)(one_in(12) ? below(140) : 8 + 8 * below(2));
    const uint8_t banks = (uint8_t)(one_in(12) ? below(20) : BANKS);
    const uint32_t bank_size = one_in(12) ? below(20000) : sizeof lines[0];
    if (one_in(3))
        status(rathonsi_flash_take(&flash, unit, banks, bank_size, image, size, cells, n));
    else
        status(rathonsi_flash_begin(&flash, unit, banks, bank_size, n));
}

static void call_flash(void) {
    const size_t n = one_in(40) ? below(CELLS + 1) : CELLS, size = one_in(40) ? below(SIZE + MORE + 1) : SIZE;
    uint8_t made[SIZE + MORE];
    switch (below(6)) {
    case 0: begin_flash(n, size); break;
    case 1: status(rathonsi_flash_put(&flash, &plan, cells, n)); break;
    case 2:
        memset(made, 0, sizeof made);
        status(rathonsi_flash_image(&flash, cells, n, made, size));
        add(made, sizeof made);
        break;
    case 3: one_operation(n); break;
    default:
        for (int i = 0; i < 200 && one_operation(n) == RATHONSI_OK && operation.kind != RATHONSI_FLASH_NONE; i++) continue;
        break;
    }
    add(cells, sizeof cells);
}

int main(int count, char **words) {
    long rounds = count > 1 ? atol(words[1]) : 20000;
    state = count > 2 ? (uint32_t)atol(words[2]) : 88172645u;
    add_number(rathonsi_version());
    make_store();
    for (long i = 1; i <= rounds; i++) {
        switch (below(9)) {
        case 8: call_flash(); break;
        case 0: call_cipher(); break;
        case 1: call_pdu(); break;
        case 2: call_update(); break;
        default: call_store(); break;
        }
        if (i % 1000 == 0 || i == rounds) printf("%ld %08lx%08lx\n", i, (unsigned long)(sum >> 32), (unsigned long)(sum & 0xffffffffu));
    }
    printf("statuses");
    for (int i = 0; i < STATUSES; i++) printf(" %d:%lu", i, seen[i]);
    printf("\n");
    return 0;
}
