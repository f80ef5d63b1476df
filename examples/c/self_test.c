/*
 * A self-test of the library on the processor and by the compiler that it is for: vectors of the standards, and a thousand events of a
 * control unit whose power is cut within writes, over a device in RAM. It prints one line with a sum of all that came out, and says
 * whether it is the sum of the release. It needs the library, memcmp, memcpy, memset and putchar, 2.8 KB of RAM beside the stack, and
 * no file, clock or heap.
 */
#include <stdio.h>
#include <string.h>

#include "rathonsi_store.h"

/* The sum of the release: the same on every processor. It changes only if the library's answers or this file do. */
#define RELEASED UINT64_C(0x1a2aea1e650aa430)

enum { ROUTES = 3, SENDERS = 2, SIZE = RATHONSI_STORE_SIZE(ROUTES), EVENTS = 1000, SLOT = 4 };

static uint8_t device[SIZE], image[SIZE], key[16], pdu[RATHONSI_PDU_MOST], payload[RATHONSI_PAYLOAD_MOST];
static const uint8_t uid[15] = {0, 0, 0, 0, 0, 0, 0, 0, 0, 0, 0, 0, 0, 0, 1};
static RathonsiRoute routes[ROUTES];
static RathonsiPlan plan;
static uint64_t highest[ROUTES], sum = UINT64_C(0xcbf29ce484222325);
static uint32_t state = 88172645u, loads = 1, cuts, wrong;

static void add(const void *at, size_t length) {
    const uint8_t *bytes = at;
    for (size_t i = 0; i < length; i++) sum = (sum ^ bytes[i]) * UINT64_C(0x100000001b3);
}

static void add_number(uint64_t number) {
    uint8_t bytes[8];
    for (int i = 0; i < 8; i++) bytes[i] = (uint8_t)(number >> (8 * i));
    add(bytes, 8);
}

static int32_t status(int32_t it) {
    add_number((uint32_t)it);
    return it;
}

static void expect(int is_right) {
    if (!is_right) wrong++;
}

static uint32_t draw(uint32_t below) {
    state ^= state << 13;
    state ^= state >> 17;
    state ^= state << 5;
    return state % below;
}

static void fill(uint8_t *bytes, size_t length) {
    for (size_t i = 0; i < length; i++) bytes[i] = (uint8_t)draw(256);
}

/* FIPS 197 (C.1), SP 800-38B (D.1, example 2), and that one read as the Secured I-PDU of Data ID 6bc1. */
static void vectors(void) {
    static const uint8_t cipher[16] = {0x69, 0xc4, 0xe0, 0xd8, 0x6a, 0x7b, 0x04, 0x30, 0xd8, 0xcd, 0xb7, 0x80, 0x70, 0xb4, 0xc5, 0x5a};
    static const uint8_t nist[16] = {0x2b, 0x7e, 0x15, 0x16, 0x28, 0xae, 0xd2, 0xa6, 0xab, 0xf7, 0x15, 0x88, 0x09, 0xcf, 0x4f, 0x3c};
    static const uint8_t text[16] = {0x6b, 0xc1, 0xbe, 0xe2, 0x2e, 0x40, 0x9f, 0x96, 0xe9, 0x3d, 0x7e, 0x11, 0x73, 0x93, 0x17, 0x2a};
    static const uint8_t wanted[16] = {0x07, 0x0a, 0x16, 0xb4, 0x6b, 0x4d, 0x41, 0x44, 0xf7, 0x9b, 0xdd, 0x9d, 0xd0, 0x4a, 0x28, 0x7c};
    uint8_t counting[16], block[16], mac[16];
    for (int i = 0; i < 16; i++) {
        counting[i] = (uint8_t)i;
        block[i] = (uint8_t)(17 * i);
    }
    expect(rathonsi_aes128_encrypt(counting, 16, block, 16) == RATHONSI_OK && memcmp(block, cipher, 16) == 0);
    expect(rathonsi_aes128_decrypt(counting, 16, block, 16) == RATHONSI_OK && block[1] == 0x11 && block[15] == 0xff);
    expect(rathonsi_cmac(nist, 16, text, 16, mac) == RATHONSI_OK && memcmp(mac, wanted, 16) == 0);
    expect(rathonsi_secoc_protect(nist, 16, 0x6bc1, UINT64_C(0xe93d7e117393172a), text + 2, 6, pdu, 10) == RATHONSI_OK);
    expect(memcmp(pdu, text + 2, 6) == 0 && pdu[6] == 0x2a && memcmp(pdu + 7, wanted, 3) == 0);
}

/* As after each start: the image is what the device holds, no plan is left, and every route is opened. */
static void power_up(void) {
    memset(&plan, 0, sizeof plan);
    memcpy(image, device, SIZE);
    expect(rathonsi_store_check(image, SIZE) == RATHONSI_OK);
    for (int i = 0; i < ROUTES; i++) {
        expect(rathonsi_route_open(&routes[i], image, SIZE) == RATHONSI_OK && routes[i].counter >= highest[i]);
        add_number(routes[i].counter);
    }
}

/* Does the plan, or loses power within one of its writes. Whether it is done. */
static int do_plan(void) {
    for (int i = 0; i < 3; i++) {
        const RathonsiWrite *write = &plan.writes[i];
        uint32_t whole = draw(12) == 0 ? draw(write->length + 1u) : write->length;
        memcpy(device + write->offset, write->bytes, whole);
        if (whole == write->length) continue;
        fill(device + write->offset + whole, 1);
        cuts++;
        power_up();
        return 0;
    }
    return status(rathonsi_store_done(image, SIZE, &plan)) == RATHONSI_OK;
}

static int reserve(int which, uint64_t freshness) {
    return status(rathonsi_route_reserve(&routes[which], freshness, image, SIZE, &plan)) == RATHONSI_OK && do_plan();
}

static void sent(int which) {
    RathonsiRoute *route = &routes[which];
    size_t length = 1 + draw(RATHONSI_PAYLOAD_MOST);
    fill(payload, length);
    if (status(rathonsi_route_send(route, image, SIZE, payload, length, pdu, sizeof pdu)) == RATHONSI_RESERVE
        && (!reserve(which, route->counter + 1) || status(rathonsi_route_send(route, image, SIZE, payload, length, pdu, sizeof pdu)) != RATHONSI_OK))
        return;
    expect(route->counter > highest[which]);
    highest[which] = route->counter;
    add(pdu, length + RATHONSI_TRAILER);
}

/* A PDU of the far end, now and then an old or a damaged one. */
static void received(int which) {
    RathonsiRoute *route = &routes[which];
    uint64_t freshness = route->counter + draw(4);
    fill(payload, 8);
    status(rathonsi_secoc_protect(key, 16, route->data_id, freshness, payload, 8, pdu, sizeof pdu));
    if (draw(8) == 0) pdu[draw(12)] ^= 1;
    RathonsiVerdict verdict = rathonsi_route_receive(route, image, SIZE, pdu, 12);
    if (status(verdict.status) == RATHONSI_RESERVE && reserve(which, verdict.freshness)) verdict = rathonsi_route_receive(route, image, SIZE, pdu, 12);
    add_number(verdict.freshness);
    if (status(verdict.status) != RATHONSI_OK) return;
    expect(verdict.freshness > highest[which] && verdict.payload_length == 8);
    highest[which] = verdict.freshness;
}

/* Loads the key of the slot: the first time over an empty one, then with the key that is there. */
static void loaded(int is_first) {
    RathonsiUpdate update = {{0}, SLOT, SLOT, RATHONSI_KEY_USAGE, 0, {0}};
    RathonsiRequest request;
    RathonsiReply reply, wanted;
    memcpy(update.uid, uid, 15);
    update.counter = loads++;
    fill(update.key, 16);
    if (is_first) memset(key, 0xff, 16);
    status(rathonsi_she_make_update(key, 16, &update, &request));
    if (status(rathonsi_slot_load(uid, 0, &request, image, SIZE, &plan)) != RATHONSI_OK) return;
    int is_done = is_first ? status(rathonsi_store_done(image, SIZE, &plan)) == RATHONSI_OK : do_plan();
    status(rathonsi_she_confirm(&update, uid, &wanted));
    status(rathonsi_slot_confirm(uid, request.m1, image, SIZE, &reply));
    expect(!is_done || memcmp(&reply, &wanted, sizeof reply) == 0);
    add(&reply, sizeof reply);
    if (memcmp(&reply, &wanted, sizeof reply) == 0) memcpy(key, update.key, 16);
}

static void make_store(void) {
    expect(rathonsi_store_make(image, SIZE) == RATHONSI_OK);
    for (int i = 0; i < ROUTES; i++) {
        RathonsiRoute route = {0, 0, 0, 16, 256, SLOT, RATHONSI_SENDS, 1, 0, 0, {0}};
        route.data_id = (uint16_t)(0x120e + i);
        route.cell = (uint16_t)(RATHONSI_SLOT_CELLS + (unsigned)i);
        route.direction = i < SENDERS ? RATHONSI_SENDS : RATHONSI_RECEIVES;
        routes[i] = route;
        expect(rathonsi_route_make(&routes[i], UINT64_C(0xfffffff0), image, SIZE) == RATHONSI_OK);
    }
    loaded(1);
    memcpy(device, image, SIZE);
}

static void print(const char *text) {
    while (*text != 0) putchar(*text++);
}

static void print_hex(uint64_t number, int digits) {
    while (digits-- > 0) putchar("0123456789abcdef"[number >> (4 * digits) & 15]);
}

int main(void) {
    vectors();
    make_store();
    power_up();
    for (int i = 0; i < EVENTS; i++) {
        int which = (int)draw(ROUTES);
        if (draw(50) == 0) loaded(0);
        else if (which < SENDERS) sent(which);
        else received(which);
    }
    add(device, SIZE);
    print("rathonsi self-test: wrong ");
    print_hex(wrong, 4);
    print(", power cuts ");
    print_hex(cuts, 4);
    print(", sum ");
    print_hex(sum, 16);
    print(sum == RELEASED && wrong == 0 ? ", as released\n" : ", NOT as released\n");
    return sum == RELEASED && wrong == 0 ? 0 : 1;
}
