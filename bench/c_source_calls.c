/*
 * Of each call of the library what it costs where it runs: the bytes of stack, painted before the call; and its instructions, if the
 * processor has a counter that qemu drives: -DSYSTICK on a Cortex-M, whose counter goes down once in 40 instructions with
 * -icount shift=0 on mps2-an386. The key is expanded in each call. With -DMARKS a call of `mark` stands before and after each call.
 */
#include <stdio.h>
#include <stdlib.h>
#include <string.h>

#include "rathonsi_flash.h"
#include "rathonsi_freshness.h"

enum { DEPTH = 16384, CALLS = 17, TIMES = 20, CELLS = RATHONSI_FLASH_CELLS(2), BANK = 4096 };

static uint8_t image[RATHONSI_STORE_SIZE(2)], payload[8], pdu[64], uid[15], mac[16], text[64];
static const uint8_t key[16] = {0x2b, 0x7e, 0x15, 0x16, 0x28, 0xae, 0xd2, 0xa6, 0xab, 0xf7, 0x15, 0x88, 0x09, 0xcf, 0x4f, 0x3c};
static RathonsiPlan plan;
static RathonsiRoute sender, receiver, giver, taker;
/* The receivers as they were opened: each call that accepts begins with one. */
static RathonsiRoute first_receiver, first_taker;
static uint64_t freshness;
static RathonsiUpdate update;
static RathonsiRequest request;
static RathonsiReply reply;

/* A flash of two banks in memory, units of 8, and what it had after a start and 34 puts. */
static uint8_t banks[2][BANK], kept[2][BANK];
static RathonsiFlash flash;
static RathonsiFlashOperation operation;
static RathonsiCell cells[CELLS], scratch[CELLS];
static RathonsiPlan bound;

static const char *const names[CALLS] = {"nothing", "aes128_encrypt, a block", "cmac, 16 bytes", "secoc_protect, 8 bytes", "route_send, 8 bytes",
                                         "route_receive, 8 bytes", "store_check, 2 routes", "slot_load", "slot_confirm",
                                         "aes128_encrypt, two blocks", "flash, as it was", "flash, a start", "flash, a put",
                                         "flash_image", "freshness_next", "freshness_candidate", "freshness_accept"};

#ifdef SYSTICK
static volatile uint32_t *const systick = (volatile uint32_t *)0xE000E010;
static uint32_t ticks(void) { return 0xffffffu - systick[2]; }
static void begin(void) { systick[1] = 0xffffffu; systick[2] = 0; systick[0] = 5; for (volatile int i = 0; i < 1000; i++) {} }
#else
static uint32_t ticks(void) { return 0; }
static void begin(void) {}
#endif

/* What is set up has to work. */
static int wrong;
static void set(int32_t status) { wrong += status != RATHONSI_OK; }

static uint32_t perform(void) {
    uint8_t *at = banks[operation.bank] + operation.offset;
    if (operation.kind == RATHONSI_FLASH_READ)
        memcpy(operation.bytes, at, operation.length);
    else if (operation.kind == RATHONSI_FLASH_PROGRAM)
        memcpy(at, operation.bytes, operation.length);
    else
        memset(at, 0xff, BANK);
    return RATHONSI_FLASH_DONE;
}

static int32_t work(void) {
    for (;;) {
        int32_t status = rathonsi_flash_next(&flash, cells, CELLS, &operation);
        if (status != RATHONSI_OK || operation.kind == RATHONSI_FLASH_NONE) return status;
        status = rathonsi_flash_did(&flash, cells, CELLS, scratch, CELLS, perform(), &operation);
        if (status != RATHONSI_OK) return status;
    }
}

static int32_t flash_start(void) {
    int32_t status = rathonsi_flash_begin(&flash, 8, 2, BANK, CELLS);
    return status == RATHONSI_OK ? work() : status;
}

static int32_t flash_put(void) {
    int32_t status = rathonsi_flash_put(&flash, &bound, cells, CELLS);
    return status == RATHONSI_OK ? work() : status;
}

static int32_t call(int which) {
    switch (which) {
    case 1: return rathonsi_aes128_encrypt(key, 16, text, 16);
    case 2: return rathonsi_cmac(key, 16, text, 16, mac);
    case 3: return rathonsi_secoc_protect(key, 16, 0x1234, 77, payload, 8, pdu, 64);
    case 4: return rathonsi_route_send(&sender, image, sizeof image, payload, 8, pdu, 64);
    case 5: receiver = first_receiver; return rathonsi_route_receive(&receiver, image, sizeof image, pdu, 12).status;
    case 6: return rathonsi_store_check(image, sizeof image);
    case 7: memset(&plan, 0, sizeof plan); return rathonsi_slot_load(uid, 0, &request, image, sizeof image, &plan);
    case 8: return rathonsi_slot_confirm(uid, request.m1, image, sizeof image, &reply);
    case 9: return rathonsi_aes128_encrypt(key, 16, text, 32);
    case 10: memcpy(banks, kept, sizeof banks); return 0;
    case 11: memcpy(banks, kept, sizeof banks); return flash_start();
    case 12: return flash_put();
    case 13: return rathonsi_flash_image(&flash, cells, CELLS, image, sizeof image);
    case 14: return rathonsi_freshness_next(&giver, image, sizeof image, &freshness);
    case 15: return rathonsi_freshness_candidate(&taker, image, sizeof image, 5, 8, &freshness);
    case 16: taker = first_taker; return rathonsi_freshness_accept(&taker, image, sizeof image, 5);
    default: return 0;
    }
}

/* The bytes below this frame that a call changes, less what a call of nothing does. */
__attribute__((noinline)) static uint32_t stack_of(int which, int32_t *status) {
    volatile uint8_t *top = (volatile uint8_t *)__builtin_frame_address(0) - 256, *low = top - DEPTH, *p = low;
    for (volatile uint8_t *at = low; at < top; at++) *at = 0xc5;
    *status = call(which);
    while (p < top && *p == 0xc5) p++;
    return (uint32_t)(top - p) + 256;
}

/* Opens both routes, with and without the library's own MAC, and reserves for all calls. */
static void open_routes(void) {
    RathonsiRoute *const both[2] = {&sender, &receiver};
    giver = sender;
    taker = receiver;
    giver.freshness_only = taker.freshness_only = 1;
    set(rathonsi_route_open(&giver, image, sizeof image));
    set(rathonsi_route_open(&taker, image, sizeof image));
    for (int i = 0; i < 2; i++) {
        set(rathonsi_route_open(both[i], image, sizeof image));
        set(rathonsi_route_reserve(both[i], 256, image, sizeof image, &plan));
        set(rathonsi_store_done(image, sizeof image, &plan));
    }
    first_receiver = receiver;
    first_taker = taker;
}

static void set_up(void) {
    uint8_t empty[16];
    memset(empty, 0xff, 16);
    uid[14] = 1;
    memcpy(update.uid, uid, 15);
    update.id = update.auth = 4;
    update.flags = RATHONSI_KEY_USAGE;
    update.counter = 1;
    memcpy(update.key, key, 16);
    set(rathonsi_store_make(image, sizeof image));
    RathonsiRoute route = {0, 0x1234, 14, 128, 256, 4, RATHONSI_SENDS, 0, 0, 0, {0}};
    sender = receiver = route;
    receiver.cell = 15;
    receiver.direction = RATHONSI_RECEIVES;
    set(rathonsi_route_make(&sender, 0, image, sizeof image));
    set(rathonsi_route_make(&receiver, 0, image, sizeof image));
    set(rathonsi_she_make_update(empty, 16, &update, &request));
    set(rathonsi_slot_load(uid, 0, &request, image, sizeof image, &plan));
    set(rathonsi_store_done(image, sizeof image, &plan));
    update.counter = 2;
    set(rathonsi_she_make_update(key, 16, &update, &request));
    open_routes();
    set(rathonsi_flash_take(&flash, 8, 2, BANK, image, sizeof image, cells, CELLS));
    set(work());
    set(flash_start());
    set(rathonsi_route_reserve(&receiver, 400, image, sizeof image, &bound));
    for (int i = 0; i < 34; i++) set(flash_put());
    memcpy(kept, banks, sizeof banks);
}

int main(int count, char **words) {
    set_up();
    if (wrong) return 1;
    if (count > 1) { /* a call alone, once or several times, for who counts from outside */
        int which = atoi(words[1]), times = count > 2 ? words[2][0] - '0' : 1;
        for (int i = 0; i < times; i++) call(which);
        return 0;
    }
    begin();
    for (int which = 0; which < CALLS; which++) {
        int32_t status = 0;
        uint32_t from = ticks();
        for (int i = 0; i < TIMES; i++) status = call(which);
        uint32_t instructions = (ticks() - from) * 40 / TIMES, stack = stack_of(which, &status);
        printf("%-26s status %d %7lu instructions %5lu bytes of stack\n", names[which], (int)status, (unsigned long)instructions, (unsigned long)stack);
    }
    return 0;
}
