/*
 * Nanoseconds and operations of a put and of a start through rathonsi_flash.h, over a flash in memory that takes no
 * time, and beside them the same of a store on a device of bytes. 16 cells, units of 8, banks of 4,096 bytes. Each is
 * timed ROUNDS times, and the least counts: so other work on the machine shows little.
 */
#include <stdint.h>
#include <stdio.h>
#include <stdlib.h>
#include <string.h>
#include <time.h>

#include "rathonsi_flash.h"

enum { CELLS = RATHONSI_FLASH_CELLS(2), BANK = 4096, BANKS = 16, ROUNDS = 400, PUTS = 680 };

static uint8_t banks[BANKS][BANK], image[RATHONSI_STORE_SIZE(2)];
static RathonsiFlash flash;
static RathonsiFlashOperation operation;
static RathonsiCell cells[CELLS], scratch[CELLS];
static RathonsiRoute route;
static RathonsiPlan plan;
static uint64_t freshness;
static long operations;
static int tells_blank;

static double now(void) {
    struct timespec t;
    clock_gettime(CLOCK_MONOTONIC, &t);
    return 1e9 * (double)t.tv_sec + (double)t.tv_nsec;
}

/* Each call has to answer OK. */
static void expect(int32_t status, const char *what) {
    if (status != RATHONSI_OK) {
        printf("%s: status %d\n", what, (int)status);
        exit(1);
    }
}

static int is_erased(void) {
    for (uint32_t i = 0; i < operation.length; i++)
        if (operation.bytes[i] != 0xff)
            return 0;
    return 1;
}

static uint32_t perform(void) {
    uint8_t *at = banks[operation.bank] + operation.offset;
    operations++;
    switch (operation.kind) {
    case RATHONSI_FLASH_READ:
        memcpy(operation.bytes, at, operation.length);
        return tells_blank && is_erased() ? RATHONSI_FLASH_BLANK : RATHONSI_FLASH_DONE;
    case RATHONSI_FLASH_ERASE:
        memset(banks[operation.bank], 0xff, BANK);
        return RATHONSI_FLASH_DONE;
    default:
        memcpy(at, operation.bytes, operation.length);
        return RATHONSI_FLASH_DONE;
    }
}

static void work(void) {
    for (;;) {
        expect(rathonsi_flash_next(&flash, cells, CELLS, &operation), "next");
        if (operation.kind == RATHONSI_FLASH_NONE)
            return;
        expect(rathonsi_flash_did(&flash, cells, CELLS, scratch, CELLS, perform(), &operation), "did");
    }
}

static void start(uint8_t count) {
    expect(rathonsi_flash_begin(&flash, 8, count, BANK, CELLS), "begin");
    work();
}

static void put(void) {
    expect(rathonsi_route_reserve(&route, ++freshness, image, sizeof image, &plan), "reserve");
    expect(rathonsi_flash_put(&flash, &plan, cells, CELLS), "put");
    work();
    expect(rathonsi_store_done(image, sizeof image, &plan), "done");
}

static void make_image(void) {
    memset(&plan, 0, sizeof plan);
    route = (RathonsiRoute){0, 1, 14, 1, 256, 4, RATHONSI_SENDS, 0, 0, 0, {0}};
    freshness = 0;
    expect(rathonsi_store_make(image, sizeof image), "make");
    expect(rathonsi_route_make(&route, 0, image, sizeof image), "route_make");
    expect(rathonsi_route_open(&route, image, sizeof image), "open");
}

/* Lives of PUTS puts and a few more, and the start of each. */
static void time_lives(uint8_t count) {
    double put_best = 1e18, start_best = 1e18, image_best = 1e18;
    long of_puts = 0, of_starts = 0, most = 0;
    memset(banks, 0xff, sizeof banks);
    make_image();
    expect(rathonsi_flash_take(&flash, 8, count, BANK, image, sizeof image, cells, CELLS), "take");
    work();
    for (int round = 0; round < ROUNDS; round++) {
        long before = operations;
        double begin = now(), took;
        start(count);
        took = now() - begin;
        if (took < start_best)
            start_best = took;
        of_starts += operations - before;
        if (operations - before > most)
            most = operations - before;
        begin = now();
        expect(rathonsi_flash_image(&flash, cells, CELLS, image, sizeof image), "image");
        took = now() - begin;
        if (took < image_best)
            image_best = took;
        before = operations;
        begin = now();
        for (int i = 0; i < PUTS; i++)
            put();
        took = (now() - begin) / PUTS;
        if (took < put_best)
            put_best = took;
        of_puts += operations - before;
        for (int i = 0; i < round % 68; i++)
            put();
    }
    printf("%2d banks, blank %-8s a put %5.0f ns, %.2f operations; a start %7.0f ns, %ld operations on average, %ld at "
           "most; the image %.0f ns\n",
           count, tells_blank ? "told" : "not told", put_best, (double)of_puts / ROUNDS / PUTS, start_best,
           of_starts / ROUNDS, most, image_best);
}

/* The same bounds on a device of bytes, and what a start checks there. */
static void time_bytes(void) {
    double put_best = 1e18, check_best = 1e18;
    make_image();
    for (int round = 0; round < ROUNDS; round++) {
        double begin = now(), took;
        for (int i = 0; i < PUTS; i++) {
            expect(rathonsi_route_reserve(&route, ++freshness, image, sizeof image, &plan), "reserve");
            expect(rathonsi_store_done(image, sizeof image, &plan), "done");
        }
        took = (now() - begin) / PUTS;
        if (took < put_best)
            put_best = took;
        begin = now();
        for (int i = 0; i < PUTS; i++)
            expect(rathonsi_store_check(image, sizeof image), "check");
        took = (now() - begin) / PUTS;
        if (took < check_best)
            check_best = took;
    }
    printf("a device of bytes: a bound planned and done %.0f ns, 2 or 3 writes; the check of a start %.0f ns\n",
           put_best, check_best);
}

int main(void) {
    for (tells_blank = 0; tells_blank < 2; tells_blank++) {
        time_lives(2);
        time_lives(16);
    }
    time_bytes();
    printf("RAM: the struct %zu bytes, an operation %zu, cells and scratch %zu, the image %zu\n", sizeof flash,
           sizeof operation, sizeof cells + sizeof scratch, sizeof image);
    return 0;
}
