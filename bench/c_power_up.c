/*
 * What the calls of a power-up cost on the Cortex-M4 that qemu has: instructions by the counter of the board (see c_source_calls.c) and
 * bytes of stack, which is painted before the call, with 2 to 256 routes. Prints rows of Markdown, without code.
 */
#include <stdio.h>
#include <string.h>

#include "rathonsi_store.h"

enum { MOST = 256, COUNTS = 4, TIMES = 10, DEPTH = 8192 };

static const unsigned counts[COUNTS] = {2, 8, 64, MOST};
static uint8_t image[RATHONSI_STORE_SIZE(MOST + 1)];
static RathonsiPlan plan, bound;
static RathonsiRoute routes[MOST + 1];
static int wrong;

static volatile uint32_t *const systick = (volatile uint32_t *)0xE000E010;

static uint32_t ticks(void) {
    return 0xffffffu - systick[2];
}

static void set(int32_t status) {
    wrong += status != RATHONSI_OK;
}

static int32_t nothing(unsigned count) {
    return (int32_t)(count - count);
}

static int32_t check(unsigned count) {
    return rathonsi_store_check(image, RATHONSI_STORE_SIZE(count));
}

static int32_t size(unsigned count) {
    uint32_t bytes;
    return rathonsi_store_size(image, RATHONSI_STORE_SIZE(count + 1), &bytes);
}

static int32_t mend(unsigned count) {
    return rathonsi_store_mend(image, RATHONSI_STORE_SIZE(count + 1), &plan);
}

/* The last route has its cell: nothing is planned. */
static int32_t grow(unsigned count) {
    return rathonsi_store_grow(&routes[count - 1], 0, image, RATHONSI_STORE_SIZE(count + 1), &plan);
}

/* A route more. */
static int32_t grow_more(unsigned count) {
    memset(&plan, 0, sizeof plan);
    return rathonsi_store_grow(&routes[count], 0, image, sizeof image < RATHONSI_STORE_SIZE(count + 2) ? sizeof image : RATHONSI_STORE_SIZE(count + 2), &plan);
}

static int32_t open_all(unsigned count) {
    uint32_t which;
    return rathonsi_routes_open(routes, count, image, RATHONSI_STORE_SIZE(count), &which);
}

static int32_t done(unsigned count) {
    RathonsiPlan once = bound;
    return rathonsi_store_done(image, RATHONSI_STORE_SIZE(count), &once);
}

static int32_t look(unsigned count) {
    uint16_t cell;
    return rathonsi_store_look(image, RATHONSI_STORE_SIZE(count), &cell);
}

static const struct {
    const char *name;
    int32_t (*call)(unsigned);
} calls[] = {{"`rathonsi_store_check`", check},
             {"`rathonsi_store_size`", size},
             {"`rathonsi_store_mend`, nothing to mend", mend},
             {"`rathonsi_store_grow`, the last route has its cell", grow},
             {"`rathonsi_store_grow`, a route more", grow_more},
             {"`rathonsi_routes_open`", open_all},
             {"`rathonsi_store_done`, a reserve", done},
             {"`rathonsi_store_look`", look}};

static void make(unsigned count) {
    memset(image, 0xff, sizeof image);
    memset(&plan, 0, sizeof plan);
    memset(&bound, 0, sizeof bound);
    memset(routes, 0, sizeof routes);
    set(rathonsi_store_make(image, RATHONSI_STORE_SIZE(count)));
    for (unsigned i = 0; i <= count; i++) {
        routes[i].data_id = (uint16_t)(0x100 + i);
        routes[i].cell = (uint16_t)(RATHONSI_SLOT_CELLS + i);
        routes[i].reserve = 16;
        routes[i].window = 64;
        routes[i].slot = 4;
        routes[i].direction = RATHONSI_SENDS;
        if (i < count)
            set(rathonsi_route_make(&routes[i], 0, image, RATHONSI_STORE_SIZE(count)));
    }
    set(open_all(count));
    set(rathonsi_route_reserve_next(&routes[count - 1], image, RATHONSI_STORE_SIZE(count), &bound));
}

__attribute__((noinline)) static void paint(void) {
    volatile uint8_t bytes[DEPTH];
    for (int i = 0; i < DEPTH; i++)
        bytes[i] = 0xa5;
}

__attribute__((noinline)) static uint32_t painted(void) {
    volatile uint8_t bytes[DEPTH];
    uint32_t i = 0;
    while (i < DEPTH && bytes[i] == 0xa5)
        i++;
    return DEPTH - i;
}

/* The instructions of a call: few times, since the counter of 24 bits ends at 670 million. */
static uint32_t instructions(int32_t (*call)(unsigned), unsigned count) {
    uint32_t before = ticks();
    for (int i = 0; i < TIMES; i++)
        (void)call(count);
    return ((ticks() - before) & 0xffffffu) * 40u / TIMES;
}

int main(void) {
    systick[1] = 0xffffffu;
    systick[2] = 0;
    systick[0] = 5;
    for (volatile int i = 0; i < 1000; i++) {
    }
    for (size_t which = 0; which < sizeof calls / sizeof *calls; which++) {
        uint32_t stack = 0;
        printf("| %s |", calls[which].name);
        for (int i = 0; i < COUNTS; i++) {
            if (calls[which].call == grow_more && counts[i] == MOST) {
                printf(" |");
                continue;
            }
            make(counts[i]);
            set(calls[which].call(counts[i]));
            make(counts[i]);
            paint();
            (void)calls[which].call(counts[i]);
            stack = painted();
            make(counts[i]);
            printf(" %lu |", (unsigned long)(instructions(calls[which].call, counts[i]) - instructions(nothing, counts[i])));
        }
        printf(" %lu |\n", (unsigned long)stack);
    }
    return wrong;
}
