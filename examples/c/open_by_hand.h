/*
 * For tests alone: a route that is open at a counter of one's choice, without a call. The check value is computed here
 * anew. A unit never does this: its counter would fall.
 */
#ifndef OPEN_BY_HAND_H
#define OPEN_BY_HAND_H

#include "rathonsi_store.h"

static void open_with(RathonsiRoute *route, uint64_t counter, uint8_t mark) {
    const uint64_t prime = 16777213u;
    route->opened = mark;
    uint64_t way = ((uint64_t)route->opened << 8) + route->direction;
    uint64_t who = (way << 32) + ((uint64_t)route->cell << 16) + route->data_id;
    uint64_t number = 1u + (counter % prime + 3u * who) % prime;
    route->counter = counter;
    route->check[0] = (uint8_t)(number >> 16);
    route->check[1] = (uint8_t)(number >> 8);
    route->check[2] = (uint8_t)number;
}

/* As if a call had moved its counter there. */
static void open_by_hand(RathonsiRoute *route, uint64_t counter) {
    open_with(route, counter, 2);
}

#endif
