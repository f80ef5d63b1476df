/*
 * A receiver that fell behind its sender, and comes back: the receiver draws a nonce, the sender answers it with its counter, and the
 * receiver takes the answer. Two units, each with a store of one route, in memory. How far a receiver falls behind:
 *
 *     while it is down       seconds * PDUs a second
 *     by the sender's cuts   reserve of the sender * its power cuts
 *
 * If the sum is more than the window, at most 256, it accepts nothing any more, whatever comes. At 10 ms a PDU that is 2.56 s.
 */
#include <stdio.h>
#include <stdlib.h>
#include <string.h>

#include "rathonsi_store.h"

enum { SLOT = 4, SIZE = RATHONSI_STORE_SIZE(1), PAYLOAD = 8, PDU = PAYLOAD + RATHONSI_TRAILER, MISSED = 300 };

/* A unit with one route. */
struct unit {
    uint8_t image[SIZE];
    RathonsiPlan plan;
    RathonsiRoute route;
};

static const uint8_t uid[15] = {1};
static const uint8_t key[16] = {0x2b, 0x7e, 0x15, 0x16, 0x28, 0xae, 0xd2, 0xa6, 0xab, 0xf7, 0x15, 0x88, 0x09, 0xcf, 0x4f, 0x3c};

static void expect(int holds, const char *what) {
    if (!holds) {
        printf("not so: %s\n", what);
        exit(1);
    }
}

/* A control unit does the writes of the plan on its device, each durable before the next. */
static void do_plan(struct unit *unit) {
    expect(rathonsi_store_done(unit->image, SIZE, &unit->plan) == RATHONSI_OK, "the plan fits the image");
}

static void make_unit(struct unit *unit, uint8_t direction) {
    RathonsiUpdate update;
    RathonsiRequest request;
    uint8_t empty[16];
    memset(unit, 0, sizeof *unit);
    memset(&update, 0, sizeof update);
    memset(empty, 0xff, sizeof empty);
    unit->route.data_id = 0x120e;
    unit->route.cell = RATHONSI_SLOT_CELLS;
    unit->route.reserve = 16;
    unit->route.window = 256;
    unit->route.slot = SLOT;
    unit->route.direction = direction;
    expect(rathonsi_store_make(unit->image, SIZE) == RATHONSI_OK, "a store is made");
    expect(rathonsi_route_make(&unit->route, 0, unit->image, SIZE) == RATHONSI_OK, "a bound is made");
    update.id = update.auth = SLOT;
    update.flags = RATHONSI_KEY_USAGE;
    update.counter = 1;
    memcpy(update.key, key, sizeof key);
    expect(rathonsi_she_make_update(empty, sizeof empty, &update, &request) == RATHONSI_OK, "a request is made");
    expect(rathonsi_slot_load(uid, 0, &request, unit->image, SIZE, &unit->plan) == RATHONSI_OK, "a key is loaded");
    do_plan(unit);
    expect(rathonsi_route_open(&unit->route, unit->image, SIZE) == RATHONSI_OK, "the route opens");
}

static void send_pdu(struct unit *unit, uint8_t pdu[PDU]) {
    static const uint8_t payload[PAYLOAD] = {1, 2, 3, 4, 5, 6, 7, 8};
    int32_t status = rathonsi_route_send(&unit->route, unit->image, SIZE, payload, PAYLOAD, pdu, PDU);
    if (status == RATHONSI_RESERVE) {
        expect(rathonsi_route_reserve(&unit->route, unit->route.counter + 1, unit->image, SIZE, &unit->plan) == RATHONSI_OK, "a reserve");
        do_plan(unit);
        status = rathonsi_route_send(&unit->route, unit->image, SIZE, payload, PAYLOAD, pdu, PDU);
    }
    expect(status == RATHONSI_OK, "a PDU is sent");
}

static int32_t receive_pdu(struct unit *unit, const uint8_t pdu[PDU]) {
    RathonsiVerdict verdict = rathonsi_route_receive(&unit->route, unit->image, SIZE, pdu, PDU);
    if (verdict.status == RATHONSI_RESERVE) {
        expect(rathonsi_route_reserve(&unit->route, verdict.freshness, unit->image, SIZE, &unit->plan) == RATHONSI_OK, "a reserve");
        do_plan(unit);
        verdict = rathonsi_route_receive(&unit->route, unit->image, SIZE, pdu, PDU);
    }
    return verdict.status;
}

static int32_t take_answer(struct unit *unit, const RathonsiQuestion *question, const uint8_t answer[24]) {
    RathonsiVerdict verdict = rathonsi_sync_take(&unit->route, unit->image, SIZE, question, answer);
    if (verdict.status == RATHONSI_RESERVE) {
        /* the counter may be far ahead: rathonsi_route_advance, not rathonsi_route_reserve */
        expect(rathonsi_route_advance(&unit->route, verdict.freshness, unit->image, SIZE, &unit->plan) == RATHONSI_OK, "an advance");
        do_plan(unit);
        verdict = rathonsi_sync_take(&unit->route, unit->image, SIZE, question, answer);
    }
    return verdict.status;
}

int main(void) {
    static struct unit sender, receiver;
    uint8_t pdu[PDU], old[PDU], answer[24], altered[24];
    /* A unit draws its nonces with a generator of random numbers; these two stand for what it drew. */
    static const RathonsiQuestion question = {2, 1, {0x51, 0x0e, 0x52, 0x7f, 0x9b, 0x05, 0x68, 0x8c, 0x1f, 0x83, 0xd9, 0xab, 0x5b, 0xe0, 0xcd, 0x19}};
    static const RathonsiQuestion other = {2, 1, {0x6a, 0x09, 0xe6, 0x67, 0xbb, 0x67, 0xae, 0x85, 0x3c, 0x6e, 0xf3, 0x72, 0xa5, 0x4f, 0xf5, 0x3a}};
    int lost = 0;

    make_unit(&sender, RATHONSI_SENDS);
    make_unit(&receiver, RATHONSI_RECEIVES);
    send_pdu(&sender, pdu);
    expect(receive_pdu(&receiver, pdu) == RATHONSI_OK, "the first PDU is accepted");

    /* The receiver is away for 300 PDUs, and then hears 1,000 more. */
    for (int i = 0; i < MISSED; i++)
        send_pdu(&sender, pdu);
    memcpy(old, pdu, PDU);
    for (int i = 0; i < 1000; i++) {
        send_pdu(&sender, pdu);
        lost += receive_pdu(&receiver, pdu) != RATHONSI_OK;
    }
    printf("away for %d PDUs: of the next 1000, %d are refused\n", MISSED, lost);

    expect(rathonsi_sync_answer(&sender.route, sender.image, SIZE, &question, answer) == RATHONSI_OK, "an answer is made");
    memcpy(altered, answer, sizeof altered);
    altered[7] ^= 1;
    expect(take_answer(&receiver, &other, answer) == RATHONSI_VERIFICATION_FAILURE, "an answer to another nonce is refused");
    expect(take_answer(&receiver, &question, altered) == RATHONSI_VERIFICATION_FAILURE, "another counter is refused");
    expect(take_answer(&receiver, &question, answer) == RATHONSI_OK, "the answer is taken");
    expect(receiver.route.counter == sender.route.counter, "the counters agree");
    expect(take_answer(&receiver, &question, answer) == RATHONSI_FRESHNESS_FAILURE, "it is taken once");
    expect(receive_pdu(&receiver, old) != RATHONSI_OK, "an old PDU is refused");
    lost = 0;
    for (int i = 0; i < 1000; i++) {
        send_pdu(&sender, pdu);
        lost += receive_pdu(&receiver, pdu) != RATHONSI_OK;
    }
    printf("after the answer: of the next 1000, %d are refused\n", lost);
    return lost == 0 ? 0 : 1;
}
