/*
 * A receiver that is back at once after a reset: it rejoins by an answer of its sender, and the first PDU after the answer is
 * accepted. Two units with their stores; power goes at any event, within a write, too. An attacker repeats PDUs and answers of
 * all lives. No freshness is accepted twice, and no genuine PDU is refused after a rejoin.
 *
 *     rejoining_unit EVENTS [DUTY]     DUTY 1 is broken if it is named: each nonce is that of the first life. Then there
 *                                      has to be harm.
 */
#include <stdio.h>
#include <stdlib.h>
#include <string.h>

#include "rathonsi_store.h"

enum { SENDER = 1, RECEIVER = 2, PDUS = 0, NONCES = 1, ROUTES = 2, SLOT = 4, SIZE = RATHONSI_STORE_SIZE(ROUTES), PAYLOAD = 8, PDU = PAYLOAD + RATHONSI_TRAILER, KEPT = 64 };

struct unit {
    uint8_t device[SIZE], image[SIZE];
    RathonsiPlan plan;
    RathonsiRoute routes[ROUTES];
};

static struct unit sender, receiver;
static const uint8_t uid[15] = {7};
static uint64_t accepted_last, sent_last;
static uint64_t events, accepted, refused, repeated, cuts, rejoined, not_behind;
static uint8_t old_pdus[KEPT][PDU], old_answers[KEPT][RATHONSI_ANSWER];
static RathonsiQuestion question; /* the last one; with duty 1 the same in each life */
static uint64_t duty;
static const char *harm;

static uint64_t draw(uint64_t below) {
    static uint64_t state = UINT64_C(88172645463325252);
    state ^= state << 13;
    state ^= state >> 7;
    state ^= state << 17;
    return state % below;
}

static void expect(int is_right, const char *what) {
    if (!is_right && harm == NULL)
        harm = what;
}

/* The writes of the plan; 0 if power goes within one. */
static int do_plan(struct unit *unit) {
    for (int i = 0; i < 3; i++) {
        const RathonsiWrite *write = &unit->plan.writes[i];
        uint32_t whole = draw(200) == 0 ? (uint32_t)draw(write->length + 1u) : write->length;
        memcpy(unit->device + write->offset, write->bytes, whole);
        if (whole != write->length) {
            for (uint32_t k = whole; k < write->length; k++)
                unit->device[write->offset + k] = (uint8_t)draw(256);
            return 0;
        }
    }
    expect(rathonsi_store_done(unit->image, SIZE, &unit->plan) == RATHONSI_OK, "a plan isn't done");
    return 1;
}

static void power_up(struct unit *unit) {
    uint32_t which = 0;
    memset(&unit->plan, 0, sizeof unit->plan);
    memcpy(unit->image, unit->device, SIZE);
    for (int i = 0; i < ROUTES; i++)
        unit->routes[i].opened = 0;
    expect(rathonsi_routes_open(unit->routes, ROUTES, unit->image, SIZE, &which) == RATHONSI_OK, "the routes don't open");
}

static void reset(struct unit *unit) {
    cuts++;
    power_up(unit);
}

/* Reserves what the route needs next; 0 if power went. */
static int reserve_next(struct unit *unit, int which) {
    expect(rathonsi_route_reserve_next(&unit->routes[which], unit->image, SIZE, &unit->plan) == RATHONSI_OK, "no reserve");
    if (do_plan(unit))
        return 1;
    reset(unit);
    return 0;
}

/* The sender's next PDU; 0 if power went. */
static int send_pdu(uint8_t pdu[PDU]) {
    static const uint8_t payload[PAYLOAD] = {1, 2, 3, 4, 5, 6, 7, 8};
    RathonsiRoute *route = &sender.routes[PDUS];
    int32_t status = rathonsi_route_send(route, sender.image, SIZE, payload, PAYLOAD, pdu, PDU);
    if (status == RATHONSI_RESERVE) {
        if (!reserve_next(&sender, PDUS))
            return 0;
        status = rathonsi_route_send(route, sender.image, SIZE, payload, PAYLOAD, pdu, PDU);
    }
    expect(status == RATHONSI_OK && route->counter > sent_last, "a PDU isn't sent, or a freshness twice");
    sent_last = route->counter;
    memcpy(old_pdus[draw(KEPT)], pdu, PDU);
    return 1;
}

/* What the receiver makes of a PDU: 1 if it is accepted, 0 if not, -1 if power went. */
static int receive(const uint8_t pdu[PDU]) {
    RathonsiRoute *route = &receiver.routes[PDUS];
    RathonsiVerdict verdict = rathonsi_route_receive(route, receiver.image, SIZE, pdu, PDU);
    if (verdict.status == RATHONSI_RESERVE) {
        expect(rathonsi_route_reserve_for(route, &verdict, receiver.image, SIZE, &receiver.plan) == RATHONSI_OK, "no reserve");
        if (!do_plan(&receiver)) {
            reset(&receiver);
            return -1;
        }
        verdict = rathonsi_route_receive(route, receiver.image, SIZE, pdu, PDU);
    }
    if (verdict.status != RATHONSI_OK)
        return 0;
    expect(verdict.freshness > accepted_last, "a freshness is accepted twice");
    accepted_last = verdict.freshness;
    return 1;
}

/* The receiver asks and rejoins; the attacker comes first, with answers of before. 0 if power went, or there was none. */
static int rejoin(void) {
    RathonsiRoute *route = &receiver.routes[PDUS];
    uint8_t answer[RATHONSI_ANSWER];
    int32_t status = RATHONSI_OK;
    if (duty != 1 || question.asker == 0) {
        status = rathonsi_sync_nonce(&receiver.routes[NONCES], receiver.image, SIZE, RECEIVER, question.nonce);
        if (status == RATHONSI_RESERVE) {
            if (!reserve_next(&receiver, NONCES))
                return 0;
            status = rathonsi_sync_nonce(&receiver.routes[NONCES], receiver.image, SIZE, RECEIVER, question.nonce);
        }
        question.asker = RECEIVER;
        question.answerer = SENDER;
    }
    expect(status == RATHONSI_OK, "no nonce is made");
    for (int i = 0; i < 4; i++) {
        RathonsiVerdict old = rathonsi_sync_rejoin(route, receiver.image, SIZE, &question, old_answers[draw(KEPT)]);
        if (duty == 1 && old.status == RATHONSI_OK)
            return 1;
        expect(old.status == RATHONSI_VERIFICATION_FAILURE, "an old answer is taken");
    }
    expect(rathonsi_sync_answer(&sender.routes[PDUS], sender.image, SIZE, &question, answer) == RATHONSI_OK, "no answer is made");
    memcpy(old_answers[draw(KEPT)], answer, sizeof answer);
    RathonsiVerdict verdict = rathonsi_sync_rejoin(route, receiver.image, SIZE, &question, answer);
    if (verdict.status == RATHONSI_RESERVE) {
        expect(rathonsi_route_advance(route, verdict.freshness, receiver.image, SIZE, &receiver.plan) == RATHONSI_OK, "no advance");
        if (!do_plan(&receiver)) {
            reset(&receiver);
            return 0;
        }
        verdict = rathonsi_sync_rejoin(route, receiver.image, SIZE, &question, answer);
    }
    if (verdict.status == RATHONSI_FRESHNESS_FAILURE) { /* a call moved its counter since, and it isn't behind */
        not_behind++;
        return 0;
    }
    expect(verdict.status == RATHONSI_OK && route->counter == sender.routes[PDUS].counter, "an answer isn't taken");
    rejoined++;
    return 1;
}

static void load_key(struct unit *unit) {
    static const uint8_t key[16] = {3, 1, 4, 1, 5, 9, 2, 6};
    uint8_t empty[16];
    RathonsiUpdate update;
    RathonsiRequest request;
    memset(empty, 0xff, sizeof empty);
    memset(&update, 0, sizeof update);
    memcpy(update.uid, uid, sizeof uid);
    memcpy(update.key, key, sizeof key);
    update.id = update.auth = SLOT;
    update.flags = RATHONSI_KEY_USAGE;
    update.counter = 1;
    expect(rathonsi_she_make_update(empty, 16, &update, &request) == RATHONSI_OK, "a request");
    expect(rathonsi_slot_load(uid, 0, &request, unit->image, SIZE, &unit->plan) == RATHONSI_OK, "a key is loaded");
    expect(rathonsi_store_done(unit->image, SIZE, &unit->plan) == RATHONSI_OK, "done");
}

static void make(struct unit *unit, uint8_t direction) {
    expect(rathonsi_store_make(unit->image, SIZE) == RATHONSI_OK, "a store");
    for (int i = 0; i < ROUTES; i++) {
        RathonsiRoute *route = &unit->routes[i];
        memset(route, 0, sizeof *route);
        route->data_id = (uint16_t)(0x120 + i);
        route->cell = (uint16_t)(RATHONSI_SLOT_CELLS + i);
        route->reserve = i == PDUS ? 128 : 8;
        route->window = 64;
        route->slot = SLOT;
        route->direction = i == PDUS ? direction : RATHONSI_SENDS;
        route->freshness_only = i == NONCES;
        expect(rathonsi_route_make(route, 0, unit->image, SIZE) == RATHONSI_OK, "a route");
    }
    load_key(unit);
    memcpy(unit->device, unit->image, SIZE);
}

int main(int count, char **words) {
    uint8_t pdu[PDU];
    if (count < 2) {
        puts("usage: rejoining_unit EVENTS [DUTY]");
        return 0;
    }
    duty = count > 2 ? strtoull(words[2], NULL, 10) : 0;
    make(&sender, RATHONSI_SENDS);
    make(&receiver, RATHONSI_RECEIVES);
    power_up(&sender);
    power_up(&receiver);
    for (events = 0; events < strtoull(words[1], NULL, 10) && harm == NULL; events++) {
        uint64_t event = draw(100);
        if (event < 70) {
            if (send_pdu(pdu) && draw(20) != 0) {
                if (receive(pdu) == 1)
                    accepted++;
                else
                    refused++;
            }
        } else if (event < 90) {
            repeated++;
            if (receive(old_pdus[draw(KEPT)]) == 1)
                accepted++; /* one that was lost, and is above all that was accepted */
        } else if (event < 93)
            reset(&sender);
        else {
            /* The receiver is reset, asks, and is back: the next PDU is accepted, unless power goes. */
            uint64_t before;
            reset(&receiver);
            for (uint64_t i = draw(5); i > 0 && harm == NULL; i--)
                if (send_pdu(pdu) && draw(2) == 0)
                    (void)receive(pdu);
            before = cuts;
            if (rejoin() && before == cuts && send_pdu(pdu) && before == cuts) {
                int is_taken = receive(pdu);
                expect(is_taken != 0, "a receiver is deaf after it rejoined");
                accepted += is_taken == 1;
            }
        }
    }
    printf("sent to %llu, accepted %llu, refused %llu, repeated %llu, power cuts %llu, rejoined %llu, not behind %llu\n", (unsigned long long)sent_last,
           (unsigned long long)accepted, (unsigned long long)refused, (unsigned long long)repeated, (unsigned long long)cuts, (unsigned long long)rejoined,
           (unsigned long long)not_behind);
    puts(harm == NULL ? "no harm" : harm);
    return (harm != NULL) != (duty != 0);
}
