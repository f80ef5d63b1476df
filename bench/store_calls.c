/* Nanoseconds of a send and of a receive over the image of a store, beside rathonsi_secoc_protect and rathonsi_secoc_verify alone, and, with
   -DAES_INSTRUCTIONS (and -maes), beside the same two in C over the processor's AES instructions. Each call expands its key, as a control
   unit without kept schedules does. The payload has 8 bytes. Each is timed in turn, 400 rounds of 5,000 calls, of which the best counts: so
   other work on the machine shows little. */
#include <stdint.h>
#include <stdio.h>
#include <stdlib.h>
#include <string.h>
#include <time.h>

#include "rathonsi_store.h"

enum { ROUNDS = 400, CALLS = 5000, PAYLOAD = 8, PDU = PAYLOAD + 4, ID = 0x1234 };

static const uint8_t key[16] = {0x2b, 0x7e, 0x15, 0x16, 0x28, 0xae, 0xd2, 0xa6, 0xab, 0xf7, 0x15, 0x88, 0x09, 0xcf, 0x4f, 0x3c};
static uint8_t image[RATHONSI_STORE_SIZE(2)], pdus[CALLS][PDU], payload[PAYLOAD];
static RathonsiRoute sender, receiver;
/* The two as they were opened: each round begins with them. */
static RathonsiRoute first_sender, first_receiver;

#ifdef AES_INSTRUCTIONS
#include <wmmintrin.h>

static __m128i next_key(__m128i k, __m128i assist)
{
    assist = _mm_shuffle_epi32(assist, 0xff);
    k = _mm_xor_si128(k, _mm_slli_si128(k, 4));
    k = _mm_xor_si128(k, _mm_slli_si128(k, 4));
    k = _mm_xor_si128(k, _mm_slli_si128(k, 4));
    return _mm_xor_si128(k, assist);
}

#define STEP(n, rcon) schedule[n] = next_key(schedule[n - 1], _mm_aeskeygenassist_si128(schedule[n - 1], rcon))

static void expand(__m128i *schedule, const uint8_t *from)
{
    schedule[0] = _mm_loadu_si128((const __m128i *)from);
    STEP(1, 1);
    STEP(2, 2);
    STEP(3, 4);
    STEP(4, 8);
    STEP(5, 16);
    STEP(6, 32);
    STEP(7, 64);
    STEP(8, 128);
    STEP(9, 27);
    STEP(10, 54);
}

static void encrypt(const __m128i *schedule, uint8_t *block)
{
    __m128i state = _mm_xor_si128(_mm_loadu_si128((const __m128i *)block), schedule[0]);
    for (int i = 1; i < 10; i++) state = _mm_aesenc_si128(state, schedule[i]);
    _mm_storeu_si128((__m128i *)block, _mm_aesenclast_si128(state, schedule[10]));
}

static void twice(uint8_t *block)
{
    int carry = block[0] >> 7;
    for (int i = 0; i < 15; i++) block[i] = (uint8_t)(block[i] << 1 | block[i + 1] >> 7);
    block[15] = (uint8_t)((block[15] << 1) ^ (carry ? 0x87 : 0));
}

/* the CMAC of the Data ID, the payload and the freshness: 18 bytes, two blocks */
static void mac_of(uint64_t freshness, const uint8_t *of, uint8_t *mac)
{
    __m128i schedule[11];
    uint8_t input[32] = {ID >> 8, ID & 255}, subkey[16] = {0};
    expand(schedule, key);
    memcpy(input + 2, of, PAYLOAD);
    for (int i = 0; i < 8; i++) input[10 + i] = (uint8_t)(freshness >> (56 - 8 * i));
    input[18] = 0x80;
    encrypt(schedule, subkey);
    twice(subkey);
    twice(subkey);
    for (int i = 0; i < 16; i++) input[16 + i] ^= subkey[i];
    encrypt(schedule, input);
    for (int i = 0; i < 16; i++) input[16 + i] ^= input[i];
    encrypt(schedule, input + 16);
    memcpy(mac, input + 16, 16);
}

static void protect_in_c(uint64_t freshness, uint8_t *pdu)
{
    uint8_t mac[16];
    mac_of(freshness, payload, mac);
    memcpy(pdu, payload, PAYLOAD);
    pdu[PAYLOAD] = (uint8_t)freshness;
    memcpy(pdu + PAYLOAD + 1, mac, 3);
}

static int verify_in_c(uint64_t counter, const uint8_t *pdu)
{
    uint8_t mac[16];
    uint64_t freshness = (counter & ~(uint64_t)255) + pdu[PAYLOAD];
    if (freshness <= counter) freshness += 256;
    mac_of(freshness, pdu, mac);
    return memcmp(mac, pdu + PAYLOAD + 1, 3) == 0;
}
#endif

static double now(void)
{
    struct timespec t;
    clock_gettime(CLOCK_MONOTONIC, &t);
    return 1e9 * (double)t.tv_sec + (double)t.tv_nsec;
}

static void stop(const char *what)
{
    printf("%s\n", what);
    exit(1);
}

static void send(void)
{
    sender = first_sender;
    for (int n = 0; n < CALLS; n++)
        if (rathonsi_route_send(&sender, image, sizeof image, payload, PAYLOAD, pdus[n], PDU) != RATHONSI_OK) stop("send");
}
static void protect(void)
{
    for (int n = 0; n < CALLS; n++)
        if (rathonsi_secoc_protect(key, 16, ID, (uint64_t)n + 1, payload, PAYLOAD, pdus[n], PDU) != RATHONSI_OK) stop("protect");
}
static void receive(void)
{
    receiver = first_receiver;
    for (int n = 0; n < CALLS; n++)
        if (rathonsi_route_receive(&receiver, image, sizeof image, pdus[n], PDU).status != RATHONSI_OK) stop("receive");
}
static void verify(void)
{
    for (int n = 0; n < CALLS; n++)
        if (rathonsi_secoc_verify(key, 16, ID, (uint64_t)n, 1, pdus[n], PDU).status != RATHONSI_OK) stop("verify");
}
#ifdef AES_INSTRUCTIONS
static void c_protect(void)
{
    for (int n = 0; n < CALLS; n++) protect_in_c((uint64_t)n + 1, pdus[n]);
}
static void c_verify(void)
{
    for (int n = 0; n < CALLS; n++)
        if (!verify_in_c((uint64_t)n, pdus[n])) stop("verify in C");
}
#endif

static void make_store(void)
{
    uint8_t empty[16], uid[15] = {1};
    RathonsiUpdate update = {{1}, 4, 4, RATHONSI_KEY_USAGE, 1, {0}};
    RathonsiRequest request;
    RathonsiPlan plan;
    memset(empty, 255, sizeof empty);
    memset(&plan, 0, sizeof plan);
    memcpy(update.key, key, 16);
    sender = (RathonsiRoute){0, ID, 14, 1, 256, 4, RATHONSI_SENDS, 0, 0, 0, {0}};
    receiver = (RathonsiRoute){0, ID, 15, 1, 256, 4, RATHONSI_RECEIVES, 0, 0, 0, {0}};
    if (rathonsi_store_make(image, sizeof image) != RATHONSI_OK || rathonsi_route_make(&sender, 0, image, sizeof image) != RATHONSI_OK
        || rathonsi_route_make(&receiver, 0, image, sizeof image) != RATHONSI_OK
        || rathonsi_she_make_update(empty, 16, &update, &request) != RATHONSI_OK
        || rathonsi_slot_load(uid, 0, &request, image, sizeof image, &plan) != RATHONSI_OK
        || rathonsi_store_done(image, sizeof image, &plan) != RATHONSI_OK
        || rathonsi_route_open(&sender, image, sizeof image) != RATHONSI_OK || rathonsi_route_open(&receiver, image, sizeof image) != RATHONSI_OK
        || rathonsi_route_advance(&sender, CALLS, image, sizeof image, &plan) != RATHONSI_OK
        || rathonsi_store_done(image, sizeof image, &plan) != RATHONSI_OK
        || rathonsi_route_advance(&receiver, CALLS, image, sizeof image, &plan) != RATHONSI_OK
        || rathonsi_store_done(image, sizeof image, &plan) != RATHONSI_OK)
        stop("no store");
    first_sender = sender;
    first_receiver = receiver;
}

static struct { const char *name; void (*calls)(void); double best; } timed[] = {
    {"rathonsi_route_send", send, 1e18},
    {"rathonsi_secoc_protect", protect, 1e18},
    {"rathonsi_route_receive", receive, 1e18},
    {"rathonsi_secoc_verify", verify, 1e18},
#ifdef AES_INSTRUCTIONS
    {"protect in C over AES instructions", c_protect, 1e18},
    {"verify in C over AES instructions", c_verify, 1e18},
#endif
};
enum { TIMED = sizeof timed / sizeof timed[0] };

int main(void)
{
    make_store();
    for (int round = 0; round < ROUNDS; round++)
        for (int i = 0; i < TIMED; i++) {
            double begin = now();
            timed[i].calls();
            double took = now() - begin;
            if (took < timed[i].best) timed[i].best = took;
        }
    for (int i = 0; i < TIMED; i++) printf("%-44s %6.0f ns/call\n", timed[i].name, timed[i].best / CALLS);
    receive(); /* what was made last, in C where there are AES instructions, is what the store accepts */
    return 0;
}
