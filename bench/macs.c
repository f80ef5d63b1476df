/* Nanoseconds of a CMAC by the library for C, beside OpenSSL's and mbedTLS's own CMAC calls, and beside a CMAC in C over BearSSL's CBC-MAC
   calls (BearSSL has no CMAC). Build with -DRATHONSI, -DOPENSSL, -DMBEDTLS, -DBEARSSL, any of them.

   Two rows a peer. "a key a call": each call is given its key, as rathonsi_cmac is; the MAC is the key of the next call. "key kept": the key was
   set before, as those libraries can do it and rathonsi_cmac can't; the MAC is the beginning of the next message.

   Without words: of each length and each row the best of ROUNDS rounds, the rows by turns, as nanoseconds a call, and the first bytes of the
   last MAC, which are the same in all rows of one kind. With ROW LENGTH COUNT: that row alone, so many calls, for a counter of instructions.
   With the word rows: the names of the rows. */
#define OPENSSL_SUPPRESS_DEPRECATED
#include <stdint.h>
#include <stdio.h>
#include <stdlib.h>
#include <string.h>
#include <time.h>

enum { BLOCK = 16, MOST = 4096, ROUNDS = 200, BYTES_A_ROUND = 60000 };

static const size_t lengths[] = {8, 18, 60, 70, 256, 1500};

static void stop(const char *what)
{
    printf("%s failed\n", what);
    exit(1);
}

#ifdef RATHONSI
#include "rathonsi.h"
static void rathonsi(const uint8_t *key, const uint8_t *message, size_t length, uint8_t *mac)
{
    if (rathonsi_cmac(key, BLOCK, message, length, mac) != RATHONSI_OK) stop("rathonsi_cmac");
}
#endif

#ifdef OPENSSL
#include <openssl/cmac.h>
#include <openssl/core_names.h>
#include <openssl/evp.h>
#include <openssl/params.h>

static EVP_MAC_CTX *evp_context;
static CMAC_CTX *cmac_context;

static void evp_make(const uint8_t *key)
{
    OSSL_PARAM parameters[] = {OSSL_PARAM_construct_utf8_string(OSSL_MAC_PARAM_CIPHER, (char *)"AES-128-CBC", 0), OSSL_PARAM_construct_end()};
    if (evp_context == NULL) evp_context = EVP_MAC_CTX_new(EVP_MAC_fetch(NULL, "CMAC", NULL));
    if (EVP_MAC_init(evp_context, key, BLOCK, parameters) != 1) stop("EVP_MAC_init");
}
static void evp_rest(const uint8_t *message, size_t length, uint8_t *mac)
{
    size_t made;
    if (EVP_MAC_update(evp_context, message, length) != 1 || EVP_MAC_final(evp_context, mac, &made, BLOCK) != 1) stop("EVP_MAC");
}
static void evp(const uint8_t *key, const uint8_t *message, size_t length, uint8_t *mac)
{
    if (EVP_MAC_init(evp_context, key, BLOCK, NULL) != 1) stop("EVP_MAC_init");
    evp_rest(message, length, mac);
}
static void evp_kept(const uint8_t *message, size_t length, uint8_t *mac)
{
    if (EVP_MAC_init(evp_context, NULL, 0, NULL) != 1) stop("EVP_MAC_init");
    evp_rest(message, length, mac);
}
static void evp_at_once(const uint8_t *key, const uint8_t *message, size_t length, uint8_t *mac)
{
    size_t made;
    if (EVP_Q_mac(NULL, "CMAC", NULL, "AES-128-CBC", NULL, key, BLOCK, message, length, mac, BLOCK, &made) == NULL) stop("EVP_Q_mac");
}
static void cmac_make(const uint8_t *key)
{
    if (cmac_context == NULL) cmac_context = CMAC_CTX_new();
    if (CMAC_Init(cmac_context, key, BLOCK, EVP_aes_128_cbc(), NULL) != 1) stop("CMAC_Init");
}
static void cmac_rest(const uint8_t *message, size_t length, uint8_t *mac)
{
    size_t made;
    if (CMAC_Update(cmac_context, message, length) != 1 || CMAC_Final(cmac_context, mac, &made) != 1) stop("CMAC");
}
static void cmac(const uint8_t *key, const uint8_t *message, size_t length, uint8_t *mac)
{
    if (CMAC_Init(cmac_context, key, BLOCK, NULL, NULL) != 1) stop("CMAC_Init");
    cmac_rest(message, length, mac);
}
static void cmac_kept(const uint8_t *message, size_t length, uint8_t *mac)
{
    if (CMAC_Init(cmac_context, NULL, 0, NULL, NULL) != 1) stop("CMAC_Init");
    cmac_rest(message, length, mac);
}
#endif

#ifdef MBEDTLS
#include <mbedtls/cipher.h>
#include <mbedtls/cmac.h>

static mbedtls_cipher_context_t mbed_context;

static void mbed(const uint8_t *key, const uint8_t *message, size_t length, uint8_t *mac)
{
    const mbedtls_cipher_info_t *info = mbedtls_cipher_info_from_type(MBEDTLS_CIPHER_AES_128_ECB);
    if (mbedtls_cipher_cmac(info, key, 128, message, length, mac) != 0) stop("mbedtls_cipher_cmac");
}
static void mbed_make(const uint8_t *key)
{
    mbedtls_cipher_free(&mbed_context);
    mbedtls_cipher_init(&mbed_context);
    if (mbedtls_cipher_setup(&mbed_context, mbedtls_cipher_info_from_type(MBEDTLS_CIPHER_AES_128_ECB)) != 0
        || mbedtls_cipher_cmac_starts(&mbed_context, key, 128) != 0)
        stop("mbedtls_cipher_cmac_starts");
}
static void mbed_kept(const uint8_t *message, size_t length, uint8_t *mac)
{
    if (mbedtls_cipher_cmac_reset(&mbed_context) != 0 || mbedtls_cipher_cmac_update(&mbed_context, message, length) != 0
        || mbedtls_cipher_cmac_finish(&mbed_context, mac) != 0)
        stop("mbedtls_cipher_cmac");
}
#endif

#ifdef BEARSSL
#include <bearssl.h>

static void twice(uint8_t *block)
{
    int carry = block[0] >> 7;
    for (int i = 0; i < BLOCK - 1; i++) block[i] = (uint8_t)(block[i] << 1 | block[i + 1] >> 7);
    block[BLOCK - 1] = (uint8_t)((block[BLOCK - 1] << 1) ^ (carry ? 0x87 : 0));
}

/* CMAC over a CBC-MAC of whole blocks: all but the last one, and then that one, filled and masked. K1 is the double of the cipher of zeros. */
#define CMAC_OVER(name)                                                                                                                     \
    static br_aes_##name##_ctrcbc_keys name##_keys;                                                                                         \
    static void name##_make(const uint8_t *key) { br_aes_##name##_ctrcbc_init(&name##_keys, key, BLOCK); }                                  \
    static void name##_kept(const uint8_t *message, size_t length, uint8_t *mac)                                                            \
    {                                                                                                                                       \
        uint8_t mask[BLOCK] = {0}, last[BLOCK] = {0}, state[BLOCK] = {0};                                                                   \
        size_t before = length == 0 ? 0 : (length - 1) / BLOCK * BLOCK;                                                                     \
        br_aes_##name##_ctrcbc_mac(&name##_keys, mask, last, BLOCK);                                                                        \
        twice(mask);                                                                                                                        \
        if (before > 0) br_aes_##name##_ctrcbc_mac(&name##_keys, state, message, before);                                                   \
        memcpy(last, message + before, length - before);                                                                                    \
        if (length - before < BLOCK) {                                                                                                      \
            last[length - before] = 0x80;                                                                                                   \
            twice(mask);                                                                                                                    \
        }                                                                                                                                   \
        for (int i = 0; i < BLOCK; i++) last[i] ^= mask[i];                                                                                 \
        br_aes_##name##_ctrcbc_mac(&name##_keys, state, last, BLOCK);                                                                       \
        memcpy(mac, state, BLOCK);                                                                                                          \
    }                                                                                                                                       \
    static void name(const uint8_t *key, const uint8_t *message, size_t length, uint8_t *mac)                                               \
    {                                                                                                                                       \
        name##_make(key);                                                                                                                   \
        name##_kept(message, length, mac);                                                                                                  \
    }
CMAC_OVER(big)
CMAC_OVER(ct64)
CMAC_OVER(x86ni)
static int has_x86ni(void) { return br_aes_x86ni_ctrcbc_get_vtable() != NULL; }
#endif

/* A peer: its call with a key, and, where it keeps keys, how one is set and the call without one. */
static struct {
    const char *name;
    void (*make)(const uint8_t *key);
    void (*mac)(const uint8_t *key, const uint8_t *message, size_t length, uint8_t *mac);
    void (*kept)(const uint8_t *message, size_t length, uint8_t *mac);
    int (*is_there)(void);
} peers[] = {
#ifdef RATHONSI
    {"rathonsi_cmac", NULL, rathonsi, NULL, NULL},
#endif
#ifdef OPENSSL
    {"OpenSSL EVP_MAC", evp_make, evp, evp_kept, NULL},
    {"OpenSSL CMAC_*", cmac_make, cmac, cmac_kept, NULL},
    {"OpenSSL EVP_Q_mac", NULL, evp_at_once, NULL, NULL},
#endif
#ifdef MBEDTLS
    {"mbedTLS cipher_cmac", mbed_make, mbed, mbed_kept, NULL},
#endif
#ifdef BEARSSL
    {"C over BearSSL x86ni", x86ni_make, x86ni, x86ni_kept, has_x86ni},
    {"C over BearSSL big", big_make, big, big_kept, NULL},
    {"C over BearSSL ct64", ct64_make, ct64, ct64_kept, NULL},
#endif
};
enum { PEERS = sizeof peers / sizeof peers[0], LENGTHS = sizeof lengths / sizeof lengths[0] };

static double now(void)
{
    struct timespec t;
    clock_gettime(CLOCK_MONOTONIC, &t);
    return 1e9 * (double)t.tv_sec + (double)t.tv_nsec;
}

static int has_row(int peer, int kept)
{
    return (peers[peer].is_there == NULL || peers[peer].is_there()) && (!kept || peers[peer].kept != NULL);
}

/* So many calls of one row, from a key and a message of zeros; the last MAC. */
static void calls(int peer, int kept, size_t length, unsigned long count, uint8_t *mac)
{
    uint8_t message[MOST] = {0};
    memset(mac, 0, BLOCK);
    if (peers[peer].make != NULL) peers[peer].make(mac);
    for (unsigned long n = 0; n < count; n++) {
        if (kept) {
            peers[peer].kept(message, length, mac);
            memcpy(message, mac, length < BLOCK ? length : BLOCK);
        } else peers[peer].mac(mac, message, length, mac);
    }
}

static void time_all(size_t length, int kept)
{
    unsigned long count = BYTES_A_ROUND / (length + 64);
    double best[PEERS];
    uint8_t mac[PEERS][BLOCK];
    for (int i = 0; i < PEERS; i++) best[i] = 1e18;
    for (int round = 0; round < ROUNDS; round++)
        for (int i = 0; i < PEERS; i++) {
            if (!has_row(i, kept)) continue;
            double begin = now();
            calls(i, kept, length, count, mac[i]);
            double took = now() - begin;
            if (took < best[i]) best[i] = took;
        }
    for (int i = 0; i < PEERS; i++)
        if (has_row(i, kept))
            printf("%s, %s|%zu|%.0f|%02x%02x%02x%02x\n", peers[i].name, kept ? "key kept" : "a key a call", length, best[i] / (double)count,
                   mac[i][0], mac[i][1], mac[i][2], mac[i][3]);
}

int main(int words, char **word)
{
    uint8_t mac[BLOCK];
    char name[80];
    for (int i = 0; words > 1 && i < PEERS; i++)
        for (int kept = 0; kept < 2; kept++) {
            if (!has_row(i, kept)) continue;
            snprintf(name, sizeof name, "%s, %s", peers[i].name, kept ? "key kept" : "a key a call");
            if (words == 2) printf("%s\n", name);
            else if (words == 4 && strcmp(word[1], name) == 0) {
                size_t length = strtoul(word[2], NULL, 10);
                if (length > MOST) return 2;
                calls(i, kept, length, strtoul(word[3], NULL, 10), mac);
            }
        }
    for (size_t i = 0; words == 1 && i < LENGTHS; i++)
        for (int kept = 0; kept < 2; kept++) time_all(lengths[i], kept);
    return 0;
}
