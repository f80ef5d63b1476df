/*
 * The vectors of the standards through every export: SP 800-38A (F.1 and F.2), the four of SP 800-38B, the example of a key update of
 * the SHE specification, and the Secured I-PDUs whose authenticated inputs are those of SP 800-38B. Prints one line for what differs.
 */
#include <stdio.h>
#include <string.h>

#include "rathonsi.h"

static int vectors;
static int failures;

static void same(const void *got, const char *wanted, const char *what) {
    const uint8_t *bytes = got;
    size_t length = strlen(wanted) / 2;
    vectors++;
    for (size_t i = 0; i < length; i++) {
        unsigned byte;
        if (sscanf(wanted + 2 * i, "%2x", &byte) != 1 || byte != bytes[i]) {
            failures++;
            printf("%s: byte %zu differs\n", what, i);
            return;
        }
    }
}

static void is(int32_t status, int32_t wanted, const char *what) {
    vectors++;
    if (status != wanted) {
        failures++;
        printf("%s: status %d, wanted %d\n", what, (int)status, (int)wanted);
    }
}

static void read_hex(const char *text, uint8_t *bytes) {
    for (size_t i = 0; text[2 * i] != 0; i++) {
        unsigned byte;
        if (sscanf(text + 2 * i, "%2x", &byte) == 1)
            bytes[i] = (uint8_t)byte;
    }
}

#define KEY "2b7e151628aed2a6abf7158809cf4f3c"
#define COUNTING "000102030405060708090a0b0c0d0e0f"
#define TEXT                                                           \
    "6bc1bee22e409f96e93d7e117393172aae2d8a571e03ac9c9eb76fac45af8e51" \
    "30c81c46a35ce411e5fbc1191a0a52eff69f2445df4f9b17ad2b417be66c3710"
#define BY_ECB                                                         \
    "3ad77bb40d7a3660a89ecaf32466ef97f5d3d58503b9699de785895a96fdbaaf" \
    "43b1cd7f598ece23881b00e3ed0306887b0c785e27e8ad3f8223207104725dd4"
#define BY_CBC                                                         \
    "7649abac8119b246cee98e9b12e9197d5086cb9b507219ee95db113a917678b2" \
    "73bed6b8e3c1743b7116e69e222295163ff1caa1681fac09120eca307586e1a7"

static uint8_t key[16], counting[16], text[64];

static void modes(void) {
    is(rathonsi_aes128_encrypt(key, 16, text, 64), RATHONSI_OK, "ECB");
    same(text, BY_ECB, "ECB encrypted");
    is(rathonsi_aes128_decrypt(key, 16, text, 64), RATHONSI_OK, "ECB");
    same(text, TEXT, "ECB decrypted");
    is(rathonsi_aes128_cbc_encrypt(key, 16, counting, text, 64), RATHONSI_OK, "CBC");
    same(text, BY_CBC, "CBC encrypted");
    is(rathonsi_aes128_cbc_decrypt(key, 16, counting, text, 64), RATHONSI_OK, "CBC");
    same(text, TEXT, "CBC decrypted");
}

static void macs(void) {
    static const struct { size_t length; const char *mac; } rows[4] = {
        {0, "bb1d6929e95937287fa37d129b756746"},
        {16, "070a16b46b4d4144f79bdd9dd04a287c"},
        {40, "dfa66747de9ae63030ca32611497c827"},
        {64, "51f0bebf7e3b9d92fc49741779363cfe"},
    };
    for (int i = 0; i < 4; i++) {
        uint8_t mac[16];
        is(rathonsi_cmac(key, 16, text, rows[i].length, mac), RATHONSI_OK, "CMAC");
        same(mac, rows[i].mac, "CMAC");
    }
}

/* the bytes of payload, the freshness that stands after them in the text, and the last four bytes of the PDU */
static void pdus(void) {
    static const struct { size_t length; uint64_t freshness; const char *trailer; } rows[3] = {
        {6, UINT64_C(0xe93d7e117393172a), "2a070a16"},
        {30, UINT64_C(0x30c81c46a35ce411), "11dfa667"},
        {54, UINT64_C(0xad2b417be66c3710), "1051f0be"},
    };
    for (int i = 0; i < 3; i++) {
        uint8_t pdu[64];
        size_t length = rows[i].length;
        memset(pdu, 0xaa, sizeof pdu);
        is(rathonsi_secoc_protect(key, 16, 0x6bc1, rows[i].freshness, text + 2, length, pdu, 64), RATHONSI_OK, "protect");
        same(pdu + length, rows[i].trailer, "PDU");
        is(memcmp(pdu, text + 2, length), 0, "payload");
        memset(pdu + length, 0, 4);
        is(rathonsi_secoc_protect_in_place(key, 16, 0x6bc1, rows[i].freshness, pdu, 64, length), RATHONSI_OK, "protect in place");
        same(pdu + length, rows[i].trailer, "PDU in place");
        RathonsiVerdict verdict = rathonsi_secoc_verify(key, 16, 0x6bc1, rows[i].freshness - 256, 256, pdu, length + 4);
        is(verdict.status, RATHONSI_OK, "verify");
        is(verdict.payload_length == length && verdict.freshness == rows[i].freshness, 1, "verdict");
        for (size_t at = length + 4; at < sizeof pdu; at++)
            is(pdu[at], 0xaa, "a byte behind the PDU");
    }
}

/* the counter and the window of a receiver, and its verdict on the first PDU above */
static void verdicts(void) {
    static const struct { uint64_t counter; uint16_t window; int32_t status; } rows[7] = {
        {UINT64_C(0xe93d7e1173931729), 1, RATHONSI_OK},
        {UINT64_C(0xe93d7e117393162a), 256, RATHONSI_OK},
        {UINT64_C(0xe93d7e1173931728), 1, RATHONSI_FRESHNESS_FAILURE},
        {UINT64_C(0xe93d7e117393162a), 255, RATHONSI_FRESHNESS_FAILURE},
        {UINT64_C(0xe93d7e117393172a), 256, RATHONSI_VERIFICATION_FAILURE},
        {UINT64_C(0xe93d7e1173931729), 0, RATHONSI_BAD_VALUE},
        {UINT64_C(0xe93d7e1173931729), 257, RATHONSI_BAD_VALUE},
    };
    for (int i = 0; i < 7; i++) {
        uint8_t pdu[10];
        int is_accepted = rows[i].status == RATHONSI_OK;
        read_hex("bee22e409f962a070a16", pdu);
        RathonsiVerdict verdict = rathonsi_secoc_verify(key, 16, 0x6bc1, rows[i].counter, rows[i].window, pdu, 10);
        is(verdict.status, rows[i].status, "verdict");
        is((int32_t)verdict.payload_length, is_accepted ? 6 : 0, "payload of a verdict");
        is(verdict.freshness == (is_accepted ? UINT64_C(0xe93d7e117393172a) : 0), 1, "freshness of a verdict");
    }
}

static void update_of_the_example(void) {
    RathonsiUpdate update = {{0, 0, 0, 0, 0, 0, 0, 0, 0, 0, 0, 0, 0, 0, 1}, 4, 1, 0, 1,
                             {15, 14, 13, 12, 11, 10, 9, 8, 7, 6, 5, 4, 3, 2, 1, 0}};
    RathonsiUpdate read;
    RathonsiRequest request;
    RathonsiReply reply;
    uint8_t derived[16];
    is(rathonsi_she_derive(counting, 16, RATHONSI_TO_ENCRYPT, derived), RATHONSI_OK, "derive");
    same(derived, "118a46447a770d87828a69c222e2d17e", "K1");
    is(rathonsi_she_derive(counting, 16, RATHONSI_TO_AUTHENTICATE, derived), RATHONSI_OK, "derive");
    same(derived, "2ebb2a3da62dbd64b18ba6493e9fbe22", "K2");
    is(rathonsi_she_make_update(counting, 16, &update, &request), RATHONSI_OK, "make update");
    same(request.m1, "00000000000000000000000000000141", "M1");
    same(request.m2, "2b111e2d93f486566bcbba1d7f7a9797c94643b050fc5d4d7de14cff682203c3", "M2");
    same(request.m3, "b9d745e5ace7d41860bc63c2b9f5bb46", "M3");
    memset(&read, 0, sizeof read);
    is(rathonsi_she_read_update(counting, 16, &request, &read), RATHONSI_OK, "read update");
    is(read.id == 4 && read.auth == 1 && read.flags == 0 && read.counter == 1, 1, "update");
    same(read.uid, "000000000000000000000000000001", "UID");
    same(read.key, "0f0e0d0c0b0a09080706050403020100", "new key");
    is(rathonsi_she_confirm(&read, read.uid, &reply), RATHONSI_OK, "confirm");
    same(reply.m4, "00000000000000000000000000000141b472e8d8727d70d57295e74849a27917", "M4");
    same(reply.m5, "820d8d95dc11b4668878160cb2a4e23e", "M5");
    request.m3[15] ^= 1;
    is(rathonsi_she_read_update(counting, 16, &request, &read), RATHONSI_BAD_MAC, "read a changed update");
}

int main(void) {
    read_hex(KEY, key);
    read_hex(COUNTING, counting);
    read_hex(TEXT, text);
    modes();
    macs();
    pdus();
    verdicts();
    update_of_the_example();
    printf("%d comparisons, %d failures\n", vectors, failures);
    return failures != 0;
}
