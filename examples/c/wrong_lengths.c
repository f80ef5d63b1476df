/*
 * Calls every export with each wrong length of a key, a text, a payload, a PDU and a buffer, and with each number outside its range, and
 * looks that the status is the one of the header and that no byte of the output has changed. The memory behind each pointer is taken
 * from the heap and is just as long as the call's arguments say, so that valgrind sees a read or a write outside it.
 */
#include <stdio.h>
#include <stdlib.h>
#include <string.h>

#include "rathonsi.h"

static int calls;
static int failures;

static void expect(int32_t status, int32_t wanted, const char *call) {
    calls++;
    if (status != wanted) {
        failures++;
        printf("%s: status %d, wanted %d\n", call, (int)status, (int)wanted);
    }
}

/* so many bytes of 5a; never a null pointer */
static uint8_t *bytes(size_t length) {
    uint8_t *block = malloc(length + (length == 0));
    if (block == NULL)
        exit(2);
    memset(block, 0x5a, length + (length == 0));
    return block;
}

/* looks that they still are, and gives them back */
static void release(uint8_t *block, size_t length, const char *call) {
    for (size_t i = 0; i < length; i++)
        if (block[i] != 0x5a) {
            failures++;
            printf("%s: byte %zu was written\n", call, i);
            break;
        }
    free(block);
}

static void texts(size_t key_length, size_t text_length, int32_t wanted) {
    uint8_t *key = bytes(key_length), *iv = bytes(16), *text = bytes(text_length);
    expect(rathonsi_aes128_encrypt(key, key_length, text, text_length), wanted, "aes128_encrypt");
    expect(rathonsi_aes128_decrypt(key, key_length, text, text_length), wanted, "aes128_decrypt");
    expect(rathonsi_aes128_cbc_encrypt(key, key_length, iv, text, text_length), wanted, "aes128_cbc_encrypt");
    expect(rathonsi_aes128_cbc_decrypt(key, key_length, iv, text, text_length), wanted, "aes128_cbc_decrypt");
    release(text, wanted == RATHONSI_OK ? 0 : text_length, "aes128");
    release(iv, 16, "aes128");
    release(key, key_length, "aes128");
}

static void macs(size_t key_length, size_t message_length, int32_t wanted) {
    uint8_t *key = bytes(key_length), *message = bytes(message_length), *mac = bytes(16);
    expect(rathonsi_cmac(key, key_length, message, message_length, mac), wanted, "cmac");
    release(mac, wanted == RATHONSI_OK ? 0 : 16, "cmac");
    release(message, message_length, "cmac");
    release(key, key_length, "cmac");
}

static void protects(size_t key_length, size_t payload_length, size_t pdu_length, int32_t wanted) {
    uint8_t *key = bytes(key_length), *payload = bytes(payload_length), *pdu = bytes(pdu_length);
    expect(rathonsi_secoc_protect(key, key_length, 7, 8, payload, payload_length, pdu, pdu_length), wanted, "secoc_protect");
    release(pdu, wanted == RATHONSI_OK ? 0 : pdu_length, "secoc_protect");
    pdu = bytes(pdu_length);
    expect(rathonsi_secoc_protect_in_place(key, key_length, 7, 8, pdu, pdu_length, payload_length), wanted, "secoc_protect_in_place");
    release(pdu, wanted == RATHONSI_OK ? 0 : pdu_length, "secoc_protect_in_place");
    release(payload, payload_length, "secoc_protect");
    release(key, key_length, "secoc_protect");
}

static void verifies(size_t key_length, size_t pdu_length, uint16_t window, int32_t wanted) {
    uint8_t *key = bytes(key_length), *pdu = bytes(pdu_length);
    RathonsiVerdict verdict = rathonsi_secoc_verify(key, key_length, 7, 8, window, pdu, pdu_length);
    expect(verdict.status, wanted, "secoc_verify");
    if (verdict.payload_length != 0 || verdict.freshness != 0)
        failures++;
    release(pdu, pdu_length, "secoc_verify");
    release(key, key_length, "secoc_verify");
}

static void keys(size_t key_length, uint32_t constant, int32_t wanted) {
    uint8_t *key = bytes(key_length), *derived = bytes(16);
    expect(rathonsi_she_derive(key, key_length, constant, derived), wanted, "she_derive");
    release(derived, wanted == RATHONSI_OK ? 0 : 16, "she_derive");
    release(key, key_length, "she_derive");
}

static void updates(size_t key_length, uint8_t id, uint8_t auth, uint8_t flags, uint32_t counter, int32_t wanted) {
    uint8_t *key = bytes(key_length), *uid = bytes(15);
    RathonsiUpdate *update = (RathonsiUpdate *)bytes(sizeof *update);
    uint8_t *request = bytes(sizeof(RathonsiRequest)), *reply = bytes(sizeof(RathonsiReply));
    update->id = id;
    update->auth = auth;
    update->flags = flags;
    update->counter = counter;
    expect(rathonsi_she_make_update(key, key_length, update, (RathonsiRequest *)request), wanted, "she_make_update");
    if (key_length == 16)
        expect(rathonsi_she_confirm(update, uid, (RathonsiReply *)reply), wanted, "she_confirm");
    release(reply, wanted == RATHONSI_OK ? 0 : sizeof(RathonsiReply), "she_confirm");
    release(request, wanted == RATHONSI_OK ? 0 : sizeof(RathonsiRequest), "she_make_update");
    free(update);
    release(uid, 15, "she_confirm");
    release(key, key_length, "she_make_update");
}

static void requests(size_t key_length, uint8_t slots, int32_t wanted) {
    uint8_t *key = bytes(key_length), *update = bytes(sizeof(RathonsiUpdate));
    RathonsiRequest *request = (RathonsiRequest *)bytes(sizeof *request);
    request->m1[15] = slots;
    expect(rathonsi_she_read_update(key, key_length, request, (RathonsiUpdate *)update), wanted, "she_read_update");
    free(request);
    release(update, sizeof(RathonsiUpdate), "she_read_update");
    release(key, key_length, "she_read_update");
}

int main(void) {
    for (size_t length = 0; length <= 80; length++) {
        int32_t of_key = length == 16 ? RATHONSI_OK : RATHONSI_BAD_LENGTH;
        texts(length, 32, of_key);
        texts(16, length, length % 16 == 0 ? RATHONSI_OK : RATHONSI_BAD_LENGTH);
        macs(length, 5, of_key);
        macs(16, length, RATHONSI_OK);
        protects(length, 6, 10, of_key);
        protects(16, length, length + 4, length >= 1 && length <= 60 ? RATHONSI_OK : RATHONSI_BAD_LENGTH);
        protects(16, 20, length, length >= 24 ? RATHONSI_OK : RATHONSI_BAD_LENGTH);
        verifies(length, 10, 256, length == 16 ? RATHONSI_VERIFICATION_FAILURE : RATHONSI_BAD_LENGTH);
        verifies(16, length, 256, length >= 5 && length <= 64 ? RATHONSI_VERIFICATION_FAILURE : RATHONSI_BAD_LENGTH);
        keys(length, 1, of_key);
        updates(length, 4, 1, 0, 1, of_key);
        requests(length, 0x41, length == 16 ? RATHONSI_BAD_MAC : RATHONSI_BAD_LENGTH);
    }
    verifies(16, 10, 0, RATHONSI_BAD_VALUE);
    verifies(16, 10, 257, RATHONSI_BAD_VALUE);
    verifies(16, 10, 1, RATHONSI_FRESHNESS_FAILURE);
    verifies(16, 4, 257, RATHONSI_BAD_LENGTH);
    keys(15, 3, RATHONSI_BAD_LENGTH);
    keys(16, 0, RATHONSI_BAD_VALUE);
    keys(16, 2, RATHONSI_OK);
    keys(16, 3, RATHONSI_BAD_VALUE);
    updates(16, 13, 13, 31, 0xfffffff, RATHONSI_OK);
    updates(16, 14, 1, 0, 1, RATHONSI_BAD_VALUE);
    updates(16, 4, 14, 0, 1, RATHONSI_BAD_VALUE);
    updates(16, 4, 1, 32, 1, RATHONSI_BAD_VALUE);
    updates(16, 4, 1, 0, 0x10000000, RATHONSI_BAD_VALUE);
    updates(15, 4, 1, 0, 0x10000000, RATHONSI_BAD_LENGTH);
    protects(16, 60, 63, RATHONSI_BAD_LENGTH);
    requests(16, 0xe1, RATHONSI_BAD_ID);
    requests(16, 0x1e, RATHONSI_BAD_ID);
    printf("%d calls, %d failures\n", calls, failures);
    return failures != 0;
}
