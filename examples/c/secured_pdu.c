/*
 * A sender protects a payload of six bytes, in a buffer and in place, and a receiver verifies it: once within its window, once outside,
 * and once with a changed byte. The key, the payload and the freshness are those of NIST's second example for the CMAC over AES-128
 * (SP 800-38B, appendix D.1), read as Data ID 6bc1, payload and freshness.
 */
#include <stdio.h>
#include <string.h>

#include "rathonsi.h"

static const uint8_t key[16] = {0x2b, 0x7e, 0x15, 0x16, 0x28, 0xae, 0xd2, 0xa6, 0xab, 0xf7, 0x15, 0x88, 0x09, 0xcf, 0x4f, 0x3c};
static const uint8_t payload[6] = {0xbe, 0xe2, 0x2e, 0x40, 0x9f, 0x96};

static void show(RathonsiVerdict verdict) {
    switch (verdict.status) {
    case RATHONSI_OK:
        printf("accepted: payload of %lu bytes, freshness %08lx%08lx\n", (unsigned long)verdict.payload_length,
               (unsigned long)(verdict.freshness >> 32), (unsigned long)(verdict.freshness & 0xffffffffu));
        break;
    case RATHONSI_FRESHNESS_FAILURE:
        puts("refused: no freshness within the window");
        break;
    case RATHONSI_VERIFICATION_FAILURE:
        puts("refused: another authenticator");
        break;
    default:
        printf("refused: status %d\n", (int)verdict.status);
    }
}

int main(void) {
    const uint16_t data_id = 0x6bc1;
    const uint64_t freshness = UINT64_C(0xe93d7e117393172a);
    uint8_t pdu[RATHONSI_PDU_MOST];
    uint8_t same[RATHONSI_PDU_MOST];
    size_t length = sizeof payload + RATHONSI_TRAILER;

    if (rathonsi_secoc_protect(key, sizeof key, data_id, freshness, payload, sizeof payload, pdu, sizeof pdu) != RATHONSI_OK)
        return 1;
    memcpy(same, payload, sizeof payload);
    if (rathonsi_secoc_protect_in_place(key, sizeof key, data_id, freshness, same, sizeof same, sizeof payload) != RATHONSI_OK)
        return 1;
    if (memcmp(pdu, same, length) != 0)
        return 1;
    for (size_t i = 0; i < length; i++)
        printf("%02x", pdu[i]);
    puts("");

    show(rathonsi_secoc_verify(key, sizeof key, data_id, freshness - 1, 1, pdu, length));
    show(rathonsi_secoc_verify(key, sizeof key, data_id, freshness - 2, 1, pdu, length));
    pdu[0] ^= 1;
    show(rathonsi_secoc_verify(key, sizeof key, data_id, freshness - 1, 256, pdu, length));
    return 0;
}
