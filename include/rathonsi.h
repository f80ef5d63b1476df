/*
 * rathonsi.h: a static library for AES-128 and its CMAC, for Secured I-PDUs, and for key updates.
 * The Secured I-PDU is that of AUTOSAR SecOC profile 1 (24Bit-CMAC-8Bit-FV).
 * The key update is that of the Secure Hardware Extensions (SHE).
 *
 * Each function is an export of the crate rathonsi_c, and its contract is proved. For all
 * arguments:
 *   - The result is the one that the standard's definition gives.
 *   - A call returns a status exactly if this header says so.
 *   - With a status other than RATHONSI_OK every output is as before.
 *   - A call that returns RATHONSI_OK writes nothing outside its output.
 *
 * The library takes no memory, keeps no state and has no writable data. Any number of threads may
 * run its functions at the same time, each on memory of its own.
 *
 * What the caller owes. Nothing can check these duties.
 *   D-1 No pointer is null, not even one with length 0.
 *   D-2 Nothing that is passed lies at address 0. Of a program that lies there, copy the first bytes, and
 *     boot it in pieces: see rathonsi_boot_begin.
 *   D-3 No length is over 2^31 - 1 if pointers have 32 bits.
 *   D-4 Each pointer points to as many bytes as its length or its fixed size says, or to one struct.
 *   D-5 What a call writes overlaps no other argument. To protect a payload where it stands, call
 *     rathonsi_secoc_protect_in_place.
 *
 * What isn't claimed:
 *   - Wiped memory: nothing is wiped. Keys, round keys and texts stay in stack frames that a call
 *     has left.
 *   - Constant time: no call is claimed to take the same time for all keys and all data.
 *
 * Builds:
 *   - bin/build_c makes the archive for x86-64 (its level v2, from SSE4.2 on).
 *   - With --target it makes the archive for ARM64.
 *   - With --source it writes rathonsi.c, one file of C99. Compile it with your program. It is for
 *     any processor with pointers of 32 or 64 bits, in either order of bytes. It needs no
 *     alignment, no number of 128 bits and no compiler option. It encrypts over words of 32 bits,
 *     without a table. With RATHONSI_CIPHER defined as 2 it takes tables: that is three times as
 *     quick, and reads memory at places that depend on keys and texts. With 0 it takes shuffles of
 *     bytes, as the archives do. All three give the same. Decryption reads at such places with each.
 * Each of them needs memcpy, memmove and memset, and nothing else. A program without a C library
 * supplies these three.
 *
 * What is proved ends at the crate. For the archives rattle's back end and clang are trusted. For
 * rathonsi.c the back end, the translator bin/ll2c and your compiler are trusted. Run
 * examples/c/self_test.c on your processor: it prints the sum of the release.
 *
 * rathonsi.c calls RATHONSI_TRAP() if the processor comes to a place that the proof excludes. You
 * may define RATHONSI_TRAP(). It must not return.
 *
 * Sizes: docs/speed.md has the code, the stack and the instructions of a send, a receive and a load
 * for six kinds of processor.
 *
 * Lengths are in bytes. A key has 16 bytes. All numbers within PDUs and messages are big-endian. A
 * caller never sees them.
 */
#ifndef RATHONSI_H
#define RATHONSI_H

#include <stddef.h>
#include <stdint.h>

#ifdef __cplusplus
extern "C" {
#endif

/* A status that isn't looked at is a mistake: compilers that can warn of it do. */
#if defined(__GNUC__)
#define RATHONSI_CHECKED __attribute__((warn_unused_result))
#else
#define RATHONSI_CHECKED
#endif

/* The version of this header, of rathonsi_store.h and of rathonsi_flash.h: major times 65536, plus
 * minor times 256, plus patch. */
#define RATHONSI_VERSION 0x001400u

/* The version of the library that is linked, to be compared with RATHONSI_VERSION. */
uint32_t rathonsi_version(void);

/* The statuses. If several could come, the call returns the first one of this list. */

/* The call did what it says. */
#define RATHONSI_OK 0
/* A key, a text, a payload, a PDU or a buffer has a length that the call doesn't take. */
#define RATHONSI_BAD_LENGTH 1
/* A number is outside its range: a window, a constant, a slot, a counter or flags. */
#define RATHONSI_BAD_VALUE 2
/* No freshness within the window has the low byte that the PDU carries. */
#define RATHONSI_FRESHNESS_FAILURE 3
/* The last three bytes of the PDU are not the first three of the authenticator. */
#define RATHONSI_VERIFICATION_FAILURE 4
/* ID or AuthID of M1 is over 13. */
#define RATHONSI_BAD_ID 5
/* M3 is not the MAC of M1 and M2 under the authorising key. */
#define RATHONSI_BAD_MAC 6

/* ---- AES-128 (FIPS 197; modes of SP 800-38A) and CMAC (SP 800-38B) --------------------------- */

/* Encrypt and decrypt a text in place, each block by itself (ECB). text_length is a multiple of 16,
 * and may be 0.
 * RATHONSI_BAD_LENGTH: key_length isn't 16, or text_length is no multiple of 16. */
RATHONSI_CHECKED
int32_t rathonsi_aes128_encrypt(const uint8_t *key, size_t key_length, uint8_t *text, size_t text_length);
RATHONSI_CHECKED
int32_t rathonsi_aes128_decrypt(const uint8_t *key, size_t key_length, uint8_t *text, size_t text_length);

/* The same, chained from an IV of 16 bytes (CBC). */
RATHONSI_CHECKED
int32_t rathonsi_aes128_cbc_encrypt(const uint8_t *key, size_t key_length, const uint8_t iv[16], uint8_t *text, size_t text_length);
RATHONSI_CHECKED
int32_t rathonsi_aes128_cbc_decrypt(const uint8_t *key, size_t key_length, const uint8_t iv[16], uint8_t *text, size_t text_length);

/* Writes all 16 bytes of the CMAC of a message to mac. The message may have any length. A shorter
 * tag is the first bytes of mac.
 * RATHONSI_BAD_LENGTH: key_length isn't 16. */
RATHONSI_CHECKED
int32_t rathonsi_cmac(const uint8_t *key, size_t key_length, const uint8_t *message, size_t message_length, uint8_t mac[16]);

/* The CMAC of a message that comes in pieces. The caller keeps the struct, and only the calls below
 * change it. It holds the key. A zeroed struct is refused. A copy of it goes on by itself. */
typedef struct RathonsiMac {
    uint8_t key[16];
    uint8_t chain[16];
    uint8_t block[16];
    uint8_t filled;
    uint8_t begun;
    uint8_t unused[2];
} RathonsiMac;

/* Begins the CMAC of a message.
 * RATHONSI_BAD_LENGTH: key_length isn't 16. */
RATHONSI_CHECKED
int32_t rathonsi_mac_begin(const uint8_t *key, size_t key_length, RathonsiMac *mac);

/* Takes the next bytes of the message, any number of them.
 * RATHONSI_BAD_VALUE: rathonsi_mac_begin didn't begin it. */
RATHONSI_CHECKED
int32_t rathonsi_mac_update(RathonsiMac *mac, const uint8_t *bytes, size_t bytes_length);

/* Writes all 16 bytes of the CMAC of the bytes given so far to tag. More bytes may be given after
 * it.
 * RATHONSI_BAD_VALUE: rathonsi_mac_begin didn't begin it. */
RATHONSI_CHECKED
int32_t rathonsi_mac_finish(const RathonsiMac *mac, uint8_t tag[16]);

/* ---- Secured I-PDUs (AUTOSAR SecOC profile 1) ------------------------------------------------ */

/* A payload has 1 to RATHONSI_PAYLOAD_MOST bytes. Its Secured I-PDU has RATHONSI_TRAILER bytes
 * more: the low byte of the freshness, then the first three bytes of the CMAC. The CMAC is over the
 * Data ID, the payload and the full freshness of 64 bits. */
#define RATHONSI_PAYLOAD_MOST 60u
#define RATHONSI_TRAILER 4u
#define RATHONSI_PDU_MOST 64u

/* Writes the Secured I-PDU to the first payload_length + RATHONSI_TRAILER bytes of pdu. The other
 * bytes stay.
 * RATHONSI_BAD_LENGTH: key_length isn't 16, payload_length is 0 or over 60, or pdu_length is below
 * payload_length + 4. */
RATHONSI_CHECKED
int32_t rathonsi_secoc_protect(const uint8_t *key, size_t key_length, uint16_t data_id, uint64_t freshness,
                               const uint8_t *payload, size_t payload_length, uint8_t *pdu, size_t pdu_length);

/* The same for a payload that stands in the first payload_length bytes of pdu. pdu_length is the
 * size of the whole buffer. */
RATHONSI_CHECKED
int32_t rathonsi_secoc_protect_in_place(const uint8_t *key, size_t key_length, uint16_t data_id, uint64_t freshness,
                                        uint8_t *pdu, size_t pdu_length, size_t payload_length);

/* What a receiver says of a PDU.
 * If status is RATHONSI_OK, the payload is the first payload_length bytes of the PDU, and freshness
 * is the receiver's next counter.
 * With any other status payload_length and freshness are 0, and the counter stays. One exception:
 * with RATHONSI_RESERVE of rathonsi_store.h freshness is the one to reserve. */
typedef struct RathonsiVerdict {
    int32_t status;
    uint32_t payload_length;
    uint64_t freshness;
} RathonsiVerdict;

/* The verdict of a receiver. counter is the freshness that it accepted last. It accepts freshness
 * up to window above counter. window is 1 to 256.
 * RATHONSI_BAD_LENGTH: key_length isn't 16, or pdu_length is below 5 or over 64.
 * RATHONSI_BAD_VALUE: window is 0 or over 256.
 * RATHONSI_FRESHNESS_FAILURE, RATHONSI_VERIFICATION_FAILURE: as above. */
RATHONSI_CHECKED
RathonsiVerdict rathonsi_secoc_verify(const uint8_t *key, size_t key_length, uint16_t data_id, uint64_t counter, uint16_t window,
                                      const uint8_t *pdu, size_t pdu_length);

/* ---- Keys of SHE ----------------------------------------------------------------------------- */

/* KEY_UPDATE_ENC_C and KEY_UPDATE_MAC_C */
#define RATHONSI_TO_ENCRYPT 1u
#define RATHONSI_TO_AUTHENTICATE 2u

/* Derives a key from key with this constant, and writes it to derived.
 * RATHONSI_BAD_LENGTH: key_length isn't 16.
 * RATHONSI_BAD_VALUE: the constant is neither of the two. */
RATHONSI_CHECKED
int32_t rathonsi_she_derive(const uint8_t *key, size_t key_length, uint32_t constant, uint8_t derived[16]);

/* The flags of a slot */
/* The slot takes no update any more. */
#define RATHONSI_WRITE_PROTECTION 16u
/* The key is used only after a secure boot that succeeded in this life. */
#define RATHONSI_BOOT_PROTECTION 8u
/* Kept for a debugger. No call here reads it. */
#define RATHONSI_DEBUGGER_PROTECTION 4u
/* Set: the key makes and verifies MACs. A route needs it: without it send and receive answer
 * RATHONSI_KEY_INVALID. Not set: the key is for encryption. */
#define RATHONSI_KEY_USAGE 2u
/* Set: the slot takes no update that is for every engine, with a UID of zero bytes. */
#define RATHONSI_WILDCARD 1u

/* A key update:
 *   uid      the engine's UID, or zero bytes for every engine
 *   id       the slot that is updated, 0 to 13
 *   auth     the slot whose key authorises the update, 0 to 13
 *   flags    the new flags, below 32
 *   counter  the new counter, below 2^28
 *   key      the new key */
typedef struct RathonsiUpdate {
    uint8_t uid[15];
    uint8_t id;
    uint8_t auth;
    uint8_t flags;
    uint32_t counter;
    uint8_t key[16];
} RathonsiUpdate;

/* The messages M1, M2 and M3 */
typedef struct RathonsiRequest {
    uint8_t m1[16];
    uint8_t m2[32];
    uint8_t m3[16];
} RathonsiRequest;

/* The messages M4 and M5 */
typedef struct RathonsiReply {
    uint8_t m4[32];
    uint8_t m5[16];
} RathonsiReply;

/* Writes the request that puts the update into an engine whose slot update->auth holds the
 * authorising key.
 * RATHONSI_BAD_LENGTH: key_length isn't 16.
 * RATHONSI_BAD_VALUE: a number of the update is outside its range. */
RATHONSI_CHECKED
int32_t rathonsi_she_make_update(const uint8_t *authkey, size_t key_length, const RathonsiUpdate *update, RathonsiRequest *request);

/* Reads the update that a request carries under the authorising key. It doesn't examine the padding
 * bits of M2. It doesn't ask whether an engine takes the update (its slot, counter, flags and UID).
 * RATHONSI_BAD_LENGTH: key_length isn't 16.
 * RATHONSI_BAD_ID, RATHONSI_BAD_MAC: as above. */
RATHONSI_CHECKED
int32_t rathonsi_she_read_update(const uint8_t *authkey, size_t key_length, const RathonsiRequest *request, RathonsiUpdate *update);

/* Writes the reply by which the engine with this UID confirms the update. A station compares it
 * with the reply that came.
 * RATHONSI_BAD_VALUE: a number of the update is outside its range. */
RATHONSI_CHECKED
int32_t rathonsi_she_confirm(const RathonsiUpdate *update, const uint8_t uid[15], RathonsiReply *reply);

#ifdef __cplusplus
}
#endif

#endif
