/* The work of `explain --locate` in C over OpenSSL's AES, for comparison: the least freshness of a range with which the first of three PDUs verifies,
   and after which the next two are accepted with a window of 256.

   locate_peer BATCH KEY ID LEN FROM TO FIRST SECOND THIRD prints one less than it, as 16 digits, or ?. FROM and TO are decimal, the PDUs hexadecimal
   digits. The blocks of BATCH values, 1 to 4,096, are encrypted by one call; OpenSSL then does several at a time by its AES instructions. The subkeys
   are computed once. All inputs are taken to be right. */
#include <openssl/evp.h>
#include <stdint.h>
#include <stdio.h>
#include <stdlib.h>
#include <string.h>

enum { BLOCK = 16, MOST = 4096, MOST_PAYLOAD = 60, MOST_BLOCKS = 5, WINDOW = 256 };

static EVP_CIPHER_CTX *context;
static uint8_t last_key[BLOCK];
static uint8_t id[2];
static size_t payload, length, blocks;
static uint8_t chains[MOST][BLOCK];

static void stop(const char *what)
{
    fprintf(stderr, "%s\n", what);
    exit(1);
}

static void encrypt(uint8_t *bytes, size_t count)
{
    int made;
    if (EVP_EncryptUpdate(context, bytes, &made, bytes, (int)(count * BLOCK)) != 1) stop("EVP_EncryptUpdate");
}

static void dbl(uint8_t *block)
{
    int carry = block[0] >> 7;
    for (int i = 0; i < BLOCK - 1; i++) block[i] = (uint8_t)(block[i] << 1 | block[i + 1] >> 7);
    block[BLOCK - 1] = (uint8_t)(block[BLOCK - 1] << 1 ^ (carry ? 0x87 : 0));
}

static size_t bytes_of(const char *digits, uint8_t *bytes)
{
    size_t count = 0;
    for (unsigned byte; sscanf(digits + 2 * count, "%2x", &byte) == 1; count++) bytes[count] = (uint8_t)byte;
    return count;
}

/* The blocks of the authenticated input of a PDU; the subkey is in the last, and the freshness isn't in them yet. */
static void put_input(const uint8_t *pdu, uint8_t *input)
{
    memset(input, 0, blocks * BLOCK);
    memcpy(input, id, 2);
    memcpy(input + 2, pdu, payload);
    if (length < blocks * BLOCK) input[length] = 0x80;
    for (size_t i = 0; i < BLOCK; i++) input[(blocks - 1) * BLOCK + i] ^= last_key[i];
}

/* The CMACs of an input with so many values of freshness, 256 apart, are in `chains`. */
static void authenticate(const uint8_t *input, uint64_t first, size_t count)
{
    memset(chains, 0, count * BLOCK);
    for (size_t block = 0; block < blocks; block++) {
        for (size_t each = 0; each < count; each++)
            for (size_t i = 0; i < BLOCK; i++) chains[each][i] ^= input[block * BLOCK + i];
        for (size_t byte = 0; byte < 8; byte++) {
            size_t at = length - 8 + byte;
            if (at / BLOCK != block) continue;
            for (size_t each = 0; each < count; each++) chains[each][at % BLOCK] ^= (uint8_t)((first + 256 * each) >> (56 - 8 * byte));
        }
        encrypt(chains[0], count);
    }
}

/* The freshness with which a receiver with this counter accepts a PDU; 0 if it doesn't. */
static uint64_t accepted(uint64_t counter, const uint8_t *pdu)
{
    uint8_t input[MOST_BLOCKS * BLOCK];
    uint64_t value = counter + 1 + (uint8_t)(pdu[payload] - (uint8_t)(counter + 1));
    if (value <= counter || value - counter > WINDOW) return 0;
    put_input(pdu, input);
    authenticate(input, value, 1);
    return memcmp(chains[0], pdu + payload + 1, 3) == 0 ? value : 0;
}

static void print(uint64_t found)
{
    printf("%016llx\n", (unsigned long long)found);
    exit(0);
}

int main(int count, char **words)
{
    uint8_t key[BLOCK], pdus[3][128], input[MOST_BLOCKS * BLOCK];
    if (count != 10) stop("usage: locate_peer BATCH KEY ID LEN FROM TO FIRST SECOND THIRD");
    size_t batch = strtoull(words[1], NULL, 10);
    bytes_of(words[2], key);
    bytes_of(words[3], id);
    payload = strtoull(words[4], NULL, 10);
    uint64_t from = strtoull(words[5], NULL, 10), to = strtoull(words[6], NULL, 10);
    for (int i = 0; i < 3; i++) bytes_of(words[7 + i], pdus[i]);
    if (batch < 1 || batch > MOST || payload < 1 || payload > MOST_PAYLOAD) stop("no such batch or length");
    length = payload + 10;
    blocks = (length + BLOCK - 1) / BLOCK;

    context = EVP_CIPHER_CTX_new();
    if (!context || EVP_EncryptInit_ex(context, EVP_aes_128_ecb(), NULL, key, NULL) != 1) stop("EVP_EncryptInit_ex");
    EVP_CIPHER_CTX_set_padding(context, 0);
    encrypt(last_key, 1);
    dbl(last_key);
    if (length < blocks * BLOCK) dbl(last_key);

    put_input(pdus[0], input);
    from += (uint8_t)(pdus[0][payload] - (uint8_t)from);
    for (uint64_t left = from > to ? 0 : (to - from) / 256 + 1; left > 0;) {
        size_t now = left < batch ? left : batch;
        authenticate(input, from, now);
        for (size_t each = 0; each < now; each++) {
            uint64_t value = from + 256 * each;
            if (memcmp(chains[each], pdus[0] + payload + 1, 3) != 0) continue;
            uint64_t second = accepted(value, pdus[1]);
            if (second && accepted(second, pdus[2])) print(value - 1);
            authenticate(input, from, now);
        }
        from += 256 * now;
        left -= now;
    }
    puts("?");
    return 0;
}
