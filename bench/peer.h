/* What the peers in C share: AES by tables, the CMAC, Secured I-PDUs (AUTOSAR SecOC, profile 1) and the verdict on them, input, digits and printed text.
   Build with -DOPENSSL (the C library of OpenSSL, its table-driven AES) or -DBEARSSL (BearSSL's table-driven AES). */
#include <stdint.h>
#include <stdio.h>
#include <stdlib.h>
#include <string.h>
#include <unistd.h>

#if defined(OPENSSL)
#define OPENSSL_SUPPRESS_DEPRECATED
#include <openssl/aes.h>
typedef AES_KEY schedule;
static void expand(schedule *s, const uint8_t *key) { AES_set_encrypt_key(key, 128, s); }
static void encrypt(const schedule *s, uint8_t *block) { AES_encrypt(block, block, s); }
#elif defined(BEARSSL)
#include <bearssl.h>
typedef br_aes_big_cbcenc_keys schedule;
static void expand(schedule *s, const uint8_t *key) { br_aes_big_cbcenc_init(s, key, 16); }
static void encrypt(const schedule *s, uint8_t *block)
{
    uint8_t iv[16] = {0};
    br_aes_big_cbcenc_run(s, iv, block, 16);
}
#else
#error "build with -DOPENSSL or -DBEARSSL"
#endif

static void dbl(uint8_t *block)
{
    int carry = block[0] >> 7;
    for (int i = 0; i < 15; i++) block[i] = (uint8_t)(block[i] << 1 | block[i + 1] >> 7);
    block[15] = (uint8_t)(block[15] << 1);
    if (carry) block[15] ^= 0x87;
}

static void cmac(const schedule *s, const uint8_t *message, size_t len, uint8_t *mac)
{
    uint8_t subkey[16] = {0};
    encrypt(s, subkey);
    dbl(subkey);
    memset(mac, 0, 16);
    size_t at = 0;
    for (; len - at > 16; at += 16) {
        for (int i = 0; i < 16; i++) mac[i] ^= message[at + i];
        encrypt(s, mac);
    }
    uint8_t last[16] = {0};
    memcpy(last, message + at, len - at);
    if (len - at < 16) {
        last[len - at] = 0x80;
        dbl(subkey);
    }
    for (int i = 0; i < 16; i++) mac[i] ^= last[i] ^ subkey[i];
    encrypt(s, mac);
}

/* A message is a Data ID (2 bytes), a payload and a whole freshness (8 bytes): the authenticated input. A PDU that is judged stands after the
   Data ID, and its freshness is then written after the payload, over its last four bytes. */
enum { MOST_PDU = 64, MOST_MESSAGE = 2 + MOST_PDU + 4 };

static void put_number(uint8_t *bytes, uint64_t number)
{
    for (int i = 0; i < 8; i++) bytes[i] = (uint8_t)(number >> (56 - 8 * i));
}

static uint64_t number_of(const uint8_t *bytes)
{
    uint64_t number = 0;
    for (int i = 0; i < 8; i++) number = number << 8 | bytes[i];
    return number;
}

/* What stands after the payload in the PDU of a message: the low byte of the freshness, and three bytes of the CMAC. */
static inline void secure(const schedule *s, const uint8_t *message, size_t payload, uint8_t *end)
{
    uint8_t mac[16];
    cmac(s, message, payload + 10, mac);
    end[0] = message[payload + 9];
    memcpy(end + 1, mac, 3);
}

typedef enum { ACCEPTED, BAD_LENGTH, FRESHNESS_FAILURE, VERIFICATION_FAILURE } verdict;

/* The verdict on a PDU of so many bytes. Where it is accepted, its freshness stands after the payload and is the counter. */
static verdict judge(const schedule *s, uint8_t *message, size_t pdu, unsigned window, uint64_t *counter)
{
    if (pdu < 5 || pdu > MOST_PDU) return BAD_LENGTH;
    size_t payload = pdu - 4;
    uint8_t *end = message + 2 + payload, tag[3], mac[16];
    memcpy(tag, end + 1, 3);
    uint64_t freshness = (*counter & ~(uint64_t)255) | *end;
    if (freshness <= *counter && (freshness += 256) < 256) return FRESHNESS_FAILURE;
    if (freshness - *counter > window) return FRESHNESS_FAILURE;
    put_number(end, freshness);
    cmac(s, message, payload + 10, mac);
    if (memcmp(mac, tag, 3) != 0) return VERIFICATION_FAILURE;
    *counter = freshness;
    return ACCEPTED;
}

/* A piece of text, from one place up to another. */
typedef struct { const char *at, *end; } text;

static size_t size_of(text it) { return (size_t)(it.end - it.at); }

static void stop(const char *what)
{
    fprintf(stderr, "%s\n", what);
    exit(1);
}

/* Both inputs of a program have at most 1,048,576 bytes, and 65,536 events print at most 170 bytes each. */
static char input[(1 << 21) + 1];
static size_t taken;

/* All of a file, or of standard input where no name is given. */
static text read_all(const char *name)
{
    FILE *file = name ? fopen(name, "rb") : stdin;
    if (!file) stop("no such file");
    text whole = {input + taken, NULL};
    taken += fread(input + taken, 1, sizeof input - taken, file);
    if (taken == sizeof input) stop("the input is too long");
    whole.end = input + taken;
    return whole;
}

/* Takes the next line off a text, without its end; 0 where there is none. */
static int next_line(text *rest, text *line)
{
    if (rest->at == rest->end) return 0;
    const char *feed = memchr(rest->at, '\n', size_of(*rest));
    line->at = rest->at;
    line->end = feed ? feed : rest->end;
    rest->at = feed ? feed + 1 : rest->end;
    if (line->end > line->at && line->end[-1] == '\r') line->end--;
    return 1;
}

/* Takes the next word off a line, an empty one where there is none. */
static inline text next_word(text *line)
{
    const char *at = line->at;
    while (at < line->end && (*at == ' ' || *at == '\t')) at++;
    text word = {at, at};
    while (word.end < line->end && *word.end != ' ' && *word.end != '\t') word.end++;
    line->at = word.end;
    return word;
}

/* A line without words, or a comment. */
static int is_skipped(text word) { return word.at == word.end || *word.at == '#'; }

static int digit(char c) { return c <= '9' ? c - '0' : (c | 32) - 'a' + 10; }

/* The bytes of hexadecimal digits, and how many they are. */
static size_t bytes_of(const char *word, size_t digits, uint8_t *out)
{
    for (size_t i = 0; i + 1 < digits; i += 2) out[i / 2] = (uint8_t)(digit(word[i]) << 4 | digit(word[i + 1]));
    return digits / 2;
}

/* The number of decimal digits. */
static inline unsigned long decimal(text word)
{
    unsigned long number = 0;
    for (const char *at = word.at; at < word.end; at++) number = 10 * number + (unsigned long)(*at - '0');
    return number;
}

static char output[1 << 24];
static size_t made;

/* Writes what was printed. */
static void flush(void)
{
    for (size_t at = 0; at < made;) {
        ssize_t count = write(1, output + at, made - at);
        if (count <= 0) stop("writing failed");
        at += (size_t)count;
    }
    made = 0;
}

static void print(const char *bytes, size_t len)
{
    memcpy(output + made, bytes, len);
    made += len;
}

static void print_text(const char *line) { print(line, strlen(line)); }

static void print_digits(const uint8_t *bytes, size_t len)
{
    for (size_t i = 0; i < len; i++) {
        output[made++] = "0123456789abcdef"[bytes[i] >> 4];
        output[made++] = "0123456789abcdef"[bytes[i] & 15];
    }
}

static inline void print_decimal(unsigned long number)
{
    char digits[20];
    size_t first = sizeof digits;
    do digits[--first] = (char)('0' + number % 10);
    while ((number /= 10) > 0);
    print(digits + first, sizeof digits - first);
}

/* Prints what `judge` says of a PDU of so many bytes in a message, and a line feed. */
static inline void print_verdict(verdict found, const uint8_t *message, size_t pdu)
{
    switch (found) {
    case BAD_LENGTH: print_text("BadLength\n"); break;
    case FRESHNESS_FAILURE: print_text("FRESHNESSFAILURE\n"); break;
    case VERIFICATION_FAILURE: print_text("VERIFICATIONFAILURE\n"); break;
    case ACCEPTED:
        print_text("VERIFICATIONSUCCESS ");
        print_digits(message + pdu - 2, 8);
        print_text(" ");
        print_digits(message + 2, pdu - 4);
        print_text("\n");
    }
}
