/* The work of `audit MAP -` and, with the word watch, of `watch MAP -` in C, for comparison.
   `log_peer audit MAP` reads the map and standard input whole and prints what is found of each mapped frame, in one piece. `log_peer watch MAP` reads
   standard input 4,096 bytes at a time and prints what is found of each complete line before it reads again; it ends with the status of `watch`.
   The key of a line of the map is expanded once, and the line of a CAN identifier is found by a hash table. The map is taken to be right; its lines
   have five words. Any log may come. peer.h says how it is built. */
#include "peer.h"

enum { MOST_LINES = 256, PLACES = 1024, PIECE = 4096, MOST_LINE = 4096 };

typedef struct {
    uint64_t can;
    unsigned long number; /* in the map, counted from 1 */
    char digits[8];       /* of the CAN identifier, in lower case */
    size_t digit_count;
    uint8_t id[2];
    schedule key;
    uint64_t first, counter; /* the freshness of the map, and the one that was accepted last */
    size_t payload;
    unsigned long accepted, failed;
} map_line;

static map_line map[MOST_LINES];
static size_t map_lines;
static map_line *places[PLACES];
static int8_t digit_values[256]; /* -1 for what is no hexadecimal digit */
/* how many frames were accepted and failed, and how many lines are no frame that the map hears, of each kind */
typedef enum { ACCEPTED_FRAMES, FAILED_FRAMES, UNMAPPED, OTHER_FRAMES, MALFORMED, KINDS } kind;
static unsigned long numbers[KINDS];

static void set_digit_values(void)
{
    memset(digit_values, -1, sizeof digit_values);
    for (int i = 0; i < 16; i++) {
        digit_values[(uint8_t)"0123456789abcdef"[i]] = (int8_t)i;
        digit_values[(uint8_t)"0123456789ABCDEF"[i]] = (int8_t)i;
    }
}

static int digit_value(char c) { return digit_values[(uint8_t)c]; }

/* The bytes of hexadecimal digits; 0 where one is none. */
static int are_bytes(const char *digits, size_t bytes, uint8_t *out)
{
    int found = 0;
    for (size_t i = 0; i < bytes; i++) {
        int high = digit_value(digits[2 * i]), low = digit_value(digits[2 * i + 1]);
        found |= high | low;
        out[i] = (uint8_t)(high * 16 + low);
    }
    return found >= 0;
}

/* The number of a CAN identifier of three or eight digits, which are told apart; 0 where it is none. */
static int is_can(text word, uint64_t *can)
{
    size_t size = size_of(word);
    if (size != 3 && size != 8) return 0;
    int found = 0;
    uint64_t number = size;
    for (const char *at = word.at; at < word.end; at++) {
        int value = digit_value(*at);
        found |= value;
        number = number << 4 | (unsigned)(value & 15);
    }
    *can = number;
    return found >= 0;
}

/* The place where the line of this CAN identifier stands, or would. */
static map_line **place_of(uint64_t can)
{
    size_t at = (size_t)(can * 0x9e3779b97f4a7c15 >> 54);
    while (places[at] && places[at]->can != can) at = (at + 1) % PLACES;
    return &places[at];
}

static void read_map(const char *name)
{
    text rest = read_all(name), line;
    uint8_t key[16], counter[8];
    for (unsigned long number = 1; next_line(&rest, &line); number++) {
        text word = next_word(&line);
        if (is_skipped(word)) continue;
        map_line *added = &map[map_lines];
        added->number = number;
        if (map_lines++ == MOST_LINES || !is_can(word, &added->can)) stop("the map is wrong");
        for (const char *at = word.at; at < word.end; at++) added->digits[added->digit_count++] = "0123456789abcdef"[digit_value(*at)];
        bytes_of(next_word(&line).at, 4, added->id);
        bytes_of(next_word(&line).at, 32, key);
        expand(&added->key, key);
        bytes_of(next_word(&line).at, 16, counter);
        added->first = added->counter = number_of(counter);
        added->payload = decimal(next_word(&line));
        if (size_of(next_word(&line))) stop("the map is wrong");
        *place_of(added->can) = added;
    }
}

/* The line of the map for a frame, its bytes and how many they are. NULL where the word is no data frame, and where the map hasn't its CAN
   identifier: is_data tells these apart. */
static map_line *frame_of(text word, uint8_t *bytes, size_t *count, int *is_data)
{
    uint64_t can;
    size_t most = 8;
    const char *hash = memchr(word.at, '#', size_of(word));
    if (!hash || !is_can((text){word.at, hash}, &can)) return NULL;
    text data = {hash + 1, word.end};
    if (data.at < data.end && *data.at == '#') {
        if (size_of(data) < 2 || digit_value(data.at[1]) < 0) return NULL;
        data.at += 2;
        most = 64;
    }
    *count = size_of(data) / 2;
    if (size_of(data) % 2 || *count > most || !are_bytes(data.at, *count, bytes)) return NULL;
    *is_data = 1;
    return *place_of(can);
}

/* What the third word of a line is that no line of the map hears. */
static kind other_kind(text word, int is_data)
{
    const char *hash = memchr(word.at, '#', size_of(word));
    if (!hash) return MALFORMED;
    text can = {word.at, hash};
    uint64_t number;
    size_t size = size_of(can);
    if (is_data && *can.at <= (size == 3 ? '7' : '1')) return UNMAPPED;
    /* an error frame, and without data a remote frame or one of CAN XL */
    if (is_data) return size == 8 && (*can.at == '2' || *can.at == '3') ? OTHER_FRAMES : MALFORMED;
    if (is_can(can, &number) && hash + 1 < word.end && hash[1] == 'R') return OTHER_FRAMES;
    int is_xl = size == 5;
    for (const char *at = can.at; at < can.end; at++) is_xl &= digit_value(*at) >= 0;
    return is_xl ? OTHER_FRAMES : MALFORMED;
}

/* What is found of a line of the log that isn't skipped, its first word and the rest, is printed, and counted. */
static void look_at(unsigned long number, text first, text line)
{
    uint8_t message[MOST_MESSAGE];
    size_t count;
    text channel = next_word(&line), frame = next_word(&line);
    map_line *mapped = NULL;
    int is_data = 0, is_timed = *first.at == '(' && first.end[-1] == ')' && size_of(channel) && size_of(frame);
    if (is_timed) mapped = frame_of(frame, message + 2, &count, &is_data);
    if (!mapped) {
        numbers[is_timed ? other_kind(frame, is_data) : MALFORMED]++;
        return;
    }
    print_decimal(number);
    print_text(" ");
    print(mapped->digits, mapped->digit_count);
    print_text(" ");
    memcpy(message, mapped->id, 2);
    size_t pdu = mapped->payload + 4;
    verdict found = count < pdu ? BAD_LENGTH : judge(&mapped->key, message, pdu, 256, &mapped->counter);
    numbers[found == ACCEPTED ? ACCEPTED_FRAMES : FAILED_FRAMES]++;
    if (found == ACCEPTED) mapped->accepted++;
    else mapped->failed++;
    print_verdict(found, message, pdu);
}

static void print_count(const char *name, unsigned long number)
{
    print_text(name);
    print_decimal(number);
    print_text("\n");
}

static void audit(void)
{
    text rest = read_all(NULL), line;
    for (unsigned long number = 1; next_line(&rest, &line); number++) {
        text first = next_word(&line);
        if (!is_skipped(first)) look_at(number, first, line);
    }
    print_count("other ", numbers[UNMAPPED] + numbers[OTHER_FRAMES] + numbers[MALFORMED]);
    flush();
}

/* A complete line of a log that has any length: one of more than 4,096 bytes is malformed. */
static void watch_line(unsigned long number, text line, size_t length)
{
    text first = next_word(&line);
    if (length > MOST_LINE) numbers[MALFORMED]++;
    else if (!is_skipped(first)) look_at(number, first, line);
}

/* Looks at the complete lines of these bytes, and gives the one that isn't complete. */
static text watch_lines(text rest, unsigned long *number)
{
    text line;
    while (memchr(rest.at, '\n', size_of(rest))) {
        const char *from = rest.at;
        next_line(&rest, &line);
        watch_line(++*number, line, (size_t)(rest.at - from) - 1);
    }
    return rest;
}

/* The numbers of a line of the map. */
static void print_line(const map_line *it)
{
    uint8_t last[8];
    put_number(last, it->counter);
    print_text("line ");
    print_decimal(it->number);
    print_text(" ");
    print(it->digits, it->digit_count);
    print_text(" ");
    print_digits(it->id, 2);
    print_text(" accepted ");
    print_decimal(it->accepted);
    print_text(" failed ");
    print_decimal(it->failed);
    print_text(" missed ");
    print_decimal(it->counter - it->first - it->accepted);
    print_text(" last ");
    print_digits(last, 8);
    print_text("\n");
}

/* Prints the numbers of each line of the map and of the log, and gives the status. */
static int print_totals(void)
{
    int is_silent = map_lines == 0;
    for (size_t i = 0; i < map_lines; i++) {
        print_line(&map[i]);
        is_silent |= map[i].accepted == 0;
    }
    print_count("accepted ", numbers[ACCEPTED_FRAMES]);
    print_count("failed ", numbers[FAILED_FRAMES]);
    print_count("unmapped ", numbers[UNMAPPED]);
    print_count("other frames ", numbers[OTHER_FRAMES]);
    print_count("malformed ", numbers[MALFORMED]);
    flush();
    return numbers[FAILED_FRAMES] ? 1 : is_silent ? 3 : 0;
}

static int watch(void)
{
    /* of a line that is too long no more is kept than shows it */
    static char bytes[MOST_LINE + 1 + PIECE];
    size_t kept = 0;
    unsigned long number = 0;
    ssize_t count;
    while ((count = read(0, bytes + kept, PIECE)) > 0) {
        text rest = watch_lines((text){bytes, bytes + kept + count}, &number);
        kept = size_of(rest) > MOST_LINE ? MOST_LINE + 1 : size_of(rest);
        memmove(bytes, rest.at, kept);
        flush();
    }
    if (count < 0) stop("reading failed");
    text rest = {bytes, bytes + kept}, line;
    if (next_line(&rest, &line)) watch_line(number + 1, line, kept);
    return print_totals();
}

int main(int count, char **words)
{
    if (count != 3) stop("usage: log_peer audit MAP, log_peer watch MAP");
    set_digit_values();
    read_map(words[2]);
    if (strcmp(words[1], "watch") == 0) return watch();
    audit();
    return 0;
}
