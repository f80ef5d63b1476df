/* The work of `endpoint B MAP - DISK` in C without a store, for comparison. `endpoint_peer MAP` reads a map whose lines have two words more than those of
   `endpoint`: the key, and the freshness that was sent or accepted last. It reads standard input 4,096 bytes at a time and prints the answers to the complete
   lines before it reads again; with a second word `lines` it writes each answer by itself, as `endpoint` does. The key of a line of the map is expanded once.
   Counters are kept in variables. The map is taken to be right; of the log, lines of other forms are counted, and `load` is none of its words. peer.h says
   how it is built. */
#include "peer.h"

enum { MOST_RULES = 512, PIECE = 4096, MOST_LINE = 4096 };

typedef struct {
    int receives;
    text can, from, to;
    uint8_t id[2];
    size_t payload;
    schedule key;
    uint64_t *counter, kept;
} rule;

static rule rules[MOST_RULES];
static size_t rule_count;
static int8_t digit_values[256]; /* -1 for what is no hexadecimal digit */
static unsigned long sent, accepted, refused, others;
static int by_lines;

static int is_same(text one, text other) { return size_of(one) == size_of(other) && memcmp(one.at, other.at, size_of(one)) == 0; }

static int is_word(text word, const char *other) { return is_same(word, (text){other, other + strlen(other)}); }

/* Two words that are the same but for the case of their letters. */
static int is_same_can(text one, text other)
{
    if (size_of(one) != size_of(other)) return 0;
    for (size_t i = 0; i < size_of(one); i++)
        if (digit_values[(uint8_t)one.at[i]] != digit_values[(uint8_t)other.at[i]]) return 0;
    return 1;
}

static void set_digit_values(void)
{
    memset(digit_values, -1, sizeof digit_values);
    for (int i = 0; i < 16; i++) {
        digit_values[(uint8_t)"0123456789abcdef"[i]] = (int8_t)i;
        digit_values[(uint8_t)"0123456789ABCDEF"[i]] = (int8_t)i;
    }
}

/* The counter of a Data ID in a direction: lines of the map share it. */
static uint64_t *counter_of(rule *added, const char *digits)
{
    uint8_t counter[8];
    for (rule *it = rules; it < added; it++)
        if (it->receives == added->receives && memcmp(it->id, added->id, 2) == 0) return it->counter;
    bytes_of(digits, 16, counter);
    added->kept = number_of(counter);
    return &added->kept;
}

static void read_map(const char *name)
{
    text rest = read_all(name), line;
    uint8_t key[16];
    while (next_line(&rest, &line)) {
        text word = next_word(&line);
        if (is_skipped(word)) continue;
        if (rule_count == MOST_RULES) stop("the map is too long");
        rule *added = &rules[rule_count++];
        added->receives = is_word(word, "receive");
        added->can = next_word(&line);
        bytes_of(next_word(&line).at, 4, added->id);
        added->payload = decimal(next_word(&line));
        added->from = next_word(&line);
        added->to = next_word(&line);
        bytes_of(next_word(&line).at, 32, key);
        expand(&added->key, key);
        added->counter = counter_of(added, next_word(&line).at);
    }
}

/* The rule for a CAN identifier on a channel; none if the map hasn't it. */
static rule *rule_of(text can, text channel)
{
    for (rule *it = rules; it < rules + rule_count; it++)
        if (is_same_can(it->can, can) && (is_word(it->from, "-") || is_same(it->from, channel))) return it;
    return NULL;
}

/* The bytes of a frame's data, and its flags; 0 where it is no data frame. */
static int are_data(text data, uint8_t *bytes, size_t *count, char *flags)
{
    size_t most = 8;
    int found = 0;
    *flags = '0';
    if (data.at < data.end && *data.at == '#') {
        if (size_of(data) < 2 || digit_values[(uint8_t)data.at[1]] < 0) return 0;
        *flags = "0123456789ABCDEF"[digit_values[(uint8_t)data.at[1]]];
        data.at += 2;
        most = 64;
    }
    *count = size_of(data) / 2;
    if (size_of(data) % 2 || *count > most) return 0;
    for (size_t i = 0; i < *count; i++) {
        int high = digit_values[(uint8_t)data.at[2 * i]], low = digit_values[(uint8_t)data.at[2 * i + 1]];
        found |= high | low;
        bytes[i] = (uint8_t)(high * 16 + low);
    }
    return found >= 0;
}

static void print_upper(const uint8_t *bytes, size_t len)
{
    for (size_t i = 0; i < len; i++) {
        output[made++] = "0123456789ABCDEF"[bytes[i] >> 4];
        output[made++] = "0123456789ABCDEF"[bytes[i] & 15];
    }
}

static void print_frame(const rule *it, text time, char flags, const uint8_t *bytes, size_t count)
{
    static const uint8_t lengths[] = {12, 16, 20, 24, 32, 48, 64};
    static const uint8_t zeros[64];
    print(time.at, size_of(time));
    print_text(" ");
    print(it->to.at, size_of(it->to));
    print_text(" ");
    for (const char *at = it->can.at; at < it->can.end; at++) output[made++] = "0123456789ABCDEF"[digit_values[(uint8_t)*at]];
    print_text(count > 8 ? "##" : "#");
    if (count > 8) output[made++] = flags;
    print_upper(bytes, count);
    if (count > 8) {
        size_t next = 0;
        while (lengths[next] < count) next++;
        print_upper(zeros, lengths[next] - count);
    }
    print_text("\n");
}

static void print_comment(const rule *it, unsigned long number, const char *what)
{
    refused++;
    print_text("# ");
    print_decimal(number);
    print_text(" ");
    for (const char *at = it->can.at; at < it->can.end; at++) output[made++] = "0123456789abcdef"[digit_values[(uint8_t)*at]];
    print_text(what);
}

/* A message has the data of the frame after its first two bytes. */
static void answer(rule *it, unsigned long number, text time, char flags, uint8_t *message, size_t count)
{
    size_t pdu = it->payload + 4;
    memcpy(message, it->id, 2);
    if (count < (it->receives ? pdu : it->payload)) {
        print_comment(it, number, " refused BadLength\n");
    } else if (!it->receives) {
        uint8_t end[4];
        put_number(message + 2 + it->payload, ++*it->counter);
        secure(&it->key, message, it->payload, end);
        memcpy(message + 2 + it->payload, end, 4);
        print_frame(it, time, flags, message + 2, pdu);
        sent++;
    } else {
        verdict found = judge(&it->key, message, pdu, 256, it->counter);
        if (found == ACCEPTED) {
            print_frame(it, time, flags, message + 2, it->payload);
            accepted++;
        } else {
            print_comment(it, number, found == FRESHNESS_FAILURE ? " FRESHNESSFAILURE\n" : " VERIFICATIONFAILURE\n");
        }
    }
}

/* A line that is complete; one of more than 4,096 bytes is an other one. */
static void look_at(unsigned long number, text line, size_t length)
{
    uint8_t message[MOST_MESSAGE];
    size_t count;
    char flags;
    text time = next_word(&line), channel, frame;
    if (is_skipped(time) && length <= MOST_LINE) return;
    channel = next_word(&line);
    frame = next_word(&line);
    rule *found = NULL;
    const char *hash = length <= MOST_LINE ? memchr(frame.at, '#', size_of(frame)) : NULL;
    if (hash && *time.at == '(' && time.end[-1] == ')' && are_data((text){hash + 1, frame.end}, message + 2, &count, &flags))
        found = rule_of((text){frame.at, hash}, channel);
    if (found) answer(found, number, time, flags, message, count);
    else others++;
    if (by_lines) flush();
}

/* Answers the complete lines of these bytes, and gives the one that isn't complete. */
static text answer_lines(text rest, unsigned long *number)
{
    text line;
    while (memchr(rest.at, '\n', size_of(rest))) {
        const char *from = rest.at;
        next_line(&rest, &line);
        look_at(++*number, line, (size_t)(rest.at - from) - 1);
    }
    return rest;
}

static void print_count(const char *name, unsigned long number)
{
    print_text(name);
    print_decimal(number);
}

int main(int count, char **words)
{
    /* of a line that is too long no more is kept than shows it */
    static char bytes[MOST_LINE + 1 + PIECE];
    size_t kept = 0;
    unsigned long number = 0;
    ssize_t got;
    if (count < 2) stop("usage: endpoint_peer MAP [lines]");
    by_lines = count > 2;
    set_digit_values();
    read_map(words[1]);
    while ((got = read(0, bytes + kept, PIECE)) > 0) {
        text rest = answer_lines((text){bytes, bytes + kept + got}, &number);
        kept = size_of(rest) > MOST_LINE ? MOST_LINE + 1 : size_of(rest);
        memmove(bytes, rest.at, kept);
        flush();
    }
    if (got < 0) stop("reading failed");
    text rest = {bytes, bytes + kept}, line;
    if (next_line(&rest, &line)) look_at(number + 1, line, kept);
    print_count("# sent ", sent);
    print_count(" accepted ", accepted);
    print_count(" refused ", refused);
    print_count(" other ", others);
    print_text("\n");
    flush();
    return 0;
}
