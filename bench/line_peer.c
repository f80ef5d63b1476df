/* The work of `bus_replay frame` and, with the word judge, of `bus_replay judge` in C, for comparison: reads lines of KEY, ID, FRESH and a
   payload or a PDU from standard input and prints one Secured I-PDU, or one verdict, a line. Lines that begin with '#' are skipped; the
   input is taken to be right. peer.h says how it is built. */
#include "peer.h"

/* The schedule of the key at the beginning of a line; it is kept while the key is the same. */
static const schedule *schedule_of(const char *line)
{
    static uint8_t kept[16];
    static schedule s;
    static int any;
    uint8_t key[16];
    bytes_of(line, 32, key);
    if (!any || memcmp(key, kept, 16) != 0) {
        expand(&s, key);
        memcpy(kept, key, 16);
        any = 1;
    }
    return &s;
}

static void frame_line(const char *line, size_t len)
{
    uint8_t message[MOST_MESSAGE], end[4];
    const schedule *s = schedule_of(line);
    bytes_of(line + 33, 4, message);
    size_t payload = bytes_of(line + 55, len - 55, message + 2);
    bytes_of(line + 38, 16, message + 2 + payload);
    secure(s, message, payload, end);
    print_digits(message + 2, payload);
    print_digits(end, 4);
    print_text("\n");
}

static void judge_line(const char *line, size_t len)
{
    uint8_t message[MOST_MESSAGE], counter[8];
    const schedule *s = schedule_of(line);
    bytes_of(line + 33, 4, message);
    bytes_of(line + 38, 16, counter);
    size_t pdu = (len - 55) / 2;
    if (pdu <= MOST_PDU) bytes_of(line + 55, len - 55, message + 2);
    uint64_t before = number_of(counter);
    print_verdict(judge(s, message, pdu, 256, &before), message, pdu);
}

int main(int count, char **words)
{
    int judges = count > 1 && strcmp(words[1], "judge") == 0;
    text rest = read_all(NULL), line;
    while (next_line(&rest, &line)) {
        if (is_skipped(line)) continue;
        if (judges) judge_line(line.at, size_of(line));
        else frame_line(line.at, size_of(line));
    }
    flush();
    return 0;
}
