/* The work of `bus_replay replay BUS -` in C, for comparison: `bus_peer BUS` reads a bus file and, from standard input, a script of that bus, and
   prints the line of each event as soon as it is done, or, with the word at_once after BUS, all lines in one piece.
   It knows the events key, send and deliver. Counters stand in variables, and a bound that moves is written once, as its cell of 32 bytes, into an array:
   there is no store, nothing is synced, and no cut is survived. A key is taken as it stands: no update M1 to M5 is made or read. Bus file and
   script are taken to be right; of TOML only tables and lines of a name and a value are read. peer.h says how it is built. */
#include "peer.h"

enum { MOST_NODES = 8, MOST_ROUTES = 64, SLOTS = 14, CELL = 32, MOST_EVENTS = 65536 };

typedef struct {
    uint8_t id[2];
    int sends;
    size_t slot, cell;
    uint64_t reserve, counter, bound;
    unsigned window;
    uint32_t *events; /* of a sender: the numbers of its sends, in their order; freshness rises by one at each */
    uint64_t first;   /* the counter before them */
} route;

typedef struct {
    text name;
    schedule keys[SLOTS];
    int has_key[SLOTS];
    route routes[MOST_ROUTES];
    size_t route_count;
    uint8_t cells[SLOTS + MOST_ROUTES][CELL];
} node;

/* What an event sent, if it did. */
typedef struct {
    const route *sender;
    uint8_t pdu[MOST_PDU];
    uint8_t size;
} sent;

static node nodes[MOST_NODES];
static size_t node_count;
static sent events[MOST_EVENTS + 1];

static int is_same(text it, text other) { return size_of(it) == size_of(other) && memcmp(it.at, other.at, size_of(it)) == 0; }

static int is_word(text it, const char *word) { return is_same(it, (text){word, word + strlen(word)}); }

/* ---- the bus file */

static text trimmed(text it)
{
    while (it.at < it.end && (*it.at == ' ' || *it.at == '"')) it.at++;
    while (it.at < it.end && (it.end[-1] == ' ' || it.end[-1] == '"')) it.end--;
    return it;
}

static void set_value(text name, text value)
{
    node *n = &nodes[node_count - 1];
    uint8_t start[8];
    if (is_word(name, "name")) n->name = value;
    if (n->route_count == 0) return;
    route *r = &n->routes[n->route_count - 1];
    if (is_word(name, "id")) bytes_of(value.at, 4, r->id);
    if (is_word(name, "direction")) r->sends = is_word(value, "send");
    if (is_word(name, "slot")) r->slot = decimal(value);
    if (is_word(name, "reserve")) r->reserve = decimal(value);
    if (is_word(name, "window")) r->window = (unsigned)decimal(value);
    if (is_word(name, "start")) {
        bytes_of(value.at, 16, start);
        r->counter = r->bound = r->first = number_of(start);
    }
}

static void add_route(node *n)
{
    route *r = &n->routes[n->route_count];
    r->cell = SLOTS + n->route_count++;
    r->reserve = 1;
    r->window = 256;
    r->events = malloc(MOST_EVENTS * sizeof *r->events);
    if (!r->events) stop("no memory");
}

static void read_bus(const char *name)
{
    text rest = read_all(name), line;
    while (next_line(&rest, &line)) {
        const char *comment = memchr(line.at, '#', size_of(line));
        if (comment) line.end = comment;
        line = trimmed(line);
        const char *equals = memchr(line.at, '=', size_of(line));
        if (is_word(line, "[[node]]")) node_count++;
        else if (is_word(line, "[[node.route]]")) add_route(&nodes[node_count - 1]);
        else if (equals && node_count) set_value(trimmed((text){line.at, equals}), trimmed((text){equals + 1, line.end}));
    }
}

/* ---- nodes */

static node *node_of(text name)
{
    for (size_t i = 0; i < node_count; i++)
        if (is_same(name, nodes[i].name)) return &nodes[i];
    stop("no such node");
    return NULL;
}

static route *route_of(node *n, const uint8_t *id, int sends)
{
    for (size_t i = 0; i < n->route_count; i++)
        if (n->routes[i].sends == sends && memcmp(n->routes[i].id, id, 2) == 0) return &n->routes[i];
    return NULL;
}

/* Where a freshness is above the bound of a route, the bound moves so far, or to the greatest freshness, and its cell is written. */
static void cover(node *n, route *r, uint64_t freshness, uint64_t base, uint64_t ahead)
{
    if (freshness <= r->bound) return;
    r->bound = base + ahead < base ? UINT64_MAX : base + ahead;
    uint8_t cell[CELL] = {2, r->sends ? 1 : 2, r->id[0], r->id[1]};
    put_number(cell + 4, r->bound);
    memcpy(n->cells[r->cell], cell, CELL);
}

/* Why a PDU of so many bytes isn't sent or received: the first cause, if there is one. */
static const char *refusal(const node *n, const route *r, size_t pdu)
{
    if (!r) return "refused NoRoute";
    if (pdu < 5 || pdu > MOST_PDU) return "refused BadLength";
    return n->has_key[r->slot] ? NULL : "refused KEY_EMPTY";
}

static void print_front(const char *name, const uint8_t *id, const uint8_t *freshness)
{
    print_text(name);
    print_digits(id, 2);
    print_text(" ");
    print_digits(freshness, 8);
    print_text(" ");
}

/* ---- events: each prints its text, without its number and line feed */

/* key NODE UID SLOT SLOT KEY COUNTER FLAGS KEY */
static void take_key(text line)
{
    node *n = node_of(next_word(&line));
    next_word(&line);
    text slot = next_word(&line);
    size_t number = decimal(slot);
    next_word(&line);
    next_word(&line);
    uint8_t cell[CELL] = {1};
    uint32_t counter = (uint32_t)decimal(next_word(&line));
    for (int i = 0; i < 4; i++) cell[2 + i] = (uint8_t)(counter >> (24 - 8 * i));
    for (text flags = next_word(&line); flags.at < flags.end; flags.at++) cell[1] = (uint8_t)(2 * cell[1] + (*flags.at - '0'));
    bytes_of(next_word(&line).at, 32, cell + 6);
    expand(&n->keys[number], cell + 6);
    n->has_key[number] = 1;
    memcpy(n->cells[number], cell, CELL);
    print_text("keyed ");
    print(slot.at, size_of(slot));
}

/* send NODE ID BYTES */
static void send_payload(text line, uint32_t number)
{
    uint8_t message[MOST_MESSAGE];
    node *n = node_of(next_word(&line));
    bytes_of(next_word(&line).at, 4, message);
    text bytes = next_word(&line);
    size_t payload = size_of(bytes) / 2;
    route *r = route_of(n, message, 1);
    const char *why = refusal(n, r, payload + 4);
    if (!why && r->counter == UINT64_MAX) why = "refused Exhausted";
    if (why) {
        print_text(why);
        return;
    }
    cover(n, r, r->counter + 1, r->bound, r->reserve);
    r->events[++r->counter - r->first - 1] = number;
    bytes_of(bytes.at, size_of(bytes), message + 2);
    put_number(message + 2 + payload, r->counter);
    sent *s = &events[number];
    s->sender = r;
    s->size = (uint8_t)(payload + 4);
    memcpy(s->pdu, message + 2, payload);
    secure(&n->keys[r->slot], message, payload, s->pdu + payload);
    print_front("sent ", r->id, message + 2 + payload);
    print_digits(s->pdu, s->size);
}

/* The number of the event that sent this payload under this freshness, from this sender; 0 where there is none. */
static uint32_t source(const route *sender, uint64_t freshness, const uint8_t *payload, size_t size)
{
    if (freshness <= sender->first || freshness > sender->counter) return 0;
    uint32_t number = sender->events[freshness - sender->first - 1];
    return events[number].size == size + 4 && memcmp(events[number].pdu, payload, size) == 0 ? number : 0;
}

/* deliver NODE EVENT */
static void deliver_pdu(text line, uint32_t before)
{
    static const char *const failures[] = {"", "refused BadLength", "FRESHNESSFAILURE", "VERIFICATIONFAILURE"};
    uint8_t message[MOST_MESSAGE];
    node *n = node_of(next_word(&line));
    unsigned long number = decimal(next_word(&line));
    const sent *s = number < before ? &events[number] : &events[0];
    if (!s->sender) {
        print_text("no frame");
        return;
    }
    memcpy(message, s->sender->id, 2);
    memcpy(message + 2, s->pdu, s->size);
    route *r = route_of(n, message, 0);
    const char *why = refusal(n, r, s->size);
    verdict found = why ? BAD_LENGTH : judge(&n->keys[r->slot], message, s->size, r->window, &r->counter);
    if (why || found != ACCEPTED) {
        print_text(why ? why : failures[found]);
        return;
    }
    cover(n, r, r->counter, r->counter, r->reserve - 1);
    size_t payload = s->size - 4u;
    print_front("accepted ", r->id, message + 2 + payload);
    print_digits(message + 2, payload);
    uint32_t from = source(s->sender, r->counter, message + 2, payload);
    print_text(" from ");
    if (from) print_decimal(from);
    else print_text("none");
}

int main(int count, char **words)
{
    int at_once = count == 3 && strcmp(words[2], "at_once") == 0;
    if (count != 2 && !at_once) stop("usage: bus_peer BUS, bus_peer BUS at_once");
    read_bus(words[1]);
    text rest = read_all(NULL), line;
    uint32_t number = 0;
    while (next_line(&rest, &line)) {
        text event = next_word(&line);
        if (is_skipped(event)) continue;
        print_decimal(++number);
        print_text(" ");
        if (is_word(event, "send")) send_payload(line, number);
        else if (is_word(event, "deliver")) deliver_pdu(line, number);
        else if (is_word(event, "key")) take_key(line);
        else stop("an event that isn't known here");
        print_text("\n");
        if (!at_once) flush();
    }
    flush();
    return 0;
}
