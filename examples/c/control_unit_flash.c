/*
 * A control unit whose store is on NOR flash (rathonsi_flash.h): two routes that send, two that receive, and a key that
 * is updated again and again. The flash is simulated. Power goes at any operation, at each start too, and between
 * operations; an operation may fail. Units that were cut are read anew at each start: as what was programmed, as
 * erased, as anything, or as an error of the ECC. No freshness may come twice under a Data ID, and no key that was
 * confirmed may be lost.
 *
 *     control_unit_flash PART EVENTS SEED VIEWS [DUTY]
 *
 * PART is the flash, a number below 6: see `parts`. To the file VIEWS goes what each start saw and found, for
 * checks/flash_views; `-` is no file. With DUTY the unit or its flash breaks one of the duties that rathonsi_flash.h
 * names, and the program ends well if the harm of it is seen:
 *
 *     unsettled         a line that a start has read may be gone at the next
 *     forged            what a cut PROGRAM left is read as an old line
 *     believes_blank    the blank check says so of a unit that was cut
 *     half_erased       an ERASE says DONE, and has erased the first sector alone
 *     done_first        a PROGRAM is reported before it is done
 *     skips_erase       an ERASE is reported and not done
 *     goes_on           an operation that failed is reported as done
 *     reply_first       a plan is said to be done before its operations are
 *     disturbs          a PROGRAM takes a bit of the line before it
 */
#include <stdio.h>
#include <stdlib.h>
#include <string.h>

#include "rathonsi_flash.h"

enum {
    ROUTES = 4,
    SENDERS = 2,
    SLOT = 4,
    MASTER = 1,
    CELLS = RATHONSI_FLASH_CELLS(ROUTES),
    MOST_BANKS = 16,
    MOST_UNITS = 30 * 8,
    TRIES = 1000
};
enum duty {
    KEEPS_ALL,
    UNSETTLED,
    FORGED,
    BELIEVES_BLANK,
    HALF_ERASED,
    DONE_FIRST,
    SKIPS_ERASE,
    GOES_ON,
    REPLY_FIRST,
    DISTURBS,
    DUTIES
};
static const char *const duty_names[DUTIES] = {"",           "unsettled",   "forged",  "believes_blank", "half_erased",
                                               "done_first", "skips_erase", "goes_on", "reply_first",    "disturbs"};

void flash_start(void); /* flash_driver.c */
uint32_t flash_perform(RathonsiFlashOperation *operation);
uint32_t part_unit;
uint32_t part_sectors;
int part_margins;

static uint32_t random_state;

static uint32_t draw(uint32_t below) {
    random_state ^= random_state << 13;
    random_state ^= random_state >> 17;
    random_state ^= random_state << 5;
    return random_state % below;
}

static enum duty broken;
static const char *harm;
static long sent, accepted, done, loaded, cuts, failures, starts, others, puts_begun, erases, programs, reads;

static void expect(int holds, const char *what) {
    if (!holds && harm == NULL)
        harm = what;
}

/* ---- The flash ---- */

/* Of a unit: whether it is blank, firm, or was cut; the bytes that it has if it is read so; and as what this start
 * reads it. */
enum state { BLANK, FIRM, CUT };
enum view { AS_BYTES, AS_ERASED, AS_ANYTHING, CHANGING, AS_ERROR };
struct unit {
    enum state state;
    enum view view;
    uint8_t bytes[128];
    uint8_t anything[128];
};

/* The value of an erased byte, or -1 if reading it is an error of the ECC; whether cut units are seen by the ECC;
 * whether blank is known. */
static const struct part {
    uint32_t unit;
    uint8_t banks;
    uint32_t lines;
    uint32_t sectors;
    int margins;
    int erased;
    int has_ecc;
    int knows_blank;
} parts[6] = {
    {8, 2, 22, 2, 3, 0xff, 1, 0},  {8, 3, 24, 1, 3, -1, 1, 1},     {16, 4, 21, 1, 1, 0x00, 0, 0},
    {32, 2, 26, 4, 2, 0xff, 1, 1}, {128, 2, 20, 1, 1, 0xff, 0, 0}, {64, 16, 23, 1, 3, 0x00, 0, 1},
};

static struct part part;
static uint32_t line_length, line_units;
static struct unit units[MOST_BANKS][MOST_UNITS];
static int power_is_gone, runs_on;
static uint32_t looks;

static struct unit *unit_at(uint32_t bank, uint32_t offset) {
    return &units[bank][offset / part.unit];
}

/* Each start reads the units that were cut as it will. */
static void draw_views(void) {
    for (uint32_t bank = 0; bank < part.banks; bank++)
        for (uint32_t i = 0; i < part.lines * line_units; i++) {
            struct unit *unit = &units[bank][i];
            unit->view = (enum view)draw(part.has_ecc ? 5 : 4);
            for (uint32_t k = 0; k < part.unit; k++)
                unit->anything[k] = (uint8_t)(draw(3) == 0 ? draw(256) : unit->bytes[k]);
        }
}

static void erased_bytes(uint8_t *bytes) {
    memset(bytes, part.erased, part.unit);
}

/* What the power cut may still run when it comes back. */
void part_wait(void) {
    runs_on = 0;
}

/* A part that fails if its supply drops. */
int part_is_sure(uint32_t bank) {
    return bank < part.banks;
}

int part_read(uint32_t bank, uint32_t offset, uint8_t *bytes, int margin) {
    const struct unit *unit = unit_at(bank, offset);
    expect(!runs_on && margin < part.margins, "a read comes while an operation runs");
    if (unit->state == BLANK || (unit->state == CUT && unit->view == AS_ERASED)) {
        erased_bytes(bytes);
        return part.erased >= 0;
    }
    memcpy(bytes, unit->state == CUT && unit->view == AS_ANYTHING ? unit->anything : unit->bytes, part.unit);
    if (unit->state == CUT && unit->view == CHANGING) /* another byte at each read */
        bytes[0] = (uint8_t)(bytes[0] + looks++);
    return unit->state == FIRM || unit->view != AS_ERROR;
}

int part_is_blank(uint32_t bank, uint32_t offset) {
    const struct unit *unit = unit_at(bank, offset);
    if (broken == BELIEVES_BLANK && unit->state == CUT)
        return unit->view == AS_ERASED;
    return part.knows_blank && unit->state == BLANK;
}

/* Whether power goes now, or the operation fails. */
static int is_cut(void) {
    int what = (int)draw(60);
    if (what == 0 || (what == 1 && draw(4) == 0)) {
        power_is_gone = runs_on = what == 0;
        cuts += what == 0;
        failures += what != 0;
        return 1;
    }
    return 0;
}

int part_program(uint32_t bank, uint32_t offset, const uint8_t *bytes) {
    struct unit *unit = unit_at(bank, offset);
    expect(unit->state == BLANK || broken != KEEPS_ALL, "a unit is programmed twice");
    if (unit->state == BLANK)
        memcpy(unit->bytes, bytes, part.unit);
    else
        for (uint32_t i = 0; i < part.unit; i++)
            unit->bytes[i] &= bytes[i];
    unit->state = unit->state == BLANK ? FIRM : CUT;
    if (broken == DISTURBS && offset >= line_length && draw(20) == 0)
        unit_at(bank, offset - line_length)->bytes[0] ^= 1;
    if (draw(line_units) == 0 && is_cut()) {
        unit->state = CUT;
        return 0;
    }
    return 1;
}

int part_erase(uint32_t bank, uint32_t sector) {
    uint32_t count = part.lines * line_units, from = sector * count / part.sectors,
             end = (sector + 1) * count / part.sectors;
    int cut = is_cut();
    if (broken == SKIPS_ERASE && draw(20) == 0)
        return 1;
    if (broken == HALF_ERASED && sector > 0 && draw(20) == 0)
        return 1;
    for (uint32_t i = from; i < end; i++) {
        if (!cut)
            units[bank][i].state = BLANK;
        else if (draw(4) != 0)
            units[bank][i].state = CUT;
    }
    return !cut;
}

/* ---- The control unit ---- */

static uint8_t image[RATHONSI_STORE_SIZE(ROUTES)];
static RathonsiPlan plan;
static RathonsiRoute routes[ROUTES];
static RathonsiFlash flash;
static RathonsiFlashOperation operation;
static RathonsiCell cells[CELLS], scratch[CELLS];
static FILE *views;

static const uint8_t uid[15] = {1, 2, 3, 4, 5, 6, 7, 8, 9, 10, 11, 12, 13, 14, 15};
static const uint8_t master[16] = {15, 14, 13, 12, 11, 10, 9, 8, 7, 6, 5, 4, 3, 2, 1, 0};

/* What the world has seen, which no power cut takes back. */
static uint64_t highest[ROUTES]; /* freshness that was sent or accepted */
static RathonsiUpdate confirmed; /* the last update that was confirmed */
static RathonsiUpdate loading;   /* the one that is being loaded */
static int is_loading;
static uint8_t old_line[128]; /* a line that stood in the flash once */

enum { POWER_WENT = -1 };

/* A line that was read settles: its units are firm from then on. */
static void settle(void) {
    for (uint32_t at = 0; at < operation.length; at += part.unit)
        if (memcmp(unit_at(operation.bank, operation.offset + at)->bytes, operation.bytes + at, part.unit) != 0)
            return;
    for (uint32_t at = 0; at < operation.length; at += part.unit)
        unit_at(operation.bank, operation.offset + at)->state = FIRM;
}

static uint32_t perform(void) {
    uint32_t outcome;
    if (operation.kind == RATHONSI_FLASH_PROGRAM && draw(50) == 0)
        memcpy(old_line, operation.bytes, operation.length);
    outcome = flash_perform(&operation);
    reads += operation.kind == RATHONSI_FLASH_READ;
    erases += operation.kind == RATHONSI_FLASH_ERASE;
    programs += operation.kind == RATHONSI_FLASH_PROGRAM;
    if (operation.kind == RATHONSI_FLASH_READ && outcome == RATHONSI_FLASH_DONE && broken != UNSETTLED)
        settle();
    if (broken == FORGED && operation.kind == RATHONSI_FLASH_READ && outcome == RATHONSI_FLASH_NOTHING
        && draw(8) == 0) {
        memcpy(operation.bytes, old_line, operation.length);
        return RATHONSI_FLASH_DONE;
    }
    return broken == GOES_ON && outcome == RATHONSI_FLASH_FAILED && !power_is_gone ? RATHONSI_FLASH_DONE : outcome;
}

/* What an operation doesn't use is zero: all bytes but those of the line that is programmed; of no operation all. */
static void expect_unused(void) {
    for (uint32_t i = operation.kind == RATHONSI_FLASH_PROGRAM ? operation.length : 0; i < sizeof operation.bytes; i++)
        expect(operation.bytes[i] == 0, "an operation has bytes that it doesn't use");
    if (operation.kind == RATHONSI_FLASH_NONE)
        expect(operation.bank == 0 && operation.offset == 0 && operation.length == 0, "no operation has a place");
}

/* Performs operations until none comes. POWER_WENT: the power went, and RAM with it. */
static int32_t work(void) {
    int32_t status;
    while ((status = rathonsi_flash_next(&flash, cells, CELLS, &operation)) == RATHONSI_OK
           && operation.kind != RATHONSI_FLASH_NONE) {
        RathonsiFlashOperation before = operation;
        uint32_t outcome = RATHONSI_FLASH_DONE;
        expect_unused();
        expect(rathonsi_flash_put(&flash, &plan, cells, CELLS) == RATHONSI_BUSY,
               "a put is taken while an operation comes next");
        if (draw(900) == 0) { /* in between */
            power_is_gone = 1;
            cuts++;
        }
        if (!power_is_gone && broken == DONE_FIRST && operation.kind == RATHONSI_FLASH_PROGRAM) {
            expect(rathonsi_flash_did(&flash, cells, CELLS, scratch, CELLS, outcome, &operation) == RATHONSI_OK,
                   "an outcome is refused");
            perform();
        } else if (!power_is_gone)
            outcome = perform();
        if (power_is_gone)
            return POWER_WENT;
        if (broken == DONE_FIRST && before.kind == RATHONSI_FLASH_PROGRAM)
            continue;
        expect(rathonsi_flash_did(&flash, cells, CELLS, scratch, CELLS, outcome, &operation) == RATHONSI_OK,
               "an outcome is refused");
    }
    if (status == RATHONSI_OK)
        expect_unused();
    return status;
}

/* What this start sees, a line of the flash after the other, as the driver reads it. */
static void write_views(void) {
    RathonsiFlashOperation all = operation;
    if (views == NULL)
        return;
    fprintf(views, "start %u %u %u %d\n", (unsigned)part.unit, (unsigned)part.banks, (unsigned)part.lines, CELLS);
    for (all.bank = 0; all.bank < part.banks; all.bank++)
        for (uint32_t i = 0; i < part.lines; i++) {
            uint32_t outcome;
            all.kind = RATHONSI_FLASH_READ;
            all.offset = i * line_length;
            all.length = line_length;
            outcome = flash_perform(&all);
            if (outcome == RATHONSI_FLASH_DONE)
                for (uint32_t k = 0; k < line_length; k++)
                    fprintf(views, "%02x", all.bytes[k]);
            else
                fputc(outcome == RATHONSI_FLASH_BLANK ? 'b' : 'n', views);
            fputc('\n', views);
        }
}

/* What it found. */
static void write_found(int32_t status) {
    if (views == NULL)
        return;
    fprintf(views, "found %d\n", (int)status);
    for (int i = 0; i < CELLS && status == RATHONSI_OK; i++) {
        for (int k = 0; k < 32; k++)
            fprintf(views, "%02x", cells[i].bytes[k]);
        fputc('\n', views);
    }
}

/* RAM is anything when power comes back. */
static void forget(void) {
    memset(&flash, (int)draw(256), sizeof flash);
    memset(&plan, 0, sizeof plan);
    memset(cells, (int)draw(256), sizeof cells);
    memset(scratch, (int)draw(256), sizeof scratch);
    power_is_gone = 0;
    flash_start();
    draw_views();
    starts++;
}

static void open_route(int which) {
    expect(rathonsi_route_open(&routes[which], image, sizeof image) == RATHONSI_OK, "a bound is damaged");
    expect(routes[which].counter >= highest[which], "a counter fell back");
}

/* The key as it is confirmed now: the one that was confirmed last, or, if power went within a load, the one that was
 * loaded. */
static void confirm(void) {
    RathonsiRequest request;
    RathonsiReply reply, wanted;
    expect(rathonsi_she_make_update(master, sizeof master, &confirmed, &request) == RATHONSI_OK, "no request is made");
    expect(rathonsi_slot_confirm(uid, request.m1, image, sizeof image, &reply) == RATHONSI_OK,
           "the slot is empty or damaged");
    expect(rathonsi_she_confirm(&loading, uid, &wanted) == RATHONSI_OK, "no reply is made");
    if (is_loading && memcmp(&reply, &wanted, sizeof reply) == 0)
        confirmed = loading;
    is_loading = 0;
    expect(rathonsi_she_confirm(&confirmed, uid, &wanted) == RATHONSI_OK, "no reply is made");
    expect(memcmp(&reply, &wanted, sizeof reply) == 0, "a confirmed key is lost");
}

/* One start, until the store is ready. An operation that fails, or power that goes, begins all again. */
static void power_up(void) {
    int32_t status;
    int tries = 0;
    do {
        expect(tries++ < TRIES, "the store is never ready");
        forget();
        write_views();
        expect(rathonsi_flash_begin(&flash, (uint16_t)part.unit, part.banks, part.lines * line_length, CELLS)
                   == RATHONSI_OK,
               "a start is refused");
        status = work();
        write_found(status);
        expect(status == POWER_WENT || status == RATHONSI_OK || status == RATHONSI_FAILED, "the store is gone");
    } while (status != RATHONSI_OK && harm == NULL);
    if (harm != NULL)
        return;
    expect(rathonsi_flash_image(&flash, cells, CELLS, image, sizeof image) == RATHONSI_OK, "no image is made");
    expect(rathonsi_store_check(image, sizeof image) == RATHONSI_OK, "the store is damaged");
    for (int i = 0; i < ROUTES; i++) {
        routes[i].opened = 0;
        open_route(i);
    }
    confirm();
}

static int32_t send_on(int which) {
    uint8_t payload[8], pdu[RATHONSI_PDU_MOST];
    RathonsiRoute *route = &routes[which];
    memset(payload, (int)draw(256), sizeof payload);
    int32_t status = rathonsi_route_send(route, image, sizeof image, payload, sizeof payload, pdu, sizeof pdu);
    if (status == RATHONSI_OK) {
        expect(route->counter > highest[which], "a freshness is sent twice");
        highest[which] = route->counter;
        sent++;
    }
    return status;
}

/* A PDU of the far end, and now and then an old one. The freshness to reserve, if there is one. */
static int32_t receive_on(int which, uint64_t *wanted) {
    RathonsiRoute *route = &routes[which];
    uint8_t payload[8] = {9}, pdu[RATHONSI_PDU_MOST];
    int old = draw(4) == 0 && highest[which] > 0;
    uint64_t freshness = old ? highest[which] : route->counter + 1 + draw(3);
    expect(
        rathonsi_secoc_protect(confirmed.key, 16, route->data_id, freshness, payload, sizeof payload, pdu, sizeof pdu)
            == RATHONSI_OK,
        "no PDU is made");
    RathonsiVerdict verdict =
        rathonsi_route_receive(route, image, sizeof image, pdu, sizeof payload + RATHONSI_TRAILER);
    *wanted = verdict.freshness;
    if (old) {
        expect(verdict.status != RATHONSI_OK || verdict.freshness > highest[which], "an old PDU is accepted");
        return RATHONSI_OK;
    }
    if (verdict.status == RATHONSI_OK) {
        expect(verdict.freshness > highest[which], "a freshness is accepted twice");
        highest[which] = verdict.freshness;
        accepted++;
    }
    return verdict.status;
}

/* Does the plan, and starts anew if power goes or an operation fails. Whether it is done. */
static int do_plan(void) {
    if (broken == REPLY_FIRST) {
        RathonsiPlan early = plan;
        expect(rathonsi_store_done(image, sizeof image, &early) == RATHONSI_OK, "a plan reaches beyond the image");
        send_on(0);
        is_loading = 0;
    }
    expect(rathonsi_flash_put(&flash, &plan, cells, CELLS) == RATHONSI_OK, "a put is refused");
    puts_begun++;
    if (work() != RATHONSI_OK) {
        power_up();
        return 0;
    }
    done++;
    if (broken != REPLY_FIRST)
        expect(rathonsi_store_done(image, sizeof image, &plan) == RATHONSI_OK, "a plan reaches beyond the image");
    memset(&plan, 0, sizeof plan);
    return 1;
}

static void load_key(void) {
    RathonsiRequest request;
    RathonsiReply reply, wanted;
    loading = confirmed;
    loading.counter++;
    for (int i = 0; i < 16; i++)
        loading.key[i] = (uint8_t)draw(256);
    expect(rathonsi_she_make_update(master, sizeof master, &loading, &request) == RATHONSI_OK, "no request is made");
    expect(rathonsi_she_confirm(&loading, uid, &wanted) == RATHONSI_OK, "no reply is made");
    expect(rathonsi_slot_load(uid, 0, &request, image, sizeof image, &plan) == RATHONSI_OK, "a key isn't planned");
    is_loading = 1;
    if (!do_plan())
        return;
    is_loading = 0;
    expect(rathonsi_slot_confirm(uid, request.m1, image, sizeof image, &reply) == RATHONSI_OK
               && memcmp(&reply, &wanted, sizeof reply) == 0,
           "a key that was loaded isn't confirmed");
    confirmed = loading;
    loaded++;
}

/* ---- The production line ---- */

static RathonsiUpdate first_key(uint8_t slot, const uint8_t *key, uint8_t flags) {
    RathonsiUpdate update;
    memset(&update, 0, sizeof update);
    memcpy(update.uid, uid, sizeof uid);
    memcpy(update.key, key, 16);
    update.id = slot;
    update.auth = slot;
    update.flags = flags;
    update.counter = 1;
    return update;
}

/* An empty slot takes a key that authorises itself with sixteen bytes ff. */
static void put_first_key(const RathonsiUpdate *update) {
    uint8_t empty[16];
    RathonsiRequest request;
    memset(empty, 0xff, sizeof empty);
    expect(rathonsi_she_make_update(empty, sizeof empty, update, &request) == RATHONSI_OK, "no request is made");
    expect(rathonsi_slot_load(uid, 0, &request, image, sizeof image, &plan) == RATHONSI_OK, "a first key isn't taken");
    expect(rathonsi_store_done(image, sizeof image, &plan) == RATHONSI_OK, "a plan reaches beyond the image");
}

/* The image of a store of bytes: its cells are moved to the flash. */
static void make_image(void) {
    uint8_t key[16] = {0x2b, 0x7e, 0x15, 0x16, 0x28, 0xae, 0xd2, 0xa6, 0xab, 0xf7, 0x15, 0x88, 0x09, 0xcf, 0x4f, 0x3c};
    RathonsiUpdate authorising = first_key(MASTER, master, 0);
    expect(rathonsi_store_make(image, sizeof image) == RATHONSI_OK, "no store is made");
    for (int i = 0; i < ROUTES; i++) {
        routes[i].data_id = (uint16_t)(0x120e + i);
        routes[i].cell = (uint16_t)(RATHONSI_SLOT_CELLS + (unsigned)i);
        routes[i].reserve = (uint16_t)(i % 2 == 0 ? 1 : 7);
        routes[i].window = 256;
        routes[i].slot = SLOT;
        routes[i].direction = i < SENDERS ? RATHONSI_SENDS : RATHONSI_RECEIVES;
        expect(rathonsi_route_make(&routes[i], 0, image, sizeof image) == RATHONSI_OK, "no bound is made");
    }
    put_first_key(&authorising);
    confirmed = first_key(SLOT, key, RATHONSI_KEY_USAGE);
    put_first_key(&confirmed);
    confirmed.auth = MASTER;
}

/* Moves the store to a flash that may hold anything, cut anywhere: until the flash has it whole, there is no store on
 * it. */
static void move_store(void) {
    int32_t status;
    int tries = 0;
    do {
        expect(tries++ < TRIES, "no store is made");
        forget();
        expect(rathonsi_flash_begin(&flash, (uint16_t)part.unit, part.banks, part.lines * line_length, CELLS)
                   == RATHONSI_OK,
               "a start is refused");
        status = work();
        if (status == RATHONSI_NO_STORE) {
            expect(rathonsi_flash_take(&flash, (uint16_t)part.unit, part.banks, part.lines * line_length, image,
                                       sizeof image, cells, CELLS)
                       == RATHONSI_OK,
                   "a store isn't taken");
            work();
            status = POWER_WENT;
        }
    } while (status != RATHONSI_OK && harm == NULL);
}

/* Software with another table: another unit, number of banks, bank size or number of cells. It finds no store, and reads
 * heads alone. */
static void other_software(void) {
    uint32_t which = draw(4), unit = part.unit, lines = part.lines;
    uint8_t banks = part.banks;
    size_t n = CELLS;
    int32_t status;
    if (which == 0)
        unit = unit == 128u ? 64u : unit == 16u || unit == 64u ? unit / 2u : unit * 2u;
    else if (which == 1)
        banks = (uint8_t)(banks == MOST_BANKS ? banks - 1 : banks + 1);
    else if (which == 2)
        lines++;
    else
        n--;
    forget();
    expect(rathonsi_flash_begin(&flash, (uint16_t)unit, banks, lines * line_length, n) == RATHONSI_OK,
           "a start of another table is refused");
    while ((status = rathonsi_flash_next(&flash, cells, n, &operation)) == RATHONSI_OK && harm == NULL) {
        expect(operation.kind == RATHONSI_FLASH_READ && operation.offset == 0, "another table does more than read heads");
        if (harm == NULL) {
            uint32_t outcome = perform();
            expect(rathonsi_flash_did(&flash, cells, n, scratch, n, outcome, &operation) == RATHONSI_OK,
                   "an outcome is refused");
        }
    }
    expect(status == RATHONSI_NO_STORE, "a store of another table is taken");
    others++;
}

static void one_event(void) {
    int which = (int)draw(ROUTES);
    uint64_t wanted = routes[which].counter + 1;
    int32_t status = RATHONSI_RESERVE;
    if (draw(300) == 0) {
        cuts++;
        if (broken == KEEPS_ALL && draw(4) == 0)
            other_software();
        power_up();
        return;
    }
    if (draw(50) == 0) {
        load_key();
        return;
    }
    if (draw(6) != 0)
        status = which >= SENDERS ? receive_on(which, &wanted) : send_on(which);
    if (status == RATHONSI_RESERVE) {
        expect(rathonsi_route_reserve(&routes[which], wanted, image, sizeof image, &plan) == RATHONSI_OK,
               "a bound isn't planned");
        do_plan();
    } else
        expect(status == RATHONSI_OK || status == RATHONSI_FRESHNESS_FAILURE, "a call is refused");
}

/* What all starts and puts since the store was made have worn: an erase for each start at most, and one for as many
 * puts as a bank takes; a copy for each erase, and a line for each put. */
static void judge_wear(void) {
    long bank_puts = (long)part.lines - CELLS - 1;
    expect(erases * bank_puts <= starts * bank_puts + puts_begun, "banks are erased too often");
    expect(programs <= erases * (CELLS + 1) + puts_begun, "too many lines are programmed");
}

int main(int count, char **words) {
    long which = count > 1 ? atol(words[1]) : -1, events = count > 2 ? atol(words[2]) : 0, n = 0;
    for (int i = 1; i < DUTIES; i++)
        if (count == 6 && strcmp(words[5], duty_names[i]) == 0)
            broken = (enum duty)i;
    if (count < 5 || count > 6 || which < 0 || which > 5 || events < 1 || (count == 6 && broken == KEEPS_ALL)
        || (strcmp(words[4], "-") != 0 && (views = fopen(words[4], "w")) == NULL)) {
        fprintf(stderr, "usage: control_unit_flash PART EVENTS SEED VIEWS [DUTY]\n");
        return 2;
    }
    part = parts[which];
    part_unit = part.unit;
    part_sectors = part.sectors;
    part_margins = part.margins;
    line_length = RATHONSI_FLASH_LINE(part.unit);
    line_units = line_length / part.unit;
    random_state = 2463534242u + (uint32_t)atol(words[3]) * 2654435761u;
    for (uint32_t bank = 0; bank < part.banks; bank++)
        for (uint32_t i = 0; i < part.lines * line_units; i++)
            units[bank][i].state = CUT;
    make_image();
    move_store();
    starts = reads = erases = programs = 0;
    power_up();
    while (n < events && harm == NULL) {
        one_event();
        n++;
    }
    if (broken == KEEPS_ALL)
        judge_wear();
    if (views != NULL)
        fclose(views);
    printf("%ld events: sent %ld, accepted %ld, plans done %ld, keys loaded %ld; starts %ld, of another table %ld, power "
           "cuts %ld, failures %ld; reads %ld, erases %ld, programs %ld\n",
           n, sent, accepted, done, loaded, starts, others, cuts, failures, reads, erases, programs);
    printf("%s%s%s\n", duty_names[broken], broken == KEEPS_ALL ? "" : ": ", harm != NULL ? harm : "no harm");
    return (harm != NULL) == (broken != KEEPS_ALL) ? 0 : 1;
}
