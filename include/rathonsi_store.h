/*
 * rathonsi_store.h: counters of freshness and key slots, over the caller's own memory driver. They
 * survive a power cut within any write.
 *
 * The library touches no device. The caller keeps the bytes of the store in RAM (the image). It
 * asks for a plan of at most three writes, does them on its device, and then says that they are
 * done.
 *
 * A PDU is given out only if the bound in the image covers its freshness. A key is confirmed only
 * as the image holds it. So neither goes out before it is durable.
 *
 * No call waits, calls back or takes memory. All state is the caller's.
 *
 * Each function is an export of the crate rathonsi_c, and its contract is proved:
 *   - A call returns a status exactly if this header says so. If several could come, it returns the
 *     first one that the comment of the call names.
 *   - With a status other than RATHONSI_OK every output is as before, unless the comment of the call
 *     says otherwise.
 *
 * More is proved of a caller that keeps what it owes, over all lives with a store of several routes
 * and slots. A life lasts from one power-up to the next. This holds wherever within a write the
 * power goes. The caller may open, send, accept, take answers, rejoin, reserve, advance, load, finish
 * and drop with the calls below. A route may have any key, window, reserve and boot, in this life and
 * the next.
 *   - The freshness sent under a Data ID strictly rises. So does the freshness accepted by a route
 *     that doesn't rejoin. Both stay at most the bound on the device. This holds over software
 *     updates that add routes, and over roll-backs, at any moment and in any order.
 *   - What a route accepts that rejoins after a reset strictly rises over all lives of one software,
 *     under two conditions: see rathonsi_sync_rejoin.
 *   - After a receiver took an answer of its sender, it accepts what the sender sends after the
 *     answer, within its window. An answer that somebody made without the key moves no counter.
 *   - An update that was confirmed stays in its slot, and the same reply confirms it. This lasts
 *     until another update of the slot is done, or is planned when the power goes or all begins
 *     again.
 *   - No filled slot becomes empty.
 *   - If rathonsi_store_check answers RATHONSI_OK for a store, that stays so.
 *
 * What the caller owes, in addition to what rathonsi.h says:
 *
 *   The image, the plan and the routes
 *   D-6 The image is what the device holds, except for a plan that isn't done yet. The caller reads
 *     it from the device at power-up.
 *   D-7 Only the functions below change the image, the plan and the counters of routes. One
 *     exception: the caller zeroes a plan as this list says.
 *   D-8 rathonsi_store_make and rathonsi_route_make change the image only before the first power-up.
 *   D-9 A store has one image, and one plan at a time, or several as D-13 says. Several stores share
 *     nothing: each has its own. A call that only reads the image may run at the same time as another
 *     one, each on a route of its own, also while the writes of a plan are made: sending, receiving,
 *     opening, answers, states, MACs. Of the calls that write the plan, one runs at a time. While
 *     rathonsi_store_done, rathonsi_store_make or rathonsi_route_make runs, no other call on the
 *     store does.
 *   D-10 A Data ID in one direction has one cell and one route. No other route uses the cell.
 *     rathonsi_routes_open sees to it, if one call gets all routes of the store. rathonsi_route_make
 *     and rathonsi_store_grow refuse a second cell, and rathonsi_store_look names one.
 *   D-11 An open route is not filled in with another Data ID, direction or cell. The calls on an open
 *     route refuse it then, by its check value. Opening it again doesn't.
 *   D-12 A route has the same Data ID, direction and cell in every life. Slot, window, reserve and
 *     booted may change. The caller zeroes opened at power-up, and never sets it.
 *   D-13 While a plan is pending, routes send and receive as before. A new plan answers RATHONSI_BUSY.
 *     One exception: calls that reserve may plan for several routes over one image, each into a plan
 *     of its own, before a write of any is begun. They are done together: all first writes, then all
 *     second ones, then all third ones, each step durable before the next begins. Then the caller
 *     calls rathonsi_store_done for each, in any order, before it plans anything else.
 *   D-14 A nonce is drawn by the caller, and none is used twice. One for rathonsi_sync_rejoin is drawn
 *     since the route was opened, and nobody could foretell it. See both calls. A unit answers only
 *     questions whose answerer is its own name, and asks under its own alone: the library can't know it.
 *
 *   Power-up
 *   D-15 The caller zeroes each plan as each power-up begins, and whenever all begins again as at
 *     power-up. It does so whatever was planned before, also if a plan's memory outlives a reset.
 *   D-16 Software of a unit that may get an update calls rathonsi_store_mend at each power-up, the
 *     first software, too. Then it calls rathonsi_store_grow for each route that the production line
 *     didn't make, as said there. Then it asks rathonsi_store_size.
 *   D-17 What is read at power-up is durable, and reads the same ever after. A device with a cache is
 *     synced before it is read. Otherwise what a failed write left may be read, relied on, and then
 *     be gone.
 *   D-18 After each power-up the caller opens every route, with RATHONSI_OK, before any other call of
 *     this header that takes a route or changes the image. Exceptions are rathonsi_store_grow and
 *     rathonsi_store_done, the states, the boot, and the loads of a unit that sends nothing yet. A
 *     route that was zeroed and not opened is refused, and so is one whose last opening failed.
 *   D-19 booted of a route, and of rathonsi_slot_load, is what rathonsi_boot or rathonsi_boot_finish
 *     said in this life, else 0. It says what a boot loader that the caller trusts gave to it.
 *
 *   Writes
 *   D-20 The caller does the writes of a plan in their order, each durable before the next begins.
 *     Within a step of several plans (D-13) the order is free, and a cut may tear several writes.
 *   D-21 A write that is durable stays. If the power goes within a write, that write may leave
 *     anything in its own bytes, and changes no other byte. Some memory rewrites whole words, pages
 *     or sectors: memory with error correction over words, NOR flash, many EEPROMs, eMMC. Such
 *     memory keeps this only under an emulation that does.
 *   D-22 A plan that was begun is done, or all begins again as at power-up.
 *   D-23 If a write of a plan fails, the caller makes no further write of any plan and no other call
 *     of this header. All begins again as at power-up.
 *   D-24 The caller may drop (zero) a plan if no write of it was begun.
 *
 * First keys. An empty slot is authorised by itself, and its key counts as sixteen bytes ff. So a
 * production line loads, each with counter 1 and M1's AuthID as given:
 *   1. slot 1 (the master key), AuthID 1, under sixteen bytes ff;
 *   2. slots 2 and 3 (the key of the boot MAC, and the boot MAC), AuthID 1, under the key of slot 1;
 *   3. slots 4 to 13, AuthID 1, under the key of slot 1. A route's key has RATHONSI_KEY_USAGE.
 * A slot that is filled is updated with its own key or that of slot 1. Slot 3 is never its own
 * authority: slot 2 or slot 1 is.
 *
 * What the bytes are. A dump of the device is a store file: the programs `node` and `keytool load`
 * read it and work on it. No cell has a checksum. A bit that flips may take a counter back unseen,
 * or change a key: the device, or what emulates it, corrects or detects such errors.
 *
 * Wear. Each plan of a reserve writes 35 bytes: the gate of a copy twice, and the 33 bytes after it
 * between. The two copies take turns. docs/units.md has a table of writes a day.
 *
 * How it is used (examples/c/control_unit.c does all of it):
 *
 *     static uint8_t image[RATHONSI_STORE_SIZE(2)];
 *     static RathonsiPlan plan;
 *     static RathonsiRoute routes[2]; // filled in, but counter, opened and check
 *     static RathonsiRoute *const speed = &routes[0], *const brake = &routes[1];
 *
 *     // at power-up, and when all begins again
 *     void power_up(void) {
 *         memset(&plan, 0, sizeof plan);
 *         read_device(image, sizeof image);
 *         // A unit that may get an update has a longer array. Here it calls rathonsi_store_mend,
 *         // and rathonsi_store_grow for each route that the production line didn't make. Then
 *         // check and open take the size that rathonsi_store_size tells, not sizeof image.
 *         if (rathonsi_store_check(image, sizeof image) != RATHONSI_OK)
 *             stop();
 *         if (rathonsi_routes_open(routes, 2u, image, sizeof image, &which) != RATHONSI_OK)
 *             stop();
 *     }
 *
 *     void do_plan(void) {
 *         // each write is durable when write_device returns, or stop()
 *         for (int i = 0; i < 3; i++)
 *             if (plan.writes[i].length != 0u)
 *                 write_device(plan.writes[i].offset, plan.writes[i].bytes,
 *                              plan.writes[i].length);
 *         if (rathonsi_store_done(image, sizeof image, &plan) != RATHONSI_OK)
 *             stop();
 *     }
 *
 *     // send
 *     status = rathonsi_route_send(speed, image, sizeof image, payload, 8u,
 *                                  pdu, sizeof pdu);
 *     // reserve, do the plan, then send again; or reserve ahead, see there
 *     if (status == RATHONSI_RESERVE) {
 *         status = rathonsi_route_reserve_next(speed, image, sizeof image, &plan);
 *         if (status == RATHONSI_OK)
 *             do_plan();
 *     }
 *
 *     // receive
 *     verdict = rathonsi_route_receive(brake, image, sizeof image, pdu,
 *                                      pdu_length);
 *     // reserve, do the plan, then receive again
 *     if (verdict.status == RATHONSI_RESERVE) {
 *         status = rathonsi_route_reserve_for(brake, &verdict, image,
 *                                             sizeof image, &plan);
 *         if (status == RATHONSI_OK)
 *             do_plan();
 *     }
 *
 *     // load a key, and answer
 *     status = rathonsi_slot_load(uid, booted, &request, image, sizeof image,
 *                                 &plan);
 *     if (status == RATHONSI_OK) {
 *         do_plan();
 *         status = rathonsi_slot_confirm(uid, request.m1, image, sizeof image,
 *                                        &reply);
 *     }
 */
#ifndef RATHONSI_STORE_H
#define RATHONSI_STORE_H

#include "rathonsi.h"

#ifdef __cplusplus
extern "C" {
#endif

/* Statuses in addition to those of rathonsi.h. If a call below names a status without a cause, its
 * cause is the one given with the status. */

/* The image doesn't begin with the header of a store of this size. */
#define RATHONSI_NO_STORE 7
/* A fault of the device: a cell has no copy that counts, or the cell of a slot holds no slot. */
#define RATHONSI_DAMAGED 8
/* The plan isn't empty. It is to be done first. */
#define RATHONSI_BUSY 9
/* The bound in the image doesn't cover this freshness yet. Reserve it, do the plan, and call
 * again. */
#define RATHONSI_RESERVE 10
/* The counter is 2^64 - 1. */
#define RATHONSI_EXHAUSTED 11
/* The refusals of the key memory, as the SHE specification names them. */
/* The slot holds no key. */
#define RATHONSI_KEY_EMPTY 12
/* The key isn't for MACs, or the slot may not be updated with this authorising slot. */
#define RATHONSI_KEY_INVALID 13
/* The secure boot protects the key, and no secure boot succeeded. */
#define RATHONSI_KEY_NOT_AVAILABLE 14
/* The slot takes no update. */
#define RATHONSI_KEY_WRITE_PROTECTED 15
/* M3, the UID or the counter of the request is refused. */
#define RATHONSI_KEY_UPDATE_ERROR 16
/* A fault of the configuration: the image ends before the cell of the route. Or the cell holds
 * something else than a bound of this Data ID and direction. A cell that rathonsi_route_make never
 * made holds zero bytes. */
#define RATHONSI_WRONG_CELL 17
/* An operation on the flash failed. Only rathonsi_flash_next answers it. */
#define RATHONSI_FAILED 18
/* A fault of the configuration: another cell has this Data ID and direction already. In a second
 * cell its freshness would begin again. */
#define RATHONSI_DUPLICATE_ID 19
/* The plan is an old copy: once done, it would lower a bound, or change a slot that holds a key
 * without raising its counter. */
#define RATHONSI_STALE_PLAN 20
/* Nothing is to be reserved: the bound in the image is as high already. */
#define RATHONSI_COVERED 21

/* All statuses of all headers, for a table of names: RATHONSI_STATUSES(X) is X(name, number) for
 * each of them. Of X(name, number) as `case number: return #name;` comes a function that names
 * them. */
#define RATHONSI_STATUSES(X) \
    X(OK, 0) X(BAD_LENGTH, 1) X(BAD_VALUE, 2) X(FRESHNESS_FAILURE, 3) X(VERIFICATION_FAILURE, 4) \
    X(BAD_ID, 5) X(BAD_MAC, 6) X(NO_STORE, 7) X(DAMAGED, 8) X(BUSY, 9) X(RESERVE, 10) \
    X(EXHAUSTED, 11) X(KEY_EMPTY, 12) X(KEY_INVALID, 13) X(KEY_NOT_AVAILABLE, 14) \
    X(KEY_WRITE_PROTECTED, 15) X(KEY_UPDATE_ERROR, 16) X(WRONG_CELL, 17) X(FAILED, 18) \
    X(DUPLICATE_ID, 19) X(STALE_PLAN, 20) X(COVERED, 21)

/* A store is a twin store of version 1. It has a header, fourteen cells of key slots, and after
 * them a cell for each route, up to 256. */
#define RATHONSI_SLOT_CELLS 14u
#define RATHONSI_STORE_SIZE(routes) (32u + (68u * (RATHONSI_SLOT_CELLS + (routes))))

/* A write of a plan: this many bytes, from this offset on. The offset counts from the first byte of
 * the store. If length is 0, there is no write. */
typedef struct RathonsiWrite {
    uint32_t offset;
    uint32_t length;
    uint8_t bytes[40];
} RathonsiWrite;

/* A plan is empty if the lengths of its three writes are 0, as they are once it is zeroed. Offsets
 * and bytes play no part then, in any call. rathonsi_store_done zeroes all of it. */
typedef struct RathonsiPlan {
    RathonsiWrite writes[3];
} RathonsiPlan;

#define RATHONSI_SENDS 1u
#define RATHONSI_RECEIVES 2u

/* A Data ID in one direction. The caller zeroes counter, opened and check, and fills in the other
 * fields. Reserve, window, slot and booted may change at any time. A route may be opened again at
 * any time. */
typedef struct RathonsiRoute {
    /* The last freshness that was sent or accepted. rathonsi_route_open sets it to the bound that
     * the image keeps, which is at least that. */
    uint64_t counter;
    uint16_t data_id;
    /* The cell of its bound, from RATHONSI_SLOT_CELLS on. */
    uint16_t cell;
    /* How far a reserve moves the bound, 1 to 128. A power cut makes a sender skip what is reserved
     * and not sent. It makes a receiver refuse what is reserved and not accepted. */
    uint16_t reserve;
    /* How far above its counter a receiver accepts freshness, 1 to 256. A receiver falls behind by
     * what its sender sends while it is down (rate times seconds). It falls behind, too, by what the
     * sender skips at its power cuts (what is reserved and not sent). It accepts nothing if the sum
     * is more than the window, until it takes an answer of the sender: see rathonsi_sync_take. A
     * route that sends has a window in this range, too, and makes no use of it. */
    uint16_t window;
    /* The slot of its key, 4 to 13. */
    uint8_t slot;
    /* RATHONSI_SENDS or RATHONSI_RECEIVES. */
    uint8_t direction;
    /* 1 after a secure boot that succeeded in this life, else 0. */
    uint8_t booted;
    /* 1 once rathonsi_route_open or rathonsi_routes_open has opened the route, and 2 once a call moved
     * its counter since. The calls alone set it, and an opening that fails zeroes it. A route that is
     * open keeps its 2 if it is opened again. With another value, or another check value, the route
     * isn't open. */
    uint8_t opened;
    /* 1 if another module makes and checks the authenticators, and asks for the freshness alone: see
     * rathonsi_freshness.h. Else 0. The same in every life. */
    uint8_t freshness_only;
    /* The check value of an open route: 1 + (counter + 3 * who) mod 16777213 in three bytes, big-endian.
     * who is opened * 2^40 + direction * 2^32 + cell * 2^16 + data_id. The calls alone write it. An open
     * route is refused if one of these five alone was set by hand, unless the counter was moved by a multiple of
     * 16,777,213: that is proved. A struct of zeros or of bytes ff is never open, and one of random
     * bytes is in one of 2^31. */
    uint8_t check[3];
} RathonsiRoute;

/* What is told of a route. */
typedef struct RathonsiRouteState {
    uint64_t counter;
    /* The bound that the image keeps for the route. */
    uint64_t bound;
} RathonsiRouteState;

/* What is told of a key slot. Its key is never told. */
typedef struct RathonsiSlotState {
    /* The counter of the last update, below 2^28. 0 if the slot is empty. */
    uint32_t counter;
    /* 1 if the slot holds a key, else 0. */
    uint8_t filled;
    /* RATHONSI_KEY_USAGE and the other flags of rathonsi.h. 0 if the slot is empty. */
    uint8_t flags;
    /* Zero. */
    uint8_t unused[2];
} RathonsiSlotState;

/* ---- The store ------------------------------------------------------------------------------- */

/* For the production line: makes the image of a store with fourteen empty slots, and a cell of zero
 * bytes for each route.
 * RATHONSI_BAD_LENGTH: image_length isn't RATHONSI_STORE_SIZE of any number of routes up to 256. */
RATHONSI_CHECKED
int32_t rathonsi_store_make(uint8_t *image, size_t image_length);

/* For the production line, after rathonsi_store_make: makes the cell of a route hold its first
 * bound. That bound is 0, unless a counter is taken over.
 * The device is then written in this order, each step durable before the next:
 *   1. 32 zero bytes at byte 0;
 *   2. the image from byte 32 on, and 00 or ff in the room after it: 68 bytes for each route that
 *      later software may add, and 68 more (see rathonsi_store_grow);
 *   3. the first 32 bytes of the image.
 * RATHONSI_BAD_LENGTH: as for rathonsi_store_make.
 * RATHONSI_BAD_VALUE: a number of the route is outside its range, or the image has no such cell.
 * RATHONSI_DUPLICATE_ID. */
RATHONSI_CHECKED
int32_t rathonsi_route_make(const RathonsiRoute *route, uint64_t bound, uint8_t *image, size_t image_length);

/* Checks an image that was read from the device.
 * RATHONSI_OK: it has the header of a store of this length, and in every cell a copy that counts.
 * RATHONSI_BAD_LENGTH: as for rathonsi_store_make.
 * RATHONSI_NO_STORE, RATHONSI_DAMAGED. */
RATHONSI_CHECKED
int32_t rathonsi_store_check(const uint8_t *image, size_t image_length);

/* Looks at each cell, and names the first that isn't as it should be. The first fourteen cells are
 * slots. Each later one is a bound, or zero bytes: rathonsi_route_make never made that one. It
 * compares each route with those before it: with 256 routes it reads some 33,000 cells.
 * cell is written with RATHONSI_DAMAGED, RATHONSI_WRONG_CELL and RATHONSI_DUPLICATE_ID, and with no
 * other status.
 * RATHONSI_BAD_LENGTH, RATHONSI_NO_STORE: as for rathonsi_store_check.
 * RATHONSI_DAMAGED: no copy of the cell counts. The device is at fault.
 * RATHONSI_WRONG_CELL: the cell holds something else than its place is for.
 * RATHONSI_DUPLICATE_ID: a cell before it has its Data ID and direction. */
RATHONSI_CHECKED
int32_t rathonsi_store_look(const uint8_t *image, size_t image_length, uint16_t *cell);

/* Tells the size in bytes of the store that image begins with: its header, and as many cells as have a
 * copy that counts, from the first on. image is what the device holds, with room for later software.
 * The number of cells in the header has no twin: a cut within its write leaves anything there. So the
 * call believes it only if the cells say the same. Software of a unit that may get an update calls it
 * at each power-up, after rathonsi_store_mend and rathonsi_store_grow. The first software does so,
 * too: a roll-back may bring it back. So many bytes are then its image, for check, open and all later
 * calls. After a roll-back they are more than its routes need, and all calls work in them.
 * A cell of a new store doesn't count before its bound is whole, wherever the power goes. A cell that
 * a fault erased whole can't be told from one that isn't there yet, if no cell after it counts.
 * RATHONSI_BAD_LENGTH: image_length is below RATHONSI_STORE_SIZE(0).
 * RATHONSI_NO_STORE: the other bytes of the header aren't those of a store.
 * RATHONSI_BAD_LENGTH, after these: every cell of the image counts, and the number in the header is
 * another. So the store has more cells than the image.
 * RATHONSI_DAMAGED: the number is another, and what is after the cells isn't erased, or a later cell
 * counts. So a cell of the store has no copy that counts. Or so few or so many cells count as no
 * store has. rathonsi_store_look names the cell, if it gets the right size. */
RATHONSI_CHECKED
int32_t rathonsi_store_size(const uint8_t *image, size_t image_length, uint32_t *size);

/* Plans the number of cells in the header, if it isn't what the cells say: a growth was cut, by this
 * software or by any other. The plan stays empty if it is. Any software of a unit that may get an
 * update calls it at each power-up, does the plan, and calls rathonsi_store_done. It needs no route
 * of the software that grew the store, so a roll-back at any moment opens. This is proved.
 * If the power goes within the plan, the same call plans it again.
 * RATHONSI_BUSY.
 * RATHONSI_BAD_LENGTH, RATHONSI_NO_STORE, RATHONSI_DAMAGED: as for rathonsi_store_size. */
RATHONSI_CHECKED
int32_t rathonsi_store_mend(const uint8_t *image, size_t image_length, RathonsiPlan *plan);

/* For a software update that adds a route: plans the cell of the route. It holds this bound at once,
 * which is 0, unless a counter is taken over.
 *   - The store has the cell, and it holds zero bytes: nobody has claimed it. The plan puts the bound
 *     into it. rathonsi_flash_put takes this plan, so a store on NOR flash takes a route more, if the
 *     production line left a cell spare.
 *   - The cell is the next one: it becomes one more at the end of the store. The plan writes the copy
 *     behind its gate, the gate, and the number of cells. rathonsi_flash_put refuses it.
 *   - The store has the cell, and it holds a bound of this route, however far it has counted. The plan
 *     stays empty.
 *   - The number of cells isn't what the cells say: the plan is that of rathonsi_store_mend.
 *
 * The caller makes the calls at each power-up, before it opens the routes. It makes them for each
 * route that the production line didn't make, in the order of their cells. A route that went is one
 * of them, with the Data ID and direction that it had. For each route the caller calls, does the
 * plan and calls rathonsi_store_done. It does so until the plan stays empty: the lengths of all
 * three writes are 0. The third call plans nothing, at the latest. The unit stops if a call answers
 * another status than RATHONSI_OK. After a power cut the same call goes on, with the same route and
 * bound. If the power goes anywhere, the cell is whole, or it isn't there yet. This is proved.
 *
 * image is what the device holds, with room for this cell and, if it is the next one, one more. The
 * device has room for this cell. Bytes of the image that the device hasn't are ff.
 * The room behind the store is erased, all 00 or all ff: the production line does that before
 * rathonsi_store_make, over 68 bytes for each later route, and 68 more as far as the device goes. It
 * does so, too, for a unit that never grows, if its image array is longer than the store. If nobody
 * erased it, all software may stop, or find cells that an older store left there: of a Data ID that
 * then stands twice rathonsi_store_look alone tells. A later erase may take cells.
 * RATHONSI_BUSY.
 * RATHONSI_BAD_VALUE: a number of the route is outside its range.
 * RATHONSI_BAD_LENGTH: the image ends before the cell does, or the cell is above 269.
 * RATHONSI_BAD_LENGTH, RATHONSI_NO_STORE, RATHONSI_DAMAGED: as for rathonsi_store_size.
 * RATHONSI_DUPLICATE_ID: another cell has the Data ID and direction.
 * RATHONSI_WRONG_CELL: the store has the cell, and it holds something else. Or cells before it are
 * missing.
 * RATHONSI_BAD_LENGTH, after these: the cell is the next one, and the image has no room for one more.
 * RATHONSI_DAMAGED, after these: the cell is the next one, and a gate at its place is open, or what
 * is after it isn't erased. */
RATHONSI_CHECKED
int32_t rathonsi_store_grow(const RathonsiRoute *route, uint64_t bound, const uint8_t *image, size_t image_length,
                            RathonsiPlan *plan);

/* By this call the caller says that all writes of the plan are durable. The call brings the image
 * up to date, and empties the plan. The image stays as it is if the plan is empty.
 * RATHONSI_BAD_VALUE: a write with a length above 0 reaches beyond the image, or a write has more
 * than 40 bytes.
 * RATHONSI_STALE_PLAN: of a cell that the header counts. A plan that a call made for this image is
 * never stale. This is proved. If the writes of a stale plan are on the device, all begins again as
 * at power-up: what the plan took back is lost. */
RATHONSI_CHECKED
int32_t rathonsi_store_done(uint8_t *image, size_t image_length, RathonsiPlan *plan);

/* ---- Counters -------------------------------------------------------------------------------- */

/* Opens the route: sets its counter to the bound that the image keeps. That bound is at least every
 * freshness that was sent or accepted before. With any other status the route is closed: opened is
 * 0.
 * RATHONSI_BAD_VALUE: a number of the route is outside its range.
 * RATHONSI_WRONG_CELL.
 * RATHONSI_DAMAGED: no copy of its cell counts. */
RATHONSI_CHECKED
int32_t rathonsi_route_open(RathonsiRoute *route, const uint8_t *image, size_t image_length);

/* Opens all routes of a unit.
 * RATHONSI_BAD_LENGTH: count is over 256. Nothing is written.
 * With each of the statuses below all routes are closed: opened is 0. which is then the number of
 * the first route that fails, from 0 on.
 * RATHONSI_BAD_VALUE: a number of route which is outside its range, or a route before it has its
 * cell, or its Data ID and direction.
 * RATHONSI_WRONG_CELL, RATHONSI_DAMAGED: as for rathonsi_route_open. */
RATHONSI_CHECKED
int32_t rathonsi_routes_open(RathonsiRoute *routes, size_t count, const uint8_t *image, size_t image_length, uint32_t *which);

/* For the bench: why a route is refused with RATHONSI_BAD_VALUE. Tells the number of its first field
 * outside its range: 1 cell, 2 reserve, 3 window, 4 slot, 5 direction, 6 booted, 7 freshness_only.
 * 8: all are within their ranges, but the route isn't open. 0: it is open. It reads the route alone,
 * and the answer is no status. */
RATHONSI_CHECKED
uint32_t rathonsi_route_fault(const RathonsiRoute *route);

/* For a route that sends: plans the bound that covers its next freshness and reserve - 1 more, at
 * most 2^64 - 1.
 * RATHONSI_BUSY.
 * RATHONSI_BAD_VALUE: a number of the route is outside its range, or the route doesn't send or isn't
 * open.
 * RATHONSI_WRONG_CELL, RATHONSI_DAMAGED: as for rathonsi_route_open.
 * RATHONSI_EXHAUSTED.
 * RATHONSI_BAD_VALUE, after these: the counter is 256 or more above the bound in the image.
 * RATHONSI_COVERED. */
RATHONSI_CHECKED
int32_t rathonsi_route_reserve_next(const RathonsiRoute *route, const uint8_t *image, size_t image_length,
                                    RathonsiPlan *plan);

/* For a route that receives, after a verdict with RATHONSI_RESERVE: plans the bound that covers its
 * freshness and reserve - 1 more, at most 2^64 - 1.
 * RATHONSI_BUSY.
 * RATHONSI_BAD_VALUE: the verdict has another status, a number of the route is outside its range, or
 * the route doesn't receive or isn't open.
 * RATHONSI_WRONG_CELL, RATHONSI_DAMAGED: as for rathonsi_route_open.
 * RATHONSI_BAD_VALUE, after these: the freshness is over 256 above the bound in the image. For the
 * verdict of rathonsi_sync_take call rathonsi_route_advance.
 * RATHONSI_COVERED. */
RATHONSI_CHECKED
int32_t rathonsi_route_reserve_for(const RathonsiRoute *route, const RathonsiVerdict *verdict, const uint8_t *image,
                                   size_t image_length, RathonsiPlan *plan);

/* Plans a whole reserve above the bound in the image, at most 2^64 - 1, if the bound leaves the route
 * fewer than this many freshness values above its counter. A sender that makes this call after each
 * PDU, or in the background, and does the plan, never waits for one: least is what the route needs
 * while a plan is done, and at most its reserve. A receiver waits if a PDU is further ahead.
 * RATHONSI_BUSY.
 * RATHONSI_BAD_VALUE: a number of the route is outside its range, or the route isn't open.
 * RATHONSI_WRONG_CELL, RATHONSI_DAMAGED: as for rathonsi_route_open.
 * RATHONSI_COVERED: at least so many are left, or the bound is 2^64 - 1. */
RATHONSI_CHECKED
int32_t rathonsi_route_reserve_ahead(const RathonsiRoute *route, uint32_t least, const uint8_t *image,
                                     size_t image_length, RathonsiPlan *plan);

/* For those who know the number: plans the bound that covers this freshness and reserve - 1 more, at
 * most 2^64 - 1. With RATHONSI_OK the plan stays empty if the bound in the image is as high already.
 * A freshness that is one higher each time makes a plan each time, and wears the device.
 * RATHONSI_BUSY.
 * RATHONSI_BAD_VALUE: a number of the route is outside its range, or the route isn't open.
 * RATHONSI_WRONG_CELL, RATHONSI_DAMAGED: as for rathonsi_route_open.
 * RATHONSI_BAD_VALUE, after these: the freshness is over 256 above the bound in the image. Such a
 * bound is mostly a mistake, and receivers would never accept again. So one reserve moves the bound
 * by at most 256 + reserve - 1, which is 383 with a reserve of 128. */
RATHONSI_CHECKED
int32_t rathonsi_route_reserve(const RathonsiRoute *route, uint64_t freshness, const uint8_t *image, size_t image_length,
                               RathonsiPlan *plan);

/* Does what rathonsi_route_reserve does, however far ahead the freshness is. Its plan done, the
 * caller opens the route anew: rathonsi_route_open moves the counter to the bound. So a unit that
 * is put in place of another one goes on above the freshness of that one. A receiver that does this
 * after RATHONSI_RESERVE of rathonsi_sync_take doesn't open the route anew: it makes that call again.
 * RATHONSI_BUSY.
 * RATHONSI_BAD_VALUE: a number of the route is outside its range, or the route isn't open.
 * RATHONSI_WRONG_CELL, RATHONSI_DAMAGED: as for rathonsi_route_open.
 * RATHONSI_EXHAUSTED: freshness + reserve - 1 is 2^64 - 1 or more. The route would be opened at
 * 2^64 - 1, and no freshness is above that.
 * Whoever can forge this freshness can use up nearly all of the route's counter, for ever. The library
 * doesn't authenticate it: take it by a way that is authenticated, such as the answer to a nonce, or a
 * workshop tool, and refuse one that is further ahead than a unit can have sent. */
RATHONSI_CHECKED
int32_t rathonsi_route_advance(const RathonsiRoute *route, uint64_t freshness, const uint8_t *image, size_t image_length,
                               RathonsiPlan *plan);

/* Tells of a route, whether it is open or not.
 * RATHONSI_BAD_VALUE, RATHONSI_WRONG_CELL, RATHONSI_DAMAGED: as for rathonsi_route_open. */
RATHONSI_CHECKED
int32_t rathonsi_route_state(const RathonsiRoute *route, const uint8_t *image, size_t image_length,
                             RathonsiRouteState *state);

/* Writes the Secured I-PDU of a payload to the first payload_length + RATHONSI_TRAILER bytes of
 * pdu. The other bytes stay. The freshness of the PDU is counter + 1, and its key is that of the
 * slot. That freshness becomes the counter.
 * RATHONSI_BAD_LENGTH: payload_length is 0 or over 60, or pdu_length is below payload_length + 4.
 * RATHONSI_BAD_VALUE: a number of the route is outside its range, or the route doesn't send or isn't
 * open, or its freshness_only is 1.
 * RATHONSI_WRONG_CELL.
 * RATHONSI_DAMAGED: no copy of its cell counts, or the cell of its slot holds no slot.
 * RATHONSI_KEY_EMPTY, RATHONSI_KEY_INVALID, RATHONSI_KEY_NOT_AVAILABLE.
 * RATHONSI_EXHAUSTED, RATHONSI_RESERVE. */
RATHONSI_CHECKED
int32_t rathonsi_route_send(RathonsiRoute *route, const uint8_t *image, size_t image_length, const uint8_t *payload,
                            size_t payload_length, uint8_t *pdu, size_t pdu_length);

/* The verdict of a receiver.
 * RATHONSI_OK: the PDU is accepted, and its freshness becomes the counter.
 * With any other status payload_length and freshness are 0, except the freshness of
 * RATHONSI_RESERVE.
 * RATHONSI_BAD_LENGTH: pdu_length is below 5 or over 64.
 * RATHONSI_BAD_VALUE: a number of the route is outside its range, or the route doesn't receive or
 * isn't open, or its freshness_only is 1.
 * RATHONSI_WRONG_CELL, RATHONSI_DAMAGED: as for rathonsi_route_send.
 * RATHONSI_KEY_EMPTY, RATHONSI_KEY_INVALID, RATHONSI_KEY_NOT_AVAILABLE: as for rathonsi_route_send.
 * RATHONSI_FRESHNESS_FAILURE, RATHONSI_VERIFICATION_FAILURE.
 * RATHONSI_RESERVE, after all refusals above: the bound in the image doesn't cover the freshness
 * yet. The authenticator of the PDU agrees. So somebody without the key makes the device write once
 * in 2^24 PDUs, on average.
 * freshness is the one to reserve. Once it is reserved and the plan is done, the same call accepts
 * the PDU. This is proved. */
RATHONSI_CHECKED
RathonsiVerdict rathonsi_route_receive(RathonsiRoute *route, const uint8_t *image, size_t image_length, const uint8_t *pdu,
                                       size_t pdu_length);

/* ---- A receiver that fell behind --------------------------------------------------------------
 *
 * A receiver that is more than its window behind accepts nothing, whatever comes. It gets back so:
 *   1. It draws a nonce of 16 random bytes, and asks the unit that sends under the Data ID.
 *   2. That unit makes the answer by rathonsi_sync_answer, if the question names it, and sends its
 *      24 bytes back.
 *   3. The receiver takes the answer by rathonsi_sync_take, and forgets the nonce.
 * A sender that replaces another one gets above each receiver that it asks, by the same three steps:
 * it asks, the receiver answers.
 * How nonce and answer travel is the caller's: plain PDUs will do. examples/c/resync.c does it.
 *
 * The library has no random numbers: draw them, or count them by rathonsi_sync_nonce, so that none
 * comes twice. If one does, an old answer to it is taken again. By rathonsi_sync_take it moves the
 * counter at most to where the sender was then, and never down: no PDU is accepted twice even then.
 * By rathonsi_sync_rejoin it does go down: PDUs of former lives are accepted again. After each
 * opening, also one in the same life, forget the nonces of before. Whoever kept an answer and knows
 * the next nonce could have made the sender answer before: the receiver is then still behind.
 *
 * A nonce has a life: forget it after a second, and after eight wrong answers, and draw another. An
 * attacker who holds back the answer, and all PDUs after it, can play them later in their order, and
 * they are accepted. A nonce that lives a second leaves a second for the answer. PDUs that are held
 * back later are accepted late as ever: a counter knows no time. A wrong answer is taken once in
 * 2^128 tries.
 *
 * Answers of Rathonsi 0.19 and before had no names and no direction. They are refused, as are these
 * by such a unit: RATHONSI_VERIFICATION_FAILURE. PDUs are the same. */

/* The bytes of a nonce and of an answer. */
#define RATHONSI_NONCE 16u
#define RATHONSI_ANSWER 24u

/* Who asks whom for the counter of a route, and with which nonce. Each unit that has the key has a
 * name of its own, a number that no other of them has. A unit asks and answers under its own name
 * alone. Then it takes no answer that it made itself: that is proved, as long as no two messages
 * have one CMAC under the key. */
typedef struct RathonsiQuestion {
    /* The name of the unit that asks. */
    uint32_t asker;
    /* The name of the unit that is asked: another one. */
    uint32_t answerer;
    /* A nonce that the asker drew for this question. */
    uint8_t nonce[16];
} RathonsiQuestion;

/* Writes the answer of a route to the question of another unit. It tells the route's counter, with
 * a CMAC of the question, the Data ID, the direction and the counter under the route's key. All
 * freshness that the route sends or accepts later, in this life and every other, is above that
 * counter, unless the route rejoins later. Nothing is reserved.
 * RATHONSI_BAD_VALUE: asker and answerer are one, or as for rathonsi_route_send.
 * RATHONSI_WRONG_CELL, RATHONSI_DAMAGED, RATHONSI_KEY_EMPTY, RATHONSI_KEY_INVALID,
 * RATHONSI_KEY_NOT_AVAILABLE: as for rathonsi_route_send, whatever direction and freshness_only
 * are. */
RATHONSI_CHECKED
int32_t rathonsi_sync_answer(const RathonsiRoute *route, const uint8_t *image, size_t image_length,
                             const RathonsiQuestion *question, uint8_t answer[24]);

/* Takes the answer to a question that this unit asked. A receiver that fell behind takes its
 * sender's answer, and a sender that was put in place of another one takes its receiver's. The nonce
 * is one that was drawn for this question, and whose answer wasn't taken yet.
 * RATHONSI_OK: the counter that the answer tells became the counter of the route. payload_length is
 * 0, and freshness is that counter. PDUs that were sent after the answer are accepted, within the
 * window.
 * RATHONSI_BAD_VALUE: asker and answerer are one, or as for rathonsi_route_receive.
 * RATHONSI_WRONG_CELL, RATHONSI_DAMAGED, RATHONSI_KEY_EMPTY, RATHONSI_KEY_INVALID,
 * RATHONSI_KEY_NOT_AVAILABLE: as for rathonsi_route_receive, whatever direction and freshness_only
 * are.
 * RATHONSI_VERIFICATION_FAILURE: it isn't the answer of that unit to this question, under this key,
 * by the route of this Data ID and the other direction.
 * RATHONSI_FRESHNESS_FAILURE: it is, and its counter isn't above the route's. The route isn't
 * behind.
 * RATHONSI_RESERVE: it is, and the bound in the image doesn't cover its counter yet. freshness is
 * that counter. Reserve it by rathonsi_route_advance, since it may be further ahead than
 * rathonsi_route_reserve plans. Do the plan, and make the same call again. */
RATHONSI_CHECKED
RathonsiVerdict rathonsi_sync_take(RathonsiRoute *route, const uint8_t *image, size_t image_length,
                                   const RathonsiQuestion *question, const uint8_t answer[24]);

/* Back at once after a reset. A route that is opened begins at its bound, so a receiver refuses what
 * its sender sends up to there: with a reserve of 128 up to 127 PDUs. This call moves its counter down
 * to the sender's, if no call moved it since rathonsi_route_open. The bound stays, so the first PDU
 * needs no plan, unless the sender is beyond the bound: RATHONSI_RESERVE. (A nonce of
 * rathonsi_sync_nonce needs one at each power-up.) Ask after the route was opened, by a nonce that
 * nobody can foretell: see rathonsi_sync_nonce. Whoever foretells it asks the sender early, and lowers
 * the counter later.
 * What is accepted strictly rises over all lives, if each accepted PDU is one that this sender sent and
 * each answer was made since the route was opened. Without that it rises from an opening to the next.
 * So never rejoin under a key that another unit sent with before, or this one with a store that was made
 * anew since: its recorded PDUs would be accepted again. Load another key on both sides first. The unit
 * can't see it: the workshop that replaces a sender loads the keys, or tells the receivers not to rejoin.
 * RATHONSI_OK: the counter that the answer tells became the counter of the route, up or down.
 * RATHONSI_FRESHNESS_FAILURE: a call moved the route's counter since it was opened, and the answer's
 * isn't above it.
 * RATHONSI_BAD_VALUE: it doesn't receive, or as for rathonsi_sync_take.
 * All others: as for rathonsi_sync_take. */
RATHONSI_CHECKED
RathonsiVerdict rathonsi_sync_rejoin(RathonsiRoute *route, const uint8_t *image, size_t image_length,
                                     const RathonsiQuestion *question, const uint8_t answer[24]);

/* Makes a nonce for the questions of this unit without a source of random numbers. The route sends
 * nothing else: it has a Data ID that no PDU has, RATHONSI_SENDS, and freshness_only 1. asker is the
 * unit's name. The nonce is the CMAC of the name and the route's next freshness under the key of its
 * slot, and that freshness becomes the route's counter. Freshness strictly rises over all lives, so no
 * unit makes two nonces of one count. Nobody without the key foretells one.
 * RATHONSI_BAD_VALUE: freshness_only isn't 1, or as for rathonsi_route_send.
 * RATHONSI_WRONG_CELL, RATHONSI_DAMAGED, RATHONSI_KEY_EMPTY, RATHONSI_KEY_INVALID,
 * RATHONSI_KEY_NOT_AVAILABLE, RATHONSI_EXHAUSTED, RATHONSI_RESERVE: as for rathonsi_route_send. */
RATHONSI_CHECKED
int32_t rathonsi_sync_nonce(RathonsiRoute *route, const uint8_t *image, size_t image_length, uint32_t asker,
                            uint8_t nonce[16]);

/* ---- Keys outside the store -------------------------------------------------------------------
 *
 * A unit whose keys lie in a hardware SHE or HSM sends and receives in two steps. The library tells
 * the input of the MAC, the unit has its hardware make the MAC, and gives it back. Bounds and
 * counters are kept as ever; slots of the image aren't read. What is promised of PDUs then speaks
 * of the MACs that came: that they are the key's is the caller's word. rathonsi_route_send and
 * rathonsi_route_receive are these two steps with the library's own CMAC. So are rathonsi_sync_answer
 * and rathonsi_sync_take. */

/* What the MAC of a PDU covers: length bytes, 11 to 70. */
typedef struct RathonsiInput {
    uint64_t freshness;
    uint16_t length;
    uint8_t bytes[70];
} RathonsiInput;

/* Tells the input of the next PDU of a route with this payload. Nothing is sent yet.
 * RATHONSI_BAD_LENGTH: payload_length is 0 or over 60.
 * RATHONSI_BAD_VALUE, RATHONSI_WRONG_CELL, RATHONSI_EXHAUSTED, RATHONSI_RESERVE: as for
 * rathonsi_route_send.
 * RATHONSI_DAMAGED: no copy of its cell counts. */
RATHONSI_CHECKED
int32_t rathonsi_send_input(const RathonsiRoute *route, const uint8_t *image, size_t image_length, const uint8_t *payload,
                            size_t payload_length, RathonsiInput *input);

/* Writes the PDU with this payload and this MAC, as rathonsi_route_send does. mac is the MAC of the
 * input's bytes under the key of the route: all 16 bytes.
 * RATHONSI_BAD_LENGTH: as for rathonsi_route_send.
 * RATHONSI_BAD_VALUE, RATHONSI_WRONG_CELL, RATHONSI_DAMAGED, RATHONSI_EXHAUSTED, RATHONSI_RESERVE:
 * as for rathonsi_send_input.
 * RATHONSI_BAD_VALUE, after these: the input isn't that of the next PDU with this payload. */
RATHONSI_CHECKED
int32_t rathonsi_send_mac(RathonsiRoute *route, const uint8_t *image, size_t image_length, const uint8_t *payload,
                          size_t payload_length, const RathonsiInput *input, const uint8_t mac[16], uint8_t *pdu,
                          size_t pdu_length);

/* Tells the input of a PDU that came: what its MAC covers if it is authentic.
 * RATHONSI_BAD_LENGTH, RATHONSI_BAD_VALUE, RATHONSI_WRONG_CELL: as for rathonsi_route_receive.
 * RATHONSI_DAMAGED: no copy of its cell counts.
 * RATHONSI_FRESHNESS_FAILURE. */
RATHONSI_CHECKED
int32_t rathonsi_receive_input(const RathonsiRoute *route, const uint8_t *image, size_t image_length, const uint8_t *pdu,
                               size_t pdu_length, RathonsiInput *input);

/* The verdict of a receiver on the PDU by this MAC, as rathonsi_route_receive gives it. mac is the
 * MAC of the input's bytes under the key of the route: all 16 bytes.
 * RATHONSI_BAD_LENGTH, RATHONSI_BAD_VALUE, RATHONSI_WRONG_CELL, RATHONSI_DAMAGED,
 * RATHONSI_FRESHNESS_FAILURE: as for rathonsi_receive_input.
 * RATHONSI_BAD_VALUE, after these: the input isn't that of this PDU.
 * RATHONSI_VERIFICATION_FAILURE.
 * RATHONSI_RESERVE, after all refusals above: as for rathonsi_route_receive. */
RATHONSI_CHECKED
RathonsiVerdict rathonsi_receive_mac(RathonsiRoute *route, const uint8_t *image, size_t image_length, const uint8_t *pdu,
                                     size_t pdu_length, const RathonsiInput *input, const uint8_t mac[16]);

/* What the MAC of an answer covers: all 88 bytes. */
typedef struct RathonsiAnswerInput {
    /* The counter that the answer tells. */
    uint64_t counter;
    uint8_t bytes[88];
} RathonsiAnswerInput;

/* Tells the input of a route's answer to a question.
 * RATHONSI_BAD_VALUE, RATHONSI_WRONG_CELL: as for rathonsi_sync_answer.
 * RATHONSI_DAMAGED: no copy of its cell counts. */
RATHONSI_CHECKED
int32_t rathonsi_sync_answer_input(const RathonsiRoute *route, const uint8_t *image, size_t image_length,
                                   const RathonsiQuestion *question, RathonsiAnswerInput *input);

/* Writes the answer with this MAC. mac is the MAC of the input's bytes under the key of the route:
 * all 16 bytes. The answer holds, whatever the route sent or accepted since the input was told.
 * RATHONSI_BAD_VALUE: the input doesn't end in its counter, so no call told it. */
RATHONSI_CHECKED
int32_t rathonsi_sync_answer_mac(const RathonsiAnswerInput *input, const uint8_t mac[16], uint8_t answer[24]);

/* Tells the input of an answer to a question of this unit: what its MAC covers if it is authentic.
 * RATHONSI_BAD_VALUE, RATHONSI_WRONG_CELL: as for rathonsi_sync_take.
 * RATHONSI_DAMAGED: no copy of its cell counts. */
RATHONSI_CHECKED
int32_t rathonsi_sync_take_input(const RathonsiRoute *route, const uint8_t *image, size_t image_length,
                                 const RathonsiQuestion *question, const uint8_t answer[24], RathonsiAnswerInput *input);

/* Takes an answer by this MAC, as rathonsi_sync_take does. mac is the MAC of the input's bytes under
 * the key of the route: all 16 bytes.
 * RATHONSI_BAD_VALUE, RATHONSI_WRONG_CELL, RATHONSI_DAMAGED: as for rathonsi_sync_take_input.
 * RATHONSI_BAD_VALUE, after these: the input isn't that of this answer.
 * RATHONSI_VERIFICATION_FAILURE, RATHONSI_FRESHNESS_FAILURE, RATHONSI_RESERVE: as for
 * rathonsi_sync_take. */
RATHONSI_CHECKED
RathonsiVerdict rathonsi_sync_take_mac(RathonsiRoute *route, const uint8_t *image, size_t image_length,
                                       const RathonsiQuestion *question, const uint8_t answer[24],
                                       const RathonsiAnswerInput *input, const uint8_t mac[16]);

/* Rejoins by this MAC, as rathonsi_sync_rejoin does. rathonsi_sync_take_input tells the input.
 * RATHONSI_BAD_VALUE, RATHONSI_WRONG_CELL, RATHONSI_DAMAGED, RATHONSI_VERIFICATION_FAILURE: as for
 * rathonsi_sync_take_mac.
 * RATHONSI_FRESHNESS_FAILURE, RATHONSI_RESERVE: as for rathonsi_sync_rejoin. */
RATHONSI_CHECKED
RathonsiVerdict rathonsi_sync_rejoin_mac(RathonsiRoute *route, const uint8_t *image, size_t image_length,
                                         const RathonsiQuestion *question, const uint8_t answer[24],
                                         const RathonsiAnswerInput *input, const uint8_t mac[16]);

/* ---- Secure boot ------------------------------------------------------------------------------
 *
 * As SHE has it: slot 2 holds the key of the boot MAC, and slot 3 the boot MAC. The boot MAC is the
 * CMAC of 12 zero bytes, the length of the program in bits in four bytes, and the program. `keytool
 * bootmac` makes it. Flags of the two slots play no part. */

/* Says whether the secure boot of a program succeeds: booted is 1 or 0.
 * RATHONSI_BAD_LENGTH: program_length is 0, or 2^29 or more.
 * RATHONSI_DAMAGED: the cell of slot 2 or 3 holds no slot.
 * RATHONSI_KEY_EMPTY: slot 2 or 3 holds no key. There is no secure boot. */
RATHONSI_CHECKED
int32_t rathonsi_boot(const uint8_t *image, size_t image_length, const uint8_t *program, size_t program_length, uint8_t *booted);

/* The same of a program that comes in pieces. The caller keeps the struct, and only the calls below
 * change it. It holds the key. A zeroed struct is refused. */
typedef struct RathonsiBoot {
    RathonsiMac mac;
    uint8_t wanted[16];
    uint32_t left;
} RathonsiBoot;

/* Begins the boot of a program of so many bytes.
 * RATHONSI_BAD_LENGTH, RATHONSI_DAMAGED, RATHONSI_KEY_EMPTY: as for rathonsi_boot. */
RATHONSI_CHECKED
int32_t rathonsi_boot_begin(const uint8_t *image, size_t image_length, uint32_t program_length, RathonsiBoot *boot);

/* Takes the next bytes of the program.
 * RATHONSI_BAD_VALUE: rathonsi_boot_begin didn't begin it.
 * RATHONSI_BAD_LENGTH: they are more than are still to come. */
RATHONSI_CHECKED
int32_t rathonsi_boot_update(RathonsiBoot *boot, const uint8_t *bytes, size_t bytes_length);

/* Says whether the program has the boot MAC: booted is 1 or 0.
 * RATHONSI_BAD_VALUE: rathonsi_boot_begin didn't begin it.
 * RATHONSI_BAD_LENGTH: bytes of the program are still to come. */
RATHONSI_CHECKED
int32_t rathonsi_boot_finish(const RathonsiBoot *boot, uint8_t *booted);

/* ---- Keys ------------------------------------------------------------------------------------ */

/* Plans the update that M1, M2 and M3 carry, for the engine with this UID. booted is 1 after a
 * secure boot that succeeded in this life, else 0.
 * RATHONSI_BUSY.
 * RATHONSI_BAD_VALUE: booted is neither.
 * RATHONSI_DAMAGED: the cell of a slot that M1 names holds no slot.
 * After these, the first of the five refusals of a load: RATHONSI_KEY_INVALID,
 * RATHONSI_KEY_WRITE_PROTECTED, RATHONSI_KEY_EMPTY, RATHONSI_KEY_NOT_AVAILABLE,
 * RATHONSI_KEY_UPDATE_ERROR. */
RATHONSI_CHECKED
int32_t rathonsi_slot_load(const uint8_t uid[15], uint8_t booted, const RathonsiRequest *request, const uint8_t *image,
                           size_t image_length, RathonsiPlan *plan);

/* Writes M4 and M5, by which the engine with this UID confirms a slot: the one that M1 names, as
 * the image now holds it. After rathonsi_store_done they confirm the update. Before it they tell of
 * the key that was there.
 * RATHONSI_BAD_ID: ID or AuthID of M1 is over 13.
 * RATHONSI_DAMAGED: the cell of the slot holds no slot.
 * RATHONSI_KEY_EMPTY. */
RATHONSI_CHECKED
int32_t rathonsi_slot_confirm(const uint8_t uid[15], const uint8_t m1[16], const uint8_t *image, size_t image_length,
                              RathonsiReply *reply);

/* Tells of a slot.
 * RATHONSI_BAD_VALUE: slot is over 13.
 * RATHONSI_DAMAGED: its cell holds no slot. */
RATHONSI_CHECKED
int32_t rathonsi_slot_state(uint8_t slot, const uint8_t *image, size_t image_length, RathonsiSlotState *state);

#ifdef __cplusplus
}
#endif

#endif
