/*
 * rathonsi_flash.h: the store of rathonsi_store.h on NOR flash, whose units are programmed once
 * between two erases. A counter or a key is there whole or not at all, wherever the power goes.
 *
 * The library touches no flash. It hands out one operation after another: READ, ERASE, PROGRAM. The
 * caller performs each and reports its outcome. Routes and slots work as rathonsi_store.h says, over
 * an image in RAM. Only the caller's read_device and write_device change. One thing is missing: a
 * store on flash doesn't grow. See "What isn't covered".
 *
 * No call waits, calls back or takes memory. All state is the caller's.
 *
 * Each function is an export of the crate rathonsi_c, and its contract is proved:
 *   - A call returns a status exactly if this header says so. If several could come, it returns the
 *     first one that the comment of the call names.
 *   - With a status other than RATHONSI_OK every output is as before.
 *
 * More is proved of a caller that keeps what it owes. It holds over all lives with a flash on which
 * rathonsi_flash_take made a store, to its last operation. If the power cut that last operation, the
 * store is there whole or not at all. The same holds then once a start has found it. A life lasts
 * from one power-up to the next, and the power may go at any time.
 *   - Once the store is ready, its cells are what the puts that were done made of the first ones. A
 *     put that the power cut is there whole or not at all, and that stays so.
 *   - Each start finds the store: RATHONSI_NO_STORE never comes.
 *   - A start with another geometry ends with RATHONSI_NO_STORE, if the heads tell one: see "Another geometry".
 *   - What rathonsi.h and rathonsi_store.h promise of routes and slots over all lives holds: freshness
 *     rises, and a key that was confirmed stays.
 *   - A line is programmed once between two erases of its bank, and only where all was erased.
 *   - Each start and each put comes to its end: a start takes at most banks * P + n + 2 operations,
 *     a put n + 3. P and n are those of "Wear, RAM and time" below.
 *   - A put is one PROGRAM, unless the bank is full. Of all banks together at most one ERASE is begun
 *     for each start, and one more for each P - n - 1 puts whose PROGRAM was begun.
 *   - RATHONSI_FAILED comes only if, since the last start, an outcome was reported that the operation
 *     can't have, or RATHONSI_FLASH_FAILED.
 *
 * The flash is 2 to 16 banks. A bank is erased at once: one sector or several. It holds lines, each
 * as many program units as 44 bytes need. The first line of a bank is its head, then come all cells,
 * then a line for each put. A full bank is copied to the next one, so the banks wear alike.
 *
 * How it is used (examples/c/control_unit_flash.c does all of it):
 *
 *     static RathonsiFlash flash;
 *     static RathonsiFlashOperation operation;
 *     static RathonsiCell cells[RATHONSI_FLASH_CELLS(2)], scratch[RATHONSI_FLASH_CELLS(2)];
 *     static uint8_t image[RATHONSI_STORE_SIZE(2)];
 *     static const size_t n = RATHONSI_FLASH_CELLS(2);
 *
 *     // performs operations until none comes
 *     int32_t work(void) {
 *         int32_t status;
 *         while ((status = rathonsi_flash_next(&flash, cells, n, &operation)) == RATHONSI_OK
 *                && operation.kind != RATHONSI_FLASH_NONE)
 *             if (rathonsi_flash_did(&flash, cells, n, scratch, n, perform(&operation), &operation)
 *                 != RATHONSI_OK)
 *                 stop();
 *         return status;
 *     }
 *
 *     // at power-up, and when all begins again: in place of read_device. The driver waits first,
 *     // until the part rests.
 *     if (rathonsi_flash_begin(&flash, 8u, 2u, 4096u, n) != RATHONSI_OK || work() != RATHONSI_OK
 *         || rathonsi_flash_image(&flash, cells, n, image, sizeof image) != RATHONSI_OK)
 *         stop();
 *
 *     // do_plan: in place of write_device
 *     if (rathonsi_flash_put(&flash, &plan, cells, n) != RATHONSI_OK || work() != RATHONSI_OK)
 *         stop();
 *     if (rathonsi_store_done(image, sizeof image, &plan) != RATHONSI_OK)
 *         stop();
 *
 * stop() is a reset, or all begins again as at power-up.
 *
 * What the caller owes, in addition to what rathonsi.h and rathonsi_store.h say. The duties of
 * rathonsi_store.h on writes don't apply; these take their place.
 *
 *   Calls
 *   - Only the functions below change the flash struct, cells and scratch. They are the same arrays
 *     at each call.
 *   - An operation is performed once, in full, before its outcome is reported.
 *   - A plan that rathonsi_flash_put took is performed until rathonsi_flash_next answers NONE, and
 *     then rathonsi_store_done is called; or all begins again as at power-up. It isn't dropped, and
 *     no other plan is made before.
 *   - unit, banks, bank_size, the number of cells, and which sectors a bank is, are the same in every
 *     life, also after an update of the software. Exception: they may be others if
 *     rathonsi_flash_take makes the store anew, and every sector that was ever a bank was erased before.
 *   - If rathonsi_flash_next answers another status than RATHONSI_OK, all begins again as at
 *     power-up.
 *
 *   The part: what its driver owes
 *   - A reset counts as a loss of power. Before the first READ no operation of an earlier life runs
 *     or is suspended: the driver waits for it, or ends it, and clears the part's flags.
 *   - READ reads the flash itself. No cache, prefetch or read buffer gives what was there before the
 *     last ERASE or PROGRAM.
 *   - An operation changes no place of another bank and no other line of its own bank. PROGRAM of a
 *     unit changes no other unit of its line.
 *   - PROGRAM writes the units of a line from the first to the last. Each is done before the next
 *     begins. DONE says that all of them are whole, and stay so until the next erase.
 *   - ERASE: DONE says that every byte of the bank is erased, and none is so by half. If it erases
 *     several sectors, all of them are.
 *   - No forged line. If the power went within a PROGRAM or an ERASE, or it failed, the bytes of a
 *     line may be read as anything, anew at each read. READ may then answer DONE with a line only if
 *     it is the line that was programmed there, or that stood there when the erase began.
 *     With units of 8 bytes this is proved of a PROGRAM, if all erased bytes are read as one value
 *     other than 96 hexadecimal. For the rest, as for what an ERASE left, the check of a line stands:
 *     bytes at random pass it once in 2^64. Let READ answer NOTHING on an error that the part's ECC
 *     doesn't correct. An error that it corrects is none, if all reads agree.
 *   - Settled reads. If READ answers DONE with a line, the line stays until the next erase. Cells that
 *     are programmed by half can be read today and be gone tomorrow. Read a line with margin, at both
 *     margins if the part has them, and answer NOTHING if the reads differ. Several reads without
 *     margin find only cells that change now; they don't show that a cell keeps what it has. Don't
 *     keep a store on a part that can't do this: the head of a log is such a line, too. The store may
 *     fall back to an older one unseen without settled reads. This holds on any part, also on one
 *     that never answers BLANK. A counter goes from 100 to 0 and its PDUs are accepted again, or a
 *     key that was confirmed is gone. Or the whole store is lost.
 *   - A line that was programmed whole is always read so. Take only margins that such a line passes
 *     as long as the device lives. If a line isn't read, the puts after it are lost with it. That is a
 *     fault of the part, which nothing here mends.
 *   - Two duties conflict after a corrected error. The line may be whole and old, or a cut one that
 *     changes soon. Corrected reads don't tell which. Reading each whole line is more important than
 *     settled reads: answer DONE if all corrected reads agree. Every part ages, and all puts after an
 *     old line that isn't read are lost with it. A cut line is lost only if another bit of it changes
 *     before a start has copied it. A start without BLANK always copies. The way out is a read with
 *     margin while the correction is off. Correct the bits and answer DONE if both margins give the
 *     same. Answer NOTHING if they differ.
 *   - BLANK is believed. Answer it to a READ only if the part proves two things. The line was erased
 *     in full, and no PROGRAM of it was begun since. No check that looks at levels alone proves that, at
 *     whatever margin: a cut PROGRAM may leave the levels of a blank line for now. A part without such
 *     a proof never answers BLANK: each start then erases a bank. Seemingly blank units do no harm then.
 *   - A unit that resets again and again waits before rathonsi_flash_begin, longer each time: see
 *     "Wear, RAM and time".
 *   - FAILED if the operation didn't succeed. What it left counts as cut.
 *
 *   What to look up in the manual of a part
 *
 *   | Look for                                        | It decides                              |
 *   |-------------------------------------------------|-----------------------------------------|
 *   | program unit (word, page, phrase)               | unit: the larger of the two, at least   |
 *   | bytes under one ECC                             |   8; more than 128 isn't covered        |
 *   | whether a unit may be programmed twice          | nothing: it never is                    |
 *   | order of programs in a sector, row or page      | must be free: offset 0 comes last       |
 *   | how often a row or page may be programmed       | at least as often as it has units       |
 *   |   between two erases                            |                                         |
 *   | erase unit, and how many there are              | banks, bank_size                        |
 *   | cycles of erase and program, by temperature     | the wear below                          |
 *   | time of an erase, of a program                  | the time of a start and of a put        |
 *   | value of erased bytes, and whether reading them | what READ answers; it may be an error.  |
 *   |   is an ECC error                               |   If it changes, only the check stands  |
 *   | what an ECC error does: a trap, a flag; whether | READ must survive it, and answer        |
 *   |   it was corrected                              |   NOTHING only if it wasn't corrected   |
 *   | whether margin reads work with the correction   | whether a corrected error is told from  |
 *   |   off                                           |   a cut                                 |
 *   | margin reads, user margin, verify commands,     | settled reads. A margin that old lines  |
 *   |   and what they say of old data                 |   miss loses puts                       |
 *   | blank check: levels alone, or what was done;    | BLANK, or never: levels alone don't do  |
 *   |   and after an erase that was cut               |                                         |
 *   | suspend of an erase, and what it forbids        | don't suspend, or count it as running   |
 *   | what a reset does to an erase or a program      | what the driver waits for at a start    |
 *   | caches, prefetch, read and ECC buffers          | what is made invalid after each ERASE   |
 *   |                                                 |   and PROGRAM                           |
 *   | bank swap, remapping                            | which sectors a bank is                 |
 *   | reading while programming, the same bank, code  | where the driver runs                   |
 *   | disturb by reads, by neighbours' programs and   | whether a line needs an early copy: let |
 *   |   erases; data retention                        |   a start answer NOTHING, not BLANK     |
 *
 * Another geometry. The head of a bank tells unit, banks, bank_size and cells. A start reads each head,
 * and ends with RATHONSI_NO_STORE at the first that tells others than rathonsi_flash_begin got, whatever
 * the other banks hold. It is proved of a flash whose heads all tell others: no start is ready, and
 * nothing is erased or programmed. So stop there: the software is wrong, and the right one finds the
 * store as it was.
 *
 *   | rathonsi_flash_begin gets    | A start                                                         |
 *   |------------------------------|-----------------------------------------------------------------|
 *   | another number of banks      | reads a head that tells so                                      |
 *   | another number of cells      | the same                                                        |
 *   | another unit                 | the same, if a line is as long; else it reads no head           |
 *   | another bank_size            | the same, if a bank begins where one began; else it reads none  |
 *   | other sectors for a bank     | isn't told: the store may be an older one                       |
 *
 *   A flash on which no head is read has no store either. rathonsi_flash_take erases its own banks alone.
 *   An older store that was left beside them is found by software that begins with its geometry, if no
 *   head of the newer one is read: so erase every sector that was ever a bank before.
 *
 *   A head that tells zeros tells nothing. A version before 0.20 made such stores. They are opened as
 *   before, with no check of their geometry, and each call goes on to program heads that tell nothing:
 *   so the version before can come back. Only rathonsi_flash_take makes a store that tells. A version
 *   before 0.20 finds no store there, if all banks of that version were erased. It takes an older store
 *   that stands in another bank.
 *
 * What isn't covered:
 *   - A part that loses a line which was whole, by age, by reads or by its neighbours.
 *   - A DONE that is wrong, as after a drop of the supply that the part doesn't report. Such a part
 *     needs a supply monitor, or a verify with margin before DONE.
 *   - A bank that is worn out, or has one line of the copy that can't be programmed. Each start fails
 *     there, and none ends: stop() must not begin again for ever. The store can still be read from a
 *     dump, by the layout below.
 *   - A store that gets a cell more. rathonsi_flash_put refuses the plan of rathonsi_store_grow, unless
 *     it claims a spare cell, which the line left. Without one a route more takes rathonsi_flash_take
 *     of a larger image, and a cut within that may leave no store.
 *   - Two callers at once, and a caller that writes the flash otherwise.
 *
 * Layout, for who reads a dump. All numbers have their high byte first.
 *   - A line is 35 bytes of body, their CRC-64 in eight bytes, zeros, and a last byte 96
 *     hexadecimal. The CRC has the polynomial 42f0e1eba9ea3693, highest bit first; it begins with
 *     ones, and its bits are inverted at the end. That of the nine digits from 1 on is
 *     62ec59e3f1a4f00a.
 *   - The body of a head: 5a, the generation in eight bytes, unit in two, banks in one, bank_size in
 *     four, the number of cells in two, zeros. The last four numbers are 0 if it tells nothing. That of
 *     an entry: a5, the number of a cell in two bytes, its 32 bytes.
 *   - A bank holds a log if its first line is a head and the next n lines are entries of the cells 0
 *     to n - 1. The lines after these change it in order, up to the first that is none. An entry of a
 *     number from n on, and a head, change nothing there.
 *   - The store is the log of the highest generation. If two have it, there is no store.
 *   - Cell i below 14 is slot i, the others are routes: the 32 bytes are those of the image.
 *
 * Wear, RAM and time. n cells; unit; L bytes of a line: 48 with units of 8 or 16, 64 with units of 32
 * or 64, 128 with units of 128; places P = bank_size / L; B banks.
 *   - Puts to a bank: P - n - 1. A put is one PROGRAM. One into a full bank is an ERASE and n + 1
 *     PROGRAMs more.
 *   - A start reads the head of each bank. It reads on in a bank whose head isn't older than the
 *     latest one so far: to its first line that is none, and with BLANK to the first line that isn't
 *     blank after those. Of a store these are at most B - 2 + 2 * P READs; B * P is proved. Without
 *     BLANK an ERASE and n + 1 PROGRAMs follow. With BLANK they follow only if some line after the log
 *     wasn't read as BLANK, or the first line of the next bank neither as BLANK nor as an older head:
 *     as after a PROGRAM or an ERASE that was cut or failed since the last start that came to its end.
 *   - Time of a start: (B - 2 + 2 * P) * L bytes read, an erase of a bank, and (n + 1) * L / unit
 *     units programmed; of a put: L / unit units programmed, and with a full bank the same as a
 *     start's. Serve the watchdog meanwhile.
 *   - Erases of a bank over all years, without BLANK: at most (starts + puts / (P - n - 1)) / B; with
 *     BLANK puts / (P - n - 1) / B. No bank is erased more often than another by more than one and the
 *     number of copies that were begun and not done, as the power went or an operation failed.
 *   - A reset loop: each start without BLANK is an erase and n + 1 PROGRAMs, also if nothing was put
 *     since the last one. 1,000 starts are 1,000 erases, which the banks share. Two banks of 10^4
 *     cycles are worn out in 33 minutes at ten starts a second. Of 10^5 cycles they last 5.6 hours.
 *   - RAM: RathonsiFlash 224 bytes, an operation 144, cells and scratch 64 * n, the image
 *     32 + 68 * n.
 *
 *   At most, with 16 cells, 15 years, 10 starts and 200 puts a day, units of 8, if no copy is lost. If
 *   a bank is erased in 20 ms and a unit programmed in 50 us, a start takes 25.1 ms and its READs, and a
 *   put 0.3 ms:
 *
 *   | Banks | bank_size | Puts to a bank | Erases of a bank | with BLANK | READs of a start |
 *   |-------|-----------|----------------|------------------|------------|------------------|
 *   | 2     | 4,096     | 68             | 35,426           | 8,051      | 170              |
 *   | 4     | 4,096     | 68             | 17,713           | 4,026      | 172              |
 *   | 16    | 4,096     | 68             | 4,428            | 1,006      | 184              |
 *   | 2     | 8,192     | 153            | 30,953           | 3,578      | 340              |
 *   | 2     | 16,384    | 324            | 29,065           | 1,690      | 682              |
 */
#ifndef RATHONSI_FLASH_H
#define RATHONSI_FLASH_H

#include "rathonsi_store.h"

#ifdef __cplusplus
extern "C" {
#endif

/* The number of cells: the slots, and one for each route. */
#define RATHONSI_FLASH_CELLS(routes) (RATHONSI_SLOT_CELLS + (routes))

/* How many bytes a line takes. */
#define RATHONSI_FLASH_LINE(unit) ((unit) <= 16u ? 48u : (unit) <= 64u ? 64u : 128u)

/* What an operation is. */
#define RATHONSI_FLASH_NONE 0u
#define RATHONSI_FLASH_READ 1u
#define RATHONSI_FLASH_ERASE 2u
#define RATHONSI_FLASH_PROGRAM 3u

/* What became of it. */
/* It was done. A READ has put the bytes of the line into the operation. */
#define RATHONSI_FLASH_DONE 0u
/* A READ: the line is blank for sure. */
#define RATHONSI_FLASH_BLANK 1u
/* A READ: there is no line that can be read, or the reads differ. */
#define RATHONSI_FLASH_NOTHING 2u
/* It failed. */
#define RATHONSI_FLASH_FAILED 3u

/* A cell. cells_length and scratch_length count cells. */
typedef struct RathonsiCell {
    uint8_t bytes[32];
} RathonsiCell;

/* An operation: on this bank, from this byte of it on, so many bytes. ERASE is of the whole bank: its
 * offset and length are 0. What an operation doesn't use is zero: the bytes that are none of the line
 * of a PROGRAM; of NONE all. */
typedef struct RathonsiFlashOperation {
    uint32_t kind;
    uint32_t bank;
    uint32_t offset;
    uint32_t length;
    /* PROGRAM: the bytes of the line. READ: the driver puts them here. */
    uint8_t bytes[128];
} RathonsiFlashOperation;

/* The state of the store. It isn't for the caller, and has no meaning on another processor. */
typedef struct RathonsiFlash {
    uint64_t state[28];
} RathonsiFlash;

/* Begins at power-up, over so many banks of bank_size bytes. Its operations read the flash, and make
 * the store ready.
 * RATHONSI_BAD_VALUE: unit isn't 8, 16, 32, 64 or 128, banks is outside 2 to 16, cells is outside 14
 * to 270, or a bank has no room for cells + 2 lines. */
RATHONSI_CHECKED
int32_t rathonsi_flash_begin(RathonsiFlash *flash, uint16_t unit, uint8_t banks, uint32_t bank_size,
                             size_t cells);

/* For the production line, and to move a store from a device of bytes: makes a store on the flash that
 * has the cells of this image. rathonsi_store_check answers RATHONSI_OK for it. It erases all banks.
 * Once its operations are done, rathonsi_flash_next answers NONE, and all begins again with
 * rathonsi_flash_begin. If the power goes before all banks are erased, the flash has no store, or one
 * that it had before. That need not be its last one: begin with this call again. After that it has
 * none; and if the power goes within the last operation, this store whole, or none.
 * To move, a start does this in order, each step durable before the next. The flash never had a store,
 * or the production line erased its banks.
 *   1. rathonsi_flash_begin and its operations. If there is a store, go to 4.
 *   2. Read the image from the old device. rathonsi_store_check answers RATHONSI_OK, or stop.
 *   3. rathonsi_flash_take and its operations; then 1 again.
 *   4. Write 32 zero bytes over the first 32 of the old device, unless they are zero.
 *   5. Go on. The old store isn't used again.
 * The old store counts until step 3 is done. It may not count once step 4 has begun.
 * RATHONSI_BAD_LENGTH: image_length isn't the size of a store of cells_length cells, 14 to 270.
 * RATHONSI_NO_STORE, RATHONSI_DAMAGED: as for rathonsi_store_check.
 * RATHONSI_BAD_VALUE: as for rathonsi_flash_begin. */
RATHONSI_CHECKED
int32_t rathonsi_flash_take(RathonsiFlash *flash, uint16_t unit, uint8_t banks, uint32_t bank_size,
                            const uint8_t *image, size_t image_length, RathonsiCell *cells,
                            size_t cells_length);

/* Says which operation comes next; the same until its outcome is reported. kind is
 * RATHONSI_FLASH_NONE if the store is ready, or is made.
 * RATHONSI_BAD_VALUE: the numbers of the struct are no plan of a store of so many cells: they were
 * begun with another number, say.
 * RATHONSI_NO_STORE: no bank holds a store of so many cells, or the head of one tells another geometry.
 * RATHONSI_EXHAUSTED: the generation of the store is 2^64 - 1, so that it can't be copied again.
 * RATHONSI_FAILED: an operation failed. A put that was under way may be there after the next start, or
 * not. */
RATHONSI_CHECKED
int32_t rathonsi_flash_next(const RathonsiFlash *flash, const RathonsiCell *cells, size_t cells_length,
                            RathonsiFlashOperation *operation);

/* Reports the outcome of the operation that comes next. Of a READ that is DONE the bytes are those of
 * the operation. It changes nothing if no operation comes next. Any outcome that the operation can't
 * have counts as RATHONSI_FLASH_FAILED.
 * RATHONSI_BAD_LENGTH: scratch has another length than cells.
 * RATHONSI_BAD_VALUE: as for rathonsi_flash_next. */
RATHONSI_CHECKED
int32_t rathonsi_flash_did(RathonsiFlash *flash, RathonsiCell *cells, size_t cells_length,
                           RathonsiCell *scratch, size_t scratch_length, uint32_t outcome,
                           const RathonsiFlashOperation *operation);

/* Begins the put of a plan of rathonsi_store.h. It is durable once rathonsi_flash_next answers NONE;
 * then the caller says so to rathonsi_store_done. An empty plan puts nothing.
 * RATHONSI_BAD_VALUE: as for rathonsi_flash_next, or the plan is none of a put to one of the cells, as
 * that of rathonsi_store_grow for a cell more, or of rathonsi_store_mend.
 * RATHONSI_BUSY: an operation comes next, or the store isn't ready.
 * RATHONSI_EXHAUSTED: as for rathonsi_flash_next, and the bank is full; the store stays as it is. */
RATHONSI_CHECKED
int32_t rathonsi_flash_put(RathonsiFlash *flash, const RathonsiPlan *plan, const RathonsiCell *cells,
                           size_t cells_length);

/* Makes the image of the store that is ready.
 * RATHONSI_BAD_LENGTH: image_length isn't the size of a store of cells_length cells, 14 to 270.
 * RATHONSI_BAD_VALUE: as for rathonsi_flash_next.
 * RATHONSI_BUSY: the store isn't ready. */
RATHONSI_CHECKED
int32_t rathonsi_flash_image(const RathonsiFlash *flash, const RathonsiCell *cells,
                             size_t cells_length, uint8_t *image, size_t image_length);

#ifdef __cplusplus
}
#endif

#endif
