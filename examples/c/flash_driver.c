/*
 * A template of a driver for rathonsi_flash.h: fill in the six functions and the three numbers of the part. Call
 * flash_start before rathonsi_flash_begin, and flash_perform for each operation that rathonsi_flash_next hands out. The
 * comments say which duty of the header each line keeps.
 */
#include <string.h>

#include "rathonsi_flash.h"

/* ---- The part: what a project fills in
 * ------------------------------------------------------------------------------------------ */

/* How many bytes are programmed at once, or have one ECC: the larger of the two, and at least 8. */
extern uint32_t part_unit;
/* How many erase sectors a bank is. */
extern uint32_t part_sectors;
/* How many margins a read can take: 1 if the part has no margin reads. Then a line is read READS times. Take only
 * margins that a line which was programmed whole passes as long as the device lives. */
extern int part_margins;

/* Waits until no operation of an earlier life runs or is suspended, and clears the part's flags. A reset may leave one
 * running. */
void part_wait(void);
/* Reads a unit with this margin, from the flash itself: no cache or buffer may have its bytes from before. 0: an error
 * that the ECC doesn't correct, or no read. It must come back from a trap that such an error is. */
int part_read(uint32_t bank, uint32_t offset, uint8_t *bytes, int margin);
/* Whether the part proves that a unit was erased in full and no program of it was begun since. Levels alone prove
 * neither: 0 on every part that has no more. */
int part_is_blank(uint32_t bank, uint32_t offset);
/* Programs a unit that is blank, waits until that is done, and looks at the part's flags. 0: it failed. */
int part_program(uint32_t bank, uint32_t offset, const uint8_t *bytes);
/* Erases a sector of a bank, waits until that is done, and looks at the part's flags. 0: it failed. */
int part_erase(uint32_t bank, uint32_t sector);
/* Whether what was programmed or erased last, which said that it was done, can be relied on: the supply held, or a
 * verify with margin says so. 1 on a part that reports a drop of its supply as a failure. */
int part_is_sure(uint32_t bank);

/* ---- The driver
 * ------------------------------------------------------------------------------------------------------------------ */

enum { READS = 4 };

void flash_start(void) {
    part_wait();
}

/* Settled reads: a line counts only if all reads of all margins agree. An error that the ECC doesn't correct is no
 * line. Without margins the reads find only units that change now: see the header before a store is kept so. */
static uint32_t read_line(RathonsiFlashOperation *operation) {
    uint8_t again[128];
    int reads = part_margins > 1 ? part_margins : READS;
    for (uint32_t at = 0; at < operation->length; at += part_unit)
        for (int i = 0; i < reads; i++) {
            uint8_t *bytes = i == 0 ? operation->bytes + at : again;
            if (!part_read(operation->bank, operation->offset + at, bytes, i % part_margins))
                return RATHONSI_FLASH_NOTHING;
            if (i > 0 && memcmp(operation->bytes + at, again, part_unit) != 0)
                return RATHONSI_FLASH_NOTHING;
        }
    return RATHONSI_FLASH_DONE;
}

/* Blank is believed: every unit of the line, or it isn't said. */
static int is_blank(const RathonsiFlashOperation *operation) {
    for (uint32_t at = 0; at < operation->length; at += part_unit)
        if (!part_is_blank(operation->bank, operation->offset + at))
            return 0;
    return 1;
}

/* Performs an operation, and says what became of it. */
uint32_t flash_perform(RathonsiFlashOperation *operation) {
    switch (operation->kind) {
    case RATHONSI_FLASH_READ:
        return is_blank(operation) ? RATHONSI_FLASH_BLANK : read_line(operation);
    case RATHONSI_FLASH_ERASE:
        for (uint32_t sector = 0; sector < part_sectors; sector++)
            if (!part_erase(operation->bank, sector))
                return RATHONSI_FLASH_FAILED;
        return part_is_sure(operation->bank) ? RATHONSI_FLASH_DONE : RATHONSI_FLASH_FAILED;
    case RATHONSI_FLASH_PROGRAM:
        /* in order, each done before the next: the last unit has the mark by which a line is whole */
        for (uint32_t at = 0; at < operation->length; at += part_unit)
            if (!part_program(operation->bank, operation->offset + at, operation->bytes + at))
                return RATHONSI_FLASH_FAILED;
        return part_is_sure(operation->bank) ? RATHONSI_FLASH_DONE : RATHONSI_FLASH_FAILED;
    default:
        return RATHONSI_FLASH_FAILED;
    }
}
