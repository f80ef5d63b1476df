/* NOR flash whose driver keeps the duties of rathonsi_flash.h. A line that a cut left half done settles as
 * its first read finds it: whole, or not to be read. */
#include <stdio.h>
#include <stdlib.h>
#include <string.h>

#include "FvM_Cfg.h"
#include "Fls.h"
#include "memory.h"
#include "rathonsi_flash.h"

enum { READS = 1, PROGRAMS, ERASES };
enum { BLANK, WHOLE, OPEN, LOST };

#define LINE RATHONSI_FLASH_LINE(FVM_FLASH_UNIT)
#define LINES (FVM_FLASH_BANK_SIZE / LINE)

typedef struct {
    uint8 state;
    uint8 bytes[LINE];
} Line;

static Line lines[FVM_FLASH_BANKS][LINES];
static const uint8 *source;
static uint8 *target;
static uint32 bank, place;
static boolean failed, cancelled, unreadable;

static Std_ReturnType begin(uint32 kind, uint32 address)
{
    if (address / FVM_FLASH_BANK_SIZE >= FVM_FLASH_BANKS || memory_begin(kind, 2u) != E_OK)
        return E_NOT_OK;
    bank = address / FVM_FLASH_BANK_SIZE;
    place = (address % FVM_FLASH_BANK_SIZE) / LINE;
    unreadable = 0u;
    failed = 0u;
    cancelled = 0u;
    return E_OK;
}

Std_ReturnType Fls_Erase(uint32 TargetAddress, uint32 Length)
{
    return (Length == FVM_FLASH_BANK_SIZE) ? begin(ERASES, TargetAddress) : E_NOT_OK;
}

Std_ReturnType Fls_Write(uint32 TargetAddress, const uint8 *SourceAddressPtr, uint32 Length)
{
    source = SourceAddressPtr;
    if (Length != LINE || begin(PROGRAMS, TargetAddress) != E_OK)
        return E_NOT_OK;
    memory_writes(SourceAddressPtr, Length);
    return E_OK;
}

Std_ReturnType Fls_Read(uint32 SourceAddress, uint8 *TargetAddressPtr, uint32 Length)
{
    target = TargetAddressPtr;
    return (Length == LINE) ? begin(READS, SourceAddress) : E_NOT_OK;
}

MemIf_JobResultType Fls_GetJobResult(void)
{
    MemIf_JobResultType result = MEMIF_JOB_OK;
    if (memory_job() != 0u)
        result = MEMIF_JOB_PENDING;
    else if (cancelled)
        result = MEMIF_JOB_CANCELED;
    else if (failed || unreadable)
        result = MEMIF_JOB_FAILED;
    return result;
}

boolean memory_shorten(uint32 length)
{
    (void)length;
    return 0u;
}

void device_power_up(void)
{
}

uint32 device_cuts(uint32 kind)
{
    return (kind == READS) ? 0u : 600u;
}

uint32 device_fails(uint32 kind)
{
    (void)kind;
    return 1500u;
}

void device_does(uint32 kind)
{
    Line *line = &lines[bank][place];
    if (kind == READS) {
        if (line->state == OPEN)
            line->state = (below(2u) == 0u) ? WHOLE : LOST;
        unreadable = line->state != WHOLE;
        if (!unreadable)
            memcpy(target, line->bytes, LINE);
    } else if (kind == PROGRAMS) {
        if (line->state != BLANK) {
            printf("FAILED: a line was programmed twice\n");
            exit(1);
        }
        line->state = WHOLE;
        memcpy(line->bytes, source, LINE);
    } else {
        memset(lines[bank], 0, sizeof lines[bank]);
    }
}

void device_is_cut(uint32 kind)
{
    if (kind == PROGRAMS) {
        lines[bank][place].state = OPEN;
        memcpy(lines[bank][place].bytes, source, LINE);
    } else if (kind == ERASES) {
        for (uint32 i = 0u; i < LINES; i++)
            if (lines[bank][i].state != BLANK || below(4u) == 0u)
                lines[bank][i].state = (lines[bank][i].state == WHOLE) ? OPEN : LOST;
    }
}

/* A read that failed was cancelled: a line that can't be corrected is unreadable. */
void device_failed(uint32 kind)
{
    failed = 1u;
    cancelled = kind == READS;
    device_is_cut(kind);
}
