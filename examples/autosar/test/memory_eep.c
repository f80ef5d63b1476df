/* An EEPROM that changes no byte but those of a write. A write that is cut, or fails, leaves anything in its own bytes. */
#include <string.h>

#include "FvM_Cfg.h"
#include "MemIf.h"
#include "memory.h"

enum { READS = 1, WRITES };

static uint8 bytes[RATHONSI_STORE_SIZE(FVM_ROOM)];
static const uint8 *source;
static uint8 *target;
static uint32 from, size;
static boolean failed;

static Std_ReturnType begin(uint32 kind, uint32 address, uint32 length)
{
    if (address > sizeof bytes || length > sizeof bytes - address || memory_begin(kind, 3u) != E_OK)
        return E_NOT_OK;
    from = address;
    size = length;
    failed = 0u;
    return E_OK;
}

Std_ReturnType Eep_Read(uint32 EepromAddress, uint8 *DataBufferPtr, uint32 Length)
{
    target = DataBufferPtr;
    return begin(READS, EepromAddress, Length);
}

Std_ReturnType Eep_Write(uint32 EepromAddress, const uint8 *DataBufferPtr, uint32 Length)
{
    source = DataBufferPtr;
    if (begin(WRITES, EepromAddress, Length) != E_OK)
        return E_NOT_OK;
    memory_writes(DataBufferPtr, Length);
    return E_OK;
}

MemIf_JobResultType Eep_GetJobResult(void)
{
    return (memory_job() != 0u) ? MEMIF_JOB_PENDING : failed ? MEMIF_JOB_FAILED : MEMIF_JOB_OK;
}

boolean memory_shorten(uint32 length)
{
    (void)length;
    return 0u;
}

void device_power_up(void)
{
}

uint32 device_cuts(uint32 kind)
{
    (void)kind;
    return 600u;
}

uint32 device_fails(uint32 kind)
{
    (void)kind;
    return 1500u;
}

void device_does(uint32 kind)
{
    if (kind == READS)
        memcpy(target, &bytes[from], size);
    else
        memcpy(&bytes[from], source, size);
}

/* Bytes that were written, bytes that weren't, and any others. */
void device_is_cut(uint32 kind)
{
    for (uint32 i = 0u; i < size && kind == WRITES; i++) {
        const uint32 what = below(4u);
        if (what == 0u)
            bytes[from + i] = source[i];
        else if (what == 1u)
            bytes[from + i] = (uint8)below(256u);
    }
}

void device_failed(uint32 kind)
{
    failed = 1u;
    device_is_cut(kind);
    if (kind == READS)
        memset(target, 0, size);
}
