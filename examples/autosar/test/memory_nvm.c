/* NvM with one native block: a write leaves the old block or the new one, wherever the power goes. A read that failed
 * gives the ROM default: a store with counters 0. One write in eight is refused, as if the queue were full. */
#include <string.h>

#include "FvM_Cfg.h"
#include "NvM.h"
#include "memory.h"

enum { READS = 1, WRITES };

static uint8 block[RATHONSI_STORE_SIZE(FVM_ROOM)], first_block[sizeof block];
static const void *source;
static uint8 *target;
static uint32 size = sizeof block;
static boolean failed, was_made;

static Std_ReturnType begin(NvM_BlockIdType BlockId, uint32 kind)
{
    failed = 0u;
    return (BlockId == FVM_NVM_BLOCK) ? memory_begin(kind, 5u) : E_NOT_OK;
}

Std_ReturnType NvM_ReadBlock(NvM_BlockIdType BlockId, void *NvM_DstPtr)
{
    target = NvM_DstPtr;
    return begin(BlockId, READS);
}

Std_ReturnType NvM_WriteBlock(NvM_BlockIdType BlockId, const void *NvM_SrcPtr)
{
    if (below(8u) == 0u)
        return E_NOT_OK;
    source = NvM_SrcPtr;
    if (begin(BlockId, WRITES) != E_OK)
        return E_NOT_OK;
    memory_writes(NvM_SrcPtr, size);
    return E_OK;
}

/* Of the results that aren't OK, one after another: not OK, integrity failed, restored from ROM, redundancy failed. */
Std_ReturnType NvM_GetErrorStatus(NvM_BlockIdType BlockId, NvM_RequestResultType *RequestResultPtr)
{
    static const NvM_RequestResultType results[4] = {NVM_REQ_NOT_OK, 3u, 8u, 7u};
    static uint32 which;
    (void)BlockId;
    *RequestResultPtr = (memory_job() != 0u) ? NVM_REQ_PENDING : failed ? results[which++ % 4u] : NVM_REQ_OK;
    return E_OK;
}

boolean memory_shorten(uint32 length)
{
    size = length;
    return 1u;
}

/* The image was in RAM: it is zeros, as the startup code leaves them. */
void device_power_up(void)
{
    if (target != NULL)
        memset(target, 0, sizeof block);
}

uint32 device_cuts(uint32 kind)
{
    (void)kind;
    return 400u;
}

uint32 device_fails(uint32 kind)
{
    (void)kind;
    return 500u;
}

void device_does(uint32 kind)
{
    if (kind == READS) {
        memcpy(target, block, size);
    } else {
        memcpy(block, source, size);
        if (!was_made)
            memcpy(first_block, block, sizeof block);
        was_made = 1u;
    }
}

void device_is_cut(uint32 kind)
{
    if (kind == WRITES && below(2u) == 0u)
        device_does(kind);
}

void device_failed(uint32 kind)
{
    failed = 1u;
    if (kind == READS)
        memcpy(target, first_block, size);
    else
        device_is_cut(kind);
}
