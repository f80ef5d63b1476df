/* The store in one block of NvM, over Fee or Ea, of RATHONSI_STORE_SIZE(FVM_ROOM) bytes in all versions of the
 * software. README.md says how the block is configured. */
#include <string.h>

#include "FvM_Cfg.h"
#include "FvM_Memory.h"
#include "NvM.h"

#ifndef FVM_NVM_BLOCK
#error "define FVM_NVM_BLOCK, the ID of your block of NvM"
#endif

#if FVM_NVM_LENGTH != RATHONSI_STORE_SIZE(FVM_ROOM)
#error "NvM's block has another length than the store and its room: NvM would read and write other bytes"
#endif

/* What NvM writes: the store with the plan done, and the room after it. NvM reads it until the job ended. */
static uint8 FvM_Block[RATHONSI_STORE_SIZE(FVM_ROOM)];

/* How often in a row NvM refused to begin the write: its queue may be full. 0 if it has begun it. */
static uint32 FvM_Refused;
#define FVM_REFUSALS 100u

static void write_block(void)
{
    if (NvM_WriteBlock(FVM_NVM_BLOCK, FvM_Block) == E_OK) {
        FvM_Refused = 0u;
    } else {
        FvM_Refused++;
    }
}

boolean FvM_Memory_IsBusy(void)
{
    NvM_RequestResultType result = NVM_REQ_NOT_OK;
    return ((NvM_GetErrorStatus(FVM_NVM_BLOCK, &result) == E_OK) && (result == NVM_REQ_PENDING)) ? 1u : 0u;
}

Std_ReturnType FvM_Memory_Read(uint8 *image, uint32 length)
{
    (void)length;
    FvM_Refused = 0u;
    return NvM_ReadBlock(FVM_NVM_BLOCK, image);
}

Std_ReturnType FvM_Memory_Write(const RathonsiPlan *plan, const uint8 *image, uint32 length)
{
    Std_ReturnType answer = E_NOT_OK;
    RathonsiPlan copy;
    (void)memcpy(&copy, plan, sizeof copy);
    (void)memcpy(FvM_Block, image, length);
    FvM_Refused = 0u;
    if (rathonsi_store_done(FvM_Block, length, &copy) == RATHONSI_OK) {
        write_block();
        answer = E_OK;
    }
    return answer;
}

Std_ReturnType FvM_Memory_Make(const uint8 *image, uint32 length)
{
    (void)memcpy(FvM_Block, image, length);
    FvM_Refused = 0u;
    write_block();
    return E_OK;
}

FvM_MemoryState FvM_Memory_Poll(void)
{
    FvM_MemoryState state = FVM_MEMORY_FAILED;
    NvM_RequestResultType result = NVM_REQ_NOT_OK;
    if (FvM_Refused >= FVM_REFUSALS) {
        /* NvM takes no write. */
    } else if (FvM_Refused != 0u) {
        write_block();
        state = FVM_MEMORY_BUSY;
    } else if (NvM_GetErrorStatus(FVM_NVM_BLOCK, &result) == E_OK) {
        if (result == NVM_REQ_OK) {
            state = FVM_MEMORY_DONE;
        } else if (result == NVM_REQ_PENDING) {
            state = FVM_MEMORY_BUSY;
        } else {
            /* Also what came from ROM, from the other copy of a redundant block, or failed its CRC. */
        }
    } else {
        /* FVM_MEMORY_FAILED */
    }
    return state;
}
