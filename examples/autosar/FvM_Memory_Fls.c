/* The store on NOR flash, by a Fls driver, through rathonsi_flash.h: its operations are jobs, one after another.
 * What Fls_Read and Fls_Write owe stands there ("The part: what its driver owes"). */
#include <string.h>

#include "FvM_Cfg.h"
#include "FvM_Memory.h"
#include "Fls.h"
#include "rathonsi_flash.h"

#define FVM_FLASH_CELLS RATHONSI_FLASH_CELLS(FVM_CELLS)
#define FVM_FLASH_STORE RATHONSI_STORE_SIZE(FVM_CELLS)

#if FVM_MADE != FVM_CELLS
#error "a store on flash doesn't grow: the production line makes all cells, those of later software, too"
#endif

static RathonsiFlash FvM_Flash;
static RathonsiFlashOperation FvM_Operation;
static RathonsiCell FvM_FlashCells[FVM_FLASH_CELLS];
static RathonsiCell FvM_Scratch[FVM_FLASH_CELLS];
static FvM_MemoryState FvM_Memory;
/* Where the store goes that is being read, and how long it is; NULL if none is. */
static uint8 *FvM_Read;
static uint32 FvM_ReadLength;

static void begin_job(void)
{
    const uint32 address = (FvM_Operation.bank * FVM_FLASH_BANK_SIZE) + FvM_Operation.offset;
    Std_ReturnType begun;
    if (FvM_Operation.kind == RATHONSI_FLASH_READ) {
        begun = Fls_Read(address, FvM_Operation.bytes, FvM_Operation.length);
    } else if (FvM_Operation.kind == RATHONSI_FLASH_PROGRAM) {
        begun = Fls_Write(address, FvM_Operation.bytes, FvM_Operation.length);
    } else {
        begun = Fls_Erase(address, FVM_FLASH_BANK_SIZE);
    }
    if (begun != E_OK) {
        FvM_Memory = FVM_MEMORY_FAILED;
    }
}

/* The last operation was done: tells the image if the store was read, and that there is nothing after it. */
static void finish(void)
{
    FvM_Memory = FVM_MEMORY_DONE;
    if (FvM_Read != NULL) {
        (void)memset(FvM_Read, 0xff, FvM_ReadLength);
        if (rathonsi_flash_image(&FvM_Flash, FvM_FlashCells, FVM_FLASH_CELLS, FvM_Read, FVM_FLASH_STORE)
            != RATHONSI_OK) {
            FvM_Memory = FVM_MEMORY_FAILED;
        }
    }
    FvM_Read = NULL;
}

/* Asks which operation comes next, and begins it. */
static void go_on(void)
{
    if (rathonsi_flash_next(&FvM_Flash, FvM_FlashCells, FVM_FLASH_CELLS, &FvM_Operation) != RATHONSI_OK) {
        FvM_Memory = FVM_MEMORY_FAILED;
    } else if (FvM_Operation.kind == RATHONSI_FLASH_NONE) {
        finish();
    } else {
        begin_job();
    }
}

static Std_ReturnType begin(int32_t status)
{
    FvM_Memory = (status == RATHONSI_OK) ? FVM_MEMORY_BUSY : FVM_MEMORY_FAILED;
    if (FvM_Memory == FVM_MEMORY_BUSY) {
        go_on();
    }
    return (FvM_Memory == FVM_MEMORY_FAILED) ? E_NOT_OK : E_OK;
}

boolean FvM_Memory_IsBusy(void)
{
    return (Fls_GetJobResult() == MEMIF_JOB_PENDING) ? 1u : 0u;
}

Std_ReturnType FvM_Memory_Read(uint8 *image, uint32 length)
{
    FvM_Read = image;
    FvM_ReadLength = length;
    return begin(rathonsi_flash_begin(&FvM_Flash, FVM_FLASH_UNIT, FVM_FLASH_BANKS, FVM_FLASH_BANK_SIZE,
                                      FVM_FLASH_CELLS));
}

Std_ReturnType FvM_Memory_Write(const RathonsiPlan *plan, const uint8 *image, uint32 length)
{
    (void)image;
    (void)length;
    FvM_Read = NULL;
    return begin(rathonsi_flash_put(&FvM_Flash, plan, FvM_FlashCells, FVM_FLASH_CELLS));
}

Std_ReturnType FvM_Memory_Make(const uint8 *image, uint32 length)
{
    (void)length;
    FvM_Read = NULL;
    return begin(rathonsi_flash_take(&FvM_Flash, FVM_FLASH_UNIT, FVM_FLASH_BANKS, FVM_FLASH_BANK_SIZE, image,
                                     FVM_FLASH_STORE, FvM_FlashCells, FVM_FLASH_CELLS));
}

FvM_MemoryState FvM_Memory_Poll(void)
{
    if (FvM_Memory == FVM_MEMORY_BUSY) {
        const MemIf_JobResultType result = Fls_GetJobResult();
        if (result != MEMIF_JOB_PENDING) {
            uint32 outcome = RATHONSI_FLASH_DONE;
            if ((result == MEMIF_JOB_FAILED) && (FvM_Operation.kind == RATHONSI_FLASH_READ)) {
                outcome = RATHONSI_FLASH_NOTHING;
            } else if (result != MEMIF_JOB_OK) {
                outcome = RATHONSI_FLASH_FAILED;
            } else {
                /* RATHONSI_FLASH_DONE */
            }
            if (rathonsi_flash_did(&FvM_Flash, FvM_FlashCells, FVM_FLASH_CELLS, FvM_Scratch, FVM_FLASH_CELLS,
                                   outcome, &FvM_Operation) == RATHONSI_OK) {
                go_on();
            } else {
                FvM_Memory = FVM_MEMORY_FAILED;
            }
        }
    }
    return FvM_Memory;
}
