/* The store over a device of bytes, by an Eep driver: an EEPROM or FRAM that changes no byte but those of a
 * write. The writes of a plan are jobs, one after another. */
#include "FvM_Cfg.h"
#include "FvM_Memory.h"
#include "MemIf.h"

/* A job still to come. Its bytes are the plan's or the image's, which stay until the last one ended. */
typedef struct {
    uint32 offset;
    uint32 length;
    const uint8 *bytes;
} FvM_JobType;

static FvM_JobType FvM_Jobs[3];
static uint32 FvM_Begun;
static FvM_MemoryState FvM_Memory;

/* Begins the next job that has bytes. */
static void begin_job(void)
{
    while ((FvM_Begun < 3u) && (FvM_Jobs[FvM_Begun].length == 0u)) {
        FvM_Begun++;
    }
    if (FvM_Begun == 3u) {
        FvM_Memory = FVM_MEMORY_DONE;
    } else {
        const FvM_JobType *job = &FvM_Jobs[FvM_Begun];
        FvM_Begun++;
        if (Eep_Write(FVM_EEP_ADDRESS + job->offset, job->bytes, job->length) != E_OK) {
            FvM_Memory = FVM_MEMORY_FAILED;
        }
    }
}

static void set_job(uint32 k, uint32 offset, uint32 length, const uint8 *bytes)
{
    FvM_Jobs[k].offset = offset;
    FvM_Jobs[k].length = length;
    FvM_Jobs[k].bytes = bytes;
}

static Std_ReturnType begin_jobs(void)
{
    FvM_Begun = 0u;
    FvM_Memory = FVM_MEMORY_BUSY;
    begin_job();
    return (FvM_Memory == FVM_MEMORY_FAILED) ? E_NOT_OK : E_OK;
}

boolean FvM_Memory_IsBusy(void)
{
    return (Eep_GetJobResult() == MEMIF_JOB_PENDING) ? 1u : 0u;
}

Std_ReturnType FvM_Memory_Read(uint8 *image, uint32 length)
{
    FvM_Begun = 3u;
    FvM_Memory = FVM_MEMORY_BUSY;
    return Eep_Read(FVM_EEP_ADDRESS, image, length);
}

Std_ReturnType FvM_Memory_Write(const RathonsiPlan *plan, const uint8 *image, uint32 length)
{
    (void)image;
    (void)length;
    for (uint32 k = 0u; k < 3u; k++) {
        set_job(k, plan->writes[k].offset, plan->writes[k].length, plan->writes[k].bytes);
    }
    return begin_jobs();
}

/* The header comes last: before it the bytes are no store. The room after the store is written, too. */
Std_ReturnType FvM_Memory_Make(const uint8 *image, uint32 length)
{
    static const uint8 none[32];
    set_job(0u, 0u, 32u, none);
    set_job(1u, 32u, length - 32u, &image[32]);
    set_job(2u, 0u, 32u, image);
    return begin_jobs();
}

FvM_MemoryState FvM_Memory_Poll(void)
{
    if (FvM_Memory == FVM_MEMORY_BUSY) {
        const MemIf_JobResultType result = Eep_GetJobResult();
        if (result == MEMIF_JOB_OK) {
            begin_job();
        } else if (result != MEMIF_JOB_PENDING) {
            FvM_Memory = FVM_MEMORY_FAILED;
        } else {
            /* It goes on. */
        }
    }
    return FvM_Memory;
}
