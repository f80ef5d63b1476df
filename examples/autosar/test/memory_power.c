/* Jobs of a memory, one at a time, and the power that goes within them. */
#include "memory.h"

#include <string.h>

#include "play.h"

static uint32 job, left, times;
/* What the job writes, and what it was as the job was begun. */
static const uint8 *written;
static uint32 size;
static uint8 begun[RATHONSI_STORE_SIZE(FVM_ROOM)];
static boolean cut, has_failed, refusing;
static uint64 jobs;

/* Whether it happens now: once in so many, or more often. */
static boolean happens(uint32 once_in)
{
    return times != 0u && once_in != 0u && below(once_in / times) == 0u;
}

Std_ReturnType memory_begin(uint32 kind, uint32 cycles)
{
    if (job != 0u || cut || refusing)
        return E_NOT_OK;
    job = kind;
    left = below(cycles);
    written = NULL;
    return E_OK;
}

void memory_writes(const uint8 *bytes, uint32 length)
{
    written = bytes;
    size = length;
    memcpy(begun, bytes, length);
}

uint32 memory_job(void)
{
    return job;
}

void memory_tick(void)
{
    if (job == 0u || cut)
        return;
    if (written != NULL && memcmp(begun, written, size) != 0)
        fail("bytes change while a job writes them, length", size);
    if (happens(device_cuts(job))) {
        device_is_cut(job);
        cut = 1u;
    } else if (left > 0u) {
        left--;
    } else {
        if (happens(device_fails(job))) {
            device_failed(job);
            has_failed = 1u;
        } else {
            device_does(job);
        }
        job = 0u;
        jobs++;
    }
}

void memory_power_up(void)
{
    cut = 0u;
    job = 0u;
    has_failed = 0u;
    device_power_up();
}

boolean memory_has_failed(void)
{
    return has_failed;
}

void memory_refuse(boolean refuses)
{
    refusing = refuses;
}

boolean memory_is_cut(void)
{
    return cut;
}

void memory_cut(uint32 often)
{
    times = often;
}

uint64 memory_jobs(void)
{
    return jobs;
}
