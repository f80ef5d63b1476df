/* A simulated memory below the freshness manager: jobs that take cycles, fail now and then, and are cut. Each file
 * memory_{nvm,eep,fls}.c is a driver and its device; memory_power.c has what they share. */
#ifndef MEMORY_H
#define MEMORY_H

#include "Std_Types.h"

/* ---- What the test asks ---- */

/* A number below the limit, at random. */
uint32 below(uint32 limit);

/* The power comes back: a job that was cut leaves what such a memory leaves. */
void memory_power_up(void);

/* A cycle passes. A job goes on; the power may go within it. */
void memory_tick(void);

/* The power has gone. */
boolean memory_is_cut(void);

/* How often the power goes and jobs fail, beside what is usual: 0 is never, 1 as usual, and 60 very often. */
void memory_cut(uint32 times);

/* How many jobs were done. */
uint64 memory_jobs(void);

/* A job has failed since the power came back. */
boolean memory_has_failed(void);

/* From now on no job may begin, or they may again. */
void memory_refuse(boolean refuses);

/* The block has this length, though the software has another one. Says whether this memory has a block. */
boolean memory_shorten(uint32 length);

/* ---- What a driver asks of memory_power.c ---- */

/* Begins a job of this kind, above 0, that takes fewer than so many cycles after the first. No other one may run. */
Std_ReturnType memory_begin(uint32 kind, uint32 cycles);

/* These bytes are what the job that was begun writes: they have to stay until it ends. */
void memory_writes(const uint8 *bytes, uint32 length);

/* The kind of the job that runs, or 0. */
uint32 memory_job(void);

/* ---- What memory_power.c asks of a driver ---- */

/* The power goes once in so many cycles of this job, or never if it is 0. The job fails once in so many. */
uint32 device_cuts(uint32 kind);
uint32 device_fails(uint32 kind);

/* The power comes back: RAM is lost. */
void device_power_up(void);

/* The job did what it is for; or the power went within it; or it failed. */
void device_does(uint32 kind);
void device_is_cut(uint32 kind);
void device_failed(uint32 kind);

#endif
