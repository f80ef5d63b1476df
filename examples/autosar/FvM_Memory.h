/* What the freshness manager asks of the memory that keeps its store. Each file FvM_Memory_*.c is one. */
#ifndef FVM_MEMORY_H
#define FVM_MEMORY_H

#include "Std_Types.h"
#include "rathonsi_store.h"

typedef enum {
    FVM_MEMORY_DONE,
    FVM_MEMORY_BUSY,
    FVM_MEMORY_FAILED
} FvM_MemoryState;

/* length is that of the image: the store and the room after it. */

/* Whether a job runs that was begun before. Until it ends, nothing else is begun, and its bytes stay as they are. */
boolean FvM_Memory_IsBusy(void);

/* Begins to read the store into the image. What it reads is durable, and reads the same ever after. */
Std_ReturnType FvM_Memory_Read(uint8 *image, uint32 length);

/* Begins to write a plan. image is what the memory holds now. Both stay as they are until it is done. */
Std_ReturnType FvM_Memory_Write(const RathonsiPlan *plan, const uint8 *image, uint32 length);

/* For the production line alone: begins to write a whole store. Before the last job it is no store. */
Std_ReturnType FvM_Memory_Make(const uint8 *image, uint32 length);

/* What became of the last read or write. It is asked until it isn't FVM_MEMORY_BUSY, and goes on with
 * the next job of a plan meanwhile. FVM_MEMORY_DONE of a write: every byte of it is durable. */
FvM_MemoryState FvM_Memory_Poll(void);

#endif
