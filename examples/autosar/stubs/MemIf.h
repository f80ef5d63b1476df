/* What MemIf declares of a device of bytes (Ea over an EEPROM or FRAM), and of flash sectors. */
#ifndef MEMIF_H
#define MEMIF_H

#include "Std_Types.h"

typedef enum {
    MEMIF_JOB_OK,
    MEMIF_JOB_FAILED,
    MEMIF_JOB_PENDING,
    MEMIF_JOB_CANCELED,
    MEMIF_BLOCK_INCONSISTENT,
    MEMIF_BLOCK_INVALID
} MemIf_JobResultType;

/* The Eep driver: bytes at an address. */
Std_ReturnType Eep_Read(uint32 EepromAddress, uint8 *DataBufferPtr, uint32 Length);
Std_ReturnType Eep_Write(uint32 EepromAddress, const uint8 *DataBufferPtr, uint32 Length);
MemIf_JobResultType Eep_GetJobResult(void);

#endif
