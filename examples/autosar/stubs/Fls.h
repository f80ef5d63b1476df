/* What the Fls driver declares. An address counts from the first byte of the flash that it is configured for. */
#ifndef FLS_H
#define FLS_H

#include "MemIf.h"

Std_ReturnType Fls_Erase(uint32 TargetAddress, uint32 Length);
Std_ReturnType Fls_Write(uint32 TargetAddress, const uint8 *SourceAddressPtr, uint32 Length);
Std_ReturnType Fls_Read(uint32 SourceAddress, uint8 *TargetAddressPtr, uint32 Length);
MemIf_JobResultType Fls_GetJobResult(void);

#endif
