/* What the crypto service manager declares of jobs that make a MAC, and that draw random bytes. */
#ifndef CSM_H
#define CSM_H

#include "Crypto.h"

Std_ReturnType Csm_MacGenerate(uint32 jobId, Crypto_OperationModeType mode, const uint8 *dataPtr, uint32 dataLength,
                               uint8 *macPtr, uint32 *macLengthPtr);

Std_ReturnType Csm_RandomGenerate(uint32 jobId, uint8 *resultPtr, uint32 *resultLengthPtr);

#endif
