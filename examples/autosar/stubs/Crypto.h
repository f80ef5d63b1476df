/* What the crypto stack declares of a job for a MAC: the part of its structs that the shim reads. */
#ifndef CRYPTO_H
#define CRYPTO_H

#include "Std_Types.h"

#define CRYPTO_E_BUSY ((Std_ReturnType)0x02u)
#define CRYPTO_E_KEY_WRITE_FAIL ((Std_ReturnType)0x07u)
#define CRYPTO_E_KEY_NOT_AVAILABLE ((Std_ReturnType)0x08u)
#define CRYPTO_E_KEY_NOT_VALID ((Std_ReturnType)0x09u)
#define CRYPTO_E_KEY_SIZE_MISMATCH ((Std_ReturnType)0x0Au)
#define CRYPTO_E_KEY_EMPTY ((Std_ReturnType)0x0Du)

#define CRYPTO_KE_MAC_KEY 1u
#define CRYPTO_KE_MAC_PROOF 2u

typedef enum { CRYPTO_HASH = 0, CRYPTO_MACGENERATE = 1, CRYPTO_MACVERIFY = 2 } Crypto_ServiceInfoType;
typedef enum { CRYPTO_OPERATIONMODE_SINGLECALL = 7 } Crypto_OperationModeType;
typedef enum { CRYPTO_E_VER_OK = 0, CRYPTO_E_VER_NOT_OK = 1 } Crypto_VerifyResultType;

typedef struct {
    const uint8 *inputPtr;
    uint32 inputLength;
    const uint8 *secondaryInputPtr;
    uint32 secondaryInputLength;
    uint8 *outputPtr;
    uint32 *outputLengthPtr;
    Crypto_VerifyResultType *verifyPtr;
    Crypto_OperationModeType mode;
} Crypto_JobPrimitiveInputOutputType;

typedef struct {
    Crypto_ServiceInfoType service;
} Crypto_PrimitiveInfoType;

typedef struct {
    const Crypto_PrimitiveInfoType *primitiveInfo;
} Crypto_JobPrimitiveInfoType;

typedef struct {
    uint32 jobId;
    Crypto_JobPrimitiveInputOutputType jobPrimitiveInputOutput;
    const Crypto_JobPrimitiveInfoType *jobPrimitiveInfo;
    uint32 cryptoKeyId;
} Crypto_JobType;

Std_ReturnType Crypto_ProcessJob(uint32 objectId, Crypto_JobType *job);
Std_ReturnType Crypto_KeyElementSet(uint32 cryptoKeyId, uint32 keyElementId, const uint8 *keyPtr, uint32 keyLength);
Std_ReturnType Crypto_KeyElementGet(uint32 cryptoKeyId, uint32 keyElementId, uint8 *resultPtr,
                                    uint32 *resultLengthPtr);

#endif
