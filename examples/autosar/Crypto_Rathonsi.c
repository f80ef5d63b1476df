/* A Crypto driver over the key slots of the store: MACs for SecOC, and keys by M1, M2 and M3. It stands below
 * CryIf. A unit whose keys lie in an HSM leaves it out, and configures its vendor's driver. */
#include <string.h>

#include "Crypto.h"
#include "FvM_Cfg.h"
#include "FvM_Rathonsi.h"

#define M1_LENGTH 16u
#define MESSAGES_LENGTH 64u
#define PROOF_LENGTH 48u
#define MAC_LENGTH 16u
#define SLOTS 14u

/* M1 of the last update of each slot, whose proof may be asked for. */
static uint8 Crypto_M1[SLOTS][M1_LENGTH];

static Std_ReturnType result_of(int32_t status)
{
    Std_ReturnType answer;
    switch (status) {
    case RATHONSI_OK:
        answer = E_OK;
        break;
    case RATHONSI_BUSY:
        answer = CRYPTO_E_BUSY;
        break;
    case RATHONSI_KEY_EMPTY:
        answer = CRYPTO_E_KEY_EMPTY;
        break;
    case RATHONSI_KEY_INVALID:
        answer = CRYPTO_E_KEY_NOT_VALID;
        break;
    case RATHONSI_KEY_NOT_AVAILABLE:
        answer = CRYPTO_E_KEY_NOT_AVAILABLE;
        break;
    case RATHONSI_KEY_WRITE_PROTECTED:
    case RATHONSI_KEY_UPDATE_ERROR:
        answer = CRYPTO_E_KEY_WRITE_FAIL;
        break;
    default:
        answer = E_NOT_OK;
        break;
    }
    return answer;
}

/* The slot of a key, or SLOTS, which has none and makes no MAC. The slot of the key for answers is no key's. */
static uint8 slot_of(uint32 cryptoKeyId)
{
    const uint8 slot = (cryptoKeyId < FVM_KEYS) ? FvM_SlotOfKey[cryptoKeyId] : SLOTS;
    return ((slot < SLOTS) && (slot != FVM_ANSWER_SLOT)) ? slot : SLOTS;
}

/* Hands out as many bytes of a MAC as the buffer takes, and says how many. */
static Std_ReturnType make(const Crypto_JobPrimitiveInputOutputType *io, const uint8 mac[16])
{
    Std_ReturnType answer = E_NOT_OK;
    if (*io->outputLengthPtr >= 1u) {
        if (*io->outputLengthPtr > MAC_LENGTH) {
            *io->outputLengthPtr = MAC_LENGTH;
        }
        (void)memcpy(io->outputPtr, mac, *io->outputLengthPtr);
        answer = E_OK;
    }
    return answer;
}

/* Compares so many bits of a MAC. Which bit differs doesn't change how long it takes. */
static Std_ReturnType verify(const Crypto_JobPrimitiveInputOutputType *io, const uint8 mac[16])
{
    Std_ReturnType answer = E_NOT_OK;
    const uint32 bits = io->secondaryInputLength;
    if ((bits >= 1u) && (bits <= (8u * MAC_LENGTH))) {
        uint32 differs = 0u;
        for (uint32 i = 0u; i < ((bits + 7u) / 8u); i++) {
            const uint32 kept = ((bits - (8u * i)) >= 8u) ? 8u : (bits - (8u * i));
            const uint32 mask = (0xff00u >> kept) & 0xffu;
            differs |= ((uint32)io->secondaryInputPtr[i] ^ (uint32)mac[i]) & mask;
        }
        *io->verifyPtr = (differs == 0u) ? CRYPTO_E_VER_OK : CRYPTO_E_VER_NOT_OK;
        answer = E_OK;
    }
    return answer;
}

Std_ReturnType Crypto_ProcessJob(uint32 objectId, Crypto_JobType *job)
{
    Std_ReturnType answer = E_NOT_OK;
    const Crypto_JobPrimitiveInputOutputType *io = &job->jobPrimitiveInputOutput;
    const Crypto_ServiceInfoType service = job->jobPrimitiveInfo->primitiveInfo->service;
    (void)objectId;
    if ((io->mode == CRYPTO_OPERATIONMODE_SINGLECALL)
        && ((service == CRYPTO_MACGENERATE) || (service == CRYPTO_MACVERIFY))) {
        uint8 mac[MAC_LENGTH];
        answer = result_of(FvM_MakeMac(slot_of(job->cryptoKeyId), io->inputPtr, io->inputLength, mac));
        if (answer == E_OK) {
            answer = (service == CRYPTO_MACGENERATE) ? make(io, mac) : verify(io, mac);
        }
    }
    return answer;
}

/* Takes M1, M2 and M3, 64 bytes, as the key format of SHE has them. The key is in use once the proof is told. */
Std_ReturnType Crypto_KeyElementSet(uint32 cryptoKeyId, uint32 keyElementId, const uint8 *keyPtr, uint32 keyLength)
{
    Std_ReturnType answer = E_NOT_OK;
    const uint8 slot = slot_of(cryptoKeyId);
    if (keyLength != MESSAGES_LENGTH) {
        answer = CRYPTO_E_KEY_SIZE_MISMATCH;
    } else if ((keyElementId == CRYPTO_KE_MAC_KEY) && (slot < SLOTS) && ((keyPtr[15] >> 4u) == slot)) {
        RathonsiRequest request;
        (void)memcpy(request.m1, keyPtr, 16u);
        (void)memcpy(request.m2, &keyPtr[16], 32u);
        (void)memcpy(request.m3, &keyPtr[48], 16u);
        answer = result_of(FvM_LoadKey(&request));
        if (answer == E_OK) {
            (void)memcpy(Crypto_M1[slot], keyPtr, M1_LENGTH);
        }
    } else {
        /* E_NOT_OK */
    }
    return answer;
}

/* Tells M4 and M5, 48 bytes, once the key is durable. CRYPTO_E_BUSY before. */
Std_ReturnType Crypto_KeyElementGet(uint32 cryptoKeyId, uint32 keyElementId, uint8 *resultPtr,
                                    uint32 *resultLengthPtr)
{
    Std_ReturnType answer = E_NOT_OK;
    const uint8 slot = slot_of(cryptoKeyId);
    if (*resultLengthPtr < PROOF_LENGTH) {
        answer = CRYPTO_E_KEY_SIZE_MISMATCH;
    } else if ((keyElementId == CRYPTO_KE_MAC_PROOF) && (slot < SLOTS)) {
        RathonsiReply reply;
        answer = result_of(FvM_ConfirmKey(Crypto_M1[slot], &reply));
        if (answer == E_OK) {
            (void)memcpy(resultPtr, reply.m4, 32u);
            (void)memcpy(&resultPtr[32], reply.m5, 16u);
            *resultLengthPtr = PROOF_LENGTH;
        }
    } else {
        /* E_NOT_OK */
    }
    return answer;
}
