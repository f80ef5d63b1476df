/* The keys of both units: those of PDUs by the Crypto driver, and that of answers, in its slot or in an HSM. */
#include <string.h>

#include "Crypto.h"
#include "FvM_Cfg.h"
#include "memory.h"
#include "play.h"

static const uint8 EMPTY_KEY[16] = {255u, 255u, 255u, 255u, 255u, 255u, 255u, 255u,
                                    255u, 255u, 255u, 255u, 255u, 255u, 255u, 255u};
uint8 key[16];

/* A new key for a slot. The other unit gets it, too. */
static RathonsiUpdate new_key(uint8 slot, uint32 counter, RathonsiRequest *request, RathonsiReply *reply)
{
    RathonsiUpdate update;
    memset(&update, 0, sizeof update);
    memcpy(update.uid, FvM_Uid, 15u);
    update.id = slot;
    update.auth = slot;
    update.counter = counter;
    update.flags = RATHONSI_KEY_USAGE;
    for (uint32 i = 0u; i < 16u; i++)
        update.key[i] = (uint8)below(256u);
    right(rathonsi_she_make_update(counter == 1u ? EMPTY_KEY : key, 16u, &update, request), "no update");
    right(rathonsi_she_confirm(&update, FvM_Uid, reply), "no proof");
    right(rathonsi_slot_load(FvM_Uid, 0u, request, other_image, sizeof other_image, &other_plan), "the other unit has no key");
    other_done();
    return update;
}

#ifdef FVM_ANSWER_JOB
/* The key for answers, in an HSM. */
static uint8 hardware_key[16];

void (*within_csm)(void);
boolean csm_is_short;

Std_ReturnType Csm_MacGenerate(uint32 jobId, Crypto_OperationModeType mode, const uint8 *dataPtr, uint32 dataLength,
                               uint8 *macPtr, uint32 *macLengthPtr)
{
    void (*const happens)(void) = within_csm;
    if (jobId != FVM_ANSWER_JOB || mode != CRYPTO_OPERATIONMODE_SINGLECALL || *macLengthPtr != 16u)
        fail("Csm is asked wrongly, job", jobId);
    if (happens == NULL && below(8u) == 0u)
        return CRYPTO_E_BUSY;
    right(rathonsi_cmac(hardware_key, 16u, dataPtr, dataLength, macPtr), "no CMAC of Csm");
    if (csm_is_short)
        *macLengthPtr = 8u;
    within_csm = NULL;
    if (happens != NULL)
        happens();
    return E_OK;
}
#endif

#ifdef FVM_NONCE_JOB
Std_ReturnType Csm_RandomGenerate(uint32 jobId, uint8 *resultPtr, uint32 *resultLengthPtr)
{
    if (jobId != FVM_NONCE_JOB || *resultLengthPtr != RATHONSI_NONCE)
        fail("Csm is asked wrongly, job", jobId);
    if (below(8u) == 0u)
        return CRYPTO_E_BUSY;
    for (uint32 i = 0u; i < RATHONSI_NONCE; i++)
        resultPtr[i] = (uint8)below(256u);
    return E_OK;
}
#endif

/* The Crypto driver doesn't reach the slot of the key for answers, though a key ID names it, nor a key ID that isn't. */
static void reach_answer_key(void)
{
    static const Crypto_PrimitiveInfoType info = {CRYPTO_MACGENERATE};
    static const Crypto_JobPrimitiveInfoType generate = {&info};
    uint8 bytes[64] = {0}, proof[48];
    bytes[15] = (uint8)((FVM_ANSWER_SLOT << 4u) | FVM_ANSWER_SLOT);
    for (uint32 keyId = FVM_KEYS - 1u; keyId <= FVM_KEYS; keyId++) {
        uint32 room = 16u;
        Crypto_JobType job = {0};
        job.jobPrimitiveInfo = &generate;
        job.cryptoKeyId = keyId;
        job.jobPrimitiveInputOutput.inputPtr = bytes;
        job.jobPrimitiveInputOutput.outputPtr = proof;
        job.jobPrimitiveInputOutput.outputLengthPtr = &room;
        job.jobPrimitiveInputOutput.mode = CRYPTO_OPERATIONMODE_SINGLECALL;
        if (Crypto_ProcessJob(0u, &job) != E_NOT_OK)
            fail("the Crypto driver has the key for answers, key ID", keyId);
        room = sizeof proof;
        if (Crypto_KeyElementSet(keyId, CRYPTO_KE_MAC_KEY, bytes, sizeof bytes) != E_NOT_OK
            || Crypto_KeyElementGet(keyId, CRYPTO_KE_MAC_PROOF, proof, &room) != E_NOT_OK)
            fail("the Crypto driver takes a key for answers, key ID", keyId);
    }
}

/* A job of the driver that fails, for a MAC of this service, with this input, mode and room. */
static void refuses(Crypto_ServiceInfoType service, Crypto_OperationModeType mode, uint32 bits, uint32 room)
{
    const Crypto_PrimitiveInfoType info = {service};
    const Crypto_JobPrimitiveInfoType told = {&info};
    uint8 message[4] = {0}, mac[32] = {0};
    Crypto_VerifyResultType result = CRYPTO_E_VER_NOT_OK;
    Crypto_JobType job = {0};
    job.jobPrimitiveInfo = &told;
    job.jobPrimitiveInputOutput.inputPtr = message;
    job.jobPrimitiveInputOutput.secondaryInputPtr = mac;
    job.jobPrimitiveInputOutput.secondaryInputLength = bits;
    job.jobPrimitiveInputOutput.verifyPtr = &result;
    job.jobPrimitiveInputOutput.outputPtr = mac;
    job.jobPrimitiveInputOutput.outputLengthPtr = &room;
    job.jobPrimitiveInputOutput.mode = mode;
    if (Crypto_ProcessJob(0u, &job) != E_NOT_OK || result == CRYPTO_E_VER_OK)
        fail("a job with a wrong length is done, service", service);
}

/* What the driver says of a job, a key element and a proof with a wrong length, or of another kind. */
static void wrong_jobs(void)
{
    uint8 bytes[65] = {0};
    uint32 room = 47u;
    refuses(CRYPTO_MACVERIFY, CRYPTO_OPERATIONMODE_SINGLECALL, 0u, 16u);
    refuses(CRYPTO_MACVERIFY, CRYPTO_OPERATIONMODE_SINGLECALL, 129u, 16u);
    refuses(CRYPTO_MACGENERATE, CRYPTO_OPERATIONMODE_SINGLECALL, 24u, 0u);
    refuses(CRYPTO_HASH, CRYPTO_OPERATIONMODE_SINGLECALL, 24u, 16u);
    refuses(CRYPTO_MACGENERATE, (Crypto_OperationModeType)1, 24u, 16u);
    bytes[15] = (uint8)(FvM_SlotOfKey[0] << 4u);
    for (uint32 length = 63u; length <= 65u; length += 2u)
        if (Crypto_KeyElementSet(0u, CRYPTO_KE_MAC_KEY, bytes, length) != CRYPTO_E_KEY_SIZE_MISMATCH)
            fail("messages of a wrong length are taken, length", length);
    if (Crypto_KeyElementGet(0u, CRYPTO_KE_MAC_PROOF, bytes, &room) != CRYPTO_E_KEY_SIZE_MISMATCH)
        fail("a proof has too little room, length", room);
    room = 48u;
    if (Crypto_KeyElementSet(0u, CRYPTO_KE_MAC_PROOF, bytes, 64u) != E_NOT_OK
        || Crypto_KeyElementGet(0u, CRYPTO_KE_MAC_KEY, bytes, &room) != E_NOT_OK)
        fail("a key element of another kind is served, key ID", 0u);
}

/* A MAC has 16 bytes, though the caller has room for more. */
static void room_for_more(void)
{
    static const Crypto_PrimitiveInfoType info = {CRYPTO_MACGENERATE};
    static const Crypto_JobPrimitiveInfoType generate = {&info};
    uint8 message[4] = {0}, mac[32], wanted[16];
    uint32 room = sizeof mac;
    Crypto_JobType job = {0};
    memset(mac, 0x5a, sizeof mac);
    job.jobPrimitiveInfo = &generate;
    job.jobPrimitiveInputOutput.inputPtr = message;
    job.jobPrimitiveInputOutput.inputLength = sizeof message;
    job.jobPrimitiveInputOutput.outputPtr = mac;
    job.jobPrimitiveInputOutput.outputLengthPtr = &room;
    job.jobPrimitiveInputOutput.mode = CRYPTO_OPERATIONMODE_SINGLECALL;
    right(rathonsi_cmac(key, 16u, message, sizeof message, wanted), "no CMAC");
    if (Crypto_ProcessJob(0u, &job) != E_OK || room != 16u || memcmp(mac, wanted, 16u) != 0 || mac[16] != 0x5au)
        fail("a MAC has another length, bytes", room);
}

/* Loads the key for answers, which the Crypto driver can't reach. */
void load_answer_key(void)
{
    RathonsiRequest request;
    RathonsiReply wanted;
    const RathonsiUpdate update = new_key(FVM_ANSWER_SLOT, 1u, &request, &wanted);
#ifdef FVM_ANSWER_JOB
    memcpy(hardware_key, update.key, sizeof hardware_key);
#else
    RathonsiReply reply;
    (void)update;
    right(FvM_LoadKey(&request), "no key for answers");
    while (FvM_ConfirmKey(request.m1, &reply) == RATHONSI_BUSY)
        main_function();
    if (memcmp(reply.m4, wanted.m4, 32u) != 0)
        fail("the proof is another, slot", FVM_ANSWER_SLOT);
#endif
    reach_answer_key();
}

/* Loads a key into the slot of a key ID by its M1 to M3, and compares the proof. */
void load_key(uint32 keyId, uint32 counter)
{
    RathonsiRequest request;
    RathonsiReply reply;
    uint8 messages[64], proof[48];
    uint32 room = sizeof proof;
    const RathonsiUpdate update = new_key(FvM_SlotOfKey[keyId], counter, &request, &reply);
    memcpy(messages, request.m1, 16u);
    memcpy(&messages[16], request.m2, 32u);
    memcpy(&messages[48], request.m3, 16u);
    Std_ReturnType answer;
    while ((answer = Crypto_KeyElementSet(keyId, CRYPTO_KE_MAC_KEY, messages, 64u)) == CRYPTO_E_BUSY)
        main_function();
    if (answer != E_OK)
        fail("the key isn't taken, answer", answer);
    messages[15] = (uint8)((FvM_SlotOfKey[1u] << 4u) | FvM_SlotOfKey[1u]);
    if (Crypto_KeyElementSet(1u, CRYPTO_KE_MAC_KEY, messages, 64u) != CRYPTO_E_BUSY)
        fail("two keys are taken at once, counter", counter);
    messages[15] = request.m1[15];
    while ((answer = Crypto_KeyElementGet(keyId, CRYPTO_KE_MAC_PROOF, proof, &room)) == CRYPTO_E_BUSY)
        main_function();
    if (answer != E_OK || memcmp(proof, reply.m4, 32u) != 0 || memcmp(&proof[32], reply.m5, 16u) != 0)
        fail("the proof is another, answer", answer);
    messages[63] ^= 1u;
    if (Crypto_KeyElementSet(keyId, CRYPTO_KE_MAC_KEY, messages, 64u) != CRYPTO_E_KEY_WRITE_FAIL)
        fail("an altered update is taken, counter", counter);
    memcpy(key, update.key, 16u);
    if (keyId == 0u) {
        room_for_more();
        wrong_jobs();
    }
}
