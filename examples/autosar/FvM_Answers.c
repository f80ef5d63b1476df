/* Questions and answers of a receiver that fell behind or rejoins, and of a sender that was replaced. */
#include "FvM_Rathonsi.h"

#include <string.h>

#include "FvM_Cfg.h"
#include "FvM_Core.h"

/* The question that this unit asked last for a route. */
typedef struct {
    RathonsiQuestion question;
    /* So many cycles it lives on. 0: there is none. */
    uint16 left;
    /* So many wrong answers came to it. */
    uint8 wrong;
    /* Its answer was taken, and the bound of the next PDU isn't written yet. */
    boolean taken;
} FvM_AskedType;
static FvM_AskedType FvM_Questions[FVM_ROUTES];
#define FVM_WRONG 8u

void FvM_ForgetQuestions(void)
{
    (void)memset(FvM_Questions, 0, sizeof FvM_Questions);
}

void FvM_AgeQuestions(void)
{
    for (uint32 i = 0u; i < FVM_ROUTES; i++) {
        if (FvM_Questions[i].left > 0u) {
            FvM_Questions[i].left--;
        }
    }
}

boolean FvM_IsBehind(uint16 freshnessId)
{
    const uint32 i = FvM_RouteOf(freshnessId, RATHONSI_RECEIVES);
    return ((i < FVM_ROUTES) && (FvM_Missed[i] == FVM_MISSES)) ? 1u : 0u;
}

/* The question of one unit to another one. */
static RathonsiQuestion question_of(uint32 asker, uint32 answerer, const uint8 nonce[16])
{
    RathonsiQuestion question;
    question.asker = asker;
    question.answerer = answerer;
    (void)memcpy(question.nonce, nonce, RATHONSI_NONCE);
    return question;
}

#if (defined FVM_ANSWER_JOB) || (defined FVM_NONCE_JOB)
/* What a job of Csm that made so many bytes answered. */
static Std_ReturnType of_csm(Std_ReturnType answer, uint32 length)
{
    Std_ReturnType result = E_NOT_OK;
    if (answer == CRYPTO_E_BUSY) {
        result = E_BUSY;
    } else if ((answer == E_OK) && (length == 16u)) {
        result = E_OK;
    } else {
        /* E_NOT_OK */
    }
    return result;
}
#endif

/* The MAC of an answer's input: by the key in the slot of the route, or by a job of Csm. */
static Std_ReturnType answer_mac(uint32 i, const RathonsiAnswerInput *input, uint8 mac[16])
{
    const uint32 bytes = (uint32)sizeof input->bytes;
#ifdef FVM_ANSWER_JOB
    uint32 length = 16u;
    const Std_ReturnType answer =
        Csm_MacGenerate(FVM_ANSWER_JOB, CRYPTO_OPERATIONMODE_SINGLECALL, input->bytes, bytes, mac, &length);
    (void)i;
    return of_csm(answer, length);
#else
    const int32_t status = FvM_MakeMac(FvM_Routes[i].slot, input->bytes, bytes, mac);
    return (status == RATHONSI_BUSY) ? E_BUSY : FvM_AnswerOf(status);
#endif
}

Std_ReturnType FvM_MakeAnswer(uint16 freshnessId, uint8 direction, uint32 asker, const uint8 nonce[16],
                              uint8 answer[24])
{
    Std_ReturnType result = E_NOT_OK;
    const uint32 i = FvM_RouteOf(freshnessId, direction);
    if (i < FVM_ROUTES) {
        const RathonsiQuestion question = question_of(asker, FVM_NAME, nonce);
        RathonsiAnswerInput input;
        uint8 mac[16];
        FVM_ENTER();
        result = FvM_AnswerDown();
        if (FvM_State == FVM_UP) {
            result = FvM_AnswerOf(rathonsi_sync_answer_input(&FvM_Route[i], FvM_Image, FvM_Size, &question, &input));
        }
        FVM_LEAVE();
        if (result == E_OK) {
            result = answer_mac(i, &input, mac);
        }
        if (result == E_OK) {
            result = FvM_AnswerOf(rathonsi_sync_answer_mac(&input, mac, answer));
        }
    }
    return result;
}

/* Draws a nonce by a job of Csm, which may take long. If there is none, nothing is drawn. */
static Std_ReturnType draw_nonce(uint8 nonce[16])
{
#ifdef FVM_NONCE_JOB
    uint32 length = RATHONSI_NONCE;
    const Std_ReturnType answer = Csm_RandomGenerate(FVM_NONCE_JOB, nonce, &length);
    return of_csm(answer, length);
#else
    (void)memset(nonce, 0, RATHONSI_NONCE);
    return E_OK;
#endif
}

/* If it wasn't drawn: makes it of the count of a route, whose bound is reserved ahead as that of PDUs. */
static Std_ReturnType count_nonce(uint8 nonce[16])
{
#ifdef FVM_NONCE_JOB
    (void)nonce;
    return E_OK;
#elif defined FVM_NONCE_ID
    Std_ReturnType result = E_NOT_OK;
    const uint32 i = FvM_RouteOf(FVM_NONCE_ID, RATHONSI_SENDS);
    if (i < FVM_ROUTES) {
        const int32_t status = rathonsi_sync_nonce(&FvM_Route[i], FvM_Image, FvM_Size, FVM_NAME, nonce);
        FvM_Asked[i] = 1u;
        if (status == RATHONSI_RESERVE) {
            FvM_Want(i, FvM_Route[i].counter + 1u);
        }
        result = FvM_AnswerOf(status);
    }
    return result;
#else
    (void)nonce;
    return E_NOT_OK;
#endif
}

Std_ReturnType FvM_MakeQuestion(uint16 freshnessId, uint8 direction, uint32 answerer, uint8 nonce[16])
{
    Std_ReturnType result = E_NOT_OK;
    const uint32 i = FvM_RouteOf(freshnessId, direction);
    if ((i < FVM_ROUTES) && (answerer != FVM_NAME)) {
        uint8 made[RATHONSI_NONCE];
        result = draw_nonce(made);
        FVM_ENTER();
        if (FvM_State != FVM_UP) {
            result = FvM_AnswerDown();
        } else if (result == E_OK) {
            result = count_nonce(made);
        } else {
            /* The job is busy, or it failed. */
        }
        if (result == E_OK) {
            FvM_Questions[i].question = question_of(FVM_NAME, answerer, made);
            FvM_Questions[i].left = FVM_QUESTION_CYCLES;
            FvM_Questions[i].wrong = 0u;
            FvM_Questions[i].taken = 0u;
            (void)memcpy(nonce, made, RATHONSI_NONCE);
        }
        FVM_LEAVE();
    }
    return result;
}

/* What a call on an answer says before it looks at the answer: E_OK if all routes are open, this unit asked, and no
 * verdict is out on a candidate of the route. */
static Std_ReturnType answer_ready(uint32 i)
{
    Std_ReturnType result = E_OK;
    if (FvM_State != FVM_UP) {
        result = FvM_AnswerDown();
    } else if (FvM_Questions[i].left == 0u) {
        result = E_NOT_OK;
    } else if (FvM_Candidate[i] != 0u) {
        result = E_BUSY;
    } else {
        /* It is ready. */
    }
    return result;
}

/* The answer was taken: the question ends once a bound covers the next PDU, so that this one needn't wait. */
static Std_ReturnType end_question(uint32 i)
{
    Std_ReturnType result = E_OK;
    RathonsiRouteState told;
    const int32_t status = rathonsi_route_state(&FvM_Route[i], FvM_Image, FvM_Size, &told);
    FvM_Questions[i].taken = 1u;
    FvM_Questions[i].left = 0u;
    if (status != RATHONSI_OK) {
        FvM_StopCell(status, FvM_Routes[i].cell);
        result = E_NOT_OK;
    } else if ((told.bound == told.counter) && (told.counter < UINT64_MAX)
               && (FvM_Fits(told.counter + 1u, FvM_Routes[i].bits) != 0u)) {
        FvM_Want(i, told.counter + 1u);
        FvM_Questions[i].left = FVM_QUESTION_CYCLES;
        result = E_BUSY;
    } else {
        /* It needn't, or it has no next PDU. */
    }
    return result;
}

/* Takes an answer with this MAC for a route, or rejoins by it. */
static Std_ReturnType take_answer(uint32 i, boolean rejoins, const RathonsiQuestion *question, const uint8 answer[24],
                                  const RathonsiAnswerInput *input, const uint8 mac[16])
{
    RathonsiRoute *const route = &FvM_Route[i];
    FvM_AskedType *const asked = &FvM_Questions[i];
    const RathonsiVerdict verdict =
        (rejoins != 0u) ? rathonsi_sync_rejoin_mac(route, FvM_Image, FvM_Size, question, answer, input, mac)
                        : rathonsi_sync_take_mac(route, FvM_Image, FvM_Size, question, answer, input, mac);
    Std_ReturnType result = FvM_AnswerOf(verdict.status);
    if (verdict.status == RATHONSI_OK) {
        FvM_Missed[i] = 0u;
        result = end_question(i);
    } else if (verdict.status == RATHONSI_RESERVE) {
        FvM_Want(i, verdict.freshness);
        asked->left = FVM_QUESTION_CYCLES;
    } else if (verdict.status == RATHONSI_FRESHNESS_FAILURE) {
        /* It is the answer, and the route isn't behind. */
        FvM_Missed[i] = 0u;
        asked->left = 0u;
    } else {
        asked->wrong++;
        if (asked->wrong == FVM_WRONG) {
            asked->left = 0u;
        }
    }
    return result;
}

/* The answer to the question that this unit asked for a route. */
static Std_ReturnType take_of(uint32 i, boolean rejoins, const uint8 answer[24])
{
    RathonsiQuestion question;
    RathonsiAnswerInput input;
    uint8 mac[16];
    Std_ReturnType result;
    boolean waits;
    FVM_ENTER();
    question = FvM_Questions[i].question;
    waits = FvM_Questions[i].taken;
    result = answer_ready(i);
    if ((result == E_OK) && (waits != 0u)) {
        result = end_question(i);
    } else if (result == E_OK) {
        result = FvM_AnswerOf(rathonsi_sync_take_input(&FvM_Route[i], FvM_Image, FvM_Size, &question, answer, &input));
    } else {
        /* Nothing is taken. */
    }
    FVM_LEAVE();
    if ((result == E_OK) && (waits == 0u)) {
        result = answer_mac(i, &input, mac);
        FVM_ENTER();
        if (result == E_OK) {
            result = answer_ready(i);
        }
        /* All may have begun again meanwhile. */
        if (memcmp(question.nonce, FvM_Questions[i].question.nonce, RATHONSI_NONCE) != 0) {
            result = E_NOT_OK;
        }
        if (result == E_OK) {
            result = take_answer(i, rejoins, &question, answer, &input, mac);
        }
        FVM_LEAVE();
    }
    return result;
}

Std_ReturnType FvM_TakeAnswer(uint16 freshnessId, uint8 direction, const uint8 answer[24])
{
    const uint32 i = FvM_RouteOf(freshnessId, direction);
    return (i < FVM_ROUTES) ? take_of(i, 0u, answer) : E_NOT_OK;
}

Std_ReturnType FvM_Rejoin(uint16 freshnessId, const uint8 answer[24])
{
    const uint32 i = FvM_RouteOf(freshnessId, RATHONSI_RECEIVES);
    return (i < FVM_ROUTES) ? take_of(i, 1u, answer) : E_NOT_OK;
}
