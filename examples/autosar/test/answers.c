/* Questions and answers of the two units: of a receiver that fell behind or rejoins, of a sender that was replaced, and of an
 * attacker who comes first. */
#include <string.h>

#include "memory.h"
#include "play.h"

/* The name of the other unit; how many nonces are kept; and how many wrong answers end a question. */
enum { OTHER = 2, NONCES = 256, WRONG = 8, PATIENCE = 200 };

static uint8 old_answer[FVM_ROUTES][RATHONSI_ANSWER];
static uint8 nonces[NONCES][RATHONSI_NONCE];
static uint64 asked, taken;

uint64 questions_asked(void)
{
    return asked;
}

uint64 answers_taken(void)
{
    return taken;
}

/* ---- The other unit asks ------------------------------------------------------------------------------------------- */

/* The unit makes an answer, and is asked again while it is busy. */
static Std_ReturnType make_answer(uint32 route, uint8 direction, uint32 asker, const uint8 *nonce, uint8 *answer)
{
    Std_ReturnType result = E_BUSY;
    for (uint32 i = 0u; i < 100u && result == E_BUSY; i++)
        result = FvM_MakeAnswer(FvM_Routes[route].freshnessId, direction, asker, nonce, answer);
    return result;
}

/* All freshness that was given is at most what the unit's answer tells, and all later freshness is above it. */
void answer_other(uint32 route)
{
    uint8 answer[RATHONSI_ANSWER];
    RathonsiQuestion question = {.asker = OTHER, .answerer = FVM_NAME};
    for (uint32 i = 0u; i < RATHONSI_NONCE; i++)
        question.nonce[i] = (uint8)below(256u);
    if (make_answer(route, RATHONSI_SENDS, OTHER, question.nonce, answer) != E_OK)
        fail("no answer is made, ID", FvM_Routes[route].freshnessId);
    RathonsiVerdict verdict = rathonsi_sync_take(&other[route], other_image, sizeof other_image, &question, answer);
    if (verdict.status == RATHONSI_RESERVE) {
        right(rathonsi_route_advance(&other[route], verdict.freshness, other_image, sizeof other_image, &other_plan), "no advance");
        other_done();
        verdict = rathonsi_sync_take(&other[route], other_image, sizeof other_image, &question, answer);
    }
    if (verdict.status == RATHONSI_OK) {
        if (verdict.freshness < given[route])
            fail("an answer tells too little", verdict.freshness);
        given[route] = verdict.freshness;
    } else if (verdict.status != RATHONSI_FRESHNESS_FAILURE) {
        fail("an answer isn't taken, status", (uint64)verdict.status);
    }
}

void no_answers_without_key(void)
{
#ifndef FVM_ANSWER_JOB
    uint8 nonce[RATHONSI_NONCE] = {0}, answer[RATHONSI_ANSWER];
    if (make_answer(SPEED, RATHONSI_SENDS, OTHER, nonce, answer) != E_NOT_OK)
        fail("an answer is made without a key, ID", FvM_Routes[SPEED].freshnessId);
#ifndef FVM_NONCE_JOB
    if (FvM_MakeQuestion(FvM_Routes[SPEED].freshnessId, RATHONSI_SENDS, OTHER, nonce) != E_NOT_OK)
        fail("a question is made without a key, ID", FvM_Routes[SPEED].freshnessId);
#endif
#endif
}

/* ---- The unit asks ------------------------------------------------------------------------------------------------- */

void make_question(uint32 route, RathonsiQuestion *question)
{
    const uint16 id = FvM_Routes[route].freshnessId;
    Std_ReturnType result = E_BUSY;
    question->asker = FVM_NAME;
    question->answerer = OTHER;
    if (FvM_MakeQuestion(id, FvM_Routes[route].direction, FVM_NAME, question->nonce) != E_NOT_OK)
        fail("a unit asks itself, ID", id);
    for (uint32 i = 0u; i < PATIENCE && result == E_BUSY; i++) {
        result = FvM_MakeQuestion(id, FvM_Routes[route].direction, OTHER, question->nonce);
        if (result == E_BUSY)
            run(1u);
    }
    if (result != E_OK)
        fail("no question is made, ID", id);
    for (uint32 i = 0u; i < NONCES; i++)
        if (memcmp(nonces[i], question->nonce, RATHONSI_NONCE) == 0)
            fail("a nonce comes twice, questions", asked);
    memcpy(nonces[asked % NONCES], question->nonce, RATHONSI_NONCE);
    asked++;
}

/* The unit takes an answer of the other one, or rejoins by it, and asks again while it is busy. */
static Std_ReturnType take_answer(uint32 route, boolean rejoins, const uint8 *answer)
{
    const uint16 id = FvM_Routes[route].freshnessId;
    const uint64 before = disturbances();
    Std_ReturnType result = E_BUSY;
    for (uint32 i = 0u; i < PATIENCE && result == E_BUSY; i++) {
        result = rejoins ? FvM_Rejoin(id, answer) : FvM_TakeAnswer(id, FvM_Routes[route].direction, answer);
        /* a question of another life is none */
        if (before != disturbances() && result != E_NOT_OK)
            fail("an answer to another life is taken, ID", id);
        if (result == E_BUSY)
            run(1u);
    }
    return result;
}

/* The attacker gives the nonce of the unit to the unit itself, in the name of each of the two. */
static void reflect(uint32 route, boolean rejoins, const uint8 *nonce)
{
    uint8 answer[RATHONSI_ANSWER];
    for (uint8 direction = RATHONSI_SENDS; direction <= RATHONSI_RECEIVES; direction++) {
        if (make_answer(route, direction, FVM_NAME, nonce, answer) != E_NOT_OK)
            fail("a unit answers itself, ID", FvM_Routes[route].freshnessId);
        if (make_answer(route, direction, OTHER, nonce, answer) == E_OK && take_answer(route, rejoins, answer) != E_NOT_OK)
            fail("a unit takes its own answer, ID", FvM_Routes[route].freshnessId);
    }
}

static void answer_of(uint32 route, const RathonsiQuestion *question, uint8 *answer)
{
    right(rathonsi_sync_answer(&other[route], other_image, sizeof other_image, question, answer), "the other unit answers nothing");
}

/* The unit asks for a route that is behind, or that rejoins. The attacker comes first: he gives the nonce to the unit itself,
 * and comes with an answer of before, and with one that is altered. After an answer that was taken, the next PDU is accepted at
 * once, unless the power goes; and the answer isn't taken again. */
void ask(uint32 route, boolean rejoins)
{
    uint8 answer[RATHONSI_ANSWER], forged[RATHONSI_ANSWER];
    RathonsiQuestion question;
    make_question(route, &question);
    const uint64 since = disturbances();
    answer_of(route, &question, answer);
    memcpy(forged, answer, sizeof forged);
    forged[below(RATHONSI_ANSWER)] ^= (uint8)(1u << below(8u));
    reflect(route, rejoins, question.nonce);
    if (take_answer(route, rejoins, old_answer[route]) != E_NOT_OK || take_answer(route, rejoins, forged) != E_NOT_OK)
        fail("a forged answer is taken, ID", FvM_Routes[route].freshnessId);
    memcpy(old_answer[route], answer, sizeof answer);
    const Std_ReturnType result = take_answer(route, rejoins, answer);
    if (since != disturbances())
        return;
    if (result == E_BUSY || FvM_IsBehind(FvM_Routes[route].freshnessId))
        fail("an answer is never taken, ID", FvM_Routes[route].freshnessId);
    if (rejoins && result != E_OK)
        fail("a receiver doesn't rejoin, ID", FvM_Routes[route].freshnessId);
    if (take_answer(route, rejoins, answer) != E_NOT_OK)
        fail("an answer is taken twice, ID", FvM_Routes[route].freshnessId);
    if (result == E_OK) {
        taken++;
        if (!hear_at_once(route) && since == disturbances())
            fail("deaf after an answer, ID", FvM_Routes[route].freshnessId);
    }
}

/* The unit was put in place of one that sent more. It takes the receiver's answer, and sends above it. */
void replace_sender(void)
{
    RathonsiQuestion question;
    uint8 answer[RATHONSI_ANSWER];
    make_question(SPEED, &question);
    const uint64 before = disturbances();
    right(rathonsi_route_advance(&other[SPEED], other[SPEED].counter + 5000u, other_image, sizeof other_image, &other_plan), "no advance");
    other_done();
    other_power_up();
    answer_of(SPEED, &question, answer);
    if (take_answer(SPEED, 0u, answer) != E_OK && before == disturbances())
        fail("a sender doesn't take its receiver's answer, ID", FvM_Routes[SPEED].freshnessId);
    if (send(SPEED) && given[SPEED] <= other[SPEED].counter && before == disturbances())
        fail("a sender stays behind its receiver, ID", FvM_Routes[SPEED].freshnessId);
}

#ifdef FVM_ANSWER_JOB
static uint32 verified;

/* SecOC asks for the freshness of the next PDU of the other unit. */
static void begin_verifying(void)
{
    const uint8 truncated = (uint8)(other[verified].counter + 1u);
    uint8 freshness[8];
    uint32 length = 64u;
    if (SecOC_GetRxFreshness(FvM_Routes[verified].freshnessId, &truncated, 8u, 0u, freshness, &length) != E_OK)
        fail("no candidate, ID", FvM_Routes[verified].freshnessId);
}

/* While a job of Csm makes the MAC of an answer, all begins again, or SecOC begins to verify a PDU: the answer isn't
 * taken. Nor is one made of a part of a MAC. */
void within_a_job(uint32 route)
{
    const uint16 id = FvM_Routes[route].freshnessId;
    const SecOC_VerificationStatusType failure = {id, SECOC_VERIFICATIONFAILURE, id};
    uint8 answer[RATHONSI_ANSWER];
    RathonsiQuestion question;
    make_question(route, &question);
    answer_of(route, &question, answer);
    within_csm = power_up;
    if (FvM_Rejoin(id, answer) != E_NOT_OK || within_csm != NULL)
        fail("an answer to another life is taken, ID", id);
    for (uint32 i = 0u; i < 2u * FvM_Routes[route].reserve && !hear_at_once(route); i++) {}
    make_question(route, &question);
    answer_of(route, &question, answer);
    verified = route;
    within_csm = begin_verifying;
    if (FvM_Rejoin(id, answer) != E_BUSY || within_csm != NULL)
        fail("an answer is taken while SecOC verifies, ID", id);
    FvM_VerificationStatus(failure);
    csm_is_short = 1u;
    if (make_answer(route, RATHONSI_RECEIVES, OTHER, question.nonce, answer) != E_NOT_OK)
        fail("an answer is made of a part of a MAC, ID", id);
    csm_is_short = 0u;
}
#endif

/* An answer was found right, and its bound isn't written yet. A new question forgets it. The counters of both units are at
 * the bound of the unit. */
static void ask_anew(uint32 route)
{
    const uint16 id = FvM_Routes[route].freshnessId;
    uint8 answer[RATHONSI_ANSWER];
    RathonsiQuestion question;
    Std_ReturnType result = E_BUSY;
    make_question(route, &question);
    answer_of(route, &question, answer);
    /* Csm may be busy: then the answer isn't found right yet. */
    for (uint32 i = 0u; i < PATIENCE; i++)
        result = FvM_Rejoin(id, answer);
    if (result != E_BUSY)
        fail("an answer is taken before its bound, ID", id);
    make_question(route, &question);
    if (take_answer(route, 1u, answer) != E_NOT_OK)
        fail("an answer to another question is taken, ID", id);
}

#ifndef FVM_NONCE_JOB
/* A question waits for the bound of its nonce, which is written before those of routes that are due ahead. The memory
 * neither fails nor loses its power. */
static void nonce_waits(void)
{
    static const uint32 senders[3] = {ECHO, SHORT_ONE, SPEED};
    uint64 before[3];
    uint8 nonce[RATHONSI_NONCE];
    power_up();
    for (uint32 i = 0u; i < 3u; i++) {
        uint8 freshness[8];
        uint32 length = 64u;
        while (SecOC_GetTxFreshness(FvM_Routes[senders[i]].freshnessId, freshness, &length) == E_BUSY)
            run(1u);
        look_at_freshness(senders[i], freshness, length);
        run(100u);
    }
    for (uint32 i = 0u; i < 3u; i++) {
        take_all_but(senders[i], 1u);
        before[i] = bound_of(senders[i]);
    }
    const uint64 first = bound_of(NONCE);
    if (FvM_MakeQuestion(FvM_Routes[BRAKE].freshnessId, RATHONSI_RECEIVES, OTHER, nonce) != E_BUSY)
        fail("a nonce needs no bound, ID", FvM_Routes[NONCE].freshnessId);
    while (bound_of(NONCE) == first) {
        run(1u);
        for (uint32 i = 0u; i < 3u; i++)
            if (bound_of(senders[i]) != before[i])
                fail("a question isn't served first, ID", FvM_Routes[senders[i]].freshnessId);
    }
}
#endif

/* A right answer isn't taken before there is a question, after the cycles that one lives, after the eighth wrong answer, and in
 * the next life; but it is before, and after seven wrong ones. The memory neither fails nor loses its power. */
void questions_end(uint32 route)
{
    enum { NONE, OLD, ALMOST_OLD, WRONG_EIGHT, WRONG_SEVEN, RESET };
    ask_anew(route);
#ifndef FVM_NONCE_JOB
    nonce_waits();
#endif
    for (uint32 way = NONE; way <= RESET; way++) {
        uint8 answer[RATHONSI_ANSWER], forged[RATHONSI_ANSWER];
        RathonsiQuestion question = {.asker = FVM_NAME, .answerer = OTHER};
        power_up();
        if (way != NONE)
            make_question(route, &question);
        answer_of(route, &question, answer);
        memcpy(forged, answer, sizeof forged);
        forged[23] ^= 1u;
        if (way == OLD || way == ALMOST_OLD)
            run((way == OLD) ? FVM_QUESTION_CYCLES : FVM_QUESTION_CYCLES - 20u);
        for (uint32 i = 0u; (way == WRONG_EIGHT && i < WRONG) || (way == WRONG_SEVEN && i < WRONG - 1u); i++)
            (void)take_answer(route, 1u, forged);
        if (way == RESET)
            power_up();
        const Std_ReturnType wanted = (way == ALMOST_OLD || way == WRONG_SEVEN) ? E_OK : E_NOT_OK;
        if (take_answer(route, 1u, answer) != wanted)
            fail("a question ends wrongly, way", way);
    }
}
