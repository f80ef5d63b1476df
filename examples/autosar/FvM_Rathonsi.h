/* A freshness manager (FvM) for the SecOC module of any vendor, over the counters of Rathonsi. They survive a
 * power cut within any write. README.md says how it is configured.
 *
 * FvM_Rathonsi.c defines the callouts of SecOC: SecOC_GetTxFreshness, SecOC_GetTxFreshnessTruncData,
 * SecOC_GetRxFreshness, SecOC_SPduTxConfirmation; and the functions below.
 */
#ifndef FVM_RATHONSI_H
#define FVM_RATHONSI_H

#include "SecOC.h"
#include "rathonsi_store.h"

/* A freshness value ID of SecOC, and the route that counts it. */
typedef struct {
    /* SecOCFreshnessValueId. It is the Data ID of the route, so the cell belongs to it in all lives. */
    uint16 freshnessId;
    /* RATHONSI_SLOT_CELLS for the first cell, and so on. */
    uint16 cell;
    /* How far a write moves the bound, 1 to 128. */
    uint16 reserve;
    /* How far above its counter a receiver looks, 1 to 256, and at most 2^SecOCFreshnessValueTruncLength. */
    uint16 window;
    /* A write begins in the background if the bound covers fewer than so many values more. */
    uint16 least;
    /* RATHONSI_SENDS or RATHONSI_RECEIVES. */
    uint8 direction;
    /* SecOCFreshnessValueLength in bits, 1 to 64. */
    uint8 bits;
    /* The slot of the key for answers, 4 to 13. */
    uint8 slot;
} FvM_RouteConfig;

/* Whose counter a cell keeps, in all versions of the software. */
typedef struct {
    uint16 freshnessId;
    uint8 direction;
} FvM_CellConfig;

typedef enum {
    /* Before FvM_Init, or after a fault: no freshness is given. FvM_Init begins again. */
    FVM_STOPPED,
    /* The store is being read. SecOC gets E_BUSY. */
    FVM_READING,
    /* It gets the cells that it lacks. SecOC gets E_BUSY. */
    FVM_GROWING,
    /* The production line makes the store. */
    FVM_MAKING,
    FVM_UP
} FvM_StateType;

/* Begins at power-up, and whenever all is to begin again. The drivers below come before it; NvM_ReadAll has ended. */
void FvM_Init(void);

/* Cyclic: reads the store, makes it grow, plans and writes bounds. In each call a job of the memory ends, or one
 * begins, or both. */
void FvM_MainFunction(void);

FvM_StateType FvM_GetState(void);

/* The status of Rathonsi that stopped it, for a diagnostic event. RATHONSI_OK if none did. RATHONSI_FAILED:
 * the memory failed. RATHONSI_BUSY: a job of the memory still runs that was begun before FvM_Init; call it again.
 * RATHONSI_BAD_LENGTH: the store has more cells than FVM_ROOM. FVM_NO_VERDICT: see there. */
int32_t FvM_GetFault(void);

/* SecOC was given 250 candidates of a route in a row, and told no verdict of any, nor a success of the route in this
 * life. FvM_VerificationStatus isn't configured, or not for successes: replays would be accepted. A SecOC that is
 * right tells a verdict for each candidate. It tells none if it drops the PDU for a newer one, or asks again since Csm
 * is busy: then a verdict or a success comes before 250 of them. */
#define FVM_NO_VERDICT 100

/* The cell whose fault it is: below 14 a slot, else the route of that cell in FvM_Routes.c. The cell of the first line
 * of cells.txt is 14. FVM_NO_CELL: the fault is of none. */
#define FVM_NO_CELL 0xffffu
uint16 FvM_GetFaultCell(void);

/* Configured as SecOCVerificationStatusCallout, with all results propagated. It accepts the freshness that
 * SecOC_GetRxFreshness gave last for this ID if the authenticator was right. */
void FvM_VerificationStatus(SecOC_VerificationStatusType status);

/* A receiver that is more than its window behind accepts nothing, until it takes an answer of its sender. It makes a
 * question by FvM_MakeQuestion, and sends the nonce with its name, FVM_NAME, and that of the unit that it asks. This
 * one calls FvM_MakeAnswer, and sends the 24 bytes back. The receiver calls FvM_TakeAnswer with them. A sender that
 * was put in place of another one asks its receiver in the same way. A unit answers under its own name alone, so it
 * takes no answer of its own. Nonce and answer may travel in plain PDUs. The direction is that of this unit's route:
 * RATHONSI_SENDS or _RECEIVES.
 * A route has one question, its last one. It ends with its answer, after FVM_QUESTION_CYCLES of FvM_MainFunction, with
 * the eighth wrong answer, and when all begins again. */

/* Says whether three or more PDUs of this ID weren't verified in a row: time to ask. PDUs count, too, that SecOC didn't
 * verify, or that came while the store was read. */
boolean FvM_IsBehind(uint16 freshnessId);

/* Makes the question of a route to the unit with this name, and tells its nonce: that of no other question, or what
 * FVM_NONCE_JOB draws. Make none while FvM_TakeAnswer is E_BUSY: it would drop the question whose answer waits.
 * E_BUSY: the bound of the nonces is being written, the store is being read, or the crypto stack is busy; ask again.
 * E_NOT_OK: no route has this ID and direction, the answerer has the name of this unit, there is no key, or nonces
 * have no source: FVM_NONCE_ID or FVM_NONCE_JOB. The question of before stays then. */
Std_ReturnType FvM_MakeQuestion(uint16 freshnessId, uint8 direction, uint32 answerer, uint8 nonce[16]);

/* Answers a question that names this unit, FVM_NAME. Drop one that names another unit: the call can't see it.
 * E_BUSY: the store is being read, or the crypto stack is busy. E_NOT_OK: no route has this ID and direction, the asker
 * has the name of this unit, or there is no key. */
Std_ReturnType FvM_MakeAnswer(uint16 freshnessId, uint8 direction, uint32 asker, const uint8 nonce[16],
                              uint8 answer[24]);

/* E_OK: PDUs that were sent after the answer are accepted, within the window. The next PDU waits for no bound. One that
 * is further ahead may wait for one.
 * E_BUSY: a bound is being written, the store is being read, the crypto stack is busy, or SecOC verifies a PDU of this
 * ID; call again with the same bytes. Once they were found right and wait for a bound alone, they aren't looked at
 * again.
 * E_NOT_OK: it is no answer to the question of this route, there is no question, the route isn't behind, or there is
 * no key. */
Std_ReturnType FvM_TakeAnswer(uint16 freshnessId, uint8 direction, const uint8 answer[24]);

/* Back at once after a reset: a receiver begins at its bound, and refuses what it had reserved. This moves its counter
 * down to the sender's, if SecOC verified no PDU of this ID in this life yet. The question is one of this life: no
 * other is there. Never rejoin to a sender that was put in place of another one, or whose store was made anew, unless
 * the key of its PDUs is new, too: recorded PDUs would be accepted again. E_OK, E_BUSY: as for FvM_TakeAnswer.
 * E_NOT_OK: it is no answer to the question of this route, there is no question, there is no key, or the receiver
 * isn't behind, and SecOC verified a PDU. */
Std_ReturnType FvM_Rejoin(uint16 freshnessId, const uint8 answer[24]);

/* What Crypto_Rathonsi.c asks. RATHONSI_BUSY: the store is being read, or written; ask again. FVM_NOT_UP: FvM_GetState
 * is FVM_STOPPED or FVM_MAKING; only FvM_Init helps. A key is durable before FvM_ConfirmKey confirms it. */
#define FVM_NOT_UP 101
int32_t FvM_LoadKey(const RathonsiRequest *request);
int32_t FvM_ConfirmKey(const uint8 m1[16], RathonsiReply *reply);
int32_t FvM_MakeMac(uint8 slot, const uint8 *message, uint32 length, uint8 mac[16]);

/* For the production line alone: writes a store with a cell of bound 0 for each line of FvM_Cells. A later call takes
 * all counters back. FvM_MainFunction writes it. Then FvM_GetState is FVM_STOPPED, and FvM_GetFault RATHONSI_OK. */
Std_ReturnType FvM_MakeStore(void);

#endif
