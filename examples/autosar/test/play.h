/* What play_secoc.c, keys.c, answers.c and faults.c share: the units, their keys, and the production line of other software. */
#ifndef PLAY_H
#define PLAY_H

#include "FvM_Cfg.h"

#if FVM_ROUTES != 7
#error "play_secoc plays the routes of test/secoc.arxml only, with nonces by ID 98"
#endif

/* The routes of secoc.arxml, in its order, and that of nonces. */
enum { SPEED, BRAKE, JASPAR, WHOLE, SHORT_ONE, ECHO, NONCE };

/* Ends the program with 1. */
void fail(const char *why, uint64 number);

/* Ends it unless the status is RATHONSI_OK. */
void right(int32_t status, const char *what);

/* The store of the other unit, and what it plans; its plan is done; its power comes back. */
extern uint8 other_image[RATHONSI_STORE_SIZE(FVM_ROUTES)];
extern RathonsiRoute other[FVM_ROUTES];
extern RathonsiPlan other_plan;
void other_done(void);
void other_power_up(void);

/* keys.c: the key of the PDUs. A new key for answers, and one for the slot of a key ID, whose proof is compared. What the
 * next job of Csm that makes a MAC does, and whether it tells a part of it alone. */
extern uint8 key[16];
void load_answer_key(void);
void load_key(uint32 keyId, uint32 counter);
#ifdef FVM_ANSWER_JOB
extern void (*within_csm)(void);
extern boolean csm_is_short;
#endif

/* The last freshness of a route that its bits can tell. */
uint64 last_of(uint32 route);

/* A cycle of the unit and of its memory. */
void main_function(void);

/* All begins again until the unit is up, or stopped by a status. The power may go while it starts, too. Or it has to be up. */
void start_unit(void);
void power_up(void);

/* So many cycles pass. If the power goes or a job fails, the unit starts again; and how often that was. */
void run(uint32 cycles);
uint64 disturbances(void);

/* SecOC builds a PDU. Or the next PDU of the other unit comes. Says whether it was built, or accepted, or is beyond the end. */
boolean send(uint32 route);
boolean hear_at_once(uint32 route);

/* The last freshness that was given for each route, or told by an answer of the unit. */
extern uint64 given[FVM_ROUTES];

/* answers.c: a unit asks, the other one asks, and what comes of it. */
void make_question(uint32 route, RathonsiQuestion *question);
void ask(uint32 route, boolean rejoins);
void answer_other(uint32 route);
void replace_sender(void);
void questions_end(uint32 route);
#ifdef FVM_ANSWER_JOB
void within_a_job(uint32 route);
#endif
void no_answers_without_key(void);
uint64 questions_asked(void);
uint64 answers_taken(void);

/* A freshness that was given: it is above all before it. */
void look_at_freshness(uint32 route, const uint8 *freshness, uint32 length);

/* Other units come: nothing was given yet. */
void forget_given(void);

/* The line of another software makes a store of so many cells, whose counters have come to these bounds. Newer software
 * has added cells that this one doesn't know. */
void make_elsewhere(uint32 cells, uint64 *bounds);

/* Writes that store again, with a cell that has the bytes of another one, or is damaged if it is the same. Says whether the
 * memory took it: flash takes no damage. */
boolean spoil_cell(uint32 cell, uint32 from);

/* faults.c: the bound of a route. Takes all freshness up to it, less so many. */
uint64 bound_of(uint32 route);
void take_all_but(uint32 route, uint64 left);

/* faults.c: units whose configuration, memory or SecOC is at fault. */
void play_faults(void);

#endif
