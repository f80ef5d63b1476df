/* What FvM_Rathonsi.c and FvM_Answers.c share. Nobody else includes it. */
#ifndef FVM_CORE_H
#define FVM_CORE_H

#include "FvM_Cfg.h"

/* All of this is read and changed between FVM_ENTER and FVM_LEAVE. */
extern FvM_StateType FvM_State;
/* The store, and the room after it; how long the store is that was read; and the routes over it. */
extern uint8 FvM_Image[RATHONSI_STORE_SIZE(FVM_ROOM)];
extern uint32_t FvM_Size;
extern RathonsiRoute FvM_Route[FVM_ROUTES];
/* What SecOC was given and verifies now; 0 if there is nothing. */
extern uint64 FvM_Candidate[FVM_ROUTES];
/* A freshness of the route was asked for in this life: from then on it is reserved ahead. */
extern boolean FvM_Asked[FVM_ROUTES];
/* How many PDUs were refused in a row, FVM_MISSES at most. */
extern uint8 FvM_Missed[FVM_ROUTES];
#define FVM_MISSES 3u

/* The route of an ID in a direction, or FVM_ROUTES. */
uint32 FvM_RouteOf(uint16 freshnessId, uint8 direction);

/* Whether a freshness has so few bits. */
boolean FvM_Fits(uint64 value, uint32 bits);

/* This freshness of a route has to be covered. */
void FvM_Want(uint32 i, uint64 freshness);

/* A fault of this cell, or of the route that has it. */
void FvM_StopCell(int32_t status, uint16 cell);

/* What a callout answers for a status of Rathonsi; and before all routes are open, or after a fault. */
Std_ReturnType FvM_AnswerOf(int32_t status);
Std_ReturnType FvM_AnswerDown(void);

/* All begins again; a cycle passes. */
void FvM_ForgetQuestions(void);
void FvM_AgeQuestions(void);

#endif
