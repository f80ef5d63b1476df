/* The freshness manager: see FvM_Rathonsi.h and README.md. */
#include "FvM_Rathonsi.h"

#include <string.h>

#include "FvM_Cfg.h"
#include "FvM_Core.h"
#include "FvM_Memory.h"
#include "rathonsi_freshness.h"

FvM_StateType FvM_State = FVM_STOPPED;
/* The memory writes the plan. */
static boolean FvM_Writing;
static int32_t FvM_Fault = RATHONSI_OK;
/* The cell that the fault is of, or FVM_NO_CELL. */
static uint16 FvM_FaultCell = FVM_NO_CELL;

/* The store, and the room after it. */
uint8 FvM_Image[RATHONSI_STORE_SIZE(FVM_ROOM)];
/* How long the store is that was read: newer software may have added cells. */
uint32_t FvM_Size;
/* The next cell that the store may lack. */
static uint16 FvM_Cell;
static RathonsiPlan FvM_Plan;
RathonsiRoute FvM_Route[FVM_ROUTES];
/* What SecOC was given and verifies now; 0 if there is nothing. */
uint64 FvM_Candidate[FVM_ROUTES];
/* A freshness that no bound covered when it was asked for. */
static uint64 FvM_Wanted[FVM_ROUTES];
/* SecOC asked for a freshness of the route in this life. Before that nothing is reserved: each start would skip it. */
boolean FvM_Asked[FVM_ROUTES];
/* How many PDUs were refused in a row, FVM_MISSES at most. */
uint8 FvM_Missed[FVM_ROUTES];
/* SecOC told a success of the route in this life. */
static boolean FvM_Told[FVM_ROUTES];
/* Until then: how many candidates in a row had no verdict, FVM_SILENCE at most. */
static uint8 FvM_Untold[FVM_ROUTES];
#define FVM_SILENCE 250u
/* The plan is that of a key, and isn't begun yet. */
static boolean FvM_KeyWaits;

/* A fault of this cell, or of the route that has it. */
void FvM_StopCell(int32_t status, uint16 cell)
{
    FvM_State = FVM_STOPPED;
    FvM_Writing = 0u;
    FvM_Fault = status;
    FvM_FaultCell = cell;
}

static void stop(int32_t status)
{
    FvM_StopCell(status, FVM_NO_CELL);
}

/* ---- Bits: the most significant bit of a value is the highest bit of byte 0 ------------------------------------ */

static uint64 value_of(const uint8 *bytes, uint32 bits)
{
    uint64 value = 0u;
    for (uint32 i = 0u; i < bits; i++) {
        const uint32 bit = ((uint32)bytes[i / 8u] >> (7u - (i % 8u))) & 1u;
        value <<= 1u;
        value |= bit;
    }
    return value;
}

/* Writes the low bits of a value. Bits of the last byte that aren't used are zero. */
static void put_value(uint64 value, uint32 bits, uint8 *bytes)
{
    uint64 rest = value;
    (void)memset(bytes, 0, ((size_t)bits + 7u) / 8u);
    for (uint32 i = bits; i > 0u; i--) {
        if ((rest % 2u) != 0u) {
            bytes[(i - 1u) / 8u] |= (uint8)(0x80u >> ((i - 1u) % 8u));
        }
        rest /= 2u;
    }
}

boolean FvM_Fits(uint64 value, uint32 bits)
{
    return ((bits >= 64u) || ((value >> bits) == 0u)) ? 1u : 0u;
}

/* ---- Routes ---------------------------------------------------------------------------------------------------- */

/* The route of an ID in a direction, or FVM_ROUTES. */
uint32 FvM_RouteOf(uint16 freshnessId, uint8 direction)
{
    uint32 i = 0u;
    while ((i < FVM_ROUTES)
           && ((FvM_Routes[i].freshnessId != freshnessId) || (FvM_Routes[i].direction != direction))) {
        i++;
    }
    return i;
}

static void fill_routes(void)
{
    (void)memset(FvM_Route, 0, sizeof FvM_Route);
    FvM_ForgetQuestions();
    for (uint32 i = 0u; i < FVM_ROUTES; i++) {
        FvM_Route[i].data_id = FvM_Routes[i].freshnessId;
        FvM_Route[i].cell = FvM_Routes[i].cell;
        FvM_Route[i].reserve = FvM_Routes[i].reserve;
        FvM_Route[i].window = FvM_Routes[i].window;
        FvM_Route[i].direction = FvM_Routes[i].direction;
        FvM_Route[i].freshness_only = 1u;
        FvM_Route[i].slot = FvM_Routes[i].slot;
        FvM_Candidate[i] = 0u;
        FvM_Wanted[i] = 0u;
        FvM_Asked[i] = 0u;
        FvM_Missed[i] = 0u;
        FvM_Told[i] = 0u;
        FvM_Untold[i] = 0u;
    }
}

/* The route of a cell, of whichever version of the software. */
static RathonsiRoute route_of_cell(uint16 cell)
{
    RathonsiRoute route;
    (void)memset(&route, 0, sizeof route);
    route.data_id = FvM_Cells[cell].freshnessId;
    route.direction = FvM_Cells[cell].direction;
    route.cell = (uint16)(RATHONSI_SLOT_CELLS + cell);
    route.reserve = 1u;
    route.window = 1u;
    route.slot = 4u;
    return route;
}

/* The freshness that the next bound of a route has to cover, or 0 if its bound is far enough. No bound is written for
 * freshness that needs more bits than SecOC's has. */
static uint64 due(uint32 i)
{
    RathonsiRouteState told;
    uint64 freshness = 0u;
    const int32_t status = rathonsi_route_state(&FvM_Route[i], FvM_Image, FvM_Size, &told);
    if (status != RATHONSI_OK) {
        FvM_StopCell(status, FvM_Routes[i].cell);
    } else if (FvM_Wanted[i] > told.bound) {
        freshness = FvM_Wanted[i];
    } else if ((FvM_Asked[i] != 0u) && ((told.bound - told.counter) < FvM_Routes[i].least)
               && (told.bound < UINT64_MAX) && (FvM_Fits(told.bound + 1u, FvM_Routes[i].bits) != 0u)) {
        freshness = told.bound + 1u;
    } else {
        FvM_Wanted[i] = 0u;
    }
    return freshness;
}

/* ---- The memory ------------------------------------------------------------------------------------------------ */

/* The store has all cells: all routes are opened. */
static void open_routes(void)
{
    uint32_t which = FVM_ROUTES;
    uint16_t cell = FVM_NO_CELL;
    int32_t status = rathonsi_store_size(FvM_Image, sizeof FvM_Image, &FvM_Size);
    if (status == RATHONSI_DAMAGED) {
        /* Its size isn't known. A store with the cells of this software has this one. */
        const int32_t looked = rathonsi_store_look(FvM_Image, RATHONSI_STORE_SIZE(FVM_CELLS), &cell);
        status = (looked == RATHONSI_WRONG_CELL) ? looked : status;
    }
    if ((status == RATHONSI_OK) && (FvM_Size > sizeof FvM_Image)) {
        status = RATHONSI_BAD_LENGTH;
    }
    if (status == RATHONSI_OK) {
        status = rathonsi_store_check(FvM_Image, FvM_Size);
    }
    if (status == RATHONSI_OK) {
        status = rathonsi_routes_open(FvM_Route, FVM_ROUTES, FvM_Image, FvM_Size, &which);
    }
    if (status == RATHONSI_OK) {
        FvM_State = FVM_UP;
    } else {
        FvM_StopCell(status, (which < FVM_ROUTES) ? FvM_Routes[which].cell : cell);
    }
}

static boolean is_planned(void)
{
    return ((FvM_Plan.writes[0].length != 0u) || (FvM_Plan.writes[1].length != 0u)
            || (FvM_Plan.writes[2].length != 0u)) ? 1u : 0u;
}

/* Mends the number of cells: a cut may leave anything of it, also one within the growth of newer software. Then it asks
 * for each cell that the production line didn't make, at each start. A cell that is there plans nothing. Says whether
 * there is a plan; if none is left, all opens. */
static boolean make_growth(void)
{
    int32_t status = rathonsi_store_mend(FvM_Image, sizeof FvM_Image, &FvM_Plan);
    while ((FvM_Cell < FVM_CELLS) && (status == RATHONSI_OK) && (is_planned() == 0u)) {
        const RathonsiRoute route = route_of_cell(FvM_Cell);
        status = rathonsi_store_grow(&route, 0u, FvM_Image, sizeof FvM_Image, &FvM_Plan);
        if (is_planned() == 0u) {
            FvM_Cell++;
        }
    }
    if (status == RATHONSI_DAMAGED) {
        open_routes();
    } else if (status != RATHONSI_OK) {
        /* The loop is past the cell. */
        FvM_StopCell(status, (uint16)((RATHONSI_SLOT_CELLS + FvM_Cell) - 1u));
    } else if (is_planned() == 0u) {
        open_routes();
    } else {
        /* The plan is written, and the cell is asked for again. */
    }
    return is_planned();
}

/* Plans the bound of a route that covers a freshness. An answer may tell one that is further ahead than PDUs can be, or
 * one that is at the end of its counter: RATHONSI_EXHAUSTED. */
static int32_t plan_bound(uint32 i, uint64 freshness)
{
    int32_t status = rathonsi_route_reserve(&FvM_Route[i], freshness, FvM_Image, FvM_Size, &FvM_Plan);
    if (status == RATHONSI_BAD_VALUE) {
        status = rathonsi_route_advance(&FvM_Route[i], freshness, FvM_Image, FvM_Size, &FvM_Plan);
    }
    return status;
}

/* The next route that is due, and its freshness, or FVM_ROUTES. The routes take turns. One that somebody waits for
 * comes before those that are reserved ahead. */
static uint32 next_due(uint32 turn, uint64 *freshness)
{
    uint32 found = FVM_ROUTES;
    boolean waits = 0u;
    for (uint32 k = 0u; (k < FVM_ROUTES) && (waits == 0u) && (FvM_State == FVM_UP); k++) {
        const uint32 i = (turn + k) % FVM_ROUTES;
        const uint64 wanted = due(i);
        waits = ((wanted != 0u) && (wanted == FvM_Wanted[i])) ? 1u : 0u;
        if ((waits != 0u) || ((wanted != 0u) && (found == FVM_ROUTES))) {
            found = i;
            *freshness = wanted;
        }
    }
    return (FvM_State == FVM_UP) ? found : FVM_ROUTES;
}

/* Plans the bound of the next route that is due, unless the plan of a key waits. Says whether there is a plan. */
static boolean make_plan(void)
{
    static uint32 turn;
    boolean planned = FvM_KeyWaits;
    FvM_KeyWaits = 0u;
    if (planned == 0u) {
        uint64 freshness = 0u;
        const uint32 i = next_due(turn, &freshness);
        if (i < FVM_ROUTES) {
            const int32_t status = plan_bound(i, freshness);
            turn = i + 1u;
            if (status == RATHONSI_OK) {
                planned = 1u;
            } else if (status == RATHONSI_EXHAUSTED) {
                FvM_Wanted[i] = 0u;
            } else {
                FvM_StopCell(status, FvM_Routes[i].cell);
            }
        }
    }
    return planned;
}

/* The memory was reading, or it wrote a plan or a whole store. */
static void take_outcome(FvM_MemoryState memory)
{
    if (memory == FVM_MEMORY_FAILED) {
        stop(RATHONSI_FAILED);
    } else if (memory == FVM_MEMORY_BUSY) {
        /* It goes on. */
    } else if (FvM_State == FVM_READING) {
        FvM_State = FVM_GROWING;
    } else if (FvM_State == FVM_MAKING) {
        stop(RATHONSI_OK);
    } else {
        const int32_t status = rathonsi_store_done(FvM_Image, FvM_Size, &FvM_Plan);
        FvM_Writing = 0u;
        if (status != RATHONSI_OK) {
            stop(status);
        }
    }
}

/* All routes, the plan and the image are as before the first read. */
static void begin_anew(void)
{
    (void)memset(&FvM_Plan, 0, sizeof FvM_Plan);
    /* Bytes that the memory doesn't read, of a block that is too short, are no erased ones: no cell is added there. */
    (void)memset(FvM_Image, 0x55, sizeof FvM_Image);
    fill_routes();
    FvM_Size = sizeof FvM_Image;
    FvM_Cell = FVM_MADE;
    FvM_KeyWaits = 0u;
}

void FvM_Init(void)
{
    /* A job of before has the plan or the image until it ends. */
    const boolean is_busy = FvM_Memory_IsBusy();
    FVM_ENTER();
    stop((is_busy != 0u) ? RATHONSI_BUSY : RATHONSI_OK);
    if (is_busy == 0u) {
        begin_anew();
    }
    FVM_LEAVE();
    /* The read is begun before FvM_MainFunction asks what became of it. */
    if (is_busy != 0u) {
        /* It stays stopped. */
    } else if (FvM_Memory_Read(FvM_Image, sizeof FvM_Image) == E_OK) {
        FvM_State = FVM_READING;
    } else {
        FvM_Fault = RATHONSI_FAILED;
    }
}

void FvM_MainFunction(void)
{
    boolean begins = 0u;
    if ((FvM_State == FVM_READING) || (FvM_State == FVM_MAKING) || (FvM_Writing != 0u)) {
        const FvM_MemoryState memory = FvM_Memory_Poll();
        FVM_ENTER();
        take_outcome(memory);
        FVM_LEAVE();
    }
    FVM_ENTER();
    FvM_AgeQuestions();
    if (FvM_Writing == 0u) {
        if (FvM_State == FVM_GROWING) {
            begins = make_growth();
        } else if (FvM_State == FVM_UP) {
            begins = make_plan();
        } else {
            /* Nothing is planned. */
        }
        FvM_Writing = begins;
    }
    FVM_LEAVE();
    if ((begins != 0u) && (FvM_Memory_Write(&FvM_Plan, FvM_Image, sizeof FvM_Image) != E_OK)) {
        FVM_ENTER();
        stop(RATHONSI_FAILED);
        FVM_LEAVE();
    }
}

FvM_StateType FvM_GetState(void)
{
    return FvM_State;
}

int32_t FvM_GetFault(void)
{
    return FvM_Fault;
}

uint16 FvM_GetFaultCell(void)
{
    return FvM_FaultCell;
}

/* ---- The callouts of SecOC ------------------------------------------------------------------------------------- */

/* What a callout answers for a status of Rathonsi. */
Std_ReturnType FvM_AnswerOf(int32_t status)
{
    Std_ReturnType answer = E_NOT_OK;
    if (status == RATHONSI_OK) {
        answer = E_OK;
    } else if (status == RATHONSI_RESERVE) {
        answer = E_BUSY;
    } else {
        /* E_NOT_OK */
    }
    return answer;
}

/* What a call for the Crypto driver answers before all routes are open, or after a fault. */
static int32_t status_down(void)
{
    return ((FvM_State == FVM_READING) || (FvM_State == FVM_GROWING)) ? RATHONSI_BUSY : FVM_NOT_UP;
}

/* What a callout answers then. */
Std_ReturnType FvM_AnswerDown(void)
{
    return (status_down() == RATHONSI_BUSY) ? E_BUSY : E_NOT_OK;
}

/* This freshness of a route has to be covered. */
void FvM_Want(uint32 i, uint64 freshness)
{
    if (FvM_Wanted[i] < freshness) {
        FvM_Wanted[i] = freshness;
    }
}

/* Takes the next freshness of a sender. At the end of its length it takes none, and wants no bound. */
static Std_ReturnType next_freshness(uint32 i, uint64 *freshness)
{
    Std_ReturnType answer = FvM_AnswerDown();
    if ((FvM_State == FVM_UP) && (FvM_Fits(FvM_Route[i].counter + 1u, FvM_Routes[i].bits) == 0u)) {
        answer = E_NOT_OK;
    } else if (FvM_State == FVM_UP) {
        FvM_Asked[i] = 1u;
        const int32_t status =
            rathonsi_freshness_next(&FvM_Route[i], FvM_Image, FvM_Size, freshness);
        if (status == RATHONSI_RESERVE) {
            FvM_Want(i, FvM_Route[i].counter + 1u);
        }
        answer = FvM_AnswerOf(status);
    } else {
        /* It isn't up. */
    }
    return answer;
}

Std_ReturnType SecOC_GetTxFreshnessTruncData(uint16 SecOCFreshnessValueID, uint8 *SecOCFreshnessValue,
                                             uint32 *SecOCFreshnessValueLength, uint8 *SecOCTruncatedFreshnessValue,
                                             uint32 *SecOCTruncatedFreshnessValueLength)
{
    Std_ReturnType answer = E_NOT_OK;
    const uint32 i = FvM_RouteOf(SecOCFreshnessValueID, RATHONSI_SENDS);
    if ((i < FVM_ROUTES) && (*SecOCFreshnessValueLength >= FvM_Routes[i].bits)
        && (*SecOCTruncatedFreshnessValueLength <= FvM_Routes[i].bits)) {
        uint64 freshness = 0u;
        FVM_ENTER();
        answer = next_freshness(i, &freshness);
        FVM_LEAVE();
        if (answer == E_OK) {
            put_value(freshness, FvM_Routes[i].bits, SecOCFreshnessValue);
            *SecOCFreshnessValueLength = FvM_Routes[i].bits;
            put_value(freshness, *SecOCTruncatedFreshnessValueLength, SecOCTruncatedFreshnessValue);
        }
    }
    return answer;
}

Std_ReturnType SecOC_GetTxFreshness(uint16 SecOCFreshnessValueID, uint8 *SecOCFreshnessValue,
                                    uint32 *SecOCFreshnessValueLength)
{
    uint8 none[8];
    uint32 noBits = 0u;
    return SecOC_GetTxFreshnessTruncData(SecOCFreshnessValueID, SecOCFreshnessValue, SecOCFreshnessValueLength,
                                         none, &noBits);
}

/* SecOC verifies with this freshness. A SecOC that never tells a verdict would take replays: it stops the manager. */
static Std_ReturnType give_candidate(uint32 i, uint64 freshness)
{
    Std_ReturnType answer = E_OK;
    if (FvM_Untold[i] == FVM_SILENCE) {
        FvM_StopCell(FVM_NO_VERDICT, FvM_Routes[i].cell);
        answer = E_NOT_OK;
    } else {
        FvM_Candidate[i] = freshness;
        if (FvM_Told[i] == 0u) {
            FvM_Untold[i]++;
        }
    }
    return answer;
}

/* The freshness is the next one with these low bits. One that needs more bits than SecOC's has is none. */
static Std_ReturnType candidate(uint32 i, uint64 truncated, uint32 bits, uint64 *freshness)
{
    Std_ReturnType answer = FvM_AnswerDown();
    FvM_Candidate[i] = 0u;
    if (FvM_State == FVM_UP) {
        FvM_Asked[i] = 1u;
        const int32_t status = rathonsi_freshness_candidate(&FvM_Route[i], FvM_Image, FvM_Size, truncated,
                                                            (uint8)bits, freshness);
        answer = (FvM_Fits(*freshness, FvM_Routes[i].bits) == 0u) ? E_NOT_OK : FvM_AnswerOf(status);
        if (answer == E_OK) {
            answer = give_candidate(i, *freshness);
        } else if (answer == E_BUSY) {
            FvM_Want(i, *freshness);
        } else if (status == RATHONSI_BAD_VALUE) {
            /* SecOC is configured with too few bits for the window. */
            FvM_StopCell(status, FvM_Routes[i].cell);
        } else {
            /* The PDU is refused. */
        }
    }
    return answer;
}

Std_ReturnType SecOC_GetRxFreshness(uint16 SecOCFreshnessValueID, const uint8 *SecOCTruncatedFreshnessValue,
                                    uint32 SecOCTruncatedFreshnessValueLength, uint16 SecOCAuthVerifyAttempts,
                                    uint8 *SecOCFreshnessValue, uint32 *SecOCFreshnessValueLength)
{
    Std_ReturnType answer = E_NOT_OK;
    const uint32 i = FvM_RouteOf(SecOCFreshnessValueID, RATHONSI_RECEIVES);
    /* Only one freshness within the window has these low bits: a second attempt would be the same. */
    if ((i < FVM_ROUTES) && (SecOCAuthVerifyAttempts == 0u) && (SecOCTruncatedFreshnessValueLength >= 1u)
        && (SecOCTruncatedFreshnessValueLength <= 64u) && (*SecOCFreshnessValueLength >= FvM_Routes[i].bits)) {
        uint64 freshness = 0u;
        const uint64 truncated = value_of(SecOCTruncatedFreshnessValue, SecOCTruncatedFreshnessValueLength);
        FVM_ENTER();
        answer = candidate(i, truncated, SecOCTruncatedFreshnessValueLength, &freshness);
        FVM_LEAVE();
        if (answer == E_OK) {
            put_value(freshness, FvM_Routes[i].bits, SecOCFreshnessValue);
            *SecOCFreshnessValueLength = FvM_Routes[i].bits;
        }
    }
    return answer;
}

/* A freshness counts as used once it was given: whether its PDU went out changes nothing. */
void SecOC_SPduTxConfirmation(uint16 SecOCFreshnessValueID)
{
    (void)SecOCFreshnessValueID;
}

void FvM_VerificationStatus(SecOC_VerificationStatusType status)
{
    const uint32 i = FvM_RouteOf(status.freshnessValueID, RATHONSI_RECEIVES);
    if (i < FVM_ROUTES) {
        FVM_ENTER();
        FvM_Untold[i] = 0u;
        if (status.verificationStatus != SECOC_VERIFICATIONSUCCESS) {
            if (FvM_Missed[i] < FVM_MISSES) {
                FvM_Missed[i]++;
            }
        } else if (FvM_State == FVM_UP) {
            /* A success without a candidate is one of another life, or of a PDU before: 0 is refused. */
            const int32_t accepted =
                rathonsi_freshness_accept(&FvM_Route[i], FvM_Image, FvM_Size, FvM_Candidate[i]);
            if (accepted != RATHONSI_OK) {
                FvM_StopCell(accepted, FvM_Routes[i].cell);
            }
            FvM_Missed[i] = 0u;
            FvM_Told[i] = 1u;
        } else {
            /* Nothing is accepted while the store isn't open. */
        }
        FvM_Candidate[i] = 0u;
        FVM_LEAVE();
    }
}

/* ---- Keys, for the Crypto driver ------------------------------------------------------------------------------- */

int32_t FvM_LoadKey(const RathonsiRequest *request)
{
    int32_t status = RATHONSI_BUSY;
    FVM_ENTER();
    if (FvM_State != FVM_UP) {
        status = status_down();
    } else if (FvM_Writing == 0u) {
        status = rathonsi_slot_load(FvM_Uid, 0u, request, FvM_Image, FvM_Size, &FvM_Plan);
        if (status == RATHONSI_OK) {
            FvM_KeyWaits = 1u;
        }
    } else {
        /* RATHONSI_BUSY */
    }
    FVM_LEAVE();
    return status;
}

int32_t FvM_ConfirmKey(const uint8 m1[16], RathonsiReply *reply)
{
    int32_t status = RATHONSI_BUSY;
    FVM_ENTER();
    if (FvM_State != FVM_UP) {
        status = status_down();
    } else if ((FvM_Writing == 0u) && (FvM_KeyWaits == 0u)) {
        status = rathonsi_slot_confirm(FvM_Uid, m1, FvM_Image, FvM_Size, reply);
    } else {
        /* RATHONSI_BUSY */
    }
    FVM_LEAVE();
    return status;
}

int32_t FvM_MakeMac(uint8 slot, const uint8 *message, uint32 length, uint8 mac[16])
{
    int32_t status;
    FVM_ENTER();
    status = status_down();
    if (FvM_State == FVM_UP) {
        status = rathonsi_slot_mac(slot, 0u, FvM_Image, FvM_Size, message, length, mac);
    }
    FVM_LEAVE();
    return status;
}

/* ---- The production line --------------------------------------------------------------------------------------- */

Std_ReturnType FvM_MakeStore(void)
{
    const uint32 size = RATHONSI_STORE_SIZE(FVM_CELLS);
    int32_t status = rathonsi_store_make(FvM_Image, size);
    /* The room after the store is erased: later software adds cells there. */
    (void)memset(&FvM_Image[size], 0xff, (sizeof FvM_Image) - size);
    for (uint16 cell = 0u; (cell < FVM_CELLS) && (status == RATHONSI_OK); cell++) {
        const RathonsiRoute route = route_of_cell(cell);
        status = rathonsi_route_make(&route, 0u, FvM_Image, size);
    }
    stop(status);
    if (status == RATHONSI_OK) {
        if (FvM_Memory_Make(FvM_Image, sizeof FvM_Image) == E_OK) {
            FvM_State = FVM_MAKING;
        } else {
            stop(RATHONSI_FAILED);
        }
    }
    return (FvM_State == FVM_MAKING) ? E_OK : E_NOT_OK;
}
