/* Units whose configuration, memory or SecOC is at fault: each stops, and says why; and a route at the end of its length. */
#include <string.h>

#include "Crypto.h"
#include "FvM_Core.h"
#include "FvM_Memory.h"
#include "memory.h"
#include "play.h"

enum { SILENCE = 250 };

/* A unit whose counters are at these bounds comes up. */
static void unit_of(uint64 *bounds)
{
    make_elsewhere(FVM_CELLS, bounds);
    start_unit();
    if (FvM_GetState() != FVM_UP)
        fail("a unit doesn't come up, status", (uint64)FvM_GetFault());
}

/* It has stopped by this status, of this cell. The Crypto driver isn't busy then: nobody would end that. */
static void stopped_by(int32_t status, uint32 cell)
{
    uint8 bytes[64] = {0}, proof[48];
    uint32 room = sizeof proof;
    bytes[15] = (uint8)(FvM_SlotOfKey[0] << 4u);
    if (FvM_GetState() != FVM_STOPPED || FvM_GetFault() != status)
        fail("another fault, status", (uint64)FvM_GetFault());
    if (FvM_GetFaultCell() != cell)
        fail("a fault is told of another cell", FvM_GetFaultCell());
    if (Crypto_KeyElementSet(0u, CRYPTO_KE_MAC_KEY, bytes, 64u) != E_NOT_OK
        || Crypto_KeyElementGet(0u, CRYPTO_KE_MAC_PROOF, proof, &room) != E_NOT_OK
        || FvM_MakeMac(FvM_SlotOfKey[0], bytes, 64u, proof) != FVM_NOT_UP)
        fail("a driver is busy for ever, status", (uint64)status);
}

/* SecOC asks for the freshness of a PDU to send, again while it is busy. */
static Std_ReturnType next(uint32 route)
{
    uint8 freshness[8];
    Std_ReturnType answer = E_BUSY;
    for (uint32 i = 0u; i < 200u && answer == E_BUSY; i++) {
        uint32 length = 64u;
        answer = SecOC_GetTxFreshness(FvM_Routes[route].freshnessId, freshness, &length);
        if (answer == E_OK)
            look_at_freshness(route, freshness, length);
        main_function();
    }
    return answer;
}

/* SecOC asks for the freshness of a PDU with so many bits, again while it is busy. */
static Std_ReturnType query(uint32 route, uint8 truncated, uint32 bits)
{
    uint8 freshness[8];
    Std_ReturnType answer = E_BUSY;
    for (uint32 i = 0u; i < 200u && answer == E_BUSY; i++) {
        uint32 length = 64u;
        answer = SecOC_GetRxFreshness(FvM_Routes[route].freshnessId, &truncated, bits, 0u, freshness, &length);
        main_function();
    }
    return answer;
}

static void tell(uint32 route, SecOC_VerificationResultType result)
{
    const SecOC_VerificationStatusType status = {FvM_Routes[route].freshnessId, result, 0u};
    FvM_VerificationStatus(status);
}

/* A cell is damaged that no route uses: one of a slot. Or the cell of a route is that of another: of one that the line
 * made, and of one that is added. */
static void damaged_cells(void)
{
    uint64 bounds[FVM_ROUTES] = {0u};
    make_elsewhere(FVM_CELLS, bounds);
    if (spoil_cell(9u, 9u)) {
        start_unit();
        stopped_by(RATHONSI_DAMAGED, 9u);
    }
    for (uint32 route = JASPAR; route <= WHOLE; route++) {
        make_elsewhere(FVM_CELLS, bounds);
        if (spoil_cell(FvM_Routes[route].cell, FvM_Routes[SPEED].cell)) {
            start_unit();
            stopped_by(RATHONSI_WRONG_CELL, FvM_Routes[route].cell);
        }
    }
}

/* NvM has a block that is too short for the cells, or for the room after them: the unit stops, or gives nothing twice. */
static void short_blocks(void)
{
    const uint32 whole = RATHONSI_STORE_SIZE(FVM_ROOM);
    for (uint32 length = RATHONSI_STORE_SIZE(FVM_MADE); length < whole && memory_shorten(length); length += 13u) {
        uint64 bounds[FVM_ROUTES] = {0u};
        make_elsewhere(FVM_MADE, bounds);
        forget_given();
        for (uint32 life = 0u; life < 3u; life++) {
            start_unit();
            (void)next(SPEED);
            (void)next(SHORT_ONE);
            (void)next(ECHO);
        }
        if (FvM_GetState() != FVM_UP && length >= RATHONSI_STORE_SIZE(FVM_CELLS + 1u))
            fail("a block is long enough, length", length);
        if (FvM_GetState() != FVM_STOPPED && length < RATHONSI_STORE_SIZE(FVM_CELLS))
            fail("a block is too short, length", length);
    }
    (void)memory_shorten(whole);
}

static void finish_memory(void)
{
    FvM_MemoryState state = FVM_MEMORY_BUSY;
    while ((state = FvM_Memory_Poll()) == FVM_MEMORY_BUSY)
        memory_tick();
    if (state != FVM_MEMORY_DONE)
        fail("the memory fails, state", state);
}

/* A cut left the cells after the first new one unwritten, and a number of cells that counts all of them, or more: the
 * unit adds them. On flash no store grows. */
static void torn_numbers(void)
{
    static uint8 image[RATHONSI_STORE_SIZE(FVM_ROOM)], torn[RATHONSI_STORE_SIZE(FVM_ROOM)];
    for (uint32 cells = FVM_CELLS; cells <= FVM_ROOM && FVM_MADE < FVM_CELLS; cells++) {
        uint64 bounds[FVM_ROUTES] = {0u};
        const uint32 size = RATHONSI_STORE_SIZE(FVM_MADE + 1u);
        make_elsewhere(FVM_MADE, bounds);
        start_unit();
        if (FvM_Memory_Read(image, sizeof image) != E_OK)
            fail("the store isn't read, cells", FVM_CELLS);
        finish_memory();
        if (rathonsi_store_make(torn, RATHONSI_STORE_SIZE(cells)) != RATHONSI_OK)
            fail("no store, cells", cells);
        memcpy(image, torn, 32u);
        memset(&image[size], 0xff, sizeof image - size);
        if (FvM_Memory_Make(image, sizeof image) != E_OK)
            fail("the store isn't written, cells", cells);
        finish_memory();
        start_unit();
        if (FvM_GetState() != FVM_UP)
            fail("a unit doesn't grow after a cut, status", (uint64)FvM_GetFault());
    }
}

/* At the end of its length a route gives and accepts nothing, and writes nothing. */
static void ended_routes(void)
{
    uint64 bounds[FVM_ROUTES] = {0u};
    bounds[SHORT_ONE] = last_of(SHORT_ONE) - 3u;
    bounds[JASPAR] = last_of(JASPAR);
    unit_of(bounds);
    for (uint32 i = 0u; i < 3u; i++)
        if (next(SHORT_ONE) != E_OK)
            fail("a route ends too early, PDUs", i);
    for (uint32 i = 0u; i < 100u; i++)
        main_function();
    const uint64 jobs = memory_jobs();
    for (uint32 i = 0u; i < 100u; i++)
        if (next(SHORT_ONE) != E_NOT_OK || query(JASPAR, (uint8)((i % 16u) << 4u), 4u) != E_NOT_OK)
            fail("a route goes on after its end, PDUs", i);
    if (memory_jobs() != jobs)
        fail("a route writes after its end, jobs", memory_jobs() - jobs);
    bounds[SHORT_ONE] = last_of(SHORT_ONE);
    unit_of(bounds);
    const uint64 before = memory_jobs();
    for (uint32 i = 0u; i < 100u; i++)
        if (next(SHORT_ONE) != E_NOT_OK)
            fail("an ended route begins again, PDUs", i);
    if (memory_jobs() != before)
        fail("an ended route writes, jobs", memory_jobs() - before);
}

/* SecOC tells no verdict, at least no success: the unit stops, but never after a verdict or a first success. */
static void silent_secoc(void)
{
    uint64 bounds[FVM_ROUTES] = {0u};
    unit_of(bounds);
    for (uint32 i = 0u; i < 2u * SILENCE; i++) {
        if (i == SILENCE)
            tell(BRAKE, SECOC_VERIFICATIONFAILURE);
        if (query(BRAKE, 1u, 8u) != E_OK)
            fail("a candidate isn't given, candidates", i);
    }
    if (query(BRAKE, 1u, 8u) != E_NOT_OK)
        fail("a SecOC without verdicts goes on, candidates", 2u * SILENCE);
    stopped_by(FVM_NO_VERDICT, FvM_Routes[BRAKE].cell);
    start_unit();
    /* What was reserved is refused after a start: the counter is at the first bound. */
    const uint8 later = (uint8)(FvM_Routes[BRAKE].reserve + 1u);
    if (query(BRAKE, later, 8u) != E_OK)
        fail("no candidate after a start, ID", FvM_Routes[BRAKE].freshnessId);
    tell(BRAKE, SECOC_VERIFICATIONSUCCESS);
    for (uint32 i = 0u; i < 2u * SILENCE; i++)
        if (query(BRAKE, (uint8)(later + 1u), 8u) != E_OK)
            fail("a SecOC that told a success is stopped, candidates", i);
}

/* A freshness that is a whole window ahead gets its bound. One that is further ahead is refused. */
static void far_ahead(void)
{
    const uint8 window = (uint8)FvM_Routes[BRAKE].window;
    uint64 bounds[FVM_ROUTES] = {0u};
    unit_of(bounds);
    if (query(BRAKE, window, 8u) != E_OK)
        fail("a freshness in the window gets no bound, ID", FvM_Routes[BRAKE].freshnessId);
    tell(BRAKE, SECOC_VERIFICATIONFAILURE);
    if (query(BRAKE, (uint8)(window + 1u), 8u) != E_NOT_OK)
        fail("a freshness beyond the window is a candidate, ID", FvM_Routes[BRAKE].freshnessId);
}

/* SecOC has too little room for a freshness, or more truncated bits than a freshness has. */
static void wrong_lengths(void)
{
    const uint16 sent = FvM_Routes[SHORT_ONE].freshnessId, received = FvM_Routes[JASPAR].freshnessId;
    uint64 bounds[FVM_ROUTES] = {0u};
    uint8 freshness[16] = {0}, truncated[16] = {0x10u};
    uint32 length = FvM_Routes[SHORT_ONE].bits - 1u, bits = FvM_Routes[SHORT_ONE].bits;
    forget_given();
    unit_of(bounds);
    if (next(SHORT_ONE) != E_OK || query(JASPAR, 0x10u, 4u) != E_OK)
        fail("no freshness, ID", sent);
    if (SecOC_GetTxFreshnessTruncData(sent, freshness, &length, truncated, &bits) != E_NOT_OK)
        fail("a freshness has too little room, bits", length);
    length = FvM_Routes[JASPAR].bits - 1u;
    if (SecOC_GetRxFreshness(received, truncated, 4u, 0u, freshness, &length) != E_NOT_OK)
        fail("a candidate has too little room, bits", length);
    length = 64u;
    bits = FvM_Routes[SHORT_ONE].bits + 1u;
    if (SecOC_GetTxFreshnessTruncData(sent, freshness, &length, truncated, &bits) != E_NOT_OK)
        fail("a freshness has more truncated bits than bits, bits", bits);
    if (SecOC_GetRxFreshness(received, truncated, 0u, 0u, freshness, &length) != E_NOT_OK
        || SecOC_GetRxFreshness(received, truncated, 65u, 0u, freshness, &length) != E_NOT_OK)
        fail("a candidate has any bits, ID", received);
}

/* A success that comes while all begins again accepts nothing, and is no fault. */
static void late_success(void)
{
    uint64 bounds[FVM_ROUTES] = {0u};
    unit_of(bounds);
    if (query(BRAKE, 1u, 8u) != E_OK)
        fail("a candidate isn't given, ID", FvM_Routes[BRAKE].freshnessId);
    memory_power_up();
    FvM_Init();
    tell(BRAKE, SECOC_VERIFICATIONSUCCESS);
    while (FvM_GetState() == FVM_READING || FvM_GetState() == FVM_GROWING)
        main_function();
    if (FvM_GetState() != FVM_UP || query(BRAKE, 1u, 8u) != E_NOT_OK)
        fail("a success of another life counts, ID", FvM_Routes[BRAKE].freshnessId);
}

/* SecOC passes fewer bits than the window needs. */
static void few_bits(void)
{
    uint64 bounds[FVM_ROUTES] = {0u};
    unit_of(bounds);
    if (query(BRAKE, 0x20u, 3u) != E_NOT_OK)
        fail("three bits tell the freshness, ID", FvM_Routes[BRAKE].freshnessId);
    stopped_by(RATHONSI_BAD_VALUE, FvM_Routes[BRAKE].cell);
}

/* The memory takes no job any more. */
static void refusing_memory(void)
{
    uint64 bounds[FVM_ROUTES] = {0u};
    unit_of(bounds);
    memory_refuse(1u);
    if (next(SPEED) == E_OK)
        fail("a freshness that isn't durable is given, ID", FvM_Routes[SPEED].freshnessId);
    stopped_by(RATHONSI_FAILED, FVM_NO_CELL);
    memory_refuse(0u);
}

/* All begins again while a job of the memory runs: the unit stays stopped, and comes up after it. */
static void init_within_a_job(void)
{
    uint64 bounds[FVM_ROUTES] = {0u};
    uint8 freshness[8];
    uint32 length = 64u;
    unit_of(bounds);
    (void)SecOC_GetTxFreshness(FvM_Routes[SPEED].freshnessId, freshness, &length);
    for (uint32 i = 0u; i < 200u && memory_job() == 0u; i++)
        FvM_MainFunction();
    FvM_Init();
    stopped_by(RATHONSI_BUSY, FVM_NO_CELL);
    while (memory_job() != 0u)
        main_function();
    for (uint32 i = 0u; i < 2u; i++) {
        FvM_Init();
        while (FvM_GetState() == FVM_READING || FvM_GetState() == FVM_GROWING)
            main_function();
    }
    if (FvM_GetState() != FVM_UP || next(SPEED) != E_OK)
        fail("a unit doesn't begin again, status", (uint64)FvM_GetFault());
}

uint64 bound_of(uint32 route)
{
    RathonsiRouteState told = {0u, 0u};
    right(rathonsi_route_state(&FvM_Route[route], FvM_Image, FvM_Size, &told), "a route has no state");
    return told.bound;
}

void take_all_but(uint32 route, uint64 left)
{
    uint8 freshness[8];
    while (given[route] + left < bound_of(route)) {
        uint32 length = 64u;
        if (SecOC_GetTxFreshness(FvM_Routes[route].freshnessId, freshness, &length) != E_OK)
            fail("a freshness that a bound covers isn't given, ID", FvM_Routes[route].freshnessId);
        look_at_freshness(route, freshness, length);
    }
}

/* The bound of a route that SecOC waits for is written before those of routes that are due ahead. */
static void who_waits(void)
{
    static const uint32 senders[3] = {SPEED, SHORT_ONE, ECHO};
    for (uint32 waiting = 0u; waiting < 3u; waiting++) {
        uint64 bounds[FVM_ROUTES] = {0u}, before[3];
        uint8 freshness[8];
        uint32 length = 64u;
        forget_given();
        unit_of(bounds);
        for (uint32 i = 0u; i < 3u; i++)
            if (next(senders[i]) != E_OK)
                fail("no freshness, ID", FvM_Routes[senders[i]].freshnessId);
        for (uint32 i = 0u; i < 100u; i++)
            main_function();
        for (uint32 i = 0u; i < 3u; i++) {
            take_all_but(senders[i], (i == waiting) ? 0u : 1u);
            before[i] = bound_of(senders[i]);
        }
        if (SecOC_GetTxFreshness(FvM_Routes[senders[waiting]].freshnessId, freshness, &length) != E_BUSY)
            fail("a freshness is given that no bound covers, ID", FvM_Routes[senders[waiting]].freshnessId);
        while (bound_of(senders[waiting]) == before[waiting]) {
            main_function();
            for (uint32 i = 0u; i < 3u; i++)
                if (i != waiting && bound_of(senders[i]) != before[i])
                    fail("a route that waits isn't served first, ID", FvM_Routes[senders[waiting]].freshnessId);
        }
    }
}

/* The tables are those of secoc.arxml. */
static void look_at_tables(void)
{
    static const uint16 ids[FVM_ROUTES] = {10u, 11u, 12u, 13u, 14u, 13u, 98u};
    static const uint8 bits[FVM_ROUTES] = {64u, 64u, 32u, 64u, 32u, 64u, 64u};
    for (uint32 i = 0u; i < FVM_ROUTES; i++) {
        const boolean sends = i == SPEED || i == SHORT_ONE || i == ECHO || i == NONCE;
        if (FvM_Routes[i].freshnessId != ids[i] || FvM_Routes[i].bits != bits[i]
            || (FvM_Routes[i].direction == RATHONSI_SENDS) != sends)
            fail("play_secoc plays the routes of test/secoc.arxml only, not ID", FvM_Routes[i].freshnessId);
    }
}

void play_faults(void)
{
    look_at_tables();
    damaged_cells();
    torn_numbers();
    short_blocks();
    forget_given();
    ended_routes();
    silent_secoc();
    far_ahead();
    wrong_lengths();
    late_success();
    few_bits();
    forget_given();
    init_within_a_job();
    who_waits();
    forget_given();
    refusing_memory();
}
