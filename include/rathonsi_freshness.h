/*
 * rathonsi_freshness.h: a freshness manager and a key memory under another SecOC module. That
 * module makes and checks the authenticators of its PDUs, for example as AUTOSAR SecOC does. It asks
 * these calls for the freshness alone. Payloads and authenticators may have any length.
 *
 * The calls work on the routes, images and plans of rathonsi_store.h. The freshness that they give
 * out and accept survives a power cut within any write, as that header says of sending and
 * accepting. What a caller owes there is owed here. rathonsi_store_check, rathonsi_routes_open,
 * rathonsi_route_reserve and rathonsi_store_done are used as there.
 *
 * Each function is an export of the crate rathonsi_c, and its contract is proved. In addition to
 * what rathonsi_store.h says, this is proved, over all lives:
 *   - The freshness that rathonsi_freshness_next gives for a Data ID strictly rises. So does the
 *     freshness that rathonsi_freshness_accept accepts. Both stay at most the bound on the device.
 *   - A candidate is the only freshness of its route within the window that has these low bits.
 *   - The sender's freshness is found if it is 1 to window above the counter. If the answer is
 *     RATHONSI_RESERVE and its plan is done, the same call gives it, and it can be accepted.
 *   - While the counter of a route stays, candidates make at most (window + reserve - 1) / reserve
 *     plans, rounded down. For all lives see rathonsi_freshness_candidate.
 *
 * Freshness is a whole number of 64 bits here. SecOC modules pass it as bytes, the most significant
 * one first, and count lengths in bits. If that module's freshness has fewer than 64 bits, the
 * caller refuses a freshness that needs more. It asks for no further bound of such a route.
 *
 * What the caller owes, in addition to what rathonsi_store.h says:
 *   - freshness_only of such a route is 1 in every life. rathonsi_route_send, rathonsi_route_receive
 *     and the calls in two steps refuse the route. If it was 0 in another life, nothing is given out
 *     or accepted twice: both kinds of calls move the same counter under the same bound.
 *   - A freshness that rathonsi_freshness_next gave is used for one PDU, or for none.
 *   - For each route there is one PDU at a time between candidate and accept. The PDU is passed on
 *     only if rathonsi_freshness_candidate answered RATHONSI_OK in this life and its authenticator
 *     was found right over that freshness. rathonsi_freshness_accept is then called with that
 *     freshness before the next candidate of the route. It isn't called for any other freshness.
 *
 * A sender:
 *   1. The other module wants to build a PDU: call rathonsi_freshness_next.
 *      RATHONSI_OK: give it the freshness. It makes the authenticator over the full freshness, and
 *      sends as many low bits of it as it is configured to.
 *   2. RATHONSI_RESERVE: answer "busy" (E_BUSY). Plan by rathonsi_route_reserve_next, do the plan, and
 *      call rathonsi_store_done. The module asks again.
 *   3. Any other status: answer "failed" (E_NOT_OK), and report it.
 *   4. Nothing is to be done when the PDU was sent (SecOC_SPduTxConfirmation). A PDU that was built
 *      and not sent skips its freshness.
 *   To keep a PDU from waiting, reserve ahead in the background by rathonsi_route_reserve_ahead.
 *
 * A receiver:
 *   1. The other module got a PDU: call rathonsi_freshness_candidate with the freshness bits of the
 *      PDU. RATHONSI_OK: give the full freshness to the module, which checks the authenticator.
 *   2. RATHONSI_RESERVE: answer "busy" (E_BUSY). Plan by rathonsi_route_reserve with the freshness
 *      that was written, do the plan, and call rathonsi_store_done. The module asks again.
 *   3. RATHONSI_FRESHNESS_FAILURE, or any other status: answer "failed" (E_NOT_OK). A further attempt
 *      for the same PDU gets this answer, too: there is one candidate.
 *   4. The authenticator was found right (verification status callout): call
 *      rathonsi_freshness_accept with that freshness. It was found wrong: call nothing.
 *   5. PDUs are refused one after another: the receiver may be more than its window behind. It gets
 *      back by rathonsi_sync_take, under the key in the route's slot.
 *   No PDU waits if the caller reserves ahead, so that the bound is at least counter + window. The
 *   price comes with a power cut: the receiver then refuses what is reserved and not accepted.
 */
#ifndef RATHONSI_FRESHNESS_H
#define RATHONSI_FRESHNESS_H

#include "rathonsi_store.h"

#ifdef __cplusplus
extern "C" {
#endif

/* ---- Freshness --------------------------------------------------------------------------------
 *
 * Of each call, RATHONSI_BAD_VALUE, RATHONSI_WRONG_CELL and RATHONSI_DAMAGED mean:
 * RATHONSI_BAD_VALUE: a number of the route is outside its range, or the route has the other
 * direction, or it isn't open, or its freshness_only isn't 1.
 * RATHONSI_WRONG_CELL: as rathonsi_store.h says.
 * RATHONSI_DAMAGED: no copy of the cell of the route counts. Slots aren't read. */

/* Gives the freshness of the next PDU of a route that sends: counter + 1. It becomes the counter, so
 * no later call gives it.
 * RATHONSI_BAD_VALUE, RATHONSI_WRONG_CELL, RATHONSI_DAMAGED.
 * RATHONSI_EXHAUSTED.
 * RATHONSI_RESERVE: reserve counter + 1, do the plan, and call again. */
RATHONSI_CHECKED
int32_t rathonsi_freshness_next(RathonsiRoute *route, const uint8_t *image, size_t image_length, uint64_t *freshness);

/* Tells the full freshness of a PDU that a route received. It has the low bits truncated, and is 1
 * to window above the counter. No other freshness is. The counter stays.
 * bits is how many low bits the PDU carries, 1 to 64. truncated is their value, below 2^bits. With
 * 64 bits, truncated is the freshness itself. The window is at most 2^bits: with 4 bits at most 16.
 * RATHONSI_BAD_VALUE. Also: bits is 0 or over 64, truncated isn't below 2^bits, or the window of the
 * route is over 2^bits.
 * RATHONSI_WRONG_CELL, RATHONSI_DAMAGED.
 * RATHONSI_FRESHNESS_FAILURE: no freshness from counter + 1 to counter + window, below 2^64, has
 * these low bits.
 * RATHONSI_RESERVE: the bound in the image doesn't cover it yet. freshness is written as with
 * RATHONSI_OK: it is the one to reserve. Do the plan, and call again.
 *
 * RATHONSI_RESERVE comes before any authenticator is checked. So somebody without the key can make
 * the device write. This ends once the bound is at least counter + window. That takes at most
 * (window + reserve - 1) / reserve plans, rounded down: one if reserve is at least the window. It
 * begins anew once the counter moves: by a PDU that is accepted, by an answer that is taken, or
 * because the route is opened. If the counter rises by R in all lives, such PDUs make at most
 * (R + W + S - 1) / S plans, rounded down. W is the route's largest window in any life, and S its
 * smallest reserve. A plan that the power cuts isn't counted.
 * A receiver that is opened begins at its bound. So such PDUs may take its counter up by window +
 * reserve - 1 at each power-up, and it refuses as many genuine PDUs. A small window keeps this
 * small. */
RATHONSI_CHECKED
int32_t rathonsi_freshness_candidate(const RathonsiRoute *route, const uint8_t *image, size_t image_length,
                                     uint64_t truncated, uint8_t bits, uint64_t *freshness);

/* Accepts the freshness of a PDU whose authenticator was found right: it becomes the counter of a
 * route that receives.
 * RATHONSI_BAD_VALUE, RATHONSI_WRONG_CELL, RATHONSI_DAMAGED.
 * RATHONSI_FRESHNESS_FAILURE: it isn't above the counter, or is more than window above it.
 * RATHONSI_RESERVE: the bound in the image doesn't cover it. It is no freshness for which
 * rathonsi_freshness_candidate answered RATHONSI_OK. The PDU may not be passed on. */
RATHONSI_CHECKED
int32_t rathonsi_freshness_accept(RathonsiRoute *route, const uint8_t *image, size_t image_length, uint64_t freshness);

/* ---- Keys -------------------------------------------------------------------------------------
 *
 * For a driver that makes and checks MACs under the keys of the store (AUTOSAR Csm and CryIf). Keys
 * are loaded by rathonsi_slot_load and confirmed by rathonsi_slot_confirm. */

/* Makes the CMAC of a message of any length under the key of a slot, 4 to 13: all 16 bytes. A
 * truncated MAC is its first bytes. A caller that checks one makes it, and compares.
 * booted is 1 after a secure boot that succeeded in this life, else 0.
 * RATHONSI_BAD_VALUE: slot isn't 4 to 13, or booted is neither.
 * RATHONSI_DAMAGED: the cell of the slot holds no slot.
 * RATHONSI_KEY_EMPTY, RATHONSI_KEY_INVALID, RATHONSI_KEY_NOT_AVAILABLE. */
RATHONSI_CHECKED
int32_t rathonsi_slot_mac(uint8_t slot, uint8_t booted, const uint8_t *image, size_t image_length,
                          const uint8_t *message, size_t message_length, uint8_t mac[16]);

#ifdef __cplusplus
}
#endif

#endif
