/* The breaker for C: the exported functions of crates/capi, whose promises are proved. Written by hand.
 *
 * A breaker is a record and a storage of 4,096 places (PUDVIREZ_PLACES), both lent by the caller. A slice passes as a pointer and a
 * count. Pointers must be valid, aligned and not null for the count that they come with, what is not const may overlap nothing else,
 * and nobody else writes there during a call. All else may be any number: the calls test what they need. A flag is a byte, where 0 is
 * false and any other number true. Nothing is kept after a call: no memory, no clock, no global state.
 * Readings (`now_ms`) are milliseconds of a clock of the caller's, and may go back.
 * Compare and store fields, not bytes: what lies between the fields of a struct is not defined.
 *
 * WHAT IS TOLD. Every function answers a PudvirezTold (pudvirez_is_sound a bool, those of a wait a PudvirezWaited, a preview a PudvirezPreview
 * with one in it): `number` is a PUDVIREZ_TOLD_ constant, OK where the call was not refused, and the values are in their order, 0 where there is
 * none. Comments leave that prefix out. Refusals are tested in the order STORAGE, UNSOUND, TURN, TIME, LIMIT; the rest as the rules meet them. A
 * call that is told 1 to 6, 11 or 13 to 15 leaves the record and every place as they were. After INNER_RETRY and COST_EXCEEDS_CAPACITY the admission has been
 * given back; a transition that it made stays. For the calls of a wait see WAITS.
 *
 * WAITS. A call may wait for its inner limiter. pudvirez_wait_start admits it and makes a PudvirezPending; each pudvirez_wait_turn takes
 * what the host has read and says what it is to do, and the last one admits the call or gives its ticket back; pudvirez_wait_run takes
 * several turns, and pudvirez_wait_drop leaves early. Times of a wait are nanoseconds, of another clock than that of now_ms.
 * The order of refusals is STORAGE, UNSOUND, TURN, TIME, but in a run turn by turn: STORAGE for the whole buffer of turns and then for the
 * places, UNSOUND, and then each turn as it is read, TURN before TIME. A wait that has ended meets TURN and one over its bounds TIME, also
 * where a run has no turns or the limit 0; a turn past the limit, or past the end of the wait, is not read.
 * Refused with one of these, or with CIRCUIT_OPEN at the start, a call leaves record, places and pending as they were; only a run refused
 * at a later turn, and one told UNFINISHED, leaves the wait that it reached. After CIRCUIT_OPEN, COST_EXCEEDS_CAPACITY and
 * DEADLINE_EXCEEDED of a turn or a run the ticket has been aborted, as pudvirez_abort_as without the trait side does, and the wait has
 * ended; a transition that the admission made stays. No turn, run or drop changes the ticket: a probe flag of 2 stays 2.
 *
 * SAVES. A breaker is saved under a name of 8 ASCII bytes, in blocks of 512 bytes at the used length of a buffer that the caller lends: whole
 * blocks, at most 65,536 bytes, with a used length of 0 at the beginning. pudvirez_save tells the used length after it, which the caller
 * keeps with the buffer. pudvirez_restore comes back to a name: settings, history and counters as saved, in the generation after the present
 * one, with no trial out, so that a ticket granted fewer than 2^64 transitions before has no effect. Open-until and the times of a list are
 * readings of the clock that was read when they were saved. Both calls test STORAGE and UNSOUND first and then all the used blocks: DAMAGED for
 * sizes and sums, VERSION, DAMAGED for the rest; NAME comes last. A refused one leaves record, places and every byte of the buffer as they were.
 *
 * UNITS. An inner limiter's reply is handed in, so the limiter was asked first. What it granted and no call uses is to be given back:
 *     - where pudvirez_try_admit is told other than OK, pudvirez_acquire_cost other than OK with ACQUIRED, or pudvirez_reserve other than
 *       OK with WAIT, although the reply was a grant: the breaker sheds, or the call was refused;
 *     - what CIRCUIT_OPEN (v2) and DEADLINE_EXCEEDED (v1) of a turn or a run say, and what a drop says (v1);
 *     - the unit that a turn's reply granted, where the turn was refused (TURN, TIME; STORAGE, UNSOUND) or not read: the wait does not
 *       hold it;
 *     - what pudvirez_permit_cancel and pudvirez_refund say (v1).
 * To ask the limiter only where the breaker admits, call pudvirez_admit_as, then the limiter, and pudvirez_abort_as if it refused.
 *
 * FLOATING POINT. Exceptions must be masked, as they are by default. What is sound and what a ratio becomes go by the ratio's bits: no
 * rounding, FTZ or DAZ changes them. The trip of PUDVIREZ_POLICY_RATIO is one binary64 division and one comparison, made where a failure is
 * recorded (pudvirez_settle, pudvirez_permit_failure, pudvirez_permit_dropped, pudvirez_record_manual, pudvirez_finish_all) or would be
 * (pudvirez_preview_settle). It is promised in the default mode alone: round to nearest, no FTZ or DAZ. A program that changes the mode, or
 * is linked with -Ofast, which does, must restore it around these calls.
 */
#ifndef PUDVIREZ_H
#define PUDVIREZ_H

#include <stdbool.h>
#include <stddef.h>
#include <stdint.h>

#ifdef __cplusplus
extern "C" {
#endif

#define PUDVIREZ_PLACES 4096

/* Saves: the bytes of a block and of a name, and the most that a buffer has. */
#define PUDVIREZ_BLOCK 512
#define PUDVIREZ_NAME 8
#define PUDVIREZ_SAVES 65536

/* ---- numbers and their names */

/* What a call is told: `number`. */
enum {
    PUDVIREZ_TOLD_OK = 0, /* not refused */
    PUDVIREZ_TOLD_TIME = 1, /* a nanoseconds field of 10^9 or more; of a wait: a time over 2^62, or a wait over its bounds */
    PUDVIREZ_TOLD_LIMIT = 2, /* window or failures over 4,096 */
    PUDVIREZ_TOLD_STORAGE = 3, /* other than 4,096 places, turns that are no multiple of 8 numbers, or counts of a batch that differ */
    PUDVIREZ_TOLD_UNSOUND = 4, /* record or list not sound, or a setting of an unknown policy */
    PUDVIREZ_TOLD_FULL = 5, /* a failure while Closed, with 4,096 older times left */
    PUDVIREZ_TOLD_CIRCUIT_OPEN = 6, /* the breaker sheds; v1 is the delay in milliseconds, v2 after a wait the 1 to refund */
    PUDVIREZ_TOLD_INNER_RETRY = 7, /* the inner limiter says retry */
    PUDVIREZ_TOLD_COST_EXCEEDS_CAPACITY = 8, /* the inner limiter says impossible, or never; v1 is the cost 1, v2 the capacity */
    PUDVIREZ_TOLD_DEADLINE_EXCEEDED = 9, /* the deadline of a wait; v1 is what to give back to the inner limiter, 0 or 1 */
    PUDVIREZ_TOLD_UNFINISHED = 10, /* the limit or the turns of a run are used up, and the wait has not ended */
    PUDVIREZ_TOLD_TURN = 11, /* an unknown reply kind, or a wait that has ended */
    PUDVIREZ_TOLD_DAMAGED = 13, /* a wrong length, sum, header, zero byte or body of saves, a saved record not sound, or a name twice */
    PUDVIREZ_TOLD_VERSION = 14, /* an unknown version in a block whose sum is right */
    PUDVIREZ_TOLD_NAME = 15 /* a name that is not 8 bytes of ASCII, absent (restore), already there (save), or blocks that don't fit */
};

/* The state of a breaker. */
enum {
    PUDVIREZ_STATE_CLOSED = 0,
    PUDVIREZ_STATE_HALF_OPEN = 1,
    PUDVIREZ_STATE_OPEN = 2
};

/* The kind of a policy, in a setting and in a record. */
enum {
    PUDVIREZ_POLICY_CONSECUTIVE = 1,
    PUDVIREZ_POLICY_RATIO = 2,
    PUDVIREZ_POLICY_WINDOWED = 3
};

/* A decision: what the inner limiter replied to a request (`inner_kind`), and what the trait side answers (v1). */
enum {
    PUDVIREZ_DECISION_ACQUIRED = 1,
    PUDVIREZ_DECISION_RETRY = 2, /* after so many milliseconds */
    PUDVIREZ_DECISION_IMPOSSIBLE = 3
};

/* A reservation: what the inner limiter replied (`inner_kind` of pudvirez_reserve), and what is answered (v1). */
enum {
    PUDVIREZ_RESERVATION_NONE = 0,
    PUDVIREZ_RESERVATION_WAIT = 1 /* of so many milliseconds */
};

/* The phase of a wait. Any other number is an ended wait too. */
enum {
    PUDVIREZ_PHASE_ENDED = 0,
    PUDVIREZ_PHASE_LOOKING = 1,
    PUDVIREZ_PHASE_HOLDING = 2 /* a grant */
};

/* What the inner limiter replied to a turn: the kind of a PudvirezTurn. */
enum {
    PUDVIREZ_REPLY_GRANTED = 1,
    PUDVIREZ_REPLY_RETRY = 2,
    PUDVIREZ_REPLY_NEVER = 3
};

/* What the host of a wait is to do before the next turn: v1 of a turn that is told OK. */
enum {
    PUDVIREZ_ACT_ADMITTED = 0, /* nothing: the wait has ended; v2 is the generation of the ticket, v3 its probe flag (0 or 1) */
    PUDVIREZ_ACT_SLEEP = 1, /* v2 nanoseconds */
    PUDVIREZ_ACT_SLEEP_UNLESS_RESUMED = 2, /* v2 nanoseconds, unless the limiter is resumed past epoch v3 */
    PUDVIREZ_ACT_YIELD = 3,
    PUDVIREZ_ACT_LOOK_AGAIN = 4 /* at once */
};

/* ---- what is lent and handed in */

/* The settings of a breaker, made by pudvirez_build. Fields of another policy are 0. */
typedef struct {
    uint8_t kind; /* PUDVIREZ_POLICY_ */
    uint32_t limit; /* n, window or failures */
    uint64_t ratio_bits; /* of a binary64 number */
    uint32_t min_calls;
    uint64_t period_ms;
    uint64_t cooldown_ms;
    uint32_t trials;
    uint32_t required;
} PudvirezConfig;

/* What is counted in HalfOpen; 0 in the other states. */
typedef struct {
    uint32_t inflight; /* trials that are out */
    uint32_t trait_probes; /* taken through the trait side and not yet used up or given back; inflight does not bound it */
    uint32_t successes;
} PudvirezCounts;

/* What calls change of a breaker. */
typedef struct {
    uint8_t state; /* PUDVIREZ_STATE_ */
    uint64_t generation; /* one more with each transition, wrapping */
    uint32_t run; /* failures in a row */
    PudvirezCounts counts;
    uint64_t open_until;
    uint32_t len; /* of the list in the storage */
} PudvirezShared;

typedef struct {
    PudvirezConfig config;
    PudvirezShared shared;
} PudvirezBreaker;

/* An admission: the generation it was made under, and whether it holds a trial. */
typedef struct {
    uint64_t generation;
    uint8_t probe; /* a flag */
} PudvirezTicket;

/* A setting for pudvirez_build. The numbers of another policy than its own are not read. */
typedef struct {
    uint8_t kind; /* PUDVIREZ_POLICY_ */
    uint32_t limit; /* n, window or failures: 0 becomes 1 */
    double ratio; /* NaN becomes 1.0, else clamped to 0.0 to 1.0 */
    uint32_t min_calls; /* at most the window */
    uint64_t period_secs;
    uint32_t period_nanos;
    uint64_t cooldown_secs;
    uint32_t cooldown_nanos;
    uint32_t trials; /* 0 becomes 1 */
    uint32_t required; /* cut to 1 to trials */
} PudvirezSetting;

/* A wait between two turns. Made by pudvirez_wait_start; any numbers may be handed in, and each call tests them. */
typedef struct {
    uint64_t phase; /* PUDVIREZ_PHASE_ */
    uint64_t limited; /* 0: no deadline */
    uint64_t deadline; /* at most 2^63 */
    uint64_t seen; /* the greatest postponement since the look, at most 2^62 */
    uint64_t due; /* when the grant may be used, at most 2^63 + seen */
    uint64_t zeros; /* retries of 0 in a row, counted to 5 */
} PudvirezWait;

/* A wait and the ticket that was admitted for it. */
typedef struct {
    PudvirezWait wait;
    PudvirezTicket ticket;
} PudvirezPending;

/* What the host read for a turn. Of each pair the first was read before the inner limiter was asked for 1 unit, the second after it.
 * Epochs are any numbers; the rest but the kind are nanoseconds, at most 2^62, in every turn. While a grant is held nothing is asked: any
 * known kind will do, and only the clock, the pause and the second of each pair count for the rule, though all the numbers are bounded.
 * Ask for a grant within what remains to the deadline (deadline - clock, not below 0), as the Rust does: a grant's duration is slept
 * whatever remains. */
typedef struct {
    uint64_t clock;
    uint64_t epoch_before; /* how often the limiter was resumed */
    uint64_t epoch_after;
    uint64_t kind; /* PUDVIREZ_REPLY_ */
    uint64_t duration; /* until the grant may be used, or until the retry */
    uint64_t pause; /* what is left of a pause of the limiter, 0 if it isn't paused */
    uint64_t postponed_before; /* by how much pauses have postponed grants, in all */
    uint64_t postponed_after;
} PudvirezTurn;

/* ---- what is answered */

typedef struct {
    uint32_t number; /* PUDVIREZ_TOLD_ */
    uint64_t v1;
    uint64_t v2;
    uint64_t v3;
} PudvirezTold;

/* The answer of a wait's call. */
typedef struct {
    uint32_t number; /* PUDVIREZ_TOLD_ */
    uint64_t v1;
    uint64_t v2;
    uint64_t v3;
    uint64_t v4;
    uint64_t taken; /* the turns that a run took, 0 elsewhere */
} PudvirezWaited;

/* What a call would tell, and the record and the length of the list that it would leave. Where it would be refused the record is the one
 * handed in. The list that belongs to the record is not made: to have it, make the call. */
typedef struct {
    PudvirezTold told;
    PudvirezBreaker breaker;
    uint32_t len; /* breaker.shared.len */
} PudvirezPreview;

/* ---- making a breaker */

/* Puts a fresh breaker into record and storage, whatever they held: Closed, generation 0, every counter and place 0. Told OK.
 * Refuses with STORAGE, with UNSOUND for an unknown policy, with TIME (cooldown, then period) and with LIMIT; all is left as it was. */
PudvirezTold pudvirez_build(PudvirezBreaker *breaker, uint64_t *list, size_t places, PudvirezSetting setting);

/* ---- calls that may change the breaker; each refuses with STORAGE and UNSOUND first */

/* Puts new settings in force: a fresh record, as pudvirez_build makes it, in the generation after the present one. Told OK.
 * Refuses with UNSOUND for an unknown policy, with TIME and with LIMIT, as pudvirez_build does. */
PudvirezTold pudvirez_reconfigure(PudvirezBreaker *breaker, uint64_t *list, size_t places, PudvirezSetting setting);

/* Admits a call, through the trait side or not. Told OK with the ticket: v1 its generation, v2 its probe flag (0 or 1).
 * Open from open-until on, it goes HalfOpen; a probe adds 1 to inflight, through the trait side to trait probes too.
 * Refuses with CIRCUIT_OPEN and the delay, where v1 is 0 in HalfOpen with all trials out. */
PudvirezTold pudvirez_admit_as(PudvirezBreaker *breaker, uint64_t *list, size_t places, uint64_t now_ms, uint8_t via_trait);

/* Reports the outcome of a call with its ticket. Told OK. A ticket of another generation changes nothing. HalfOpen: a success counts,
 * and at the required number closes; a failure opens. Closed: the policy records, and a failure may trip. Open: nothing.
 * Refuses with FULL. */
PudvirezTold pudvirez_settle(PudvirezBreaker *breaker, uint64_t *list, size_t places, uint64_t now_ms, PudvirezTicket ticket, uint8_t success);

/* Gives an admission back without an outcome, through the trait side or not. Told OK. Only a probe of the present generation in
 * HalfOpen has an effect: 1 off inflight, through the trait side off trait probes too, neither below 0. */
PudvirezTold pudvirez_abort_as(PudvirezBreaker *breaker, uint64_t *list, size_t places, PudvirezTicket ticket, uint8_t via_trait);

/* Settles a permit as a success: pudvirez_settle with true. */
PudvirezTold pudvirez_permit_success(PudvirezBreaker *breaker, uint64_t *list, size_t places, uint64_t now_ms, PudvirezTicket ticket);

/* Settles a permit as a failure: pudvirez_settle with false. Refuses with FULL. */
PudvirezTold pudvirez_permit_failure(PudvirezBreaker *breaker, uint64_t *list, size_t places, uint64_t now_ms, PudvirezTicket ticket);

/* Finishes a permit that was dropped unsettled, which is a failure. Refuses with FULL. */
PudvirezTold pudvirez_permit_dropped(PudvirezBreaker *breaker, uint64_t *list, size_t places, uint64_t now_ms, PudvirezTicket ticket);

/* Gives an admission back as pudvirez_abort_as without the trait side does. Told OK with v1 = 1, to refund to the inner limiter. */
PudvirezTold pudvirez_permit_cancel(PudvirezBreaker *breaker, uint64_t *list, size_t places, PudvirezTicket ticket);

/* Forces the breaker Closed and empties counters and list. Told OK. The generation moves, from Closed too; open-until stays. */
PudvirezTold pudvirez_reset(PudvirezBreaker *breaker, uint64_t *list, size_t places);

/* Reports an outcome without a ticket. Told OK. In HalfOpen it uses up a trait probe if there is one; then it is a settle of the
 * present generation, as a probe only if it used one up. Refuses with FULL. */
PudvirezTold pudvirez_record_manual(PudvirezBreaker *breaker, uint64_t *list, size_t places, uint64_t now_ms, uint8_t success);

/* Frees one trial that was taken through the trait side, if there is one in HalfOpen. Told OK. */
PudvirezTold pudvirez_release_trait_probe(PudvirezBreaker *breaker, uint64_t *list, size_t places);

/* Admits a call whose inner limiter gave this reply to a request of 1: inner_kind is a PUDVIREZ_DECISION_, inner_ms the milliseconds of
 * RETRY. Told OK with the ticket as pudvirez_admit_as is. Refuses with TURN for another kind, then with CIRCUIT_OPEN; with INNER_RETRY
 * for RETRY and with COST_EXCEEDS_CAPACITY for IMPOSSIBLE, after the admission was given back. */
PudvirezTold pudvirez_try_admit(PudvirezBreaker *breaker, uint64_t *list, size_t places, uint64_t now_ms, uint8_t inner_kind, uint64_t inner_ms, uint32_t capacity);

/* Admits through the trait side, with the inner limiter's reply as above. Told OK with a decision: v1 is a PUDVIREZ_DECISION_, v2 the
 * milliseconds of RETRY. A shed is RETRY with its delay. A reply other than ACQUIRED is handed on after a trait abort.
 * Refuses with TURN for another kind. */
PudvirezTold pudvirez_acquire_cost(PudvirezBreaker *breaker, uint64_t *list, size_t places, uint64_t now_ms, uint8_t inner_kind, uint64_t inner_ms);

/* Reserves through the trait side, with the inner limiter's reply: inner_kind is a PUDVIREZ_RESERVATION_, inner_ms the milliseconds of
 * WAIT. Told OK with a reservation in the same numbers: v1 is its kind, v2 the milliseconds of WAIT. A shed is NONE. NONE is handed on
 * after a trait abort. Refuses with TURN for another kind. */
PudvirezTold pudvirez_reserve(PudvirezBreaker *breaker, uint64_t *list, size_t places, uint64_t now_ms, uint8_t inner_kind, uint64_t inner_ms);

/* Frees a trait trial as pudvirez_release_trait_probe does. Told OK with v1 = cost, to refund to the inner limiter, in every state. */
PudvirezTold pudvirez_refund(PudvirezBreaker *breaker, uint64_t *list, size_t places, uint32_t cost);

/* Runs a sequence of finishing calls at one reading: the i-th has the ticket (generations[i], probes[i]); where the flag settles[i] is
 * true it is a settle with success marks[i], else an abort, through the trait side if marks[i]. Each call gets what the last one left,
 * and its number goes to answers[i]. Told OK even where a call of it was told FULL. Refuses with STORAGE where the counts differ, before
 * the places are tested; refused it leaves answers too. */
PudvirezTold pudvirez_finish_all(PudvirezBreaker *breaker, uint64_t *list, size_t places, uint64_t now_ms, const uint64_t *generations, size_t generation_count, const uint8_t *probes, size_t probe_count,
                                 const uint8_t *settles, size_t settle_count, const uint8_t *marks, size_t mark_count, uint64_t *answers, size_t answer_count);

/* ---- waiting for an inner limiter; each refuses with STORAGE and UNSOUND first */

/* Admits a call as pudvirez_admit_as without the trait side does, and puts its ticket (probe 0 or 1) and a wait that looks into pending,
 * whatever that held. Told OK. The deadline is clock + timeout; where limited is false there is none. Refuses with TIME for a clock or a
 * timeout over 2^62, used or not, before the admission, and with CIRCUIT_OPEN. */
PudvirezWaited pudvirez_wait_start(PudvirezBreaker *breaker, uint64_t *list, size_t places, PudvirezPending *pending, uint64_t now_ms, uint64_t clock, uint8_t limited, uint64_t timeout);

/* One turn of a wait. Told OK with what the host is to do before the next one: v1 is a PUDVIREZ_ACT_. now_ms is read only where the grant
 * may be used: the breaker must still admit the ticket, else CIRCUIT_OPEN. Refuses with TURN and TIME, and ends the wait with CIRCUIT_OPEN,
 * with COST_EXCEEDS_CAPACITY and this capacity, or with DEADLINE_EXCEEDED. */
PudvirezWaited pudvirez_wait_turn(PudvirezBreaker *breaker, uint64_t *list, size_t places, PudvirezPending *pending, PudvirezTurn turn, uint64_t now_ms, uint32_t capacity);

/* Takes turns, each of eight numbers in the order of PudvirezTurn, until the wait ends, one is refused, or the limit or the turns are used
 * up; `taken` counts those that were not refused. Told OK with ACT_ADMITTED and the ticket as pudvirez_wait_turn is. Refuses with STORAGE
 * for the turns before the places, with TURN and TIME, with UNFINISHED, and ends the wait as pudvirez_wait_turn does. */
PudvirezWaited pudvirez_wait_run(PudvirezBreaker *breaker, uint64_t *list, size_t places, PudvirezPending *pending, const uint64_t *turns, size_t turn_numbers, uint64_t limit, uint64_t now_ms,
                                 uint32_t capacity);

/* Ends a wait before its time, and aborts its ticket. Told OK with v1 = 1 if a grant is held, to give back to the inner limiter, else with
 * v1 = 0. Refuses with TURN and TIME. */
PudvirezWaited pudvirez_wait_drop(PudvirezBreaker *breaker, uint64_t *list, size_t places, PudvirezPending *pending);

/* ---- saves; a save and a return refuse with STORAGE and UNSOUND first */

/* Saves the breaker under a name at the used length of a buffer of saves. Told OK: v1 is the used length after it.
 * Refuses with DAMAGED, VERSION and NAME: see SAVES. */
PudvirezTold pudvirez_save(const PudvirezBreaker *breaker, const uint64_t *list, size_t places, uint8_t *saves, size_t size, size_t used, const uint8_t *name, size_t name_size);

/* Comes back to the save of a name among the `used` bytes of a buffer of saves. Told OK. Refuses with DAMAGED, VERSION and NAME: see SAVES. */
PudvirezTold pudvirez_restore(PudvirezBreaker *breaker, uint64_t *list, size_t places, const uint8_t *saves, size_t size, size_t used, const uint8_t *name, size_t name_size);

/* The check of one block by itself. Told OK: v1 is where its used body begins, v2 its length. Refuses with DAMAGED, VERSION, DAMAGED. */
PudvirezTold pudvirez_check_block(const uint8_t *block, size_t size);

/* ---- calls that only read; each refuses with STORAGE and UNSOUND first */

/* Whether a waiter with this ticket may still go: OK for the present generation or while Closed. Refuses with CIRCUIT_OPEN: v1 is what is
 * left until open-until while Open, and 0 in HalfOpen. */
PudvirezTold pudvirez_still_admits(const PudvirezBreaker *breaker, const uint64_t *list, size_t places, uint64_t now_ms, PudvirezTicket ticket);

/* What pudvirez_settle would tell and leave; nothing is changed. Refuses with FULL, as that does. Refused, with STORAGE and UNSOUND too, it
 * gives back the record handed in, and as len its field, whatever that is. */
PudvirezPreview pudvirez_preview_settle(const PudvirezBreaker *breaker, const uint64_t *list, size_t places, uint64_t now_ms, PudvirezTicket ticket, uint8_t success);

/* What pudvirez_abort_as would tell and leave; nothing is changed. Refused it gives back as pudvirez_preview_settle does. */
PudvirezPreview pudvirez_preview_abort(const PudvirezBreaker *breaker, const uint64_t *list, size_t places, PudvirezTicket ticket, uint8_t via_trait);

/* The decision that pudvirez_acquire_cost would tell, without a transition; the reply is the inner limiter's peek.
 * Refuses with TURN for an unknown kind. */
PudvirezTold pudvirez_peek(const PudvirezBreaker *breaker, const uint64_t *list, size_t places, uint64_t now_ms, uint8_t inner_kind, uint64_t inner_ms);

/* The inner limiter's count, where its peek of cost 0 was ACQUIRED and the breaker would admit, else 0: told OK, in v1.
 * Refuses with TURN for an unknown kind. */
PudvirezTold pudvirez_available(const PudvirezBreaker *breaker, const uint64_t *list, size_t places, uint64_t now_ms, uint8_t inner_kind, uint64_t inner_ms, uint32_t count);

/* The board figure: failures times 1,000 by calls of the Ratio list, and 0 for an empty list or another policy; told OK, in v1. */
PudvirezTold pudvirez_board(const PudvirezBreaker *breaker, const uint64_t *list, size_t places);

/* Whether record and storage are sound: what every call tests. A storage of other than 4,096 places is not sound. */
bool pudvirez_is_sound(const PudvirezBreaker *breaker, const uint64_t *list, size_t places);

#ifdef __cplusplus
}
#endif

#endif
