/* Waits for an inner limiter from C: turns that a host follows, the units that it gives back, a deadline, a run, drops, and wrong use.
 *
 *     tools/archive
 *     cc -Wall -Wextra -Werror -std=c11 -Iinclude examples/waiting.c target/staticlib/libcapi.a -o waiting && ./waiting
 *
 * It prints what it is told, and exits 0 only if all of it is as document 01 says. */
#include <stdio.h>

#include "pudvirez.h"

#define MS UINT64_C(1000000)

static int wrong = 0;

static void expect(bool holds, const char *what)
{
    if (!holds) {
        printf("WRONG: %s\n", what);
        wrong += 1;
    }
}

/* Prints what a call was told, and checks it. */
static void told(const char *call, PudvirezWaited t, uint32_t number, uint64_t v1, uint64_t v2, uint64_t v3, uint64_t taken)
{
    printf("%-34s %2u %llu %llu %llu, taken %llu\n", call, (unsigned)t.number, (unsigned long long)t.v1, (unsigned long long)t.v2, (unsigned long long)t.v3, (unsigned long long)t.taken);
    expect(t.number == number && t.v1 == v1 && t.v2 == v2 && t.v3 == v3 && t.v4 == 0 && t.taken == taken, call);
}

static uint64_t list[PUDVIREZ_PLACES];

/* A breaker that opened at 30, and so sheds until 1,030. */
static PudvirezBreaker opened(void)
{
    PudvirezBreaker b;
    PudvirezSetting setting = { .kind = PUDVIREZ_POLICY_CONSECUTIVE, .limit = 1, .cooldown_secs = 1, .trials = 2, .required = 2 };
    expect(pudvirez_build(&b, list, PUDVIREZ_PLACES, setting).number == PUDVIREZ_TOLD_OK, "a build");
    expect(pudvirez_record_manual(&b, list, PUDVIREZ_PLACES, 30, 0).number == PUDVIREZ_TOLD_OK, "a failure");
    return b;
}

/* Starts a wait at the reading 1,030, which takes a trial. */
static PudvirezPending started(PudvirezBreaker *b, uint64_t clock, uint8_t limited, uint64_t timeout)
{
    PudvirezPending p = { .wait = { 0 } };
    told("start", pudvirez_wait_start(b, list, PUDVIREZ_PLACES, &p, 1030, clock, limited, timeout), PUDVIREZ_TOLD_OK, 0, 0, 0, 0);
    expect(p.wait.phase == PUDVIREZ_PHASE_LOOKING && p.ticket.generation == 2 && p.ticket.probe == 1 && b->shared.counts.inflight == 1, "a wait that looks, with a trial");
    return p;
}

/* What the host has given back to its limiter. */
static uint64_t given_back;

/* One turn, and the unit that it leaves to be given back. */
static PudvirezWaited turn(PudvirezBreaker *b, PudvirezPending *p, PudvirezTurn t)
{
    bool granted = p->wait.phase == PUDVIREZ_PHASE_LOOKING && t.kind == PUDVIREZ_REPLY_GRANTED;
    PudvirezWaited w = pudvirez_wait_turn(b, list, PUDVIREZ_PLACES, p, t, 1040, 100);
    switch (w.number) {
    case PUDVIREZ_TOLD_OK: break;
    case PUDVIREZ_TOLD_CIRCUIT_OPEN: given_back += w.v2; break;
    case PUDVIREZ_TOLD_DEADLINE_EXCEEDED: given_back += w.v1; break;
    default: given_back += granted; /* the turn was refused, and the wait does not hold what it granted */
    }
    return w;
}

/* Does what a turn says: here the clock is the host's own, and a sleep moves it. */
static void follow(uint64_t *clock, PudvirezWaited t)
{
    expect(t.number == PUDVIREZ_TOLD_OK && t.v1 != PUDVIREZ_ACT_ADMITTED, "a wait that goes on");
    if (t.v1 == PUDVIREZ_ACT_SLEEP || t.v1 == PUDVIREZ_ACT_SLEEP_UNLESS_RESUMED)
        *clock += t.v2;
}

/* A retry, a grant that is due later, a pause, and the admission. */
static void admitted(void)
{
    PudvirezBreaker b = opened();
    uint64_t clock = 500 * MS;
    PudvirezPending p = started(&b, clock, 1, 100 * MS);
    PudvirezWaited t = turn(&b, &p, (PudvirezTurn){ .clock = clock, .kind = PUDVIREZ_REPLY_RETRY, .duration = 5 * MS });
    told("retry after 5 ms", t, PUDVIREZ_TOLD_OK, PUDVIREZ_ACT_SLEEP, 5 * MS, 0, 0);
    follow(&clock, t);
    t = turn(&b, &p, (PudvirezTurn){ .clock = clock, .epoch_before = 7, .epoch_after = 8, .kind = PUDVIREZ_REPLY_RETRY, .duration = 5 * MS });
    told("retry, resumed meanwhile", t, PUDVIREZ_TOLD_OK, PUDVIREZ_ACT_LOOK_AGAIN, 0, 0, 0);
    t = turn(&b, &p, (PudvirezTurn){ .clock = clock, .epoch_before = 8, .epoch_after = 8, .kind = PUDVIREZ_REPLY_GRANTED, .duration = 2 * MS });
    told("granted, due in 2 ms", t, PUDVIREZ_TOLD_OK, PUDVIREZ_ACT_SLEEP, 2 * MS, 0, 0);
    expect(p.wait.phase == PUDVIREZ_PHASE_HOLDING && p.wait.due == 507 * MS, "a wait that holds a grant");
    follow(&clock, t);
    t = turn(&b, &p, (PudvirezTurn){ .clock = clock, .epoch_after = 8, .kind = PUDVIREZ_REPLY_GRANTED, .pause = 30 * MS, .postponed_after = 3 * MS });
    told("a pause of 30 ms", t, PUDVIREZ_TOLD_OK, PUDVIREZ_ACT_SLEEP_UNLESS_RESUMED, 30 * MS, 8, 0);
    follow(&clock, t);
    t = turn(&b, &p, (PudvirezTurn){ .clock = clock, .epoch_after = 9, .kind = PUDVIREZ_REPLY_GRANTED, .postponed_after = 3 * MS });
    told("due", t, PUDVIREZ_TOLD_OK, PUDVIREZ_ACT_ADMITTED, 2, 1, 0);
    expect(p.wait.phase == PUDVIREZ_PHASE_ENDED && b.shared.counts.inflight == 1, "an ended wait, and its trial still out");
    told("a turn of an ended wait", turn(&b, &p, (PudvirezTurn){ .clock = clock, .kind = PUDVIREZ_REPLY_GRANTED }), PUDVIREZ_TOLD_TURN, 0, 0, 0, 0);
    expect(given_back == 0, "the unit used");
}

/* P12: a timeout of 0 and retries of 0. Then a grant that comes too late for a pause, a never, and a breaker that opens meanwhile. */
static void not_admitted(void)
{
    PudvirezBreaker b = opened();
    PudvirezPending p = started(&b, 0, 1, 0);
    PudvirezTurn retry = { .kind = PUDVIREZ_REPLY_RETRY }, grant = { .kind = PUDVIREZ_REPLY_GRANTED, .duration = 2 * MS };
    PudvirezTurn late = { .clock = 2 * MS, .kind = PUDVIREZ_REPLY_GRANTED, .pause = 9 * MS };
    for (int i = 0; i < 4; i++)
        told("retry after 0", turn(&b, &p, retry), PUDVIREZ_TOLD_OK, PUDVIREZ_ACT_YIELD, 0, 0, 0);
    told("a fifth retry after 0", turn(&b, &p, retry), PUDVIREZ_TOLD_DEADLINE_EXCEEDED, 0, 0, 0, 0);
    expect(b.shared.state == PUDVIREZ_STATE_HALF_OPEN && b.shared.counts.inflight == 0 && p.wait.phase == PUDVIREZ_PHASE_ENDED, "the trial given back, HalfOpen kept");
    p = started(&b, 0, 1, 10 * MS);
    told("granted, due in 2 ms", turn(&b, &p, grant), PUDVIREZ_TOLD_OK, PUDVIREZ_ACT_SLEEP, 2 * MS, 0, 0);
    told("a pause past the deadline", turn(&b, &p, late), PUDVIREZ_TOLD_DEADLINE_EXCEEDED, 1, 0, 0, 0);
    expect(b.shared.counts.inflight == 0 && given_back == 1, "trial and unit given back");
    p = started(&b, 0, 0, 0);
    told("never", turn(&b, &p, (PudvirezTurn){ .kind = PUDVIREZ_REPLY_NEVER }), PUDVIREZ_TOLD_COST_EXCEEDS_CAPACITY, 1, 100, 0, 0);
    expect(b.shared.counts.inflight == 0 && given_back == 1, "the trial given back");
    p = started(&b, 0, 0, 0);
    expect(pudvirez_record_manual(&b, list, PUDVIREZ_PLACES, 1035, 0).number == PUDVIREZ_TOLD_OK && b.shared.open_until == 2035, "open again");
    told("granted, the breaker open", turn(&b, &p, (PudvirezTurn){ .kind = PUDVIREZ_REPLY_GRANTED }), PUDVIREZ_TOLD_CIRCUIT_OPEN, 995, 1, 0, 0);
    expect(given_back == 2, "the unit given back");
    told("start while open", pudvirez_wait_start(&b, list, PUDVIREZ_PLACES, &p, 1040, 0, 0, 0), PUDVIREZ_TOLD_CIRCUIT_OPEN, 995, 0, 0, 0);
}

/* Turns in one buffer, in two runs: a retry, a grant that is due later, a check that finds it due. */
static void runs(void)
{
    PudvirezBreaker b = opened();
    PudvirezPending p = started(&b, 0, 1, 100 * MS);
    const uint64_t turns[24] = { 0, 0, 0, PUDVIREZ_REPLY_RETRY, 5 * MS, 0, 0, 0, 5 * MS, 0, 0, PUDVIREZ_REPLY_GRANTED, 2 * MS, 0, 0, 0, 7 * MS, 0, 0, PUDVIREZ_REPLY_GRANTED, 0, 0, 0, 0 };
    told("run, limit 2", pudvirez_wait_run(&b, list, PUDVIREZ_PLACES, &p, turns, 24, 2, 1040, 100), PUDVIREZ_TOLD_UNFINISHED, 0, 0, 0, 2);
    expect(p.wait.phase == PUDVIREZ_PHASE_HOLDING && b.shared.counts.inflight == 1, "a wait that holds a grant");
    told("run of the rest", pudvirez_wait_run(&b, list, PUDVIREZ_PLACES, &p, turns + 16, 8, 9, 1040, 100), PUDVIREZ_TOLD_OK, PUDVIREZ_ACT_ADMITTED, 2, 1, 1);
    b = opened();
    p = started(&b, 0, 1, 100 * MS);
    told("run of all three", pudvirez_wait_run(&b, list, PUDVIREZ_PLACES, &p, turns, 24, 9, 1040, 100), PUDVIREZ_TOLD_OK, PUDVIREZ_ACT_ADMITTED, 2, 1, 3);
    expect(p.wait.phase == PUDVIREZ_PHASE_ENDED && b.shared.counts.inflight == 1, "an ended wait, and its trial still out");
}

/* A wait that is left early, looking and holding. */
static void drops(void)
{
    PudvirezBreaker b = opened();
    PudvirezPending p = started(&b, 0, 0, 0);
    told("drop while looking", pudvirez_wait_drop(&b, list, PUDVIREZ_PLACES, &p), PUDVIREZ_TOLD_OK, 0, 0, 0, 0);
    expect(b.shared.counts.inflight == 0, "the trial given back");
    told("drop again", pudvirez_wait_drop(&b, list, PUDVIREZ_PLACES, &p), PUDVIREZ_TOLD_TURN, 0, 0, 0, 0);
    p = started(&b, 0, 0, 0);
    told("granted, due in 2 ms", turn(&b, &p, (PudvirezTurn){ .kind = PUDVIREZ_REPLY_GRANTED, .duration = 2 * MS }), PUDVIREZ_TOLD_OK, PUDVIREZ_ACT_SLEEP, 2 * MS, 0, 0);
    p.ticket.probe = 2;
    told("drop while holding", pudvirez_wait_drop(&b, list, PUDVIREZ_PLACES, &p), PUDVIREZ_TOLD_OK, 1, 0, 0, 0);
    expect(b.shared.counts.inflight == 0 && p.wait.phase == PUDVIREZ_PHASE_ENDED, "the trial given back");
    expect(p.ticket.generation == 2 && p.ticket.probe == 2, "the ticket as it was");
}

/* Each wrong use is told its number, and leaves the wait as it was, or as a run had reached it. */
static void wrong_use(void)
{
    PudvirezBreaker b = opened();
    PudvirezPending p = started(&b, 0, 1, 100 * MS);
    const uint64_t over = (UINT64_C(1) << 62) + 1;
    const uint64_t turns[16] = { 0, 0, 0, PUDVIREZ_REPLY_GRANTED, 5 * MS, 0, 0, 0, 5 * MS, 0, 0, 9, 0, 0, 0, 0 };
    given_back = 0;
    told("a storage of 4,095 places", pudvirez_wait_drop(&b, list, PUDVIREZ_PLACES - 1, &p), PUDVIREZ_TOLD_STORAGE, 0, 0, 0, 0);
    told("15 numbers", pudvirez_wait_run(&b, list, PUDVIREZ_PLACES, &p, turns, 15, 9, 1040, 100), PUDVIREZ_TOLD_STORAGE, 0, 0, 0, 0);
    told("a reply of kind 9", turn(&b, &p, (PudvirezTurn){ .clock = over, .kind = 9 }), PUDVIREZ_TOLD_TURN, 0, 0, 0, 0);
    expect(given_back == 0, "nothing granted, nothing given back");
    told("a grant, a pause over 2^62", turn(&b, &p, (PudvirezTurn){ .kind = PUDVIREZ_REPLY_GRANTED, .pause = over }), PUDVIREZ_TOLD_TIME, 0, 0, 0, 0);
    expect(given_back == 1, "the unit of a refused turn given back");
    expect(p.wait.phase == PUDVIREZ_PHASE_LOOKING && p.wait.deadline == 100 * MS && b.shared.counts.inflight == 1, "the wait as it was");
    told("run, kind 9 in its second turn", pudvirez_wait_run(&b, list, PUDVIREZ_PLACES, &p, turns, 16, 9, 1040, 100), PUDVIREZ_TOLD_TURN, 0, 0, 0, 1);
    expect(p.wait.phase == PUDVIREZ_PHASE_HOLDING && p.wait.due == 5 * MS && b.shared.counts.inflight == 1, "the wait that the run reached");
    told("start, a timeout over 2^62", pudvirez_wait_start(&b, list, PUDVIREZ_PLACES, &p, 1040, 0, 1, over), PUDVIREZ_TOLD_TIME, 0, 0, 0, 0);
    expect(p.wait.phase == PUDVIREZ_PHASE_HOLDING && b.shared.counts.inflight == 1, "no second trial");
    list[0] = 1;
    told("a place past the list not 0", turn(&b, &p, (PudvirezTurn){ .kind = PUDVIREZ_REPLY_GRANTED }), PUDVIREZ_TOLD_UNSOUND, 0, 0, 0, 0);
    expect(p.wait.phase == PUDVIREZ_PHASE_HOLDING && given_back == 1, "the wait as it was, its grant still held");
    list[0] = 0;
    p.wait.seen = over;
    told("a wait over its bounds, limit 0", pudvirez_wait_run(&b, list, PUDVIREZ_PLACES, &p, turns, 16, 0, 1040, 100), PUDVIREZ_TOLD_TIME, 0, 0, 0, 0);
}

int main(void)
{
    admitted();
    not_admitted();
    runs();
    drops();
    wrong_use();
    puts(wrong == 0 ? "all as document 01 says" : "not as document 01 says");
    return wrong == 0 ? 0 : 1;
}
