/* A breaker from C: the case of document 01's journal, a ratio breaker with an inner limiter, whose units are lost nowhere, a batch,
 * flags, and wrong use.
 *
 *     tools/archive
 *     cc -Wall -Wextra -Werror -std=c11 -Iinclude examples/breaker.c target/staticlib/libcapi.a -o breaker && ./breaker
 *
 * It prints what it is told, and exits 0 only if all of it is as document 01 says. */
#include <math.h>
#include <stdio.h>
#include <string.h>

#include "pudvirez.h"

static int wrong = 0;

static void expect(bool holds, const char *what)
{
    if (!holds) {
        printf("WRONG: %s\n", what);
        wrong += 1;
    }
}

/* Prints what a call was told, and checks it. */
static void told(const char *call, PudvirezTold t, uint32_t number, uint64_t v1, uint64_t v2)
{
    printf("%-34s %2u %llu %llu\n", call, (unsigned)t.number, (unsigned long long)t.v1, (unsigned long long)t.v2);
    expect(t.number == number && t.v1 == v1 && t.v2 == v2 && t.v3 == 0, call);
}

/* Checks the fields that document 01's journal prints after each call. */
static void stands(const PudvirezBreaker *b, uint8_t state, uint64_t generation, uint32_t inflight, uint32_t successes, uint64_t until)
{
    const PudvirezShared *h = &b->shared;
    expect(h->state == state, "state");
    expect(h->generation == generation, "generation");
    expect(h->counts.inflight == inflight, "inflight");
    expect(h->counts.successes == successes, "successes");
    expect(h->open_until == until, "open-until");
}

static bool same(const PudvirezBreaker *a, const PudvirezBreaker *b)
{
    const PudvirezConfig *c = &a->config, *d = &b->config;
    const PudvirezShared *h = &a->shared, *k = &b->shared;
    return c->kind == d->kind && c->limit == d->limit && c->ratio_bits == d->ratio_bits && c->min_calls == d->min_calls && c->period_ms == d->period_ms
        && c->cooldown_ms == d->cooldown_ms && c->trials == d->trials && c->required == d->required && h->state == k->state && h->generation == k->generation
        && h->run == k->run && h->counts.inflight == k->counts.inflight && h->counts.trait_probes == k->counts.trait_probes
        && h->counts.successes == k->counts.successes && h->open_until == k->open_until && h->len == k->len;
}

static uint64_t list[PUDVIREZ_PLACES];

/* Admit, fail until open, shed, wait, probe, close. */
static void journal(void)
{
    PudvirezBreaker b;
    PudvirezSetting setting = { .kind = PUDVIREZ_POLICY_CONSECUTIVE, .limit = 2, .cooldown_secs = 1, .trials = 1, .required = 1 };
    memset(list, 0xff, sizeof list);
    told("build Consecutive 2", pudvirez_build(&b, list, PUDVIREZ_PLACES, setting), PUDVIREZ_TOLD_OK, 0, 0);
    expect(list[0] == 0 && list[PUDVIREZ_PLACES - 1] == 0, "an empty storage");
    expect(pudvirez_is_sound(&b, list, PUDVIREZ_PLACES), "a sound breaker");
    PudvirezTicket ticket = { .generation = 0, .probe = 0 };
    told("admit at 10", pudvirez_admit_as(&b, list, PUDVIREZ_PLACES, 10, 0), PUDVIREZ_TOLD_OK, 0, 0);
    told("failure at 20", pudvirez_settle(&b, list, PUDVIREZ_PLACES, 20, ticket, 0), PUDVIREZ_TOLD_OK, 0, 0);
    stands(&b, PUDVIREZ_STATE_CLOSED, 0, 0, 0, 0);
    told("failure at 30", pudvirez_settle(&b, list, PUDVIREZ_PLACES, 30, ticket, 0), PUDVIREZ_TOLD_OK, 0, 0);
    stands(&b, PUDVIREZ_STATE_OPEN, 1, 0, 0, 1030);
    told("admit at 500", pudvirez_admit_as(&b, list, PUDVIREZ_PLACES, 500, 0), PUDVIREZ_TOLD_CIRCUIT_OPEN, 530, 0);
    told("still admitted at 500", pudvirez_still_admits(&b, list, PUDVIREZ_PLACES, 500, ticket), PUDVIREZ_TOLD_CIRCUIT_OPEN, 530, 0);
    stands(&b, PUDVIREZ_STATE_OPEN, 1, 0, 0, 1030);
    told("admit at 1030", pudvirez_admit_as(&b, list, PUDVIREZ_PLACES, 1030, 0), PUDVIREZ_TOLD_OK, 2, 1);
    stands(&b, PUDVIREZ_STATE_HALF_OPEN, 2, 1, 0, 1030);
    told("admit again", pudvirez_admit_as(&b, list, PUDVIREZ_PLACES, 1030, 0), PUDVIREZ_TOLD_CIRCUIT_OPEN, 0, 0);
    ticket = (PudvirezTicket){ .generation = 1, .probe = 1 };
    told("success of a stale ticket", pudvirez_settle(&b, list, PUDVIREZ_PLACES, 1040, ticket, 1), PUDVIREZ_TOLD_OK, 0, 0);
    stands(&b, PUDVIREZ_STATE_HALF_OPEN, 2, 1, 0, 1030);
    ticket.generation = 2;
    told("success of the probe", pudvirez_settle(&b, list, PUDVIREZ_PLACES, 1050, ticket, 1), PUDVIREZ_TOLD_OK, 0, 0);
    stands(&b, PUDVIREZ_STATE_CLOSED, 3, 0, 0, 1030);
}

/* A ratio that is NaN, which becomes 1.0, and the replies of an inner limiter. */
static void limiter(void)
{
    PudvirezBreaker b;
    PudvirezSetting setting = { .kind = PUDVIREZ_POLICY_RATIO, .limit = 4, .ratio = NAN, .min_calls = 9, .cooldown_secs = 1, .trials = 3, .required = 9 };
    const uint8_t acquired = PUDVIREZ_DECISION_ACQUIRED, retry = PUDVIREZ_DECISION_RETRY, impossible = PUDVIREZ_DECISION_IMPOSSIBLE;
    const uint8_t none = PUDVIREZ_RESERVATION_NONE, wait = PUDVIREZ_RESERVATION_WAIT;
    told("build Ratio 4 NaN 9", pudvirez_build(&b, list, PUDVIREZ_PLACES, setting), PUDVIREZ_TOLD_OK, 0, 0);
    expect(b.config.ratio_bits == UINT64_C(0x3ff0000000000000), "a ratio of 1.0");
    expect(b.config.min_calls == 4 && b.config.required == 3, "min calls and required are cut");
    told("try_admit, inner acquired", pudvirez_try_admit(&b, list, PUDVIREZ_PLACES, 5, acquired, 0, 100), PUDVIREZ_TOLD_OK, 0, 0);
    told("try_admit, inner retry", pudvirez_try_admit(&b, list, PUDVIREZ_PLACES, 5, retry, 7, 100), PUDVIREZ_TOLD_INNER_RETRY, 0, 0);
    told("try_admit, inner impossible", pudvirez_try_admit(&b, list, PUDVIREZ_PLACES, 5, impossible, 0, 100), PUDVIREZ_TOLD_COST_EXCEEDS_CAPACITY, 1, 100);
    told("peek, inner retry", pudvirez_peek(&b, list, PUDVIREZ_PLACES, 5, retry, 7), PUDVIREZ_TOLD_OK, PUDVIREZ_DECISION_RETRY, 7);
    told("acquire_cost, inner acquired", pudvirez_acquire_cost(&b, list, PUDVIREZ_PLACES, 5, acquired, 0), PUDVIREZ_TOLD_OK, PUDVIREZ_DECISION_ACQUIRED, 0);
    told("reserve, inner wait", pudvirez_reserve(&b, list, PUDVIREZ_PLACES, 5, wait, 40), PUDVIREZ_TOLD_OK, PUDVIREZ_RESERVATION_WAIT, 40);
    told("reserve, inner none", pudvirez_reserve(&b, list, PUDVIREZ_PLACES, 5, none, 0), PUDVIREZ_TOLD_OK, PUDVIREZ_RESERVATION_NONE, 0);
    told("available", pudvirez_available(&b, list, PUDVIREZ_PLACES, 5, acquired, 0, 12), PUDVIREZ_TOLD_OK, 12, 0);
    told("manual failure", pudvirez_record_manual(&b, list, PUDVIREZ_PLACES, 6, 0), PUDVIREZ_TOLD_OK, 0, 0);
    told("manual success", pudvirez_record_manual(&b, list, PUDVIREZ_PLACES, 7, 1), PUDVIREZ_TOLD_OK, 0, 0);
    told("board", pudvirez_board(&b, list, PUDVIREZ_PLACES), PUDVIREZ_TOLD_OK, 500, 0);
    expect(list[0] == 1 && list[1] == 0 && b.shared.len == 2, "the outcomes");
    told("refund 3", pudvirez_refund(&b, list, PUDVIREZ_PLACES, 3), PUDVIREZ_TOLD_OK, 3, 0);
    told("release_trait_probe", pudvirez_release_trait_probe(&b, list, PUDVIREZ_PLACES), PUDVIREZ_TOLD_OK, 0, 0);
    told("reset", pudvirez_reset(&b, list, PUDVIREZ_PLACES), PUDVIREZ_TOLD_OK, 0, 0);
    stands(&b, PUDVIREZ_STATE_CLOSED, 1, 0, 0, 0);
    told("board of an empty list", pudvirez_board(&b, list, PUDVIREZ_PLACES), PUDVIREZ_TOLD_OK, 0, 0);
}

/* An inner limiter of our own. */
typedef struct {
    uint32_t units;
    uint32_t asked;
} Limiter;

static bool acquire(Limiter *inner)
{
    inner->asked += 1;
    if (inner->units == 0)
        return false;
    inner->units -= 1;
    return true;
}

/* Asks the limiter only where the breaker admits, and gives the admission back if it refused. */
static PudvirezTold admit(PudvirezBreaker *b, Limiter *inner, uint64_t now_ms)
{
    PudvirezTold t = pudvirez_admit_as(b, list, PUDVIREZ_PLACES, now_ms, 0);
    if (t.number != PUDVIREZ_TOLD_OK || acquire(inner))
        return t;
    PudvirezTicket ticket = { .generation = t.v1, .probe = (uint8_t)t.v2 };
    pudvirez_abort_as(b, list, PUDVIREZ_PLACES, ticket, 0);
    return (PudvirezTold){ .number = PUDVIREZ_TOLD_INNER_RETRY };
}

/* The limiter asked first, whose unit a shed leaves to be given back, and asked only where the breaker admits. */
static void units(void)
{
    PudvirezBreaker b;
    PudvirezSetting setting = { .kind = PUDVIREZ_POLICY_CONSECUTIVE, .limit = 1, .cooldown_secs = 1, .trials = 2, .required = 2 };
    Limiter inner = { .units = 1, .asked = 0 };
    told("build Consecutive 1", pudvirez_build(&b, list, PUDVIREZ_PLACES, setting), PUDVIREZ_TOLD_OK, 0, 0);
    told("failure at 30", pudvirez_record_manual(&b, list, PUDVIREZ_PLACES, 30, 0), PUDVIREZ_TOLD_OK, 0, 0);
    expect(acquire(&inner), "a unit");
    PudvirezTold t = pudvirez_try_admit(&b, list, PUDVIREZ_PLACES, 40, PUDVIREZ_DECISION_ACQUIRED, 0, 1);
    told("shed, the limiter asked first", t, PUDVIREZ_TOLD_CIRCUIT_OPEN, 990, 0);
    inner.units += t.number != PUDVIREZ_TOLD_OK;
    expect(inner.units == 1, "its unit given back");
    told("shed, the limiter not asked", admit(&b, &inner, 40), PUDVIREZ_TOLD_CIRCUIT_OPEN, 990, 0);
    expect(inner.asked == 1, "asked once");
    told("a trial", admit(&b, &inner, 1030), PUDVIREZ_TOLD_OK, 2, 1);
    told("no unit left", admit(&b, &inner, 1030), PUDVIREZ_TOLD_INNER_RETRY, 0, 0);
    stands(&b, PUDVIREZ_STATE_HALF_OPEN, 2, 1, 0, 1030);
    PudvirezTicket ticket = { .generation = 2, .probe = 1 };
    t = pudvirez_permit_cancel(&b, list, PUDVIREZ_PLACES, ticket);
    told("permit_cancel", t, PUDVIREZ_TOLD_OK, 1, 0);
    inner.units += (uint32_t)t.v1;
    expect(inner.units == 1, "the unit of the trial given back");
    stands(&b, PUDVIREZ_STATE_HALF_OPEN, 2, 0, 0, 1030);
}

/* Permits, and a batch of four calls: a stale failure, one that trips, and an abort and a success that come too late. */
static void permits(void)
{
    PudvirezBreaker b;
    PudvirezSetting setting = { .kind = PUDVIREZ_POLICY_WINDOWED, .limit = 2, .period_nanos = 100000000, .cooldown_secs = 30, .trials = 1, .required = 1 };
    PudvirezTicket ticket = { .generation = 0, .probe = 0 };
    told("build Windowed 2 in 100 ms", pudvirez_build(&b, list, PUDVIREZ_PLACES, setting), PUDVIREZ_TOLD_OK, 0, 0);
    told("permit_success", pudvirez_permit_success(&b, list, PUDVIREZ_PLACES, 0, ticket), PUDVIREZ_TOLD_OK, 0, 0);
    told("permit_dropped", pudvirez_permit_dropped(&b, list, PUDVIREZ_PLACES, 0, ticket), PUDVIREZ_TOLD_OK, 0, 0);
    told("permit_failure 101 later", pudvirez_permit_failure(&b, list, PUDVIREZ_PLACES, 101, ticket), PUDVIREZ_TOLD_OK, 0, 0);
    stands(&b, PUDVIREZ_STATE_CLOSED, 0, 0, 0, 0);
    told("permit_cancel", pudvirez_permit_cancel(&b, list, PUDVIREZ_PLACES, ticket), PUDVIREZ_TOLD_OK, 1, 0);
    told("abort_as", pudvirez_abort_as(&b, list, PUDVIREZ_PLACES, ticket, 0), PUDVIREZ_TOLD_OK, 0, 0);
    uint64_t generations[4] = { 7, 0, 0, 0 }, answers[4] = { 9, 9, 9, 9 };
    const uint8_t probes[4] = { 0, 0, 1, 0 }, settles[4] = { 1, 1, 0, 1 }, marks[4] = { 0, 0, 1, 1 };
    told("finish_all, counts differ", pudvirez_finish_all(&b, list, PUDVIREZ_PLACES, 150, generations, 4, probes, 4, settles, 3, marks, 4, answers, 4), PUDVIREZ_TOLD_STORAGE, 0, 0);
    expect(answers[0] == 9 && answers[3] == 9, "answers as they were");
    told("finish_all", pudvirez_finish_all(&b, list, PUDVIREZ_PLACES, 150, generations, 4, probes, 4, settles, 4, marks, 4, answers, 4), PUDVIREZ_TOLD_OK, 0, 0);
    expect(answers[0] == 0 && answers[1] == 0 && answers[2] == 0 && answers[3] == 0, "four answers");
    stands(&b, PUDVIREZ_STATE_OPEN, 1, 0, 0, 30150);
}

/* Prints what a call would be told, and checks that and the length of the list that it would leave. */
static void would(const char *call, const PudvirezPreview *p, uint32_t number, uint32_t len)
{
    told(call, p->told, number, 0, 0);
    expect(p->len == len && p->breaker.shared.len == len, "the length");
}

/* A look before each outcome of two failures, and before the end of a trial. The breaker stays as it is until it is told. */
static void previews(void)
{
    PudvirezBreaker b;
    PudvirezSetting setting = { .kind = PUDVIREZ_POLICY_WINDOWED, .limit = 2, .period_nanos = 100000000, .cooldown_secs = 1, .trials = 2, .required = 2 };
    PudvirezTicket ticket = { .generation = 0, .probe = 0 }, stale = { .generation = 7, .probe = 0 };
    told("build Windowed 2 in 100 ms", pudvirez_build(&b, list, PUDVIREZ_PLACES, setting), PUDVIREZ_TOLD_OK, 0, 0);
    told("failure at 0", pudvirez_settle(&b, list, PUDVIREZ_PLACES, 0, ticket, 0), PUDVIREZ_TOLD_OK, 0, 0);
    const PudvirezBreaker before = b;
    PudvirezPreview p = pudvirez_preview_settle(&b, list, PUDVIREZ_PLACES, 101, ticket, 0);
    would("preview of a failure at 101", &p, PUDVIREZ_TOLD_OK, 1);
    stands(&p.breaker, PUDVIREZ_STATE_CLOSED, 0, 0, 0, 0);
    p = pudvirez_preview_settle(&b, list, PUDVIREZ_PLACES, 101, ticket, 1);
    would("preview of a success at 101", &p, PUDVIREZ_TOLD_OK, 0);
    p = pudvirez_preview_settle(&b, list, PUDVIREZ_PLACES, 101, stale, 0);
    would("preview of a stale failure", &p, PUDVIREZ_TOLD_OK, 1);
    expect(same(&p.breaker, &before), "a stale ticket changes nothing");
    p = pudvirez_preview_settle(&b, list, PUDVIREZ_PLACES - 1, 30, ticket, 0);
    would("preview, 4,095 places", &p, PUDVIREZ_TOLD_STORAGE, 1);
    expect(same(&p.breaker, &before), "the record handed in");
    p = pudvirez_preview_settle(&b, list, PUDVIREZ_PLACES, 30, ticket, 0);
    would("preview of a failure at 30", &p, PUDVIREZ_TOLD_OK, 2);
    stands(&p.breaker, PUDVIREZ_STATE_OPEN, 1, 0, 0, 1030);
    expect(same(&b, &before) && list[0] == 0 && list[1] == 0, "all as it was");
    told("failure at 30", pudvirez_settle(&b, list, PUDVIREZ_PLACES, 30, ticket, 0), PUDVIREZ_TOLD_OK, 0, 0);
    expect(same(&b, &p.breaker) && list[1] == 30, "as previewed");
    told("a trial", pudvirez_admit_as(&b, list, PUDVIREZ_PLACES, 1030, 0), PUDVIREZ_TOLD_OK, 2, 1);
    ticket = (PudvirezTicket){ .generation = 2, .probe = 1 };
    p = pudvirez_preview_abort(&b, list, PUDVIREZ_PLACES, ticket, 0);
    would("preview of its abort", &p, PUDVIREZ_TOLD_OK, 2);
    stands(&p.breaker, PUDVIREZ_STATE_HALF_OPEN, 2, 0, 0, 1030);
    p = pudvirez_preview_settle(&b, list, PUDVIREZ_PLACES, 1040, ticket, 1);
    would("preview of its success", &p, PUDVIREZ_TOLD_OK, 2);
    stands(&p.breaker, PUDVIREZ_STATE_HALF_OPEN, 2, 0, 1, 1030);
    stands(&b, PUDVIREZ_STATE_HALF_OPEN, 2, 1, 0, 1030);
}

/* A flag of any number but 0 is true. */
static void flags(void)
{
    PudvirezBreaker b;
    PudvirezSetting setting = { .kind = PUDVIREZ_POLICY_CONSECUTIVE, .limit = 1, .cooldown_secs = 1, .trials = 1, .required = 1 };
    PudvirezTicket ticket = { .generation = 0, .probe = 0 };
    told("build Consecutive 1", pudvirez_build(&b, list, PUDVIREZ_PLACES, setting), PUDVIREZ_TOLD_OK, 0, 0);
    told("success of 255", pudvirez_settle(&b, list, PUDVIREZ_PLACES, 5, ticket, 255), PUDVIREZ_TOLD_OK, 0, 0);
    stands(&b, PUDVIREZ_STATE_CLOSED, 0, 0, 0, 0);
    told("success of 0, a failure", pudvirez_settle(&b, list, PUDVIREZ_PLACES, 30, ticket, 0), PUDVIREZ_TOLD_OK, 0, 0);
    told("admit via_trait 2", pudvirez_admit_as(&b, list, PUDVIREZ_PLACES, 1030, 2), PUDVIREZ_TOLD_OK, 2, 1);
    expect(b.shared.counts.trait_probes == 1, "a trait probe");
    ticket = (PudvirezTicket){ .generation = 2, .probe = 128 };
    told("abort of a probe of 128", pudvirez_abort_as(&b, list, PUDVIREZ_PLACES, ticket, 128), PUDVIREZ_TOLD_OK, 0, 0);
    expect(b.shared.counts.inflight == 0 && b.shared.counts.trait_probes == 0, "the trial given back");
}

/* Each wrong use is told its number, and leaves all as it was. */
static void wrong_use(void)
{
    PudvirezBreaker b;
    PudvirezSetting setting = { .kind = PUDVIREZ_POLICY_CONSECUTIVE, .limit = 0, .cooldown_secs = 1, .trials = 1, .required = 1 };
    PudvirezTicket ticket = { .generation = 0, .probe = 0 };
    told("build Consecutive 0", pudvirez_build(&b, list, PUDVIREZ_PLACES, setting), PUDVIREZ_TOLD_OK, 0, 0);
    expect(b.config.limit == 1, "n is at least 1");
    const PudvirezBreaker before = b;
    told("a storage of 4,095 places", pudvirez_settle(&b, list, PUDVIREZ_PLACES - 1, 5, ticket, 0), PUDVIREZ_TOLD_STORAGE, 0, 0);
    told("inner reply of kind 9", pudvirez_try_admit(&b, list, PUDVIREZ_PLACES, 5, 9, 0, 1), PUDVIREZ_TOLD_TURN, 0, 0);
    told("inner reservation of kind 2", pudvirez_reserve(&b, list, PUDVIREZ_PLACES, 5, 2, 0), PUDVIREZ_TOLD_TURN, 0, 0);
    told("kind 9 and 4,095 places", pudvirez_try_admit(&b, list, PUDVIREZ_PLACES - 1, 5, 9, 0, 1), PUDVIREZ_TOLD_STORAGE, 0, 0);
    setting.kind = 9;
    setting.cooldown_nanos = 1000000000;
    told("build of kind 9", pudvirez_build(&b, list, PUDVIREZ_PLACES, setting), PUDVIREZ_TOLD_UNSOUND, 0, 0);
    setting.kind = PUDVIREZ_POLICY_RATIO;
    setting.limit = 4097;
    told("build, 10^9 nanoseconds", pudvirez_build(&b, list, PUDVIREZ_PLACES, setting), PUDVIREZ_TOLD_TIME, 0, 0);
    setting.cooldown_nanos = 0;
    told("build, a window of 4,097", pudvirez_build(&b, list, PUDVIREZ_PLACES, setting), PUDVIREZ_TOLD_LIMIT, 0, 0);
    expect(same(&b, &before), "the record as it was");
    b.shared.counts.inflight = 1;
    expect(!pudvirez_is_sound(&b, list, PUDVIREZ_PLACES), "a trial while Closed is not sound");
    told("a record that isn't sound", pudvirez_admit_as(&b, list, PUDVIREZ_PLACES, 5, 0), PUDVIREZ_TOLD_UNSOUND, 0, 0);
}

int main(void)
{
    journal();
    limiter();
    units();
    permits();
    previews();
    flags();
    wrong_use();
    puts(wrong == 0 ? "all as document 01 says" : "not as document 01 says");
    return wrong == 0 ? 0 : 1;
}
