/* Document 01 a second time; see model.h. The breaker's rules come first, then the waits, then the calls with their refusals. */
#include "model.h"

#include <string.h>

#define BOUND (UINT64_C(1) << 62)
#define BILLION 1000000000
#define ONE UINT64_C(0x3ff0000000000000)
#define MINUS_ZERO UINT64_C(0x8000000000000000)

bool met_several;

static uint64_t less(uint64_t a, uint64_t b) { return a > b ? a - b : 0; }
static uint32_t one_less(uint32_t a) { return a == 0 ? 0 : a - 1; }
static uint32_t one_more(uint32_t a) { return a == UINT32_MAX ? a : a + 1; }
static uint64_t capped_sum(uint64_t a, uint64_t b) { return a + b < a ? UINT64_MAX : a + b; }

static Answer tell(uint32_t number, uint64_t v1, uint64_t v2, uint64_t v3) { return (Answer){ .number = number, .v1 = v1, .v2 = v2, .v3 = v3 }; }
static Answer told(uint32_t number) { return tell(number, 0, 0, 0); }

/* ---- "Sound means" */

static bool sound_policy(const PudvirezConfig *c, uint32_t len)
{
    bool ratio = c->ratio_bits <= ONE || c->ratio_bits == MINUS_ZERO;
    bool few = c->limit >= 1 && c->limit <= 4096;
    switch (c->kind) {
    case PUDVIREZ_POLICY_CONSECUTIVE: return c->limit >= 1 && c->ratio_bits == 0 && c->min_calls == 0 && c->period_ms == 0 && len == 0;
    case PUDVIREZ_POLICY_RATIO: return few && ratio && c->min_calls <= c->limit && c->period_ms == 0 && len <= c->limit;
    case PUDVIREZ_POLICY_WINDOWED: return few && c->ratio_bits == 0 && c->min_calls == 0 && len <= 4096;
    default: return false;
    }
}

static bool sound_record(const PudvirezBreaker *b)
{
    const PudvirezConfig *c = &b->config;
    const PudvirezCounts *n = &b->shared.counts;
    bool counted = n->inflight != 0 || n->trait_probes != 0 || n->successes != 0;
    return sound_policy(c, b->shared.len) && c->trials >= 1 && c->required >= 1 && c->required <= c->trials && b->shared.state <= PUDVIREZ_STATE_OPEN
           && n->inflight <= c->trials && n->successes < c->required && (b->shared.state == PUDVIREZ_STATE_HALF_OPEN || !counted);
}

/* Of a sound record and 4,096 places. */
static bool sound_list(const Model *m)
{
    uint64_t items = 0, rest = 0;
    for (uint32_t i = 0; i < m->breaker.shared.len; i++)
        items |= m->list[i];
    for (uint32_t i = m->breaker.shared.len; i < PUDVIREZ_PLACES; i++)
        rest |= m->list[i];
    return rest == 0 && (m->breaker.config.kind != PUDVIREZ_POLICY_RATIO || items <= 1);
}

bool model_sound(const Model *m) { return m->places == PUDVIREZ_PLACES && sound_record(&m->breaker) && sound_list(m); }

/* ---- the list */

static void drop_oldest(Model *m, uint32_t n)
{
    uint32_t len = m->breaker.shared.len;
    memmove(m->list, m->list + n, 8 * (size_t)(len - n));
    memset(m->list + len - n, 0, 8 * (size_t)n);
    m->breaker.shared.len = len - n;
}

static void append(Model *m, uint64_t item) { m->list[m->breaker.shared.len++] = item; }

static uint64_t cutoff(const Model *m, uint64_t now) { return less(now, m->breaker.config.period_ms); }

static void evict(Model *m, uint64_t now)
{
    uint32_t n = 0;
    const uint64_t from = cutoff(m, now);
    while (n < m->breaker.shared.len && m->list[n] < from)
        n++;
    drop_oldest(m, n);
}

static uint32_t failures(const Model *m)
{
    uint32_t n = 0;
    for (uint32_t i = 0; i < m->breaker.shared.len; i++)
        n += m->list[i] == 1;
    return n;
}

/* ---- transitions */

static void move_to(Model *m, uint8_t state, uint32_t inflight)
{
    m->breaker.shared.state = state;
    m->breaker.shared.generation += 1;
    m->breaker.shared.counts = (PudvirezCounts){ .inflight = inflight };
}

static void close_empty(Model *m)
{
    m->breaker.shared.run = 0;
    drop_oldest(m, m->breaker.shared.len);
    move_to(m, PUDVIREZ_STATE_CLOSED, 0);
}

static void open_at(Model *m, uint64_t now)
{
    m->breaker.shared.open_until = capped_sum(now, m->breaker.config.cooldown_ms);
    move_to(m, PUDVIREZ_STATE_OPEN, 0);
}

/* ---- "Admission" */

typedef struct {
    bool admitted;
    uint64_t delay;
    PudvirezTicket ticket;
} Admission;

static bool sheds(const Model *m, uint64_t now)
{
    const PudvirezShared *s = &m->breaker.shared;
    return (s->state == PUDVIREZ_STATE_OPEN && now < s->open_until) || (s->state == PUDVIREZ_STATE_HALF_OPEN && s->counts.inflight >= m->breaker.config.trials);
}

static uint64_t delay(const Model *m, uint64_t now) { return m->breaker.shared.state == PUDVIREZ_STATE_OPEN ? less(m->breaker.shared.open_until, now) : 0; }

static Admission admission(Model *m, uint64_t now, bool via_trait)
{
    PudvirezShared *s = &m->breaker.shared;
    if (sheds(m, now))
        return (Admission){ .delay = delay(m, now) };
    if (s->state == PUDVIREZ_STATE_CLOSED)
        return (Admission){ .admitted = true, .ticket = { s->generation, 0 } };
    if (s->state == PUDVIREZ_STATE_OPEN)
        move_to(m, PUDVIREZ_STATE_HALF_OPEN, 1);
    else
        s->counts.inflight += 1;
    if (via_trait)
        s->counts.trait_probes = one_more(s->counts.trait_probes);
    return (Admission){ .admitted = true, .ticket = { s->generation, 1 } };
}

static void abort_ticket(Model *m, PudvirezTicket ticket, bool via_trait)
{
    PudvirezShared *s = &m->breaker.shared;
    if (ticket.probe == 0 || ticket.generation != s->generation || s->state != PUDVIREZ_STATE_HALF_OPEN)
        return;
    s->counts.inflight = one_less(s->counts.inflight);
    if (via_trait)
        s->counts.trait_probes = one_less(s->counts.trait_probes);
}

/* ---- "Settle" and the policies */

static bool trips(const Model *m, uint64_t now)
{
    const PudvirezConfig *c = &m->breaker.config;
    const uint64_t from = cutoff(m, now);
    uint32_t len = m->breaker.shared.len, recent = 0;
    if (c->kind == PUDVIREZ_POLICY_CONSECUTIVE)
        return m->breaker.shared.run >= c->limit;
    if (c->kind == PUDVIREZ_POLICY_RATIO) {
        double ratio;
        memcpy(&ratio, &c->ratio_bits, 8);
        return len >= 1 && len >= c->min_calls && (double)failures(m) / (double)len >= ratio;
    }
    for (uint32_t i = 0; i < len; i++)
        recent += m->list[i] >= from;
    return recent >= c->limit;
}

/* "Closed failure, 4,096 older times left after eviction" */
static bool full(const Model *m, uint64_t now) { return m->breaker.config.kind == PUDVIREZ_POLICY_WINDOWED && m->breaker.shared.len == 4096 && m->list[0] >= cutoff(m, now); }

static uint32_t settle_closed(Model *m, uint64_t now, bool success)
{
    PudvirezShared *s = &m->breaker.shared;
    const PudvirezConfig *c = &m->breaker.config;
    if (!success && full(m, now))
        return PUDVIREZ_TOLD_FULL;
    s->run = success ? 0 : one_more(s->run);
    if (c->kind == PUDVIREZ_POLICY_RATIO) {
        if (s->len == c->limit)
            drop_oldest(m, 1);
        append(m, success ? 0 : 1);
    } else if (c->kind == PUDVIREZ_POLICY_WINDOWED) {
        evict(m, now);
        if (!success)
            append(m, now);
    }
    if (!success && trips(m, now))
        open_at(m, now);
    return PUDVIREZ_TOLD_OK;
}

static uint32_t settle_half_open(Model *m, uint64_t now, bool probe, bool success)
{
    PudvirezCounts *n = &m->breaker.shared.counts;
    if (probe)
        n->inflight = one_less(n->inflight);
    n->successes += success;
    if (!success)
        open_at(m, now);
    else if (n->successes >= m->breaker.config.required)
        close_empty(m);
    return PUDVIREZ_TOLD_OK;
}

static uint32_t settle(Model *m, uint64_t now, PudvirezTicket ticket, bool success)
{
    const PudvirezShared *s = &m->breaker.shared;
    if (ticket.generation != s->generation || s->state == PUDVIREZ_STATE_OPEN)
        return PUDVIREZ_TOLD_OK;
    return s->state == PUDVIREZ_STATE_CLOSED ? settle_closed(m, now, success) : settle_half_open(m, now, ticket.probe != 0, success);
}

static bool use_trait_probe(Model *m)
{
    PudvirezShared *s = &m->breaker.shared;
    if (s->state != PUDVIREZ_STATE_HALF_OPEN || s->counts.trait_probes == 0)
        return false;
    s->counts.trait_probes -= 1;
    return true;
}

/* ---- refusals: "Tested in the order 3, 4, 11, 1, 2" */

static uint32_t refusal(const Model *m, bool storage, bool turn, bool time)
{
    bool places = m->places != PUDVIREZ_PLACES, unsound = !sound_record(&m->breaker) || (!places && !sound_list(m));
    storage |= places;
    met_several = storage + unsound + turn + time > 1;
    return storage ? PUDVIREZ_TOLD_STORAGE : unsound ? PUDVIREZ_TOLD_UNSOUND : turn ? PUDVIREZ_TOLD_TURN : time ? PUDVIREZ_TOLD_TIME : PUDVIREZ_TOLD_OK;
}

static uint32_t unsound(const Model *m) { return refusal(m, false, false, false); }

uint32_t model_refusal(const Model *m) { return unsound(m); }

static uint32_t unknown_decision(const Model *m, uint8_t kind) { return refusal(m, false, kind < PUDVIREZ_DECISION_ACQUIRED || kind > PUDVIREZ_DECISION_IMPOSSIBLE, false); }

/* ---- making a breaker */

static uint64_t millis(uint64_t secs, uint32_t nanos)
{
    return secs > (UINT64_MAX - nanos / 1000000) / 1000 ? UINT64_MAX : secs * 1000 + nanos / 1000000;
}

static uint64_t normal_ratio(double ratio)
{
    uint64_t bits;
    memcpy(&bits, &ratio, 8);
    bool nan = (bits & ~MINUS_ZERO) > UINT64_C(0x7ff0000000000000);
    return nan ? ONE : bits > MINUS_ZERO ? 0 : bits == MINUS_ZERO ? bits : bits > ONE ? ONE : bits;
}

static uint32_t between(uint32_t low, uint32_t n, uint32_t high) { return n < low ? low : n > high ? high : n; }

static PudvirezConfig normal(const PudvirezSetting *s)
{
    PudvirezConfig c = { .kind = s->kind, .limit = s->limit == 0 ? 1 : s->limit, .cooldown_ms = millis(s->cooldown_secs, s->cooldown_nanos) };
    c.trials = s->trials == 0 ? 1 : s->trials;
    c.required = between(1, s->required, c.trials);
    if (c.kind == PUDVIREZ_POLICY_RATIO) {
        c.ratio_bits = normal_ratio(s->ratio);
        c.min_calls = between(0, s->min_calls, c.limit);
    }
    if (c.kind == PUDVIREZ_POLICY_WINDOWED)
        c.period_ms = millis(s->period_secs, s->period_nanos);
    return c;
}

/* What is refused of a setting: 4, 1 and 2. */
static bool unknown_policy(const PudvirezSetting *s) { return s->kind < PUDVIREZ_POLICY_CONSECUTIVE || s->kind > PUDVIREZ_POLICY_WINDOWED; }
static bool wrong_nanos(const PudvirezSetting *s) { return s->cooldown_nanos >= BILLION || (s->kind == PUDVIREZ_POLICY_WINDOWED && s->period_nanos >= BILLION); }
static bool over_limit(const PudvirezSetting *s) { return (s->kind == PUDVIREZ_POLICY_RATIO || s->kind == PUDVIREZ_POLICY_WINDOWED) && s->limit > 4096; }

/* A fresh record of a setting, unless it is refused. */
static Answer put_in_force(Model *m, const PudvirezSetting *s, bool unsound, uint64_t generation)
{
    bool storage = m->places != PUDVIREZ_PLACES, time = wrong_nanos(s), limit = over_limit(s);
    met_several = storage + unsound + time + limit > 1;
    if (storage || unsound || time || limit)
        return told(storage ? PUDVIREZ_TOLD_STORAGE : unsound ? PUDVIREZ_TOLD_UNSOUND : time ? PUDVIREZ_TOLD_TIME : PUDVIREZ_TOLD_LIMIT);
    m->breaker = (PudvirezBreaker){ .config = normal(s), .shared = { .generation = generation } };
    memset(m->list, 0, sizeof m->list);
    return told(PUDVIREZ_TOLD_OK);
}

Answer model_build(Model *m, const PudvirezSetting *s) { return put_in_force(m, s, unknown_policy(s), 0); }

/* W-201: "a fresh record whose generation is one past the present one" */
Answer model_reconfigure(Model *m, const PudvirezSetting *s)
{
    bool unsound = !sound_record(&m->breaker) || (m->places == PUDVIREZ_PLACES && !sound_list(m));
    return put_in_force(m, s, unsound || unknown_policy(s), m->breaker.shared.generation + 1);
}

/* ---- the calls */

Answer model_admit(Model *m, uint64_t now, bool via_trait)
{
    uint32_t refused = unsound(m);
    if (refused)
        return told(refused);
    Admission a = admission(m, now, via_trait);
    return a.admitted ? tell(PUDVIREZ_TOLD_OK, a.ticket.generation, a.ticket.probe, 0) : tell(PUDVIREZ_TOLD_CIRCUIT_OPEN, a.delay, 0, 0);
}

Answer model_settle(Model *m, uint64_t now, PudvirezTicket ticket, bool success)
{
    uint32_t refused = unsound(m);
    return told(refused ? refused : settle(m, now, ticket, success));
}

Answer model_abort(Model *m, PudvirezTicket ticket, bool via_trait)
{
    uint32_t refused = unsound(m);
    if (!refused)
        abort_ticket(m, ticket, via_trait);
    return told(refused);
}

Answer model_cancel(Model *m, PudvirezTicket ticket)
{
    Answer a = model_abort(m, ticket, false);
    a.v1 = a.number == PUDVIREZ_TOLD_OK;
    return a;
}

Answer model_reset(Model *m)
{
    uint32_t refused = unsound(m);
    if (!refused)
        close_empty(m);
    return told(refused);
}

Answer model_manual(Model *m, uint64_t now, bool success)
{
    uint32_t refused = unsound(m);
    if (refused)
        return told(refused);
    bool probe = use_trait_probe(m);
    return told(settle(m, now, (PudvirezTicket){ m->breaker.shared.generation, probe }, success));
}

Answer model_refund(Model *m, uint64_t back)
{
    uint32_t refused = unsound(m);
    if (refused)
        return told(refused);
    if (use_trait_probe(m))
        m->breaker.shared.counts.inflight = one_less(m->breaker.shared.counts.inflight);
    return tell(PUDVIREZ_TOLD_OK, back, 0, 0);
}

Answer model_try_admit(Model *m, uint64_t now, uint8_t kind, uint32_t capacity)
{
    uint32_t refused = unknown_decision(m, kind);
    if (refused)
        return told(refused);
    Admission a = admission(m, now, false);
    if (!a.admitted)
        return tell(PUDVIREZ_TOLD_CIRCUIT_OPEN, a.delay, 0, 0);
    if (kind == PUDVIREZ_DECISION_ACQUIRED)
        return tell(PUDVIREZ_TOLD_OK, a.ticket.generation, a.ticket.probe, 0);
    abort_ticket(m, a.ticket, false);
    return kind == PUDVIREZ_DECISION_RETRY ? told(PUDVIREZ_TOLD_INNER_RETRY) : tell(PUDVIREZ_TOLD_COST_EXCEEDS_CAPACITY, 1, capacity, 0);
}

static Answer decision(uint8_t kind, uint64_t ms) { return tell(PUDVIREZ_TOLD_OK, kind, kind == PUDVIREZ_DECISION_RETRY ? ms : 0, 0); }

Answer model_acquire_cost(Model *m, uint64_t now, uint8_t kind, uint64_t ms)
{
    uint32_t refused = unknown_decision(m, kind);
    if (refused)
        return told(refused);
    Admission a = admission(m, now, true);
    if (!a.admitted)
        return decision(PUDVIREZ_DECISION_RETRY, a.delay);
    if (kind != PUDVIREZ_DECISION_ACQUIRED)
        abort_ticket(m, a.ticket, true);
    return decision(kind, ms);
}

Answer model_reserve(Model *m, uint64_t now, uint8_t kind, uint64_t ms)
{
    uint32_t refused = refusal(m, false, kind > PUDVIREZ_RESERVATION_WAIT, false);
    if (refused)
        return told(refused);
    Admission a = admission(m, now, true);
    if (a.admitted && kind == PUDVIREZ_RESERVATION_WAIT)
        return tell(PUDVIREZ_TOLD_OK, PUDVIREZ_RESERVATION_WAIT, ms, 0);
    if (a.admitted)
        abort_ticket(m, a.ticket, true);
    return tell(PUDVIREZ_TOLD_OK, PUDVIREZ_RESERVATION_NONE, 0, 0);
}

static bool still_admits(const Model *m, PudvirezTicket ticket) { return ticket.generation == m->breaker.shared.generation || m->breaker.shared.state == PUDVIREZ_STATE_CLOSED; }

Answer model_still_admits(Model *m, uint64_t now, PudvirezTicket ticket)
{
    uint32_t refused = unsound(m);
    return refused ? told(refused) : still_admits(m, ticket) ? told(PUDVIREZ_TOLD_OK) : tell(PUDVIREZ_TOLD_CIRCUIT_OPEN, delay(m, now), 0, 0);
}

/* W-204: "equal those of the real call made on a copy, and it reports the list length that call would leave" */
static Model copy;

static PudvirezPreview of_copy(Answer a)
{
    return (PudvirezPreview){ .told = { a.number, a.v1, a.v2, a.v3 }, .breaker = copy.breaker, .len = copy.breaker.shared.len };
}

PudvirezPreview model_preview_settle(const Model *m, uint64_t now, PudvirezTicket ticket, bool success)
{
    copy = *m;
    return of_copy(model_settle(&copy, now, ticket, success));
}

PudvirezPreview model_preview_abort(const Model *m, PudvirezTicket ticket, bool via_trait)
{
    copy = *m;
    return of_copy(model_abort(&copy, ticket, via_trait));
}

Answer model_peek(Model *m, uint64_t now, uint8_t kind, uint64_t ms)
{
    uint32_t refused = unknown_decision(m, kind);
    return refused ? told(refused) : sheds(m, now) ? decision(PUDVIREZ_DECISION_RETRY, delay(m, now)) : decision(kind, ms);
}

Answer model_available(Model *m, uint64_t now, uint8_t kind, uint32_t count)
{
    uint32_t refused = unknown_decision(m, kind);
    return refused ? told(refused) : tell(PUDVIREZ_TOLD_OK, sheds(m, now) || kind != PUDVIREZ_DECISION_ACQUIRED ? 0 : count, 0, 0);
}

Answer model_board(Model *m)
{
    uint32_t refused = unsound(m), len = m->breaker.shared.len;
    bool ratio = m->breaker.config.kind == PUDVIREZ_POLICY_RATIO;
    return refused ? told(refused) : tell(PUDVIREZ_TOLD_OK, ratio && len > 0 ? (uint64_t)failures(m) * 1000 / len : 0, 0, 0);
}

Answer model_finish_all(Model *m, uint64_t now, Batch *x)
{
    bool differ = false;
    for (int i = 1; i < 5; i++)
        differ |= x->counts[i] != x->counts[0];
    uint32_t refused = refusal(m, differ, false, false);
    for (size_t i = 0; !refused && i < x->counts[0]; i++) {
        PudvirezTicket ticket = { x->generations[i], x->probes[i] };
        x->answers[i] = PUDVIREZ_TOLD_OK;
        if (x->settles[i] != 0)
            x->answers[i] = settle(m, now, ticket, x->marks[i] != 0);
        else
            abort_ticket(m, ticket, x->marks[i] != 0);
    }
    return told(refused);
}

/* ---- "Waiting answers" */

static bool has_ended(const PudvirezWait *w) { return w->phase != PUDVIREZ_PHASE_LOOKING && w->phase != PUDVIREZ_PHASE_HOLDING; }
static bool over_bounds(const PudvirezWait *w) { return w->deadline > UINT64_C(1) << 63 || w->seen > BOUND || w->due > (UINT64_C(1) << 63) + w->seen; }
static bool too_late(const PudvirezTurn *t) { return t->clock > BOUND || t->duration > BOUND || t->pause > BOUND || t->postponed_before > BOUND || t->postponed_after > BOUND; }
static bool unknown_reply(const PudvirezTurn *t) { return t->kind < PUDVIREZ_REPLY_GRANTED || t->kind > PUDVIREZ_REPLY_NEVER; }

static uint64_t remaining(const PudvirezWait *w, uint64_t clock) { return w->limited == 0 ? UINT64_MAX : less(w->deadline, clock); }

Answer model_wait_start(Model *m, uint64_t now, uint64_t clock, bool limited, uint64_t timeout)
{
    uint32_t refused = refusal(m, false, false, clock > BOUND || timeout > BOUND);
    if (refused)
        return told(refused);
    Admission a = admission(m, now, false);
    if (!a.admitted)
        return tell(PUDVIREZ_TOLD_CIRCUIT_OPEN, a.delay, 0, 0);
    m->pending = (PudvirezPending){ .wait = { .phase = PUDVIREZ_PHASE_LOOKING, .limited = limited, .deadline = limited ? clock + timeout : 0 }, .ticket = a.ticket };
    return told(PUDVIREZ_TOLD_OK);
}

/* The end of a wait with this answer, its ticket aborted. */
static Answer give_up(Model *m, Answer a)
{
    abort_ticket(m, m->pending.ticket, false);
    m->pending.wait = (PudvirezWait){ .phase = PUDVIREZ_PHASE_ENDED };
    return a;
}

static Answer complete(Model *m, uint64_t now)
{
    PudvirezTicket ticket = m->pending.ticket;
    if (!still_admits(m, ticket))
        return give_up(m, tell(PUDVIREZ_TOLD_CIRCUIT_OPEN, delay(m, now), 1, 0));
    m->pending.wait = (PudvirezWait){ .phase = PUDVIREZ_PHASE_ENDED };
    return tell(PUDVIREZ_TOLD_OK, PUDVIREZ_ACT_ADMITTED, ticket.generation, ticket.probe != 0);
}

static Answer asleep(uint64_t nap, uint64_t pause, uint64_t epoch)
{
    return pause == 0 ? tell(PUDVIREZ_TOLD_OK, PUDVIREZ_ACT_SLEEP, nap, 0) : tell(PUDVIREZ_TOLD_OK, PUDVIREZ_ACT_SLEEP_UNLESS_RESUMED, nap, epoch);
}

static Answer check(Model *m, const PudvirezTurn *t, uint64_t now)
{
    PudvirezWait *w = &m->pending.wait;
    if (t->postponed_after > w->seen) {
        w->due += t->postponed_after - w->seen;
        w->seen = t->postponed_after;
    }
    if (t->pause == 0 && t->clock >= w->due)
        return complete(m, now);
    uint64_t nap = t->pause == 0 ? w->due - t->clock : t->pause;
    return nap > remaining(w, t->clock) ? give_up(m, tell(PUDVIREZ_TOLD_DEADLINE_EXCEEDED, 1, 0, 0)) : asleep(nap, t->pause, t->epoch_after);
}

static Answer retry(Model *m, const PudvirezTurn *t)
{
    PudvirezWait *w = &m->pending.wait;
    uint64_t left = remaining(w, t->clock), nap = t->duration;
    if (t->duration > left)
        return give_up(m, tell(PUDVIREZ_TOLD_DEADLINE_EXCEEDED, 0, 0, 0));
    w->zeros = t->duration > 0 ? 0 : w->zeros < 5 ? w->zeros + 1 : 5;
    if (w->zeros >= 1 && w->zeros <= 4)
        return tell(PUDVIREZ_TOLD_OK, PUDVIREZ_ACT_YIELD, 0, 0);
    if (w->zeros == 5 && left == 0)
        return give_up(m, tell(PUDVIREZ_TOLD_DEADLINE_EXCEEDED, 0, 0, 0));
    if (w->zeros == 5)
        nap = left < 1000000 ? left : 1000000;
    return t->epoch_before == t->epoch_after ? asleep(nap, t->pause, t->epoch_before) : tell(PUDVIREZ_TOLD_OK, PUDVIREZ_ACT_LOOK_AGAIN, 0, 0);
}

static Answer turn(Model *m, const PudvirezTurn *t, uint64_t now, uint32_t capacity)
{
    PudvirezWait *w = &m->pending.wait;
    if (w->phase == PUDVIREZ_PHASE_HOLDING)
        return check(m, t, now);
    if (t->kind == PUDVIREZ_REPLY_RETRY)
        return retry(m, t);
    if (t->kind == PUDVIREZ_REPLY_NEVER)
        return give_up(m, tell(PUDVIREZ_TOLD_COST_EXCEEDS_CAPACITY, 1, capacity, 0));
    w->phase = PUDVIREZ_PHASE_HOLDING;
    w->due = t->clock + t->duration;
    w->seen = t->postponed_before;
    return t->duration == 0 ? check(m, t, now) : tell(PUDVIREZ_TOLD_OK, PUDVIREZ_ACT_SLEEP, t->duration, 0);
}

static uint32_t turn_refusal(const Model *m, const PudvirezTurn *t)
{
    const PudvirezWait *w = &m->pending.wait;
    return refusal(m, false, has_ended(w) || unknown_reply(t), over_bounds(w) || too_late(t));
}

Answer model_wait_turn(Model *m, const PudvirezTurn *t, uint64_t now, uint32_t capacity)
{
    uint32_t refused = turn_refusal(m, t);
    return refused ? told(refused) : turn(m, t, now, capacity);
}

/* "Each run of turns has a limit and reports how many turns it took" */
Answer model_wait_run(Model *m, const uint64_t *turns, size_t numbers, uint64_t limit, uint64_t now, uint32_t capacity)
{
    uint32_t refused = refusal(m, numbers % 8 != 0, false, false);
    uint64_t taken = 0;
    if (refused)
        return told(refused);
    for (; taken < limit && taken < numbers / 8; taken++) {
        PudvirezTurn t;
        memcpy(&t, turns + 8 * taken, sizeof t);
        refused = turn_refusal(m, &t);
        Answer a = refused ? told(refused) : turn(m, &t, now, capacity);
        a.taken = taken + !refused;
        if (a.number != PUDVIREZ_TOLD_OK || a.v1 == PUDVIREZ_ACT_ADMITTED)
            return a;
    }
    refused = refusal(m, false, has_ended(&m->pending.wait), over_bounds(&m->pending.wait));
    Answer a = told(refused ? refused : PUDVIREZ_TOLD_UNFINISHED);
    a.taken = taken;
    return a;
}

Answer model_wait_drop(Model *m)
{
    const PudvirezWait *w = &m->pending.wait;
    uint32_t refused = refusal(m, false, has_ended(w), over_bounds(w));
    return refused ? told(refused) : give_up(m, tell(PUDVIREZ_TOLD_OK, w->phase == PUDVIREZ_PHASE_HOLDING, 0, 0));
}
