/* Feeds every function of pudvirez.h with any numbers, and checks what it tells and what it leaves.
 *
 *     any ROUNDS SEED
 *
 * A round draws a record, a storage, a pending wait and the rest, and makes one call. The same is computed by document 01 once more
 * (model.c): every value told, every field of record and wait, every place and every answer of a batch must be as computed there. So
 * a refused call must have left all as it was, and an accepted one a record that is sound by both computations. A flag is 0 or each of
 * the 255 other bytes in turn. The calls of saves are computed by document 02 (saves.c); their buffers are any bytes, or runs that the
 * model wrote, half of them damaged in a few places, with and without the sum made right.
 *
 * Each buffer is exactly as large as its count says, either on the heap (for sanitizers and valgrind) or against a page that can't be
 * touched (for code that no sanitizer has seen); bytes of saves and names also amid others, which must stay, at any address. For a call
 * that only reads, record and storage against such a page can't be written. It prints the counts, and exits 0 only without a finding: a
 * row of saves that no call met is one too. */
#define _GNU_SOURCE
#include <math.h>
#include <stdio.h>
#include <stdlib.h>
#include <string.h>
#include <sys/mman.h>
#include <unistd.h>

#include "saves.h"

#define BOUND (UINT64_C(1) << 62)

/* ---- drawing */

static uint64_t seed;

static uint64_t any(void)
{
    uint64_t z = seed += UINT64_C(0x9e3779b97f4a7c15);
    z = (z ^ z >> 30) * UINT64_C(0xbf58476d1ce4e5b9);
    z = (z ^ z >> 27) * UINT64_C(0x94d049bb133111eb);
    return z ^ z >> 31;
}

static uint64_t below(uint64_t n) { return any() % n; }
static bool chance(uint64_t n) { return below(n) == 0; }
static bool coin(void) { return any() >> 63; }

/* Boundary words, their neighbours, small ones, and any. */
static uint64_t word(void)
{
    static const uint64_t edges[] = { 0, 1, 2, 3, 8, 255, 256, 999999999, 1000000000, 4096, UINT64_C(1) << 31, UINT64_C(1) << 32, UINT64_C(1) << 53, UINT64_C(1) << 62, UINT64_C(1) << 63, 0 };
    switch (below(4)) {
    case 0: return edges[below(sizeof edges / sizeof *edges)];
    case 1: return edges[below(sizeof edges / sizeof *edges)] + below(3) - 1;
    case 2: return below(64);
    default: return any() >> below(64);
    }
}

static uint32_t half(void) { return coin() ? (uint32_t)word() : (uint32_t)(word() - below(3)); }

/* Mostly a time that a wait allows. */
static uint64_t nanos(void) { return chance(40) ? word() : chance(8) ? BOUND - below(2) : below(6) == 0 ? 0 : any() >> (2 + below(60)); }

/* ---- buffers of exactly so many bytes */

typedef struct { void *heap; void *guarded; } Exact;

/* The end stands against a page that can't be touched, and so does the begin where the size is whole pages. */
static void *against_a_page(size_t bytes)
{
    size_t page = (size_t)sysconf(_SC_PAGESIZE), body = (bytes + page - 1) / page * page;
    char *at = mmap(NULL, body + 2 * page, PROT_NONE, MAP_PRIVATE | MAP_ANONYMOUS, -1, 0);
    if (at == MAP_FAILED || (body != 0 && mprotect(at + page, body, PROT_READ | PROT_WRITE) != 0)) {
        perror("mmap");
        exit(2);
    }
    return at + page + body - bytes;
}

/* Lets the pages of such a buffer be written, or only read. */
static void protect(void *at, size_t bytes, int how)
{
    const uintptr_t page = (uintptr_t)sysconf(_SC_PAGESIZE), from = (uintptr_t)at / page * page;
    if (bytes != 0 && mprotect((void *)from, (uintptr_t)at + bytes - from, how) != 0) {
        perror("mprotect");
        exit(2);
    }
}

static Exact exact(size_t bytes)
{
    Exact e = { malloc(bytes), against_a_page(bytes) };
    if (e.heap == NULL)
        exit(2);
    return e;
}

static bool use_guarded;
static void *pick(Exact e) { return use_guarded ? e.guarded : e.heap; }

/* Bytes of any size, lent in one of three manners. */
#define EDGE 64
typedef struct {
    uint8_t *end, *amid; /* a page that can't be touched, and the middle of others */
    uint8_t *at, *heap, mark;
    size_t size, before, behind; /* and so many marks on either side */
} Area;

static Area area(size_t most)
{
    Area a = { .end = against_a_page(most + EDGE), .amid = malloc(most + 3 * EDGE) };
    if (a.amid == NULL)
        exit(2);
    a.end += most + EDGE;
    return a;
}

static void *lend(Area *a, const uint8_t *bytes, size_t size)
{
    const bool own = !use_guarded && coin();
    a->heap = own ? malloc(size) : NULL;
    if (own && a->heap == NULL)
        exit(2);
    a->at = own ? a->heap : use_guarded ? a->end - size : a->amid + EDGE + below(EDGE);
    a->size = size;
    a->before = own ? 0 : EDGE;
    a->behind = own || use_guarded ? 0 : EDGE;
    a->mark = (uint8_t)any();
    memset(a->at - a->before, a->mark, a->before);
    memcpy(a->at, bytes, size);
    memset(a->at + size, a->mark, a->behind);
    return a->at;
}

static const size_t place_counts[] = { PUDVIREZ_PLACES, 0, 1, 4095, 4097 };
static const size_t turn_counts[] = { 0, 1, 7, 8, 9, 16, 160 };
static const size_t call_counts[] = { 0, 1, 3, 16, 64 };
static Exact storages[5], turn_buffers[7], generation_buffers[5], probe_buffers[5], settle_buffers[5], mark_buffers[5], answer_buffers[5], records, pendings;
static Area saves_area, name_area;

static uint64_t zeros[4097], ones[4097], flags[4097], times[4097], edges[4097];

static void make_buffers(void)
{
    for (int i = 0; i < 5; i++)
        storages[i] = exact(8 * place_counts[i]);
    for (int i = 0; i < 7; i++)
        turn_buffers[i] = exact(8 * turn_counts[i]);
    for (int i = 0; i < 5; i++) {
        generation_buffers[i] = exact(8 * call_counts[i]);
        answer_buffers[i] = exact(8 * call_counts[i]);
        probe_buffers[i] = exact(call_counts[i]);
        settle_buffers[i] = exact(call_counts[i]);
        mark_buffers[i] = exact(call_counts[i]);
    }
    records = exact(sizeof(PudvirezBreaker));
    pendings = exact(sizeof(PudvirezPending));
    saves_area = area(SAVES_MOST);
    name_area = area(NAME_MOST);
    uint64_t t = 1000;
    for (int i = 0; i < 4097; i++) {
        ones[i] = 1;
        flags[i] = any() & 1;
        times[i] = t += below(4);
        edges[i] = word();
    }
}

/* ---- the functions, and the flags of each */

enum { BUILD, RECONFIGURE, RESTORE, ADMIT_AS, SETTLE, ABORT_AS, PERMIT_SUCCESS, PERMIT_FAILURE, PERMIT_DROPPED, PERMIT_CANCEL, RESET, RECORD_MANUAL, RELEASE_TRAIT_PROBE, TRY_ADMIT, ACQUIRE_COST,
       RESERVE, REFUND, FINISH_ALL, WAIT_START, WAIT_TURN, WAIT_RUN, WAIT_DROP, STILL_ADMITS, PREVIEW_SETTLE, PREVIEW_ABORT, PEEK, AVAILABLE, SAVE, CHECK_BLOCK, BOARD, IS_SOUND, FUNCTIONS };
static const char *const names[FUNCTIONS] = { "build", "reconfigure", "restore", "admit_as", "settle", "abort_as", "permit_success", "permit_failure", "permit_dropped", "permit_cancel", "reset",
       "record_manual", "release_trait_probe", "try_admit", "acquire_cost", "reserve", "refund", "finish_all", "wait_start", "wait_turn", "wait_run", "wait_drop", "still_admits",
       "preview_settle", "preview_abort", "peek", "available", "save", "check_block", "board", "is_sound" };

/* A flag of a function: via_trait, success, limited or marks; a ticket's or a batch's probe; a pending wait's probe, or settles. */
enum { MARK, PROBE, THIRD, SLOTS };
static const bool has_flag[FUNCTIONS][SLOTS] = {
    [ADMIT_AS] = { [MARK] = true },
    [SETTLE] = { [MARK] = true, [PROBE] = true },
    [ABORT_AS] = { [MARK] = true, [PROBE] = true },
    [PERMIT_SUCCESS] = { [PROBE] = true },
    [PERMIT_FAILURE] = { [PROBE] = true },
    [PERMIT_DROPPED] = { [PROBE] = true },
    [PERMIT_CANCEL] = { [PROBE] = true },
    [RECORD_MANUAL] = { [MARK] = true },
    [FINISH_ALL] = { [MARK] = true, [PROBE] = true, [THIRD] = true },
    [WAIT_START] = { [MARK] = true, [THIRD] = true },
    [WAIT_TURN] = { [THIRD] = true },
    [WAIT_RUN] = { [THIRD] = true },
    [WAIT_DROP] = { [THIRD] = true },
    [STILL_ADMITS] = { [PROBE] = true },
    [PREVIEW_SETTLE] = { [MARK] = true, [PROBE] = true },
    [PREVIEW_ABORT] = { [MARK] = true, [PROBE] = true },
};
static uint8_t next_byte[FUNCTIONS][SLOTS];
static uint64_t handed[FUNCTIONS][SLOTS][256];

/* 0, or each byte in turn. */
static uint8_t flag(int f, int slot)
{
    uint8_t byte = coin() ? 0 : next_byte[f][slot]++;
    handed[f][slot][byte] += has_flag[f][slot];
    return byte;
}

/* ---- what is lent in this round */

static int f;
static PudvirezBreaker *b;
static PudvirezPending *p;
static uint64_t *list, now;
static size_t places;

static double ratio(void)
{
    static const double some[] = { 0.0, -0.0, 1.0, 0.5, 0.25, 0x1p-1074, 0.9999999999999999 };
    return coin() ? some[below(7)] : (double)below(1001) / 1000.0;
}

/* A sound record and its list. */
static void draw_sound(void)
{
    PudvirezConfig c = { .kind = (uint8_t)(1 + below(3)), .cooldown_ms = coin() ? below(5000) : word() };
    PudvirezShared s = { .state = (uint8_t)below(3), .generation = coin() ? below(4) : word(), .run = half(), .open_until = coin() ? 1000 + below(9000) : word() };
    c.trials = chance(3) ? half() : 1 + (uint32_t)below(4);
    c.trials += c.trials == 0;
    c.required = 1 + (uint32_t)below(chance(2) ? c.trials : c.trials < 3 ? c.trials : 3);
    c.limit = 1 + (uint32_t)below(chance(3) ? 4096 : 8);
    if (c.kind == PUDVIREZ_POLICY_CONSECUTIVE && chance(2))
        c.limit = half() | 1;
    const uint64_t *from = zeros;
    if (c.kind == PUDVIREZ_POLICY_RATIO) {
        double r = ratio();
        memcpy(&c.ratio_bits, &r, 8);
        c.min_calls = (uint32_t)below(c.limit + 1);
        if (chance(3))
            c.limit = 4096;
        s.len = chance(3) ? c.limit : (uint32_t)below(c.limit + 1);
        from = chance(4) ? ones : chance(4) ? zeros : flags;
    } else if (c.kind == PUDVIREZ_POLICY_WINDOWED) {
        c.period_ms = coin() ? below(6000) : word();
        s.len = chance(2) ? 4096 : chance(2) ? (uint32_t)below(4097) : (uint32_t)below(9);
        from = chance(5) ? edges : chance(9) ? ones : times;
    }
    if (s.state == PUDVIREZ_STATE_HALF_OPEN) {
        s.counts.inflight = chance(3) ? c.trials : (uint32_t)below((uint64_t)c.trials + 1);
        s.counts.trait_probes = chance(4) ? half() : (uint32_t)below(3);
        s.counts.successes = chance(2) ? c.required - 1 : (uint32_t)below(c.required);
    }
    b->config = c;
    b->shared = s;
    size_t len = s.len < places ? s.len : places;
    memset(list, 0, 8 * places);
    memcpy(list, from + below(4097 - len + 1), 8 * len);
}

/* A Ratio list that just fills the blocks of its save, or has one item less or more. */
static void fill_blocks(void)
{
    if (b->config.kind != PUDVIREZ_POLICY_RATIO || places != PUDVIREZ_PLACES)
        return;
    b->config.limit = 4096;
    b->shared.len = (uint32_t)(496 * (1 + below(8)) - 86 + below(3) - 1);
    memset(list, 0, 8 * places);
    memcpy(list, flags, 8 * b->shared.len);
}

/* One field or place to any number. */
static void damage(void)
{
    PudvirezConfig *c = &b->config;
    PudvirezShared *s = &b->shared;
    switch (below(18)) {
    case 0: c->kind = (uint8_t)word(); break;
    case 1: c->limit = half(); break;
    case 2: c->ratio_bits = coin() ? any() : (uint64_t)below(4) << 62 | word() >> 2; break;
    case 3: c->min_calls = half(); break;
    case 4: c->period_ms = word(); break;
    case 5: c->trials = half(); break;
    case 6: c->required = half(); break;
    case 7: s->state = (uint8_t)word(); break;
    case 8: s->counts.inflight = half(); break;
    case 9: s->counts.trait_probes = half(); break;
    case 10: s->counts.successes = half(); break;
    case 11: s->len = half(); break;
    case 12: s->len += coin() ? 1 : UINT32_MAX; break;
    case 13: s->counts.inflight = c->trials + 1; break;
    case 14: s->counts.successes = c->required; break;
    case 15: c->cooldown_ms = word(); break;
    default:
        if (places != 0)
            list[coin() ? below(places) : s->len < places ? s->len : places - 1] = word();
    }
}

/* Any numbers everywhere. */
static void draw_wild(void)
{
    b->config = (PudvirezConfig){ (uint8_t)word(), half(), word(), half(), word(), word(), half(), half() };
    b->shared = (PudvirezShared){ (uint8_t)word(), word(), half(), { half(), half(), half() }, word(), half() };
    const uint64_t *all[] = { zeros, ones, flags, times, edges };
    memcpy(list, all[below(5)], 8 * places);
}

static void draw_pending(void)
{
    PudvirezWait w = { .phase = chance(12) ? word() : 1 + below(2), .limited = coin() ? below(2) : word(), .deadline = nanos(), .seen = nanos(), .due = nanos(), .zeros = below(7) };
    switch (below(24)) {
    case 0: w.deadline = (UINT64_C(1) << 63) + below(3) - 1; break;
    case 1: w.seen = BOUND + below(3) - 1; break;
    case 2: w.due = (UINT64_C(1) << 63) + w.seen + below(3) - 1; break;
    case 3: w.deadline = word(); break;
    case 4: w.seen = word(); break;
    case 5: w.due = word(); break;
    case 6: w.zeros = word(); break;
    default: break;
    }
    p->wait = w;
    p->ticket.generation = chance(3) ? word() : b->shared.generation;
    p->ticket.probe = flag(f, THIRD);
}

static PudvirezTurn draw_turn(void)
{
    uint64_t epoch = word();
    return (PudvirezTurn){ nanos(), epoch, chance(3) ? word() : epoch, chance(20) ? word() : 1 + below(3), chance(3) ? 0 : nanos(), coin() ? 0 : nanos(), nanos(), nanos() };
}

static PudvirezTicket draw_ticket(void) { return (PudvirezTicket){ chance(3) ? word() : b->shared.generation, flag(f, PROBE) }; }

static PudvirezSetting draw_setting(void)
{
    double r;
    uint64_t bits = word();
    memcpy(&r, &bits, 8);
    PudvirezSetting s = { .kind = chance(8) ? (uint8_t)word() : (uint8_t)(1 + below(3)), .limit = chance(2) ? (uint32_t)below(4100) : half(), .ratio = chance(3) ? ratio() : chance(2) ? NAN : r, .min_calls = half(),
                          .period_secs = word(), .period_nanos = half(), .cooldown_secs = word(), .cooldown_nanos = half(), .trials = half(), .required = half() };
    if (coin())
        s.period_nanos %= 1000000000;
    if (coin())
        s.cooldown_nanos %= 1000000000;
    return s;
}

/* ---- findings */

#define NUMBERS 16
static uint64_t counts[FUNCTIONS][NUMBERS], rows[FUNCTIONS][ROWS], several, fives, findings, round_number;

static void expect(bool holds, const char *what, uint64_t got, uint64_t want)
{
    if (holds)
        return;
    if (++findings <= 20)
        printf("FINDING in round %llu, %s: %s (%llu, expected %llu)\n", (unsigned long long)round_number, names[f], what, (unsigned long long)got, (unsigned long long)want);
}

static bool same_record(const PudvirezBreaker *x, const PudvirezBreaker *y)
{
    const PudvirezConfig *c = &x->config, *d = &y->config;
    const PudvirezShared *s = &x->shared, *t = &y->shared;
    return c->kind == d->kind && c->limit == d->limit && c->ratio_bits == d->ratio_bits && c->min_calls == d->min_calls && c->period_ms == d->period_ms && c->cooldown_ms == d->cooldown_ms
           && c->trials == d->trials && c->required == d->required && s->state == t->state && s->generation == t->generation && s->run == t->run && s->counts.inflight == t->counts.inflight
           && s->counts.trait_probes == t->counts.trait_probes && s->counts.successes == t->counts.successes && s->open_until == t->open_until && s->len == t->len;
}

static bool same_wait(const PudvirezWait *v, const PudvirezWait *w)
{
    return v->phase == w->phase && v->limited == w->limited && v->deadline == w->deadline && v->seen == w->seen && v->due == w->due && v->zeros == w->zeros;
}

/* ---- a round */

static Model model;

static Answer plain(PudvirezTold t) { return (Answer){ .number = t.number, .v1 = t.v1, .v2 = t.v2, .v3 = t.v3 }; }

/* A call on the model and on the archive: what is expected, and what was told. */
typedef struct {
    Answer want, got;
} Both;

/* The five arrays of a batch, mostly of one count. */
static Both finish_all(void)
{
    size_t k = below(5);
    void *at[5];
    Exact *from[5] = { generation_buffers, probe_buffers, settle_buffers, mark_buffers, answer_buffers };
    uint64_t expected[64];
    Batch x;
    for (int i = 0; i < 5; i++) {
        size_t m = chance(30) ? below(5) : k;
        x.counts[i] = call_counts[m];
        at[i] = pick(from[i][m]);
    }
    for (size_t i = 0; i < x.counts[0]; i++)
        ((uint64_t *)at[0])[i] = chance(3) ? word() : b->shared.generation + below(3);
    static const int slot[4] = { 0, PROBE, THIRD, MARK };
    for (int j = 1; j < 4; j++)
        for (size_t i = 0; i < x.counts[j]; i++)
            ((uint8_t *)at[j])[i] = flag(f, slot[j]);
    uint64_t *answers = at[4];
    for (size_t i = 0; i < x.counts[4]; i++)
        expected[i] = answers[i] = word();
    x.generations = at[0], x.probes = at[1], x.settles = at[2], x.marks = at[3], x.answers = expected;
    Both both = { .want = model_finish_all(&model, now, &x) };
    both.got = plain(pudvirez_finish_all(b, list, places, now, at[0], x.counts[0], at[1], x.counts[1], at[2], x.counts[2], at[3], x.counts[3], answers, x.counts[4]));
    for (size_t i = 0; i < x.counts[4]; i++) {
        expect(answers[i] == expected[i], "an answer", answers[i], expected[i]);
        fives += both.got.number == PUDVIREZ_TOLD_OK && answers[i] == PUDVIREZ_TOLD_FULL;
    }
    return both;
}

static Both run(uint32_t capacity)
{
    size_t k = below(7), numbers = turn_counts[k];
    uint64_t *turns = pick(turn_buffers[k]), limit = coin() ? below(25) : word();
    for (size_t i = 0; i + 8 <= numbers; i += 8) {
        PudvirezTurn turn = draw_turn();
        if (coin())
            turn.kind = PUDVIREZ_REPLY_RETRY;
        memcpy(turns + i, &turn, sizeof turn);
    }
    for (size_t i = numbers / 8 * 8; i < numbers; i++)
        turns[i] = word();
    Answer want = model_wait_run(&model, turns, numbers, limit, now, capacity);
    return (Both){ want, pudvirez_wait_run(b, list, places, p, turns, numbers, limit, now, capacity) };
}

#define BOTH(on_model, on_archive) (Both){ on_model, on_archive }
#define TOLD(on_model, on_archive) BOTH(on_model, plain(on_archive))

static Both wait_call(void)
{
    const uint32_t capacity = half();
    const uint64_t clock = chance(9) ? word() : nanos(), timeout = chance(9) ? BOUND + below(3) - 1 : nanos();
    const PudvirezTurn turn = draw_turn();
    switch (f) {
    case WAIT_START: {
        const uint8_t limited = flag(f, MARK);
        return BOTH(model_wait_start(&model, now, clock, limited != 0, timeout), pudvirez_wait_start(b, list, places, p, now, clock, limited, timeout));
    }
    case WAIT_TURN: return BOTH(model_wait_turn(&model, &turn, now, capacity), pudvirez_wait_turn(b, list, places, p, turn, now, capacity));
    case WAIT_RUN: return run(capacity);
    default: return BOTH(model_wait_drop(&model), pudvirez_wait_drop(b, list, places, p));
    }
}

/* What would be told; what would be left is held against the model here. */
static Both preview(PudvirezPreview want, PudvirezPreview got)
{
    expect(same_record(&got.breaker, &want.breaker), "the record of a preview", 1, 0);
    expect(got.len == want.len, "the length of a preview", got.len, want.len);
    return TOLD(plain(want.told), got.told);
}

/* ---- saves */

static Saves saves;
static Model other;

/* The names differ in one or two bytes, 0 and 127 among them. */
#define KNOWN 128
static void put_name(uint8_t *to, size_t which)
{
    memset(to, 'a', PUDVIREZ_NAME);
    to[which % 8] = (uint8_t)(which < 8 ? 0 : which < 16 ? 127 : 'A' + which / 8);
}

/* Another breaker, with a list that so many blocks have room for; now and then one that is not sound. */
static void draw_other(size_t blocks)
{
    PudvirezBreaker *const lent = b;
    uint64_t *const lent_list = list;
    const size_t lent_places = places, most = blocks * 496 - 86;
    b = &other.breaker, list = other.list, places = other.places = PUDVIREZ_PLACES;
    draw_sound();
    PudvirezShared *s = &b->shared;
    const bool ratio = b->config.kind == PUDVIREZ_POLICY_RATIO;
    if (chance(4))
        fill_blocks();
    if (s->len > most / (ratio ? 1 : 8))
        s->len = (uint32_t)(most / (ratio ? 1 : 8));
    memset(list + s->len, 0, 8 * (PUDVIREZ_PLACES - s->len));
    if (chance(24))
        damage();
    b = lent, list = lent_list, places = lent_places;
}

/* Runs of names from the first one on, within so many blocks; how many runs. */
static size_t draw_runs(size_t blocks, size_t first)
{
    size_t runs = 0;
    while (saves.used / PUDVIREZ_BLOCK < blocks && runs < KNOWN && (runs == 0 || !chance(5))) {
        const size_t left = blocks - saves.used / PUDVIREZ_BLOCK;
        uint8_t name[PUDVIREZ_NAME];
        put_name(name, (first + (chance(40) ? 0 : runs)) % KNOWN);
        if (chance(60))
            name[below(PUDVIREZ_NAME)] |= 128;
        draw_other(chance(3) ? left : 1 + below(left < 4 ? left : 4));
        if (run_blocks(&other) > left)
            break;
        write_run(saves.bytes + saves.used, name, &other);
        saves.used += PUDVIREZ_BLOCK * run_blocks(&other);
        runs++;
    }
    return runs;
}

static void damage_header(uint8_t *block)
{
    const size_t used = coin() ? 495 + below(4) : (size_t)(block[6] | block[7] << 8) + 1;
    switch (below(6)) {
    case 0: block[2 + below(6)] = (uint8_t)word(); break;
    case 1: block[2 + 2 * below(3)] += coin() ? 1 : 255; break;
    case 2: block[2] = (uint8_t)below(3); break;
    case 3: memcpy(block + 2, block + 4, 2); break;
    case 4: memset(block + 6, 0, 2 + (coin() ? 0 : 496)); break;
    default: block[6] = (uint8_t)used, block[7] = (uint8_t)(used >> 8);
    }
}

/* Damages one block. Where it goes on, the sum is made right again. */
static void damage_block(uint8_t *block)
{
    const size_t used = block[6] | block[7] << 8;
    switch (below(9)) {
    case 0: block[below(PUDVIREZ_BLOCK)] ^= (uint8_t)(1 + below(255)); return;
    case 1: block[508 + below(4)] += coin() ? 1 : 255; return;
    case 2: block[504 + below(4)] = (uint8_t)word(); return;
    case 3: block[below(2)] = (uint8_t)(coin() ? below(5) : word()); break;
    case 4:
    case 5: damage_header(block); break;
    case 6: block[8 + below(86)] = (uint8_t)word(); break;
    case 7: block[8 + below(496)] ^= (uint8_t)(1 + below(255)); break;
    default: block[coin() ? 503 : 8 + used % 496] ^= (uint8_t)(1 + below(255)); break;
    }
    seal(block);
}

static void damage_saves(void)
{
    const size_t count = saves.used / PUDVIREZ_BLOCK;
    if (count == 0)
        return;
    uint8_t *block = saves.bytes + PUDVIREZ_BLOCK * below(count);
    switch (below(12)) {
    case 0: memmove(block, saves.bytes + PUDVIREZ_BLOCK * below(count), PUDVIREZ_BLOCK); break;
    case 1: saves.used -= PUDVIREZ_BLOCK; break;
    case 2: saves.used += count < 128 ? PUDVIREZ_BLOCK : 0; break; /* a block of an earlier round */
    default: damage_block(block);
    }
}

/* Lengths that the first pass refuses, mostly. */
static void draw_lengths(void)
{
    static const size_t some[] = { 0, 1, 511, 513, 65024, 65535, 65537, 66048, 131072, SAVES_MOST };
    if (coin())
        saves.size = coin() ? some[below(10)] : below(SAVES_MOST + 1);
    else
        saves.used = coin() ? word() : chance(2) ? saves.size + PUDVIREZ_BLOCK : saves.used + below(3) - 1;
}

/* Asked for: mostly a name that makes the call go on. */
static void draw_asked(size_t first, size_t runs)
{
    static const size_t some[] = { 0, 1, 7, 9, 16, NAME_MOST };
    const bool there = runs != 0 && (f == RESTORE) == !chance(8);
    memset(saves.name, 'a', NAME_MOST);
    put_name(saves.name, (first + (there ? below(runs) : runs)) % KNOWN);
    if (runs != 0 && chance(12)) { /* one byte off a name that is there */
        put_name(saves.name, (first + below(runs)) % KNOWN);
        saves.name[below(PUDVIREZ_NAME)] ^= 1;
    }
    if (chance(16))
        saves.name[below(PUDVIREZ_NAME)] |= 128;
    if (chance(30))
        for (int i = 0; i < NAME_MOST; i++)
            saves.name[i] = (uint8_t)any();
    saves.name_size = chance(12) ? (coin() ? some[below(6)] : below(NAME_MOST + 1)) : PUDVIREZ_NAME;
}

/* Any bytes from a place on, in most blocks with the version, the sum or both made right. */
static void draw_bytes(size_t from)
{
    for (size_t i = from; i < saves.size; i++)
        saves.bytes[i] = (uint8_t)any();
    for (size_t i = from; i < saves.size && saves.size - i >= PUDVIREZ_BLOCK; i += PUDVIREZ_BLOCK) {
        if (!chance(4))
            saves.bytes[i] = 1, saves.bytes[i + 1] = 0;
        if (!chance(6))
            seal(saves.bytes + i);
    }
}

/* A buffer with room for the breaker in hand, mostly. Behind what is used are any bytes, or those of an earlier round. */
static void draw_saves(void)
{
    const size_t need = f == SAVE ? run_blocks(&model) : 1, most = chance(8) ? 128 : 128 - need, first = below(KNOWN);
    const bool wild = chance(12);
    saves.used = 0;
    const size_t runs = wild ? 0 : draw_runs(chance(6) ? most : below(most < 16 ? most + 1 : 16), first);
    for (size_t i = coin() ? 0 : coin() ? 1 : 1 + below(4); i > 0; i--)
        damage_saves();
    const size_t left = 128 - saves.used / PUDVIREZ_BLOCK, spare = chance(6) ? below(need) : need + (coin() ? 0 : below(6));
    saves.size = saves.used + PUDVIREZ_BLOCK * (spare < left ? spare : left);
    if (wild)
        saves.used = PUDVIREZ_BLOCK * below(saves.size / PUDVIREZ_BLOCK + 1);
    if (chance(16))
        draw_lengths();
    if (wild || coin())
        draw_bytes(wild ? 0 : saves.used);
    draw_asked(first, runs);
}

/* What was lent must be as the model left it, and the bytes next to it as they were. */
static void take_back(Area *a, const uint8_t *bytes, const char *what)
{
    bool stayed = true;
    for (size_t i = 1; i <= a->before; i++)
        stayed &= a->at[-(ptrdiff_t)i] == a->mark;
    for (size_t i = 0; i < a->behind; i++)
        stayed &= a->at[a->size + i] == a->mark;
    expect(memcmp(a->at, bytes, a->size) == 0, what, 1, 0);
    expect(stayed, "a byte next to a buffer", 1, 0);
    free(a->heap);
}

static Both saves_call(void)
{
    draw_saves();
    uint8_t *bytes = lend(&saves_area, saves.bytes, saves.size);
    const uint8_t *name = lend(&name_area, saves.name, saves.name_size);
    const size_t size = saves.size, used = saves.used, name_size = saves.name_size;
    const Both both = f == SAVE ? TOLD(model_save(&model, &saves), pudvirez_save(b, list, places, bytes, size, used, name, name_size))
                                : TOLD(model_restore(&model, &saves), pudvirez_restore(b, list, places, bytes, size, used, name, name_size));
    take_back(&saves_area, saves.bytes, "a byte of the saves");
    take_back(&name_area, saves.name, "a byte of the name");
    return both;
}

/* One block, mostly of a run, and damaged in two of three rounds. */
static Both check_block(void)
{
    static const size_t some[] = { 0, 1, 511, 513, 1024 };
    const size_t size = chance(8) ? (coin() ? some[below(5)] : below(1025)) : PUDVIREZ_BLOCK;
    for (size_t i = 0; i < 1024; i++)
        saves.bytes[i] = (uint8_t)any();
    draw_other(128);
    if (!chance(8)) {
        static uint8_t run[128 * PUDVIREZ_BLOCK];
        write_run(run, saves.bytes, &other);
        memcpy(saves.bytes, run + PUDVIREZ_BLOCK * below(run_blocks(&other)), PUDVIREZ_BLOCK);
    } else if (coin())
        seal(saves.bytes);
    for (size_t i = below(3); i > 0; i--)
        damage_block(saves.bytes);
    const uint8_t *block = lend(&saves_area, saves.bytes, size);
    const Both both = TOLD(model_check_block(saves.bytes, size), pudvirez_check_block(block, size));
    take_back(&saves_area, saves.bytes, "a byte of the block");
    return both;
}

/* ---- the other calls */

/* The calls with a ticket or a flag. */
static Both ticket_call(void)
{
    const PudvirezTicket t = draw_ticket();
    const uint8_t mark = flag(f, MARK);
    switch (f) {
    case ADMIT_AS: return TOLD(model_admit(&model, now, mark != 0), pudvirez_admit_as(b, list, places, now, mark));
    case SETTLE: return TOLD(model_settle(&model, now, t, mark != 0), pudvirez_settle(b, list, places, now, t, mark));
    case ABORT_AS: return TOLD(model_abort(&model, t, mark != 0), pudvirez_abort_as(b, list, places, t, mark));
    case PERMIT_SUCCESS: return TOLD(model_settle(&model, now, t, true), pudvirez_permit_success(b, list, places, now, t));
    case PERMIT_FAILURE: return TOLD(model_settle(&model, now, t, false), pudvirez_permit_failure(b, list, places, now, t));
    case PERMIT_DROPPED: return TOLD(model_settle(&model, now, t, false), pudvirez_permit_dropped(b, list, places, now, t));
    case PERMIT_CANCEL: return TOLD(model_cancel(&model, t), pudvirez_permit_cancel(b, list, places, t));
    case RECORD_MANUAL: return TOLD(model_manual(&model, now, mark != 0), pudvirez_record_manual(b, list, places, now, mark));
    case PREVIEW_SETTLE: return preview(model_preview_settle(&model, now, t, mark != 0), pudvirez_preview_settle(b, list, places, now, t, mark));
    case PREVIEW_ABORT: return preview(model_preview_abort(&model, t, mark != 0), pudvirez_preview_abort(b, list, places, t, mark));
    default: return TOLD(model_still_admits(&model, now, t), pudvirez_still_admits(b, list, places, now, t));
    }
}

static Both other_call(void)
{
    const uint8_t kind = chance(6) ? (uint8_t)word() : (uint8_t)(1 + below(3)), reserved = (uint8_t)(kind - 1);
    const uint64_t ms = word();
    const uint32_t number = half();
    const PudvirezSetting setting = draw_setting();
    switch (f) {
    case BUILD: return TOLD(model_build(&model, &setting), pudvirez_build(b, list, places, setting));
    case RECONFIGURE: return TOLD(model_reconfigure(&model, &setting), pudvirez_reconfigure(b, list, places, setting));
    case RESET: return TOLD(model_reset(&model), pudvirez_reset(b, list, places));
    case RELEASE_TRAIT_PROBE: return TOLD(model_refund(&model, 0), pudvirez_release_trait_probe(b, list, places));
    case TRY_ADMIT: return TOLD(model_try_admit(&model, now, kind, number), pudvirez_try_admit(b, list, places, now, kind, ms, number));
    case ACQUIRE_COST: return TOLD(model_acquire_cost(&model, now, kind, ms), pudvirez_acquire_cost(b, list, places, now, kind, ms));
    case RESERVE: return TOLD(model_reserve(&model, now, reserved, ms), pudvirez_reserve(b, list, places, now, reserved, ms));
    case REFUND: return TOLD(model_refund(&model, number), pudvirez_refund(b, list, places, number));
    case PEEK: return TOLD(model_peek(&model, now, kind, ms), pudvirez_peek(b, list, places, now, kind, ms));
    case AVAILABLE: return TOLD(model_available(&model, now, kind, number), pudvirez_available(b, list, places, now, kind, ms, number));
    case BOARD: return TOLD(model_board(&model), pudvirez_board(b, list, places));
    default: {
        Answer want = { .number = model_sound(&model) ? PUDVIREZ_TOLD_OK : PUDVIREZ_TOLD_UNSOUND };
        return BOTH(want, { .number = pudvirez_is_sound(b, list, places) ? PUDVIREZ_TOLD_OK : PUDVIREZ_TOLD_UNSOUND });
    }
    }
}

/* What is lent to one call. */
static void draw(void)
{
    f = (int)below(FUNCTIONS);
    use_guarded = coin();
    size_t which = chance(10) ? 1 + below(4) : 0;
    places = place_counts[which];
    list = pick(storages[which]);
    b = pick(records);
    p = pick(pendings);
    now = coin() ? 1000 + below(9000) : word();
    if (chance(16))
        draw_wild();
    else {
        draw_sound();
        if (f == SAVE && chance(4))
            fill_blocks();
        if (coin())
            damage();
    }
    draw_pending();
    model.breaker = *b;
    model.pending = *p;
    model.places = places;
    memcpy(model.list, list, 8 * places);
    met_several = false;
    met_row = ROW_NONE;
}

static Both call(void)
{
    const bool tickets = has_flag[f][MARK] || has_flag[f][PROBE], saved = f == SAVE || f == RESTORE;
    return f == FINISH_ALL ? finish_all() : f >= WAIT_START && f <= WAIT_DROP ? wait_call() : tickets ? ticket_call() : saved ? saves_call() : f == CHECK_BLOCK ? check_block() : other_call();
}

/* A call, on pages that it can only read if that is all it may do. */
static Both call_on_pages(void)
{
    const bool reads = use_guarded && f >= STILL_ADMITS;
    if (!reads)
        return call();
    protect(b, sizeof *b, PROT_READ);
    protect(list, 8 * places, PROT_READ);
    const Both both = call();
    protect(b, sizeof *b, PROT_READ | PROT_WRITE);
    protect(list, 8 * places, PROT_READ | PROT_WRITE);
    return both;
}

static void one_round(void)
{
    draw();
    const Both both = call_on_pages();
    const Answer got = both.got, want = both.want;
    expect(got.number == want.number, "the number", got.number, want.number);
    expect(got.v1 == want.v1, "v1", got.v1, want.v1);
    expect(got.v2 == want.v2, "v2", got.v2, want.v2);
    expect(got.v3 == want.v3, "v3", got.v3, want.v3);
    expect(got.v4 == want.v4, "v4", got.v4, want.v4);
    expect(got.taken == want.taken, "turns taken", got.taken, want.taken);
    expect(same_record(b, &model.breaker), "the record", 1, 0);
    expect(memcmp(list, model.list, 8 * places) == 0, "a place", 1, 0);
    expect(same_wait(&p->wait, &model.pending.wait), "the wait", 1, 0);
    expect(p->ticket.generation == model.pending.ticket.generation, "the generation of the wait's ticket", p->ticket.generation, model.pending.ticket.generation);
    expect(p->ticket.probe == model.pending.ticket.probe, "the probe byte of the wait's ticket", p->ticket.probe, model.pending.ticket.probe);
    const bool sound = model_sound(&model);
    expect(pudvirez_is_sound(b, list, places) == sound, "soundness after it", !sound, sound);
    if (f != CHECK_BLOCK && (got.number == PUDVIREZ_TOLD_OK || (f != BUILD && got.number > PUDVIREZ_TOLD_UNSOUND)))
        expect(sound, "not sound after it", 0, 1);
    counts[f][got.number < NUMBERS ? got.number : 0] += 1;
    rows[f][met_row] += 1;
    several += met_several;
}

/* Every flag must have been every byte. */
static void all_bytes(void)
{
    int all = 0, whole = 0;
    for (f = 0; f < FUNCTIONS; f++)
        for (int slot = 0; slot < SLOTS; slot++) {
            int bytes = 0;
            for (int byte = 0; byte < 256; byte++)
                bytes += handed[f][slot][byte] != 0;
            all += has_flag[f][slot];
            whole += bytes == 256;
            expect(!has_flag[f][slot] || bytes == 256, "bytes that a flag was", (uint64_t)bytes, 256);
        }
    printf("%d of %d flags were every byte\n", whole, all);
}

/* Every row of saves must have been met by every call that can meet it. */
static void all_rows(void)
{
    static const char *const row_names[ROWS] = { "told 0", "13 lengths", "13 sum", "14 version", "13 header", "13 zero byte", "13 body", "13 not sound", "13 name twice", "15 not 8 bytes",
                                                 "15 not ASCII", "15 absent", "15 already there", "15 no room" };
    static const int calls[] = { SAVE, RESTORE, CHECK_BLOCK };
    printf("%-20s %10s %10s %10s\n", "rows of saves", names[SAVE], names[RESTORE], names[CHECK_BLOCK]);
    for (int row = 0; row < ROWS; row++) {
        printf("%-20s", row_names[row]);
        for (int i = 0; i < 3; i++) {
            f = calls[i];
            const bool can = f == CHECK_BLOCK ? row <= ROW_ZERO : f == SAVE ? row != ROW_ABSENT : row != ROW_THERE && row != ROW_NO_ROOM;
            const uint64_t met = row == ROW_NONE ? counts[f][PUDVIREZ_TOLD_OK] : rows[f][row];
            printf(" %10llu", (unsigned long long)met);
            expect(can == (met != 0), row_names[row], met, can);
        }
        printf("\n");
    }
    f = RECONFIGURE;
    for (int number = PUDVIREZ_TOLD_OK; number <= PUDVIREZ_TOLD_UNSOUND; number++)
        expect(counts[f][number] != 0, "met by no call", (uint64_t)number, 1);
}

static void print_counts(void)
{
    printf("%-20s", "told");
    for (int n = 0; n < NUMBERS; n++)
        if (n != 12) /* of the journal */
            printf(" %7d", n);
    for (f = 0; f < FUNCTIONS; f++) {
        printf("\n%-20s", names[f]);
        for (int n = 0; n < NUMBERS; n++)
            if (n != 12)
                printf(counts[f][n] == 0 ? "       -" : " %7llu", (unsigned long long)counts[f][n]);
    }
    printf("\nin batches %llu calls were told 5\n", (unsigned long long)fives);
}

int main(int argc, char **argv)
{
    if (argc != 3) {
        fputs("usage: any ROUNDS SEED\n", stderr);
        return 2;
    }
    const uint64_t rounds = strtoull(argv[1], NULL, 10);
    seed = strtoull(argv[2], NULL, 10);
    setvbuf(stdout, NULL, _IOLBF, 0);
    make_buffers();
    for (round_number = 1; round_number <= rounds; round_number++)
        one_round();
    print_counts();
    all_bytes();
    all_rows();
    printf("%llu rounds of seed %s, %llu of them with several causes at once; %llu findings\n", (unsigned long long)rounds, argv[2], (unsigned long long)several, (unsigned long long)findings);
    return findings == 0 ? 0 : 1;
}
