/* W-201 of document 02 a second time; see saves.h. The numbers and blocks come first, then the writer, the reader and the calls. */
#include "saves.h"

#include <string.h>

#define BLOCK PUDVIREZ_BLOCK
#define NAME PUDVIREZ_NAME
#define HEAD 8
#define BODY 496
#define RECORD 78
#define TAIL (HEAD + BODY)
#define SUM_AT 508
#define BLOCKS (PUDVIREZ_SAVES / BLOCK)

int met_row;

/* ---- "Numbers are little-endian" */

static uint8_t *put(uint8_t *to, uint64_t number, int width)
{
    for (int i = 0; i < width; i++)
        *to++ = (uint8_t)(number >> 8 * i);
    return to;
}

static uint64_t get(const uint8_t **from, int width)
{
    uint64_t number = 0;
    for (int i = 0; i < width; i++)
        number |= (uint64_t)*(*from)++ << 8 * i;
    return number;
}

static uint64_t number_at(const uint8_t *at, int width) { return get(&at, width); }

/* ---- one block */

static uint64_t version_of(const uint8_t *block) { return number_at(block, 2); }
static uint64_t index_of(const uint8_t *block) { return number_at(block + 2, 2); }
static uint64_t count_of(const uint8_t *block) { return number_at(block + 4, 2); }
static uint64_t used_of(const uint8_t *block) { return number_at(block + 6, 2); }

static uint32_t sum_of(const uint8_t *block)
{
    uint32_t sum = 0;
    for (uint32_t i = 0; i < TAIL; i++)
        sum += block[i] * (i + 1);
    return sum;
}

void seal(uint8_t *block) { put(block + SUM_AT, sum_of(block), 4); }

static bool wrong_sum(const uint8_t *block) { return number_at(block + SUM_AT, 4) != sum_of(block); }

/* "no block is empty, and none but the last is part full" */
static bool wrong_header(const uint8_t *block)
{
    uint64_t index = index_of(block), count = count_of(block), used = used_of(block);
    return index >= count || used == 0 || used > BODY || (index + 1 != count && used != BODY);
}

/* "unused ones and 504 to 507 are 0"; of a header that is not wrong. */
static bool wrong_zero(const uint8_t *block)
{
    for (size_t i = HEAD + used_of(block); i < SUM_AT; i++)
        if (block[i] != 0)
            return true;
    return false;
}

/* ---- the writer */

static size_t item_width(uint8_t kind) { return kind == PUDVIREZ_POLICY_RATIO ? 1 : kind == PUDVIREZ_POLICY_WINDOWED ? 8 : 0; }

static size_t items_of(const Model *m) { return m->breaker.shared.len < PUDVIREZ_PLACES ? m->breaker.shared.len : PUDVIREZ_PLACES; }

static size_t joined_size(const Model *m) { return NAME + RECORD + items_of(m) * item_width(m->breaker.config.kind); }

size_t run_blocks(const Model *m) { return (joined_size(m) + BODY - 1) / BODY; }

/* "the record in document 01's order" */
static uint8_t *put_record(uint8_t *to, const PudvirezBreaker *b)
{
    const PudvirezConfig *c = &b->config;
    const PudvirezShared *s = &b->shared;
    to = put(to, c->kind, 1);
    to = put(to, c->limit, 4);
    to = put(to, c->ratio_bits, 8);
    to = put(to, c->min_calls, 4);
    to = put(to, c->period_ms, 8);
    to = put(to, c->cooldown_ms, 8);
    to = put(to, c->trials, 4);
    to = put(to, c->required, 4);
    to = put(to, s->state, 1);
    to = put(to, s->generation, 8);
    to = put(to, s->run, 4);
    to = put(to, s->counts.inflight, 4);
    to = put(to, s->counts.trait_probes, 4);
    to = put(to, s->counts.successes, 4);
    to = put(to, s->open_until, 8);
    return put(to, s->len, 4);
}

static void write_block(uint8_t *to, size_t index, size_t count, const uint8_t *body, size_t used)
{
    memset(to, 0, BLOCK);
    put(to, 1, 2);
    put(to + 2, index, 2);
    put(to + 4, count, 2);
    put(to + 6, used, 2);
    memcpy(to + HEAD, body, used);
    seal(to);
}

static uint8_t joined[BLOCKS * BODY];

void write_run(uint8_t *to, const uint8_t *name, const Model *m)
{
    const size_t all = joined_size(m), count = run_blocks(m);
    memcpy(joined, name, NAME);
    uint8_t *at = put_record(joined + NAME, &m->breaker);
    for (size_t i = 0; i < items_of(m); i++)
        at = put(at, m->list[i], (int)item_width(m->breaker.config.kind));
    for (size_t i = 0; i < count; i++)
        write_block(to + i * BLOCK, i, count, joined + i * BODY, i + 1 == count ? all - i * BODY : BODY);
}

/* ---- the reader */

static bool ascii(const uint8_t *name)
{
    for (int i = 0; i < NAME; i++)
        if (name[i] >= 128)
            return false;
    return true;
}

static void get_record(PudvirezBreaker *b, const uint8_t *from)
{
    PudvirezConfig *c = &b->config;
    PudvirezShared *s = &b->shared;
    c->kind = (uint8_t)get(&from, 1);
    c->limit = (uint32_t)get(&from, 4);
    c->ratio_bits = get(&from, 8);
    c->min_calls = (uint32_t)get(&from, 4);
    c->period_ms = get(&from, 8);
    c->cooldown_ms = get(&from, 8);
    c->trials = (uint32_t)get(&from, 4);
    c->required = (uint32_t)get(&from, 4);
    s->state = (uint8_t)get(&from, 1);
    s->generation = get(&from, 8);
    s->run = (uint32_t)get(&from, 4);
    s->counts.inflight = (uint32_t)get(&from, 4);
    s->counts.trait_probes = (uint32_t)get(&from, 4);
    s->counts.successes = (uint32_t)get(&from, 4);
    s->open_until = get(&from, 8);
    s->len = (uint32_t)get(&from, 4);
}

/* What was read of a run. */
static uint8_t stored_name[NAME];
static Model stored;

/* How many blocks the run that begins here has, or 0 where it doesn't begin, go on or end as it should. */
static size_t run_at(const uint8_t *at, size_t left)
{
    const uint64_t count = count_of(at);
    if (count > left)
        return 0;
    for (uint64_t i = 0; i < count; i++, at += BLOCK)
        if (wrong_header(at) || index_of(at) != i || count_of(at) != count)
            return 0;
    return count;
}

/* Reads the run of so many blocks; what is wrong with its body. */
static int read_run(const uint8_t *at, size_t count)
{
    size_t all = 0;
    for (size_t i = 0; i < count; i++, at += BLOCK) {
        memcpy(joined + all, at + HEAD, used_of(at));
        all += used_of(at);
    }
    if (all < NAME + RECORD || !ascii(joined))
        return ROW_BODY;
    memcpy(stored_name, joined, NAME);
    get_record(&stored.breaker, joined + NAME);
    memset(stored.list, 0, sizeof stored.list);
    stored.places = PUDVIREZ_PLACES;
    const uint8_t *item = joined + NAME + RECORD;
    const uint64_t width = item_width(stored.breaker.config.kind), len = stored.breaker.shared.len;
    if (width == 0 || len > PUDVIREZ_PLACES)
        return !model_sound(&stored) ? ROW_UNSOUND : all != NAME + RECORD ? ROW_BODY : ROW_NONE;
    if (all != NAME + RECORD + len * width)
        return ROW_BODY;
    for (uint64_t i = 0; i < len; i++) {
        stored.list[i] = get(&item, (int)width);
        if (width == 1 && stored.list[i] > 1)
            return ROW_BODY;
    }
    return model_sound(&stored) ? ROW_NONE : ROW_UNSOUND;
}

/* ---- the passes, each over all used blocks */

/* "a buffer over 65,536 bytes, a used length past it, either not whole blocks, or a wrong sum" */
static int first_pass(const Saves *s)
{
    if (s->size > PUDVIREZ_SAVES || s->used > s->size || s->size % BLOCK != 0 || s->used % BLOCK != 0)
        return ROW_LENGTHS;
    for (size_t i = 0; i < s->used; i += BLOCK)
        if (wrong_sum(s->bytes + i))
            return ROW_SUM;
    return ROW_NONE;
}

static int version_pass(const Saves *s)
{
    for (size_t i = 0; i < s->used; i += BLOCK)
        if (version_of(s->bytes + i) != 1)
            return ROW_VERSION;
    return ROW_NONE;
}

static int headers_and_zeros(const Saves *s)
{
    for (size_t i = 0; i < s->used;) {
        size_t count = run_at(s->bytes + i, (s->used - i) / BLOCK);
        if (count == 0)
            return ROW_HEADER;
        i += count * BLOCK;
    }
    for (size_t i = 0; i < s->used; i += BLOCK)
        if (wrong_zero(s->bytes + i))
            return ROW_ZERO;
    return ROW_NONE;
}

/* "a wrong header, body or zero byte, a name twice or a record that isn't sound" */
static int last_pass(const Saves *s)
{
    static uint8_t names[BLOCKS][NAME];
    size_t runs = 0;
    int row = headers_and_zeros(s);
    for (size_t i = 0; row == ROW_NONE && i < s->used; runs++) {
        size_t count = run_at(s->bytes + i, (s->used - i) / BLOCK);
        row = read_run(s->bytes + i, count);
        memcpy(names[runs], stored_name, NAME);
        i += count * BLOCK;
    }
    for (size_t i = 0; row == ROW_NONE && i < runs; i++)
        for (size_t j = 0; j < i; j++)
            if (memcmp(names[i], names[j], NAME) == 0)
                row = ROW_TWICE;
    return row;
}

/* Reads the run of the asked name, of blocks that are all right; whether there is one. */
static bool find(const Saves *s)
{
    for (size_t i = 0; i < s->used;) {
        size_t count = run_at(s->bytes + i, (s->used - i) / BLOCK);
        read_run(s->bytes + i, count);
        if (memcmp(stored_name, s->name, NAME) == 0)
            return true;
        i += count * BLOCK;
    }
    return false;
}

/* What is wrong with the asked name, as far as the blocks can be read. */
static int name_pass(const Model *m, const Saves *s, bool saving, bool readable)
{
    if (s->name_size != NAME)
        return ROW_NOT_8;
    if (!ascii(s->name))
        return ROW_NOT_ASCII;
    if (!readable)
        return ROW_NONE;
    if (find(s) == saving)
        return saving ? ROW_THERE : ROW_ABSENT;
    return saving && run_blocks(m) * BLOCK > s->size - s->used ? ROW_NO_ROOM : ROW_NONE;
}

/* ---- the calls */

static uint32_t number_of(int row)
{
    return row == ROW_NONE ? PUDVIREZ_TOLD_OK : row == ROW_VERSION ? PUDVIREZ_TOLD_VERSION : row >= ROW_NOT_8 ? PUDVIREZ_TOLD_NAME : PUDVIREZ_TOLD_DAMAGED;
}

/* The first row that is met; whether others would be met too. */
static int first_of(const int *rows, int passes)
{
    int first = ROW_NONE, met = 0;
    for (int i = 0; i < passes; i++) {
        first = first == ROW_NONE ? rows[i] : first;
        met += rows[i] != ROW_NONE;
    }
    met_several |= met > 1;
    return first;
}

/* "Straight after 4 come, in this order, each over all used blocks" */
static uint32_t refused(const Model *m, const Saves *s, bool saving)
{
    int rows[4] = { first_pass(s) };
    const uint32_t before = model_refusal(m);
    if (rows[0] != ROW_LENGTHS) {
        rows[1] = version_pass(s);
        rows[2] = last_pass(s);
    }
    rows[3] = name_pass(m, s, saving, before == 0 && rows[0] == ROW_NONE && rows[1] == ROW_NONE && rows[2] == ROW_NONE);
    met_row = first_of(rows, 4);
    met_several |= before != 0 && met_row != ROW_NONE;
    if (before != 0)
        met_row = ROW_NONE;
    return before != 0 ? before : number_of(met_row);
}

/* "put at the used length, handed in"; "the used length after it is returned" */
Answer model_save(Model *m, Saves *s)
{
    const uint32_t number = refused(m, s, true);
    if (number != PUDVIREZ_TOLD_OK)
        return (Answer){ .number = number };
    write_run(s->bytes + s->used, s->name, m);
    return (Answer){ .v1 = s->used + run_blocks(m) * BLOCK };
}

/* "all that was saved, except that the generation becomes one past the present one, and inflight and trait probes are 0" */
Answer model_restore(Model *m, const Saves *s)
{
    const uint32_t number = refused(m, s, false);
    if (number != PUDVIREZ_TOLD_OK)
        return (Answer){ .number = number };
    const uint64_t present = m->breaker.shared.generation;
    find(s);
    m->breaker = stored.breaker;
    m->breaker.shared.generation = present + 1;
    m->breaker.shared.counts.inflight = 0;
    m->breaker.shared.counts.trait_probes = 0;
    memcpy(m->list, stored.list, sizeof m->list);
    return (Answer){ .number = PUDVIREZ_TOLD_OK };
}

/* "A check that passes gives back the used body as a part of the caller's block." */
Answer model_check_block(const uint8_t *block, size_t size)
{
    int rows[3] = { size != BLOCK ? ROW_LENGTHS : wrong_sum(block) ? ROW_SUM : ROW_NONE };
    if (rows[0] != ROW_LENGTHS) {
        rows[1] = version_of(block) != 1 ? ROW_VERSION : ROW_NONE;
        rows[2] = wrong_header(block) ? ROW_HEADER : wrong_zero(block) ? ROW_ZERO : ROW_NONE;
    }
    met_several = false;
    met_row = first_of(rows, 3);
    if (met_row != ROW_NONE)
        return (Answer){ .number = number_of(met_row) };
    return (Answer){ .v1 = HEAD, .v2 = used_of(block) };
}
