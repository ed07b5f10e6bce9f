// Times saves, returns and checks of blocks beside what summing and copying the same bytes takes in C, in turns: the least and the median
// of many short runs, in nanoseconds a call. Then measures how deep each call's stack goes.
#include <pthread.h>
#include <stdio.h>
#include <stdlib.h>
#include <string.h>
#include <time.h>

#include "pudvirez.h"

enum { RUNS = 401, RUN_NS = 60000, SUMMED = 504, BLOCKS = PUDVIREZ_SAVES / PUDVIREZ_BLOCK, STACK = 1 << 20, BODY = 496, HEAD = 86 };

// A buffer of saves, the breaker that a call is made on, and what the C beside it sums and copies.
typedef struct {
    size_t used; // blocks, before the call
    size_t run; // blocks that a save adds
    size_t body; // bytes that are copied
    const char *name; // asked for
    uint32_t told; // expected
    PudvirezBreaker breaker;
    _Alignas(64) uint64_t list[PUDVIREZ_PLACES];
    _Alignas(64) uint8_t buffer[PUDVIREZ_SAVES];
} Scene;

static Scene scene;
static _Alignas(64) uint8_t copied[PUDVIREZ_SAVES];
static volatile uint64_t sink;

static double now_ns(void) {
    struct timespec t;
    clock_gettime(CLOCK_MONOTONIC, &t);
    return 1e9 * (double)t.tv_sec + (double)t.tv_nsec;
}

static void need(bool right, const char *what) {
    if (!right) {
        fprintf(stderr, "saves: %s\n", what);
        exit(1);
    }
}

// ---- C: what is measured against

__attribute__((noinline)) static uint32_t c_sum(const uint8_t *block) {
    uint32_t sum = 0;
    for (uint32_t i = 0; i < SUMMED; i++) sum += block[i] * (i + 1);
    return sum;
}

// The same with a position of 16 bits, which lets gcc multiply 16-bit numbers.
__attribute__((noinline)) static uint32_t c_sum_narrow(const uint8_t *block) {
    uint32_t sum = 0;
    for (uint16_t i = 0; i < SUMMED; i++) sum += (uint32_t)block[i] * (uint16_t)(i + 1);
    return sum;
}

static uint32_t c_sums(const uint8_t *blocks, size_t n) {
    uint32_t all = 0;
    for (size_t i = 0; i < n; i++) all ^= c_sum(blocks + i * PUDVIREZ_BLOCK);
    return all;
}

__attribute__((noinline)) static void c_copy(void *to, const void *from, size_t n) {
    memcpy(to, from, n);
    __asm__ volatile("" : : "r"(to) : "memory"); // it is read
}

static uint64_t floor_of(Scene *s) {
    uint32_t all = c_sums(s->buffer, s->used + s->run);
    if (s->body) c_copy(copied, s->run ? (void *)s->list : (void *)s->buffer, s->body);
    return all;
}

// ---- ours

static const uint8_t *bytes_of(const char *name) { return (const uint8_t *)name; }

static PudvirezTold do_save(Scene *s) {
    return pudvirez_save(&s->breaker, s->list, PUDVIREZ_PLACES, s->buffer, PUDVIREZ_SAVES, s->used * PUDVIREZ_BLOCK, bytes_of(s->name), PUDVIREZ_NAME);
}

static PudvirezTold do_restore(Scene *s) {
    return pudvirez_restore(&s->breaker, s->list, PUDVIREZ_PLACES, s->buffer, PUDVIREZ_SAVES, s->used * PUDVIREZ_BLOCK, bytes_of(s->name), PUDVIREZ_NAME);
}

// No call of ours: C again, to be timed beside C.
static PudvirezTold do_narrow(Scene *s) {
    PudvirezTold all = {0};
    for (size_t i = 0; i < s->used; i++) all.v1 ^= c_sum_narrow(s->buffer + i * PUDVIREZ_BLOCK);
    return all;
}

static PudvirezTold do_check(Scene *s) {
    PudvirezTold all = {0};
    for (size_t i = 0; i < s->used; i++) {
        PudvirezTold t = pudvirez_check_block(s->buffer + i * PUDVIREZ_BLOCK, PUDVIREZ_BLOCK);
        all.number |= t.number;
        all.v1 += t.v2;
    }
    return all;
}

typedef PudvirezTold Call(Scene *s);

// ---- scenes

// A breaker with this many items: outcomes under Ratio, times under Windowed, none under Consecutive.
static void make(uint8_t kind, uint32_t items) {
    PudvirezSetting setting = {.kind = kind, .limit = kind == PUDVIREZ_POLICY_CONSECUTIVE ? 5 : PUDVIREZ_PLACES, .ratio = 1.0, .min_calls = PUDVIREZ_PLACES,
                               .period_secs = 1000000, .cooldown_secs = 30, .trials = 2, .required = 2};
    need(pudvirez_build(&scene.breaker, scene.list, PUDVIREZ_PLACES, setting).number == PUDVIREZ_TOLD_OK, "build");
    for (uint32_t i = 0; i < items; i++) scene.list[i] = kind == PUDVIREZ_POLICY_RATIO ? i % 2 : 1700000000000 + 977 * (uint64_t)i;
    scene.breaker.shared.len = items;
    need(pudvirez_is_sound(&scene.breaker, scene.list, PUDVIREZ_PLACES), "sound");
}

static size_t blocks_of(size_t body) { return (body + BODY - 1) / BODY; }

static void add(const char *name, uint8_t kind, uint32_t items) {
    make(kind, items);
    scene.name = name;
    PudvirezTold t = do_save(&scene);
    need(t.number == PUDVIREZ_TOLD_OK, "a save of the scene");
    need(t.v1 / PUDVIREZ_BLOCK - scene.used == blocks_of(HEAD + items * (kind == PUDVIREZ_POLICY_WINDOWED ? 8u : 1u)), "a run of the scene");
    scene.used = t.v1 / PUDVIREZ_BLOCK;
}

static void add_many(size_t n, uint8_t kind, uint32_t items) {
    static char names[BLOCKS][PUDVIREZ_NAME + 1];
    for (size_t i = 0; i < n; i++) {
        snprintf(names[i], sizeof names[i], "desk%04u", (unsigned)(i & 0xfff));
        add(names[i], kind, items);
    }
}

static void empty(void) {
    scene.used = scene.run = scene.body = 0;
    memset(scene.buffer, 0, sizeof scene.buffer);
}

enum { C = PUDVIREZ_POLICY_CONSECUTIVE, R = PUDVIREZ_POLICY_RATIO, W = PUDVIREZ_POLICY_WINDOWED };
// Items for a full block of outcomes, for 67 and for 61 blocks of times.
enum { ONE = BODY - HEAD, MOST = PUDVIREZ_PLACES, REST = (61 * BODY - HEAD) / 8 };

// ---- timing

static int ascending(const void *a, const void *b) {
    double x = *(const double *)a, y = *(const double *)b;
    return (x > y) - (x < y);
}

static double of_floor(int calls) {
    double t = now_ns();
    for (int i = 0; i < calls; i++) sink += floor_of(&scene);
    return (now_ns() - t) / calls;
}

static double of_call(Call *call, int calls) {
    double t = now_ns();
    for (int i = 0; i < calls; i++) {
        PudvirezTold told = call(&scene);
        sink += told.number + told.v1;
    }
    return (now_ns() - t) / calls;
}

static void row(const char *label, Call *call) {
    static double c[RUNS], ours[RUNS];
    PudvirezTold t = call(&scene);
    need(t.number == scene.told, label);
    for (size_t i = 0; i < scene.used + scene.run; i++) {
        const uint8_t *b = scene.buffer + i * PUDVIREZ_BLOCK;
        uint32_t stored = b[508] | (uint32_t)b[509] << 8 | (uint32_t)b[510] << 16 | (uint32_t)b[511] << 24;
        need(c_sum(b) == stored, "a stored sum");
    }
    int c_calls = 1 + (int)(RUN_NS / of_floor(20)), calls = 1 + (int)(RUN_NS / of_call(call, 20));
    for (int r = 0; r < RUNS; r++) {
        c[r] = of_floor(c_calls);
        ours[r] = of_call(call, calls);
    }
    qsort(c, RUNS, sizeof *c, ascending);
    qsort(ours, RUNS, sizeof *ours, ascending);
    printf("| %s | %.0f | %.0f | %.2f | %.0f | %.0f | %.2f |\n", label, c[0], ours[0], ours[0] / c[0], c[RUNS / 2], ours[RUNS / 2], ours[RUNS / 2] / c[RUNS / 2]);
    fflush(stdout);
}

// Judges what the scene holds: a return to an absent name, on a breaker whose own test reads nothing, and each block by itself.
static void judge(const char *label, const char *by_block) {
    scene.run = scene.body = 0;
    make(W, MOST);
    scene.name = "no such ";
    scene.told = PUDVIREZ_TOLD_NAME;
    row(label, do_restore);
    scene.told = PUDVIREZ_TOLD_OK;
    row(by_block, do_check);
}

static void save(const char *label, uint8_t kind, uint32_t items) {
    make(kind, items);
    scene.body = HEAD + items * (kind == W ? 8u : 1u);
    scene.run = blocks_of(scene.body);
    scene.name = "new save";
    scene.told = PUDVIREZ_TOLD_OK;
    row(label, do_save);
}

static void come_back(const char *label, const char *name, uint8_t kind, uint32_t items) {
    make(kind, items);
    scene.run = 0;
    scene.body = HEAD + items * (kind == W ? 8u : 1u);
    scene.name = name;
    scene.told = PUDVIREZ_TOLD_OK;
    row(label, do_restore);
}

// ---- stack

static uint8_t paint;
static Call *painted_call;
static size_t depth;
static _Alignas(4096) uint8_t stack[STACK];

// Calls, and finds the lowest byte of the painted stack that has been written.
static void *deep(void *nothing) {
    uint8_t *here = __builtin_frame_address(0), *at = stack;
    if (painted_call) sink += painted_call(&scene).number;
    while (*(volatile uint8_t *)at == paint) at++;
    depth = (size_t)(here - at);
    return nothing;
}

static size_t depth_of(Call *call) {
    size_t most = 0;
    for (int i = 0; i < 2; i++) {
        pthread_t thread;
        pthread_attr_t with;
        paint = i ? 0x5a : 0xa5;
        memset(stack, paint, STACK);
        painted_call = call;
        need(!pthread_attr_init(&with) && !pthread_attr_setstack(&with, stack, STACK), "a stack");
        need(!pthread_create(&thread, &with, deep, NULL) && !pthread_join(thread, NULL), "a thread");
        if (depth > most) most = depth;
    }
    return most;
}

static void stack_row(const char *label, Call *call) { printf("| %s | %zu |\n", label, depth_of(call)); }

int main(int argc, char **argv) {
    bool stack_only = argc > 1 && !strcmp(argv[1], "stack");
    if (!stack_only) {
        puts("| Call | C, least | ours, least | by C | C, median | ours, median | by C |");
        puts("|---|---|---|---|---|---|---|");
        empty(), add("one save", R, ONE);
        judge("judge 1 block, full", "check_block, 1 block, full");
        come_back("return to 1 block of 1", "one save", R, ONE);
        save("save of 67 blocks after 1", W, MOST);
        save("save of 1 block after 1", R, ONE);
        empty(), add("one save", C, 0);
        judge("judge 1 block of 86 bytes", "check_block, 1 block of 86 bytes");
        empty(), save("save of 67 blocks after 0", W, MOST);
        save("save of 1 block after 0", R, ONE);
        empty(), add("long one", W, MOST);
        judge("judge 67 blocks, one save", "check_block, 67 blocks");
        come_back("return to 67 blocks of 67", "long one", W, MOST);
        save("save of 61 blocks after 67", W, REST);
        save("save of 1 block after 67", R, ONE);
        empty(), add_many(67, R, ONE);
        judge("judge 67 blocks, 67 saves", "check_block, 67 blocks of 67 saves");
        empty(), add("long one", W, MOST), add("the rest", W, REST);
        judge("judge 128 blocks, saves of 67 and 61", "check_block, 128 blocks");
        come_back("return to 67 blocks of 128", "long one", W, MOST);
        scene.body = 0;
        row("(C with a position of 16 bits, 128 blocks)", do_narrow);
        empty(), add("long one", W, MOST), add_many(61, C, 0);
        judge("judge 128 blocks, a save of 67 and 61 of 86 bytes", "check_block, 128 blocks, 61 of 86 bytes");
        empty(), add_many(128, R, ONE);
        judge("judge 128 blocks, 128 saves, full", "check_block, 128 blocks of 128 saves");
        empty(), add_many(128, C, 0);
        judge("judge 128 blocks, 128 saves of 86 bytes", "check_block, 128 blocks of 86 bytes");
        puts("");
    }
    puts("| Call | bytes of stack |");
    puts("|---|---|");
    stack_row("none", NULL);
    empty(), add("one save", R, ONE);
    make(W, MOST), scene.name = "new save";
    need(do_save(&scene).number == PUDVIREZ_TOLD_OK, "a save");
    stack_row("save of 67 blocks after 1", do_save);
    empty(), add("long one", W, MOST), add("the rest", W, REST);
    scene.name = "long one";
    need(do_restore(&scene).number == PUDVIREZ_TOLD_OK, "a return");
    stack_row("return to 67 blocks of 128", do_restore);
    scene.name = "no such ";
    stack_row("return to an absent name of 128 blocks", do_restore);
    stack_row("check_block, 128 times", do_check);
    return 0;
}
