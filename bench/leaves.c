// Times the list leaves beside plain C loops: the least of many runs, in nanoseconds a call.
#include <stdbool.h>
#include <stdint.h>
#include <stdio.h>
#include <string.h>
#include <time.h>

bool leaf_sound(const uint64_t *list, size_t n, uint32_t len, uint32_t window);
uint64_t leaf_failures(const uint64_t *list, size_t n, uint32_t first, uint32_t len);
uint32_t leaf_recent(const uint64_t *list, size_t n, uint32_t first, uint32_t len, uint64_t cutoff);
uint32_t leaf_expired(const uint64_t *list, size_t n, uint32_t len, uint64_t cutoff);
uint32_t leaf_turn_over(uint64_t *list, size_t n, uint32_t len, uint32_t gone, uint64_t item);

enum { PLACES = 4096, RUNS = 41, CALLS = 4000 };
static uint64_t list[PLACES];
static volatile uint64_t sink;

static double now_ns(void) {
    struct timespec t;
    clock_gettime(CLOCK_MONOTONIC, &t);
    return 1e9 * (double)t.tv_sec + (double)t.tv_nsec;
}

__attribute__((noinline)) static uint64_t c_or(const uint64_t *s, size_t n) {
    uint64_t bits = 0;
    for (size_t i = 0; i < n; i++) bits |= s[i];
    return bits;
}

__attribute__((noinline)) static uint64_t c_sum(const uint64_t *s, size_t n) {
    uint64_t sum = 0;
    for (size_t i = 0; i < n; i++) sum += s[i];
    return sum;
}

__attribute__((noinline)) static uint64_t c_recent(const uint64_t *s, size_t n, uint64_t cutoff) {
    uint64_t count = 0;
    for (size_t i = 0; i < n; i++) count += s[i] >= cutoff;
    return count;
}

__attribute__((noinline)) static void c_push(uint64_t *s, size_t n, uint64_t v) {
    memmove(s, s + 1, (n - 1) * sizeof *s);
    s[n - 1] = v;
}

#define TIME(label, call)                                              \
    do {                                                               \
        double least = 1e18;                                           \
        for (int r = 0; r < RUNS; r++) {                               \
            double t = now_ns();                                       \
            for (uint64_t i = 0; i < CALLS; i++) { sink += (call); }   \
            t = (now_ns() - t) / CALLS;                                \
            if (t < least) least = t;                                  \
        }                                                              \
        printf("%-44s %8.1f ns\n", label, least);                      \
    } while (0)

int main(void) {
    for (size_t i = 0; i < PLACES; i++) list[i] = i % 2;
    TIME("sound_list, 4,096 outcomes", leaf_sound(list, PLACES, PLACES, PLACES));
    TIME("  C: or of 4,096", c_or(list, PLACES));
    TIME("count_failures, 4,096 outcomes", leaf_failures(list, PLACES, 0, PLACES));
    TIME("count_failures, 4,096 outcomes but the first", leaf_failures(list, PLACES, 1, PLACES));
    TIME("  C: sum of 4,096", c_sum(list, PLACES));
    TIME("turn_over, 4,096 items, 1 gone", leaf_turn_over(list, PLACES, PLACES, 1, i % 2));
    TIME("  C: memmove of 4,095 and a store", (c_push(list, PLACES, i % 2), 0));
    for (size_t i = 0; i < PLACES; i++) list[i] = i < 100 ? i % 2 : 0;
    TIME("sound_list, 100 outcomes", leaf_sound(list, PLACES, 100, 100));
    TIME("count_failures, 100 outcomes", leaf_failures(list, PLACES, 0, 100));
    TIME("turn_over, 100 items, 1 gone", leaf_turn_over(list, PLACES, 100, 1, i % 2));
    for (size_t i = 0; i < PLACES; i++) list[i] = 1000 + i;
    TIME("count_recent, 4,096 times, all recent", leaf_recent(list, PLACES, 0, PLACES, list[0]));
    TIME("count_recent, 4,096 times, not all", leaf_recent(list, PLACES, 0, PLACES, 3000));
    TIME("  C: count of 4,096 by a comparison", c_recent(list, PLACES, 3000));
    TIME("count_expired, 4,096 times, 1 gone", leaf_expired(list, PLACES, PLACES, 1001));
    TIME("count_expired, 4,096 times, all gone", leaf_expired(list, PLACES, PLACES, 9999));
    return 0;
}
