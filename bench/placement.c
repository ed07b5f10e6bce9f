// Times pudvirez_is_sound for lists of several lengths: the least of 400 runs of 400 calls, in nanoseconds a call.
#include <stdio.h>
#include <time.h>

#include "pudvirez.h"

enum { RUNS = 400, CALLS = 400 };
static _Alignas(64) uint64_t list[PUDVIREZ_PLACES];
static volatile unsigned sink;

static double now_ns(void) {
    struct timespec t;
    clock_gettime(CLOCK_MONOTONIC, &t);
    return 1e9 * (double)t.tv_sec + (double)t.tv_nsec;
}

static double least(const PudvirezBreaker *b) {
    double least = 1e18;
    for (int r = 0; r < RUNS; r++) {
        double t = now_ns();
        for (int i = 0; i < CALLS; i++) sink += pudvirez_is_sound(b, list, PUDVIREZ_PLACES);
        t = (now_ns() - t) / CALLS;
        if (t < least) least = t;
    }
    return least;
}

int main(void) {
    static const uint32_t lengths[] = {0, 1, 99, 100, 2048, 2049, 4096};
    PudvirezBreaker b;
    PudvirezSetting setting = {.kind = PUDVIREZ_POLICY_RATIO, .limit = PUDVIREZ_PLACES, .ratio = 1.0, .trials = 1, .required = 1};
    if (pudvirez_build(&b, list, PUDVIREZ_PLACES, setting).number != PUDVIREZ_TOLD_OK) return 1;
    for (size_t i = 0; i < sizeof lengths / sizeof *lengths; i++) {
        b.shared.len = lengths[i];
        if (!pudvirez_is_sound(&b, list, PUDVIREZ_PLACES)) return 1;
        printf(" | %.0f", least(&b));
    }
    puts(" |");
    return 0;
}
