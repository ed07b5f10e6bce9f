/* The same calls in every floating-point mode of x86-64: the four roundings, each without and with FTZ and DAZ.
 *
 * In each mode it holds against whole numbers: which ratio bits are sound, what a ratio becomes, and which k failures of n calls trip at
 * their quotient and at both its neighbours. The first two must come out the same in every mode; the trips in the default mode, and in the
 * others it says how many do not. Nothing is computed in floating point here. Exits 0 only without a finding. */
#include <stdio.h>
#include <string.h>
#include <xmmintrin.h>

#include "pudvirez.h"

#define ONE UINT64_C(0x3ff0000000000000)
#define MINUS_ZERO UINT64_C(0x8000000000000000)
#define INFINITE UINT64_C(0x7ff0000000000000)
#define FTZ_DAZ 0x8040u
#define MODES 8
enum { WORDS = 20000, CALLS = 60 };

__extension__ typedef unsigned __int128 Wide;

static const char *const modes[MODES] = { "to nearest (the default)", "downward", "upward", "toward zero", "to nearest, FTZ and DAZ", "downward, FTZ and DAZ", "upward, FTZ and DAZ", "toward zero, FTZ and DAZ" };
static PudvirezBreaker b;
static uint64_t list[PUDVIREZ_PLACES], seed;

static unsigned control(int mode) { return (_mm_getcsr() & ~(0x6000u | FTZ_DAZ)) | (unsigned)(mode % 4) << 13 | (mode < 4 ? 0 : FTZ_DAZ); }

static uint64_t any(void)
{
    uint64_t z = seed += UINT64_C(0x9e3779b97f4a7c15);
    z = (z ^ z >> 30) * UINT64_C(0xbf58476d1ce4e5b9);
    return z ^ z >> 27;
}

/* Bits about every edge, of both signs, and any. */
static uint64_t word(int i)
{
    static const uint64_t edges[] = { 0, 1, UINT64_C(0x000fffffffffffff), UINT64_C(0x0010000000000000), UINT64_C(0x3fe0000000000000), ONE, UINT64_C(0x4022000000000000), INFINITE, UINT64_C(0x7ff8000000000000) };
    const int n = sizeof edges / sizeof *edges;
    return i < 6 * n ? (edges[i / 6] + (uint64_t)(i % 3) - 1) ^ (i % 6 < 3 ? 0 : MINUS_ZERO) : any();
}

static PudvirezSetting ratio_setting(uint64_t bits, uint32_t window)
{
    PudvirezSetting s = { .kind = PUDVIREZ_POLICY_RATIO, .limit = window, .min_calls = window, .cooldown_secs = 1, .trials = 1, .required = 1 };
    memcpy(&s.ratio, &bits, 8);
    return s;
}

/* ---- by whole numbers */

static bool sound(uint64_t bits) { return bits <= ONE || bits == MINUS_ZERO; }

static uint64_t normal(uint64_t bits)
{
    bool nan = (bits & ~MINUS_ZERO) > INFINITE;
    return nan ? ONE : bits > MINUS_ZERO ? 0 : bits > ONE && bits != MINUS_ZERO ? ONE : bits;
}

/* k by n, rounded once to nearest, ties to even; 0 < k <= n. */
static uint64_t quotient(uint64_t k, uint64_t n)
{
    unsigned shift = 0;
    while (((Wide)k << shift) / n < (Wide)1 << 52)
        shift++;
    uint64_t q = (uint64_t)(((Wide)k << shift) / n), rest = (uint64_t)(((Wide)k << shift) % n);
    q += 2 * rest > n || (2 * rest == n && q % 2 == 1);
    return q + ((UINT64_C(1023) + 52 - shift - 1) << 52);
}

/* ---- by the archive, in a mode */

#ifdef FAULT /* for trial: a soundness test by floats, with --wrap=pudvirez_is_sound for the linker */
bool __wrap_pudvirez_is_sound(const PudvirezBreaker *breaker, const uint64_t *places, size_t count);
bool __wrap_pudvirez_is_sound(const PudvirezBreaker *breaker, const uint64_t *places, size_t count)
{
    double ratio;
    memcpy(&ratio, &breaker->config.ratio_bits, 8);
    return places != NULL && count == PUDVIREZ_PLACES && ratio >= 0.0 && ratio <= 1.0;
}
#endif

static bool opens(uint64_t bits, uint32_t k, uint32_t n, unsigned csr)
{
    const unsigned before = _mm_getcsr();
    _mm_setcsr(csr);
    pudvirez_build(&b, list, PUDVIREZ_PLACES, ratio_setting(bits, n));
    for (uint32_t i = 0; i < n; i++)
        pudvirez_record_manual(&b, list, PUDVIREZ_PLACES, i, i < n - k);
    _mm_setcsr(before);
    return b.shared.state == PUDVIREZ_STATE_OPEN;
}

static unsigned long soundness_moved(unsigned csr)
{
    unsigned long moved = 0;
    seed = 1;
    for (int i = 0; i < WORDS; i++) {
        const uint64_t bits = word(i);
        const unsigned before = _mm_getcsr();
        pudvirez_build(&b, list, PUDVIREZ_PLACES, ratio_setting(ONE, 3));
        b.config.ratio_bits = bits;
        _mm_setcsr(csr);
        const bool says = pudvirez_is_sound(&b, list, PUDVIREZ_PLACES);
        const uint32_t told = pudvirez_admit_as(&b, list, PUDVIREZ_PLACES, 0, 0).number;
        _mm_setcsr(before);
        moved += says != sound(bits) || told != (sound(bits) ? PUDVIREZ_TOLD_OK : PUDVIREZ_TOLD_UNSOUND);
    }
    return moved;
}

static unsigned long normalising_moved(unsigned csr)
{
    unsigned long moved = 0;
    seed = 1;
    for (int i = 0; i < WORDS; i++) {
        const uint64_t bits = word(i);
        const unsigned before = _mm_getcsr();
        _mm_setcsr(csr);
        const uint32_t told = pudvirez_build(&b, list, PUDVIREZ_PLACES, ratio_setting(bits, 3)).number;
        _mm_setcsr(before);
        moved += told != PUDVIREZ_TOLD_OK || b.config.ratio_bits != normal(bits);
    }
    return moved;
}

/* At each quotient the calls trip, one above it they don't, one below they do. */
static unsigned long trips_moved(unsigned csr, unsigned long *cases)
{
    unsigned long moved = 0;
    *cases = 0;
    for (uint32_t n = 1; n <= CALLS; n++)
        for (uint32_t k = 1; k <= n; k++)
            for (int near = -1; near <= 1; near++) {
                const uint64_t q = quotient(k, n), bits = q + (uint64_t)near;
                if (bits > ONE)
                    continue;
                moved += opens(bits, k, n, csr) != (q >= bits);
                *cases += 1;
            }
    return moved;
}

int main(void)
{
    const unsigned start = _mm_getcsr();
    unsigned long findings = 0, cases = 0;
    printf("this program began with FTZ %u, DAZ %u\n", start >> 15 & 1, start >> 6 & 1);
    printf("%-28s %10s %12s %6s  S S F at 3fd5555555555556\n", "moved", "soundness", "normalising", "trips");
    for (int mode = 0; mode < MODES; mode++) {
        const unsigned csr = control(mode);
        const unsigned long s = soundness_moved(csr), r = normalising_moved(csr), t = trips_moved(csr, &cases);
        const bool open = opens(UINT64_C(0x3fd5555555555556), 1, 3, csr);
        printf("%-28s %10lu %12lu %6lu  %s\n", modes[mode], s, r, t, open ? "Open" : "Closed");
        findings += s + r + (mode == 0 ? t : 0);
    }
    printf("of %d ratios and %lu trips each; %lu findings\n", WORDS, cases, findings);
    return findings == 0 ? 0 : 1;
}
