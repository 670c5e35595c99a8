/*
 * A lookup's bound: the sum of the charges for every gadget, and its limit 2^31/M. Below the limit a job is accepted;
 * from it on it is refused with 9. The whole sum is reported either way, wherever the limit was passed. The packing
 * makes no difference to this, nor does a hidden table whose samples have amplitude 0.
 */
#include "calls.h"

#include <inttypes.h>

/*
 * Jobs with more gates than this would take too long, tried with so many gadgets, and so would jobs in hidden tables
 * with more words in the rows of all gates. Hidden tables are charged alike, and have hidden_limits.c besides.
 */
static int is_short(const struct call *call, struct numbers n)
{
    const uint64_t most_gates = is_hidden(call) ? 63 : 2047, most_words = is_hidden(call) ? 1 << 15 : UINT64_MAX;
    if (n.d > most_selectors(call))
        return 0;
    uint64_t gates = gates_of(call, n.N, n.d);
    return gates <= most_gates && gates * n.L * n.N <= most_words;
}

/* A job with these amplitudes and this sum of charges. All other words are 0. */
static void test_sum(const struct call *call, struct numbers n, const uint32_t *amplitudes, uint64_t sum)
{
    static const uint32_t zero[24 * 1024];
    struct arguments a = {0};
    int accepted = sum < limit_of(n);
    all_zero(&a, call, n);
    set_words(slice_of(&a, AMPLITUDES), amplitudes, (size_t)n.d);
    make_call(&a, (struct answer){accepted ? 0 : 9, sum, accepted ? gates_of(call, n.N, n.d) : 0});
    if (accepted)
        check_written(&a, zero, 2 * (size_t)(n.N * (n.d + 2)));
    free_arguments(&a);
}

/* Amplitudes that are small, rising or falling; and 2^31 first, last or everywhere. */
enum pattern { NONE, ONES, RISING, FALLING, FIRST, LAST, ALL, PATTERNS };

static uint32_t amplitude_at(enum pattern pattern, uint64_t i, uint64_t d)
{
    const uint64_t amplitudes[] = {0, 1, i, d - i, i == 0 ? half_turn : 1, i + 1 == d ? half_turn : 1, half_turn};
    return (uint32_t)amplitudes[pattern];
}

static void test_patterns(const struct call *call, struct numbers n)
{
    uint32_t amplitudes[MAX_D];
    for (enum pattern pattern = NONE; pattern < PATTERNS; pattern++) {
        uint64_t sum = 0;
        for (uint64_t i = 0; i < n.d; i++) {
            amplitudes[i] = amplitude_at(pattern, i, n.d);
            sum += charge_of(n, amplitudes[i]);
        }
        at("%s: the bound, amplitudes of pattern %d", call->name, (int)pattern);
        test_sum(call, n, amplitudes, sum);
    }
}

static void test_sums(const struct call *call, struct gadget gadget)
{
    struct numbers n = {.s = 1, .g = gadget.g, .L = gadget.L};
    for (n.M = 2; n.M <= 65536; n.M *= 32768)
        for (n.N = 1; n.N <= 16; n.N *= 4)
            for (n.d = 0; is_short(call, n); n.d += 1 + n.d / 3) {
                n.W = weight_in_turn(n, n.d);
                test_patterns(call, n);
            }
    n.M = 16;
    n.N = 1024;
    n.d = 2;
    n.W = weight_in_turn(n, 0);
    test_patterns(call, n);
}

/* Amplitudes with this sum, each but the last a third of what is left. */
static void test_total(const struct call *call, struct numbers n, uint64_t total, uint64_t sum)
{
    uint32_t amplitudes[MAX_D];
    for (uint64_t i = 0; i < n.d; i++) {
        amplitudes[i] = (uint32_t)(i + 1 < n.d ? total / 3 : total);
        total -= amplitudes[i];
    }
    test_sum(call, n, amplitudes, sum);
}

/* The greatest total of amplitudes that is accepted, and the next one. */
static void test_step(const struct call *call, struct numbers n)
{
    uint64_t total = most_amplitudes(n), sum = n.d * rounding_of(n) + total * unit_of(n);
    at("%s: the greatest amplitudes, M = %" PRIu64, call->name, n.M);
    test_total(call, n, total, sum);
    test_total(call, n, total + 1, sum + unit_of(n));
}

static void test_steps(const struct call *call, struct gadget gadget)
{
    struct numbers n = {.s = 1, .g = gadget.g, .L = gadget.L};
    for (n.N = 1; n.N <= 8; n.N *= 8)
        for (n.d = 1; is_short(call, n); n.d += n.d)
            for (n.M = 2; n.M <= 65536; n.M *= 2) {
                n.W = weight_in_turn(n, n.M);
                test_step(call, n);
            }
}

/* Whether some total of amplitudes makes just this sum; it is then tried. */
static unsigned test_exact_sum(const struct call *call, struct numbers n, uint64_t sum)
{
    uint64_t rounding = n.d * rounding_of(n);
    if (sum < rounding || (sum - rounding) % unit_of(n))
        return 0;
    test_total(call, n, (sum - rounding) / unit_of(n), sum);
    return 1;
}

/*
 * Bounds at 2^31/M - 1, 2^31/M and 2^31/M + 1 exactly: of all small degrees, numbers of selectors and numbers of
 * classes, those for which some total of amplitudes makes just this sum.
 *
 * 2^31/M is even, and so is a charge but for its rounding, (1 + W)*E. So the two odd bounds need E = 1 and an even W,
 * that is g = 1, L = 31, and an odd number of selectors. They are rare, and are looked for with every weight.
 */
static unsigned test_exact(const struct call *call, struct gadget gadget, int64_t offset)
{
    struct numbers n = {.s = 1, .g = gadget.g, .L = gadget.L};
    unsigned found = 0;
    at("%s: a bound of 2^31/M + (%" PRId64 ")", call->name, offset);
    for (n.N = 1; n.N <= 8; n.N *= 2)
        for (n.d = 1; is_short(call, n); n.d++)
            for (n.M = 2; n.M <= 65536; n.M *= 2) {
                uint64_t sum = (uint64_t)((int64_t)limit_of(n) + offset);
                for (n.W = 0; n.W <= n.N; n.W++)
                    if (offset != 0 || n.W == weight_in_turn(n, n.M))
                        found += test_exact_sum(call, n, sum);
            }
    return found;
}

static void test_limits_of(const struct call *call)
{
    unsigned found[3] = {0};
    for (uint64_t g = 1; g <= 16; g++)
        for (uint64_t L = 1; g * L <= 32; L++) {
            struct gadget gadget = {g, L};
            test_sums(call, gadget);
            test_steps(call, gadget);
            for (int offset = -1; offset <= 1; offset++)
                found[offset + 1] += test_exact(call, gadget, offset);
        }
    at("%s: bounds at the limit", call->name);
    for (int offset = -1; offset <= 1; offset++)
        check(found[offset + 1] >= 3, "only %u bounds of 2^31/M + (%d) were found", found[offset + 1], offset);
}

void test_limits(void)
{
    for (size_t c = 0; all_lookups[c]; c++)
        test_limits_of(all_lookups[c]);
}
