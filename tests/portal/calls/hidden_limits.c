/*
 * The bound of a lookup in a hidden table, for every gadget: the sum of the charges and, once, the greatest amplitude
 * of its samples, wherever that stands. A job with a bound of 2^31/M - 1 is accepted, and one with 2^31/M is refused
 * with 9, without selectors too.
 */
#include "calls.h"

#include <inttypes.h>

enum { MOST_GATES = 63 };

/* All words are 0 but the amplitudes: one of every selector, the greatest of one sample, half of that of the others. */
static void test_bound(const struct call *call, struct numbers n, uint32_t amplitude, size_t place, uint64_t greatest)
{
    static const uint32_t zero[256];
    struct arguments a = {0};
    uint64_t bound = n.d * charge_of(n, amplitude) + greatest;
    int accepted = bound < limit_of(n);
    at("%s: sample %zu has the greatest amplitude, %" PRIu64, call->name, place, greatest);
    all_zero(&a, call, n);
    for (size_t i = 0; i < n.d; i++)
        put_word(slice_of(&a, AMPLITUDES), i, amplitude);
    for (size_t t = 0; t < samples_of(call, n.N, n.d); t++)
        put_word(slice_of(&a, SAMPLE_AMPLITUDES), t, (uint32_t)(t == place ? greatest : greatest / 2));
    make_call(&a, (struct answer){accepted ? 0 : 9, bound, accepted ? gates_of(call, n.N, n.d) : 0});
    if (accepted)
        check_written(&a, zero, 2 * (size_t)(n.N * (n.d + 2)));
    free_arguments(&a);
}

/* The greatest amplitude of all; and both sides of the limit, if the charges are below it. Returns whether they are. */
static unsigned test_limit(const struct call *call, struct numbers n, uint32_t amplitude)
{
    uint64_t charges = n.d * charge_of(n, amplitude), limit = limit_of(n);
    size_t count = (size_t)samples_of(call, n.N, n.d);
    const size_t places[] = {0, count / 2, count - 1};
    for (size_t i = 0; i < 3; i++) {
        test_bound(call, n, amplitude, places[i], half_turn);
        if (charges < limit) {
            test_bound(call, n, amplitude, places[i], limit - charges - 1);
            test_bound(call, n, amplitude, places[i], limit - charges);
        }
    }
    return charges < limit;
}

static unsigned test_gadget(const struct call *call, struct gadget gadget)
{
    struct numbers n = {.s = 1, .g = gadget.g, .L = gadget.L};
    unsigned found = 0;
    for (n.N = 1; n.N <= 4; n.N *= 4)
        for (n.d = 0; n.d <= most_selectors(call) && gates_of(call, n.N, n.d) <= MOST_GATES; n.d++)
            for (n.M = 2; n.M <= 65536; n.M *= 8) {
                n.W = weight_in_turn(n, n.d);
                found += test_limit(call, n, 0) + test_limit(call, n, 3);
            }
    return found;
}

void test_hidden_limits(void)
{
    for (size_t c = 0; all_lookups[c]; c++) {
        unsigned found = 0;
        for (uint64_t g = 1; g <= 16 && is_hidden(all_lookups[c]); g++)
            for (uint64_t L = 1; g * L <= 32; L++)
                found += test_gadget(all_lookups[c], (struct gadget){g, L});
        at("%s: bounds at the limit", all_lookups[c]->name);
        check(!is_hidden(all_lookups[c]) || found > 1000, "only %u jobs have room for the noise of samples", found);
    }
}
