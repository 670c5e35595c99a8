/* Every base and number of digits, and pairs whose product wraps to a lawful one: they must be refused all the same. */
#include "calls.h"

#include <inttypes.h>

static void test_numbers_with(const struct call *call, struct numbers n, struct gadget gadget)
{
    struct arguments a = {0};
    at("%s, N = %" PRIu64 ": g = %" PRIu64 ", L = %" PRIu64, call->name, n.N, gadget.g, gadget.L);
    n.g = gadget.g;
    n.L = gadget.L;
    lawful(&a, call, n, 64 * gadget.g + gadget.L);
    if (lawful_gadget(gadget))
        accept_or_9(&a);
    else
        refuse(&a, 2);
    free_arguments(&a);
}

/* A lookup is also tried with a higher limit, and without selectors, where its gadget is judged all the same. */
static void test_gadget(const struct call *call, uint64_t N, struct gadget gadget)
{
    struct numbers n = usual(call, N);
    test_numbers_with(call, n, gadget);
    if (call->packing == NO_TABLE)
        return;
    n.M = 2;
    n.d = 1;
    test_numbers_with(call, n, gadget);
    n.d = 0;
    test_numbers_with(call, n, gadget);
}

/* With one factor given: the other from where the product first passes so many bits. */
static void test_wrapped(const struct call *call, uint64_t factor, unsigned bits)
{
    uint64_t first = (UINT64_MAX >> (64 - bits)) / factor + 1;
    for (uint64_t more = 0; more <= 8; more++) {
        test_gadget(call, 4, (struct gadget){factor, first + more});
        test_gadget(call, 4, (struct gadget){first + more, factor});
    }
}

static void test_call(const struct call *call)
{
    const uint64_t large[] = {UINT64_C(1) << 16, UINT64_C(1) << 32, UINT64_C(1) << 33, UINT64_C(1) << 63, UINT64_MAX};
    const size_t count = sizeof large / sizeof large[0];
    for (uint64_t g = 0; g <= 34; g++)
        for (uint64_t L = 0; L <= 34; L++) {
            test_gadget(call, 1, (struct gadget){g, L});
            test_gadget(call, 4, (struct gadget){g, L});
        }
    for (uint64_t factor = 2; factor <= 32; factor++)
        for (unsigned bits = 8; bits <= 64; bits *= 2)
            test_wrapped(call, factor, bits);
    for (size_t i = 0; i < count; i++)
        for (size_t j = 0; j < count; j++)
            test_gadget(call, 4, (struct gadget){large[i], large[j]});
}

void test_gadgets(void)
{
    for (size_t c = 0; all_calls[c]; c++)
        if (can_refuse(all_calls[c], 2))
            test_call(all_calls[c]);
}
