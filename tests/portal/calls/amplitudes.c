/* Declared amplitudes and the bounds that follow from them, for every gadget: only sizes above 2^31 are refused. */
#include "calls.h"

#include <inttypes.h>
#include <string.h>

static const uint64_t limit = UINT64_C(0x80000000);

void all_zero(struct arguments *a, const struct call *call, struct numbers n)
{
    lawful(a, call, n, 1);
    for (size_t k = 0; k < call->slices - call->written; k++)
        memset(a->slice[k].at, 0, a->slice[k].length);
}

static uint64_t greater(uint64_t x, uint64_t y)
{
    return x > y ? x : y;
}

static void test_bound(const struct call *call, struct numbers n)
{
    static const uint32_t zero[2048];
    struct arguments a = {0};
    uint64_t charge = charge_of(n, n.A);
    at("%s: the bound", call->name);
    all_zero(&a, call, n);
    if (call == &cmux)
        make_call(&a, (struct answer){0, greater(n.A0, n.A1) + charge, 1});
    else
        make_call(&a, (struct answer){0, n.B + charge, 0});
    check_written(&a, zero, 2 * n.N);
    free_arguments(&a);
}

/* Every lawful gadget at the least and the greatest degrees, with amplitudes up to the limit, and weights in turn. */
static void test_bounds(const struct call *call)
{
    const uint64_t degrees[] = {1, 2, 64, 1024}, amplitudes[] = {0, 1, limit};
    for (uint64_t g = 1; g <= 16; g++)
        for (uint64_t L = 1; g * L <= 32; L++)
            for (size_t d = 0; d < 4; d++)
                for (size_t i = 0; i < 3; i++) {
                    struct numbers n = usual(call, degrees[d]);
                    n.g = g;
                    n.L = L;
                    n.W = weight_in_turn(n, i);
                    n.A = amplitudes[i];
                    n.B = n.A1 = amplitudes[(i + 1) % 3];
                    n.A0 = amplitudes[(i + 2) % 3];
                    test_bound(call, n);
                }
}

/* All amplitudes that the call takes, each at and next to the limit: one above it is enough to refuse. */
static void test_together(const struct call *call, struct numbers n, const char *letters)
{
    const uint64_t values[] = {0, limit - 1, limit, limit + 1, 2 * limit, 2 * limit + 1};
    struct arguments a = {0};
    if (*letters) {
        for (size_t i = 0; i < sizeof values / sizeof values[0]; i++) {
            *value_of(&n, *letters) = values[i];
            test_together(call, n, letters + 1);
        }
        return;
    }
    if (n.A <= limit && n.B <= limit && n.A0 <= limit && n.A1 <= limit) {
        test_bound(call, n);
        return;
    }
    at("%s: an amplitude above 2147483648", call->name);
    lawful(&a, call, n, 1);
    refuse(&a, 6);
    free_arguments(&a);
}

void test_amplitudes(void)
{
    test_together(&external_product, usual(&external_product, 2), "AB");
    test_together(&cmux, usual(&cmux, 2), "A01");
    test_bounds(&external_product);
    test_bounds(&cmux);
}
