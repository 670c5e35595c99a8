/*
 * Lawful arguments of every size: every call is accepted and writes what its formula says. Only a lookup's noise can be
 * too great, with few digits or many classes.
 */
#include "calls.h"

#include <inttypes.h>

static void accept_numbers(const struct call *call, struct numbers n)
{
    struct arguments a = {0};
    at("lawful: %s with N = %" PRIu64, call->name, n.N);
    lawful(&a, call, n, n.N + n.M + n.m);
    if (call->packing != NO_TABLE)
        accept_or_9(&a);
    else
        accept(&a);
    free_arguments(&a);
}

static void accept_classes(const struct call *call, uint64_t N)
{
    for (uint64_t M = 2; M <= 65536; M *= 2)
        for (uint64_t part = 0; part < 3; part++) {
            struct numbers n = usual(call, N);
            n.M = M;
            /* The first, a middle and the last value of s and of p. */
            n.s = part == 0 ? 1 : part == 1 ? (N + 1) / 2 : N;
            n.p = part * (N - 1) / 2;
            if (N <= 64 || M == 16 || M == 65536)
                accept_numbers(call, n);
        }
}

/* The least and the greatest g and L among them, and products g*L of 32 and below. */
static void accept_blocks(const struct call *call, uint64_t N)
{
    const struct gadget gadgets[] = {{8, 2}, {16, 2}, {1, 32}, {1, 1}, {16, 1}, {7, 3}, {4, 8}, {2, 15}};
    for (size_t i = 0; i < sizeof gadgets / sizeof gadgets[0]; i++) {
        struct numbers n = usual(call, N);
        n.g = gadgets[i].g;
        n.L = gadgets[i].L;
        n.m = i % 2;
        accept_numbers(call, n);
    }
}

/* Every number of selectors that doesn't take long, then every number of classes and of classes in an entry. */
static void accept_tables(const struct call *call, uint64_t N)
{
    const uint64_t most = UINT64_C(5) << 18;
    struct numbers n = usual(call, N);
    for (n.d = 0; n.d <= most_selectors(call) && gates_of(call, N, n.d) * N * N <= most; n.d++)
        accept_numbers(call, n);
    n.d = 2;
    for (n.M = 2; n.M <= 65536; n.M *= 2)
        for (n.s = 1; n.s <= most_classes(call, N) && N <= 16; n.s++)
            accept_numbers(call, n);
}

void test_accepted(void)
{
    for (size_t c = 0; all_calls[c]; c++)
        for (uint64_t N = 1; N <= 1024; N *= 2)
            if (can_refuse(all_calls[c], 2))
                accept_blocks(all_calls[c], N);
            else
                accept_classes(all_calls[c], N);
    for (size_t c = 0; all_lookups[c]; c++)
        for (uint64_t N = 1; N <= 1024; N *= 2)
            accept_tables(all_lookups[c], N);
}
