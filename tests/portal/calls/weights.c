/*
 * The declared weight, at its full 64 bits: from 0 to N it is accepted, and beyond refused with 12, without selectors too.
 * The bound goes by it, and nothing else does: not a word of the result, nor the gates.
 */
#include "calls.h"

#include <inttypes.h>
#include <stdlib.h>
#include <string.h>

uint64_t weight_in_turn(struct numbers n, uint64_t turn)
{
    const uint64_t weights[] = {n.N, 0, n.N / 2};
    return weights[(n.g + n.L + turn) % 3];
}

/* ---- the bound ---- */

/* All words are 0, so that the bound goes by the numbers alone: this is what it has beside the rounding. */
static uint64_t bound_without_rounding(const struct call *call, struct numbers n)
{
    uint64_t noise = 2 * n.L * n.N * (UINT64_C(1) << (n.g - 1)) * n.A;
    if (call->packing != NO_TABLE)
        return 0;
    return noise + (call == &cmux ? n.A1 : n.B);
}

/* Each CMux on the path of an entry rounds, and each time by (1 + W)*E. */
static void test_bound(const struct call *call, struct numbers n, uint64_t E)
{
    struct arguments a = {0};
    const uint64_t roundings = call->packing != NO_TABLE ? n.d : 1, gates = call == &cmux ? 1 : gates_of(call, n.N, n.d);
    uint64_t bound = bound_without_rounding(call, n) + roundings * (1 + n.W) * E;
    int refused = call->packing != NO_TABLE && bound >= limit_of(n);
    at("%s, N = %" PRIu64 ", g = %" PRIu64 ": the bound with weight %" PRIu64, call->name, n.N, n.g, n.W);
    all_zero(&a, call, n);
    make_call(&a, (struct answer){refused ? 9 : 0, bound, refused ? 0 : gates});
    free_arguments(&a);
}

/* The numbers of selectors with which a call is tried: up to the usual one. */
static uint64_t usual_selectors(const struct call *call)
{
    return call->packing != NO_TABLE ? usual(call, 1).d : 0;
}

/* Gadgets that round away no bit, one, eleven and sixteen; every weight that is lawful. */
static void test_bounds(const struct call *call, uint64_t N)
{
    const struct {
        struct gadget gadget;
        uint64_t E;
    } cases[] = {{{16, 2}, 0}, {{1, 31}, 1}, {{7, 3}, 1024}, {{16, 1}, 32768}};
    struct numbers n = usual(call, N);
    for (size_t i = 0; i < sizeof cases / sizeof cases[0]; i++)
        for (n.d = 0; n.d <= usual_selectors(call); n.d++)
            for (n.W = 0; n.W <= N; n.W++) {
                n.g = cases[i].gadget.g;
                n.L = cases[i].gadget.L;
                test_bound(call, n, cases[i].E);
            }
}

/* ---- what is accepted, and what is written ---- */

static void test_accepted_weight(struct arguments *a, uint64_t W, const struct bytes *written)
{
    at("%s: weight %" PRIu64, a->call->name, W);
    *number_of(a, 'W') = W;
    accept(a);
    for (size_t k = a->call->slices - a->call->written; k < a->call->slices; k++)
        check_call(a, memcmp(a->slice[k].at, written[k].at, written[k].length) == 0, "slice %zu goes by the weight", k);
}

/* One more than N; and others whose lowest bits are a lawful weight. */
static void test_unlawful_weights(const struct call *call, struct numbers n)
{
    const uint64_t N = n.N, two32 = UINT64_C(1) << 32;
    const uint64_t weights[] = {N + 1, 2 * N + 1, 65536, two32, two32 + N, two32 + N / 2, two32 << 31, UINT64_MAX};
    struct arguments a = {0};
    lawful(&a, call, n, N);
    for (size_t i = 0; i < sizeof weights / sizeof weights[0]; i++) {
        at("%s: weight %" PRIu64, call->name, weights[i]);
        *number_of(&a, 'W') = weights[i];
        refuse(&a, 12);
    }
    free_arguments(&a);
}

static void test_results(const struct call *call, struct numbers n)
{
    const uint64_t N = n.N, weights[] = {0, 1, N / 2, N - 1, N};
    struct bytes written[MAX_SLICES] = {0};
    struct arguments a = {0};
    n.W = N;
    lawful(&a, call, n, N);
    at("%s: weight %" PRIu64, call->name, N);
    accept(&a);
    for (size_t k = call->slices - call->written; k < call->slices; k++)
        set_bytes(&written[k], a.slice[k].at, a.slice[k].length);
    for (size_t i = 0; i < sizeof weights / sizeof weights[0]; i++)
        test_accepted_weight(&a, weights[i], written);
    for (size_t k = 0; k < call->slices; k++)
        free(written[k].at);
    free_arguments(&a);
}

/* Without selectors too. */
static void test_degree(const struct call *call, uint64_t N)
{
    struct numbers n = usual(call, N);
    for (n.d = 0; n.d <= usual_selectors(call); n.d += usual(call, N).d) {
        test_results(call, n);
        test_unlawful_weights(call, n);
    }
}

/* ---- what a thin key saves ---- */

/*
 * N = 1,024, g = 8, L = 2, M = 16, amplitudes 1: a charge is 524288 and (1 + W)*32768. With W = 1,024 four selectors are
 * refused, and they still are with 1,007, which makes just the limit; with 1,006 they are accepted.
 */
static void thin_keys_pay_less(const struct call *call)
{
    struct numbers n = {.N = 1024, .g = 8, .L = 2, .W = 1006, .M = 16, .s = 1, .d = 4};
    lookup_reports(call, n, 1, (struct answer){0, 134086656, gates_of(call, 1024, 4)});
    n.W = 1007;
    lookup_reports(call, n, 1, (struct answer){9, 134217728, 0});
}

void test_weights(void)
{
    for (size_t c = 0; all_calls[c]; c++)
        if (can_refuse(all_calls[c], 12))
            for (uint64_t N = 1; N <= 1024; N *= 2) {
                test_degree(all_calls[c], N);
                if (N <= 64)
                    test_bounds(all_calls[c], N);
            }
    for (size_t c = 0; all_lookups[c]; c++)
        thin_keys_pay_less(all_lookups[c]);
}
