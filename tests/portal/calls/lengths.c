/* Lengths: every slice of every call, the written ones too, must have its exact length to the byte. */
#include "calls.h"

#include <inttypes.h>

/* Arguments in which only the length of slice k is other than it was. */
static void test_length(const struct call *call, struct numbers n, size_t k, size_t length)
{
    struct arguments a = {0};
    lawful(&a, call, n, n.N);
    at("%s, N = %" PRIu64 ": slice %zu of %zu bytes has %zu", call->name, n.N, k, a.slice[k].length, length);
    if (length != a.slice[k].length) {
        set_length(&a.slice[k], length);
        refuse(&a, 5);
    }
    free_arguments(&a);
}

static void test_slice(const struct call *call, struct numbers n, size_t k)
{
    struct arguments a = {0};
    lawful(&a, call, n, n.N);
    size_t exact = a.slice[k].length;
    /* 0, the number of words, half and twice; then up to two words short and long, to the byte. */
    const size_t lengths[] = {0, exact / 4, exact / 2, 2 * exact, 4 * exact};
    for (size_t i = 0; i < sizeof lengths / sizeof lengths[0]; i++)
        test_length(call, n, k, lengths[i]);
    for (size_t by = 1; by <= 8; by++) {
        test_length(call, n, k, exact + by);
        if (by <= exact)
            test_length(call, n, k, exact - by);
    }
    free_arguments(&a);
}

/* A word moved from one slice to another: the sum of the lengths is right. */
static void test_moved_word(const struct call *call, size_t from, size_t to)
{
    struct arguments a = {0};
    at("%s: a word moved from slice %zu to slice %zu", call->name, from, to);
    lawful(&a, call, usual(call, 8), 3);
    set_length(&a.slice[from], a.slice[from].length - 4);
    set_length(&a.slice[to], a.slice[to].length + 4);
    refuse(&a, 5);
    free_arguments(&a);
}

/* The length's lowest 32 bits are right, and it is far too long: it is judged at its full width. */
static void test_long_slice(const struct call *call, size_t k)
{
    struct arguments a = {0};
    at("%s: slice %zu is 4 GiB too long", call->name, k);
    lawful(&a, call, usual(call, 8), 3);
    a.slice[k].beyond = (size_t)1 << 32;
    refuse(&a, 5);
    free_arguments(&a);
}

/* Slices that fit another lawful value of a number, and not the one that is passed. */
static void test_other_value(const struct call *call, char letter, uint64_t value)
{
    struct arguments a = {0};
    lawful(&a, call, usual(call, 8), 3);
    uint64_t *number = number_of(&a, letter);
    if (number && *number != value) {
        at("%s: slices as for %c = %" PRIu64 ", which is %" PRIu64, call->name, letter, *number, value);
        *number = value;
        refuse(&a, 5);
    }
    free_arguments(&a);
}

/*
 * Usual values are N = 8, L = 3, s = 4 and d = 2; in the vertical packing s = 1 and d = 3. A hidden table has the same
 * length for every s.
 */
static void test_other_values(const struct call *call)
{
    for (uint64_t N = 16; N <= 1024; N *= 2)
        test_other_value(call, 'N', N);
    for (uint64_t L = 1; L <= 4; L++)
        test_other_value(call, 'L', L);
    for (uint64_t s = 1; s <= most_classes(call, 8) && !is_hidden(call); s++)
        test_other_value(call, 's', s);
    for (uint64_t d = 0; d <= most_selectors(call); d++)
        test_other_value(call, 'd', d);
}

/* A lookup's slices, for every number of selectors: without any, blocks and amplitudes are empty. */
static void test_selectors(const struct call *call)
{
    struct numbers n = usual(call, 4);
    for (n.d = 0; n.d <= most_selectors(call); n.d++)
        for (size_t k = 0; k < call->slices; k++)
            test_slice(call, n, k);
}

static void test_call(const struct call *call)
{
    for (size_t k = 0; k < call->slices; k++) {
        for (uint64_t N = 1; N <= 1024; N *= 2)
            test_slice(call, usual(call, N), k);
        for (size_t to = 0; to < call->slices; to++)
            if (to != k)
                test_moved_word(call, k, to);
        test_long_slice(call, k);
    }
    test_other_values(call);
}

void test_lengths(void)
{
    for (size_t c = 0; all_calls[c]; c++)
        test_call(all_calls[c]);
    for (size_t c = 0; all_lookups[c]; c++)
        test_selectors(all_lookups[c]);
}
