/*
 * Numbers of every width: only the lawful values are accepted. The slices fit what a number is when it is
 * cut to fewer bits, so a call that cuts it would accept; or they are all empty, which fits where four times
 * the number passes the end of 64 bits.
 */
#include "calls.h"

#include <inttypes.h>

static int is_power(uint64_t v, uint64_t least, uint64_t most)
{
    uint64_t power = least;
    while (power < v && power < most)
        power *= 2;
    return v == power;
}

/* What a call must return with these numbers, of which this one alone may be unlawful. */
static uint32_t answer_for(const struct call *call, struct numbers n, char letter)
{
    switch (letter) {
    case 'N':
        return is_power(n.N, 1, 1024) ? 0 : 1;
    case 'g':
    case 'L':
        return lawful_gadget(gadget_of(n)) ? 0 : 2;
    case 'W':
        return n.W <= n.N ? 0 : 12;
    case 'M':
        return is_power(n.M, 2, 65536) ? 0 : 3;
    case 's':
        return n.s >= 1 && n.s <= most_classes(call, n.N) ? 0 : 4;
    case 'p':
        return n.p < n.N ? 0 : 4;
    case 'd':
        return n.d <= most_selectors(call) ? 0 : 4;
    case 'A':
    case 'B':
    case '0':
    case '1':
        return *value_of(&n, letter) <= UINT64_C(0x80000000) ? 0 : 6;
    case 'm':
        return n.m <= 1 ? 0 : 7;
    }
    need(0, "a rule for every number");
    return 0;
}

static void empty_slices(struct arguments *a)
{
    for (size_t k = 0; k < a->call->slices; k++)
        set_length(&a->slice[k], 0);
}

/* The number with its value; the slices fit it, and then are empty. */
static void test_value(const struct call *call, char letter, uint64_t N, uint64_t v)
{
    struct arguments a = {0};
    struct numbers n = usual(call, 1);
    at("%s: %c = %" PRIu64 " beside N = %" PRIu64, call->name, letter, v, N);
    n.N = N;
    *value_of(&n, letter) = v;
    uint32_t want = answer_for(call, n, letter);
    lawful(&a, call, n, v);
    if (want == 0) {
        accept_or_9(&a);
    } else {
        refuse(&a, want);
        empty_slices(&a);
        /* Empty slices are a fault of their own, judged before amplitudes and bits. */
        refuse(&a, comes_before(want, 5) ? want : 5);
    }
    free_arguments(&a);
}

/* The same, with slices that fit another value of the number, a lawful one. */
static void test_beside_lawful(const struct call *call, char letter, uint64_t v)
{
    struct arguments a = {0};
    struct numbers n = usual(call, 8);
    *value_of(&n, letter) = v;
    uint32_t want = answer_for(call, n, letter);
    if (want == 0)
        return;
    at("%s: %c = %" PRIu64 ", all else as for a lawful one", call->name, letter, v);
    lawful(&a, call, usual(call, 8), v);
    *number_of(&a, letter) = v;
    refuse(&a, want);
    free_arguments(&a);
}

/* N = 1 leaves s = 1 and p = 0 alone lawful. */
static void test_everywhere(const struct call *call, char letter, uint64_t v)
{
    test_value(call, letter, 8, v);
    if (letter != 'N')
        test_value(call, letter, 1, v);
    test_beside_lawful(call, letter, v);
}

/* Small numbers, every number with one or two bits set, their neighbours below, and the greatest. */
static void test_number(const struct call *call, char letter)
{
    for (uint64_t v = 0; v <= 40; v++)
        test_everywhere(call, letter, v);
    for (int i = 0; i < 64; i++) {
        test_everywhere(call, letter, (UINT64_C(1) << i) - 1);
        test_everywhere(call, letter, ~(UINT64_C(1) << i));
        for (int j = i; j < 64; j++)
            test_everywhere(call, letter, UINT64_C(1) << i | UINT64_C(1) << j);
    }
    for (uint64_t low = 3; low <= 9; low++)
        for (int i = 12; i < 64; i++)
            test_everywhere(call, letter, (UINT64_C(1) << i) + low);
    test_everywhere(call, letter, UINT64_MAX);
}

void test_numbers(void)
{
    for (size_t c = 0; all_calls[c]; c++)
        for (const char *letter = all_calls[c]->numbers; *letter; letter++)
            test_number(all_calls[c], *letter);
}
