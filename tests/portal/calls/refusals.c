/*
 * Every refusal of every call alone, and any two faults at once: the number that is checked first is returned. A fault is
 * put into lawful arguments whose slices fit the numbers, so nothing else is wrong with them.
 */
#include "calls.h"

#include <inttypes.h>

/*
 * A fault by its refusal. `what` is the letter of a bad number; the place of a slice with `value` bytes too many
 * (in 64 bits, so also too few); or the kind of a slice whose first or last word is bad.
 */
struct fault {
    uint32_t refusal;
    enum { NUMBER, LENGTH, FIRST_WORD, LAST_WORD } sort;
    int what;
    uint64_t value;
};

/*
 * In the order in which they are checked, in which they are put in: a length goes by the numbers that are judged before it.
 * N is 8: of the weights above it some would be lawful if they were cut to 32 bits, or to fewer.
 */
static const struct fault faults[] = {
    {1, NUMBER, 'N', 0}, {1, NUMBER, 'N', 3}, {1, NUMBER, 'N', 6}, {1, NUMBER, 'N', 2048},
    {2, NUMBER, 'g', 0}, {2, NUMBER, 'g', 11}, {2, NUMBER, 'g', 17}, {2, NUMBER, 'g', UINT64_C(4294967303)},
    {2, NUMBER, 'L', 0}, {2, NUMBER, 'L', 5}, {2, NUMBER, 'L', 33}, {2, NUMBER, 'L', UINT64_C(4294967299)},
    {12, NUMBER, 'W', 9}, {12, NUMBER, 'W', 1024}, {12, NUMBER, 'W', UINT64_C(4294967296)},
    {12, NUMBER, 'W', UINT64_C(4294967299)}, {12, NUMBER, 'W', UINT64_C(9223372036854775808)},
    {12, NUMBER, 'W', UINT64_MAX},
    {3, NUMBER, 'M', 0}, {3, NUMBER, 'M', 1}, {3, NUMBER, 'M', 24}, {3, NUMBER, 'M', 131072},
    {4, NUMBER, 's', 0}, {4, NUMBER, 's', 2}, {4, NUMBER, 's', 9}, {4, NUMBER, 's', 3000},
    {4, NUMBER, 'p', 8}, {4, NUMBER, 'p', 9}, {4, NUMBER, 'p', 3000},
    {4, NUMBER, 'd', 11}, {4, NUMBER, 'd', 17}, {4, NUMBER, 'd', 64}, {4, NUMBER, 'd', UINT64_C(4294967297)},
    {5, LENGTH, 0, 1}, {5, LENGTH, 0, (uint64_t)-1}, {5, LENGTH, 1, 4}, {5, LENGTH, 1, (uint64_t)-1},
    {5, LENGTH, 2, 1}, {5, LENGTH, 2, (uint64_t)-4}, {5, LENGTH, 3, 4}, {5, LENGTH, 3, (uint64_t)-4},
    {5, LENGTH, 4, 1}, {5, LENGTH, 4, (uint64_t)-4}, {5, LENGTH, 5, 4}, {5, LENGTH, 5, (uint64_t)-1},
    {6, NUMBER, 'A', UINT64_C(2147483649)}, {6, NUMBER, 'A', UINT64_C(4294967296)},
    {6, NUMBER, 'B', UINT64_C(2147483649)}, {6, NUMBER, 'B', UINT64_MAX},
    {6, NUMBER, '0', UINT64_C(2147483649)}, {6, NUMBER, '0', UINT64_C(4294967297)},
    {6, NUMBER, '1', UINT64_C(2147483649)}, {6, NUMBER, '1', UINT64_C(9223372036854775808)},
    {6, FIRST_WORD, AMPLITUDES, UINT32_C(2147483649)}, {6, FIRST_WORD, AMPLITUDES, UINT32_MAX},
    {6, FIRST_WORD, SAMPLE_AMPLITUDES, UINT32_C(2147483649)}, {6, FIRST_WORD, SAMPLE_AMPLITUDES, UINT32_MAX},
    {7, FIRST_WORD, CLASSES, 16}, {7, LAST_WORD, CLASSES, 17}, {7, LAST_WORD, CLASSES, UINT32_MAX},
    {7, NUMBER, 'm', 2}, {7, NUMBER, 'm', UINT64_C(4294967296)}, {7, NUMBER, 'm', UINT64_C(4294967297)},
    {8, FIRST_WORD, KEY, 2}, {8, LAST_WORD, KEY, 2}, {8, LAST_WORD, KEY, UINT32_MAX},
    {9, FIRST_WORD, ERRORS, 134217728}, {9, LAST_WORD, ERRORS, UINT32_C(4160749568)},
    {9, LAST_WORD, ERRORS, UINT32_C(2147483648)},
    {9, LAST_WORD, AMPLITUDES, 43686}, {9, LAST_WORD, AMPLITUDES, 43689},
    {9, LAST_WORD, AMPLITUDES, UINT32_C(2147483648)},
    {9, LAST_WORD, SAMPLE_AMPLITUDES, 134217728}, {9, LAST_WORD, SAMPLE_AMPLITUDES, UINT32_C(2147483648)},
};

enum { FAULTS = sizeof faults / sizeof faults[0] };

/*
 * N = 8, M = 16: the limit of errors and bounds is 134217728. g = 7, L = 3: g is lawful up to 10, L up to 4. W = 4. There is
 * a selector more than usual, so that every table has two samples at least. A charge is 3072 times the amplitude and
 * 5120, so with three selectors 43686 is the least amplitude that is too great beside 0s, and with four it is too great
 * as well.
 */
static void start_lawful(struct arguments *a, const struct call *call, uint64_t d)
{
    struct numbers n = usual(call, 8);
    n.d = d;
    lawful(a, call, n, 7);
}

static uint64_t one_more_selector(const struct call *call)
{
    return usual(call, 8).d + 1;
}

/* Up to where s and d are lawful goes by the call: what is at fault in one packing need not be in another. */
static int is_lawful(const struct call *call, const struct fault *f)
{
    uint64_t most = f->what == 's' ? most_classes(call, 8) : f->what == 'd' ? most_selectors(call) : 0;
    return f->value >= 1 && f->value <= most;
}

static int put_number_fault(struct arguments *a, const struct fault *f)
{
    uint64_t *number = number_of(a, (char)f->what);
    if (!number || is_lawful(a->call, f))
        return 0;
    *number = f->value;
    /* Numbers that are judged after the lengths have none to fit, and a bad length stays. */
    if (comes_before(f->refusal, 5))
        fit(a);
    return 1;
}

static int put_length_fault(struct arguments *a, const struct fault *f)
{
    size_t k = (size_t)f->what;
    if (k >= a->call->slices)
        return 0;
    /* An empty slice can't be shortened; it is made longer instead. */
    size_t length = a->slice[k].length;
    set_length(&a->slice[k], length ? length + (size_t)f->value : 4);
    return 1;
}

static int put_word_fault(struct arguments *a, const struct fault *f)
{
    struct bytes *b = can_refuse(a->call, f->refusal) ? slice_of(a, (enum kind)f->what) : NULL;
    if (!b)
        return 0;
    /* No place for a bad word: another fault has left no words. */
    if (words_in(b))
        put_word(b, f->sort == FIRST_WORD ? 0 : words_in(b) - 1, (uint32_t)f->value);
    return 1;
}

/* Whether the call can have this fault at all. */
static int put_fault(struct arguments *a, const struct fault *f)
{
    if (f->sort == NUMBER)
        return put_number_fault(a, f);
    return f->sort == LENGTH ? put_length_fault(a, f) : put_word_fault(a, f);
}

/* Refusal 9 comes with the bound, the others with 0. */
static void refuse_with(struct arguments *a, uint32_t refusal)
{
    if (refusal == 9)
        check_call(a, accept_or_9(a) == 9, "the fault leaves the bound below the limit");
    else
        refuse(a, refusal);
}

static void test_alone(const struct call *call)
{
    int reached[MAX_REFUSALS] = {0};
    struct arguments a = {0};
    for (size_t i = 0; i < FAULTS; i++) {
        const struct fault *f = &faults[i];
        at("fault %zu alone, refusal %" PRIu32, i, f->refusal);
        start_lawful(&a, call, one_more_selector(call));
        if (!put_fault(&a, f))
            continue;
        refuse_with(&a, f->refusal);
        reached[f->refusal] = 1;
        check_call(&a, can_refuse(call, f->refusal), "it isn't listed that the call refuses so");
    }
    at("%s: its refusals", call->name);
    for (uint32_t r = 0; r < MAX_REFUSALS; r++)
        check(reached[r] == can_refuse(call, r), "refusal %" PRIu32 ": faults reach it, or it is listed, and not both", r);
    free_arguments(&a);
}

static void test_pair(const struct call *call, uint64_t d, const struct fault *first, const struct fault *second)
{
    struct arguments a = {0};
    at("faults %td and %td at once, refusals %" PRIu32 " and %" PRIu32 ", d = %" PRIu64, first - faults, second - faults,
       first->refusal, second->refusal, d);
    start_lawful(&a, call, d);
    if (put_fault(&a, first) && put_fault(&a, second))
        refuse(&a, first->refusal);
    free_arguments(&a);
}

/* A weight is also judged where there is no selector to be charged. */
static void test_pairs(const struct call *call)
{
    for (size_t i = 0; i < FAULTS; i++)
        for (size_t j = i + 1; j < FAULTS; j++) {
            if (faults[i].refusal == faults[j].refusal)
                continue;
            test_pair(call, one_more_selector(call), &faults[i], &faults[j]);
            if (call->packing != NO_TABLE && (faults[i].refusal == 12 || faults[j].refusal == 12))
                test_pair(call, 0, &faults[i], &faults[j]);
        }
}

/* Every fault from one refusal on, one of each, and those that are checked before it left out. */
static void test_all_from(const struct call *call, uint32_t first)
{
    struct arguments a = {0};
    uint32_t before = 0;
    at("every fault from refusal %" PRIu32 " on", first);
    start_lawful(&a, call, one_more_selector(call));
    for (size_t i = 0; i < FAULTS; i++)
        if (!comes_before(faults[i].refusal, first) && faults[i].refusal != before && put_fault(&a, &faults[i]))
            before = faults[i].refusal;
    refuse_with(&a, first);
    free_arguments(&a);
}

static void test_order(void)
{
    at("the faults of this file");
    for (size_t i = 1; i < FAULTS; i++)
        check(!comes_before(faults[i].refusal, faults[i - 1].refusal), "fault %zu isn't in its place", i);
}

void test_refusals(void)
{
    test_order();
    for (size_t c = 0; all_calls[c]; c++) {
        test_alone(all_calls[c]);
        test_pairs(all_calls[c]);
        for (const uint32_t *first = refusal_order; *first; first++)
            if (can_refuse(all_calls[c], *first))
                test_all_from(all_calls[c], *first);
    }
}
