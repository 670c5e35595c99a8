/*
 * Words of blocks and of the samples or classes beside them: every word reaches the result as its formula says, and no
 * word is special. In large calls so are words of keys and masks, and slices of which few words are not 0.
 */
#include "calls.h"

#include <inttypes.h>

static const uint32_t extremes[] = {0, 1, UINT32_C(0x7FFFFFFF), UINT32_C(0x80000000), UINT32_C(0x80000001), UINT32_MAX};

enum { EXTREMES = sizeof extremes / sizeof extremes[0] };

/* The word with every digit the least one, and the one with every digit the greatest. */
static uint32_t every_digit(struct gadget gadget, int64_t digit)
{
    uint32_t word = 0;
    for (uint64_t j = 1; j <= gadget.L; j++)
        word += (uint32_t)digit * step_of(gadget, j);
    return word;
}

static uint32_t extreme(struct gadget gadget, size_t i)
{
    int64_t half = (int64_t)1 << (gadget.g - 1);
    if (i < EXTREMES)
        return extremes[i];
    return every_digit(gadget, i == EXTREMES ? -half : half - 1);
}

/* The word, or its lowest bits where not every word is lawful; the tests have 16 classes. */
static uint32_t lawful_part(enum kind kind, uint32_t word)
{
    switch (kind) {
    case KEY:
        return word & 1;
    case CLASSES:
        return word & 15;
    case AMPLITUDES:
    case SAMPLE_AMPLITUDES:
        return word & 7;
    default:
        return word;
    }
}

static void fill(struct bytes *b, enum kind kind, uint32_t word)
{
    for (size_t i = 0; i < words_in(b); i++)
        put_word(b, i, lawful_part(kind, word));
}

/* Each slice that is read is all one extreme, in every combination. */
static void test_combinations(const struct call *call, uint64_t N, struct gadget gadget)
{
    struct arguments a = {0};
    struct numbers n = usual(call, N);
    size_t read = call->slices - call->written, choices = EXTREMES + 2, combinations = 1;
    n.g = gadget.g;
    n.L = gadget.L;
    for (size_t k = 0; k < read; k++)
        combinations *= choices;
    for (size_t c = 0; c < combinations; c++) {
        at("%s, N = %" PRIu64 ": slices of one word each, combination %zu", call->name, N, c);
        n.m = c % 2;
        lawful(&a, call, n, 1);
        for (size_t k = 0, rest = c; k < read; k++, rest /= choices)
            fill(&a.slice[k], call->kind[k], extreme(gadget, rest % choices));
        accept_or_9(&a);
    }
    free_arguments(&a);
}

/* One word of one slice is an extreme, all else is random. */
static void test_each_word(const struct call *call, struct gadget gadget)
{
    struct arguments a = {0};
    struct numbers n = usual(call, 4);
    n.g = gadget.g;
    n.L = gadget.L;
    for (size_t k = 0; k < call->slices - call->written; k++) {
        lawful(&a, call, n, k);
        for (size_t i = 0; i < words_in(&a.slice[k]); i++)
            for (size_t e = 0; e < EXTREMES + 2; e++) {
                uint32_t was = word_at(&a.slice[k], i), word = extreme(gadget, e);
                at("%s: word %zu of slice %zu is %" PRIu32, call->name, i, k, word);
                put_word(&a.slice[k], i, lawful_part(call->kind[k], word));
                accept_or_9(&a);
                put_word(&a.slice[k], i, was);
            }
    }
    free_arguments(&a);
}

/* A place for number i of so many, which are a power of two: an odd factor exchanges them. */
static size_t spread(size_t i, size_t places)
{
    return (37 * i + places / 2) % places;
}

/* So many of the words that a block is multiplied with are not 0: of a sample, or of the difference of two. */
static void put_few(struct arguments *a, size_t count)
{
    struct bytes *sample = slice_of(a, SAMPLE), *sample1 = slice_of(a, SAMPLE1);
    struct bytes *to = sample1 ? sample1 : sample;
    if (sample1)
        set_bytes(sample1, sample->at, sample->length);
    else
        fill(sample, SAMPLE, 0);
    for (size_t i = 0; i < count; i++) {
        size_t place = spread(i, words_in(to));
        put_word(to, place, word_at(to, place) + 1 + (uint32_t)below(UINT32_MAX));
    }
}

static void test_few(const struct call *call, uint64_t N, size_t count)
{
    struct arguments a = {0};
    at("%s, N = %" PRIu64 ": %zu words that are not 0", call->name, N, count);
    lawful(&a, call, usual(call, N), count);
    put_few(&a, count);
    accept(&a);
    free_arguments(&a);
}

/* A key with so many ones; what stands after it, masks or a sample, is all one extreme. */
static void test_ones(const struct call *call, uint64_t N, size_t ones)
{
    struct arguments a = {0};
    lawful(&a, call, usual(call, N), ones);
    fill(slice_of(&a, KEY), KEY, 0);
    for (size_t i = 0; i < ones; i++)
        put_word(slice_of(&a, KEY), spread(i, (size_t)N), 1);
    for (size_t e = 0; e < EXTREMES; e++) {
        at("%s, N = %" PRIu64 ": %zu ones, and words %" PRIu32, call->name, N, ones, extremes[e]);
        fill(&a.slice[1], call->kind[1], extremes[e]);
        accept(&a);
    }
    free_arguments(&a);
}

/* Large products may be made another way than small ones, and than those of which few words are not 0. */
static void test_large(void)
{
    const struct call *const gates[] = {&external_product, &cmux};
    const struct call *const keyed[] = {&encrypt_classes, &decrypt_classes, &encrypt_selector};
    const size_t few[] = {0, 1, 63, 64, 65, 128};
    for (uint64_t N = 128; N <= 1024; N *= 2)
        for (size_t i = 0; i < sizeof few / sizeof few[0]; i++) {
            for (size_t c = 0; c < sizeof gates / sizeof gates[0]; c++)
                test_few(gates[c], N, few[i]);
            for (size_t c = 0; c < sizeof keyed / sizeof keyed[0]; c++)
                test_ones(keyed[c], N, few[i]);
        }
    test_combinations(&external_product, 1024, (struct gadget){16, 2});
    test_combinations(&external_product, 128, (struct gadget){1, 32});
    test_combinations(&cmux, 128, (struct gadget){16, 2});
}

void test_extremes(void)
{
    const struct gadget gadgets[] = {{8, 2}, {16, 2}, {8, 4}, {1, 32}, {1, 1}, {5, 6}, {16, 1}};
    for (size_t c = 0; all_calls[c]; c++)
        if (can_refuse(all_calls[c], 2))
            for (size_t i = 0; i < sizeof gadgets / sizeof gadgets[0]; i++) {
                test_combinations(all_calls[c], 1, gadgets[i]);
                test_combinations(all_calls[c], 4, gadgets[i]);
                test_each_word(all_calls[c], gadgets[i]);
            }
    test_large();
}
