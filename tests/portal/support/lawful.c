/* Lawful arguments for a call: whatever a test changes in them is the only fault. */
#include "portal.h"

#include <string.h>

uint64_t *number_of(struct arguments *a, char letter)
{
    const char *found = strchr(a->call->numbers, letter);
    return found ? &a->number[found - a->call->numbers] : NULL;
}

struct bytes *slice_of(struct arguments *a, enum kind kind)
{
    for (size_t k = 0; k < a->call->slices; k++)
        if (a->call->kind[k] == kind)
            return &a->slice[k];
    return NULL;
}

uint64_t *value_of(struct numbers *n, char letter)
{
    const struct {
        char letter;
        uint64_t *value;
    } values[] = {
        {'N', &n->N}, {'M', &n->M}, {'s', &n->s}, {'p', &n->p}, {'g', &n->g}, {'L', &n->L}, {'W', &n->W},
        {'m', &n->m}, {'A', &n->A}, {'B', &n->B}, {'0', &n->A0}, {'1', &n->A1}, {'d', &n->d},
    };
    for (size_t i = 0; i < sizeof values / sizeof values[0]; i++)
        if (values[i].letter == letter)
            return values[i].value;
    need(0, "a value for every letter");
    return NULL;
}

struct numbers numbers_of(const struct arguments *a)
{
    struct numbers n = {0};
    for (size_t i = 0; a->call->numbers[i]; i++)
        *value_of(&n, a->call->numbers[i]) = a->number[i];
    return n;
}

/*
 * g*L is below 32, so that digits are rounded; the amplitudes differ, so that none passes for another, and so do N and
 * the weight. Three selectors
 * of a vertical lookup pick and rotate at N = 2 and 4; at N = 1 they pick alone, from N = 8 on they rotate alone.
 */
struct numbers usual(const struct call *call, uint64_t N)
{
    return (struct numbers){
        .N = N, .M = 16, .s = (most_classes(call, N) + 1) / 2, .p = N / 2, .g = 7, .L = 3, .W = N / 2, .m = 1, .A = 5,
        .B = 900, .A0 = 1000, .A1 = 2000, .d = call->packing == VERTICAL ? 3 : 2,
    };
}

/* The number with this letter as a count, cut to twelve bits, or to six for d; 0 if the call takes none. */
static size_t count_of(struct arguments *a, char letter)
{
    const uint64_t *number = number_of(a, letter);
    return number ? (size_t)(*number % (letter == 'd' ? 64 : 4096)) : 0;
}

/* 2^d, which is 1 for a call without d; what is too much to be lent counts as 0. */
static size_t entries(struct arguments *a)
{
    size_t d = count_of(a, 'd');
    return d <= 17 ? (size_t)1 << d : 0;
}

/* The words of a table's samples; what no lawful numbers come near counts as 0. */
static size_t words_of_samples(struct arguments *a)
{
    enum { MOST_WORDS = 1 << 22 };
    size_t N = count_of(a, 'N');
    size_t words = 2 * N * (entries(a) >> rotating_of(a->call, N, count_of(a, 'd')));
    return words <= MOST_WORDS ? words : 0;
}

static size_t exact_words(struct arguments *a, enum kind kind)
{
    size_t N = count_of(a, 'N'), L = count_of(a, 'L'), d = count_of(a, 'd');
    switch (kind) {
    case KEY:
    case MASK:
    case ERRORS:
        return N;
    case CLASSES:
        return count_of(a, 's') * entries(a);
    case SAMPLE:
    case SAMPLE1:
    case RESULT:
        return 2 * N;
    case SCALAR:
        return N + 1;
    case CLASS_WORD:
        return 1;
    case ROW_MASKS:
    case ROW_ERRORS:
        return 2 * L * N;
    case BLOCK:
        return 4 * L * N;
    case BLOCKS:
        return d * 4 * L * N;
    case AMPLITUDES:
        return d;
    case SAMPLES:
        return words_of_samples(a);
    case SAMPLE_AMPLITUDES:
        return N ? words_of_samples(a) / (2 * N) : 0;
    case WORK:
        return 2 * N * (d + 1);
    }
    return 0;
}

size_t exact_length(struct arguments *a, size_t k)
{
    return 4 * exact_words(a, a->call->kind[k]);
}

void fit(struct arguments *a)
{
    for (size_t k = 0; k < a->call->slices; k++)
        set_length(&a->slice[k], exact_length(a, k));
}

uint32_t lawful_word(enum kind kind, uint64_t M, uint64_t *state)
{
    uint64_t random = next_random(state);
    switch (kind) {
    case KEY:
        return (uint32_t)(random & 1);
    case ERRORS:
        return (uint32_t)(random % 65535) - 32767;
    case CLASSES:
        return (uint32_t)(random % (M >= 2 && M <= 65536 ? M : 2));
    case AMPLITUDES:
        return (uint32_t)(random % 8);
    case SAMPLE_AMPLITUDES:
        return (uint32_t)(random % 1000);
    default:
        return (uint32_t)random;
    }
}

/*
 * Random words, so many, and then the same ones again. Their number is a prime, so that rows and samples, whose length
 * is a power of two, begin at other places among them and are not alike.
 */
static void fill(struct bytes *b, enum kind kind, uint64_t M, uint64_t *state)
{
    enum { FRESH = 1021 };
    size_t fresh = words_in(b) < FRESH ? words_in(b) : FRESH;
    for (size_t i = 0; i < fresh; i++)
        put_word(b, i, lawful_word(kind, M, state));
    if (fresh)
        repeat(b, 4 * fresh);
}

void lawful(struct arguments *a, const struct call *call, struct numbers n, uint64_t seed)
{
    a->call = call;
    for (size_t i = 0; call->numbers[i]; i++)
        a->number[i] = *value_of(&n, call->numbers[i]);
    fit(a);
    for (size_t k = 0; k < call->slices; k++) {
        /* What stands in a slice to be written is arbitrary: it must not matter. */
        fill(&a->slice[k], k < call->slices - call->written ? call->kind[k] : MASK, n.M, &seed);
        a->slice[k].beyond = 0;
    }
}
