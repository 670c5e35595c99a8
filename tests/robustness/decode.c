/* The arguments that an input stands for. Every field has a place of its own, so a changed byte changes one thing. */
#include "harness.h"

#include <string.h>

struct reader {
    const uint8_t *at;
    size_t length, taken;
};

static uint8_t take_byte(struct reader *r)
{
    return r->taken++ < r->length ? r->at[r->taken - 1] : 0;
}

static uint64_t take(struct reader *r, int bytes)
{
    uint64_t value = 0;
    for (int i = 0; i < bytes; i++)
        value |= (uint64_t)take_byte(r) << 8 * i;
    return value;
}

/* ---- numbers ---- */

static uint64_t lawful_value(const struct call *call, char letter, uint64_t random, const struct numbers *n)
{
    uint64_t N = n->N >= 1 && n->N <= 1024 ? n->N : 1, g = n->g >= 1 && n->g <= 16 ? n->g : 1;
    switch (letter) {
    case 'N':
        return UINT64_C(1) << random % 11;
    case 'M':
        return UINT64_C(2) << random % 16;
    case 's':
        return 1 + random % most_classes(call, N);
    case 'p':
        return random % N;
    case 'g':
        return 1 + random % 16;
    case 'L':
        return 1 + random % (32 / g);
    case 'W':
        return random % (N + 1);
    case 'm':
        return random % 2;
    case 'd':
        return random % (most_selectors(call) + 1);
    default:
        /* An amplitude of any size. */
        return random % (half_turn + 1) >> (random >> 59);
    }
}

/* A limit of some number, or where numbers of fewer bits end; or the next number on either side of it. */
static uint64_t near_limit(uint64_t random)
{
    static const uint64_t limits[] = {
        0, 2, 10, 16, 32, 64, 256, 1024, 2048, 65536, 131072, UINT64_C(1) << 31, UINT64_C(1) << 32, UINT64_C(1) << 63,
    };
    return limits[random % (sizeof limits / sizeof limits[0])] + (random >> 32) % 3 - 1;
}

/* Mostly lawful: with seven numbers, about three of ten sets are lawful in all. */
static uint64_t decoded_number(struct reader *r, const struct call *call, char letter, const struct numbers *n)
{
    uint8_t choice = take_byte(r);
    uint64_t random = take(r, 8), value = lawful_value(call, letter, random, n);
    if (choice < 216)
        return value;
    if (choice < 236)
        return near_limit(random);
    if (choice < 246)
        return value ^ UINT64_C(1) << (random >> 58);
    return random;
}

/*
 * How many products of words an accepted call takes, at most; 0 if the call is refused or has little to do. A gate
 * takes as long as some more products, which counts where there are many small ones.
 */
static uint64_t products(const struct call *call, const struct numbers *n)
{
    uint64_t polynomials = strchr(call->numbers, 'L') ? 4 * n->L : 1;
    if (n->N > 1024 || polynomials > 4 * 32 || call == &extract || call == &decrypt_scalar)
        return 0;
    if (call->packing != NO_TABLE && n->d <= most_selectors(call))
        return (polynomials * n->N * n->N + 16) * gates_of(call, n->N, n->d);
    return polynomials * n->N * n->N;
}

/* A set in 4,096 can take a second, one in 32 some milliseconds; the others are to take less than one. */
static uint64_t most_products(uint64_t random)
{
    return random < 16 ? 1 << 27 : random < 2048 ? 1 << 22 : 1 << 20;
}

/* A number that was lawful beside a higher degree is the greatest that is lawful beside this one. */
static void lower_to(uint64_t *number, uint64_t most, uint64_t before)
{
    if (*number > most && *number <= before)
        *number = most;
}

/* Halves the degree until there is no more to do than that; of more than ten selectors one is left out each time. */
static void lower_numbers(struct numbers *n, const struct call *call, uint64_t most)
{
    uint64_t from = n->N;
    while (products(call, n) > most && n->N > 1) {
        n->N /= 2;
        n->d -= n->d > 10 && n->d <= most_selectors(call);
    }
    if (n->N == from)
        return;
    lower_to(&n->s, n->N, from);
    lower_to(&n->W, n->N, from);
    lower_to(&n->p, n->N - 1, from - 1);
}

/* ---- slices ---- */

static size_t decoded_length(struct reader *r, size_t exact)
{
    static const int near[] = {-8, -4, -3, -2, -1, 1, 2, 3, 4, 8};
    uint8_t choice = take_byte(r);
    uint64_t random = take(r, 4), length = exact;
    if (choice >= 248)
        length = random >> random % 32;
    else if (choice >= 232)
        length = exact + (uint64_t)(int64_t)near[random % 10];
    /* Below 0, and too much to be lent. */
    return length > UINT64_MAX / 2 ? 0 : (size_t)(length > MOST_BYTES ? length % 4096 : length);
}

/* At either end of its room, most of them directly there, the others at any alignment. */
static struct place decoded_place(struct reader *r)
{
    uint8_t choice = take_byte(r);
    return (struct place){choice & 1, choice & 0x60 ? 0 : choice >> 1 & 7};
}

static void fill_lawful(struct bytes *b, enum kind kind, uint64_t M, uint64_t seed)
{
    size_t words = words_in(b) < 61 ? words_in(b) : 61;
    for (size_t i = 0; i < words; i++)
        put_word(b, i, lawful_word(kind, M, &seed));
    if (words)
        repeat(b, 4 * words);
}

static void fill_pattern(struct bytes *b, uint64_t random)
{
    size_t period = 1 + (random >> 61), used = period < b->length ? period : b->length;
    for (size_t i = 0; i < used; i++)
        b->at[i] = (uint8_t)(random >> 8 * i);
    repeat(b, period);
}

/* Lawful words, or those with one at fault among them, or a pattern of a few bytes. */
static void decode_content(struct reader *r, struct bytes *b, enum kind kind, uint64_t M)
{
    static const uint32_t extremes[] = {0x80000000, 0x80000001, 0x7FFFFFFF, 0xFFFFFFFF, 0x100, 0x10000, 0x1000000, 2};
    uint8_t choice = take_byte(r), extreme = take_byte(r);
    uint64_t random = take(r, 8);
    if (choice >= 240) {
        fill_pattern(b, random);
        return;
    }
    fill_lawful(b, kind, M, random);
    if (choice >= 208 && words_in(b))
        put_word(b, random % words_in(b), extreme & 8 ? (uint32_t)M : extremes[extreme & 7]);
}

static const struct call *decoded_call(uint8_t which)
{
    size_t count = 0;
    while (all_calls[count])
        count++;
    return all_calls[which % count];
}

void decode_input(struct arguments *a, struct place *place, const uint8_t *data, size_t size)
{
    struct reader r = {.at = data, .length = size < INPUT ? size : INPUT};
    struct numbers n = {.N = 1, .M = 2};
    uint8_t which = take_byte(&r), whole_degree = take_byte(&r);
    uint64_t most = most_products(take(&r, 2));
    a->call = decoded_call(which);
    for (const char *letter = a->call->numbers; *letter; letter++)
        *value_of(&n, *letter) = decoded_number(&r, a->call, *letter, &n);
    /* A lookup with more to do is kept as it is where its first amplitude makes its bound too great. */
    int kept = a->call->packing != NO_TABLE && whole_degree < 8 && products(a->call, &n) > most;
    if (!kept)
        lower_numbers(&n, a->call, most);
    for (size_t i = 0; a->call->numbers[i]; i++)
        a->number[i] = *value_of(&n, a->call->numbers[i]);
    for (size_t k = 0; k < a->call->slices; k++) {
        set_length(&a->slice[k], decoded_length(&r, exact_length(a, k)));
        place[k] = decoded_place(&r);
        decode_content(&r, &a->slice[k], a->call->kind[k], n.M);
    }
    if (kept && words_in(slice_of(a, AMPLITUDES)))
        put_word(slice_of(a, AMPLITUDES), 0, (uint32_t)half_turn);
    if (r.taken > tally.input)
        tally.input = r.taken;
}
