/*
 * The numbers of the pictures: a lookup along the path of the entry that the bits name.
 *
 *   numbers N g L M s d r ENTRY NOISE
 *
 * Selector i encrypts binary digit i of ENTRY, with errors from -NOISE to NOISE. A sample has the classes of 2^r entries: r is 0
 * in the horizontal packing, and the number of rotations in the vertical one. Selectors from r on join samples in a tree. The
 * path's node at level i is what the lookup with i of these selectors makes of the 2^i samples that the node covers. For every
 * level from 0 to d - r it prints
 *
 *   level NUMBER ANSWER BOUND GATES
 *
 * with the weight N declared, which is enough for any key, and
 *
 *   own NUMBER ANSWER BOUND GATES
 *
 * with the weight of the key that is used; then, where the lookup is accepted, the greatest distance of a coefficient of the
 * phase from the exact encoding of the sample that has ENTRY, and the classes that the node decrypts to. Before these lines come
 * the parameters, the key's weight, the amplitudes and the entries. After them come the rotations, where there are any: for each step the classes of the rotated sample, and what the CMux
 * of the sample and the rotated one makes, with the bound and the gates of all CMuxes so far.
 *
 *   rotated NUMBER CLASSES
 *   step NUMBER BOUND GATES DISTANCE CLASSES
 *
 * At last comes the whole lookup in the vertical packing, whose sample has the very words of the last step's:
 *
 *   vertical BOUND GATES CLASS
 */
#include <inttypes.h>
#include <stdio.h>
#include <stdlib.h>
#include <string.h>
#include "broker.h"
#include "cikenuma.h"

enum { MOST_L = 4, MOST_D = 10, MOST_S = 4 };
enum { MOST_BLOCK = WORD * 4 * MOST_L * MOST_N, MOST_SAMPLE = WORD * 2 * MOST_N };

static uint64_t N, g, L, M, s, d, r, entry, noise;
static uint8_t key[WORD * MOST_N], masks[MOST_BLOCK / 2], errors[MOST_BLOCK / 2];
static uint8_t blocks[MOST_D * MOST_BLOCK], amplitudes[WORD * MOST_D], table[WORD * (MOST_S << MOST_D)];
static uint8_t sample[MOST_SAMPLE], rotated[MOST_SAMPLE], picked[MOST_SAMPLE], work[MOST_SAMPLE * (MOST_D + 1)];

/* What is reported of the sample. */
static uint64_t bound, gates;

static void stop(const char *why)
{
    fprintf(stderr, "numbers: %s\n", why);
    exit(1);
}

/* Bytes in a block, and in a sample. */
static size_t block_size(void) { return WORD * 4 * L * N; }
static size_t sample_size(void) { return WORD * 2 * N; }

static void encrypt_bit(size_t i, uint64_t bit)
{
    static uint64_t state = 2463534242u;
    size_t rows = 2 * L * N;
    uint8_t *block = blocks + i * block_size();
    for (size_t j = 0; j < rows; j++) {
        put(masks, j, draw(&state));
        put(errors, j, (uint32_t)(draw(&state) % (2 * noise + 1) - noise));
    }
#define SELECTOR(call) call(N, g, L, bit, key, WORD * N, masks, WORD * rows, errors, WORD * rows, block, block_size())
    if (SELECTOR(cikenuma_encrypt_selector) != 0)
        stop("encryption is refused");
    put(amplitudes, i, (uint32_t)SELECTOR(cikenuma_encrypt_selector_bound));
    printf("amplitude %zu %" PRIu32 "\n", i, get(amplitudes, i));
}

/* The words of a slice, to the end of the line. */
static void print_words(const uint8_t *slice, size_t count)
{
    for (size_t j = 0; j < count; j++)
        printf(" %" PRIu32, get(slice, j));
    printf("\n");
}

/* How many words of the key are 1. */
static uint64_t weight(void)
{
    uint64_t ones = 0;
    for (size_t i = 0; i < N; i++)
        ones += get(key, i);
    return ones;
}

static void draw_entry(uint64_t h)
{
    static uint64_t state = 88675123u;
    uint8_t *drawn = table + WORD * s * h;
    for (size_t j = 0; j < s; j++)
        put(drawn, j, draw(&state) % (uint32_t)M);
    printf("entry %" PRIu64, h);
    print_words(drawn, s);
}

/* Coefficient i of the phase b - a*K. A term that passes the end returns with its sign changed. */
static uint32_t phase(size_t i)
{
    uint32_t sum = get(sample, N + i);
    for (size_t j = 0; j < N; j++) {
        uint32_t term = get(sample, (i + N - j) % N) * get(key, j);
        sum -= j <= i ? term : -term;
    }
    return sum;
}

/* Coefficient i of the exact encoding of the sample that has the entry. */
static uint32_t encoding(size_t i)
{
    const uint8_t *part = table + WORD * s * (entry >> r << r);
    return i < s << r ? get(part, i) * (uint32_t)((UINT64_C(1) << 32) / M) : 0;
}

/* The greatest distance of the phase from that encoding times X^(-q). */
static uint32_t greatest_distance(size_t q)
{
    uint32_t greatest = 0;
    for (size_t i = 0; i < N; i++) {
        uint32_t difference = phase(i) - (i + q < N ? encoding(i + q) : -encoding(i + q - N));
        uint32_t magnitude = difference < UINT32_C(1) << 31 ? difference : -difference;
        greatest = magnitude > greatest ? magnitude : greatest;
    }
    return greatest;
}

static void print_classes(const uint8_t *from, size_t count)
{
    uint8_t classes[WORD * MOST_S];
    if (cikenuma_decrypt_classes(N, M, count, key, WORD * N, from, sample_size(), classes, WORD * count) != 0)
        stop("decryption is refused");
    print_words(classes, count);
}

static void print_sample(size_t q)
{
    printf(" %" PRIu32, greatest_distance(q));
    print_classes(sample, s << r);
}

/* The lookup with i selectors from number r on, over the samples that the path's node at level i covers, with this weight. */
static void print_level(const char *name, size_t i, uint64_t W)
{
    const uint8_t *part = table + WORD * s * (entry >> (r + i) << (r + i));
#define LOOKUP(call) \
    call(N, g, L, W, M, s << r, i, blocks + r * block_size(), i * block_size(), amplitudes + WORD * r, WORD * i, \
        part, WORD * (s << (r + i)), sample, sample_size(), work, sample_size() * (i + 1))
    uint32_t answer = LOOKUP(cikenuma_lookup);
    bound = LOOKUP(cikenuma_lookup_bound);
    gates = LOOKUP(cikenuma_lookup_gates);
    printf("%s %zu %" PRIu32 " %" PRIu64 " %" PRIu64, name, i, answer, bound, gates);
    if (answer == 0)
        print_sample(0);
    else
        printf("\n");
}

/* The polynomial at word `first` of the sample, times X^(-q). */
static void rotate(size_t first, size_t q)
{
    for (size_t i = 0; i < N; i++)
        put(rotated, first + i, i + q < N ? get(sample, first + i + q) : -get(sample, first + i + q - N));
}

/* Step i: a CMux of the sample and the sample times X^(-2^i). */
static void print_step(size_t i)
{
    rotate(0, (size_t)1 << i);
    rotate(N, (size_t)1 << i);
    printf("rotated %zu", i);
    print_classes(rotated, s << r);
#define CMUX(call) \
    call(N, g, L, N, get(amplitudes, i), bound, bound, blocks + i * block_size(), block_size(), sample, sample_size(), \
        rotated, sample_size(), picked, sample_size())
    if (CMUX(cikenuma_cmux) != 0)
        stop("a CMux is refused");
    gates += CMUX(cikenuma_cmux_gates);
    bound = CMUX(cikenuma_cmux_bound);
    memcpy(sample, picked, sample_size());
    printf("step %zu %" PRIu64 " %" PRIu64, i, bound, gates);
    print_sample(entry & ((UINT64_C(2) << i) - 1));
}

/* All that a lookup in the vertical packing does, in one call. */
static void print_vertical(void)
{
#define VERTICAL(call) \
    call(N, g, L, N, M, s, d, blocks, d * block_size(), amplitudes, WORD * d, table, WORD * (s << d), picked, sample_size(), \
        work, sample_size() * (d + 1))
    if (VERTICAL(cikenuma_lookup_vertical) != 0)
        stop("the lookup in the vertical packing is refused");
    if (memcmp(picked, sample, sample_size()) != 0)
        stop("the lookup in the vertical packing has other words than its steps");
    printf("vertical %" PRIu64 " %" PRIu64, VERTICAL(cikenuma_lookup_vertical_bound), VERTICAL(cikenuma_lookup_vertical_gates));
    print_classes(picked, s);
}

int main(int count, char **arguments)
{
    uint64_t *const numbers[] = {&N, &g, &L, &M, &s, &d, &r, &entry, &noise};
    if (count != 10)
        stop("usage: numbers N g L M s d r ENTRY NOISE");
    for (size_t i = 0; i < 9; i++)
        *numbers[i] = strtoull(arguments[i + 1], NULL, 10);
    if (N > MOST_N || L > MOST_L || M < 2 || s > MOST_S || d > MOST_D || r > d || s << r > MOST_S || entry >> d != 0 ||
        noise > 1u << 30)
        stop("a number is too large, or M too small");
    printf("parameters");
    for (size_t i = 0; i < 8; i++)
        printf(" %" PRIu64, *numbers[i]);
    printf("\n");
    make_key(key, N);
    printf("weight %" PRIu64 "\n", weight());
    for (size_t i = 0; i < d; i++)
        encrypt_bit(i, entry >> i & 1);
    for (uint64_t h = 0; h < 1u << d; h++)
        draw_entry(h);
    for (size_t i = 0; i <= d - r; i++)
        print_level("own", i, weight());
    for (size_t i = 0; i <= d - r; i++)
        print_level("level", i, N);
    for (size_t i = 0; i < r; i++)
        print_step(i);
    if (r > 0)
        print_vertical();
    return 0;
}
