/*
 * Random classes, keys, masks and errors for every degree: what encryption makes has the right phase, and
 * decryption, or extraction and decryption of the scalar sample, gives the classes back.
 */
#include "portal.h"

#include <inttypes.h>
#include <stdio.h>
#include <stdlib.h>

enum { MAX_N = 1024 };

/* One round: what is encrypted, and the sample that comes out. */
struct round {
    struct numbers n;
    uint32_t key[MAX_N], mask[MAX_N], errors[MAX_N], classes[MAX_N], sample[2 * MAX_N];
};

static void fill_classes(struct round *r)
{
    const uint64_t M = r->n.M, extremes[] = {0, 1 % M, M / 2, M - 1};
    uint64_t kind = below(8);
    for (uint64_t i = 0; i < r->n.s; i++)
        r->classes[i] = (uint32_t)(kind < 4 ? extremes[kind] : below(M));
}

static uint32_t message_at(const struct round *r, uint64_t i)
{
    return i < r->n.s ? encode(r->classes[i], r->n.M) : 0;
}

/* The sample's mask is the lent one, and its phase is message plus error in all N coefficients. */
static void check_sample(const struct arguments *a, const struct round *r)
{
    size_t N = (size_t)r->n.N;
    for (size_t i = 0; i < N; i++) {
        uint32_t phase = phase_at(r->sample, r->key, N, i);
        check_call(a, r->sample[i] == r->mask[i], "mask word %zu isn't the lent one", i);
        check_call(a, phase == message_at(r, i) + r->errors[i], "phase %zu is %" PRIu32 ", not %" PRIu32, i, phase,
                   message_at(r, i) + r->errors[i]);
    }
}

static void encrypt_round(struct round *r)
{
    struct arguments a = {0};
    size_t N = (size_t)r->n.N;
    lawful(&a, &encrypt_classes, r->n, below(UINT64_MAX));
    set_words(slice_of(&a, KEY), r->key, N);
    set_words(slice_of(&a, MASK), r->mask, N);
    set_words(slice_of(&a, ERRORS), r->errors, N);
    set_words(slice_of(&a, CLASSES), r->classes, (size_t)r->n.s);
    make_call(&a, (struct answer){0, greatest_magnitude(r->errors, N), 0});
    read_words(r->sample, 2 * MAX_N, slice_of(&a, SAMPLE));
    check_sample(&a, r);
    free_arguments(&a);
}

/* With more classes asked for than were encrypted, the rest of the message reads as class 0. */
static void decrypt_round(const struct round *r, uint64_t s)
{
    struct arguments a = {0};
    struct numbers n = r->n;
    n.s = s;
    lawful(&a, &decrypt_classes, n, below(UINT64_MAX));
    set_words(slice_of(&a, KEY), r->key, (size_t)n.N);
    set_words(slice_of(&a, SAMPLE), r->sample, 2 * (size_t)n.N);
    make_call(&a, (struct answer){0, 0, 0});
    for (size_t i = 0; i < s; i++) {
        uint32_t want = i < r->n.s ? r->classes[i] : 0, got = word_at(slice_of(&a, CLASSES), i);
        check_call(&a, got == want, "class %zu is %" PRIu32 ", not %" PRIu32, i, got, want);
    }
    free_arguments(&a);
}

static void extract_round(const struct round *r, uint64_t p, uint32_t *scalar)
{
    struct arguments a = {0};
    struct numbers n = r->n;
    size_t N = (size_t)n.N;
    n.p = p;
    lawful(&a, &extract, n, below(UINT64_MAX));
    set_words(slice_of(&a, SAMPLE), r->sample, 2 * N);
    make_call(&a, (struct answer){0, 0, 0});
    for (size_t j = 0; j <= N; j++) {
        uint32_t want = extracted_at(r->sample, N, (size_t)p, j);
        scalar[j] = word_at(slice_of(&a, SCALAR), j);
        check_call(&a, scalar[j] == want, "word %zu is %" PRIu32 ", not %" PRIu32, j, scalar[j], want);
    }
    free_arguments(&a);
}

/* The scalar sample's phase is coefficient p of the phase, and its class is class p. */
static void scalar_round(const struct round *r, uint64_t p)
{
    static uint32_t scalar[MAX_N + 1];
    struct arguments a = {0};
    size_t N = (size_t)r->n.N;
    extract_round(r, p, scalar);
    uint32_t phase = scalar[N], want = p < r->n.s ? r->classes[p] : 0;
    for (size_t j = 0; j < N; j++)
        phase -= scalar[j] * r->key[j];
    check(phase == message_at(r, p) + r->errors[p], "the phase extracted at %" PRIu64 " is %" PRIu32, p, phase);
    lawful(&a, &decrypt_scalar, r->n, below(UINT64_MAX));
    set_words(slice_of(&a, KEY), r->key, N);
    set_words(slice_of(&a, SCALAR), scalar, N + 1);
    make_call(&a, (struct answer){0, 0, 0});
    check_call(&a, word_at(slice_of(&a, CLASS_WORD), 0) == want, "the class at %" PRIu64 " is %" PRIu32 ", not %" PRIu32,
               p, word_at(slice_of(&a, CLASS_WORD), 0), want);
    free_arguments(&a);
}

static void run_round(struct numbers n, uint64_t seed)
{
    static struct round r;
    r.n = n;
    at("seed %" PRIu64 ": N = %" PRIu64 ", M = %" PRIu64 ", s = %" PRIu64, seed, n.N, n.M, n.s);
    choose_key(r.key, (size_t)n.N, n.N);
    choose_words(r.mask, (size_t)n.N, UINT64_C(0x80000000));
    /* Up to the greatest magnitude that is accepted. */
    choose_words(r.errors, (size_t)n.N, UINT64_C(0x80000000) / n.M - 1);
    fill_classes(&r);
    encrypt_round(&r);
    decrypt_round(&r, n.s);
    decrypt_round(&r, n.N);
    scalar_round(&r, 0);
    scalar_round(&r, n.N - 1);
    scalar_round(&r, n.s - 1);
    scalar_round(&r, n.s % n.N);
    scalar_round(&r, below(n.N));
}

int main(int argc, char **argv)
{
    uint64_t seed = argc > 1 ? strtoull(argv[1], NULL, 0) : UINT64_C(20240229);
    start("round_trip");
    printf("round_trip: seed %" PRIu64 "\n", seed);
    seed_random(seed);
    for (uint64_t N = 1; N <= MAX_N; N *= 2)
        for (uint64_t M = 2; M <= 65536; M *= 2)
            for (int turn = 0; turn < (N <= 64 ? 12 : 4); turn++) {
                const uint64_t s[] = {1, N, 1 + below(N), 1 + below(N)};
                run_round((struct numbers){.N = N, .M = M, .s = s[turn % 4]}, seed);
            }
    return finish();
}
