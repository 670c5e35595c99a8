/*
 * Random selectors for every degree, under keys of at most the weight that is declared: the rows of a block have the phases
 * that they should have, and the external product and the CMux of noisy samples hold the message that they should, within
 * the bound that they report.
 */
#include "portal.h"

#include <inttypes.h>
#include <stdio.h>
#include <stdlib.h>

enum { MAX_N = 1024, MAX_ROWS = 64 };

/* Two packed samples with their messages and phases. */
struct samples {
    uint32_t words[2][2 * MAX_N], message[2][MAX_N], phase[2][MAX_N];
};

/* One round: a selector of bit m, two samples, and the result of the last call. */
struct round {
    struct numbers n;
    uint32_t key[MAX_N], masks[MAX_ROWS * MAX_N], errors[MAX_ROWS * MAX_N], block[2 * MAX_ROWS * MAX_N];
    struct samples in;
    uint32_t out[2 * MAX_N], phase[MAX_N];
};

/* Rounds in all, and those with a charge below 2^31: no word is farther than that from any other. */
static unsigned rounds, telling;

static uint64_t charge(const struct round *r)
{
    return charge_of(r->n, r->n.A);
}

/* Half of the gadgets have as many digits as fit, so that little is rounded away. */
static struct gadget any_gadget(void)
{
    uint64_t g = 1 + below(16), most = 32 / g;
    return (struct gadget){g, below(2) ? most : 1 + below(most)};
}

/* None, 1, or up to what keeps the charge below half a turn, where there is such. */
static uint64_t any_amplitude(struct numbers n)
{
    uint64_t rounding = rounding_of(n), most = rounding < half_turn ? (half_turn - 1 - rounding) / unit_of(n) : 0;
    uint64_t kind = below(4);
    return kind < 2 ? kind : below(most + 2);
}

/* A sample of a random message, with noise up to the amplitude. */
static void fill_sample(struct round *r, int which, uint64_t amplitude)
{
    static uint32_t noise[MAX_N];
    size_t N = (size_t)r->n.N;
    uint32_t *sample = r->in.words[which];
    choose_words(sample, N, half_turn);
    choose_words(r->in.message[which], N, half_turn);
    choose_words(noise, N, amplitude);
    for (size_t i = 0; i < N; i++) {
        r->in.phase[which][i] = r->in.message[which][i] + noise[i];
        sample[N + i] = product_at(sample, r->key, N, i) + r->in.phase[which][i];
    }
}

/* The phase that row t should have, and the one that it has: the lent error is between them. */
static void check_row(const struct arguments *a, const struct round *r, size_t t)
{
    size_t N = (size_t)r->n.N, L = (size_t)r->n.L;
    uint32_t h = (uint32_t)r->n.m * step_of(gadget_of(r->n), t % L + 1);
    for (size_t i = 0; i < N; i++) {
        uint32_t should = t < L ? (uint32_t)0 - h * r->key[i] : i == 0 ? h : 0;
        uint32_t phase = phase_at(r->block + 2 * t * N, r->key, N, i);
        check_call(a, phase - should == r->errors[t * N + i], "phase %zu of row %zu is %" PRIu32, i, t, phase);
    }
}

/* The greatest error is what the selector reports; from here on it is the block's amplitude. */
static void encrypt_round(struct round *r)
{
    struct arguments a = {0};
    size_t N = (size_t)r->n.N, rows = 2 * (size_t)r->n.L;
    lawful(&a, &encrypt_selector, r->n, below(UINT64_MAX));
    set_words(slice_of(&a, KEY), r->key, N);
    set_words(slice_of(&a, ROW_MASKS), r->masks, rows * N);
    set_words(slice_of(&a, ROW_ERRORS), r->errors, rows * N);
    accept(&a);
    read_words(r->block, 2 * MAX_ROWS * MAX_N, slice_of(&a, BLOCK));
    for (size_t t = 0; t < rows; t++)
        check_row(&a, r, t);
    r->n.A = greatest_magnitude(r->errors, rows * N);
    free_arguments(&a);
}

/* No coefficient of the result's phase is farther than the bound from what it should be, 0 or 1 times a polynomial. */
static void check_near(const struct arguments *a, const struct round *r, const uint32_t *should, uint32_t times,
                       uint64_t bound, const char *what)
{
    for (size_t i = 0; i < r->n.N; i++) {
        uint32_t distance = magnitude(r->phase[i] - times * should[i]);
        check_call(a, distance <= bound, "phase %zu is %" PRIu32 " from the %s, the bound is %" PRIu64, i, distance,
                   what, bound);
    }
}

/* Makes the call, whose block and samples are set; every word is compared with the formula's. */
static void make_result(struct arguments *a, struct round *r)
{
    set_words(slice_of(a, BLOCK), r->block, 4 * (size_t)(r->n.L * r->n.N));
    accept(a);
    read_words(r->out, 2 * MAX_N, slice_of(a, RESULT));
    for (size_t i = 0; i < r->n.N; i++)
        r->phase[i] = phase_at(r->out, r->key, (size_t)r->n.N, i);
}

static void product_round(struct round *r, int which)
{
    struct arguments a = {0};
    uint32_t m = (uint32_t)r->n.m;
    r->n.B = which ? r->n.A1 : r->n.A0;
    lawful(&a, &external_product, r->n, below(UINT64_MAX));
    set_words(slice_of(&a, SAMPLE), r->in.words[which], 2 * (size_t)r->n.N);
    make_result(&a, r);
    check_near(&a, r, r->in.message[which], m, charge(r) + r->n.B, "bit times the message");
    check_near(&a, r, r->in.phase[which], m, charge(r), "bit times the sample's phase");
    free_arguments(&a);
}

static void cmux_round(struct round *r)
{
    struct arguments a = {0};
    uint64_t greater = r->n.A0 > r->n.A1 ? r->n.A0 : r->n.A1;
    lawful(&a, &cmux, r->n, below(UINT64_MAX));
    set_words(slice_of(&a, SAMPLE), r->in.words[0], 2 * (size_t)r->n.N);
    set_words(slice_of(&a, SAMPLE1), r->in.words[1], 2 * (size_t)r->n.N);
    make_result(&a, r);
    check_near(&a, r, r->in.message[r->n.m], 1, charge(r) + greater, "picked message");
    check_near(&a, r, r->in.phase[r->n.m], 1, charge(r), "picked sample's phase");
    free_arguments(&a);
}

static void run_round(struct numbers n, uint64_t seed)
{
    static struct round r;
    size_t N = (size_t)n.N, rows = 2 * (size_t)n.L;
    r.n = n;
    at("seed %" PRIu64 ": N = %" PRIu64 ", g = %" PRIu64 ", L = %" PRIu64 ", W = %" PRIu64 ", bit %" PRIu64
       ", errors up to %" PRIu64, seed, n.N, n.g, n.L, n.W, n.m, n.A);
    choose_key(r.key, N, n.W);
    choose_words(r.masks, rows * N, half_turn);
    choose_words(r.errors, rows * N, n.A);
    fill_sample(&r, 0, n.A0);
    fill_sample(&r, 1, n.A1);
    encrypt_round(&r);
    product_round(&r, (int)below(2));
    cmux_round(&r);
    rounds++;
    telling += charge(&r) < half_turn;
}

int main(int argc, char **argv)
{
    uint64_t seed = argc > 1 ? strtoull(argv[1], NULL, 0) : UINT64_C(20240301);
    start("blocks");
    printf("blocks: seed %" PRIu64 "\n", seed);
    seed_random(seed);
    for (uint64_t N = 1; N <= MAX_N; N *= 2)
        for (unsigned turn = 0; turn < (N <= 32 ? 200 : N <= 256 ? 40 : 8); turn++) {
            struct gadget gadget = any_gadget();
            struct numbers n = {.N = N, .g = gadget.g, .L = gadget.L, .W = choose_weight(N), .m = turn % 2};
            n.A = any_amplitude(n);
            n.A0 = below(2) ? below(half_turn + 1) : below(1000);
            n.A1 = below(2) ? below(half_turn + 1) : below(1000);
            run_round(n, seed);
        }
    printf("blocks: %u rounds, %u of them with a charge below 2^31\n", rounds, telling);
    at("all rounds");
    check(2 * telling > rounds, "most rounds tell nothing of the noise");
    return finish();
}
