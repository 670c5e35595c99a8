/*
 * Random lookups in every packing, for every degree with every number of selectors: these are encrypted, and a hidden
 * table too, under the same key, whose weight is at most the declared one; an entry is looked up and decrypted. Not one
 * class may be wrong, and no coefficient of the result's phase farther from what it should be than the bound that is
 * reported. Every word is compared with the CMuxes in plain C. Jobs with too much noise must be refused. In small tables
 * every entry is looked up.
 */
#include "portal.h"

#include <inttypes.h>
#include <stdio.h>
#include <stdlib.h>
#include <string.h>

enum {
    MAX_N = 1024, MAX_ROWS = 64, MAX_BLOCK = 2 * MAX_ROWS * MAX_N, MAX_TABLE = 1024 * 1024, MAX_SAMPLES = 1 << MAX_D
};

/* One round: the selectors' bits are the binary digits of h, the number of the entry to be looked up. */
struct round {
    const struct call *call;
    struct numbers n;
    uint64_t h;
    uint32_t key[MAX_N], amplitudes[MAX_D], blocks[MAX_D * MAX_BLOCK], classes[MAX_TABLE], sample[2 * MAX_N];
    uint32_t samples[2 * MAX_TABLE], sample_amplitudes[MAX_SAMPLES]; /* of a hidden table */
};

/* Jobs of one lookup that were accepted, by their N and d. */
static unsigned accepted[MAX_N + 1][MAX_D + 1];

/* Its jobs that were refused, and selectors with an error as great as their amplitude, which isn't 0. */
static unsigned refused, greatest;

static struct job round_job(const struct round *r)
{
    const uint32_t *samples = is_hidden(r->call) ? r->samples : NULL;
    return job_of(r->call, r->n, r->blocks, r->amplitudes, (struct table){r->classes, samples, r->sample_amplitudes});
}

/*
 * How amplitudes are chosen: none; small; a share each; all for one selector, or sample; parts of the greatest sum, at
 * random.
 */
enum choice { NONE, SMALL, SHARES, ONE, PARTS, CHOICES };

/* Selectors leave half of the noise to the samples of a hidden table. */
static void choose_amplitudes(struct round *r, enum choice choice)
{
    uint64_t d = r->n.d, left = most_amplitudes(r->n) / (is_hidden(r->call) ? 2 : 1);
    uint64_t share = d ? left / d : 0, one = below(d ? d : 1);
    for (uint64_t i = 0; i < d; i++) {
        uint64_t part = i + 1 < d ? below(left + 1) : left;
        const uint64_t amplitudes[CHOICES] = {0, below(share < 3 ? share + 1 : 4), share, i == one ? left : 0, part};
        r->amplitudes[i] = (uint32_t)amplitudes[choice];
        if (choice == PARTS)
            left -= part;
    }
}

/* Random classes, or extremes at random. With amplitudes 0, in half of the tables all classes are the same. */
static void choose_classes(struct round *r, enum choice choice)
{
    const uint64_t M = r->n.M, extremes[] = {0, M / 2, M - 1}, one = extremes[below(3)];
    const int alike = choice == NONE && below(2), extreme = below(4) == 0;
    for (uint64_t i = 0; i < r->n.s << r->n.d; i++)
        r->classes[i] = (uint32_t)(alike ? one : extreme ? extremes[below(3)] : below(M));
}

/* Selector i: its errors are no greater than its amplitude, and often just as great. */
static void encrypt_selector_of(struct round *r, size_t i)
{
    static uint32_t masks[MAX_ROWS * MAX_N], errors[MAX_ROWS * MAX_N];
    struct arguments a = {0};
    struct numbers n = r->n;
    size_t words = 2 * (size_t)(n.L * n.N);
    n.m = r->h >> i & 1;
    choose_words(masks, words, half_turn);
    choose_words(errors, words, r->amplitudes[i]);
    lawful(&a, &encrypt_selector, n, below(UINT64_MAX));
    set_words(slice_of(&a, KEY), r->key, (size_t)n.N);
    set_words(slice_of(&a, ROW_MASKS), masks, words);
    set_words(slice_of(&a, ROW_ERRORS), errors, words);
    make_call(&a, (struct answer){0, greatest_magnitude(errors, words), 0});
    greatest += r->amplitudes[i] > 0 && greatest_magnitude(errors, words) == r->amplitudes[i];
    read_words(r->blocks + i * 2 * words, MAX_BLOCK, slice_of(&a, BLOCK));
    free_arguments(&a);
}

/* Sample t of a hidden table with errors up to `most`: its amplitude is the bound that is reported. */
static void encrypt_sample_of(struct round *r, size_t t, uint64_t most)
{
    uint32_t mask[MAX_N], errors[MAX_N];
    struct arguments a = {0};
    struct numbers n = r->n;
    size_t N = (size_t)n.N;
    n.s <<= rotating_of(r->call, n.N, n.d);
    choose_words(mask, N, half_turn);
    choose_words(errors, N, most);
    lawful(&a, &encrypt_classes, n, below(UINT64_MAX));
    set_words(slice_of(&a, KEY), r->key, N);
    set_words(slice_of(&a, MASK), mask, N);
    set_words(slice_of(&a, ERRORS), errors, N);
    set_words(slice_of(&a, CLASSES), r->classes + t * n.s, (size_t)n.s);
    r->sample_amplitudes[t] = (uint32_t)greatest_magnitude(errors, N);
    make_call(&a, (struct answer){0, r->sample_amplitudes[t], 0});
    read_words(r->samples + 2 * t * N, 2 * MAX_N, slice_of(&a, SAMPLE));
    free_arguments(&a);
}

/* What the selectors leave of the noise is the most that a sample can have: only the greatest amplitude counts. */
static void encrypt_samples(struct round *r, enum choice choice)
{
    struct job job = round_job(r);
    uint64_t left = limit_of(r->n) - 1 - charges_of(&job), one = below(job.count);
    for (size_t t = 0; t < job.count; t++) {
        const uint64_t most[CHOICES] = {0, below(left < 3 ? left + 1 : 4), left, t == one ? left : 0, below(left + 1)};
        encrypt_sample_of(r, t, most[choice]);
    }
}

/* Every coefficient of the phase, used or not, against what it should be for the entry that the bits name. */
static void check_phase(const struct arguments *a, const struct round *r)
{
    uint32_t want[MAX_N];
    struct job job = round_job(r);
    uint64_t bound = job_bound(&job);
    exact_message(want, &job, (size_t)r->h);
    for (size_t i = 0; i < job.N; i++) {
        uint32_t phase = phase_at(r->sample, r->key, job.N, i);
        check_call(a, magnitude(phase - want[i]) <= bound,
                   "phase %zu is %" PRIu32 ", more than %" PRIu64 " from %" PRIu32, i, phase, bound, want[i]);
    }
}

static void check_classes(const struct round *r)
{
    struct arguments a = {0};
    lawful(&a, &decrypt_classes, r->n, below(UINT64_MAX));
    set_words(slice_of(&a, KEY), r->key, (size_t)r->n.N);
    set_words(slice_of(&a, SAMPLE), r->sample, 2 * (size_t)r->n.N);
    make_call(&a, (struct answer){0, 0, 0});
    check_written(&a, r->classes + r->h * r->n.s, (size_t)r->n.s);
    free_arguments(&a);
}

static void set_job(struct arguments *a, const struct round *r)
{
    lawful(a, r->call, r->n, below(UINT64_MAX));
    set_words(slice_of(a, BLOCKS), r->blocks, (size_t)(r->n.d * 4 * r->n.L * r->n.N));
    set_words(slice_of(a, AMPLITUDES), r->amplitudes, (size_t)r->n.d);
    if (!is_hidden(r->call)) {
        set_words(slice_of(a, CLASSES), r->classes, (size_t)(r->n.s << r->n.d));
        return;
    }
    struct job job = round_job(r);
    set_words(slice_of(a, SAMPLES), r->samples, 2 * job.N * job.count);
    set_words(slice_of(a, SAMPLE_AMPLITUDES), r->sample_amplitudes, job.count);
}

/* The same job with the least amplitude of one selector that is too great. */
static void refuse_amplitude(struct arguments *a, const struct round *r)
{
    struct job job = round_job(r);
    uint64_t unit = unit_of(r->n), sum = job_bound(&job), steps = (limit_of(r->n) - sum + unit - 1) / unit;
    size_t i = (size_t)below(r->n.d);
    set_job(a, r);
    put_word(slice_of(a, AMPLITUDES), i, (uint32_t)(r->amplitudes[i] + steps));
    make_call(a, (struct answer){9, sum + steps * unit, 0});
    refused++;
}

/* The same job with the least amplitude of one sample that is too great. */
static void refuse_sample_amplitude(struct arguments *a, const struct round *r)
{
    struct job job = round_job(r);
    set_job(a, r);
    put_word(slice_of(a, SAMPLE_AMPLITUDES), (size_t)below(job.count), (uint32_t)(limit_of(r->n) - charges_of(&job)));
    make_call(a, (struct answer){9, limit_of(r->n), 0});
    refused++;
}

/* The same job with the least number of classes for which its noise is too great, if there is a lawful one. */
static void refuse_classes(struct arguments *a, const struct round *r)
{
    struct job job = round_job(r);
    struct numbers n = r->n;
    uint64_t sum = job_bound(&job);
    while (n.M <= 65536 && sum < limit_of(n))
        n.M *= 2;
    if (n.M > 65536)
        return;
    set_job(a, r);
    *number_of(a, 'M') = n.M;
    make_call(a, (struct answer){9, sum, 0});
    refused++;
}

static void run_round(const struct call *call, struct numbers n, uint64_t h, enum choice choice)
{
    static struct round r;
    struct arguments a = {0};
    r.call = call;
    r.n = n;
    r.h = h;
    at("%s: N = %" PRIu64 ", g = %" PRIu64 ", L = %" PRIu64 ", W = %" PRIu64 ", M = %" PRIu64 ", s = %" PRIu64
       ", d = %" PRIu64 ", entry %" PRIu64 ", amplitudes of choice %d", call->name, n.N, n.g, n.L, n.W, n.M, n.s, n.d, h,
       (int)choice);
    choose_key(r.key, (size_t)n.N, n.W);
    choose_classes(&r, choice);
    choose_amplitudes(&r, choice);
    for (size_t i = 0; i < n.d; i++)
        encrypt_selector_of(&r, i);
    if (is_hidden(call))
        encrypt_samples(&r, choice);
    set_job(&a, &r);
    if (accept_or_9(&a) == 0) {
        accepted[n.N][n.d]++;
        read_words(r.sample, 2 * MAX_N, slice_of(&a, RESULT));
        check_phase(&a, &r);
        check_classes(&r);
        refuse_classes(&a, &r);
        if (n.d)
            refuse_amplitude(&a, &r);
        if (is_hidden(call))
            refuse_sample_amplitude(&a, &r);
    }
    free_arguments(&a);
}

/* About how many products of two words a lookup takes for each digit of the gadget. */
static uint64_t products(const struct call *call, uint64_t N, uint64_t d)
{
    return gates_of(call, N, d) * 4 * N * N;
}

/*
 * A round has time for so many products. One with a single digit may take more, and is then alone with its N and d.
 * Hidden tables, whose CMuxes are no others, get less time and fewer rounds.
 */
static uint64_t most_products(const struct call *call)
{
    return UINT64_C(1) << (is_hidden(call) ? 25 : 27);
}

static uint64_t most_digits(const struct call *call, uint64_t N, uint64_t d)
{
    uint64_t digits = d ? most_products(call) / products(call, N, d) : 32;
    return digits < 1 ? 1 : digits < 32 ? digits : 32;
}

static int is_long(const struct call *call, uint64_t N, uint64_t d)
{
    return products(call, N, d) > most_products(call);
}

/* Every way of choosing amplitudes has its turn with an N and d. With very many samples to encrypt, only one has. */
static unsigned rounds_of(const struct call *call, uint64_t N, uint64_t d)
{
    enum { MANY = 1024 };
    if (is_long(call, N, d) || (is_hidden(call) && samples_of(call, N, d) > MANY))
        return 1;
    return N <= 64 && d <= 10 && !is_hidden(call) ? 3 * CHOICES : CHOICES;
}

/* The entries of a table that are looked up one after another: all of a small table, none of others. */
static unsigned entries_of(uint64_t N, uint64_t d)
{
    return N <= 16 && d <= 6 ? 1u << d : 0;
}

/* Half of the gadgets have as many digits as they can, so that little is rounded away. */
static struct gadget any_gadget(uint64_t digits)
{
    uint64_t g = 1 + below(16), most = 32 / g < digits ? 32 / g : digits;
    return (struct gadget){g, below(2) ? most : 1 + below(most)};
}

/* Whether amplitudes 0 are accepted. */
static int is_quiet(struct numbers n)
{
    return n.d * rounding_of(n) < limit_of(n);
}

/*
 * Numbers with which amplitudes 0 are accepted. For every lawful N, L and d some lawful g is great enough for two
 * classes; then there are as many classes as were chosen, or fewer.
 */
static struct numbers any_numbers(const struct call *call, uint64_t N, uint64_t d)
{
    struct gadget gadget = any_gadget(most_digits(call, N, d));
    const uint64_t most = most_classes(call, N), s[] = {1, most, 1 + below(most), 1 + below(most)};
    struct numbers n = {
        .N = N, .g = gadget.g, .L = gadget.L, .W = choose_weight(N), .M = 2, .s = s[below(4)], .d = d,
    };
    while (!is_quiet(n))
        n.g++;
    for (n.M = UINT64_C(2) << below(16); !is_quiet(n);)
        n.M /= 2;
    return n;
}

/* A round that takes long is alone, and its entries have as many classes as they can: 1,024 entries of 1,024 at most. */
static void test_pair(const struct call *call, uint64_t N, uint64_t d)
{
    static unsigned turn;
    for (unsigned i = 0; i < rounds_of(call, N, d); i++) {
        struct numbers n = any_numbers(call, N, d);
        enum choice choice = (enum choice)(turn++ % CHOICES);
        if (is_long(call, N, d)) {
            n.s = most_classes(call, N);
            choice = SHARES;
        }
        run_round(call, n, below(UINT64_C(1) << d), choice);
    }
}

/* Numbers with which every selector can have noise; the degree is small enough for such. */
static struct numbers noisy_numbers(const struct call *call, uint64_t N, uint64_t d)
{
    struct numbers n = any_numbers(call, N, d);
    while (most_amplitudes(n) < (is_hidden(call) ? 2 : 1) * d)
        n = any_numbers(call, N, d);
    return n;
}

static void test_entries(const struct call *call, uint64_t N, uint64_t d)
{
    struct numbers n = noisy_numbers(call, N, d);
    for (uint64_t h = 0; h < entries_of(N, d); h++)
        run_round(call, n, h, SHARES);
}

static void test_lookup(const struct call *call)
{
    for (uint64_t N = 1; N <= MAX_N; N *= 2)
        for (uint64_t d = 0; d <= most_selectors(call); d++) {
            test_pair(call, N, d);
            if (entries_of(N, d))
                test_entries(call, N, d);
        }
}

/* Every round of every N and d has had its job accepted. Returns how many that are. */
static unsigned check_plan(const struct call *call)
{
    unsigned sum = 0;
    for (uint64_t N = 1; N <= MAX_N; N *= 2)
        for (uint64_t d = 0; d <= most_selectors(call); d++) {
            unsigned count = accepted[N][d], want = rounds_of(call, N, d) + entries_of(N, d);
            at("%s: N = %" PRIu64 ", d = %" PRIu64, call->name, N, d);
            check(count > 0 && count == want, "%u jobs were accepted, not %u", count, want);
            sum += count;
        }
    return sum;
}

int main(int argc, char **argv)
{
    uint64_t seed = argc > 1 ? strtoull(argv[1], NULL, 0) : UINT64_C(20240302);
    start("lookups");
    printf("lookups: seed %" PRIu64 "\n", seed);
    seed_random(seed);
    for (size_t c = 0; all_lookups[c]; c++) {
        refused = greatest = 0;
        memset(accepted, 0, sizeof accepted);
        test_lookup(all_lookups[c]);
        printf("lookups: %s, %u jobs accepted, %u refused; %u selectors with an error as great as their amplitude\n",
               all_lookups[c]->name, check_plan(all_lookups[c]), refused, greatest);
        at("%s: all rounds", all_lookups[c]->name);
        check(refused > 400 && greatest > 400, "too few jobs of a kind");
    }
    return finish();
}
