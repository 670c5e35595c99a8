/* What a call with lawful arguments must report and write, by the formulas in plain C. */
#include "portal.h"

#include <inttypes.h>

/*
 * A block of 32 rows for each polynomial, at degree 1,024; one for each selector; the samples of entries for ten
 * selectors; and the amplitudes of the most samples, which are of degree 1.
 */
enum {
    MAX_WORDS = 131072, MAX_SAMPLE = 2048, MAX_BLOCKS = MAX_D * MAX_WORDS, MAX_TABLE = 1024 * MAX_SAMPLE,
    MAX_SAMPLES = 1 << MAX_D
};

static uint64_t value(struct arguments *a, char letter)
{
    const uint64_t *number = number_of(a, letter);
    need(number != NULL, "the number of a formula");
    return *number;
}

/* What a call reports that has a limit for its bound. */
static struct answer limited(struct arguments *a, uint64_t bound, uint64_t gates)
{
    if (bound >= UINT64_C(0x80000000) / value(a, 'M'))
        return (struct answer){9, bound, 0};
    return (struct answer){0, bound, gates};
}

static struct answer classes_encrypted(struct arguments *a, uint32_t *want)
{
    static uint32_t key[MAX_SAMPLE], mask[MAX_SAMPLE], errors[MAX_SAMPLE], classes[MAX_SAMPLE];
    size_t N = (size_t)value(a, 'N'), s = (size_t)value(a, 's');
    read_words(key, MAX_SAMPLE, slice_of(a, KEY));
    read_words(mask, MAX_SAMPLE, slice_of(a, MASK));
    read_words(errors, MAX_SAMPLE, slice_of(a, ERRORS));
    read_words(classes, MAX_SAMPLE, slice_of(a, CLASSES));
    for (size_t i = 0; i < N; i++) {
        want[i] = mask[i];
        want[N + i] = product_at(mask, key, N, i) + errors[i];
        want[N + i] += i < s ? encode(classes[i], value(a, 'M')) : 0;
    }
    return limited(a, greatest_magnitude(errors, N), 0);
}

static struct answer classes_decrypted(struct arguments *a, uint32_t *want)
{
    static uint32_t key[MAX_SAMPLE], sample[MAX_SAMPLE];
    read_words(key, MAX_SAMPLE, slice_of(a, KEY));
    read_words(sample, MAX_SAMPLE, slice_of(a, SAMPLE));
    for (size_t i = 0; i < value(a, 's'); i++)
        want[i] = decode(phase_at(sample, key, (size_t)value(a, 'N'), i), value(a, 'M'));
    return (struct answer){0, 0, 0};
}

static struct answer scalar_decrypted(struct arguments *a, uint32_t *want)
{
    const struct bytes *key = slice_of(a, KEY), *scalar = slice_of(a, SCALAR);
    uint32_t phase = word_at(scalar, words_in(key));
    for (size_t j = 0; j < words_in(key); j++)
        phase -= word_at(scalar, j) * word_at(key, j);
    want[0] = decode(phase, value(a, 'M'));
    return (struct answer){0, 0, 0};
}

static struct answer extracted(struct arguments *a, uint32_t *want)
{
    static uint32_t sample[MAX_SAMPLE];
    size_t N = (size_t)value(a, 'N'), p = (size_t)value(a, 'p');
    read_words(sample, MAX_SAMPLE, slice_of(a, SAMPLE));
    for (size_t j = 0; j <= N; j++)
        want[j] = extracted_at(sample, N, p, j);
    return (struct answer){0, 0, 0};
}

static struct answer selector_encrypted(struct arguments *a, uint32_t *want)
{
    static uint32_t key[MAX_SAMPLE], masks[MAX_WORDS], errors[MAX_WORDS];
    size_t N = (size_t)value(a, 'N');
    read_words(key, MAX_SAMPLE, slice_of(a, KEY));
    read_words(masks, MAX_WORDS, slice_of(a, ROW_MASKS));
    read_words(errors, MAX_WORDS, slice_of(a, ROW_ERRORS));
    encrypted_block(want, gadget_of(numbers_of(a)), N, (uint32_t)value(a, 'm'), key, masks, errors);
    return (struct answer){0, greatest_magnitude(errors, 2 * (size_t)value(a, 'L') * N), 0};
}

static struct answer product_made(struct arguments *a, uint32_t *want)
{
    static uint32_t block[MAX_WORDS], sample[MAX_SAMPLE];
    struct numbers n = numbers_of(a);
    size_t N = (size_t)n.N;
    read_words(block, MAX_WORDS, slice_of(a, BLOCK));
    read_words(sample, MAX_SAMPLE, slice_of(a, SAMPLE));
    for (size_t i = 0; i < 2 * N; i++)
        want[i] = 0;
    add_external(want, gadget_of(n), N, block, sample);
    return (struct answer){0, charge_of(n, n.A) + n.B, 0};
}

static struct answer sample_picked(struct arguments *a, uint32_t *want)
{
    static uint32_t block[MAX_WORDS], sample1[MAX_SAMPLE];
    struct numbers n = numbers_of(a);
    size_t N = (size_t)n.N;
    read_words(block, MAX_WORDS, slice_of(a, BLOCK));
    read_words(want, MAX_SAMPLE, slice_of(a, SAMPLE));
    read_words(sample1, MAX_SAMPLE, slice_of(a, SAMPLE1));
    for (size_t i = 0; i < 2 * N; i++)
        sample1[i] -= want[i];
    add_external(want, gadget_of(n), N, block, sample1);
    return (struct answer){0, (n.A0 > n.A1 ? n.A0 : n.A1) + charge_of(n, n.A), 1};
}

/* The table as it is lent: its classes, or its samples with their amplitudes. */
static struct table lent_table(struct arguments *a)
{
    static uint32_t words[MAX_TABLE], amplitudes[MAX_SAMPLES];
    int hidden = is_hidden(a->call);
    read_words(words, MAX_TABLE, slice_of(a, hidden ? SAMPLES : CLASSES));
    if (!hidden)
        return (struct table){.classes = words};
    read_words(amplitudes, MAX_SAMPLES, slice_of(a, SAMPLE_AMPLITUDES));
    return (struct table){.samples = words, .amplitudes = amplitudes};
}

/* The sample, then the work slice, which is all 0. */
static struct answer entry_looked_up(struct arguments *a, uint32_t *want)
{
    static uint32_t blocks[MAX_BLOCKS], amplitudes[MAX_D];
    struct numbers n = numbers_of(a);
    read_words(blocks, MAX_BLOCKS, slice_of(a, BLOCKS));
    read_words(amplitudes, MAX_D, slice_of(a, AMPLITUDES));
    struct job job = job_of(a->call, n, blocks, amplitudes, lent_table(a));
    struct answer answer = limited(a, job_bound(&job), gates_of(a->call, n.N, n.d));
    if (answer.number == 0) {
        looked_up(want, &job);
        for (size_t i = 0; i < 2 * job.N * (job.d + 1); i++)
            want[2 * job.N + i] = 0;
    }
    return answer;
}

/* What a call reports, and in `want` the words that it writes if it is accepted. */
static struct answer expected(struct arguments *a, uint32_t *want)
{
    const struct {
        const struct call *call;
        struct answer (*formula)(struct arguments *, uint32_t *);
    } formulas[] = {
        {&encrypt_classes, classes_encrypted}, {&decrypt_classes, classes_decrypted},
        {&decrypt_scalar, scalar_decrypted}, {&extract, extracted},
        {&encrypt_selector, selector_encrypted}, {&external_product, product_made}, {&cmux, sample_picked},
        {&lookup, entry_looked_up}, {&lookup_vertical, entry_looked_up},
        {&lookup_hidden, entry_looked_up}, {&lookup_hidden_vertical, entry_looked_up},
    };
    for (size_t i = 0; i < sizeof formulas / sizeof formulas[0]; i++)
        if (formulas[i].call == a->call)
            return formulas[i].formula(a, want);
    need(0, "the formula of every call");
    return (struct answer){0, 0, 0};
}

static size_t words_written(const struct arguments *a)
{
    size_t count = 0;
    for (size_t k = a->call->slices - a->call->written; k < a->call->slices; k++)
        count += words_in(&a->slice[k]);
    return count;
}

void check_written(const struct arguments *a, const uint32_t *want, size_t count)
{
    size_t before = 0;
    check_call(a, words_written(a) == count, "%zu words are written, not %zu", words_written(a), count);
    for (size_t k = a->call->slices - a->call->written; k < a->call->slices; k++) {
        const struct bytes *written = &a->slice[k];
        for (size_t i = 0; i < words_in(written) && before + i < count; i++)
            check_call(a, word_at(written, i) == want[before + i],
                       "word %zu of slice %zu is %" PRIu32 " afterwards, not %" PRIu32, i, k, word_at(written, i),
                       want[before + i]);
        before += words_in(written);
    }
}

uint32_t accept_or_9(struct arguments *a)
{
    static uint32_t want[MAX_WORDS];
    struct answer answer = expected(a, want);
    make_call(a, answer);
    if (answer.number == 0)
        check_written(a, want, words_written(a));
    return answer.number;
}

void accept(struct arguments *a)
{
    check_call(a, accept_or_9(a) == 0, "the bound is too great for arguments that are to be accepted");
}
