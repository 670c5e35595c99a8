/*
 * Worked examples of hidden tables, every word written out. Bare gadgets pick and rotate their samples as these are,
 * mask and body. The bound has the greatest amplitude of them all, once.
 */
#include "calls.h"

#include <inttypes.h>

/* A job with all its words; those that it writes beyond the sample are 0. */
static void answers(const struct call *call, struct numbers n, const struct job *job, struct answer want,
                    const uint32_t *sample)
{
    struct arguments a = {0};
    uint32_t words[64] = {0};
    lawful(&a, call, n, 1);
    set_words(slice_of(&a, BLOCKS), job->blocks, (size_t)(n.d * 4 * n.L * n.N));
    set_words(slice_of(&a, AMPLITUDES), job->amplitudes, (size_t)n.d);
    set_words(slice_of(&a, SAMPLES), job->table.samples, 2 * job->N * job->count);
    set_words(slice_of(&a, SAMPLE_AMPLITUDES), job->table.amplitudes, job->count);
    make_call(&a, want);
    for (size_t i = 0; i < 2 * n.N; i++)
        words[i] = sample[i];
    if (want.number == 0)
        check_written(&a, words, 2 * (size_t)(n.N * (n.d + 2)));
    free_arguments(&a);
}

/* Without selectors the result is the one sample, word for word, and its amplitude is the bound. */
static void is_the_only_sample(const struct call *call, uint64_t M, uint32_t amplitude, uint32_t number)
{
    const uint32_t none[1] = {0}, sample[8] = {5, UINT32_MAX, 7, UINT32_C(2147483648), 1, UINT32_C(4026531840), 0, 9};
    struct numbers n = {.N = 4, .g = 1, .L = 1, .W = 4, .M = M, .s = 1};
    struct job job = job_of(call, n, none, none, (struct table){.samples = sample, .amplitudes = &amplitude});
    at("%s: no selectors, M = %" PRIu64 ", a sample of amplitude %" PRIu32, call->name, M, amplitude);
    answers(call, n, &job, (struct answer){number, number == 6 ? 0 : amplitude, 0}, sample);
}

static void test_only_sample(const struct call *call)
{
    for (uint64_t M = 2; M <= 65536; M *= 2) {
        uint32_t limit = (uint32_t)(half_turn / M);
        is_the_only_sample(call, M, 0, 0);
        is_the_only_sample(call, M, limit - 1, 0);
        is_the_only_sample(call, M, limit, 9);
        is_the_only_sample(call, M, UINT32_C(2147483648), 9);
        is_the_only_sample(call, M, UINT32_C(2147483649), 6);
    }
}

/*
 * Job J with encrypted samples of amplitudes 3 and 8, N = 1: the second is picked as it is. 917504 is the charge; with
 * 134086656 and 131071 the bound is the greatest for 16 classes.
 */
static void picks_in_job_j(const struct call *call)
{
    const struct numbers n = {.N = 1, .g = 16, .L = 2, .M = 16, .s = 1, .d = 1};
    const uint32_t block[8] = {65536, 0, 1, 0, 0, 65536, 0, 1};
    const uint32_t samples[4] = {7, 805306371, UINT32_C(4000000000), UINT32_C(2147483640)};
    const struct {
        uint32_t amplitude, samples[2];
        struct answer want;
    } cases[] = {
        {7, {3, 8}, {0, 917512, 1}}, {7, {8, 3}, {0, 917512, 1}}, {1023, {131071, 131071}, {0, 134217727, 1}},
        {1023, {131072, 0}, {9, 134217728, 0}}, {1023, {0, 131072}, {9, 134217728, 0}},
        {0, {UINT32_C(2147483648), 0}, {9, UINT64_C(2147483648), 0}},
    };
    for (size_t i = 0; i < sizeof cases / sizeof cases[0]; i++) {
        struct table table = {.samples = samples, .amplitudes = cases[i].samples};
        struct job job = job_of(call, n, block, &cases[i].amplitude, table);
        at("%s: job J with a hidden table, case %zu", call->name, i);
        answers(call, n, &job, cases[i].want, samples + 2);
    }
}

/* N = 2, four samples of which sample 1 has the greatest amplitude. Charges are 2*2*2*32768 times 0 and 1. */
static void picks_sample(uint32_t h)
{
    const struct numbers n = {.N = 2, .g = 16, .L = 2, .M = 8, .s = 2, .d = 2};
    const uint32_t amplitudes[2] = {0, 1}, sample_amplitudes[4] = {3, 9, 1, 4};
    const uint32_t samples[16] = {1, 2, 3, 4, 5, 6, 7, 8, UINT32_MAX, UINT32_C(2147483648), 11, 12, 13, 14, 15, 16};
    uint32_t blocks[2 * 16];
    struct table table = {.samples = samples, .amplitudes = sample_amplitudes};
    at("sample %" PRIu32 " of four", h);
    for (uint32_t i = 0; i < 2; i++)
        bare_gadget(blocks + 16 * i, 2, h >> i & 1);
    struct job job = job_of(&lookup_hidden, n, blocks, amplitudes, table);
    answers(&lookup_hidden, n, &job, (struct answer){0, 262153, 3}, samples + 4 * h);
}

/* N = 4, eight entries in two samples: selector 2 picks one, selectors 0 and 1 rotate its mask and its body. */
static void rotates_sample(uint32_t h)
{
    const struct numbers n = {.N = 4, .g = 16, .L = 2, .M = 8, .s = 1, .d = 3};
    const uint32_t amplitudes[3] = {0}, sample_amplitudes[2] = {7, 2};
    const uint32_t samples[16] = {1, 2, 3, 4, 5, 6, 7, 8, 11, 12, 13, 14, 15, 16, 17, 18};
    const int32_t rotated[8][8] = {
        {1, 2, 3, 4, 5, 6, 7, 8}, {2, 3, 4, -1, 6, 7, 8, -5},
        {3, 4, -1, -2, 7, 8, -5, -6}, {4, -1, -2, -3, 8, -5, -6, -7},
        {11, 12, 13, 14, 15, 16, 17, 18}, {12, 13, 14, -11, 16, 17, 18, -15},
        {13, 14, -11, -12, 17, 18, -15, -16}, {14, -11, -12, -13, 18, -15, -16, -17},
    };
    uint32_t blocks[3 * 32], want[8];
    struct table table = {.samples = samples, .amplitudes = sample_amplitudes};
    at("entry %" PRIu32 " of eight in two samples", h);
    for (uint32_t i = 0; i < 3; i++)
        bare_gadget(blocks + 32 * i, 4, h >> i & 1);
    struct job job = job_of(&lookup_hidden_vertical, n, blocks, amplitudes, table);
    for (size_t i = 0; i < 8; i++)
        want[i] = (uint32_t)rotated[h][i];
    answers(&lookup_hidden_vertical, n, &job, (struct answer){0, 7, 3}, want);
}

/* The most charges of 2^58, and a sample of amplitude 2^31 on top: the greatest bound of all. */
static void has_the_greatest_bound(const struct call *call)
{
    struct arguments a = {0};
    struct numbers n = {.N = 1024, .g = 16, .L = 2, .M = 2, .s = 1, .d = most_selectors(call)};
    at("%s: the greatest bound", call->name);
    lawful(&a, call, n, 1);
    for (size_t i = 0; i < n.d; i++)
        put_word(slice_of(&a, AMPLITUDES), i, UINT32_C(2147483648));
    put_word(slice_of(&a, SAMPLE_AMPLITUDES), words_in(slice_of(&a, SAMPLE_AMPLITUDES)) / 2, UINT32_C(2147483648));
    make_call(&a, (struct answer){9, (n.d << 58) + UINT64_C(2147483648), 0});
    free_arguments(&a);
}

void test_hidden_examples(void)
{
    for (size_t c = 0; all_lookups[c]; c++)
        if (is_hidden(all_lookups[c])) {
            test_only_sample(all_lookups[c]);
            picks_in_job_j(all_lookups[c]);
            has_the_greatest_bound(all_lookups[c]);
        }
    for (uint32_t h = 0; h < 4; h++)
        picks_sample(h);
    for (uint32_t h = 0; h < 8; h++)
        rotates_sample(h);
}
