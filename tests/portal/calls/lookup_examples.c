/*
 * Worked examples of lookups, every word written out: job J and its bounds, bounds at the limit, tables from which bare
 * gadgets pick, and the charges of the largest degree. With N = 1 nothing rotates, and every packing is the same. Each
 * table is also lent as a hidden one.
 */
#include "calls.h"

#include <inttypes.h>
#include <string.h>

/* Words of a hidden table: 1,024 samples of degree 1,024 at most. */
enum { MAX_TABLE = 1024 * 2048 };

void lend_classes(struct arguments *a, const uint32_t *classes)
{
    static uint32_t samples[MAX_TABLE];
    struct numbers n = numbers_of(a);
    if (!is_hidden(a->call)) {
        set_words(slice_of(a, CLASSES), classes, (size_t)n.s << n.d);
        return;
    }
    struct job job = job_of(a->call, n, NULL, NULL, (struct table){.classes = classes});
    need(2 * job.N * job.count <= MAX_TABLE, "room for a table");
    trivial_samples(samples, &job);
    set_words(slice_of(a, SAMPLES), samples, 2 * job.N * job.count);
    memset(slice_of(a, SAMPLE_AMPLITUDES)->at, 0, 4 * job.count);
}

void lookup_answers(const struct call *call, struct numbers n, const uint32_t *blocks, const uint32_t *amplitudes,
                    const uint32_t *classes, struct answer want, const uint32_t *words)
{
    struct arguments a = {0};
    lawful(&a, call, n, 1);
    set_words(slice_of(&a, BLOCKS), blocks, (size_t)(n.d * 4 * n.L * n.N));
    set_words(slice_of(&a, AMPLITUDES), amplitudes, (size_t)n.d);
    lend_classes(&a, classes);
    make_call(&a, want);
    if (want.number == 0)
        check_written(&a, words, 2 * (size_t)(n.N * (n.d + 2)));
    free_arguments(&a);
}

/* Job J: the block is the bare gadget of bit 1, so it picks class 8 of 16, whose word is 2147483648. */
static const struct numbers numbers_j = {.N = 1, .g = 16, .L = 2, .W = 1, .M = 16, .s = 1, .d = 1};
static const uint32_t block_j[8] = {65536, 0, 1, 0, 0, 65536, 0, 1}, classes_j[2] = {3, 8};
static const uint32_t words_j[6] = {0, UINT32_C(2147483648)};

static void job_j(const struct call *call, uint32_t amplitude, struct answer want)
{
    at("%s: job J with amplitude %" PRIu32, call->name, amplitude);
    lookup_answers(call, numbers_j, block_j, &amplitude, classes_j, want, words_j);
}

/* The same table, and the bare gadget of bit 0. */
static void job_j_with_bit_0(const struct call *call)
{
    const uint32_t block[8] = {0}, amplitude = 7, words[6] = {0, 805306368};
    at("%s: job J with the other bit", call->name);
    lookup_answers(call, numbers_j, block, &amplitude, classes_j, (struct answer){0, 917504, 1}, words);
}

/* Every byte of the work slice is cleared and no byte of a refused job is changed, whatever stood there. */
static void job_j_over(const struct call *call, uint8_t before)
{
    struct arguments a = {0};
    at("%s: job J over bytes %d", call->name, before);
    for (uint32_t amplitude = 1023; amplitude <= 1024; amplitude++) {
        lawful(&a, call, numbers_j, 1);
        set_words(slice_of(&a, BLOCKS), block_j, 8);
        set_words(slice_of(&a, AMPLITUDES), &amplitude, 1);
        lend_classes(&a, classes_j);
        memset(slice_of(&a, RESULT)->at, before, 8);
        memset(slice_of(&a, WORK)->at, before, 16);
        if (amplitude == 1023) {
            make_call(&a, (struct answer){0, 134086656, 1});
            check_written(&a, words_j, 6);
        } else {
            make_call(&a, (struct answer){9, 134217728, 0});
        }
    }
    free_arguments(&a);
}

/*
 * With N = W = 2, g = 1 and L = 31 a charge is 124 times the amplitude, and 3. So 1082401 makes 134217727, the greatest
 * bound for 16 classes. Five amplitudes of 4329604 together make 536870911, the greatest for 4; three of 2164802
 * together make 268435457, one more than the limit for 8.
 */
static void bounds_at_the_limit(const struct call *call)
{
    static const uint32_t blocks[5 * 248], classes[32], words[2 * 2 * 7];
    const uint32_t one[1] = {1082401}, next[1] = {1082402}, five[5] = {4329600, 0, 1, 0, 3}, three[3] = {1, 2164800, 1};
    struct numbers n = {.N = 2, .g = 1, .L = 31, .W = 2, .M = 16, .s = 1, .d = 1};
    at("%s: a bound at the limit", call->name);
    lookup_answers(call, n, blocks, one, classes, (struct answer){0, 134217727, 1}, words);
    lookup_answers(call, n, blocks, next, classes, (struct answer){9, 134217851, 0}, words);
    n.M = 4;
    n.d = 5;
    lookup_answers(call, n, blocks, five, classes, (struct answer){0, 536870911, 31}, words);
    n.M = 8;
    n.d = 3;
    lookup_answers(call, n, blocks, three, classes, (struct answer){9, 268435457, 0}, words);
}

void bare_gadget(uint32_t *block, size_t N, uint32_t bit)
{
    memset(block, 0, 8 * N * sizeof *block);
    block[0] = block[4 * N + N] = bit << 16;
    block[2 * N] = block[6 * N + N] = bit;
}

/*
 * N = 2, M = 8, two classes in each of eight entries. Bare gadgets pick entry h as it is: bit i of h is selector i's.
 * Charges are 2*2*2*32768 times the amplitudes 0, 1 and 2.
 */
static void picks_entry(const struct call *call, uint32_t h)
{
    uint32_t blocks[3 * 16], words[4 * 5] = {0};
    const uint32_t amplitudes[3] = {0, 1, 2};
    const uint32_t classes[16] = {0, 7, 1, 6, 2, 5, 3, 4, 4, 3, 5, 2, 6, 1, 7, 0};
    at("%s: entry %" PRIu32 " of eight", call->name, h);
    for (uint32_t i = 0; i < 3; i++)
        bare_gadget(blocks + 16 * i, 2, h >> i & 1);
    words[2] = h << 29;
    words[3] = (7 - h) << 29;
    lookup_answers(call, (struct numbers){.N = 2, .g = 16, .L = 2, .M = 8, .s = 2, .d = 3}, blocks, amplitudes,
                   classes, (struct answer){0, 786432, 7}, words);
}

/* The most selectors, N = 1: entry h of 2^d has class 5*h modulo 2^d, and there are as many classes. */
static void picks_of_many(const struct call *call, uint32_t d, uint32_t h)
{
    static uint32_t blocks[MAX_D * 8], classes[1 << MAX_D];
    const uint32_t amplitudes[MAX_D] = {0}, count = UINT32_C(1) << d;
    uint32_t words[2 * (MAX_D + 2)] = {0};
    at("%s: entry %" PRIu32 " of %" PRIu32, call->name, h, count);
    for (uint32_t i = 0; i < d; i++)
        bare_gadget(blocks + 8 * i, 1, h >> i & 1);
    for (uint32_t t = 0; t < count; t++)
        classes[t] = 5 * t % count;
    words[1] = (5 * h % count) << (32 - d);
    lookup_answers(call, (struct numbers){.N = 1, .g = 16, .L = 2, .M = count, .s = 1, .d = d}, blocks, amplitudes,
                   classes, (struct answer){0, 0, count - 1}, words);
}

static void picks_some_of_many(const struct call *call)
{
    uint32_t d = (uint32_t)most_selectors(call), count = UINT32_C(1) << d;
    const uint32_t some[] = {0, 1, 2, count / 3, count / 2 - 1, count / 2, 2 * count / 3, count - 2, count - 1};
    for (size_t i = 0; i < sizeof some / sizeof some[0]; i++)
        picks_of_many(call, d, some[i]);
}

/* Without selectors the result is the one entry: N = 4, M = 2 or 4. Unused coefficients are 0. */
static void picks_the_only_entry(const struct call *call)
{
    const uint32_t none[1] = {0}, four[4] = {3, 0, 2, 1}, two[2] = {1, 1}, one[1] = {0};
    const uint32_t words4[16] = {0, 0, 0, 0, UINT32_C(3221225472), 0, UINT32_C(2147483648), 1073741824};
    const uint32_t words2[16] = {0, 0, 0, 0, UINT32_C(2147483648), UINT32_C(2147483648)}, words1[4] = {0};
    struct numbers n = {.N = 4, .g = 8, .L = 2, .M = 4, .s = 4};
    at("%s: no selectors", call->name);
    lookup_answers(call, n, none, none, four, (struct answer){0, 0, 0}, words4);
    n.M = 2;
    n.s = 2;
    lookup_answers(call, n, none, none, two, (struct answer){0, 0, 0}, words2);
    /* A gadget that rounds away all but one bit: without a CMux there is no noise. */
    lookup_answers(call, (struct numbers){.N = 1, .g = 1, .L = 1, .W = 1, .M = 65536, .s = 1}, none, none, one,
                   (struct answer){0, 0, 0}, words1);
}

/* Class M/2 in every coefficient of an entry that a bare gadget picks: its word is 2147483648 for every M. */
static void picks_half_a_turn(const struct call *call, uint64_t M)
{
    uint32_t block[32], classes[8] = {0}, words[8 * 3] = {0};
    const uint32_t amplitude = 0;
    at("%s: class %" PRIu64 " of %" PRIu64, call->name, M / 2, M);
    bare_gadget(block, 4, 1);
    for (size_t i = 0; i < 4; i++) {
        classes[4 + i] = (uint32_t)(M / 2);
        words[4 + i] = UINT32_C(2147483648);
    }
    lookup_answers(call, (struct numbers){.N = 4, .g = 16, .L = 2, .M = M, .s = 4, .d = 1}, block, &amplitude,
                   classes, (struct answer){0, 0, 1}, words);
}

void lookup_reports(const struct call *call, struct numbers n, uint32_t amplitude, struct answer want)
{
    struct arguments a = {0};
    at("%s: N = %" PRIu64 ", %" PRIu64 " selectors of amplitude %" PRIu32, call->name, n.N, n.d, amplitude);
    lawful(&a, call, n, 1);
    for (size_t i = 0; i < n.d; i++)
        put_word(slice_of(&a, AMPLITUDES), i, amplitude);
    if (is_hidden(call))
        memset(slice_of(&a, SAMPLE_AMPLITUDES)->at, 0, slice_of(&a, SAMPLE_AMPLITUDES)->length);
    make_call(&a, want);
    if (want.number == 0)
        accept(&a);
    free_arguments(&a);
}

/* N = W = 1,024, g = 8, L = 2, M = 16: a charge is 34111488, so three selectors are accepted, four are refused. */
static void largest_degree(const struct call *call)
{
    struct numbers n = {.N = 1024, .g = 8, .L = 2, .W = 1024, .M = 16, .s = 512, .d = 3};
    lookup_reports(call, n, 1, (struct answer){0, 102334464, 7});
    n.d = 4;
    lookup_reports(call, n, 1, (struct answer){9, 136445952, 0});
    /* The greatest sum of charges: ten of 2^58. */
    lookup_reports(call, (struct numbers){.N = 1024, .g = 16, .L = 2, .M = 2, .s = 1, .d = 10},
                   UINT32_C(2147483648), (struct answer){9, UINT64_C(2882303761517117440), 0});
}

static void test_single_words(const struct call *call)
{
    job_j(call, 7, (struct answer){0, 917504, 1});
    job_j(call, 1023, (struct answer){0, 134086656, 1});
    job_j(call, 1024, (struct answer){9, 134217728, 0});
    job_j_with_bit_0(call);
    job_j_over(call, 0);
    job_j_over(call, 0xFF);
    picks_some_of_many(call);
}

static void test_entries_of_many_classes(const struct call *call)
{
    bounds_at_the_limit(call);
    for (uint32_t h = 0; h < 8; h++)
        picks_entry(call, h);
    picks_the_only_entry(call);
    for (uint64_t M = 2; M <= 65536; M *= 2)
        picks_half_a_turn(call, M);
    largest_degree(call);
}

void test_lookup_examples(void)
{
    for (size_t c = 0; all_lookups[c]; c++) {
        test_single_words(all_lookups[c]);
        if (all_lookups[c]->packing == HORIZONTAL)
            test_entries_of_many_classes(all_lookups[c]);
    }
}
