/*
 * The whole of ratejob in plain C, with the CMux of schoolbook.c: reads a job file from standard input, tests it, and prints what
 * docs/JOB-FILES.md says. Compiled once for each build of schoolbook.c, with the same BUILD.
 */
#include "schoolbook.h"
#include "tree.h"

#include <inttypes.h>
#include <stdio.h>

enum { LARGEST = 65536, SMALLEST = 28, MOST_HORIZONTAL = 10 };

/* A job's numbers, and the rest of its words: for each selector the amplitude and the block, then a count, then the classes. */
struct job {
    uint32_t n, g, l, m, s, d;
    const uint32_t *selectors;
};

static size_t selector_words(const struct job *job) { return 1 + (size_t)4 * job->l * job->n; }
static uint32_t class_count(const struct job *job) { return job->s << job->d; }
static const uint32_t *selector(const struct job *job, size_t i) { return job->selectors + i * selector_words(job); }
static const uint32_t *section_three(const struct job *job) { return selector(job, job->d); }

/* The file's words; how many bytes there are, up to one more than the largest file has. */
static size_t read_words(uint32_t *words)
{
    static uint8_t bytes[LARGEST + 1];
    size_t length = fread(bytes, 1, sizeof bytes, stdin);
    for (size_t i = 0; i < length / 4; i++) {
        const uint8_t *b = bytes + 4 * i;
        words[i] = b[0] | (uint32_t)b[1] << 8 | (uint32_t)b[2] << 16 | (uint32_t)b[3] << 24;
    }
    return length;
}

static int is_power_of_two(uint32_t x, uint32_t least, uint32_t most)
{
    return least <= x && x <= most && (x & (x - 1)) == 0;
}

static uint32_t judge_numbers(const struct job *job)
{
    if (!is_power_of_two(job->n, 1, MOST_COEFFICIENTS))
        return 1;
    if (job->g < 1 || job->g > 16 || job->l == 0 || job->l > 32 / job->g)
        return 2;
    if (!is_power_of_two(job->m, 2, 65536))
        return 3;
    if (job->s == 0 || job->s > job->n || job->d > (job->s == 1 ? MOST_SELECTORS : MOST_HORIZONTAL))
        return 4;
    return 0;
}

static uint32_t judge_sections(const struct job *job, size_t length)
{
    if (length != 4 * (7 + job->d * selector_words(job) + 1 + class_count(job)) || *section_three(job) != class_count(job))
        return 5;
    for (size_t i = 0; i < job->d; i++)
        if (*selector(job, i) > UINT32_C(1) << 31)
            return 6;
    for (size_t i = 0; i < class_count(job); i++)
        if (section_three(job)[1 + i] >= job->m)
            return 7;
    return 0;
}

/* The sum of the charges. A job file declares no weight: it means n, that of any key. */
static uint64_t noise_bound(const struct job *job)
{
    uint64_t n = job->n, precision = job->g * job->l < 32 ? UINT64_C(1) << (31 - job->g * job->l) : 0, bound = 0;
    for (size_t i = 0; i < job->d; i++)
        bound += (2 * job->l * n << (job->g - 1)) * *selector(job, i) + (1 + n) * precision;
    return bound;
}

/* Takes the file apart and tests it. */
static uint32_t judge(const uint32_t *words, size_t length, struct job *job, uint64_t *bound)
{
    if (length < SMALLEST || length > LARGEST || length % 4 != 0 || words[0] != 5)
        return 5;
    *job = (struct job){words[1], words[2], words[3], words[4], words[5], words[6], words + 7};
    uint32_t refusal = judge_numbers(job);
    if (refusal == 0)
        refusal = judge_sections(job, length);
    if (refusal != 0)
        return refusal;
    *bound = noise_bound(job);
    return *bound < (UINT64_C(1) << 31) / job->m ? 0 : 9;
}

static void join(const void *with, size_t i, const uint32_t *sample0, const uint32_t *sample1, uint32_t *result)
{
    static uint32_t room[3 * MOST_COEFFICIENTS];
    const struct job *job = with;
    BUILD.cmux(job->n, job->g, job->l, selector(job, i) + 1, sample0, sample1, room, result);
}

/* How many selectors rotate: with more of them than the horizontal packing takes, a job is in the vertical one. */
static uint32_t rotations(const struct job *job)
{
    uint32_t r = 0;
    while (job->d > MOST_HORIZONTAL && UINT32_C(1) << r < job->n)
        r++;
    return r;
}

static void run(const struct job *job, uint32_t r, uint32_t *sample)
{
    struct table table = {job->n, job->s << r, job->m, section_three(job) + 1, r};
    look_up(&table, join, job, job->d, sample);
}

static void print_polynomial(const char *name, const uint32_t *coefficients, uint32_t n)
{
    for (uint32_t i = 0; i < n; i++)
        printf("%s %" PRIu32 " %" PRIu32 "\n", name, i, coefficients[i]);
}

int main(void)
{
    static uint32_t words[LARGEST / 4], sample[2 * MOST_COEFFICIENTS];
    struct job job;
    uint64_t bound = 0;
    size_t length = read_words(words);
    uint32_t answer = judge(words, length, &job, &bound);
    printf("answer %" PRIu32 "\nbound %" PRIu64 "\n", answer, bound);
    if (answer != 0)
        return 0;
    uint32_t r = rotations(&job);
    run(&job, r, sample);
    printf("gates %" PRIu32 "\n", (UINT32_C(1) << (job.d - r)) - 1 + r);
    print_polynomial("mask", sample, job.n);
    print_polynomial("body", sample + job.n, job.n);
    return 0;
}
