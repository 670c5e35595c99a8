/* The formulas of lookups in plain C: charges, messages, the tree of CMuxes level by level, and the rotating steps. */
#include "portal.h"

#include <stdlib.h>
#include <string.h>

enum { MAX_N = 1024 };

const uint64_t half_turn = UINT64_C(0x80000000);

uint64_t limit_of(struct numbers n)
{
    return half_turn / n.M;
}

uint64_t rounding_of(struct numbers n)
{
    return charge_of(n, 0);
}

uint64_t unit_of(struct numbers n)
{
    return charge_of(n, 1) - rounding_of(n);
}

uint64_t most_amplitudes(struct numbers n)
{
    uint64_t rounding = n.d * rounding_of(n);
    return rounding < limit_of(n) ? (limit_of(n) - 1 - rounding) / unit_of(n) : 0;
}

uint64_t rotating_of(const struct call *call, uint64_t N, uint64_t d)
{
    uint64_t rotating = 0;
    while (call->packing == VERTICAL && rotating < d && UINT64_C(2) << rotating <= N)
        rotating++;
    return rotating;
}

uint64_t samples_of(const struct call *call, uint64_t N, uint64_t d)
{
    return UINT64_C(1) << (d - rotating_of(call, N, d));
}

uint64_t gates_of(const struct call *call, uint64_t N, uint64_t d)
{
    return samples_of(call, N, d) - 1 + rotating_of(call, N, d);
}

struct job job_of(const struct call *call, struct numbers n, const uint32_t *blocks, const uint32_t *amplitudes,
                  struct table table)
{
    return (struct job){
        .numbers = n, .gadget = gadget_of(n), .N = (size_t)n.N, .s = (size_t)n.s, .d = (size_t)n.d, .M = n.M,
        .rotating = (size_t)rotating_of(call, n.N, n.d), .count = (size_t)samples_of(call, n.N, n.d),
        .blocks = blocks, .amplitudes = amplitudes, .table = table,
    };
}

uint64_t charges_of(const struct job *job)
{
    uint64_t sum = 0;
    for (size_t i = 0; i < job->d; i++)
        sum += charge_of(job->numbers, job->amplitudes[i]);
    return sum;
}

uint64_t job_bound(const struct job *job)
{
    uint64_t greatest = job->table.samples ? greatest_magnitude(job->table.amplitudes, job->count) : 0;
    return greatest + charges_of(job);
}

/* The message of sample t of the table: the classes of 2^rotating entries, and 0 beyond them. */
static void sample_message(uint32_t *message, const struct job *job, size_t t)
{
    size_t held = job->s << job->rotating;
    for (size_t i = 0; i < job->N; i++)
        message[i] = i < held ? encode(job->table.classes[t * held + i], job->M) : 0;
}

/* The polynomial times X^(-q): what passes the end comes with its sign changed. */
static void rotate(uint32_t *out, const uint32_t *polynomial, size_t N, size_t q)
{
    for (size_t i = 0; i < N; i++)
        out[i] = i + q < N ? polynomial[i + q] : (uint32_t)0 - polynomial[i + q - N];
}

void exact_message(uint32_t *message, const struct job *job, size_t h)
{
    uint32_t whole[MAX_N];
    sample_message(whole, job, h >> job->rotating);
    rotate(message, whole, job->N, h % ((size_t)1 << job->rotating));
}

/* The CMux of two samples, by selector i; sample1 is not kept. Out may be sample0. */
static void join(uint32_t *out, const struct job *job, size_t i, const uint32_t *sample0, uint32_t *sample1)
{
    const uint32_t *block = job->blocks + i * 4 * job->gadget.L * job->N;
    for (size_t k = 0; k < 2 * job->N; k++) {
        sample1[k] -= sample0[k];
        out[k] = sample0[k];
    }
    add_external(out, job->gadget, job->N, block, sample1);
}

/* Selector i picks between the sample and the sample times X^(-2^i). */
static void turn(uint32_t *sample, const struct job *job, size_t i)
{
    uint32_t rotated[2 * MAX_N];
    rotate(rotated, sample, job->N, (size_t)1 << i);
    rotate(rotated + job->N, sample + job->N, job->N, (size_t)1 << i);
    join(sample, job, i, sample, rotated);
}

void trivial_samples(uint32_t *samples, const struct job *job)
{
    for (size_t t = 0; t < job->count; t++) {
        uint32_t *mask = samples + 2 * t * job->N;
        memset(mask, 0, job->N * sizeof *mask);
        sample_message(mask + job->N, job, t);
    }
}

/* The samples with which the CMuxes begin. */
static uint32_t *table_samples(const struct job *job)
{
    size_t size = job->count * 2 * job->N * sizeof(uint32_t);
    uint32_t *samples = malloc(size);
    need(samples != NULL && job->N <= MAX_N, "memory for the samples of a table");
    if (job->table.samples)
        memcpy(samples, job->table.samples, size);
    else
        trivial_samples(samples, job);
    return samples;
}

/*
 * A selector that doesn't rotate joins samples 2t and 2t + 1 to sample t, from t = 0 up, so that none is overwritten
 * before it is used. The one that is left is rotated.
 */
void looked_up(uint32_t *sample, const struct job *job)
{
    size_t words = 2 * job->N, count = job->count;
    uint32_t *samples = table_samples(job);
    for (size_t i = job->rotating; i < job->d; i++) {
        count /= 2;
        for (size_t t = 0; t < count; t++)
            join(samples + t * words, job, i, samples + 2 * t * words, samples + (2 * t + 1) * words);
    }
    for (size_t i = 0; i < job->rotating; i++)
        turn(samples, job, i);
    memcpy(sample, samples, words * sizeof *sample);
    free(samples);
}
