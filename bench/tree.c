#include "tree.h"

#include <string.h>

/* A sample of the table: mask 0, and its encoded classes as body. */
static void write_sample(const struct table *table, size_t t, uint32_t *result)
{
    memset(result, 0, 2 * table->n * sizeof *result);
    for (size_t i = 0; i < table->s; i++)
        result[table->n + i] = table->classes[table->s * t + i] * (UINT32_MAX / table->m + 1);
}

/* What the 2^level samples from number t * 2^level on are joined to. Each level has room for the two samples that it joins. */
static void join_samples(const struct table *table, gate *join, const void *with, size_t level, size_t t, uint32_t *result)
{
    static uint32_t pairs[MOST_SELECTORS][2][2 * MOST_COEFFICIENTS];
    if (level == 0) {
        write_sample(table, t, result);
        return;
    }
    uint32_t *sample0 = pairs[level - 1][0], *sample1 = pairs[level - 1][1];
    join_samples(table, join, with, level - 1, 2 * t, sample0);
    join_samples(table, join, with, level - 1, 2 * t + 1, sample1);
    join(with, table->rotations + level - 1, sample0, sample1, result);
}

/* A polynomial times X^(-q): what passes the end comes with its sign changed. */
static void rotate(size_t n, size_t q, const uint32_t *polynomial, uint32_t *result)
{
    for (size_t i = 0; i < n - q; i++)
        result[i] = polynomial[i + q];
    for (size_t i = n - q; i < n; i++)
        result[i] = -polynomial[i + q - n];
}

/* Step i picks by selector i between a sample and the same one times X^(-2^i). */
static void rotation_step(const struct table *table, gate *join, const void *with, size_t i, uint32_t *sample)
{
    static uint32_t before[2 * MOST_COEFFICIENTS], rotated[2 * MOST_COEFFICIENTS];
    size_t n = table->n, q = (size_t)1 << i;
    memcpy(before, sample, 2 * n * sizeof *sample);
    rotate(n, q, before, rotated);
    rotate(n, q, before + n, rotated + n);
    join(with, i, before, rotated, sample);
}

void look_up(const struct table *table, gate *join, const void *with, size_t d, uint32_t *result)
{
    join_samples(table, join, with, d - table->rotations, 0, result);
    for (size_t i = 0; i < table->rotations; i++)
        rotation_step(table, join, with, i, result);
}
