/* Times as ratios within one run: a machine's load changes from run to run, and less from turn to turn. */
#define _XOPEN_SOURCE 700
#include "measure.h"

#include <stdlib.h>
#include <sys/resource.h>
#include <time.h>

/* A turn repeats a variant for at least so many seconds, so that the clock's grain doesn't count. */
static const double turn = 0.006;

void fill(uint32_t *words, size_t count)
{
    static uint64_t state = 88172645463325252u;
    for (size_t i = 0; i < count; i++) {
        state ^= state << 13;
        state ^= state >> 7;
        state ^= state << 17;
        words[i] = (uint32_t)(state >> 16);
    }
}

/*
 * Seconds of the processor that this program has taken, and the programs that it has run: what else the machine does counts
 * little.
 */
static double processor_time(void)
{
    struct timespec own;
    struct rusage others;
    clock_gettime(CLOCK_PROCESS_CPUTIME_ID, &own);
    getrusage(RUSAGE_CHILDREN, &others);
    return (double)(own.tv_sec + others.ru_utime.tv_sec + others.ru_stime.tv_sec) + 1e-9 * (double)own.tv_nsec +
           1e-6 * (double)(others.ru_utime.tv_usec + others.ru_stime.tv_usec);
}

static double time_of(const struct variant *variant, unsigned repeats)
{
    double start = processor_time();
    for (unsigned i = 0; i < repeats; i++)
        variant->run(variant->with);
    return (processor_time() - start) / repeats;
}

/* So many runs that a turn is long enough. The first runs of a variant are slower than those that follow. */
static unsigned repeats_of(const struct variant *variant)
{
    unsigned repeats = 1;
    while (time_of(variant, repeats) * repeats < turn)
        repeats *= 2;
    return repeats;
}

void take_times(const struct variant *variants, size_t count, int rounds, seconds times)
{
    unsigned repeats[MOST_VARIANTS];
    if (count > MOST_VARIANTS || rounds < 1 || rounds > MOST_ROUNDS)
        exit(1);
    for (size_t v = 0; v < count; v++)
        repeats[v] = repeats_of(variants + v);
    for (int r = 0; r < rounds; r++)
        for (size_t i = 0; i < count; i++) {
            size_t v = (i + (size_t)r) % count;
            times[v][r] = time_of(variants + v, repeats[v]);
        }
}

static int by_value(const void *a, const void *b)
{
    double p = *(const double *)a, q = *(const double *)b;
    return (p > q) - (p < q);
}

double best_of(const double *times, int rounds)
{
    double best = times[0];
    for (int r = 1; r < rounds; r++)
        best = times[r] < best ? times[r] : best;
    return best;
}

struct ratio ratio_of(const double *times, const double *others, int rounds)
{
    double ratios[MOST_ROUNDS];
    for (int r = 0; r < rounds; r++)
        ratios[r] = times[r] / others[r];
    qsort(ratios, (size_t)rounds, sizeof *ratios, by_value);
    return (struct ratio){ratios[rounds / 2], ratios[0], ratios[rounds - 1], best_of(times, rounds) / best_of(others, rounds)};
}

FILE *open_rows(const char *directory, const char *name)
{
    char path[4096];
    FILE *file = NULL;
    if (snprintf(path, sizeof path, "%s/%s", directory, name) < (int)sizeof path)
        file = fopen(path, "a");
    if (file == NULL) {
        fprintf(stderr, "%s/%s can't be written\n", directory, name);
        exit(1);
    }
    return file;
}

void print_number(FILE *file, double number) { fprintf(file, number < 9.995 ? " %.2f |" : " %.0f |", number); }

void print_spread(FILE *file, const struct ratio *ratio)
{
    fprintf(file, ratio->greatest < 9.995 ? " %.2f to %.2f |" : " %.0f to %.0f |", ratio->least, ratio->greatest);
}

void print_time(FILE *file, double time)
{
    if (time < 1e-3)
        fprintf(file, " %.3g µs |", 1e6 * time);
    else if (time < 1)
        fprintf(file, " %.3g ms |", 1e3 * time);
    else
        fprintf(file, " %.3g s |", time);
}
