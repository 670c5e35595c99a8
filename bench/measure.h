/* Times of several variants, taken in turn within one run, and what they say of each other. */
#ifndef MEASURE_H
#define MEASURE_H

#include <stddef.h>
#include <stdint.h>
#include <stdio.h>

/* What a variant is; those after the library are the columns of the summary. */
enum column { LIBRARY, PLAIN, SKIPPING, ADDING, NATIVE, FOURIER, COLUMNS };

struct variant {
    enum column column;
    void (*run)(const void *with);
    const void *with;
};

enum { MOST_VARIANTS = 33, MOST_ROUNDS = 31 };

/* Seconds that one run of each variant takes, in each round. Every round starts with another variant. */
typedef double seconds[MOST_VARIANTS][MOST_ROUNDS];
void take_times(const struct variant *variants, size_t count, int rounds, seconds times);

/*
 * The times of one variant over those of another: the median, least and greatest of the rounds' ratios, and the ratio of the
 * best times.
 */
struct ratio {
    double median, least, greatest, best;
};
struct ratio ratio_of(const double *times, const double *others, int rounds);

double best_of(const double *times, int rounds);

/* Appends to NAME in a directory; the end of the file is what is printed next. */
FILE *open_rows(const char *directory, const char *name);

/* Cells of a row in Markdown. */
void print_number(FILE *file, double number);
void print_spread(FILE *file, const struct ratio *ratio);
void print_time(FILE *file, double time);

/* Random words, the same in every run. */
void fill(uint32_t *words, size_t count);

#endif
