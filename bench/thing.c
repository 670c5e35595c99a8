/* The comparison of what the variants of a thing write, and the rows that tell their times. */
#include "thing.h"

#include <stdlib.h>
#include <string.h>

static const char *const names[COLUMNS] = {
    [LIBRARY] = "library",
    [PLAIN] = "C -O3",
    [SKIPPING] = "C -O3, zeros skipped",
    [ADDING] = "C -O3, additions only",
    [NATIVE] = "C -O3 -march=native, zeros skipped",
    [FOURIER] = "C with FFTW",
};

/* The variant of a column, or -1. */
static int find(const struct thing *thing, enum column column)
{
    for (size_t v = 0; v < thing->count; v++)
        if (thing->variants[v].column == column)
            return (int)v;
    return -1;
}

/* Runs a variant from words that are the same for all of them: the kernel adds to what is there. */
static void run(const struct variant *variant, const struct output *output, const uint32_t *start)
{
    memcpy(output->words, start, output->count * sizeof *start);
    variant->run(variant->with);
}

static int is_right(const struct variant *variant, const struct output *output, const uint32_t *want)
{
    if (variant->column == FOURIER)
        return output->is_right();
    return memcmp(output->words, want, output->count * sizeof *want) == 0;
}

static uint32_t *room_for(size_t count)
{
    uint32_t *words = calloc(count, sizeof *words);
    if (words == NULL)
        exit(1);
    return words;
}

void compare(const struct thing *thing, const struct output *output)
{
    uint32_t *start = room_for(output->count), *want = room_for(output->count);
    fill(start, output->count);
    run(thing->variants + find(thing, PLAIN), output, start);
    memcpy(want, output->words, output->count * sizeof *want);
    for (size_t v = 0; v < thing->count; v++) {
        const struct variant *variant = thing->variants + v;
        if (variant->column == PLAIN)
            continue;
        run(variant, output, start);
        if (!is_right(variant, output, want)) {
            fprintf(stderr, "%s, %s: a wrong result\n", thing->name, names[variant->column]);
            exit(1);
        }
    }
    free(start);
    free(want);
}

/* One row: the median ratio for each column that the thing has. */
static void print_summary(const struct thing *thing, seconds times, FILE *file)
{
    fprintf(file, "| %s |", thing->name);
    for (enum column c = PLAIN; c < COLUMNS; c++) {
        int v = find(thing, c);
        if (v < 0)
            fprintf(file, " |");
        else
            print_number(file, ratio_of(times[0], times[v], thing->rounds).median);
    }
    print_time(file, best_of(times[0], thing->rounds));
    fprintf(file, "\n");
}

/* A row for each variant beside the library's. */
static void print_beside(const struct thing *thing, seconds times, FILE *file)
{
    for (size_t v = 1; v < thing->count; v++) {
        struct ratio ratio = ratio_of(times[0], times[v], thing->rounds);
        fprintf(file, "| %s | %s |", thing->name, names[thing->variants[v].column]);
        print_number(file, ratio.median);
        print_number(file, ratio.best);
        print_spread(file, &ratio);
        print_time(file, best_of(times[0], thing->rounds));
        print_time(file, best_of(times[v], thing->rounds));
        fprintf(file, "\n");
    }
}

void measure(const struct thing *thing, const char *directory)
{
    static seconds times;
    if (directory == NULL)
        return;
    take_times(thing->variants, thing->count, thing->rounds, times);
    FILE *summary = open_rows(directory, "summary.md"), *beside = open_rows(directory, "beside.md");
    print_summary(thing, times, summary);
    print_beside(thing, times, beside);
    if (fclose(summary) != 0 || fclose(beside) != 0)
        exit(1);
}
