/* The library alone, in one run: a table of 4,096 cells, with one class in each, in the two packings. */
#include "cikenuma.h"
#include "material.h"
#include "measure.h"

#include <inttypes.h>
#include <stdlib.h>

/* The horizontal packing takes a good part of a second for the cells. A lookup in it has at most D selectors: a quarter of them. */
enum { ROUNDS = 9, CELLS = 1 << CELLS_D, QUARTER = 1 << D };

static uint32_t quarters[4][2 * N], halves[2][2 * N], out[2 * N], work[2 * N * (CELLS_D + 1)];

/* A call and the sister that tells its gates take the same arguments. */
#define VERTICAL(call) \
    call(N, G, L, W, M, 1, CELLS_D, SLICE(blocks, CELLS_D * 4 * L * N), SLICE(amplitudes, CELLS_D), SLICE(classes, CELLS), \
         SLICE(out, 2 * N), SLICE(work, 2 * N * (CELLS_D + 1)))
#define HORIZONTAL(call, t, result) \
    call(N, G, L, W, M, 1, D, SLICE(blocks, D * 4 * L * N), SLICE(amplitudes, D), SLICE(classes + (t) * QUARTER, QUARTER), \
         SLICE(result, 2 * N), SLICE(work, 2 * N * (D + 1)))
#define CMUX(call, selector, pair, result) \
    call(N, G, L, W, 1, 1, 1, SLICE(blocks[selector], 4 * L * N), SLICE((pair)[0], 2 * N), SLICE((pair)[1], 2 * N), \
         SLICE(result, 2 * N))

static void vertical(const void *with)
{
    (void)with;
    must(VERTICAL(cikenuma_lookup_vertical));
}

static void quarter(const void *with)
{
    (void)with;
    must(HORIZONTAL(cikenuma_lookup, 0, out));
}

/* Selectors 10 and 11 join the quarters as the tree over all cells would. */
static void all_quarters(const void *with)
{
    (void)with;
    for (size_t t = 0; t < 4; t++)
        must(HORIZONTAL(cikenuma_lookup, t, quarters[t]));
    for (size_t t = 0; t < 2; t++)
        must(CMUX(cikenuma_cmux, D, quarters + 2 * t, halves[t]));
    must(CMUX(cikenuma_cmux, D + 1, halves, out));
}

/* What the quarters were joined to, as one gate by itself. */
static void gate(const void *with)
{
    (void)with;
    must(CMUX(cikenuma_cmux, D + 1, halves, out));
}

static uint64_t vertical_gates(void) { return VERTICAL(cikenuma_lookup_vertical_gates); }
static uint64_t quarter_gates(void) { return HORIZONTAL(cikenuma_lookup_gates, 0, out); }
static uint64_t one_gate(void) { return CMUX(cikenuma_cmux_gates, D + 1, halves, out); }
static uint64_t all_gates(void) { return 4 * quarter_gates() + 3 * one_gate(); }

/* A way to a cell: among how many, which one it finds, the calls, and their gates. The vertical packing is the first. */
static const struct way {
    const char *name;
    size_t cells, cell;
    void (*run)(const void *with);
    uint64_t (*gates)(void);
} ways[] = {
    {"vertical packing: one lookup, d = 12", CELLS, NAMED_CELL, vertical, vertical_gates},
    {"horizontal packing: four lookups, d = 10, and three CMuxes", CELLS, NAMED_CELL, all_quarters, all_gates},
    {"horizontal packing: one lookup, d = 10", QUARTER, NAMED, quarter, quarter_gates},
    {"one CMux", 2, NAMED_CELL, gate, one_gate},
};
enum { WAYS = sizeof ways / sizeof ways[0] };

/* Every way must find its cell. */
static void compare(void)
{
    for (size_t w = 0; w < WAYS; w++) {
        ways[w].run(NULL);
        if (!holds_cell(out, ways[w].cell)) {
            fprintf(stderr, "%s: a wrong class\n", ways[w].name);
            exit(1);
        }
    }
}

/* Ratios are to the vertical packing: how many times as long a way takes. */
static void print_row(size_t w, seconds times, FILE *file)
{
    struct ratio ratio = ratio_of(times[w], times[0], ROUNDS);
    double best = best_of(times[w], ROUNDS);
    fprintf(file, "| %s | %zu | %" PRIu64 " |", ways[w].name, ways[w].cells, ways[w].gates());
    print_time(file, best);
    print_time(file, best / (double)ways[w].gates());
    print_number(file, ratio.median);
    print_spread(file, &ratio);
    fprintf(file, "\n");
}

static void measure(const char *directory)
{
    static seconds times;
    struct variant variants[WAYS];
    for (size_t w = 0; w < WAYS; w++)
        variants[w] = (struct variant){LIBRARY, ways[w].run, NULL};
    take_times(variants, WAYS, ROUNDS, times);
    FILE *file = open_rows(directory, "packings.md");
    for (size_t w = 0; w < WAYS; w++)
        print_row(w, times, file);
    if (fclose(file) != 0)
        exit(1);
}

int main(int count, char **arguments)
{
    make_material();
    compare();
    if (count > 1)
        measure(arguments[1]);
    return 0;
}
