/* The library alone, in one run: lookups in hidden tables, each beside the one in the public table of the same classes. */
#include "cikenuma.h"
#include "material.h"
#include "measure.h"

#include <inttypes.h>
#include <stdlib.h>

enum { ROUNDS = 15, ENTRIES = 1 << D, CELLS = 1 << CELLS_D };

/* Transforms in a CMux, modulo each prime: where it joins two samples of a public table, and elsewhere. */
enum { FEW = 5, ALL = 6 * L + 2 };

/* The hidden table of entries. S is N, so its first samples are the hidden table of cells, too, N cells in each. */
static uint32_t samples[ENTRIES][2 * N], sample_amplitudes[ENTRIES];
static uint32_t out[2 * N], work[2 * N * (CELLS_D + 1)];

/* A call and the sister that tells its gates take the same arguments; what stands for the dots is the table. */
#define LOOKUP(call, s, d, ...) \
    call(N, G, L, W, M, s, d, SLICE(blocks, (d) * 4 * L * N), SLICE(amplitudes, d), __VA_ARGS__, SLICE(out, 2 * N), \
         SLICE(work, 2 * N * ((d) + 1)))
#define HORIZONTAL(call) LOOKUP(call, S, D, SLICE(classes, S << D))
#define VERTICAL(call) LOOKUP(call, 1, CELLS_D, SLICE(classes, CELLS))
#define HIDDEN(call, s, d, count) LOOKUP(call, s, d, SLICE(samples, (count) * 2 * N), SLICE(sample_amplitudes, count))
#define HIDDEN_HORIZONTAL(call) HIDDEN(call, S, D, ENTRIES)
#define HIDDEN_VERTICAL(call) HIDDEN(call, 1, CELLS_D, CELLS / N)

#define RUN(name, lookup) \
    static void name(const void *with) { (void)with; must(lookup); }
RUN(horizontal, HORIZONTAL(cikenuma_lookup))
RUN(vertical, VERTICAL(cikenuma_lookup_vertical))
RUN(hidden_horizontal, HIDDEN_HORIZONTAL(cikenuma_lookup_hidden))
RUN(hidden_vertical, HIDDEN_VERTICAL(cikenuma_lookup_hidden_vertical))

static uint64_t horizontal_gates(void) { return HIDDEN_HORIZONTAL(cikenuma_lookup_hidden_gates); }
static uint64_t vertical_gates(void) { return HIDDEN_VERTICAL(cikenuma_lookup_hidden_vertical_gates); }

static int has_entry(void) { return holds_entry(out, NAMED); }
static int has_cell(void) { return holds_cell(out, NAMED_CELL); }

/* The same lookup in the public table and in the hidden one: how many samples a table has, the calls, and the gates of either. */
static const struct pair {
    const char *name;
    size_t samples;
    struct variant variants[2];
    uint64_t (*gates)(void);
    int (*is_right)(void);
} pairs[] = {
    {"horizontal packing, d = 10, s = 1,024", ENTRIES, {{LIBRARY, horizontal, NULL}, {LIBRARY, hidden_horizontal, NULL}},
     horizontal_gates, has_entry},
    {"vertical packing, d = 12, s = 1", CELLS / N, {{LIBRARY, vertical, NULL}, {LIBRARY, hidden_vertical, NULL}},
     vertical_gates, has_cell},
};

static void make_hidden_table(void)
{
    for (size_t t = 0; t < ENTRIES; t++) {
        encrypt_entry(t, samples[t]);
        sample_amplitudes[t] = 1;
    }
}

/* Both lookups must find the classes that the bits name. */
static void compare(const struct pair *pair)
{
    for (size_t v = 0; v < 2; v++) {
        pair->variants[v].run(NULL);
        if (!pair->is_right()) {
            fprintf(stderr, "%s, %s table: a wrong class\n", pair->name, v == 0 ? "public" : "hidden");
            exit(1);
        }
    }
}

/* The transforms of the hidden lookup over those of the public one, where half as many CMuxes as there are samples join two. */
static double expected(const struct pair *pair)
{
    double hidden = ALL * (double)pair->gates(), spared = (ALL - FEW) * (double)(pair->samples / 2);
    return hidden / (hidden - spared);
}

static void measure(const struct pair *pair, const char *directory)
{
    static seconds times;
    take_times(pair->variants, 2, ROUNDS, times);
    struct ratio ratio = ratio_of(times[1], times[0], ROUNDS);
    FILE *file = open_rows(directory, "hidden.md");
    fprintf(file, "| %s | %zu | %" PRIu64 " |", pair->name, pair->samples, pair->gates());
    print_time(file, best_of(times[0], ROUNDS));
    print_time(file, best_of(times[1], ROUNDS));
    print_number(file, ratio.median);
    print_spread(file, &ratio);
    print_number(file, expected(pair));
    fprintf(file, "\n");
    if (fclose(file) != 0)
        exit(1);
}

int main(int count, char **arguments)
{
    make_material();
    make_hidden_table();
    for (size_t i = 0; i < sizeof pairs / sizeof pairs[0]; i++) {
        compare(pairs + i);
        if (count > 1)
            measure(pairs + i, arguments[1]);
    }
    return 0;
}
