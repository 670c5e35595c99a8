/*
 * Whole lookups: with the most selectors that the horizontal packing takes, in a table of 1,024 entries; and in a table of 4,096
 * cells in the vertical packing.
 */
#include "cikenuma.h"
#include "fft.h"
#include "material.h"
#include "schoolbook.h"
#include "thing.h"
#include "tree.h"

#include <stdlib.h>

/* A variant in the horizontal packing takes seconds. */
enum { ROUNDS = 9 };

static const struct table entries = {N, S, M, classes, 0}, cells = {N, N, M, classes, ROTATIONS};
static uint32_t out[2 * N], work[2 * N * (CELLS_D + 1)];

static void library_horizontal(const void *with)
{
    (void)with;
    if (cikenuma_lookup(N, G, L, W, M, S, D, SLICE(blocks, D * 4 * L * N), SLICE(amplitudes, D), SLICE(classes, S << D),
                        SLICE(out, 2 * N), SLICE(work, 2 * N * (D + 1))) != 0)
        exit(1);
}

static void library_vertical(const void *with)
{
    (void)with;
    if (cikenuma_lookup_vertical(N, G, L, W, M, 1, CELLS_D, SLICE(blocks, CELLS_D * 4 * L * N), SLICE(amplitudes, CELLS_D),
                                 SLICE(classes, 1 << CELLS_D), SLICE(out, 2 * N), SLICE(work, 2 * N * (CELLS_D + 1))) != 0)
        exit(1);
}

static void join(const void *with, size_t selector, const uint32_t *sample0, const uint32_t *sample1, uint32_t *result)
{
    static uint32_t room[3 * N];
    const struct schoolbook *c = with;
    c->cmux(N, G, L, blocks[selector], sample0, sample1, room, result);
}

static void c_horizontal(const void *with) { look_up(&entries, join, with, D, out); }
static void c_vertical(const void *with) { look_up(&cells, join, with, CELLS_D, out); }

#ifdef FFT
static void fourier_horizontal(const void *with) { look_up(&entries, fft_cmux, with, D, out); }
static void fourier_vertical(const void *with) { look_up(&cells, fft_cmux, with, CELLS_D, out); }
#endif

static const struct variant in_horizontal[] = {
    {LIBRARY, library_horizontal, NULL},
    SCHOOLBOOKS(c_horizontal),
#ifdef FFT
    {FOURIER, fourier_horizontal, NULL},
#endif
};
static const struct variant in_vertical[] = {
    {LIBRARY, library_vertical, NULL},
    SCHOOLBOOKS(c_vertical),
#ifdef FFT
    {FOURIER, fourier_vertical, NULL},
#endif
};

static int has_entry(void) { return holds_entry(out, NAMED); }
static int has_cell(void) { return holds_cell(out, NAMED_CELL); }

static const struct thing things[] = {
    {"lookup, d = 10", in_horizontal, sizeof in_horizontal / sizeof in_horizontal[0], ROUNDS},
    {"vertical lookup, d = 12", in_vertical, sizeof in_vertical / sizeof in_vertical[0], MOST_ROUNDS},
};
static const struct output outputs[] = {{out, 2 * N, has_entry}, {out, 2 * N, has_cell}};

int main(int count, char **arguments)
{
    make_material();
#ifdef FFT
    fft_prepare(blocks[0], CELLS_D);
#endif
    for (size_t i = 0; i < sizeof things / sizeof things[0]; i++) {
        compare(things + i, outputs + i);
        measure(things + i, count > 1 ? arguments[1] : NULL);
    }
    return 0;
}
