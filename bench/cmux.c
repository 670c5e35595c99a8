/* The CMux of two encrypted samples. */
#include "cikenuma.h"
#include "fft.h"
#include "material.h"
#include "schoolbook.h"
#include "thing.h"

#include <stdlib.h>

/* Selector 0 encrypts 1: it picks entry 1. */
enum { PICKED = NAMED & 1 };

static uint32_t sample0[2 * N], sample1[2 * N], room[3 * N], out[2 * N];

static void library(const void *with)
{
    (void)with;
    if (cikenuma_cmux(N, G, L, W, 1, 1, 1, SLICE(blocks[0], 4 * L * N), SLICE(sample0, 2 * N), SLICE(sample1, 2 * N),
                      SLICE(out, 2 * N)) != 0)
        exit(1);
}

static void in_c(const void *with)
{
    const struct schoolbook *c = with;
    c->cmux(N, G, L, blocks[0], sample0, sample1, room, out);
}

#ifdef FFT
static void fourier(const void *with) { fft_cmux(with, 0, sample0, sample1, out); }
#endif

static const struct variant variants[] = {
    {LIBRARY, library, NULL},
    SCHOOLBOOKS(in_c),
#ifdef FFT
    {FOURIER, fourier, NULL},
#endif
};

static int is_right(void) { return holds_entry(out, PICKED); }

static const struct thing thing = {"CMux", variants, sizeof variants / sizeof variants[0], MOST_ROUNDS};
static const struct output output = {out, 2 * N, is_right};

int main(int count, char **arguments)
{
    make_material();
    encrypt_entry(0, sample0);
    encrypt_entry(1, sample1);
#ifdef FFT
    fft_prepare(blocks[0], 1);
#endif
    compare(&thing, &output);
    measure(&thing, count > 1 ? arguments[1] : NULL);
    return 0;
}
