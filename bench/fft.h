/* The CMux by Fourier transforms. */
#ifndef FFT_H
#define FFT_H

#include "sizes.h"

/* The rows of the selectors' blocks are transformed once, ahead of every CMux with them. */
void fft_prepare(const uint32_t *blocks, size_t selectors);
/* A gate of tree.h; with is not used. */
void fft_cmux(const void *with, size_t selector, const uint32_t *sample0, const uint32_t *sample1, uint32_t *out);

#endif
