/* The sizes at which the calls are measured, and how their words are lent. */
#ifndef SIZES_H
#define SIZES_H

#include <stddef.h>
#include <stdint.h>

/* Degree, gadget, declared weight, number of classes, classes in an entry, selectors. The weight is that of any key. */
enum { N = 1024, G = 8, L = 2, W = N, M = 4, S = N, D = 10 };

/* A table of cells, one class in each: its selectors, and how many of them rotate in the vertical packing, N being 2^10. */
enum { CELLS_D = 12, ROTATIONS = 10 };

/* Words as a slice of the library: bytes, the lowest of a word first as x86-64 has them, and their number. */
#define SLICE(words, count) (uint8_t *)(words), 4 * (size_t)(count)

#endif
