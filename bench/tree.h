/* A lookup in C, in either packing, for any degree and any CMux. */
#ifndef TREE_H
#define TREE_H

#include <stddef.h>
#include <stdint.h>

enum { MOST_COEFFICIENTS = 1024, MOST_SELECTORS = 16 };

/*
 * A table's samples have s classes each. The first selectors rotate, as many as there are rotations, and the others join samples.
 * In the horizontal packing there are no rotations, and a sample is an entry.
 */
struct table {
    size_t n, s;
    uint32_t m;
    const uint32_t *classes;
    size_t rotations;
};

/* Joins two samples by a selector. */
typedef void gate(const void *with, size_t selector, const uint32_t *sample0, const uint32_t *sample1, uint32_t *result);

/* The lookup with d selectors: the tree of CMuxes, then the rotations. */
void look_up(const struct table *table, gate *join, const void *with, size_t d, uint32_t *result);

#endif
