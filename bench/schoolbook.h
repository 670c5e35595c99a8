/* The same products in plain C: what one build of schoolbook.c has. */
#ifndef SCHOOLBOOK_H
#define SCHOOLBOOK_H

#include <stddef.h>
#include <stdint.h>

struct schoolbook {
    /* To out, small times row modulo X^n + 1. */
    void (*add_product)(uint32_t *restrict out, const uint32_t *restrict small, const uint32_t *restrict row, size_t n);
    /* To out, digit polynomial j of x times row. */
    void (*add_digit_row)(size_t n, uint32_t g, uint32_t l, uint32_t j, const uint32_t *x, const uint32_t *row, uint32_t *digits,
                          uint32_t *out);
    /* The CMux; room has 3n words. */
    void (*cmux)(size_t n, uint32_t g, uint32_t l, const uint32_t *block, const uint32_t *sample0, const uint32_t *sample1,
                 uint32_t *room, uint32_t *out);
};

/* At -O3: one that multiplies by every word, one that skips words 0, and this one for the very machine. */
extern const struct schoolbook plain, skipping, native;
/* additions.c: the product alone, for a polynomial of 0s and 1s. */
extern const struct schoolbook adding;

/* Variants of a thing that runs with any of the first three. */
#define SCHOOLBOOKS(run) {PLAIN, run, &plain}, {SKIPPING, run, &skipping}, {NATIVE, run, &native}

#endif
