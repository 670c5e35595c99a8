/*
 * The product kernel and the CMux in plain C, modulo X^n + 1.
 * Compiled several times, under the name BUILD: without and with SKIP_ZEROS, and for the very machine.
 */
#include "schoolbook.h"

#include <string.h>

static void write_digits(uint32_t *restrict digits, const uint32_t *restrict x, size_t n, uint32_t g, uint32_t l, uint32_t j)
{
    uint32_t offset = g * l < 32 ? 1u << (31 - g * l) : 0;
    for (uint32_t k = 1; k <= l; k++)
        offset += 1u << (32 - g * k + g - 1);
    uint32_t mask = (1u << g) - 1, half = 1u << (g - 1);
    for (size_t i = 0; i < n; i++)
        digits[i] = (((x[i] + offset) >> (32 - g * j)) & mask) - half;
}

static void add_product(uint32_t *restrict out, const uint32_t *restrict small, const uint32_t *restrict row, size_t n)
{
    for (size_t i = 0; i < n; i++) {
        uint32_t d = small[i];
#ifdef SKIP_ZEROS
        if (d == 0)
            continue;
#endif
        for (size_t k = 0; k < n - i; k++)
            out[i + k] += d * row[k];
        for (size_t k = n - i; k < n; k++)
            out[i + k - n] -= d * row[k];
    }
}

static void add_digit_row(size_t n, uint32_t g, uint32_t l, uint32_t j, const uint32_t *x, const uint32_t *row, uint32_t *digits,
                          uint32_t *out)
{
    write_digits(digits, x, n, g, l, j);
    add_product(out, digits, row, n);
}

static void cmux(size_t n, uint32_t g, uint32_t l, const uint32_t *block, const uint32_t *sample0, const uint32_t *sample1,
                 uint32_t *room, uint32_t *out)
{
    uint32_t *difference = room, *digits = room + 2 * n;
    for (size_t i = 0; i < 2 * n; i++)
        difference[i] = sample1[i] - sample0[i];
    memcpy(out, sample0, 2 * n * sizeof *out);
    for (size_t r = 0; r < 2 * l; r++) {
        write_digits(digits, difference + r / l * n, n, g, l, (uint32_t)(r % l) + 1);
        add_product(out, digits, block + 2 * r * n, n);
        add_product(out + n, digits, block + (2 * r + 1) * n, n);
    }
}

const struct schoolbook BUILD = {add_product, add_digit_row, cmux};
