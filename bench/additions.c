/* The product with a polynomial of 0s and 1s, as a key is, without multiplications. */
#include "schoolbook.h"

static void add_where_one(uint32_t *restrict out, const uint32_t *restrict bits, const uint32_t *restrict row, size_t n)
{
    for (size_t i = 0; i < n; i++) {
        if (bits[i] == 0)
            continue;
        for (size_t k = 0; k < n - i; k++)
            out[i + k] += row[k];
        for (size_t k = n - i; k < n; k++)
            out[i + k - n] -= row[k];
    }
}

const struct schoolbook adding = {.add_product = add_where_one};
