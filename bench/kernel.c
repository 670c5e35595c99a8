/* The product kernel by schoolbook: a digit polynomial of x times a row, added to what is there. */
#include "schoolbook.h"
#include "sizes.h"
#include "thing.h"

#include <stdlib.h>

enum { J = 1 };

/* crates/digit_row: a slice is a pointer and a length in bytes. */
uint32_t add_digit_row(uint64_t n, uint64_t g, uint64_t l, uint64_t j, const uint8_t *x, size_t x_length, const uint8_t *row,
                       size_t row_length, uint8_t *digits, size_t digits_length, uint8_t *out, size_t out_length);

static uint32_t x[N], row[N], digits[N], out[N];

static void library(const void *with)
{
    (void)with;
    if (add_digit_row(N, G, L, J, SLICE(x, N), SLICE(row, N), SLICE(digits, N), SLICE(out, N)) != 0)
        exit(1);
}

static void in_c(const void *with)
{
    const struct schoolbook *c = with;
    c->add_digit_row(N, G, L, J, x, row, digits, out);
}

static const struct variant variants[] = {{LIBRARY, library, NULL}, SCHOOLBOOKS(in_c)};
static const struct thing thing = {"digit row times polynomial", variants, sizeof variants / sizeof variants[0], MOST_ROUNDS};
static const struct output output = {out, N, NULL};

int main(int count, char **arguments)
{
    fill(x, N);
    fill(row, N);
    compare(&thing, &output);
    measure(&thing, count > 1 ? arguments[1] : NULL);
    return 0;
}
