/* The formulas of digits, blocks and the CMux in plain C. Digits are signed numbers; products are modulo 2^32. */
#include "portal.h"

enum { MAX_N = 1024, MAX_L = 32 };

static int64_t power_of_two(uint64_t exponent)
{
    return (int64_t)1 << exponent;
}

/* L is compared with a quotient: g*L would wrap where both are large. */
int lawful_gadget(struct gadget gadget)
{
    return gadget.g >= 1 && gadget.g <= 16 && gadget.L >= 1 && gadget.L <= 32 / gadget.g;
}

uint32_t step_of(struct gadget gadget, uint64_t j)
{
    return (uint32_t)power_of_two(32 - gadget.g * j);
}

struct gadget gadget_of(struct numbers n)
{
    return (struct gadget){n.g, n.L};
}

uint64_t charge_of(struct numbers n, uint64_t amplitude)
{
    uint64_t digits = n.g * n.L, half = (uint64_t)power_of_two(n.g - 1);
    uint64_t E = digits == 32 ? 0 : (uint64_t)power_of_two(31 - digits);
    return 2 * n.L * n.N * half * amplitude + (1 + n.W) * E;
}

/*
 * The digits of a word, digit j at place j - 1. From the last one up: what stands at a place is brought into
 * the digits' range, and the rest is carried. What is carried out of digit 1 is dropped.
 */
static void digits_of(int64_t *digit, struct gadget gadget, uint32_t word)
{
    const int64_t base = power_of_two(gadget.g);
    const uint64_t dropped = 32 - gadget.g * gadget.L;
    int64_t rest = ((int64_t)word + power_of_two(dropped) / 2) >> dropped;
    for (uint64_t j = gadget.L; j >= 1; j--) {
        int64_t carry = (rest & (base - 1)) >= base / 2;
        digit[j - 1] = (rest & (base - 1)) - carry * base;
        rest = (rest >> gadget.g) + carry;
    }
}

void encrypted_block(uint32_t *block, struct gadget gadget, size_t N, uint32_t m, const uint32_t *key,
                     const uint32_t *masks, const uint32_t *errors)
{
    for (size_t r = 0; r < 2 * gadget.L; r++) {
        uint32_t *mask = block + 2 * r * N, *body = mask + N;
        for (size_t i = 0; i < N; i++) {
            mask[i] = masks[r * N + i];
            body[i] = product_at(masks + r * N, key, N, i) + errors[r * N + i];
        }
        if (r < gadget.L)
            mask[0] += m * step_of(gadget, r + 1);
        else
            body[0] += m * step_of(gadget, r - gadget.L + 1);
    }
}

/* To out, digits*row modulo X^N + 1. Row word i goes to place i + j, or past the end with its sign changed. */
static void add_row(uint32_t *restrict out, const uint32_t *digits, const uint32_t *row, size_t N)
{
    for (size_t j = 0; j < N; j++) {
        if (digits[j] == 0)
            continue;
        for (size_t i = 0; i < N - j; i++)
            out[j + i] += digits[j] * row[i];
        for (size_t i = N - j; i < N; i++)
            out[j + i - N] -= digits[j] * row[i];
    }
}

/* To out, the sum over L rows of digit polynomial times row; the digits are those of one polynomial of a sample. */
static void add_rows(uint32_t *out, struct gadget gadget, size_t N, const uint32_t *rows, const uint32_t *polynomial)
{
    static uint32_t digits[MAX_L][MAX_N];
    int64_t digit[MAX_L];
    need(N <= MAX_N && gadget.L <= MAX_L, "a lawful degree and gadget");
    for (size_t i = 0; i < N; i++) {
        digits_of(digit, gadget, polynomial[i]);
        for (size_t j = 0; j < gadget.L; j++)
            digits[j][i] = (uint32_t)digit[j];
    }
    for (size_t j = 0; j < gadget.L; j++) {
        add_row(out, digits[j], rows + 2 * j * N, N);
        add_row(out + N, digits[j], rows + (2 * j + 1) * N, N);
    }
}

void add_external(uint32_t *out, struct gadget gadget, size_t N, const uint32_t *block, const uint32_t *sample)
{
    add_rows(out, gadget, N, block, sample);
    add_rows(out, gadget, N, block + 2 * gadget.L * N, sample + N);
}
