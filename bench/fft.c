/*
 * The CMux by Fourier transforms in double precision, over FFTW, as TFHE libraries have it: rows stay transformed, digit
 * polynomials are transformed forward, and each polynomial of the result goes back once. It isn't exact for every gadget.
 *
 * Modulo X^N + 1 a product goes by the odd powers of a 2N-th root of unity. Half of them suffice for real coefficients: the
 * upper half of a polynomial becomes the imaginary part, turned by the root's powers, for a transform of N/2 places.
 */
#include "fft.h"

#include <complex.h>
#include <fftw3.h>
#include <math.h>
#include <string.h>

enum { H = N / 2, ROWS = 2 * L };

typedef double complex number;

static number root[H], rows[CELLS_D * ROWS][2][H], buffer[H], digits[H], sums[2][H];
static fftw_plan forward, backward;

static void start(void)
{
    forward = fftw_plan_dft_1d(H, buffer, digits, FFTW_FORWARD, FFTW_PATIENT);
    backward = fftw_plan_dft_1d(H, sums[0], buffer, FFTW_BACKWARD, FFTW_PATIENT);
    for (int i = 0; i < H; i++)
        root[i] = cexp(I * acos(-1) * i / N);
}

/* Complex products by hand: C's own look for infinities. */
static inline number times(number a, number b)
{
    return CMPLX(creal(a) * creal(b) - cimag(a) * cimag(b), creal(a) * cimag(b) + cimag(a) * creal(b));
}

static void transform(number *restrict out, const int32_t *restrict polynomial)
{
    for (int i = 0; i < H; i++)
        buffer[i] = times(CMPLX(polynomial[i], polynomial[i + H]), root[i]);
    fftw_execute_dft(forward, buffer, out);
}

static void add_product(number *restrict sum, const number *restrict a, const number *restrict b)
{
    for (int i = 0; i < H; i++)
        sum[i] += times(a[i], b[i]);
}

/* To out, the polynomial that was transformed. */
static void add_back(uint32_t *restrict out, number *transformed)
{
    fftw_execute_dft(backward, transformed, buffer);
    for (int i = 0; i < H; i++) {
        number c = times(buffer[i], conj(root[i])) / H;
        out[i] += (uint32_t)(int64_t)nearbyint(creal(c));
        out[i + H] += (uint32_t)(int64_t)nearbyint(cimag(c));
    }
}

/* A digit of a word to which the offset was added. */
static inline int32_t digit(uint32_t word, int shift)
{
    return (int32_t)(word >> shift & ((1u << G) - 1)) - (1 << (G - 1));
}

void fft_prepare(const uint32_t *blocks, size_t selectors)
{
    start();
    for (size_t r = 0; r < selectors * ROWS; r++)
        for (size_t c = 0; c < 2; c++)
            transform(rows[r][c], (const int32_t *)blocks + (2 * r + c) * N);
}

void fft_cmux(const void *with, size_t selector, const uint32_t *sample0, const uint32_t *sample1, uint32_t *out)
{
    static int32_t polynomial[N];
    (void)with;
    number (*block)[2][H] = rows + selector * ROWS;
    uint32_t offset = G * L < 32 ? 1u << (31 - G * L) : 0;
    for (int j = 1; j <= L; j++)
        offset += 1u << (32 - G * j + G - 1);
    memset(sums, 0, sizeof sums);
    for (int r = 0; r < ROWS; r++) {
        int from = r / L * N, shift = 32 - G * (r % L + 1);
        for (int i = 0; i < N; i++)
            polynomial[i] = digit(sample1[from + i] - sample0[from + i] + offset, shift);
        transform(digits, polynomial);
        add_product(sums[0], digits, block[r][0]);
        add_product(sums[1], digits, block[r][1]);
    }
    memcpy(out, sample0, 2 * N * sizeof *out);
    add_back(out, sums[0]);
    add_back(out + N, sums[1]);
}
