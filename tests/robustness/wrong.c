/* Faults for the self-test: exports are wrapped (the linker's --wrap), and the variable WRONG names what is spoiled. */
#include "cikenuma.h"
#include "portal.h"

#include <stdlib.h>
#include <string.h>

static int wrong(const char *fault)
{
    const char *named = getenv("WRONG");
    return named && strcmp(named, fault) == 0;
}

#define EXTRACT(kind) \
    uint64_t N, uint64_t p, const uint8_t *sample, size_t sample_length, kind *scalar, size_t scalar_length
#define EXTRACTED p, sample, sample_length, scalar, scalar_length

uint32_t __real_cikenuma_extract(EXTRACT(uint8_t)), __wrap_cikenuma_extract(EXTRACT(uint8_t));
uint64_t __real_cikenuma_extract_bound(EXTRACT(const uint8_t)), __wrap_cikenuma_extract_bound(EXTRACT(const uint8_t));
uint64_t __real_cikenuma_extract_gates(EXTRACT(const uint8_t)), __wrap_cikenuma_extract_gates(EXTRACT(const uint8_t));

uint32_t __wrap_cikenuma_extract(EXTRACT(uint8_t))
{
    volatile uint8_t *out = scalar;
    const volatile uint8_t *in = sample;
    uint8_t before = scalar_length ? scalar[0] : 0;
    uint32_t number = __real_cikenuma_extract(wrong("degree-cut") ? (uint32_t)N : N, EXTRACTED);
    int page_follows = ((uintptr_t)scalar + scalar_length) % 4096 == 0, page_precedes = (uintptr_t)scalar % 4096 == 0;
    if (number == 0 && wrong(page_follows ? "write-past-end" : "write-past-end-inside"))
        out[scalar_length] ^= 1;
    if (number == 0 && wrong(page_precedes ? "write-before-start" : "write-before-start-inside"))
        out[-1] ^= 1;
    if (wrong("read-past-end"))
        (void)in[sample_length];
    if (wrong("read-before-start"))
        (void)in[-1];
    if (wrong("write-to-read-only") && sample_length)
        ((volatile uint8_t *)sample)[0] = in[0];
    if (wrong("refusal-writes") && number && scalar_length)
        out[0] ^= 1;
    if (wrong("refusal-writes-same") && number && scalar_length)
        out[0] = before;
    if (wrong("old-bytes") && number == 0)
        out[0] ^= before;
    while (wrong("endless"))
        ;
    return wrong("number") ? 9 : wrong("order") && number == 4 ? 5 : number;
}

uint64_t __wrap_cikenuma_extract_bound(EXTRACT(const uint8_t))
{
    if (wrong("sister-writes") && scalar_length)
        *(volatile uint8_t *)scalar = scalar[0];
    return __real_cikenuma_extract_bound(N, EXTRACTED) + wrong("bound");
}

uint64_t __wrap_cikenuma_extract_gates(EXTRACT(const uint8_t))
{
    return __real_cikenuma_extract_gates(N, EXTRACTED) + wrong("gates");
}

#define CMUX(kind)                                                                                                     \
    uint64_t N, uint64_t g, uint64_t L, uint64_t W, uint64_t A, uint64_t A0, uint64_t A1, const uint8_t *block,        \
        size_t length0, const uint8_t *sample0, size_t length1, const uint8_t *sample1, size_t length2, kind *out,     \
        size_t length3

#define JOINED A, A0, A1, block, length0, sample0, length1, sample1, length2, out, length3

uint32_t __real_cikenuma_cmux(CMUX(uint8_t)), __wrap_cikenuma_cmux(CMUX(uint8_t));
uint64_t __real_cikenuma_cmux_bound(CMUX(const uint8_t)), __wrap_cikenuma_cmux_bound(CMUX(const uint8_t));

/* A weight that is too great: taken for N, or cut; refused with N, too; or before the gadget is judged. */
uint32_t __wrap_cikenuma_cmux(CMUX(uint8_t))
{
    uint64_t judged = wrong("weight-free") && W > N ? N : wrong("weight-cut") ? (uint32_t)W : W;
    uint32_t number = __real_cikenuma_cmux(N, g, L, judged, JOINED);
    if (wrong("weight-at-degree") && W == N && number != 1 && number != 2)
        return 12;
    return wrong("weight-before-gadget") && number == 2 && W > N ? 12 : number;
}

/* The bound of any key. */
uint64_t __wrap_cikenuma_cmux_bound(CMUX(const uint8_t))
{
    return __real_cikenuma_cmux_bound(N, g, L, wrong("weight-not-charged") && W < N ? N : W, JOINED);
}

#define SELECTORS                                                                                                      \
    uint64_t N, uint64_t g, uint64_t L, uint64_t W, uint64_t M, uint64_t s, uint64_t d, const uint8_t *blocks,         \
        size_t length0, const uint8_t *amplitudes, size_t length1

#define LOOKUP                                                                                                         \
    SELECTORS, const uint8_t *classes, size_t length2, uint8_t *out, size_t length3, uint8_t *work, size_t length4

#define LOOKED_UP d, blocks, length0, amplitudes, length1, classes, length2, out, length3, work, length4

uint32_t __real_cikenuma_lookup(LOOKUP), __wrap_cikenuma_lookup(LOOKUP);
uint32_t __real_cikenuma_lookup_vertical(LOOKUP), __wrap_cikenuma_lookup_vertical(LOOKUP);

/* A weight that is too great is judged after the numbers of classes and selectors, or not at all where none is charged. */
uint32_t __wrap_cikenuma_lookup(LOOKUP)
{
    uint64_t judged = wrong("weight-with-selectors") && d == 0 && W > N ? N : W;
    uint32_t number = __real_cikenuma_lookup(N, g, L, judged, M, s, LOOKED_UP);
    if (wrong("work-left") && number == 0)
        work[length4 - 1] = 1;
    if (wrong("weight-after-classes") && number == 12) {
        uint32_t other = __real_cikenuma_lookup(N, g, L, N, M, s, LOOKED_UP);
        return other == 3 || other == 4 ? other : number;
    }
    return number;
}

uint32_t __wrap_cikenuma_lookup_vertical(LOOKUP)
{
    int of_entries = wrong("vertical-classes") && s >= 1 && s <= N;
    uint32_t number = __real_cikenuma_lookup_vertical(N, g, L, W, M, of_entries ? 1 : s, LOOKED_UP);
    if (wrong("vertical-work-left") && number == 0)
        work[0] = 1;
    return wrong("vertical-selectors") && d > 10 && (number == 0 || comes_before(4, number)) ? 4 : number;
}

#define HIDDEN(kind)                                                                                                   \
    SELECTORS, const uint8_t *samples, size_t length2, const uint8_t *sample_amplitudes, size_t length3, kind *out,    \
        size_t length4, kind *work, size_t length5

#define HIDDEN_LOOKED_UP                                                                                               \
    N, g, L, W, M, s, d, blocks, length0, amplitudes, length1, samples, length2, sample_amplitudes, length3, out,      \
        length4, work, length5

uint32_t __real_cikenuma_lookup_hidden(HIDDEN(uint8_t)), __wrap_cikenuma_lookup_hidden(HIDDEN(uint8_t));
uint64_t __real_cikenuma_lookup_hidden_bound(HIDDEN(const uint8_t));
uint64_t __wrap_cikenuma_lookup_hidden_bound(HIDDEN(const uint8_t));
uint32_t __real_cikenuma_lookup_hidden_vertical(HIDDEN(uint8_t));
uint32_t __wrap_cikenuma_lookup_hidden_vertical(HIDDEN(uint8_t));

static uint64_t word_of(const uint8_t *slice, size_t i)
{
    return slice[4 * i] | (uint64_t)slice[4 * i + 1] << 8 | (uint64_t)slice[4 * i + 2] << 16 |
           (uint64_t)slice[4 * i + 3] << 24;
}

static uint64_t greatest_word(const uint8_t *slice, size_t length)
{
    uint64_t greatest = 0;
    for (size_t i = 0; i < length / 4; i++)
        if (word_of(slice, i) > greatest)
            greatest = word_of(slice, i);
    return greatest;
}

uint32_t __wrap_cikenuma_lookup_hidden(HIDDEN(uint8_t))
{
    uint32_t number = __real_cikenuma_lookup_hidden(HIDDEN_LOOKED_UP);
    int samples_alone = number == 6 && greatest_word(amplitudes, length1) <= UINT64_C(1) << 31;
    if (wrong("hidden-work-left") && number == 0)
        work[length5 / 2] = 1;
    return wrong("hidden-amplitudes") && samples_alone ? 9 : number;
}

/* The amplitude of the last sample in place of the greatest one. Without a bound there is nothing to take away. */
uint64_t __wrap_cikenuma_lookup_hidden_bound(HIDDEN(const uint8_t))
{
    uint64_t bound = __real_cikenuma_lookup_hidden_bound(HIDDEN_LOOKED_UP);
    uint64_t greatest = greatest_word(sample_amplitudes, length3);
    if (wrong("hidden-last") && length3 >= 4 && bound >= greatest)
        return bound - greatest + word_of(sample_amplitudes, length3 / 4 - 1);
    return bound;
}

/* A table of less than a whole sample is refused. */
uint32_t __wrap_cikenuma_lookup_hidden_vertical(HIDDEN(uint8_t))
{
    uint32_t number = __real_cikenuma_lookup_hidden_vertical(HIDDEN_LOOKED_UP);
    int judged = number == 0 || comes_before(5, number);
    return wrong("hidden-part") && judged && N >> d > 1 ? 5 : number;
}
