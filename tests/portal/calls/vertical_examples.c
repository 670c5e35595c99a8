/*
 * Worked examples of the vertical packing, every word written out. Bare gadgets pick and rotate exactly, so the body is
 * that of the sample with the entry, turned so that its class comes to coefficient 0. Each table is also lent as a
 * hidden one.
 */
#include "calls.h"

#include <inttypes.h>

enum { MAX_N = 1024, CELLS = 4096 };

/* Bare gadgets for the binary digits of h pick from the table; the body, by its classes, and the gates are given. */
static void picks(const struct call *call, struct numbers n, const uint32_t *classes, uint32_t h, const uint32_t *body,
                  uint64_t gates)
{
    static uint32_t blocks[MAX_D * 8 * MAX_N];
    const uint32_t amplitudes[MAX_D] = {0};
    uint32_t words[2 * MAX_N * (MAX_D + 2)] = {0};
    at("%s: entry %" PRIu32 " of a table with N = %" PRIu64 ", d = %" PRIu64, call->name, h, n.N, n.d);
    for (size_t i = 0; i < n.d; i++)
        bare_gadget(blocks + i * 8 * n.N, (size_t)n.N, h >> i & 1);
    for (size_t i = 0; i < n.N; i++)
        words[n.N + i] = body[i] * (uint32_t)(UINT64_C(0x100000000) / n.M);
    lookup_answers(call, n, blocks, amplitudes, classes, (struct answer){0, 0, gates}, words);
}

/* N = 4, M = 8. What passes the end returns with its sign changed: class c of 8 as class 8 - c. */
static const struct numbers four = {.N = 4, .g = 16, .L = 2, .M = 8, .s = 1};

/* Four entries fill the sample, so there is nothing to pick. */
static void rotates_a_full_sample(const struct call *call)
{
    const uint32_t classes[4] = {1, 2, 3, 5};
    const uint32_t bodies[4][4] = {{1, 2, 3, 5}, {2, 3, 5, 7}, {3, 5, 7, 6}, {5, 7, 6, 5}};
    struct numbers n = four;
    n.d = 2;
    for (uint32_t h = 0; h < 4; h++)
        picks(call, n, classes, h, bodies[h], 2);
}

/* Two entries, or one: the other coefficients begin as 0. */
static void rotates_a_part_of_a_sample(const struct call *call)
{
    const uint32_t two[2] = {3, 6}, one[1] = {7};
    const uint32_t bodies[2][4] = {{3, 6, 0, 0}, {6, 0, 0, 5}}, only[4] = {7, 0, 0, 0};
    struct numbers n = four;
    n.d = 1;
    for (uint32_t h = 0; h < 2; h++)
        picks(call, n, two, h, bodies[h], 1);
    n.d = 0;
    picks(call, n, one, 0, only, 0);
}

/* Sixteen entries in four samples: selectors 2 and 3 pick one by three gates, then selectors 0 and 1 rotate it. */
static void picks_and_rotates(const struct call *call)
{
    const uint32_t classes[16] = {1, 2, 3, 5, 0, 4, 7, 6, 2, 2, 1, 0, 6, 3, 5, 1};
    const uint32_t bodies[16][4] = {
        {1, 2, 3, 5}, {2, 3, 5, 7}, {3, 5, 7, 6}, {5, 7, 6, 5}, {0, 4, 7, 6}, {4, 7, 6, 0}, {7, 6, 0, 4}, {6, 0, 4, 1},
        {2, 2, 1, 0}, {2, 1, 0, 6}, {1, 0, 6, 6}, {0, 6, 6, 7}, {6, 3, 5, 1}, {3, 5, 1, 2}, {5, 1, 2, 5}, {1, 2, 5, 3},
    };
    struct numbers n = four;
    n.d = 4;
    for (uint32_t h = 0; h < 16; h++)
        picks(call, n, classes, h, bodies[h], 5);
}

/* A lessor's 4,096 rate cells at N = 1,024 are four samples: three gates and ten, where the horizontal packing takes 4,095. */
static void picks_a_cell(const struct call *call, uint32_t h)
{
    static uint32_t classes[CELLS], body[MAX_N];
    const uint32_t M = 16, first = h - h % MAX_N;
    for (uint32_t t = 0; t < CELLS; t++)
        classes[t] = (3 * t + t / MAX_N) % M;
    for (uint32_t i = 0; i < MAX_N; i++)
        body[i] = h + i < first + MAX_N ? classes[h + i] : M - classes[h + i - MAX_N];
    picks(call, (struct numbers){.N = MAX_N, .g = 16, .L = 2, .M = M, .s = 1, .d = 12}, classes, h, body, 13);
}

/* N = W = 2, g = 1, L = 31, as in the horizontal packing: an amplitude is charged 124 times, and each selector 3. */
static void bounds_at_the_limit(const struct call *call)
{
    static const uint32_t blocks[5 * 248], classes[32], words[2 * 2 * 7];
    const uint32_t five[5] = {4329600, 0, 1, 0, 3}, more[5] = {4329600, 0, 1, 1, 3};
    const struct numbers n = {.N = 2, .g = 1, .L = 31, .W = 2, .M = 4, .s = 1, .d = 5};
    at("%s: a bound at the limit", call->name);
    lookup_answers(call, n, blocks, five, classes, (struct answer){0, 536870911, 16}, words);
    lookup_answers(call, n, blocks, more, classes, (struct answer){9, 536871035, 0}, words);
}

/* A charge of 34111488, which three selectors may have and four may not; and sixteen charges of 2^58. */
static void largest_degree(const struct call *call)
{
    struct numbers n = {.N = 1024, .g = 8, .L = 2, .W = 1024, .M = 16, .s = 1, .d = 3};
    lookup_reports(call, n, 1, (struct answer){0, 102334464, 3});
    n.d = 4;
    lookup_reports(call, n, 1, (struct answer){9, 136445952, 0});
    lookup_reports(call, (struct numbers){.N = 1024, .g = 16, .L = 2, .M = 2, .s = 1, .d = 16},
                   UINT32_C(2147483648), (struct answer){9, UINT64_C(4611686018427387904), 0});
}

static void test_call(const struct call *call)
{
    const uint32_t cells[] = {0, 1, 1023, 1024, 2047, 2500, 4095};
    rotates_a_full_sample(call);
    rotates_a_part_of_a_sample(call);
    picks_and_rotates(call);
    for (size_t i = 0; i < sizeof cells / sizeof cells[0]; i++)
        picks_a_cell(call, cells[i]);
    bounds_at_the_limit(call);
    largest_degree(call);
}

void test_vertical_examples(void)
{
    for (size_t c = 0; all_lookups[c]; c++)
        if (all_lookups[c]->packing == VERTICAL)
            test_call(all_lookups[c]);
}
