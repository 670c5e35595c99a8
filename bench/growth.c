/*
 * How times grow with d, N, L and the gadget: the library's, and the ratios to C at every size.
 * Selectors and samples are random words. That is all the same to the times, and the calls test the size of an amplitude alone.
 */
#include "cikenuma.h"
#include "measure.h"
#include "schoolbook.h"
#include "sizes.h"
#include "tree.h"

#include <stdlib.h>
#include <string.h>

/* At each size: the library, and C without and with zeros skipped. */
enum { BESIDE = 3 };
enum { ROUNDS = 15, MOST_SIZES = MOST_VARIANTS / BESIDE, MOST_L = 32, MOST_D = 16, SMALL_D = 3 };

/* The degree at which trees are measured, and the rotations of a lookup in the vertical packing there: N is 2^7. */
enum { TREE_N = 128, TREE_R = 7 };

/*
 * Where the library goes by transforms, if at least 64 words of a sample are not 0, as in every gate here; and how many rows their
 * sums take at most before they go back.
 */
enum { LEAST_BY_TRANSFORMS = 128, ROWS_OF_A_BATCH = 16 };

/*
 * As many classes as the noise bounds allow, so that few entries have the same class at the same place, and few digits are
 * skipped by chance.
 */
enum { CLASSES = 16 };

/* d is 0 for a CMux by itself. In the vertical packing r of the selectors rotate, and in the horizontal one none. */
struct size {
    size_t n, g, l, d, r;
};

/* A series of sizes, the smallest first, and the call that is measured at each of them. */
struct series {
    const char *file;
    void (*library)(const void *size);
    void (*plain)(const void *size);
    void (*skipping)(const void *size);
    /* Prints what is different from size to size. */
    void (*print_size)(FILE *file, const struct size *size);
    size_t count;
    struct size sizes[MOST_SIZES];
};

/* The largest block alone takes as many words as the blocks of any lookup here. */
static uint32_t blocks[4 * MOST_L * N], amplitudes[MOST_D], classes[TREE_N << D], sample0[2 * N], sample1[2 * N], out[2 * N];
static uint32_t work[2 * N * (D + 1)];

static void library_cmux(const void *with)
{
    const struct size *size = with;
    size_t n = size->n;
    if (cikenuma_cmux(n, size->g, size->l, n, 1, 1, 1, SLICE(blocks, 4 * size->l * n), SLICE(sample0, 2 * n),
                      SLICE(sample1, 2 * n), SLICE(out, 2 * n)) != 0)
        exit(1);
}

static void join(const struct schoolbook *c, const struct size *size, size_t selector, const uint32_t *first,
                 const uint32_t *second, uint32_t *result)
{
    static uint32_t room[3 * N];
    const uint32_t *block = blocks + selector * 4 * size->l * size->n;
    c->cmux(size->n, (uint32_t)size->g, (uint32_t)size->l, block, first, second, room, result);
}

static void join_plain(const void *with, size_t selector, const uint32_t *first, const uint32_t *second, uint32_t *result)
{
    join(&plain, with, selector, first, second, result);
}

static void join_skipping(const void *with, size_t selector, const uint32_t *first, const uint32_t *second, uint32_t *result)
{
    join(&skipping, with, selector, first, second, result);
}

static void plain_cmux(const void *with) { join_plain(with, 0, sample0, sample1, out); }
static void skipping_cmux(const void *with) { join_skipping(with, 0, sample0, sample1, out); }

static void library_lookup(const void *with)
{
    const struct size *size = with;
    size_t n = size->n, d = size->d;
    if (cikenuma_lookup(n, size->g, size->l, n, CLASSES, n, d, SLICE(blocks, d * 4 * size->l * n), SLICE(amplitudes, d),
                        SLICE(classes, n << d), SLICE(out, 2 * n), SLICE(work, 2 * n * (d + 1))) != 0)
        exit(1);
}

static void library_vertical(const void *with)
{
    const struct size *size = with;
    size_t n = size->n, d = size->d;
    if (cikenuma_lookup_vertical(n, size->g, size->l, n, CLASSES, 1, d, SLICE(blocks, d * 4 * size->l * n),
                                 SLICE(amplitudes, d), SLICE(classes, (size_t)1 << d), SLICE(out, 2 * n),
                                 SLICE(work, 2 * n * (d + 1))) != 0)
        exit(1);
}

/* A sample has n classes in either packing: those of one entry, or one of each of n entries. */
static void c_lookup(const struct size *size, gate *joining)
{
    struct table table = {size->n, size->n, CLASSES, classes, size->r};
    look_up(&table, joining, size, size->d, out);
}

static void plain_lookup(const void *with) { c_lookup(with, join_plain); }
static void skipping_lookup(const void *with) { c_lookup(with, join_skipping); }

static void print_d(FILE *file, const struct size *size) { fprintf(file, "%zu", size->d); }
static void print_n(FILE *file, const struct size *size) { fprintf(file, "%zu", size->n); }
static void print_l(FILE *file, const struct size *size) { fprintf(file, "%zu", size->l); }
static void print_gadget(FILE *file, const struct size *size) { fprintf(file, "%zu, %zu", size->g, size->l); }

#define CMUX library_cmux, plain_cmux, skipping_cmux
#define LOOKUP library_lookup, plain_lookup, skipping_lookup
#define VERTICAL library_vertical, plain_lookup, skipping_lookup

static const struct series all[] = {
    {"lookup-d.md", LOOKUP, print_d, 7,
     {{TREE_N, G, L, 4, 0}, {TREE_N, G, L, 5, 0}, {TREE_N, G, L, 6, 0}, {TREE_N, G, L, 7, 0}, {TREE_N, G, L, 8, 0},
      {TREE_N, G, L, 9, 0}, {TREE_N, G, L, 10, 0}}},
    {"vertical-d.md", VERTICAL, print_d, 10,
     {{TREE_N, G, L, 7, TREE_R}, {TREE_N, G, L, 8, TREE_R}, {TREE_N, G, L, 9, TREE_R}, {TREE_N, G, L, 10, TREE_R},
      {TREE_N, G, L, 11, TREE_R}, {TREE_N, G, L, 12, TREE_R}, {TREE_N, G, L, 13, TREE_R}, {TREE_N, G, L, 14, TREE_R},
      {TREE_N, G, L, 15, TREE_R}, {TREE_N, G, L, 16, TREE_R}}},
    {"lookup-N.md", LOOKUP, print_n, 7,
     {{16, G, L, SMALL_D, 0}, {32, G, L, SMALL_D, 0}, {64, G, L, SMALL_D, 0}, {128, G, L, SMALL_D, 0}, {256, G, L, SMALL_D, 0},
      {512, G, L, SMALL_D, 0}, {1024, G, L, SMALL_D, 0}}},
    {"lookup-L.md", LOOKUP, print_l, 3, {{512, G, 2, 5, 0}, {512, G, 3, 5, 0}, {512, G, 4, 5, 0}}},
    {"cmux-N.md", CMUX, print_n, 11,
     {{1, G, L, 0, 0}, {2, G, L, 0, 0}, {4, G, L, 0, 0}, {8, G, L, 0, 0}, {16, G, L, 0, 0}, {32, G, L, 0, 0}, {64, G, L, 0, 0},
      {128, G, L, 0, 0}, {256, G, L, 0, 0}, {512, G, L, 0, 0}, {1024, G, L, 0, 0}}},
    {"cmux-L.md", CMUX, print_l, 4, {{N, G, 1, 0, 0}, {N, G, 2, 0, 0}, {N, G, 3, 0, 0}, {N, G, 4, 0, 0}}},
    {"cmux-gadget.md", CMUX, print_gadget, 7,
     {{N, 16, 1, 0, 0}, {N, 16, 2, 0, 0}, {N, 8, 2, 0, 0}, {N, 8, 4, 0, 0}, {N, 4, 8, 0, 0}, {N, 2, 16, 0, 0}, {N, 1, 32, 0, 0}}},
};

static int by_transforms(const struct size *size) { return size->n >= LEAST_BY_TRANSFORMS; }

/*
 * What one gate takes in the library: products of polynomials by schoolbook, or transforms modulo each prime, that is one for each
 * digit polynomial, two for its row, and two back for each batch of rows.
 */
static size_t whole_gate(const struct size *size)
{
    size_t rows = 2 * size->l, batches = (rows + ROWS_OF_A_BATCH - 1) / ROWS_OF_A_BATCH;
    return by_transforms(size) ? 3 * rows + 2 * batches : 2 * rows;
}

/* The same of a gate between samples of the table: their difference has mask 0, classes take one digit, and the rest is skipped. */
static size_t table_gate(const struct size *size) { return by_transforms(size) ? 3 + 2 : 2; }

/* How many of them there are: the lowest level of the tree, or the first rotation where there is no tree. */
static size_t table_gates(const struct size *size)
{
    size_t samples = (size_t)1 << (size->d - size->r);
    return size->d == 0 ? 0 : samples == 1 ? 1 : samples / 2;
}

static size_t all_gates(const struct size *size)
{
    return size->d == 0 ? 1 : ((size_t)1 << (size->d - size->r)) - 1 + size->r;
}

static size_t log2_of(size_t n) { return n < 2 ? 0 : 1 + log2_of(n / 2); }

/* The rule: products of words, or butterflies modulo both primes, of which a transform has N/2 * log2(N) modulo each. */
static double steps_of(const struct size *size)
{
    size_t n = size->n, first = table_gates(size), others = all_gates(size) - first;
    size_t gates = first * table_gate(size) + others * whole_gate(size);
    return (double)(gates * n * (by_transforms(size) ? log2_of(n) : n));
}

/* The last size of a series that the library takes the same way as this one. */
static size_t last_alike(const struct series *series, size_t i)
{
    while (i + 1 < series->count && by_transforms(series->sizes + i + 1) == by_transforms(series->sizes + i))
        i++;
    return i;
}

static void prepare(void)
{
    fill(blocks, sizeof blocks / sizeof *blocks);
    fill(classes, sizeof classes / sizeof *classes);
    fill(sample0, 2 * N);
    fill(sample1, 2 * N);
    for (size_t i = 0; i < sizeof classes / sizeof *classes; i++)
        classes[i] %= CLASSES;
    for (size_t i = 0; i < MOST_D; i++)
        amplitudes[i] = 1;
}

static void run(void (*call)(const void *size), const struct size *size)
{
    memset(out, 0, sizeof out);
    call(size);
}

/* At every size the library's words, and those of C with zeros skipped, must be those of C. */
static void compare(const struct series *series)
{
    static uint32_t want[2 * N];
    for (size_t i = 0; i < series->count; i++) {
        const struct size *size = series->sizes + i;
        run(series->plain, size);
        memcpy(want, out, sizeof out);
        run(series->skipping, size);
        int right = memcmp(want, out, sizeof out) == 0;
        run(series->library, size);
        if (!right || memcmp(want, out, sizeof out) != 0) {
            fprintf(stderr, "%s: a wrong result at size ", series->file);
            series->print_size(stderr, size);
            fprintf(stderr, "\n");
            exit(1);
        }
    }
}

/* The times of size i stand from place BESIDE * i on: the library's first. */
static double best_at(seconds times, size_t i) { return best_of(times[BESIDE * i], ROUNDS); }

/* By how much the time has grown since the row above, and the rule. Nothing is expected where the way changes. */
static void print_growth(const struct series *series, size_t i, seconds times, FILE *file)
{
    const struct size *size = series->sizes + i;
    if (i == 0) {
        fprintf(file, " | | |");
        return;
    }
    struct ratio ratio = ratio_of(times[BESIDE * i], times[BESIDE * (i - 1)], ROUNDS);
    print_number(file, ratio.median);
    print_spread(file, &ratio);
    if (by_transforms(size) == by_transforms(size - 1))
        print_number(file, steps_of(size) / steps_of(size - 1));
    else
        fprintf(file, " |");
}

static void print_row(const struct series *series, size_t i, seconds times, FILE *file)
{
    const struct size *size = series->sizes + i;
    size_t last = last_alike(series, i);
    fprintf(file, "| ");
    series->print_size(file, size);
    fprintf(file, " | %s |", by_transforms(size) ? "transforms" : "schoolbook");
    print_time(file, best_at(times, i));
    print_growth(series, i, times, file);
    print_number(file, best_at(times, i) / steps_of(size) / (best_at(times, last) / steps_of(series->sizes + last)));
    for (size_t v = 1; v < BESIDE; v++)
        print_number(file, ratio_of(times[BESIDE * i], times[BESIDE * i + v], ROUNDS).median);
    fprintf(file, "\n");
}

static void measure(const struct series *series, const char *directory)
{
    static seconds times;
    struct variant variants[MOST_VARIANTS];
    for (size_t i = 0; i < series->count; i++) {
        variants[BESIDE * i] = (struct variant){LIBRARY, series->library, series->sizes + i};
        variants[BESIDE * i + 1] = (struct variant){PLAIN, series->plain, series->sizes + i};
        variants[BESIDE * i + 2] = (struct variant){SKIPPING, series->skipping, series->sizes + i};
    }
    take_times(variants, BESIDE * series->count, ROUNDS, times);
    FILE *file = open_rows(directory, series->file);
    for (size_t i = 0; i < series->count; i++)
        print_row(series, i, times, file);
    if (fclose(file) != 0)
        exit(1);
}

int main(int count, char **arguments)
{
    prepare();
    for (size_t i = 0; i < sizeof all / sizeof all[0]; i++) {
        compare(all + i);
        if (count > 1)
            measure(all + i, arguments[1]);
    }
    return 0;
}
