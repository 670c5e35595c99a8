/*
 * Writes a job file to standard output, as a broker does.
 *
 *   make_job N g L M s d ENTRY NOISE > NAME.job
 *
 * Selector i encrypts binary digit i of the number ENTRY, with errors from -NOISE to NOISE. The table
 * has 2^d entries of s classes below M.
 */
#include <stdio.h>
#include <stdlib.h>
#include "broker.h"
#include "cikenuma.h"

enum { MOST_L = 32, MOST_D = 16 };

static uint64_t N, g, L, M, s, d, entry, noise;
static uint8_t key[WORD * MOST_N], block[WORD * 4 * MOST_L * MOST_N];
static uint8_t masks[WORD * 2 * MOST_L * MOST_N], errors[WORD * 2 * MOST_L * MOST_N];

static void write_word(uint64_t word)
{
    uint8_t bytes[WORD];
    put(bytes, 0, (uint32_t)word);
    fwrite(bytes, 1, sizeof bytes, stdout);
}

/* Section one: a count, then the job's numbers. */
static void write_numbers(void)
{
    const uint64_t numbers[] = {5, N, g, L, M, s};
    for (size_t i = 0; i < 6; i++)
        write_word(numbers[i]);
}

/* A mask polynomial and an error polynomial for each row of a block. Real ones come from your source of randomness. */
static void draw_rows(void)
{
    static uint64_t mask_state = 2463534242u, error_state = 362436069u;
    for (size_t j = 0; j < 2 * L * N; j++) {
        put(masks, j, draw(&mask_state));
        put(errors, j, (uint32_t)(draw(&error_state) % (2 * noise + 1) - noise));
    }
}

/* Encrypts a bit, and writes the amplitude and the block. The amplitude to declare is the bound that the encryption reports. */
static void write_selector(uint64_t bit)
{
    size_t rows = WORD * 2 * L * N;
    draw_rows();
    uint32_t answer = cikenuma_encrypt_selector(N, g, L, bit, key, WORD * N, masks, rows, errors, rows, block, 2 * rows);
    if (answer != 0) {
        fprintf(stderr, "make_job: encryption answers %u\n", (unsigned)answer);
        exit(1);
    }
    write_word(cikenuma_encrypt_selector_bound(N, g, L, bit, key, WORD * N, masks, rows, errors, rows, block, 2 * rows));
    fwrite(block, 1, 2 * rows, stdout);
}

/* Section two: the number of selectors, then each of them. */
static void write_selectors(void)
{
    write_word(d);
    for (size_t i = 0; i < d; i++)
        write_selector(entry >> i & 1);
}

/*
 * Section three: the number of classes, then the table, all classes of entry 0 first. Drawn classes stand in for a lessor's
 * rates: where entries differ by a rule, many differences of samples are 0, and a lookup has less to do than it would have.
 */
static void write_table(void)
{
    uint64_t state = 521288629u;
    write_word(s << d);
    for (uint64_t i = 0; i < s << d; i++)
        write_word(draw(&state) % M);
}

int main(int count, char **arguments)
{
    uint64_t *const numbers[] = {&N, &g, &L, &M, &s, &d, &entry, &noise};
    if (count != 9) {
        fprintf(stderr, "usage: make_job N g L M s d ENTRY NOISE\n");
        return 1;
    }
    for (size_t i = 0; i < 8; i++)
        *numbers[i] = strtoull(arguments[i + 1], NULL, 10);
    if (N > MOST_N || L > MOST_L || M == 0 || s > N || d > MOST_D || entry >> d != 0 || noise > 1u << 31) {
        fprintf(stderr, "make_job: a number is too large, or M is 0\n");
        return 1;
    }
    make_key(key, N);
    write_numbers();
    write_selectors();
    write_table();
    if (fflush(stdout) != 0 || ferror(stdout)) {
        fprintf(stderr, "make_job: the file can't be written\n");
        return 1;
    }
    return 0;
}
