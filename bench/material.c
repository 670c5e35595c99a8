#include "material.h"
#include "cikenuma.h"
#include "measure.h"

#include <stdlib.h>
#include <string.h>

uint32_t key[N], masks[2 * L * N], errors[2 * L * N], blocks[CELLS_D][4 * L * N], amplitudes[CELLS_D], classes[S << D];

void must(uint32_t answer)
{
    if (answer != 0)
        exit(1);
}

/* Random words below a limit. */
static void fill_below(uint32_t *words, size_t count, uint32_t limit)
{
    fill(words, count);
    for (size_t i = 0; i < count; i++)
        words[i] %= limit;
}

static void draw_rows(size_t rows)
{
    fill(masks, rows * N);
    fill_below(errors, rows * N, 3);
    for (size_t i = 0; i < rows * N; i++)
        errors[i] -= 1;
}

static void encrypt_bit(size_t i)
{
    draw_rows(2 * L);
    amplitudes[i] = 1;
    must(cikenuma_encrypt_selector(N, G, L, NAMED_CELL >> i & 1, SLICE(key, N), SLICE(masks, 2 * L * N), SLICE(errors, 2 * L * N),
                                   SLICE(blocks[i], 4 * L * N)));
}

void make_material(void)
{
    fill_below(key, N, 2);
    fill_below(classes, S << D, M);
    for (size_t i = 0; i < CELLS_D; i++)
        encrypt_bit(i);
}

void encrypt_entry(size_t t, uint32_t *sample)
{
    draw_rows(1);
    must(cikenuma_encrypt_classes(N, M, S, SLICE(key, N), SLICE(masks, N), SLICE(errors, N), SLICE(classes + S * t, S),
                                  SLICE(sample, 2 * N)));
}

int holds_entry(const uint32_t *sample, size_t t)
{
    static uint32_t decrypted[S];
    return cikenuma_decrypt_classes(N, M, S, SLICE(key, N), SLICE(sample, 2 * N), SLICE(decrypted, S)) == 0 &&
           memcmp(decrypted, classes + S * t, sizeof decrypted) == 0;
}

int holds_cell(const uint32_t *sample, size_t h)
{
    uint32_t decrypted[1];
    return cikenuma_decrypt_classes(N, M, 1, SLICE(key, N), SLICE(sample, 2 * N), SLICE(decrypted, 1)) == 0 &&
           decrypted[0] == classes[h];
}
