#include "broker.h"

#include <string.h>

/* 2^32/m, for a power of two from 2 on. */
static uint32_t step_of(uint32_t m) { return UINT32_MAX / m + 1; }

static uint32_t decode(uint32_t m, uint32_t phase) { return (phase + step_of(m) / 2) / step_of(m); }

static void encrypt_zero(const struct schoolbook *c, size_t n, const uint32_t *key, const uint32_t *mask, const uint32_t *errors,
                         uint32_t *sample)
{
    memcpy(sample, mask, n * sizeof *mask);
    memcpy(sample + n, errors, n * sizeof *errors);
    c->add_product(sample + n, key, mask, n);
}

void broker_encrypt_classes(const struct schoolbook *c, size_t n, uint32_t m, size_t s, const uint32_t *key, const uint32_t *mask,
                            const uint32_t *errors, const uint32_t *classes, uint32_t *sample)
{
    encrypt_zero(c, n, key, mask, errors, sample);
    for (size_t i = 0; i < s; i++)
        sample[n + i] += classes[i] * step_of(m);
}

void broker_encrypt_selector(const struct schoolbook *c, size_t n, uint32_t g, uint32_t l, uint32_t bit, const uint32_t *key,
                             const uint32_t *masks, const uint32_t *errors, uint32_t *block)
{
    for (size_t r = 0; r < 2 * l; r++) {
        uint32_t *row = block + 2 * n * r;
        encrypt_zero(c, n, key, masks + n * r, errors + n * r, row);
        row[r / l * n] += bit << (32 - g * (r % l + 1));
    }
}

void broker_decrypt_classes(const struct schoolbook *c, size_t n, uint32_t m, size_t s, const uint32_t *key,
                            const uint32_t *sample, uint32_t *room, uint32_t *classes)
{
    memset(room, 0, n * sizeof *room);
    c->add_product(room, key, sample, n);
    for (size_t i = 0; i < s; i++)
        classes[i] = decode(m, sample[n + i] - room[i]);
}

uint32_t broker_decrypt_scalar(size_t n, uint32_t m, const uint32_t *key, const uint32_t *scalar)
{
    uint32_t phase = scalar[n];
    for (size_t j = 0; j < n; j++)
        phase -= scalar[j] * key[j];
    return decode(m, phase);
}

void broker_extract(size_t n, size_t p, const uint32_t *sample, uint32_t *scalar)
{
    for (size_t j = 0; j <= p; j++)
        scalar[j] = sample[p - j];
    for (size_t j = p + 1; j < n; j++)
        scalar[j] = -sample[n + p - j];
    scalar[n] = sample[n + p];
}
