/* The broker's calls in plain C, for lawful arguments: they test none of them. */
#ifndef BROKER_H
#define BROKER_H

#include "schoolbook.h"

void broker_encrypt_classes(const struct schoolbook *c, size_t n, uint32_t m, size_t s, const uint32_t *key, const uint32_t *mask,
                            const uint32_t *errors, const uint32_t *classes, uint32_t *sample);
void broker_encrypt_selector(const struct schoolbook *c, size_t n, uint32_t g, uint32_t l, uint32_t bit, const uint32_t *key,
                             const uint32_t *masks, const uint32_t *errors, uint32_t *block);
/* room has n words. */
void broker_decrypt_classes(const struct schoolbook *c, size_t n, uint32_t m, size_t s, const uint32_t *key,
                            const uint32_t *sample, uint32_t *room, uint32_t *classes);
uint32_t broker_decrypt_scalar(size_t n, uint32_t m, const uint32_t *key, const uint32_t *scalar);
void broker_extract(size_t n, size_t p, const uint32_t *sample, uint32_t *scalar);

#endif
