/*
 * Encryption of classes and of a selector bit. A key has 0s and 1s: half of its words are 0, and no product needs a
 * multiplication.
 */
#include "broker.h"
#include "cikenuma.h"
#include "material.h"
#include "thing.h"

#include <stdlib.h>

enum { BIT = 1 };

static uint32_t sample[2 * N], block[4 * L * N];

static void library_classes(const void *with)
{
    (void)with;
    if (cikenuma_encrypt_classes(N, M, S, SLICE(key, N), SLICE(masks, N), SLICE(errors, N), SLICE(classes, S),
                                 SLICE(sample, 2 * N)) != 0)
        exit(1);
}

static void c_classes(const void *with) { broker_encrypt_classes(with, N, M, S, key, masks, errors, classes, sample); }

static void library_selector(const void *with)
{
    (void)with;
    if (cikenuma_encrypt_selector(N, G, L, BIT, SLICE(key, N), SLICE(masks, 2 * L * N), SLICE(errors, 2 * L * N),
                                  SLICE(block, 4 * L * N)) != 0)
        exit(1);
}

static void c_selector(const void *with) { broker_encrypt_selector(with, N, G, L, BIT, key, masks, errors, block); }

static const struct variant of_classes[] = {
    {LIBRARY, library_classes, NULL}, SCHOOLBOOKS(c_classes), {ADDING, c_classes, &adding}};
static const struct variant of_selector[] = {
    {LIBRARY, library_selector, NULL}, SCHOOLBOOKS(c_selector), {ADDING, c_selector, &adding}};

static const struct thing things[] = {
    {"encrypt classes", of_classes, sizeof of_classes / sizeof of_classes[0], MOST_ROUNDS},
    {"encrypt selector", of_selector, sizeof of_selector / sizeof of_selector[0], MOST_ROUNDS},
};
static const struct output outputs[] = {{sample, 2 * N, NULL}, {block, 4 * L * N, NULL}};

int main(int count, char **arguments)
{
    make_material();
    for (size_t i = 0; i < sizeof things / sizeof things[0]; i++) {
        compare(things + i, outputs + i);
        measure(things + i, count > 1 ? arguments[1] : NULL);
    }
    return 0;
}
