/* Decryption of classes, extraction of a coefficient, and decryption of the scalar sample that it makes. */
#include "broker.h"
#include "cikenuma.h"
#include "material.h"
#include "thing.h"

#include <stdlib.h>

/* A position in the middle: half of the mask words change their signs. */
enum { P = N / 2 };

static uint32_t sample[2 * N], room[N], decrypted[S], scalar[N + 1], class_word[1];

static void library_classes(const void *with)
{
    (void)with;
    if (cikenuma_decrypt_classes(N, M, S, SLICE(key, N), SLICE(sample, 2 * N), SLICE(decrypted, S)) != 0)
        exit(1);
}

static void c_classes(const void *with) { broker_decrypt_classes(with, N, M, S, key, sample, room, decrypted); }

static void library_extract(const void *with)
{
    (void)with;
    if (cikenuma_extract(N, P, SLICE(sample, 2 * N), SLICE(scalar, N + 1)) != 0)
        exit(1);
}

static void c_extract(const void *with)
{
    (void)with;
    broker_extract(N, P, sample, scalar);
}

static void library_scalar(const void *with)
{
    (void)with;
    if (cikenuma_decrypt_scalar(N, M, SLICE(key, N), SLICE(scalar, N + 1), SLICE(class_word, 1)) != 0)
        exit(1);
}

static void c_scalar(const void *with)
{
    (void)with;
    class_word[0] = broker_decrypt_scalar(N, M, key, scalar);
}

static const struct variant of_classes[] = {
    {LIBRARY, library_classes, NULL}, SCHOOLBOOKS(c_classes), {ADDING, c_classes, &adding}};
static const struct variant of_extract[] = {{LIBRARY, library_extract, NULL}, {PLAIN, c_extract, NULL}};
static const struct variant of_scalar[] = {{LIBRARY, library_scalar, NULL}, {PLAIN, c_scalar, NULL}};

static const struct thing things[] = {
    {"decrypt classes", of_classes, sizeof of_classes / sizeof of_classes[0], MOST_ROUNDS},
    {"extract", of_extract, sizeof of_extract / sizeof of_extract[0], MOST_ROUNDS},
    {"decrypt scalar", of_scalar, sizeof of_scalar / sizeof of_scalar[0], MOST_ROUNDS},
};
static const struct output outputs[] = {{decrypted, S, NULL}, {scalar, N + 1, NULL}, {class_word, 1, NULL}};

int main(int count, char **arguments)
{
    make_material();
    encrypt_entry(0, sample);
    for (size_t i = 0; i < sizeof things / sizeof things[0]; i++) {
        compare(things + i, outputs + i);
        measure(things + i, count > 1 ? arguments[1] : NULL);
    }
    return 0;
}
