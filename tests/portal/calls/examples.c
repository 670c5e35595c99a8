/* Worked examples of samples, every word written out: cases i to l of the exercise table, and one small sample. */
#include "calls.h"

#include <inttypes.h>
#include <string.h>

/* A phase is shown to both decryptions as the body of a trivial sample, whose mask is 0. */
static void decodes(const char *name, uint64_t M, uint32_t phase, uint32_t want)
{
    struct arguments a = {0};
    uint32_t trivial[2] = {0, phase};
    at("case %s: M = %" PRIu64 ", phase %" PRIu32 " decodes to %" PRIu32, name, M, phase, want);
    for (uint32_t key = 0; key < 2; key++) {
        lawful(&a, &decrypt_classes, (struct numbers){.N = 1, .M = M, .s = 1}, 1);
        set_words(slice_of(&a, KEY), &key, 1);
        set_words(slice_of(&a, SAMPLE), trivial, 2);
        make_call(&a, (struct answer){0, 0, 0});
        check_written(&a, &want, 1);
        lawful(&a, &decrypt_scalar, (struct numbers){.N = 1, .M = M}, 1);
        set_words(slice_of(&a, KEY), &key, 1);
        set_words(slice_of(&a, SCALAR), trivial, 2);
        make_call(&a, (struct answer){0, 0, 0});
        check_written(&a, &want, 1);
    }
    free_arguments(&a);
}

static void extracts(const char *name, const uint32_t *sample, uint64_t p, const uint32_t *want)
{
    struct arguments a = {0};
    at("%s: position %" PRIu64, name, p);
    lawful(&a, &extract, (struct numbers){.N = 2, .p = p}, 1);
    set_words(slice_of(&a, SAMPLE), sample, 4);
    make_call(&a, (struct answer){0, 0, 0});
    check_written(&a, want, 3);
    free_arguments(&a);
}

/*
 * N = 2, M = 16, key 1 + X, mask 5 + 7X: the product is 5 + 12X + 7X^2, which is -2 + 12X. Classes 3 and
 * 8 are encoded as 805306368 and 2147483648. With errors 1 and -4 the body is 805306367, 2147483656.
 */
static void encrypts_and_decrypts(void)
{
    struct arguments a = {0};
    const uint8_t key[8] = {1, 0, 0, 0, 1, 0, 0, 0};
    const uint8_t mask[8] = {5, 0, 0, 0, 7, 0, 0, 0};
    const uint8_t errors[8] = {1, 0, 0, 0, 0xFC, 0xFF, 0xFF, 0xFF};
    const uint8_t classes[8] = {3, 0, 0, 0, 8, 0, 0, 0};
    const uint8_t sample[16] = {5, 0, 0, 0, 7, 0, 0, 0, 0xFF, 0xFF, 0xFF, 0x2F, 8, 0, 0, 0x80};
    at("a small sample, byte for byte");
    lawful(&a, &encrypt_classes, (struct numbers){.N = 2, .M = 16, .s = 2}, 1);
    set_bytes(slice_of(&a, KEY), key, 8);
    set_bytes(slice_of(&a, MASK), mask, 8);
    set_bytes(slice_of(&a, ERRORS), errors, 8);
    set_bytes(slice_of(&a, CLASSES), classes, 8);
    make_call(&a, (struct answer){0, 4, 0});
    check_call(&a, memcmp(slice_of(&a, SAMPLE)->at, sample, 16) == 0, "the sample has other bytes");
    lawful(&a, &decrypt_classes, (struct numbers){.N = 2, .M = 16, .s = 2}, 1);
    set_bytes(slice_of(&a, KEY), key, 8);
    set_bytes(slice_of(&a, SAMPLE), sample, 16);
    make_call(&a, (struct answer){0, 0, 0});
    check_call(&a, memcmp(slice_of(&a, CLASSES)->at, classes, 8) == 0, "the classes have other bytes");
    free_arguments(&a);
}

/* The bound is the greatest magnitude, wherever it stands: not the first, the last or the sum. */
static void bound_is_greatest(void)
{
    struct arguments a = {0};
    const uint32_t errors[4] = {3, (uint32_t)-7, 5, 0};
    lawful(&a, &encrypt_classes, (struct numbers){.N = 4, .M = 16, .s = 2}, 1);
    for (size_t turn = 0; turn < 4; turn++) {
        at("errors 3, -7, 5, 0 turned by %zu", turn);
        for (size_t i = 0; i < 4; i++)
            put_word(slice_of(&a, ERRORS), (i + turn) % 4, errors[i]);
        make_call(&a, (struct answer){0, 7, 0});
    }
    free_arguments(&a);
}

/* Mask (5, 7) and body (9, 11); then 2147483648, which is its own negative, and 0 likewise. */
static void test_extraction(void)
{
    const uint32_t sample[4] = {5, 7, 9, 11};
    const uint32_t position0[3] = {5, UINT32_C(4294967289), 9}, position1[3] = {7, 5, 11};
    const uint32_t halves[4] = {0, UINT32_C(2147483648), UINT32_C(2147483648), 0};
    const uint32_t halves0[3] = {0, UINT32_C(2147483648), UINT32_C(2147483648)};
    const uint32_t halves1[3] = {UINT32_C(2147483648), 0, 0};
    extracts("case l", sample, 0, position0);
    extracts("case l", sample, 1, position1);
    extracts("half a turn", halves, 0, halves0);
    extracts("half a turn", halves, 1, halves1);
}

void test_examples(void)
{
    decodes("i", 16, 134217727, 0);
    decodes("j", 16, 134217728, 1);
    decodes("k", 16, UINT32_C(4160749568), 0);
    decodes("k", 16, UINT32_C(4160749567), 15);
    test_extraction();
    encrypts_and_decrypts();
    bound_is_greatest();
}
