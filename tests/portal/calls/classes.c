/*
 * Every class is like any other: 0, M - 1, and M/2, whose word is 2147483648. Each goes through encryption,
 * decryption, extraction and decryption of the scalar sample. Then phases at both edges of a class.
 */
#include "calls.h"

#include <inttypes.h>

/* The three calls after encryption, on its sample; the class is in every coefficient. */
static void read_back(struct arguments *encrypted, struct numbers n, uint32_t class_number)
{
    struct arguments a = {0};
    const struct bytes *key = slice_of(encrypted, KEY), *sample = slice_of(encrypted, SAMPLE);
    lawful(&a, &decrypt_classes, n, 1);
    set_bytes(slice_of(&a, KEY), key->at, key->length);
    set_bytes(slice_of(&a, SAMPLE), sample->at, sample->length);
    make_call(&a, (struct answer){0, 0, 0});
    for (uint64_t i = 0; i < n.s; i++)
        check_call(&a, word_at(slice_of(&a, CLASSES), i) == class_number, "class %" PRIu64 " is %" PRIu32, i,
                   word_at(slice_of(&a, CLASSES), i));
    for (n.p = 0; n.p < n.N; n.p += n.N / 8 + 1) {
        struct arguments scalar = {0};
        lawful(&a, &extract, n, 1);
        set_bytes(slice_of(&a, SAMPLE), sample->at, sample->length);
        accept(&a);
        lawful(&scalar, &decrypt_scalar, n, 1);
        set_bytes(slice_of(&scalar, KEY), key->at, key->length);
        set_bytes(slice_of(&scalar, SCALAR), slice_of(&a, SCALAR)->at, slice_of(&a, SCALAR)->length);
        make_call(&scalar, (struct answer){0, 0, 0});
        check_call(&scalar, word_at(slice_of(&scalar, CLASS_WORD), 0) == class_number,
                   "the class extracted at %" PRIu64 " is %" PRIu32, n.p,
                   word_at(slice_of(&scalar, CLASS_WORD), 0));
        free_arguments(&scalar);
    }
    free_arguments(&a);
}

static void test_class(uint64_t N, uint64_t M, uint32_t class_number)
{
    struct arguments a = {0};
    struct numbers n = {.N = N, .M = M, .s = N};
    at("class %" PRIu32 " of %" PRIu64 " in all %" PRIu64 " coefficients", class_number, M, N);
    lawful(&a, &encrypt_classes, n, N);
    for (uint64_t i = 0; i < N; i++)
        put_word(slice_of(&a, CLASSES), i, class_number);
    accept(&a);
    read_back(&a, n, class_number);
    free_arguments(&a);
}

/* With the key and the mask 0 the message stands bare in the body. */
static void test_bare(uint64_t M)
{
    struct arguments a = {0};
    at("class %" PRIu64 " of %" PRIu64 " is the word 2147483648", M / 2, M);
    lawful(&a, &encrypt_classes, (struct numbers){.N = 1, .M = M, .s = 1}, 1);
    put_word(slice_of(&a, KEY), 0, 0);
    put_word(slice_of(&a, MASK), 0, 0);
    put_word(slice_of(&a, ERRORS), 0, 0);
    put_word(slice_of(&a, CLASSES), 0, (uint32_t)(M / 2));
    make_call(&a, (struct answer){0, 0, 0});
    check_call(&a, word_at(slice_of(&a, SAMPLE), 1) == UINT32_C(2147483648), "the body is %" PRIu32,
               word_at(slice_of(&a, SAMPLE), 1));
    free_arguments(&a);
}

/* A decryption, with N = 1 and the key 1, of the two words of a sample that is to hold the class. */
static void test_decryption(const struct call *call, enum kind lent, enum kind written, uint64_t M,
                            const uint32_t *sample, uint32_t class_number)
{
    struct arguments a = {0};
    const uint32_t key = 1;
    lawful(&a, call, (struct numbers){.N = 1, .M = M, .s = 1}, 1);
    set_words(slice_of(&a, KEY), &key, 1);
    set_words(slice_of(&a, lent), sample, 2);
    make_call(&a, (struct answer){0, 0, 0});
    check_call(&a, word_at(slice_of(&a, written), 0) == class_number, "it is %" PRIu32,
               word_at(slice_of(&a, written), 0));
    free_arguments(&a);
}

/* A phase under a mask and a key that aren't 0, by both decryptions. */
static void test_phase(uint64_t M, uint32_t phase, uint32_t class_number)
{
    const uint32_t mask = UINT32_C(0x9E3779B9);
    const uint32_t sample[2] = {mask, mask + phase};
    at("M = %" PRIu64 ": phase %" PRIu32 " is class %" PRIu32, M, phase, class_number);
    test_decryption(&decrypt_classes, SAMPLE, CLASSES, M, sample, class_number);
    test_decryption(&decrypt_scalar, SCALAR, CLASS_WORD, M, sample, class_number);
}

/* A class reaches from half a step below its word to just under half a step above: ties go up. */
static void test_edges(uint64_t M, uint32_t class_number)
{
    uint32_t half = (uint32_t)(UINT64_C(0x80000000) / M), word = 2 * half * class_number;
    test_phase(M, word, class_number);
    test_phase(M, word - half, class_number);
    test_phase(M, word + (half - 1), class_number);
    test_phase(M, word + half, (uint32_t)((class_number + 1) % M));
    test_phase(M, word - half - 1, (uint32_t)((class_number + M - 1) % M));
}

void test_classes(void)
{
    for (uint64_t M = 2; M <= 65536; M *= 2) {
        const uint32_t classes[] = {0, 1, (uint32_t)(M / 2), (uint32_t)(M / 2 - 1), (uint32_t)(M - 1)};
        test_bare(M);
        for (size_t i = 0; i < sizeof classes / sizeof classes[0]; i++) {
            test_edges(M, classes[i]);
            for (uint64_t N = 1; N <= 64; N *= 2)
                test_class(N, M, classes[i]);
            if (M == 2 || M == 16 || M == 65536)
                test_class(1024, M, classes[i]);
        }
    }
}
