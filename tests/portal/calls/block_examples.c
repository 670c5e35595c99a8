/*
 * Worked examples of blocks, every word written out: cases a to h of the exercise table, the CMux of job J, and one
 * small selector.
 */
#include "calls.h"

/*
 * With N = 1, a block whose rows for the body are (1, 0) and (0, 1) makes the two digits of a body visible. The
 * same block with its halves exchanged shows those of a mask.
 */
static void has_digits(const char *name, uint32_t word, int32_t digit1, int32_t digit2)
{
    struct arguments a = {0};
    const uint32_t body_rows[8] = {0, 0, 0, 0, 1, 0, 0, 1}, mask_rows[8] = {1, 0, 0, 1, 0, 0, 0, 0};
    const uint32_t body[2] = {0, word}, mask[2] = {word, 0}, want[2] = {(uint32_t)digit1, (uint32_t)digit2};
    /* Amplitude 0 leaves (1 + W)*E of the charge, which is 65536. */
    struct numbers n = {.N = 1, .g = 8, .L = 2, .W = 1};
    at("case %s: the digits of a body", name);
    lawful(&a, &external_product, n, 1);
    set_words(slice_of(&a, BLOCK), body_rows, 8);
    set_words(slice_of(&a, SAMPLE), body, 2);
    make_call(&a, (struct answer){0, 65536, 0});
    check_written(&a, want, 2);
    at("case %s: the digits of a mask", name);
    set_words(slice_of(&a, BLOCK), mask_rows, 8);
    set_words(slice_of(&a, SAMPLE), mask, 2);
    make_call(&a, (struct answer){0, 65536, 0});
    check_written(&a, want, 2);
    free_arguments(&a);
}

/* Case h, N = 2: (1 + 2X)*X has words 4294967294, 1. Here the first are digits 2 of the mask, and X a row's mask. */
static void multiplies(void)
{
    struct arguments a = {0};
    const uint32_t block[16] = {0, 0, 0, 0, 0, 1, 0, 0}, sample[4] = {1, 2, 0, 0};
    const uint32_t want[4] = {UINT32_C(4294967294), 1, 0, 0};
    at("case h");
    lawful(&a, &external_product, (struct numbers){.N = 2, .g = 16, .L = 2, .W = 1, .A = 3, .B = 4}, 1);
    set_words(slice_of(&a, BLOCK), block, 16);
    set_words(slice_of(&a, SAMPLE), sample, 4);
    make_call(&a, (struct answer){0, 786436, 0}); /* 2*2*2*32768*3 + 4 */
    check_written(&a, want, 4);
    free_arguments(&a);
}

/* Job J: the block is the bare gadget of bit 1, so it picks class 8 of 16 exactly. A gate has no limit for noise. */
static void picks(uint64_t amplitude, uint64_t bound)
{
    struct arguments a = {0};
    const uint32_t block[8] = {65536, 0, 1, 0, 0, 65536, 0, 1}, class3[2] = {0, 805306368};
    const uint32_t class8[2] = {0, UINT32_C(2147483648)};
    at("job J");
    lawful(&a, &cmux, (struct numbers){.N = 1, .g = 16, .L = 2, .W = 1, .A = amplitude}, 1);
    set_words(slice_of(&a, BLOCK), block, 8);
    set_words(slice_of(&a, SAMPLE), class3, 2);
    set_words(slice_of(&a, SAMPLE1), class8, 2);
    make_call(&a, (struct answer){0, bound, 1});
    check_written(&a, class8, 2);
    free_arguments(&a);
}

/*
 * N = 2, key 1 + X, every mask 5 + 7X: the product is 5 + 12X + 7X^2, which is -2 + 12X. With g = 8 and L = 2 the
 * steps are 16777216 and 65536: added to the masks of the first two rows, and to the bodies of the others.
 */
static void encrypts(uint64_t m, const uint32_t *want)
{
    struct arguments a = {0};
    const uint32_t key[2] = {1, 1}, masks[8] = {5, 7, 5, 7, 5, 7, 5, 7};
    const uint32_t errors[8] = {0, 0, 1, 0, 0, (uint32_t)-4, 3, 2};
    at("a small selector");
    lawful(&a, &encrypt_selector, (struct numbers){.N = 2, .g = 8, .L = 2, .m = m}, 1);
    set_words(slice_of(&a, KEY), key, 2);
    set_words(slice_of(&a, ROW_MASKS), masks, 8);
    set_words(slice_of(&a, ROW_ERRORS), errors, 8);
    make_call(&a, (struct answer){0, 4, 0});
    check_written(&a, want, 16);
    free_arguments(&a);
}

/* Bounds worked out by hand, at sizes where the words don't matter. */
static void reports(struct numbers n, uint64_t bound)
{
    struct arguments a = {0};
    at("a bound");
    lawful(&a, &external_product, n, 1);
    make_call(&a, (struct answer){0, bound, 0});
    lawful(&a, &cmux, n, 1);
    make_call(&a, (struct answer){0, bound, 1});
    free_arguments(&a);
}

void test_block_examples(void)
{
    const uint32_t minus2 = (uint32_t)-2;
    const uint32_t bit0[16] = {5, 7, minus2, 12, 5, 7, minus2 + 1, 12, 5, 7, minus2, 8, 5, 7, 1, 14};
    const uint32_t bit1[16] = {16777221, 7, minus2, 12, 65541, 7, minus2 + 1, 12, 5, 7, 16777214, 8, 5, 7, 65537, 14};
    has_digits("a", 0, 0, 0);
    has_digits("b", 32767, 0, 0);
    has_digits("c", 32768, 0, 1);
    has_digits("d", 8388608, 1, -128);
    has_digits("e", 2139095040, -128, -128);
    has_digits("f", UINT32_C(4294934528), 0, 0);
    has_digits("g", UINT32_C(2147483648), -128, 0);
    multiplies();
    picks(7, 917504);
    picks(1023, 134086656);
    picks(1024, 134217728);
    encrypts(0, bit0);
    encrypts(1, bit1);
    reports((struct numbers){.N = 1024, .g = 8, .L = 2, .W = 1024, .A = 1}, 34111488);
    reports((struct numbers){.N = 1024, .g = 8, .L = 2, .W = 1023, .A = 1}, 34078720);
    reports((struct numbers){.N = 1024, .g = 8, .L = 2, .W = 64, .A = 1}, 2654208);
    reports((struct numbers){.N = 1024, .g = 8, .L = 2, .W = 0, .A = 1}, 557056);
    reports((struct numbers){.N = 1, .g = 1, .L = 1, .W = 1}, UINT64_C(2147483648));
    reports((struct numbers){.N = 1024, .g = 1, .L = 1, .W = 1024}, UINT64_C(1100585369600));
    reports((struct numbers){.N = 1024, .g = 1, .L = 1, .W = 0}, UINT64_C(1073741824));
    /* The greatest: 2^58 is the charge, and the sample's amplitude comes on top. */
    reports((struct numbers){.N = 1024, .g = 16, .L = 2, .W = 1024, .A = half_turn, .B = half_turn, .A0 = half_turn},
            UINT64_C(288230378299195392));
}
