/*
 * Errors of classes at the limit 2^31/M: below it accepted, from it on refusal 9, and the bound reported either way.
 * Errors of a selector: every one is accepted, and the greatest of all rows is the bound.
 */
#include "calls.h"

#include <inttypes.h>

static uint32_t negative(uint32_t word)
{
    return (uint32_t)0 - word;
}

/* Lawful arguments with this error in one place. The others are 0, so the bound is its magnitude. */
static void test_error(uint64_t N, uint64_t M, uint64_t s, uint64_t place, uint32_t error)
{
    struct arguments a = {0};
    uint32_t limit = (uint32_t)(UINT64_C(0x80000000) / M);
    at("M = %" PRIu64 ", s = %" PRIu64 ": error %" PRIu64 " is %" PRIu32, M, s, place, error);
    lawful(&a, &encrypt_classes, (struct numbers){.N = N, .M = M, .s = s}, place);
    for (uint64_t i = 0; i < N; i++)
        put_word(slice_of(&a, ERRORS), i, i == place ? error : 0);
    if (magnitude(error) < limit)
        accept(&a);
    else
        make_call(&a, (struct answer){9, magnitude(error), 0});
    free_arguments(&a);
}

/* A place from s on carries no class, and its error counts all the same. */
static void test_place(uint64_t N, uint64_t M, uint64_t s, uint64_t place)
{
    uint32_t limit = (uint32_t)(UINT64_C(0x80000000) / M);
    const uint32_t sizes[] = {0, 1, limit / 2, limit - 1, limit, limit + 1, 2 * limit - 1, UINT32_C(0x7FFFFFFF),
                              UINT32_C(0x80000000)};
    for (size_t i = 0; i < sizeof sizes / sizeof sizes[0]; i++) {
        test_error(N, M, s, place, sizes[i]);
        test_error(N, M, s, place, negative(sizes[i]));
    }
}

/* One error in one row; then a greater one in another place, so that neither the first nor the last is taken. */
static void test_row_error(uint64_t N, size_t place, uint32_t error)
{
    struct arguments a = {0};
    lawful(&a, &encrypt_selector, usual(&encrypt_selector, N), place);
    struct bytes *errors = slice_of(&a, ROW_ERRORS);
    size_t other = (place + words_in(errors) / 2) % words_in(errors);
    for (size_t i = 0; i < words_in(errors); i++)
        put_word(errors, i, i == place ? error : 0);
    at("a selector's error %zu is %" PRIu32 ", N = %" PRIu64, place, error, N);
    make_call(&a, (struct answer){0, magnitude(error), 0});
    at("a selector's error %zu is %" PRIu32 ", error %zu is 2147483648", place, error, other);
    put_word(errors, other, UINT32_C(2147483648));
    make_call(&a, (struct answer){0, UINT32_C(2147483648), 0});
    free_arguments(&a);
}

static void test_row_place(uint64_t N, size_t place)
{
    const uint32_t sizes[] = {0, 1, 2, 134217728, UINT32_C(0x7FFFFFFF), UINT32_C(0x80000000)};
    for (size_t i = 0; i < sizeof sizes / sizeof sizes[0]; i++) {
        test_row_error(N, place, sizes[i]);
        test_row_error(N, place, negative(sizes[i]));
    }
}

void test_errors(void)
{
    uint64_t L = usual(&encrypt_selector, 4).L;
    for (size_t place = 0; place < 2 * L * 4; place++)
        test_row_place(4, place);
    test_row_place(1024, 2 * L * 1024 - 1);
    for (uint64_t M = 2; M <= 65536; M *= 2) {
        test_place(1, M, 1, 0);
        for (uint64_t place = 0; place < 4; place++)
            for (uint64_t s = 1; s <= 4; s++)
                test_place(4, M, s, place);
    }
    test_place(1024, 16, 1, 1023);
    test_place(1024, 65536, 1024, 1023);
}
