/* Words that are refused, in every place: a key word above 1, a class not below M, an amplitude above 2^31. */
#include "calls.h"

#include <inttypes.h>

/* Bad in one byte only, so that no byte may be passed over; 16777216 is 1 with its bytes turned. */
static const uint32_t bad_key_words[] = {
    2, 3, 255, 256, 257, 65536, 65537, 16777216, 16777217, UINT32_C(2147483648), UINT32_C(2147483649), UINT32_MAX - 1,
    UINT32_MAX,
};

static void test_key(const struct call *call, uint64_t N, uint64_t place)
{
    struct arguments a = {0};
    lawful(&a, call, usual(call, N), place);
    for (size_t i = 0; i < sizeof bad_key_words / sizeof bad_key_words[0]; i++) {
        at("%s, N = %" PRIu64 ": key word %" PRIu64 " is %" PRIu32, call->name, N, place, bad_key_words[i]);
        put_word(slice_of(&a, KEY), place, bad_key_words[i]);
        refuse(&a, 8);
    }
    free_arguments(&a);
}

static void test_keys(const struct call *call)
{
    for (uint64_t N = 1; N <= 16; N *= 4)
        for (uint64_t place = 0; place < N; place++)
            test_key(call, N, place);
    test_key(call, 1024, 0);
    test_key(call, 1024, 511);
    test_key(call, 1024, 1023);
}

/* The greatest class is accepted there, and no number from M on. */
static void test_class(const struct call *call, struct numbers n, uint64_t place)
{
    struct arguments a = {0};
    uint32_t M = (uint32_t)n.M;
    const uint32_t bad[] = {M, M + 1, M * 2, M + 65536, M << 8, 16777216, UINT32_C(2147483648), UINT32_MAX};
    lawful(&a, call, n, place);
    at("%s: class %" PRIu64 " is %" PRIu32 ", M = %" PRIu32, call->name, place, M - 1, M);
    put_word(slice_of(&a, CLASSES), place, M - 1);
    accept(&a);
    for (size_t i = 0; i < sizeof bad / sizeof bad[0]; i++) {
        at("%s: class %" PRIu64 " is %" PRIu32 ", M = %" PRIu32, call->name, place, bad[i], M);
        put_word(slice_of(&a, CLASSES), place, bad[i]);
        refuse(&a, 7);
    }
    free_arguments(&a);
}

static void test_classes_of_samples(uint64_t M)
{
    for (uint64_t s = 1; s <= 8; s++)
        for (uint64_t place = 0; place < s; place++)
            test_class(&encrypt_classes, (struct numbers){.N = 8, .M = M, .s = s}, place);
}

/* With 32 digits of one bit nothing is rounded away, so that the noise is small enough for every M. */
static void test_classes_of_tables(const struct call *call, uint64_t M)
{
    struct numbers n = {.N = 4, .M = M, .g = 1, .L = 32};
    for (n.d = 0; n.d <= 3; n.d++)
        for (n.s = 1; n.s <= most_classes(call, n.N); n.s++)
            for (uint64_t place = 0; place < n.s << n.d; place++)
                test_class(call, n, place);
}

/* The last class of the largest table with N = 1. */
static void test_last_class(const struct call *call)
{
    struct numbers n = {.N = 1, .M = 16, .s = 1, .g = 16, .L = 2, .d = most_selectors(call)};
    test_class(call, n, (UINT64_C(1) << n.d) - 1);
}

/*
 * 2^31 is an amplitude like any other, of a selector or of a sample: it isn't refused with 6, but makes a bound that is
 * too great.
 */
static void test_amplitude(const struct call *call, uint64_t d, enum kind kind, uint64_t place)
{
    struct arguments a = {0};
    struct numbers n = usual(call, 2);
    const char *of = kind == AMPLITUDES ? "selector" : "sample";
    n.d = d;
    lawful(&a, call, n, place);
    for (uint32_t bad = UINT32_MAX; bad > UINT32_C(2147483648); bad -= (bad - UINT32_C(2147483648) + 1) / 2) {
        at("%s, d = %" PRIu64 ": the amplitude of %s %" PRIu64 " is %" PRIu32, call->name, d, of, place, bad);
        put_word(slice_of(&a, kind), place, bad);
        refuse(&a, 6);
    }
    at("%s, d = %" PRIu64 ": the amplitude of %s %" PRIu64 " is 2147483648", call->name, d, of, place);
    put_word(slice_of(&a, kind), place, UINT32_C(2147483648));
    check_call(&a, accept_or_9(&a) == 9, "such noise is too great");
    free_arguments(&a);
}

static void test_table(const struct call *call)
{
    for (uint64_t M = 2; M <= 65536; M *= 2)
        test_classes_of_tables(call, M);
    test_last_class(call);
}

/* Every sample of small tables, and of the largest the first, one within and the last. */
static void test_samples(const struct call *call)
{
    const uint64_t d = most_selectors(call), last = samples_of(call, 2, d) - 1;
    for (uint64_t few = 0; few <= 5; few++)
        for (uint64_t place = 0; place < samples_of(call, 2, few); place++)
            test_amplitude(call, few, SAMPLE_AMPLITUDES, place);
    test_amplitude(call, d, SAMPLE_AMPLITUDES, 0);
    test_amplitude(call, d, SAMPLE_AMPLITUDES, last / 3);
    test_amplitude(call, d, SAMPLE_AMPLITUDES, last);
}

static void test_lookup(const struct call *call)
{
    for (uint64_t d = 1; d <= most_selectors(call); d++)
        for (uint64_t place = 0; place < d; place++)
            test_amplitude(call, d, AMPLITUDES, place);
    if (is_hidden(call))
        test_samples(call);
    else
        test_table(call);
}

void test_words(void)
{
    for (size_t c = 0; all_calls[c]; c++)
        if (can_refuse(all_calls[c], 8))
            test_keys(all_calls[c]);
    for (uint64_t M = 2; M <= 65536; M *= 2)
        test_classes_of_samples(M);
    test_class(&encrypt_classes, (struct numbers){.N = 1024, .M = 65536, .s = 1024}, 1023);
    for (size_t c = 0; all_lookups[c]; c++)
        test_lookup(all_lookups[c]);
}
