/*
 * The calls behind one shape of arguments. Another call needs a CALL line, an entry and a place in the list, and its
 * formula in accept.c.
 */
#include "portal.h"

#include "cikenuma.h"

#define SLICE(k) slice[k].at, slice[k].length

/* The call and its two sisters are given the very same arguments. */
#define CALL(name, ...)                                                                       \
    static uint32_t name##_answer(const uint64_t *number, const struct lent *slice)           \
    {                                                                                         \
        return cikenuma_##name(__VA_ARGS__);                                                  \
    }                                                                                         \
    static uint64_t name##_bound(const uint64_t *number, const struct lent *slice)            \
    {                                                                                         \
        return cikenuma_##name##_bound(__VA_ARGS__);                                          \
    }                                                                                         \
    static uint64_t name##_gates(const uint64_t *number, const struct lent *slice)            \
    {                                                                                         \
        return cikenuma_##name##_gates(__VA_ARGS__);                                          \
    }

/* What refusals a call has, by their numbers. */
#define R(number) (UINT32_C(1) << (number))

#define SIX_NUMBERS number[0], number[1], number[2], number[3], number[4], number[5]

CALL(encrypt_classes, number[0], number[1], number[2], SLICE(0), SLICE(1), SLICE(2), SLICE(3), SLICE(4))
CALL(decrypt_classes, number[0], number[1], number[2], SLICE(0), SLICE(1), SLICE(2))
CALL(decrypt_scalar, number[0], number[1], SLICE(0), SLICE(1), SLICE(2))
CALL(extract, number[0], number[1], SLICE(0), SLICE(1))
CALL(encrypt_selector, number[0], number[1], number[2], number[3], SLICE(0), SLICE(1), SLICE(2), SLICE(3))
CALL(external_product, SIX_NUMBERS, SLICE(0), SLICE(1), SLICE(2))
CALL(cmux, SIX_NUMBERS, number[6], SLICE(0), SLICE(1), SLICE(2), SLICE(3))

const struct call encrypt_classes = {
    "encrypt_classes", "NMs", {KEY, MASK, ERRORS, CLASSES, SAMPLE}, 5, 1, R(1) | R(3) | R(4) | R(5) | R(7) | R(8) | R(9),
    encrypt_classes_answer, encrypt_classes_bound, encrypt_classes_gates, NO_TABLE,
};

const struct call decrypt_classes = {
    "decrypt_classes", "NMs", {KEY, SAMPLE, CLASSES}, 3, 1, R(1) | R(3) | R(4) | R(5) | R(8),
    decrypt_classes_answer, decrypt_classes_bound, decrypt_classes_gates, NO_TABLE,
};

const struct call decrypt_scalar = {
    "decrypt_scalar", "NM", {KEY, SCALAR, CLASS_WORD}, 3, 1, R(1) | R(3) | R(5) | R(8),
    decrypt_scalar_answer, decrypt_scalar_bound, decrypt_scalar_gates, NO_TABLE,
};

const struct call extract = {
    "extract", "Np", {SAMPLE, SCALAR}, 2, 1, R(1) | R(4) | R(5),
    extract_answer, extract_bound, extract_gates, NO_TABLE,
};

const struct call encrypt_selector = {
    "encrypt_selector", "NgLm", {KEY, ROW_MASKS, ROW_ERRORS, BLOCK}, 4, 1, R(1) | R(2) | R(5) | R(7) | R(8),
    encrypt_selector_answer, encrypt_selector_bound, encrypt_selector_gates, NO_TABLE,
};

const struct call external_product = {
    "external_product", "NgLWAB", {BLOCK, SAMPLE, RESULT}, 3, 1, R(1) | R(2) | R(12) | R(5) | R(6),
    external_product_answer, external_product_bound, external_product_gates, NO_TABLE,
};

const struct call cmux = {
    "cmux", "NgLWA01", {BLOCK, SAMPLE, SAMPLE1, RESULT}, 4, 1, R(1) | R(2) | R(12) | R(5) | R(6),
    cmux_answer, cmux_bound, cmux_gates, NO_TABLE,
};

/* What the lookups have in common. Those of either packing take the same arguments. */
#define LOOKUP_REFUSALS (R(1) | R(2) | R(12) | R(3) | R(4) | R(5) | R(6) | R(9))
#define LOOKUP_CALLS(name) name##_answer, name##_bound, name##_gates

/* A lookup in a public table. */
#define LOOKUP(name, packing)                                                                                      \
    CALL(name, SIX_NUMBERS, number[6], SLICE(0), SLICE(1), SLICE(2), SLICE(3), SLICE(4))                           \
    const struct call name = {                                                                                     \
        #name, "NgLWMsd", {BLOCKS, AMPLITUDES, CLASSES, RESULT, WORK}, 5, 2, LOOKUP_REFUSALS | R(7),               \
        LOOKUP_CALLS(name), packing,                                                                               \
    }

/* A lookup in a hidden table. */
#define LOOKUP_HIDDEN(name, packing)                                                                               \
    CALL(name, SIX_NUMBERS, number[6], SLICE(0), SLICE(1), SLICE(2), SLICE(3), SLICE(4), SLICE(5))                 \
    const struct call name = {                                                                                     \
        #name, "NgLWMsd", {BLOCKS, AMPLITUDES, SAMPLES, SAMPLE_AMPLITUDES, RESULT, WORK}, 6, 2, LOOKUP_REFUSALS,   \
        LOOKUP_CALLS(name), packing,                                                                               \
    }

LOOKUP(lookup, HORIZONTAL);
LOOKUP(lookup_vertical, VERTICAL);
LOOKUP_HIDDEN(lookup_hidden, HORIZONTAL);
LOOKUP_HIDDEN(lookup_hidden_vertical, VERTICAL);

const struct call *const all_calls[MAX_CALLS] = {
    &encrypt_classes, &decrypt_classes, &decrypt_scalar, &extract, &encrypt_selector, &external_product, &cmux,
    &lookup, &lookup_vertical, &lookup_hidden, &lookup_hidden_vertical, NULL,
};

const struct call *const all_lookups[] = {&lookup, &lookup_vertical, &lookup_hidden, &lookup_hidden_vertical, NULL};

const uint32_t refusal_order[] = {1, 2, 12, 3, 4, 5, 6, 7, 8, 9, 0};

int can_refuse(const struct call *call, uint32_t number)
{
    return call->refusals >> number & 1;
}

static size_t place_of(uint32_t refusal)
{
    size_t place = 0;
    while (refusal_order[place] && refusal_order[place] != refusal)
        place++;
    need(refusal_order[place] != 0, "a place for every refusal");
    return place;
}

int comes_before(uint32_t refusal, uint32_t other)
{
    return place_of(refusal) < place_of(other);
}

int is_hidden(const struct call *call)
{
    for (size_t k = 0; k < call->slices; k++)
        if (call->kind[k] == SAMPLES)
            return 1;
    return 0;
}

uint64_t most_selectors(const struct call *call)
{
    static const uint64_t most[] = {[NO_TABLE] = 0, [HORIZONTAL] = 10, [VERTICAL] = 16};
    return most[call->packing];
}

uint64_t most_classes(const struct call *call, uint64_t N)
{
    return call->packing == VERTICAL ? 1 : N;
}
