/*
 * A public table is also lent as a hidden one, with its entries as samples of mask 0 and amplitude 0: the lookup in it
 * answers and writes the same as the public one of its packing.
 */
#include "calls.h"

#include <inttypes.h>
#include <string.h>

/* Jobs that were accepted, and jobs that were refused with 9. */
static unsigned accepted, refused;

static const struct call *public_twin(const struct call *hidden)
{
    for (size_t c = 0; all_lookups[c]; c++)
        if (all_lookups[c]->packing == hidden->packing && !is_hidden(all_lookups[c]))
            return all_lookups[c];
    need(0, "a public lookup of every packing");
    return NULL;
}

/* The slices of this kind have the same bytes. */
static void check_same(struct arguments *a, struct arguments *b, enum kind kind)
{
    const struct bytes *x = slice_of(a, kind), *y = slice_of(b, kind);
    check_call(b, x->length == y->length && memcmp(x->at, y->at, x->length) == 0, "slice %zu isn't the public one",
               (size_t)(y - b->slice));
}

static void test_job(const struct call *call, struct numbers n)
{
    static uint32_t classes[1024 * 1024];
    struct arguments open = {0}, hidden = {0};
    at("%s: a public table lent as a hidden one", call->name);
    lawful(&open, public_twin(call), n, below(UINT64_MAX));
    lawful(&hidden, call, n, below(UINT64_MAX));
    read_words(classes, 1024 * 1024, slice_of(&open, CLASSES));
    set_bytes(slice_of(&hidden, BLOCKS), slice_of(&open, BLOCKS)->at, slice_of(&open, BLOCKS)->length);
    set_bytes(slice_of(&hidden, AMPLITUDES), slice_of(&open, AMPLITUDES)->at, slice_of(&open, AMPLITUDES)->length);
    lend_classes(&hidden, classes);
    uint32_t number = accept_or_9(&open);
    check_call(&hidden, accept_or_9(&hidden) == number, "the public one returns %" PRIu32, number);
    if (number == 0) {
        check_same(&open, &hidden, RESULT);
        check_same(&open, &hidden, WORK);
    }
    accepted += number == 0;
    refused += number == 9;
    free_arguments(&open);
    free_arguments(&hidden);
}

/* Every degree, with every number of selectors that doesn't take long. */
static void test_call(const struct call *call)
{
    const uint64_t most = UINT64_C(5) << 18;
    for (uint64_t N = 1; N <= 1024; N *= 2)
        for (uint64_t d = 0; d <= most_selectors(call) && gates_of(call, N, d) * N * N <= most; d++)
            for (int turn = 0; turn < 4; turn++) {
                struct gadget gadget = turn % 2 ? (struct gadget){16, 2} : (struct gadget){6, 4};
                struct numbers n = {.N = N, .M = UINT64_C(2) << below(16), .g = gadget.g, .L = gadget.L, .d = d};
                n.s = 1 + below(most_classes(call, N));
                n.W = choose_weight(N);
                test_job(call, n);
            }
}

void test_public_as_hidden(void)
{
    seed_random(20240304);
    for (size_t c = 0; all_lookups[c]; c++)
        if (is_hidden(all_lookups[c]))
            test_call(all_lookups[c]);
    at("public tables lent as hidden ones");
    check(accepted > 100 && refused > 100, "%u jobs accepted, %u refused: too few of a kind", accepted, refused);
}
