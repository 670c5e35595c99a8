/* What the interface says of a call's arguments: number, bound and gates. */
#include "harness.h"

/* The number with this letter, or `without` if the call takes none. */
static uint64_t value(struct arguments *a, char letter, uint64_t without)
{
    const uint64_t *number = number_of(a, letter);
    return number ? *number : without;
}

static int is_power_of_two(uint64_t number, uint64_t least, uint64_t most)
{
    return number >= least && number <= most && (number & (number - 1)) == 0;
}

static int wrong_place(struct arguments *a)
{
    uint64_t N = value(a, 'N', 1), s = value(a, 's', 1);
    return s == 0 || s > most_classes(a->call, N) || value(a, 'd', 0) > most_selectors(a->call) ||
           value(a, 'p', 0) >= N;
}

static int wrong_length(struct arguments *a)
{
    for (size_t k = 0; k < a->call->slices; k++)
        if (a->slice[k].length != exact_length(a, k))
            return 1;
    return 0;
}

/* Whether a word of the slice of this kind, if there is one, is above `most`. */
static int word_above(struct arguments *a, enum kind kind, uint64_t most)
{
    const struct bytes *slice = slice_of(a, kind);
    for (size_t i = 0; slice && i < words_in(slice); i++)
        if (word_at(slice, i) > most)
            return 1;
    return 0;
}

static int wrong_amplitude(struct arguments *a)
{
    for (const char *letter = "AB01"; *letter; letter++)
        if (value(a, *letter, 0) > half_turn)
            return 1;
    return word_above(a, AMPLITUDES, half_turn) || word_above(a, SAMPLE_AMPLITUDES, half_turn);
}

/* The greatest magnitude of a word in the slice of this kind; 0 if there is no such slice. */
static uint64_t greatest_of(struct arguments *a, enum kind kind)
{
    const struct bytes *slice = slice_of(a, kind);
    uint64_t greatest = 0;
    for (size_t i = 0; slice && i < words_in(slice); i++)
        if (magnitude(word_at(slice, i)) > greatest)
            greatest = magnitude(word_at(slice, i));
    return greatest;
}

static uint64_t sum_of_charges(struct arguments *a)
{
    const struct bytes *amplitudes = slice_of(a, AMPLITUDES);
    uint64_t sum = 0;
    for (size_t i = 0; i < words_in(amplitudes); i++)
        sum += charge_of(numbers_of(a), word_at(amplitudes, i));
    return sum;
}

/* The bound of arguments that break none of the rules before 9. */
static uint64_t bound_of(struct arguments *a)
{
    uint64_t A0 = value(a, '0', 0), A1 = value(a, '1', 0);
    if (a->call == &encrypt_classes || a->call == &encrypt_selector)
        return greatest_of(a, a->call == &encrypt_classes ? ERRORS : ROW_ERRORS);
    if (a->call == &external_product || a->call == &cmux)
        return charge_of(numbers_of(a), value(a, 'A', 0)) + value(a, 'B', A0 > A1 ? A0 : A1);
    return a->call->packing != NO_TABLE ? greatest_of(a, SAMPLE_AMPLITUDES) + sum_of_charges(a) : 0;
}

/* Whether the arguments break the rule with this number; they break none before it. */
static int breaks(struct arguments *a, uint32_t rule)
{
    uint64_t M = value(a, 'M', 2);
    switch (rule) {
    case 1:
        return !is_power_of_two(value(a, 'N', 1), 1, 1024);
    case 2:
        return !lawful_gadget(gadget_of(numbers_of(a)));
    case 12:
        return value(a, 'W', 0) > value(a, 'N', 0);
    case 3:
        return !is_power_of_two(M, 2, 65536);
    case 4:
        return wrong_place(a);
    case 5:
        return wrong_length(a);
    case 6:
        return wrong_amplitude(a);
    case 7:
        return value(a, 'm', 0) > 1 || word_above(a, CLASSES, M - 1);
    case 8:
        return word_above(a, KEY, 1);
    case 9:
        return bound_of(a) >= half_turn / M;
    }
    need(0, "every rule");
    return 0;
}

struct answer ruled(struct arguments *a)
{
    for (const uint32_t *rule = refusal_order; *rule; rule++)
        if (can_refuse(a->call, *rule) && breaks(a, *rule))
            return (struct answer){*rule, *rule == 9 ? bound_of(a) : 0, 0};
    uint64_t gates = a->call == &cmux ? 1 : gates_of(a->call, value(a, 'N', 1), value(a, 'd', 0));
    return (struct answer){0, bound_of(a), gates};
}
