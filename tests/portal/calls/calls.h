/* The parts of the program `calls`, a source file each. */
#ifndef CALLS_H
#define CALLS_H

#include "portal.h"

/* A weight for calls with these numbers: N, 0 or half of N, so that each has its turn as the numbers and the turn go on. */
uint64_t weight_in_turn(struct numbers n, uint64_t turn);

/* Lawful arguments with slices of words 0: what is written is 0 too, and the bound goes by the numbers alone. */
void all_zero(struct arguments *a, const struct call *call, struct numbers n);

/*
 * Lends a table of these classes. A hidden lookup gets it as samples with mask 0 and amplitude 0, so that it must answer
 * and write what the public one does.
 */
void lend_classes(struct arguments *a, const uint32_t *classes);

/*
 * A lookup's job with all its words, and what it must answer; the words are those of the sample and then of the work
 * slice.
 */
void lookup_answers(const struct call *call, struct numbers n, const uint32_t *blocks, const uint32_t *amplitudes,
                    const uint32_t *classes, struct answer want, const uint32_t *words);

/*
 * Lawful words, one amplitude for all selectors, and none for samples; the words that an accepted job writes are the
 * formula's.
 */
void lookup_reports(const struct call *call, struct numbers n, uint32_t amplitude, struct answer want);

/* The block of a bit that is the bare gadget, of base 2^16 with two digits: nothing is rounded away. */
void bare_gadget(uint32_t *block, size_t N, uint32_t bit);

void test_accepted(void);
void test_gadgets(void);
void test_weights(void);
void test_amplitudes(void);
void test_extremes(void);
void test_stack(void);
void test_refusals(void);
void test_numbers(void);
void test_lengths(void);
void test_words(void);
void test_errors(void);
void test_classes(void);
void test_limits(void);
void test_examples(void);
void test_block_examples(void);
void test_lookup_examples(void);
void test_vertical_examples(void);
void test_hidden_examples(void);
void test_hidden_limits(void);
void test_public_as_hidden(void);

#endif
