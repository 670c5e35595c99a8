/*
 * Calls with arbitrary numbers and lengths. A byte string, the input, stands for one set of arguments.
 *
 *   decode.c      the arguments that an input stands for
 *   rules.c       what the interface says of them: number, bound and gates
 *   memory.c      where slices are lent: between pages that can't be touched
 *   one_input.c   makes the calls of an input and checks them
 *   tally.c       counts what was done
 *   main.c        random inputs, or one given in hexadecimal digits
 *   fuzzer.c      inputs from libFuzzer
 *   wrong.c       faults for the self-test
 */
#ifndef HARNESS_H
#define HARNESS_H

#include "portal.h"

/* Bytes of an input that count: those of the call that takes the most. Those that are missing are 0. */
enum { INPUT = 163 };

/* ---- decode.c ---- */

/* No slice is longer than the longest lawful ones, blocks of all selectors or samples of a table, and a few bytes. */
enum { MOST_BYTES = MAX_D * 4 * 32 * 1024 * 4 + 8 };

/* Where a slice is lent: at the end of its room or at the beginning, so many bytes from there. */
struct place {
    int at_end;
    size_t gap;
};

/* The arguments of an input, and a place for each slice. Arguments are used again; at first they are empty. */
void decode_input(struct arguments *a, struct place *place, const uint8_t *data, size_t size);

/* ---- rules.c ---- */

/* What the call must report, by the interface. */
struct answer ruled(struct arguments *a);

/* ---- memory.c ---- */

/* Lends every slice of the arguments, with guards round it. */
void lend_all(const struct arguments *a, const struct place *place);

/* The lent slices: the first `written_from` ones can only be read, the others written as well. */
void lent_slices(const struct arguments *a, size_t written_from, struct lent *slice);

/* What stands in slice k. */
uint8_t *content(size_t k);

/* Whether the guards of slice k are as they were. */
int guards_hold(const struct arguments *a, size_t k);

/* Says which byte of which slice has this address. */
void name_address(const struct arguments *a, const uint8_t *address, char *text, size_t room);

/* ---- one_input.c ---- */

/* Makes the calls of an input, all of them twice. Returns how many checks failed. */
int one_input(const uint8_t *data, size_t size);

/* ---- tally.c ---- */

/* Argument sets, calls of exports, sets by call and returned number, and the most bytes of an input that counted. */
struct tally {
    uint64_t sets, exports, returned[MAX_CALLS][MAX_REFUSALS];
    size_t input;
};

extern struct tally tally;

void count_set(const struct call *call, uint32_t number);
void print_tally(void);

/* Checks that every call was accepted, and refused with each of its numbers, and that every byte of INPUT counts. */
void check_variety(void);

/* Prints how to make the calls of an input again. */
void print_input(const uint8_t *data, size_t size);

#endif
