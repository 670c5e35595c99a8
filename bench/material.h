/* What a broker and a lessor bring to a lookup, made by the library, the same in every run. */
#ifndef MATERIAL_H
#define MATERIAL_H

#include "sizes.h"

/* The numbers of the entry that the first D selectors name, and of the cell that all of them name. */
enum { NAMED = 725, NAMED_CELL = NAMED + (2 << D) };

/*
 * The masks and errors are those of the last block. Errors are from -1 to 1, so the amplitudes are 1. The cells' classes are the
 * first of all.
 */
extern uint32_t key[N], masks[2 * L * N], errors[2 * L * N], blocks[CELLS_D][4 * L * N], amplitudes[CELLS_D], classes[S << D];

void make_material(void);

/* Ends the program if a call is refused. */
void must(uint32_t answer);

/* Encrypts the classes of entry t. */
void encrypt_entry(size_t t, uint32_t *sample);

/* Whether a sample decrypts to the classes of entry t. */
int holds_entry(const uint32_t *sample, size_t t);

/* Whether coefficient 0 of a sample decrypts to the class of cell h. */
int holds_cell(const uint32_t *sample, size_t h);

#endif
