/*
 * The path of a call through the library: the outcome of every conditional jump, and what it has memcpy and memset do.
 * Nothing else decides which instructions run: jumps.py refuses a library with jumps of another kind.
 *
 * A jump is seen by a trap. While a call is recorded the first byte of each conditional jump of the library is the
 * instruction int3; the handler of the signal that it raises notes the jump's outcome, and goes on where it leads.
 * Stepping through every instruction would show the same, and take twenty times as long.
 */
#ifndef TRAPS_H
#define TRAPS_H

#include <stddef.h>
#include <stdint.h>

enum { MAX_STEPS = 1 << 20 };

struct path {
    size_t count;
    uint64_t step[MAX_STEPS];
};

/* Reads the list of jumps that jumps.py made, and makes the library's code writable: 0 where that isn't allowed. */
int prepare_traps(const char *list);

/* Between the two, every step is added to the path. */
void start_path(struct path *path);
void end_path(void);

/* Where the paths part: the number of the first step that isn't the same, or the count if they are the same. */
size_t parting(const struct path *left, const struct path *right);

/* The function of the library in which a step stands. */
const char *function_of(const struct path *path, size_t step);

#endif
