/* A thing that is measured: the library's call and the same by other means. */
#ifndef THING_H
#define THING_H

#include "measure.h"

struct thing {
    const char *name;
    /* The library's variant is the first. */
    const struct variant *variants;
    size_t count;
    int rounds;
};

/* What the variants of a thing write. Fourier transforms round, so that their words can differ: is_right is asked of them. */
struct output {
    uint32_t *words;
    size_t count;
    int (*is_right)(void);
};

/* Runs every variant once. The words of all but Fourier transforms must be those of the plain schoolbook; else the program ends. */
void compare(const struct thing *thing, const struct output *output);

/* Measures a thing and appends its rows to summary.md and beside.md in the directory. Without a directory nothing is measured. */
void measure(const struct thing *thing, const char *directory);

#endif
