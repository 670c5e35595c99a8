/*
 * What the broker's programs share: words in bytes, the key, and a stand-in for a source of randomness.
 */
#ifndef BROKER_H
#define BROKER_H

#include <stddef.h>
#include <stdint.h>

/* Bytes in a word; the largest degree. */
enum { WORD = 4, MOST_N = 1024 };

/* Word i of a slice is four bytes, lowest first. */
static inline void put(uint8_t *slice, size_t i, uint32_t word)
{
    for (size_t b = 0; b < WORD; b++)
        slice[WORD * i + b] = (uint8_t)(word >> (8 * b));
}

static inline uint32_t get(const uint8_t *slice, size_t i)
{
    uint32_t word = 0;
    for (size_t b = 0; b < WORD; b++)
        word |= (uint32_t)slice[WORD * i + b] << (8 * b);
    return word;
}

/*
 * Stands in for a source of randomness, so that the examples are the same in every run. It hides
 * nothing: keys, masks and errors that are to be secret come from a generator made for that.
 */
static inline uint32_t draw(uint64_t *state)
{
    *state ^= *state << 13;
    *state ^= *state >> 7;
    *state ^= *state << 17;
    return (uint32_t)(*state >> 16);
}

/* A key, N words of 0 and 1. */
static inline void draw_key(uint64_t *state, uint8_t *key, size_t N)
{
    for (size_t i = 0; i < N; i++)
        put(key, i, draw(state) & 1);
}

/* The broker's key. It is drawn once, and the evaluator never gets it. */
static inline void make_key(uint8_t *key, size_t N)
{
    uint64_t state = 88172645463325252u;
    draw_key(&state, key, N);
}

#endif
