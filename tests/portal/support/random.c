/* Random numbers, and words chosen at random or as an extreme; the same on every machine for the same seed. */
#include "portal.h"

uint64_t next_random(uint64_t *state)
{
    uint64_t z = *state += UINT64_C(0x9E3779B97F4A7C15);
    z = (z ^ z >> 30) * UINT64_C(0xBF58476D1CE4E5B9);
    z = (z ^ z >> 27) * UINT64_C(0x94D049BB133111EB);
    return z ^ z >> 31;
}

static uint64_t program_state;

void seed_random(uint64_t seed)
{
    program_state = seed;
}

uint64_t below(uint64_t end)
{
    return next_random(&program_state) % end;
}

/* How words are chosen: at random, or as an extreme. */
enum choice { RANDOM, NONE, MOST, LEAST, TURNS, ONE, CHOICES };

/* A signed number from -most to most, for place i of a row in which one place can be marked. */
static int64_t chosen(enum choice choice, int64_t most, size_t i, size_t marked)
{
    switch (choice) {
    case NONE:
        return 0;
    case MOST:
        return most;
    case LEAST:
        return -most;
    case TURNS:
        return i % 2 ? -most : most;
    case ONE:
        return i == marked ? most : 0;
    default:
        return (int64_t)below(2 * (uint64_t)most + 1) - most;
    }
}

static enum choice any_choice(void)
{
    return below(2) ? RANDOM : (enum choice)below(CHOICES);
}

void choose_words(uint32_t *words, size_t count, uint64_t most)
{
    enum choice choice = any_choice();
    size_t marked = (size_t)below(count);
    for (size_t i = 0; i < count; i++)
        words[i] = (uint32_t)chosen(choice, (int64_t)most, i, marked);
}

uint64_t choose_weight(uint64_t N)
{
    const uint64_t weights[] = {N, N, 0, 1, N / 2, N - 1, below(N + 1), below(below(N + 1) + 1)};
    return weights[below(sizeof weights / sizeof weights[0])];
}

static size_t any_ones(size_t most)
{
    const size_t ones[] = {most, most, most < 1 ? most : 1, 0, (size_t)below(most + 1)};
    return ones[below(sizeof ones / sizeof ones[0])];
}

static void shuffle(uint32_t *words, size_t count)
{
    for (size_t i = count; i > 1; i--) {
        size_t other = (size_t)below(i);
        uint32_t word = words[i - 1];
        words[i - 1] = words[other];
        words[other] = word;
    }
}

/* The ones stand in a row, which goes on from the last place to the first; or anywhere. */
void choose_key(uint32_t *key, size_t N, uint64_t weight)
{
    size_t ones = any_ones((size_t)weight), start = (size_t)below(N);
    for (size_t i = 0; i < N; i++)
        key[(start + i) % N] = i < ones;
    if (below(4))
        shuffle(key, N);
}
