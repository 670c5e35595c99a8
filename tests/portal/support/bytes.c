/* Slices to be lent, as bytes and as words of four bytes, lowest first. */
#include "portal.h"

#include <stdlib.h>
#include <string.h>

void set_length(struct bytes *b, size_t length)
{
    /* One byte at least: a slice of length 0 has a pointer too. */
    uint8_t *at = realloc(b->at, length ? length : 1);
    need(at != NULL, "memory for a slice");
    if (length > b->length)
        memset(at + b->length, 0, length - b->length);
    b->at = at;
    b->length = length;
}

void set_bytes(struct bytes *b, const uint8_t *at, size_t length)
{
    set_length(b, length);
    if (length)
        memcpy(b->at, at, length);
}

size_t words_in(const struct bytes *b)
{
    return b->length / 4;
}

/* The word at this address, which needs no alignment; and one put there. */
static uint32_t load(const uint8_t *w)
{
    return (uint32_t)w[0] | (uint32_t)w[1] << 8 | (uint32_t)w[2] << 16 | (uint32_t)w[3] << 24;
}

static void store(uint8_t *w, uint32_t word)
{
    for (int k = 0; k < 4; k++)
        w[k] = (uint8_t)(word >> 8 * k);
}

uint32_t word_at(const struct bytes *b, size_t i)
{
    need(i < words_in(b), "a word within its slice");
    return load(b->at + 4 * i);
}

void put_word(struct bytes *b, size_t i, uint32_t word)
{
    need(i < words_in(b), "a word within its slice");
    store(b->at + 4 * i, word);
}

void set_words(struct bytes *b, const uint32_t *words, size_t count)
{
    set_length(b, 4 * count);
    for (size_t i = 0; i < count; i++)
        store(b->at + 4 * i, words[i]);
}

void read_words(uint32_t *words, size_t room, const struct bytes *b)
{
    need(b != NULL && words_in(b) <= room, "room for the words of a slice");
    for (size_t i = 0; i < words_in(b); i++)
        words[i] = load(b->at + 4 * i);
}

void repeat(struct bytes *b, size_t period)
{
    for (size_t done = period; done < b->length; done *= 2)
        memcpy(b->at + done, b->at, done < b->length - done ? done : b->length - done);
}
