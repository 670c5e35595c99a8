/*
 * What the test programs of the C interface share.
 *
 *   table.c     the calls behind one shape of arguments
 *   bytes.c     slices to be lent, as bytes and as words
 *   guarded.c   the one place where a call is made: every slice between guards, everything checked
 *   report.c    checks, and what is printed of those that fail
 *   random.c    random numbers, and words chosen at random or as an extreme
 *   lawful.c    lawful arguments for a call
 *   plain.c     the formulas of samples and classes
 *   block.c     the formulas of digits, blocks and the CMux
 *   tree.c      the formulas of lookups
 *   accept.c    what a call with lawful arguments must report and write, by these formulas
 */
#ifndef PORTAL_H
#define PORTAL_H

#include <stddef.h>
#include <stdint.h>

/* The most that there are; the number of every refusal is below the last. */
enum { MAX_CALLS = 16, MAX_NUMBERS = 8, MAX_SLICES = 8, MAX_REFUSALS = 32 };

/* ---- table.c ---- */

/* What a slice holds; its exact length follows from it and the numbers. */
enum kind {
    KEY, MASK, ERRORS, CLASSES, SAMPLE, SCALAR, CLASS_WORD,
    ROW_MASKS, ROW_ERRORS, BLOCK, SAMPLE1, RESULT,
    BLOCKS, AMPLITUDES, SAMPLES, SAMPLE_AMPLITUDES, WORK
};

/* How the table of a call, if it takes one, fills samples: a sample for each entry, or for consecutive entries. */
enum packing { NO_TABLE, HORIZONTAL, VERTICAL };

/* A slice as a call gets it. */
struct lent {
    uint8_t *at;
    size_t length;
};

/* A call and its sisters. The last `written` of its slices are written, the others only read. */
struct call {
    const char *name;
    const char *numbers; /* a letter each, in order; struct numbers has them */
    enum kind kind[MAX_SLICES];
    size_t slices, written;
    uint32_t refusals; /* those that it can refuse with: bit r for the number r */
    uint32_t (*answer)(const uint64_t *number, const struct lent *slice);
    uint64_t (*bound)(const uint64_t *number, const struct lent *slice);
    uint64_t (*gates)(const uint64_t *number, const struct lent *slice);
    enum packing packing;
};

extern const struct call encrypt_classes, decrypt_classes, decrypt_scalar, extract;
extern const struct call encrypt_selector, external_product, cmux;
extern const struct call lookup, lookup_vertical, lookup_hidden, lookup_hidden_vertical;

/* Every call, then NULL; and every one with a table. */
extern const struct call *const all_calls[MAX_CALLS];
extern const struct call *const all_lookups[];

/*
 * The numbers of refusals in the order in which a call checks them, then 0. It isn't that of the numbers: a later rule
 * can stand beside an earlier one, as 12, which is judged by N, stands after 1 and 2.
 */
extern const uint32_t refusal_order[];

/* Whether a call can refuse with this number. */
int can_refuse(const struct call *call, uint32_t number);

/* Whether one refusal is checked before another. */
int comes_before(uint32_t refusal, uint32_t other);

/* Whether a call is lent its table as encrypted samples. */
int is_hidden(const struct call *call);

/* The most selectors that a call takes; and the most classes of an entry, or of a sample, with this degree. */
uint64_t most_selectors(const struct call *call);
uint64_t most_classes(const struct call *call, uint64_t N);

/* ---- bytes.c ---- */

/* A slice to be lent: its bytes, and how many more are lent after them whose content doesn't matter. */
struct bytes {
    uint8_t *at;
    size_t length;
    size_t beyond;
};

/* Keeps the bytes that fit; those added are 0. */
void set_length(struct bytes *b, size_t length);
void set_words(struct bytes *b, const uint32_t *words, size_t count);
void set_bytes(struct bytes *b, const uint8_t *at, size_t length);

/* How many whole words stand in it, and each of them. */
size_t words_in(const struct bytes *b);
uint32_t word_at(const struct bytes *b, size_t i);
void put_word(struct bytes *b, size_t i, uint32_t word);

/* All of its words, into an array with room for so many. */
void read_words(uint32_t *words, size_t room, const struct bytes *b);

/* So many of its bytes, from the first on, again and again to its end. */
void repeat(struct bytes *b, size_t period);

/* ---- guarded.c ---- */

/* A call with its numbers and slices. After the call the written slices hold what it left in them. */
struct arguments {
    const struct call *call;
    uint64_t number[MAX_NUMBERS];
    struct bytes slice[MAX_SLICES];
};

struct answer {
    uint32_t number;
    uint64_t bound, gates;
};

/*
 * Makes the call and both sisters. Checks the three results, the guards round every slice, that the
 * sisters changed no byte, that the call changed no byte of what it only reads, and, where a refusal
 * is wanted, no byte at all.
 */
void make_call(struct arguments *a, struct answer want);

/* A refusal with bound 0. */
void refuse(struct arguments *a, uint32_t number);

void free_arguments(struct arguments *a);

/* ---- report.c ---- */

void start(const char *program);

/* Says what is being tested; printed with every check that fails. */
void at(const char *format, ...) __attribute__((format(printf, 1, 2)));

/* Counts a check. If it doesn't hold, prints what is being tested and the message. */
void check(int holds, const char *format, ...) __attribute__((format(printf, 2, 3)));

/* The same, with the call's arguments printed too. */
void check_call(const struct arguments *a, int holds, const char *format, ...)
    __attribute__((format(printf, 3, 4)));

/* How many checks failed up to here. */
uint64_t failures(void);

/* Prints the count of checks; what main returns. */
int finish(void);

/* Ends the program if something outside the library is wrong, such as a full memory. */
void need(int holds, const char *what);

/* ---- random.c ---- */

/* splitmix64: seeded by the caller, the same on every machine. */
uint64_t next_random(uint64_t *state);

/* The program's own numbers: their seed, and the next one below `end`. */
void seed_random(uint64_t seed);
uint64_t below(uint64_t end);

/* Words with centred readings from -most to most: at random, or all of them an extreme. */
void choose_words(uint32_t *words, size_t count, uint64_t most);

/* A weight for keys of N words: an extreme, a small one, or any. */
uint64_t choose_weight(uint64_t N);

/* A key of at most this weight: at random, or as heavy as it may be, or with no 1 or a single one. */
void choose_key(uint32_t *key, size_t N, uint64_t weight);

/* ---- lawful.c ---- */

/* The number with this letter; NULL if the call takes none. */
uint64_t *number_of(struct arguments *a, char letter);

/* The slice of this kind; NULL if the call takes none. */
struct bytes *slice_of(struct arguments *a, enum kind kind);

/*
 * The values of numbers, whichever of them a call takes. A member's name is its letter, but for a CMux's
 * amplitudes: A0 is '0' and A1 is '1'. Of the other amplitudes A is the block's and B the one sample's. W is the weight
 * that is declared for the key.
 */
struct numbers {
    uint64_t N, M, s, p, g, L, W, m, A, B, A0, A1, d;
};

/* The value with this letter. */
uint64_t *value_of(struct numbers *n, char letter);

/* The numbers that a call is made with; those that it doesn't take are 0. */
struct numbers numbers_of(const struct arguments *a);

/* Lawful numbers of a call with this degree. Those for degree 1 are lawful with every degree. */
struct numbers usual(const struct call *call, uint64_t N);

/*
 * Arguments that a call accepts, if it accepts the numbers; a lookup can still refuse them with 9. Empty arguments
 * have call NULL.
 */
void lawful(struct arguments *a, const struct call *call, struct numbers n, uint64_t seed);

/*
 * The exact length of slice k for the numbers, in bytes. A number of 4,096 or more counts by its lowest
 * twelve bits: these lengths fit if it is cut to any width from twelve bits up. d counts by its lowest six,
 * as in a shift, and 2^d is 0 from d = 18 on. So is the length of samples that are more than any lawful table has.
 */
size_t exact_length(struct arguments *a, size_t k);

/* Gives every slice its exact length. */
void fit(struct arguments *a);

/* A lawful word: a sample's error is small enough for every M, a class is below M, an amplitude is small. */
uint32_t lawful_word(enum kind kind, uint64_t M, uint64_t *state);

/* ---- plain.c ---- */

uint32_t magnitude(uint32_t word);
uint64_t greatest_magnitude(const uint32_t *words, size_t count);
uint32_t encode(uint32_t class_number, uint64_t M);
uint32_t decode(uint32_t phase, uint64_t M);

/* Coefficient i of a*k modulo X^N + 1. */
uint32_t product_at(const uint32_t *a, const uint32_t *k, size_t N, size_t i);

/* Coefficient i of a packed sample's phase. */
uint32_t phase_at(const uint32_t *sample, const uint32_t *key, size_t N, size_t i);

/* Word j of the scalar sample that position p of a packed sample extracts to. */
uint32_t extracted_at(const uint32_t *sample, size_t N, size_t p, size_t j);

/* ---- block.c ---- */

/* A gadget: base 2^g, L digits. */
struct gadget {
    uint64_t g, L;
};

int lawful_gadget(struct gadget gadget);

struct gadget gadget_of(struct numbers n);

/* h_j. */
uint32_t step_of(struct gadget gadget, uint64_t j);

/* The charge of a block with this amplitude. */
uint64_t charge_of(struct numbers n, uint64_t amplitude);

/* The block that encrypts the bit m. */
void encrypted_block(uint32_t *block, struct gadget gadget, size_t N, uint32_t m, const uint32_t *key,
                     const uint32_t *masks, const uint32_t *errors);

/* To the sample in out, the external product of the block with a sample. */
void add_external(uint32_t *out, struct gadget gadget, size_t N, const uint32_t *block, const uint32_t *sample);

/* ---- tree.c ---- */

/* The most selectors in any packing. */
enum { MAX_D = 16 };

/* 2^31: the greatest magnitude. */
extern const uint64_t half_turn;

/* 2^31/M: a lookup's bound must be below it. */
uint64_t limit_of(struct numbers n);

/* What a selector of amplitude 0 is charged; and what every unit of an amplitude adds to that. */
uint64_t rounding_of(struct numbers n);
uint64_t unit_of(struct numbers n);

/* The greatest sum of d amplitudes with which a lookup is accepted; 0 if there is none. */
uint64_t most_amplitudes(struct numbers n);

/* How many selectors of a lookup rotate a sample, from selector 0 up: none but in the vertical packing. */
uint64_t rotating_of(const struct call *call, uint64_t N, uint64_t d);

/* How many samples a lookup's table has, and how many CMuxes it takes. */
uint64_t samples_of(const struct call *call, uint64_t N, uint64_t d);
uint64_t gates_of(const struct call *call, uint64_t N, uint64_t d);

/*
 * A lookup's table. Entry h has the s classes from h*s on. Of a hidden one sample t is lent, with amplitude t; a public
 * one has no samples: NULL.
 */
struct table {
    const uint32_t *classes, *samples, *amplitudes;
};

/* A lookup's job: its numbers, and those of them that the formulas of words go by. Selector i has amplitude i and block i. */
struct job {
    struct numbers numbers;
    struct gadget gadget;
    size_t N, s, d, rotating, count; /* of samples */
    uint64_t M;
    const uint32_t *blocks, *amplitudes;
    struct table table;
};

struct job job_of(const struct call *call, struct numbers n, const uint32_t *blocks, const uint32_t *amplitudes,
                  struct table table);

/* The sum of the d charges; and the bound, which has the greatest amplitude of the table's samples on top. */
uint64_t charges_of(const struct job *job);
uint64_t job_bound(const struct job *job);

/* The samples of the table, side by side, with mask 0 and the exact message as body. */
void trivial_samples(uint32_t *samples, const struct job *job);

/* What the lookup of entry h makes where there is no noise, N words: the message of its sample, rotated. */
void exact_message(uint32_t *message, const struct job *job, size_t h);

/* The sample that the CMuxes make, 2*N words. */
void looked_up(uint32_t *sample, const struct job *job);

/* ---- accept.c ---- */

/* The words of all slices that the call wrote, one slice after another. */
void check_written(const struct arguments *a, const uint32_t *want, size_t count);

/*
 * Makes a call in which nothing but the noise can be at fault: it must be accepted, or refused with 9 where its bound
 * is 2^31/M or more. Its number, bound and gates are checked, and every word that it writes. Returns the number.
 */
uint32_t accept_or_9(struct arguments *a);

/* Makes a call that must be accepted, with the same checks. */
void accept(struct arguments *a);

#endif
