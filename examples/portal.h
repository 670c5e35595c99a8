/*
 * What a portal is made of, whatever its table: an applicant's questions, what the broker, the lessor and the evaluator hand to
 * each other, the broker's two steps, and what is printed. A portal defines its sizes before it includes this:
 *
 *   N       degree
 *   G, L    the gadget's base 2^G and its number of digits
 *   D       selectors
 *   S       classes in an entry
 *   NOISE   the greatest error
 */
#ifndef PORTAL_H
#define PORTAL_H

#include <inttypes.h>
#include <stdio.h>
#include <stdlib.h>
#include "broker.h"
#include "cikenuma.h"

/* Words in the masks of a block's rows, and in their errors; bytes in a block. */
enum { ROWS = 2 * L * N, BLOCK = WORD * 2 * ROWS };

/* The class of an entry that the evaluator also sends alone. */
enum { RATE };

/* What the broker keeps from the evaluator: the key, the state of the source of randomness, and what is drawn for one block. */
struct broker {
    uint64_t source;
    uint8_t key[WORD * N], masks[WORD * ROWS], errors[WORD * ROWS];
};

/* What the broker sends: how many ones its key has at most, the selectors' blocks, and the amplitude of each. */
struct request {
    uint64_t W;
    uint8_t blocks[D * BLOCK], amplitudes[WORD * D];
};

/* The lessor's table: how many classes there are, and S of them for each of 2^D entries. */
struct table {
    uint64_t M;
    uint8_t classes[WORD * (S << D)];
};

/* What the evaluator sends back. If the answer is 0: the sample, and the rate class alone as a scalar sample. */
struct reply {
    uint32_t answer;
    uint64_t bound, gates;
    uint8_t sample[WORD * 2 * N], rate[WORD * (N + 1)];
};

/* What the broker decrypts. */
struct quote {
    uint8_t classes[WORD * S], rate[WORD];
};

/* A question takes some binary digits of an entry's number, from digit `first` on. */
struct question {
    const char *text;
    unsigned first, digits;
    const char *choices[8];
};

/* The choice in a question that leads to entry h. */
static unsigned choice(const struct question *question, unsigned h)
{
    return h >> question->first & ((1u << question->digits) - 1);
}

/* The entry that the choices lead to, one in each question. */
static unsigned entry_of(const struct question *questions, size_t count, const unsigned *choices)
{
    unsigned h = 0;
    for (size_t q = 0; q < count; q++)
        h |= choices[q] << questions[q].first;
    return h;
}

static const char *reason(uint32_t answer)
{
    static const char *const reasons[] = {
        [0] = "accepted",
        [1] = "N is not a power of two from 1 to 1,024",
        [2] = "g is not 1 to 16, L is 0, or g*L is above 32",
        [12] = "the declared weight of the key is above N",
        [3] = "M is not a power of two from 2 to 65,536",
        [4] = "an entry has too few or too many classes, there are too many selectors, or the position is not below N",
        [5] = "a slice doesn't have its exact length",
        [6] = "an amplitude is above 2^31",
        [7] = "a class is not below M, or a selector bit is above 1",
        [8] = "a key word is above 1",
        [9] = "the bound is 2^31/M or more, so noise could change a class",
    };
    if (answer < sizeof reasons / sizeof *reasons && reasons[answer] != NULL)
        return reasons[answer];
    return "a number that this program doesn't know";
}

/* For steps that are refused only where the program is wrong. */
static void must(const char *step, uint32_t answer)
{
    if (answer == 0)
        return;
    fprintf(stderr, "%s is refused with %" PRIu32 ": %s\n", step, answer, reason(answer));
    exit(1);
}

/*
 * So many words of masks and of errors, none of a magnitude above `noise`. draw() makes the examples the same in every run; a portal
 * takes words from getrandom() of <sys/random.h>, or from what its system has in its place, here and for the key.
 */
static void draw_words(uint64_t *source, uint32_t noise, uint8_t *masks, uint8_t *errors, size_t words)
{
    for (size_t j = 0; j < words; j++) {
        put(masks, j, draw(source));
        put(errors, j, draw(source) % (2 * noise + 1) - noise);
    }
}

/* Masks and errors for the rows of a block. */
static void draw_rows(struct broker *broker)
{
    draw_words(&broker->source, NOISE, broker->masks, broker->errors, ROWS);
}

/* README.md has the lines from here */
/* An array as a call takes it: where it begins, and its length in bytes. A call and its sisters take the same arguments. */
#define LEND(array) (array), sizeof(array)
#define SELECTOR(call) \
    call(N, G, L, bit, LEND(broker->key), LEND(broker->masks), LEND(broker->errors), block, BLOCK)
#define LOOKUP(call) \
    call(N, G, L, request->W, table->M, S, D, LEND(request->blocks), LEND(request->amplitudes), \
        LEND(table->classes), LEND(reply->sample), LEND(work))

/* The broker encrypts a bit as selector i. The amplitude to declare is the bound that the encryption reports. */
static void encrypt_bit(struct broker *broker, size_t i, uint64_t bit, struct request *request)
{
    uint8_t *block = request->blocks + BLOCK * i;
    draw_rows(broker);
    must("encryption", SELECTOR(cikenuma_encrypt_selector));
    put(request->amplitudes, i, (uint32_t)SELECTOR(cikenuma_encrypt_selector_bound));
}

/* The broker decrypts an accepted reply. Its bound is below 2^31/M, so noise can't change a class. */
static void decrypt(const struct broker *broker, uint64_t M, const struct reply *reply, struct quote *quote)
{
    must("decryption", cikenuma_decrypt_classes(N, M, S, LEND(broker->key), LEND(reply->sample), LEND(quote->classes)));
    must("decryption", cikenuma_decrypt_scalar(N, M, LEND(broker->key), LEND(reply->rate), LEND(quote->rate)));
}
/* to here. */

/* The bits of an entry's number, one in each selector. No key has more ones than words, so W = N is true of every key. */
static void encrypt_entry(struct broker *broker, unsigned h, struct request *request)
{
    request->W = N;
    for (size_t i = 0; i < D; i++)
        encrypt_bit(broker, i, h >> i & 1, request);
}

static void print_answers(const struct question *questions, size_t count, unsigned h)
{
    for (size_t q = 0; q < count; q++)
        printf("%-28s%s\n", questions[q].text, questions[q].choices[choice(&questions[q], h)]);
    printf("These name entry %u, whose bits from the lowest up are", h);
    for (size_t i = 0; i < D; i++)
        printf(" %u", h >> i & 1);
    printf(".\n");
}

static uint64_t limit(uint64_t M)
{
    return (1u << 31) / M;
}

static void print_reply(const struct reply *reply, uint64_t M)
{
    printf("\nLookup with %" PRIu64 " classes: answer %" PRIu32 ", %s\n", M, reply->answer, reason(reply->answer));
    printf("  bound %" PRIu64 ", limit 2^31/%" PRIu64 " = %" PRIu64 ", gates %" PRIu64 "\n",
        reply->bound, M, limit(M), reply->gates);
}

/* The names are those of the classes of an entry, in the order in which they stand there. */
static void print_quote(const struct quote *quote, const char *const *names)
{
    for (size_t j = 0; j < S; j++)
        printf("  %-10sclass %" PRIu32 "\n", names[j], get(quote->classes, j));
    printf("  %-10sclass %" PRIu32 ", from the scalar sample\n", names[RATE], get(quote->rate, 0));
}

/* The broker prints a reply and, if the lookup was accepted, the classes that it decrypts. */
static void receive(const struct broker *broker, uint64_t M, const struct reply *reply, const char *const *names)
{
    static struct quote quote;
    print_reply(reply, M);
    if (reply->answer == 0) {
        decrypt(broker, M, reply, &quote);
        print_quote(&quote, names);
    }
}

#endif
