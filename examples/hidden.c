/*
 * The van lessor's 4,096 cells as a hidden table: the lessor lends the evaluator encrypted samples. The selectors that look a cell up
 * in the public table of cells.c look it up in this one.
 *
 * Whose key it is: the broker's. The table is encrypted under the key of whoever decrypts what is looked up, and so are the
 * selectors. Encryption takes that very key. So the lessor, which encrypts here, has it and could decrypt requests and replies, and
 * the broker could decrypt the table. The evaluator holds all of these and no key. A broker with another key needs a table encrypted
 * under that one. We make no claim about secrecy.
 *
 *   make -C examples run-hidden
 */
#include "cells.h"

/*
 * Bytes in a sample, and the greatest error in one of the table. It counts once in the bound; the greatest error in a selector counts
 * 2*L*N*2^(G-1) = 786,432 times.
 */
enum { SAMPLE = WORD * 2 * N, TABLE_NOISE = 1000000 };

/* What stays with the lessor: the table in the clear, the state of its own source of randomness, and what is drawn for one sample. */
struct lessor {
    struct table table;
    uint64_t source;
    uint8_t mask[WORD * N], errors[WORD * N];
};

/* What the lessor lends the evaluator: how many classes there are, the table's samples, and the amplitude of each. */
struct hidden {
    uint64_t M;
    uint8_t samples[SAMPLE * SAMPLES], amplitudes[WORD * SAMPLES];
};

#define ENCRYPT(call) \
    call(N, hidden->M, N, key, WORD * N, LEND(lessor->mask), LEND(lessor->errors), cells, WORD * N, sample, SAMPLE)
#define LOOKUP_HIDDEN(call) \
    call(N, G, L, request->W, hidden->M, S, D, LEND(request->blocks), LEND(request->amplitudes), \
        LEND(hidden->samples), LEND(hidden->amplitudes), LEND(reply->sample), LEND(work))

/*
 * The lessor encrypts sample t, N consecutive cells at once, under the key of whoever is to decrypt. The amplitude to declare is the
 * bound that the encryption reports.
 */
static void hide_sample(struct lessor *lessor, const uint8_t *key, size_t t, struct hidden *hidden)
{
    const uint8_t *cells = lessor->table.classes + WORD * N * t;
    uint8_t *sample = hidden->samples + SAMPLE * t;
    draw_words(&lessor->source, TABLE_NOISE, lessor->mask, lessor->errors, N);
    must("encryption", ENCRYPT(cikenuma_encrypt_classes));
    put(hidden->amplitudes, t, (uint32_t)ENCRYPT(cikenuma_encrypt_classes_bound));
}

/* The whole table, under a key that the lessor is lent. */
static void hide(struct lessor *lessor, const char *whose, const uint8_t *key, struct hidden *hidden)
{
    hidden->M = lessor->table.M;
    printf("\nThe table under %s key: %d samples, amplitudes", whose, SAMPLES);
    for (size_t t = 0; t < SAMPLES; t++) {
        hide_sample(lessor, key, t, hidden);
        printf(" %" PRIu32, get(hidden->amplitudes, t));
    }
    printf("\n");
}

/* The evaluator has the broker's request and the lessor's hidden table, and no key. */
static void evaluate(const struct request *request, const struct hidden *hidden, struct reply *reply)
{
    static uint8_t work[WORD * 2 * N * (D + 1)];
    reply->answer = LOOKUP_HIDDEN(cikenuma_lookup_hidden_vertical);
    reply->bound = LOOKUP_HIDDEN(cikenuma_lookup_hidden_vertical_bound);
    reply->gates = LOOKUP_HIDDEN(cikenuma_lookup_hidden_vertical_gates);
    if (reply->answer == 0)
        must("extraction", cikenuma_extract(N, RATE, LEND(reply->sample), LEND(reply->rate)));
}

/* A broker asks for cell h, and decrypts what comes back. */
static void serve(struct broker *broker, unsigned h, const struct hidden *hidden)
{
    static struct request request;
    static struct reply reply;
    encrypt_entry(broker, h, &request);
    evaluate(&request, hidden, &reply);
    receive(broker, hidden->M, &reply, names);
}

int main(void)
{
    static struct broker broker = {.source = 2463534242u}, other = {.source = 362436069u};
    static struct lessor lessor = {.source = 521288629u};
    static struct hidden hidden;
    make_key(broker.key, N);
    draw_key(&other.source, other.key, N);
    make_table(&lessor.table);

    unsigned h = print_applicant(0);
    printf("Its class is %" PRIu32 ".\n", get(lessor.table.classes, h));
    hide(&lessor, "the broker's", broker.key, &hidden);
    serve(&broker, h, &hidden);

    printf("\nAnother broker asks for the same cell, under a key of its own. No call can tell that the table is under another:\n"
           "the lookup is accepted, and the class is wrong.\n");
    serve(&other, h, &hidden);
    hide(&lessor, "the other broker's", other.key, &hidden);
    serve(&other, h, &hidden);
    return 0;
}
