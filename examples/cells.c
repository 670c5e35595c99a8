/*
 * A van lessor's table of 4,096 cells in the vertical packing: selectors 10 and 11 pick one of its four samples, and selectors 0 to 9
 * rotate it until the cell's class is in coefficient 0. Two applicants are served, from their answers to the class.
 *
 *   make -C examples run-cells
 */
#include "cells.h"

static uint8_t work[WORD * 2 * N * (D + 1)];

/*
 * The evaluator. Coefficient 0 of the sample has the class. The others have further cells, which nobody asked for: to send back
 * the one class and no more, send the scalar sample alone.
 */
static void evaluate(const struct request *request, const struct table *table, struct reply *reply)
{
    reply->answer = LOOKUP(cikenuma_lookup_vertical);
    reply->bound = LOOKUP(cikenuma_lookup_vertical_bound);
    reply->gates = LOOKUP(cikenuma_lookup_vertical_gates);
    if (reply->answer == 0)
        must("extraction", cikenuma_extract(N, RATE, LEND(reply->sample), LEND(reply->rate)));
}

/* One lookup, from the request to the class. */
static void serve(const struct broker *broker, const struct request *request, const struct table *table)
{
    static struct reply reply;
    evaluate(request, table, &reply);
    receive(broker, table->M, &reply, names);
}

/* The horizontal packing takes a sample for each cell, and ten selectors at most. */
static void compare(const struct request *request, const struct table *table)
{
    static struct reply refusal, *reply = &refusal;
    uint32_t answer = LOOKUP(cikenuma_lookup);
    printf("\nThe same arguments in the horizontal packing: answer %" PRIu32 ", %s\n", answer, reason(answer));
}

int main(void)
{
    static struct broker broker = {.source = 2463534242u};
    static struct request request;
    static struct table table;
    make_key(broker.key, N);
    make_table(&table);
    printf("%d cells in %d samples of %d\n", CELLS, SAMPLES, N);

    for (size_t i = 0; i < APPLICANTS; i++) {
        printf("\n");
        unsigned h = print_applicant(i);
        printf("Its class %" PRIu32 " is in coefficient %u of sample %u.\n", get(table.classes, h), h % N, h / N);
        encrypt_entry(&broker, h, &request);
        serve(&broker, &request, &table);
    }
    compare(&request, &table);
    return 0;
}
