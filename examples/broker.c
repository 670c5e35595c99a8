/*
 * The lease of a van, as a brokers' portal works it. An applicant answers four questions, the broker encrypts the answers bit by
 * bit, an evaluator without the key looks them up in a lessor's table, and the broker decrypts three classes. Then the same request
 * is looked up once more, with the weight of the broker's key in place of N: its bound is lower, and more classes pass.
 *
 *   make -C examples run
 */
enum { N = 512, G = 8, L = 2, D = 6, S = 3, NOISE = 3 };
#include "portal.h"

/* The classes of an entry, in the order in which they stand there: after the rate come two more. */
enum { DEPOSIT = RATE + 1, INSURANCE };
static const char *const names[S] = {"rate", "deposit", "insurance"};

enum { MILES, YEARS, LATE, PAID, QUESTIONS };
static const struct question questions[QUESTIONS] = {
    {"Miles a year", 0, 2, {"under 10,000", "10,000 to 20,000", "20,000 to 30,000", "over 30,000"}},
    {"Three years in business", 2, 1, {"no", "yes"}},
    {"Late payments in two years", 3, 2, {"none", "one", "two or three", "four or more"}},
    {"Deposit paid", 5, 1, {"no", "yes"}},
};

/* The lessor's rule for entry h. The rate class is the greatest, at most 3 + 9 + 3 = 15. */
static void make_entry(struct table *table, unsigned h)
{
    unsigned miles = choice(&questions[MILES], h), late = choice(&questions[LATE], h);
    unsigned starting = 1 - choice(&questions[YEARS], h), paid = choice(&questions[PAID], h);
    put(table->classes, S * h + RATE, miles + 3 * late + 3 * starting);
    put(table->classes, S * h + DEPOSIT, paid ? 0 : 1 + 2 * late + 4 * starting);
    put(table->classes, S * h + INSURANCE, 3 * miles + late);
}

/* README.md has the lines from here */

/* The evaluator has the broker's request and the lessor's table, and no key. It can take out one class alone. */
static void evaluate(const struct request *request, const struct table *table, struct reply *reply)
{
    static uint8_t work[WORD * 2 * N * (D + 1)];
    reply->answer = LOOKUP(cikenuma_lookup);
    reply->bound = LOOKUP(cikenuma_lookup_bound);
    reply->gates = LOOKUP(cikenuma_lookup_gates);
    if (reply->answer == 0)
        must("extraction", cikenuma_extract(N, RATE, LEND(reply->sample), LEND(reply->rate)));
}
/* to here. */

/*
 * The weight of the broker's key: how many of its words are 1. The broker may declare any W from there up to N. With a smaller one the
 * bound would say nothing, and nobody would notice: who looks up has no key to compare W with.
 */
static uint64_t weight(const struct broker *broker)
{
    uint64_t ones = 0;
    for (size_t i = 0; i < N; i++)
        ones += get(broker->key, i);
    return ones;
}

/* What can be done about answer 9. The bound doesn't depend on M, and the limit does. */
static void advise(uint64_t bound, uint64_t M)
{
    while (M > 1 && bound >= limit(M))
        M /= 2;
    printf("  At most %" PRIu64 " classes pass with this bound. For more, encrypt with a larger g*L: less is rounded.\n", M);
}

/* One lookup, from the request to the quote. */
static void serve(const struct broker *broker, const struct request *request, const struct table *table)
{
    static struct reply reply;
    evaluate(request, table, &reply);
    receive(broker, table->M, &reply, names);
    if (reply.answer == 9)
        advise(reply.bound, table->M);
}

int main(void)
{
    static struct broker broker = {.source = 2463534242u};
    static struct request request;
    static struct table table;
    make_key(broker.key, N);
    for (unsigned h = 0; h < 1u << D; h++)
        make_entry(&table, h);

    static const unsigned choices[QUESTIONS] = {[MILES] = 2, [YEARS] = 1, [LATE] = 1, [PAID] = 0};
    unsigned entry = entry_of(questions, QUESTIONS, choices);
    print_answers(questions, QUESTIONS, entry);
    encrypt_entry(&broker, entry, &request);

    /* 16 classes are accepted, 32 lie too close together for the noise, and 8 are fewer than the table needs. */
    static const uint64_t class_numbers[] = {16, 32, 8};
    for (size_t i = 0; i < 3; i++) {
        table.M = class_numbers[i];
        serve(&broker, &request, &table);
    }

    /* W alone is another, and with it the bound, which leaves room for 32 classes. */
    request.W = weight(&broker);
    printf("\nThese bounds hold for every key, with W = N = %d. The broker's has %" PRIu64 " ones, and it declares that as W.\n",
        N, request.W);
    for (size_t i = 0; i < 2; i++) {
        table.M = class_numbers[i];
        serve(&broker, &request, &table);
    }
    return 0;
}
