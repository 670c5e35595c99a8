/*
 * The van lessor's 4,096 cells with one rate class in each: sizes, an applicant's questions, and the lessor's rule. In the vertical
 * packing a sample has 1,024 coefficients, so four samples hold the table.
 */
#ifndef CELLS_H
#define CELLS_H

enum { N = 1024, G = 8, L = 3, D = 12, S = 1, NOISE = 3 };
#include "portal.h"

enum { CELLS = 1 << D, SAMPLES = CELLS / N, CLASSES = 64, APPLICANTS = 2 };

/* The name of the class in a cell. */
static const char *const names[S] = {"rate"};

enum { VAN, TERM, MILES, YEARS, LATE, PAID, QUESTIONS };
static const struct question questions[QUESTIONS] = {
    {"Van", 0, 3, {"small", "medium", "large", "high roof", "refrigerated", "crew cab", "dropside", "tipper"}},
    {"Term", 3, 2, {"four years", "three years", "two years", "one year"}},
    {"Miles a year", 5, 2, {"under 10,000", "10,000 to 20,000", "20,000 to 30,000", "over 30,000"}},
    {"Years in business", 7, 2, {"ten or more", "three to nine", "one or two", "under one"}},
    {"Late payments in two years", 9, 2, {"none", "one", "two or three", "four or more"}},
    {"Deposit paid", 11, 1, {"yes", "no"}},
};

static const unsigned applicants[APPLICANTS][QUESTIONS] = {
    {[VAN] = 2, [TERM] = 1, [MILES] = 1, [YEARS] = 1, [LATE] = 0, [PAID] = 1},
    {[VAN] = 7, [TERM] = 3, [MILES] = 3, [YEARS] = 3, [LATE] = 3, [PAID] = 0},
};

/* The lessor's rule for cell h. A class is at most 14 + 3 + 12 + 12 + 18 + 4 = 63. */
static uint32_t class_of(unsigned h)
{
    static const unsigned weights[QUESTIONS] = {[VAN] = 2, [TERM] = 1, [MILES] = 4, [YEARS] = 4, [LATE] = 6, [PAID] = 4};
    uint32_t sum = 0;
    for (size_t q = 0; q < QUESTIONS; q++)
        sum += weights[q] * choice(&questions[q], h);
    return sum;
}

/* All cells in the clear. */
static void make_table(struct table *table)
{
    table->M = CLASSES;
    for (unsigned h = 0; h < CELLS; h++)
        put(table->classes, h, class_of(h));
}

/* What an applicant answered, and the number of the cell that the answers name. */
static unsigned print_applicant(size_t i)
{
    unsigned h = entry_of(questions, QUESTIONS, applicants[i]);
    print_answers(questions, QUESTIONS, h);
    return h;
}

#endif
