/*
 * Random inputs, or one given in hexadecimal digits:
 *   harness COUNT SEED, harness --seconds SECONDS SEED, harness --replay DIGITS
 */
#define _GNU_SOURCE /* for clock_gettime */
#include "harness.h"

#include <inttypes.h>
#include <stdio.h>
#include <stdlib.h>
#include <string.h>
#include <time.h>

static double seconds_now(void)
{
    struct timespec now;
    need(clock_gettime(CLOCK_MONOTONIC, &now) == 0, "a clock");
    return (double)now.tv_sec + (double)now.tv_nsec / 1e9;
}

static void random_input(uint8_t *data, uint64_t *state)
{
    for (size_t i = 0; i < INPUT; i++)
        data[i] = (uint8_t)(next_random(state) >> 56);
}

/* Until so many inputs are done or the time has passed, or one fails: then memory can be in disorder. */
static void run_random(uint64_t count, double seconds, uint64_t seed)
{
    uint8_t data[INPUT];
    double from = seconds_now();
    int failed = 0;
    printf("robustness: seed %" PRIu64 "\n", seed);
    for (uint64_t i = 0; i < count && !failed && seconds_now() - from < seconds; i++) {
        random_input(data, &seed);
        failed = one_input(data, INPUT);
    }
    print_tally();
    printf("robustness: %.1f s\n", seconds_now() - from);
    if (failed)
        print_input(data, INPUT);
    else
        check_variety();
}

static void replay(const char *digits)
{
    uint8_t data[INPUT] = {0};
    unsigned byte;
    for (size_t i = 0; i < INPUT && sscanf(digits, "%2x", &byte) == 1; i++) {
        data[i] = (uint8_t)byte;
        digits += digits[1] ? 2 : 1;
    }
    one_input(data, INPUT);
    print_tally();
}

int main(int count, char **words)
{
    start("robustness");
    if (count == 3 && strcmp(words[1], "--replay") == 0)
        replay(words[2]);
    else if (count == 4 && strcmp(words[1], "--seconds") == 0)
        run_random(UINT64_MAX, strtod(words[2], NULL), strtoull(words[3], NULL, 10));
    else if (count == 3)
        run_random(strtoull(words[1], NULL, 10), 1e9, strtoull(words[2], NULL, 10));
    else
        need(0, "COUNT SEED, --seconds SECONDS SEED or --replay DIGITS");
    return finish();
}
