/*
 * Reads what ratejob prints from standard input, as a broker does, and decrypts the classes.
 *
 *   ratejob < NAME.job | read_output N M s
 */
#include <inttypes.h>
#include <stdio.h>
#include <stdlib.h>
#include <string.h>
#include "broker.h"
#include "cikenuma.h"

static uint8_t key[WORD * MOST_N], sample[WORD * 2 * MOST_N], classes[WORD * MOST_N];

static void stop(const char *why)
{
    fprintf(stderr, "read_output: %s\n", why);
    exit(1);
}

/* The number on a line that has a name and a number. */
static uint64_t read_number(const char *name)
{
    char found[8];
    uint64_t number;
    if (scanf("%7s %" SCNu64, found, &number) != 2 || strcmp(found, name) != 0)
        stop("an answer, bound or gates line is missing");
    return number;
}

/* N lines of a name, a coefficient's number and its word. */
static void read_polynomial(const char *name, size_t N, uint8_t *polynomial)
{
    for (size_t i = 0; i < N; i++) {
        char found[8];
        size_t number;
        uint32_t word;
        if (scanf("%7s %zu %" SCNu32, found, &number, &word) != 3 || strcmp(found, name) != 0 || number != i)
            stop("a mask or body line is missing");
        put(polynomial, i, word);
    }
}

/* The classes of an accepted job. Its bound is below 2^31/M, so noise can't change one. */
static void print_classes(size_t N, uint64_t M, size_t s)
{
    read_polynomial("mask", N, sample);
    read_polynomial("body", N, sample + WORD * N);
    make_key(key, N);
    if (cikenuma_decrypt_classes(N, M, s, key, WORD * N, sample, WORD * 2 * N, classes, WORD * s) != 0)
        stop("decryption refuses N, M or s");
    printf("classes");
    for (size_t j = 0; j < s; j++)
        printf(" %" PRIu32, get(classes, j));
    printf("\n");
}

int main(int count, char **arguments)
{
    if (count != 4)
        stop("usage: read_output N M s");
    size_t N = strtoul(arguments[1], NULL, 10), s = strtoul(arguments[3], NULL, 10);
    uint64_t M = strtoull(arguments[2], NULL, 10);
    if (N > MOST_N || s > N)
        stop("a number is too large");

    uint64_t answer = read_number("answer"), bound = read_number("bound");
    if (answer != 0) {
        printf("refused with %" PRIu64 ", bound %" PRIu64 "\n", answer, bound);
        return 0;
    }
    uint64_t gates = read_number("gates");
    printf("accepted, bound %" PRIu64 ", gates %" PRIu64 "\n", bound, gates);
    print_classes(N, M, s);
    return 0;
}
