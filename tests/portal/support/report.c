/* Checks, and what is printed of those that fail. */
#include "portal.h"

#include <inttypes.h>
#include <stdarg.h>
#include <stdio.h>
#include <stdlib.h>

/* A broken library fails in thousands of places; the first ones are enough to find it. */
enum { PRINTED = 40 };

static const char *program_name = "";
static char tested[400];
static uint64_t checks, failed;

void start(const char *program)
{
    program_name = program;
    setvbuf(stdout, NULL, _IOLBF, 0);
}

void at(const char *format, ...)
{
    va_list list;
    va_start(list, format);
    vsnprintf(tested, sizeof tested, format, list);
    va_end(list);
}

static void print_arguments(const struct arguments *a)
{
    printf("       %s", a->call->name);
    for (size_t i = 0; a->call->numbers[i]; i++)
        printf(" %c=%" PRIu64, a->call->numbers[i], a->number[i]);
    printf(", lengths in bytes");
    for (size_t k = 0; k < a->call->slices; k++)
        printf(" %zu", a->slice[k].length + a->slice[k].beyond);
    printf("\n");
}

/* Counts a check. One that fails is printed, with the call's arguments where there is a call. */
static void count(const struct arguments *a, int holds, const char *format, va_list list)
{
    checks++;
    failed += !holds;
    if (holds || failed > PRINTED)
        return;
    printf("FAILED %s: ", tested);
    vprintf(format, list);
    printf("\n");
    if (a)
        print_arguments(a);
}

void check(int holds, const char *format, ...)
{
    va_list list;
    va_start(list, format);
    count(NULL, holds, format, list);
    va_end(list);
}

void check_call(const struct arguments *a, int holds, const char *format, ...)
{
    va_list list;
    va_start(list, format);
    count(a, holds, format, list);
    va_end(list);
}

uint64_t failures(void)
{
    return failed;
}

int finish(void)
{
    if (failed > PRINTED)
        printf("and %" PRIu64 " more\n", failed - PRINTED);
    printf("%s: %" PRIu64 " checks, %" PRIu64 " failed\n", program_name, checks, failed);
    return failed || !checks ? EXIT_FAILURE : EXIT_SUCCESS;
}

void need(int holds, const char *what)
{
    if (holds)
        return;
    printf("%s: can't go on (%s): needs %s\n", program_name, tested, what);
    exit(EXIT_FAILURE);
}
