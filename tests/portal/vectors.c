/* Runs the calls of a file, made by another implementation, and compares every byte. */
#include "portal.h"

#include <errno.h>
#include <inttypes.h>
#include <stdio.h>
#include <stdlib.h>
#include <string.h>

/* The whole file as one string. */
static char *read_file(const char *path)
{
    FILE *file = fopen(path, "rb");
    char *text = NULL;
    size_t length = 0, got;
    need(file != NULL, "the file of calls");
    do {
        text = realloc(text, length + 65537);
        need(text != NULL, "memory for the file");
        got = fread(text + length, 1, 65536, file);
        length += got;
    } while (got);
    need(!ferror(file), "to read the file of calls");
    fclose(file);
    text[length] = 0;
    return text;
}

/* The next field of the line that was begun with strtok. */
static const char *field(void)
{
    const char *text = strtok(NULL, " ");
    need(text != NULL, "another field in the line");
    return text;
}

static uint64_t parsed(const char *text)
{
    char *end;
    errno = 0;
    uint64_t number = strtoull(text, &end, 10);
    need(*text >= '0' && *text <= '9' && !*end && !errno, "a number of 64 bits");
    return number;
}

static uint64_t number_field(void)
{
    return parsed(field());
}

static uint8_t hex_digit(char c)
{
    const char *digits = "0123456789abcdef", *found = c ? strchr(digits, c) : NULL;
    need(found != NULL, "a hex digit");
    return (uint8_t)(found - digits);
}

static uint8_t hex_byte(const char *text)
{
    return (uint8_t)(hex_digit(text[0]) << 4 | hex_digit(text[1]));
}

/* A slice by its bytes, or as so many bytes that are all the same. */
static void bytes_field(struct bytes *b, const char *text)
{
    const char *times = strchr(text, '*');
    set_length(b, times ? (size_t)parsed(times + 1) : strlen(text) / 2);
    need(times ? times == text + 2 && b->length : strlen(text) % 2 == 0, "two hex digits for each byte");
    for (size_t i = 0; i < (times ? 1 : b->length); i++)
        b->at[i] = hex_byte(text + 2 * i);
    if (times)
        repeat(b, 1);
}

/* A slice that can be empty, or stand as it was. */
static void slice_field(struct bytes *b, const struct bytes *was)
{
    const char *text = field();
    if (strcmp(text, "=") == 0)
        set_bytes(b, was->at, was->length);
    else
        bytes_field(b, strcmp(text, "-") == 0 ? "" : text);
}

static size_t place_of(const char *name)
{
    for (size_t i = 0; all_calls[i]; i++)
        if (strcmp(all_calls[i]->name, name) == 0)
            return i;
    need(0, "a call that the table lists");
    return 0;
}

/* The slice that the call left, against the one that it must leave. */
static void check_after(const struct arguments *a, size_t k, const struct bytes *want)
{
    size_t i = 0;
    check_call(a, a->slice[k].length == want->length, "slice %zu is to have %zu bytes afterwards", k, want->length);
    while (i < want->length && i < a->slice[k].length && a->slice[k].at[i] == want->at[i])
        i++;
    check_call(a, i == want->length, "byte %zu of slice %zu isn't as it must be afterwards", i, k);
}

/* One call: the fields after its name. */
static void run_line(const char *name)
{
    /* The slices before the last call of each name. */
    static struct bytes before[MAX_CALLS][MAX_SLICES];
    struct arguments a = {0};
    struct bytes after = {0}, *was = before[place_of(name)];
    struct answer want;
    a.call = all_calls[place_of(name)];
    for (size_t i = 0; a.call->numbers[i]; i++)
        a.number[i] = number_field();
    for (size_t k = 0; k < a.call->slices; k++) {
        slice_field(&a.slice[k], &was[k]);
        set_bytes(&was[k], a.slice[k].at, a.slice[k].length);
    }
    uint64_t number = number_field();
    need(number <= UINT32_MAX, "a returned number of 32 bits");
    want.number = (uint32_t)number;
    want.bound = number_field();
    want.gates = number_field();
    make_call(&a, want);
    for (size_t k = a.call->slices - a.call->written; k < a.call->slices; k++) {
        slice_field(&after, &was[k]);
        check_after(&a, k, &after);
    }
    free(after.at);
    free_arguments(&a);
}

int main(int argc, char **argv)
{
    uint64_t calls = 0, stated = 0;
    start("vectors");
    need(argc == 2, "one argument, the file of calls");
    char *text = read_file(argv[1]), *line = text;
    for (int number = 1; *line; number++) {
        char *rest = line + strcspn(line, "\n");
        if (*rest)
            *rest++ = 0;
        at("line %d", number);
        char *name = *line == '#' ? NULL : strtok(line, " ");
        if (name && strcmp(name, "end") == 0) {
            stated = number_field();
        } else if (name) {
            run_line(name);
            calls++;
        }
        need(!name || !strtok(NULL, " "), "no more fields in the line");
        line = rest;
    }
    at("the whole file");
    check(calls > 0 && calls == stated, "%" PRIu64 " calls read, %" PRIu64 " stated", calls, stated);
    printf("vectors: %" PRIu64 " calls\n", calls);
    free(text);
    return finish();
}
