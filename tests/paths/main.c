/*
 * No word of a key steers encryption or decryption. A call is made with keys of few and of many ones, and each time it
 * has to take the very same path through the library: so its time can't tell the number of ones. All else is the same.
 * What is decrypted has the same phase under every key; with the argument `samples` it is the same sample instead, so
 * that the classes that come out must not steer the call either.
 *
 * What isn't seen: which addresses are read and written, and how long a single instruction takes.
 */
#include "portal.h"
#include "traps.h"

#include <inttypes.h>
#include <stdio.h>
#include <stdlib.h>
#include <string.h>

enum { MAX_N = 1024 };

enum key { NO_ONES, ALL_ONES, ONE, EVERY_SECOND, RANDOM, ANOTHER, KEYS };

static const char *const key_names[] = {
    "no ones", "ones alone", "one 1", "a 1 at every second place", "random words", "other random words",
};

static struct path first_path, path;
static size_t longest;
static int same_samples;

static uint32_t key_word(enum key key, size_t i, size_t N)
{
    switch (key) {
    case NO_ONES:
        return 0;
    case ALL_ONES:
        return 1;
    case ONE:
        return i == N / 2;
    case EVERY_SECOND:
        return i % 2 == 1;
    default:
        return (uint32_t)below(2);
    }
}

static void put_key(struct arguments *a, enum key key)
{
    struct bytes *words = slice_of(a, KEY);
    for (size_t i = 0; i < words_in(words); i++)
        put_word(words, i, key_word(key, i, words_in(words)));
}

/* The body of what is decrypted, so that it has this phase under the key. */
static void put_body(struct arguments *a, const uint32_t *phase)
{
    static uint32_t key[MAX_N], mask[2 * MAX_N];
    int scalar = a->call == &decrypt_scalar;
    struct bytes *sample = slice_of(a, scalar ? SCALAR : SAMPLE);
    size_t N = words_in(slice_of(a, KEY));
    read_words(key, MAX_N, slice_of(a, KEY));
    read_words(mask, 2 * MAX_N, sample);
    uint32_t sum = 0;
    for (size_t j = 0; j < N; j++)
        sum += mask[j] * key[j];
    for (size_t i = 0; i < words_in(sample) - N; i++)
        put_word(sample, N + i, phase[i] + (scalar ? sum : product_at(mask, key, N, i)));
}

/* The call alone is recorded, and not its sisters. Its slices stand where they stood before. */
static uint32_t record(struct arguments *a, struct path *to)
{
    struct lent lent[MAX_SLICES];
    for (size_t k = 0; k < a->call->slices; k++)
        lent[k] = (struct lent){a->slice[k].at, a->slice[k].length};
    start_path(to);
    uint32_t number = a->call->answer(a->number, lent);
    end_path();
    return number;
}

/* Under the traps the call has to write what it writes without them, which is compared with the formula. */
static void check_result(struct arguments *a)
{
    struct bytes *written = &a->slice[a->call->slices - 1], recorded = {0};
    set_bytes(&recorded, written->at, written->length);
    accept(a);
    check_call(a, memcmp(recorded.at, written->at, written->length) == 0, "traps change the result");
    free(recorded.at);
}

static void check_path(const struct arguments *a)
{
    size_t apart = parting(&first_path, &path);
    check_call(a, apart == first_path.count && apart == path.count,
               "its path isn't that of %s: %zu steps and %zu, apart from step %zu on, in %s", key_names[NO_ONES],
               path.count, first_path.count, apart, function_of(&first_path, apart));
}

/* A word that is no key's is refused. If this path were not another, nothing would be seen. */
static void check_control(struct arguments *a)
{
    put_word(slice_of(a, KEY), 0, 2);
    check_call(a, record(a, &path) == 8, "a key word 2 isn't refused with 8");
    check_call(a, parting(&first_path, &path) < first_path.count, "the path of a refusal is that of the call");
}

static void test_keys(const struct call *call, uint64_t N)
{
    struct arguments a = {0};
    struct numbers n = {.N = N, .M = 16, .s = N, .g = 16, .L = 1, .m = 1};
    int decrypts = call == &decrypt_classes || call == &decrypt_scalar;
    uint32_t phase[MAX_N];
    lawful(&a, call, n, N);
    for (size_t i = 0; i < N; i++)
        phase[i] = (uint32_t)below(UINT64_C(1) << 32);
    for (enum key key = 0; key < KEYS; key++) {
        at("%s, N = %" PRIu64 ", a key of %s", call->name, N, key_names[key]);
        put_key(&a, key);
        if (decrypts && !same_samples)
            put_body(&a, phase);
        check_call(&a, record(&a, key == NO_ONES ? &first_path : &path) == 0, "the call is refused");
        check_result(&a);
        if (key != NO_ONES)
            check_path(&a);
    }
    at("%s, N = %" PRIu64 ", a key that is refused", call->name, N);
    check_control(&a);
    longest = first_path.count > longest ? first_path.count : longest;
    free_arguments(&a);
}

/* Where the library's code can't be changed nothing can be seen, and only the caller can say that this may be. */
static int give_up(void)
{
    const char *skip = getenv("CIKENUMA_SKIP_PATHS");
    printf("paths: can't be run on this machine, which doesn't let a program change its code\n");
    return skip && strcmp(skip, "1") == 0 ? EXIT_SUCCESS : EXIT_FAILURE;
}

int main(int argc, char **argv)
{
    const struct call *const calls[] = {&encrypt_classes, &encrypt_selector, &decrypt_classes, &decrypt_scalar};
    const uint64_t degrees[] = {1, 4, 8, 64, 128, 256, 1024};
    start("paths");
    at("preparing");
    need(argc == 2 || (argc == 3 && strcmp(argv[2], "samples") == 0), "the list of jumps as its argument");
    same_samples = argc == 3;
    if (!prepare_traps(argv[1]))
        return give_up();
    seed_random(20240501);
    for (size_t c = 0; c < sizeof calls / sizeof calls[0]; c++)
        for (size_t i = 0; i < sizeof degrees / sizeof degrees[0]; i++)
            test_keys(calls[c], degrees[i]);
    printf("paths: %d keys for each call and degree, up to %zu steps a call\n", KEYS, longest);
    return finish();
}
