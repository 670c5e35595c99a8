/* The one place where a call is made: every slice between guards, everything checked. */
#define _DEFAULT_SOURCE /* for mmap's MAP_ANONYMOUS */
#include "portal.h"

#include <inttypes.h>
#include <stdlib.h>
#include <string.h>
#include <sys/mman.h>

#if defined(__SANITIZE_ADDRESS__)
#include <sanitizer/asan_interface.h>
#else
#define ASAN_POISON_MEMORY_REGION(at, size) ((void)(at), (void)(size))
#define ASAN_UNPOISON_MEMORY_REGION(at, size) ((void)(at), (void)(size))
#endif

enum { GUARD = 64, TURNS = 5, LEFT = 0, RIGHT = 1 };

/* A slice as it is lent, a guard on either side: the left one has so many bytes. An empty slice has no guards. */
struct guarded {
    uint8_t *start;
    size_t length, left;
};

/* Different for each slice, side and place, so that no copy of one guard passes for another. */
static uint8_t guards[MAX_SLICES][2][GUARD + TURNS];

/* Where slices stand with their guards. A room is kept from call to call, and grows. */
static struct {
    uint8_t *memory;
    size_t size;
} rooms[MAX_SLICES];

/* Every byte of this page is a fault to read, and to write. */
static uint8_t *untouchable;

static void prepare(void)
{
    untouchable = mmap(NULL, 4096, PROT_NONE, MAP_PRIVATE | MAP_ANONYMOUS, -1, 0);
    need(untouchable != MAP_FAILED, "a page that can't be touched");
    for (size_t k = 0; k < MAX_SLICES; k++)
        for (int side = LEFT; side <= RIGHT; side++)
            for (size_t i = 0; i < GUARD + TURNS; i++)
                guards[k][side][i] = (uint8_t)(0xB7 + 83 * k + 149 * (size_t)side + 29 * i);
}

/* Slices of 4 GiB are reserved and never touched but at their ends, so they cost no memory. They aren't kept. */
static int is_huge(size_t size)
{
    return size > (size_t)1 << 30;
}

static uint8_t *reserve(size_t size)
{
    void *memory;
    if (is_huge(size)) {
        memory = mmap(NULL, size, PROT_READ | PROT_WRITE, MAP_PRIVATE | MAP_ANONYMOUS | MAP_NORESERVE, -1, 0);
        need(memory != MAP_FAILED, "address space for a slice of more than 4 GiB");
    } else {
        memory = malloc(size);
        need(memory != NULL, "memory for a slice");
    }
    return memory;
}

static void give_back(size_t k)
{
    if (is_huge(rooms[k].size))
        munmap(rooms[k].memory, rooms[k].size);
    else
        free(rooms[k].memory);
    rooms[k].memory = NULL;
    rooms[k].size = 0;
}

static void make_room(size_t k, size_t size)
{
    if (size <= rooms[k].size && !is_huge(rooms[k].size))
        return;
    give_back(k);
    rooms[k].memory = reserve(size);
    rooms[k].size = size;
}

/* The left guard changes its length: a slice needs no alignment, so it starts at any address. */
static void lend(struct guarded *g, const struct bytes *b, size_t k)
{
    static unsigned turn;
    g->left = GUARD + turn++ % TURNS;
    g->length = b->length + b->beyond;
    g->start = untouchable + g->left;
    if (g->length == 0)
        return;
    make_room(k, g->left + g->length + GUARD);
    g->start = rooms[k].memory + g->left;
    memcpy(g->start - g->left, guards[k][LEFT], g->left);
    if (b->length)
        memcpy(g->start, b->at, b->length);
    memcpy(g->start + g->length, guards[k][RIGHT], GUARD);
}

/* What is sealed behind a slice: the guard, and a page of what is left of a room that was made for a longer one. */
static size_t behind(const struct guarded *g, size_t k)
{
    size_t rest = rooms[k].size - g->left - g->length;
    return rest < GUARD + 4096 ? rest : GUARD + 4096;
}

/* Under AddressSanitizer a memcpy or memset that touches what is sealed during a call is a fault, also where it only reads. */
static void seal(const struct guarded *g, size_t slices)
{
    for (size_t k = 0; k < slices; k++)
        if (g[k].length) {
            ASAN_POISON_MEMORY_REGION(g[k].start - g[k].left, g[k].left);
            ASAN_POISON_MEMORY_REGION(g[k].start + g[k].length, behind(&g[k], k));
        }
}

static void unseal(const struct guarded *g, size_t slices)
{
    for (size_t k = 0; k < slices; k++)
        if (g[k].length) {
            ASAN_UNPOISON_MEMORY_REGION(g[k].start - g[k].left, g[k].left);
            ASAN_UNPOISON_MEMORY_REGION(g[k].start + g[k].length, behind(&g[k], k));
        }
}

/* The first place at which bytes differ, or how many they are. Most of them don't, and memcmp is fast to tell so. */
static size_t first_difference(const uint8_t *x, const uint8_t *y, size_t length)
{
    size_t i = 0;
    if (length == 0 || memcmp(x, y, length) == 0)
        return length;
    while (x[i] == y[i])
        i++;
    return i;
}

static void check_guards(const struct arguments *a, const struct guarded *g, size_t k, const char *by)
{
    if (g->length == 0)
        return;
    size_t before = first_difference(g->start - g->left, guards[k][LEFT], g->left);
    size_t behind = first_difference(g->start + g->length, guards[k][RIGHT], GUARD);
    check_call(a, before == g->left, "%s wrote %zu bytes before slice %zu", by, g->left - before, k);
    check_call(a, behind == GUARD, "%s wrote behind slice %zu, %zu bytes from its end", by, k, behind);
}

static void check_unchanged(const struct arguments *a, const struct guarded *g, size_t k, const char *by)
{
    size_t i = first_difference(g->start, a->slice[k].at, a->slice[k].length);
    check_call(a, i == a->slice[k].length, "%s changed byte %zu of slice %zu", by, i, k);
}

/* Guards of every slice, and the bytes of the first `kept` ones. */
static void check_memory(const struct arguments *a, const struct guarded *g, size_t kept, const char *by)
{
    for (size_t k = 0; k < a->call->slices; k++)
        check_guards(a, &g[k], k, by);
    for (size_t k = 0; k < kept; k++)
        check_unchanged(a, &g[k], k, by);
}

static void check_result(const struct arguments *a, const char *what, uint64_t got, uint64_t want)
{
    check_call(a, got == want, "%s is %" PRIu64 ", not %" PRIu64, what, got, want);
}

/* The call or a sister, and what it returns. */
enum export { BOUND, GATES, NUMBER };

static uint64_t made(const struct arguments *a, const struct guarded *g, const struct lent *lent, enum export export)
{
    const struct call *call = a->call;
    seal(g, call->slices);
    uint64_t got = export == BOUND ? call->bound(a->number, lent)
                   : export == GATES ? call->gates(a->number, lent) : call->answer(a->number, lent);
    unseal(g, call->slices);
    return got;
}

void make_call(struct arguments *a, struct answer want)
{
    const struct call *call = a->call;
    struct guarded g[MAX_SLICES];
    struct lent lent[MAX_SLICES];
    size_t read = call->slices - call->written;
    if (!untouchable)
        prepare();
    for (size_t k = 0; k < call->slices; k++) {
        lend(&g[k], &a->slice[k], k);
        lent[k] = (struct lent){g[k].start, g[k].length};
    }
    check_result(a, "the bound", made(a, g, lent, BOUND), want.bound);
    check_memory(a, g, call->slices, "the bound's sister");
    check_result(a, "the number of gates", made(a, g, lent, GATES), want.gates);
    check_memory(a, g, call->slices, "the gates' sister");
    check_result(a, "the returned number", made(a, g, lent, NUMBER), want.number);
    check_memory(a, g, want.number ? call->slices : read, "the call");
    for (size_t k = read; k < call->slices; k++)
        if (a->slice[k].length)
            memcpy(a->slice[k].at, lent[k].at, a->slice[k].length);
}

void refuse(struct arguments *a, uint32_t number)
{
    make_call(a, (struct answer){number, 0, 0});
}

void free_arguments(struct arguments *a)
{
    for (size_t k = 0; k < MAX_SLICES; k++)
        free(a->slice[k].at);
    memset(a, 0, sizeof *a);
}
