/*
 * Where slices are lent. Each has a room of its own between two pages that can't be touched, mapped twice: in one
 * mapping it can be written, in the other only read, so a write there is a fault. Beside the slice stand guards.
 */
#define _GNU_SOURCE /* for memfd_create */
#include "harness.h"

#include <stdio.h>
#include <string.h>
#include <sys/mman.h>
#include <unistd.h>

enum { PAGE = 4096, GUARD = PAGE, ROOM = (MOST_BYTES / PAGE + 3) * PAGE, VIEWS = 2, READ_ONLY = 0, WRITABLE = 1 };

/* The room's two mappings, and where in it the slice stands. */
static struct {
    uint8_t *view[VIEWS];
    size_t start, length;
} room[MAX_SLICES];

static uint8_t guard[GUARD];

/* A mapping of room k in the file, with a page before it and one after it that can't be touched. */
static uint8_t *mapped(int file, size_t k, int protection)
{
    uint8_t *around = mmap(NULL, ROOM + 2 * PAGE, PROT_NONE, MAP_PRIVATE | MAP_ANONYMOUS | MAP_NORESERVE, -1, 0);
    need(around != MAP_FAILED, "address space for a slice");
    void *inside = mmap(around + PAGE, ROOM, protection, MAP_SHARED | MAP_FIXED, file, (off_t)(k * ROOM));
    need(inside == around + PAGE, "a mapping for a slice");
    return inside;
}

static void make_rooms(void)
{
    int file = memfd_create("slices", 0);
    need(file >= 0 && ftruncate(file, (off_t)MAX_SLICES * ROOM) == 0, "memory for the slices");
    need(PAGE % sysconf(_SC_PAGESIZE) == 0, "pages of 4,096 bytes");
    for (size_t k = 0; k < MAX_SLICES; k++) {
        room[k].view[READ_ONLY] = mapped(file, k, PROT_READ);
        room[k].view[WRITABLE] = mapped(file, k, PROT_READ | PROT_WRITE);
    }
    close(file);
    for (size_t i = 0; i < GUARD; i++)
        guard[i] = (uint8_t)(0xB7 + 29 * i + i / 256);
}

static size_t smaller(size_t x, size_t y)
{
    return x < y ? x : y;
}

/* Up to a page on either side; less where the room ends. */
static size_t guard_before(size_t k)
{
    return smaller(GUARD, room[k].start);
}

static size_t guard_after(size_t k)
{
    return smaller(GUARD, ROOM - room[k].start - room[k].length);
}

uint8_t *content(size_t k)
{
    return room[k].view[WRITABLE] + room[k].start;
}

static void lend(size_t k, const struct bytes *b, struct place place)
{
    room[k].length = b->length;
    room[k].start = place.at_end ? ROOM - place.gap - b->length : place.gap;
    memcpy(content(k) - guard_before(k), guard, guard_before(k));
    memcpy(content(k), b->at, b->length);
    memcpy(content(k) + b->length, guard, guard_after(k));
}

void lend_all(const struct arguments *a, const struct place *place)
{
    if (room[0].view[WRITABLE] == NULL)
        make_rooms();
    for (size_t k = 0; k < a->call->slices; k++)
        lend(k, &a->slice[k], place[k]);
}

void lent_slices(const struct arguments *a, size_t written_from, struct lent *slice)
{
    for (size_t k = 0; k < a->call->slices; k++)
        slice[k] = (struct lent){room[k].view[k < written_from ? READ_ONLY : WRITABLE] + room[k].start, room[k].length};
}

int guards_hold(const struct arguments *a, size_t k)
{
    return memcmp(content(k) - guard_before(k), guard, guard_before(k)) == 0 &&
           memcmp(content(k) + a->slice[k].length, guard, guard_after(k)) == 0;
}

void name_address(const struct arguments *a, const uint8_t *address, char *text, size_t room_for_text)
{
    snprintf(text, room_for_text, "what isn't lent, at address %p", (const void *)address);
    for (size_t k = 0; k < a->call->slices; k++)
        for (int view = 0; view < VIEWS; view++) {
            const uint8_t *from = room[k].view[view] - PAGE;
            if (address >= from && address < from + ROOM + 2 * PAGE)
                snprintf(text, room_for_text, "byte %td of slice %zu (%zu bytes, lent to be %s)",
                         address - room[k].view[view] - (ptrdiff_t)room[k].start, k, room[k].length,
                         view == READ_ONLY ? "read" : "written");
        }
}
