/* Traps at the conditional jumps of the library. */
#define _GNU_SOURCE /* for the numbers of the registers in a signal's context */
#include "traps.h"

#include "portal.h"

#include <inttypes.h>
#include <signal.h>
#include <stdio.h>
#include <stdlib.h>
#include <string.h>
#include <sys/mman.h>
#include <ucontext.h>
#include <unistd.h>

enum { MAX_JUMPS = 4096, NAME = 100, INT3 = 0xCC };

/* A conditional jump: its condition, where it leads if that holds and if not, and the byte that a trap hides. */
struct jump {
    uint8_t *at;
    unsigned condition;
    uint8_t *taken, *passed;
    uint8_t first_byte;
    char function[NAME];
};

static struct jump jumps[MAX_JUMPS];
static size_t count;
static struct path *recorded;

/* ---- the condition of a jump, by the flags */

enum { CARRY = 1 << 0, PARITY = 1 << 2, ZERO = 1 << 6, SIGN = 1 << 7, OVERFLOW = 1 << 11 };

static int is_less(uint64_t flags)
{
    return !(flags & SIGN) != !(flags & OVERFLOW);
}

/* The conditions come in pairs; the odd ones are the opposites. */
static int holds(unsigned condition, uint64_t flags)
{
    const int even[8] = {
        (flags & OVERFLOW) != 0, (flags & CARRY) != 0, (flags & ZERO) != 0, (flags & (CARRY | ZERO)) != 0,
        (flags & SIGN) != 0, (flags & PARITY) != 0, is_less(flags), (flags & ZERO) || is_less(flags),
    };
    return even[condition / 2] != (int)(condition % 2);
}

/* ---- recording */

static void add_step(uint64_t step)
{
    if (recorded && recorded->count < MAX_STEPS)
        recorded->step[recorded->count++] = step;
}

/* The list is in rising order. NULL for an address at which no jump stands. */
static const struct jump *jump_at(const uint8_t *address)
{
    size_t low = 0, high = count;
    while (low < high) {
        size_t middle = (low + high) / 2;
        if (jumps[middle].at < address)
            low = middle + 1;
        else
            high = middle;
    }
    return low < count && jumps[low].at == address ? &jumps[low] : NULL;
}

/* The trap has run, so the next instruction would be one byte after it. */
static void on_trap(int number, siginfo_t *information, void *context)
{
    greg_t *registers = ((ucontext_t *)context)->uc_mcontext.gregs;
    const struct jump *jump = jump_at((const uint8_t *)registers[REG_RIP] - 1);
    (void)number;
    (void)information;
    if (!jump)
        abort();
    int taken = holds(jump->condition, (uint64_t)registers[REG_EFL]);
    add_step((uint64_t)(uintptr_t)jump->at * 2 + (uint64_t)taken);
    registers[REG_RIP] = (greg_t)(taken ? jump->taken : jump->passed);
}

/* The linker puts these in place of memcpy and memset, whose way depends on where they work and how far. */
void *__real_memcpy(void *to, const void *from, size_t length);
void *__real_memset(void *to, int byte, size_t length);
void *__wrap_memcpy(void *to, const void *from, size_t length);
void *__wrap_memset(void *to, int byte, size_t length);

void *__wrap_memcpy(void *to, const void *from, size_t length)
{
    add_step((uint64_t)(uintptr_t)to);
    add_step((uint64_t)(uintptr_t)from);
    add_step(length);
    return __real_memcpy(to, from, length);
}

void *__wrap_memset(void *to, int byte, size_t length)
{
    add_step((uint64_t)(uintptr_t)to);
    add_step(length);
    return __real_memset(to, byte, length);
}

void start_path(struct path *path)
{
    path->count = 0;
    recorded = path;
    for (size_t i = 0; i < count; i++)
        *jumps[i].at = INT3;
}

void end_path(void)
{
    for (size_t i = 0; i < count; i++)
        *jumps[i].at = jumps[i].first_byte;
    need(recorded->count < MAX_STEPS, "room for the steps of a call");
    recorded = NULL;
}

/* ---- the list of jumps */

/* One byte has the condition and one the distance, or two and four do. The distance is from the jump's end. */
static void read_jump(struct jump *jump, uint8_t *at)
{
    int is_long = at[0] == 0x0F && (at[1] & 0xF0) == 0x80;
    int32_t distance;
    need(is_long || (at[0] & 0xF0) == 0x70, "a conditional jump at every address of the list");
    if (is_long)
        memcpy(&distance, at + 2, sizeof distance);
    else
        distance = (int8_t)at[1];
    jump->at = at;
    jump->condition = at[is_long] & 0x0F;
    jump->passed = at + (is_long ? 6 : 2);
    jump->taken = jump->passed + distance;
    jump->first_byte = at[0];
}

static void read_list(const char *list)
{
    uint64_t address;
    FILE *file = fopen(list, "r");
    need(file != NULL, "the list of jumps");
    while (count < MAX_JUMPS && fscanf(file, "%" SCNx64 " %99s", &address, jumps[count].function) == 2) {
        read_jump(&jumps[count], (uint8_t *)(uintptr_t)address);
        need(count == 0 || jumps[count - 1].at < jumps[count].at, "a list in rising order");
        count++;
    }
    need(feof(file) && count > 0, "a list of addresses and names that isn't too long");
    fclose(file);
}

int prepare_traps(const char *list)
{
    struct sigaction action = {0};
    read_list(list);
    action.sa_sigaction = on_trap;
    action.sa_flags = SA_SIGINFO;
    need(sigaction(SIGTRAP, &action, NULL) == 0, "a handler for traps");
    size_t page = (size_t)sysconf(_SC_PAGESIZE);
    uint8_t *from = jumps[0].at - (uintptr_t)jumps[0].at % page;
    size_t length = (size_t)(jumps[count - 1].at + 1 - from);
    return mprotect(from, length, PROT_READ | PROT_WRITE | PROT_EXEC) == 0;
}

/* ---- paths side by side */

size_t parting(const struct path *left, const struct path *right)
{
    size_t i = 0;
    while (i < left->count && i < right->count && left->step[i] == right->step[i])
        i++;
    return i;
}

const char *function_of(const struct path *path, size_t step)
{
    const struct jump *jump = step < path->count ? jump_at((const uint8_t *)(uintptr_t)(path->step[step] / 2)) : NULL;
    return jump ? jump->function : "memcpy or memset";
}
