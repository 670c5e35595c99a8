/*
 * The stack that calls and sisters use, which the header bounds. Each runs on a painted stack of its own; the
 * paint that is left tells how far down it went.
 */
#define _DEFAULT_SOURCE /* for stack_t */
#include "calls.h"

#include <stdio.h>
#include <string.h>
#include <ucontext.h>

enum { ROOM = 1 << 20, STATED = 65536, PAINT = 0xA5, NUMBER = 0, BOUND = 1, GATES = 2 };

static uint8_t painted[ROOM];
static size_t greatest;

/* What runs there: a function on another stack gets no pointers as arguments. */
static struct {
    struct arguments *a;
    struct lent lent[MAX_SLICES];
    int which;
    uint32_t number;
} task;

static void run_task(void)
{
    const struct call *call = task.a->call;
    if (task.which == NUMBER)
        task.number = call->answer(task.a->number, task.lent);
    else
        (task.which == BOUND ? call->bound : call->gates)(task.a->number, task.lent);
}

/* The stack goes down from the end, so what is left of the paint stands at the beginning. */
static size_t stack_used(void)
{
    static ucontext_t back, there;
    size_t left = 0;
    memset(painted, PAINT, ROOM);
    need(getcontext(&there) == 0, "a context");
    there.uc_stack.ss_sp = painted;
    there.uc_stack.ss_size = ROOM;
    there.uc_link = &back;
    makecontext(&there, run_task, 0);
    need(swapcontext(&back, &there) == 0, "to run on another stack");
    while (left < ROOM && painted[left] == PAINT)
        left++;
    return ROOM - left;
}

static void test_numbers_of(const struct call *call, struct numbers n)
{
    static const char *const names[] = {"the call", "the bound's sister", "the gates' sister"};
    struct arguments a = {0};
    at("%s: its stack", call->name);
    lawful(&a, call, n, 1);
    task.a = &a;
    for (size_t k = 0; k < call->slices; k++)
        task.lent[k] = (struct lent){a.slice[k].at, a.slice[k].length};
    for (task.which = NUMBER; task.which <= GATES; task.which++) {
        size_t used = stack_used();
        greatest = used > greatest ? used : greatest;
        check_call(&a, used <= STATED, "%s uses %zu bytes of stack", names[task.which], used);
    }
    check_call(&a, task.number == 0, "the call is refused, and so tells little of its stack");
    free_arguments(&a);
}

void test_stack(void)
{
    for (size_t c = 0; all_calls[c]; c++)
        for (uint64_t N = 1; N <= 1024; N *= 32) {
            struct numbers n = usual(all_calls[c], N);
            test_numbers_of(all_calls[c], n);
            n.g = 1;
            n.L = 32;
            test_numbers_of(all_calls[c], n);
        }
    /* The most selectors, with noise that is accepted. */
    for (size_t c = 0; all_lookups[c]; c++)
        for (uint64_t N = 1; N <= 1024; N *= 32) {
            struct numbers n = {.N = N, .M = 2, .g = 8, .L = 2};
            n.s = most_classes(all_lookups[c], N);
            n.d = most_selectors(all_lookups[c]);
            test_numbers_of(all_lookups[c], n);
        }
    printf("calls: at most %zu bytes of stack\n", greatest);
}
