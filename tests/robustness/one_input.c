/* Makes the calls of an input and checks them. A fault, and a call that doesn't end, are checks that fail. */
#define _GNU_SOURCE /* for sigsetjmp and setitimer */
#include "harness.h"

#include <inttypes.h>
#include <malloc.h>
#include <setjmp.h>
#include <signal.h>
#include <stdio.h>
#include <string.h>
#include <sys/time.h>

#if __has_include(<valgrind/memcheck.h>)
#include <valgrind/memcheck.h>
#else
#define VALGRIND_MAKE_MEM_UNDEFINED(at, length) 0
#define VALGRIND_CHECK_MEM_IS_DEFINED(at, length) 0
#endif

/* How long the calls of an input may take, in seconds of the processor's time. */
#ifndef SECONDS
#define SECONDS 20
#endif

enum export { BOUND, GATES, NUMBER };

static struct arguments a;

/* What leads back out of a call. */
static struct {
    sigjmp_buf back;
    volatile sig_atomic_t running;
    char what[160];
} rescue;

static void leave_call(int signal_number, siginfo_t *info, void *context)
{
    char place[120];
    (void)context;
    if (!rescue.running && signal_number == SIGVTALRM)
        return;
    if (!rescue.running) {
        /* Not the library's: it comes again, and ends the program. */
        signal(signal_number, SIG_DFL);
        return;
    }
    name_address(&a, info->si_addr, place, sizeof place);
    if (signal_number == SIGVTALRM)
        snprintf(rescue.what, sizeof rescue.what, "doesn't end within %d seconds", SECONDS);
    else
        snprintf(rescue.what, sizeof rescue.what, "ends with signal %d, touching %s", signal_number, place);
    rescue.running = 0;
    siglongjmp(rescue.back, 1);
}

/* Signals aren't held back while one is handled, since the handler doesn't return. */
static void catch_signals(void)
{
    static const int caught[] = {SIGSEGV, SIGBUS, SIGFPE, SIGILL, SIGVTALRM};
    const struct sigaction action = {.sa_sigaction = leave_call, .sa_flags = SA_SIGINFO | SA_NODEFER};
    for (size_t i = 0; i < sizeof caught / sizeof caught[0]; i++)
        need(sigaction(caught[i], &action, NULL) == 0, "to catch a signal");
}

/* Memory is kept: to get it from the system for every long slice takes longer than most calls. */
static void prepare(void)
{
    catch_signals();
    mallopt(M_MMAP_THRESHOLD, 2 * MOST_BYTES);
    mallopt(M_TRIM_THRESHOLD, MAX_SLICES * MOST_BYTES);
}

static void start_clock(void)
{
    const struct itimerval limit = {.it_value = {.tv_sec = SECONDS}};
    need(setitimer(ITIMER_VIRTUAL, &limit, NULL) == 0, "a timer");
}

static uint64_t called(enum export export, const struct lent *slice)
{
    tally.exports++;
    switch (export) {
    case BOUND:
        return a.call->bound(a.number, slice);
    case GATES:
        return a.call->gates(a.number, slice);
    default:
        return a.call->answer(a.number, slice);
    }
}

/* Whether the call or sister came back with what it must report. */
static int reports(enum export export, const struct lent *slice, uint64_t want)
{
    static const char *const names[] = {"the bound's sister", "the gates' sister", "the call"};
    if (sigsetjmp(rescue.back, 0)) {
        check_call(&a, 0, "%s %s", names[export], rescue.what);
        return 0;
    }
    rescue.running = 1;
    uint64_t got = called(export, slice);
    rescue.running = 0;
    check_call(&a, got == want, "%s returns %" PRIu64 ", not %" PRIu64, names[export], got, want);
    return got == want;
}

static void check_guards(void)
{
    for (size_t k = 0; k < a.call->slices; k++)
        check_call(&a, guards_hold(&a, k), "bytes beside slice %zu have changed", k);
}

/* The sisters, to which everything is lent to be read, and the call. */
static int all_report(size_t written_from, struct answer want)
{
    struct lent read[MAX_SLICES], slice[MAX_SLICES];
    lent_slices(&a, a.call->slices, read);
    lent_slices(&a, written_from, slice);
    int all = reports(BOUND, read, want.bound) && reports(GATES, read, want.gates) &&
              reports(NUMBER, slice, want.number);
    check_guards();
    return all;
}

static void check_kept(size_t slices)
{
    for (size_t k = 0; k < slices; k++)
        check_call(&a, memcmp(content(k), a.slice[k].at, a.slice[k].length) == 0, "slice %zu has changed", k);
}

static void check_work(size_t k)
{
    size_t i = 0;
    while (i < a.slice[k].length && content(k)[i] == 0)
        i++;
    check_call(&a, i == a.slice[k].length, "byte %zu of the work slice is not 0", i);
}

/* Under valgrind, what stands in the slices to be written counts as never set; a call must set all of it. */
static void forget_written(size_t written_from)
{
    for (size_t k = written_from; k < a.call->slices; k++)
        (void)VALGRIND_MAKE_MEM_UNDEFINED(content(k), a.slice[k].length);
}

static void check_known(size_t written_from)
{
    for (size_t k = written_from; k < a.call->slices; k++)
        check_call(&a, VALGRIND_CHECK_MEM_IS_DEFINED(content(k), a.slice[k].length) == 0, "slice %zu isn't all set", k);
}

/* Keeps what the call wrote, and lends the same slices with other bytes in them. */
static void change_written(size_t written_from)
{
    for (size_t k = written_from; k < a.call->slices; k++) {
        memcpy(a.slice[k].at, content(k), a.slice[k].length);
        for (size_t i = 0; i < a.slice[k].length; i++)
            content(k)[i] ^= (uint8_t)(0x55 + i);
    }
}

/* Accepted: made once more over other bytes, the call writes the same. */
static void make_accepted(size_t written_from, struct answer want)
{
    forget_written(written_from);
    if (!all_report(written_from, want))
        return;
    check_kept(written_from);
    check_known(written_from);
    if (a.call->packing != NO_TABLE)
        check_work(a.call->slices - 1);
    change_written(written_from);
    forget_written(written_from);
    if (all_report(written_from, want))
        check_kept(a.call->slices);
}

/* Refused: where nothing can be written, the call reports the same. */
static void make_refused(size_t written_from, struct answer want)
{
    if (!all_report(written_from, want))
        return;
    check_kept(a.call->slices);
    all_report(a.call->slices, want);
}

int one_input(const uint8_t *data, size_t size)
{
    struct place place[MAX_SLICES];
    uint64_t before = failures();
    if (tally.sets == 0)
        prepare();
    decode_input(&a, place, data, size);
    lend_all(&a, place);
    at("%s", a.call->name);
    struct answer want = ruled(&a);
    start_clock();
    (want.number ? make_refused : make_accepted)(a.call->slices - a.call->written, want);
    count_set(a.call, want.number);
    return (int)(failures() - before);
}
