/* What was done: counted, printed, and checked for its variety. */
#include "harness.h"

#include <inttypes.h>
#include <stdio.h>

struct tally tally;

void count_set(const struct call *call, uint32_t number)
{
    size_t c = 0;
    while (all_calls[c] != call)
        c++;
    tally.sets++;
    tally.returned[c][number]++;
}

void print_tally(void)
{
    printf("robustness: %" PRIu64 " argument sets, %" PRIu64 " calls of exports\n", tally.sets, tally.exports);
    printf("%-23s%9s", "", "accepted");
    for (const uint32_t *number = refusal_order; *number; number++)
        printf("%9" PRIu32, *number);
    for (size_t c = 0; all_calls[c]; c++) {
        printf("\n%-23s%9" PRIu64, all_calls[c]->name, tally.returned[c][0]);
        for (const uint32_t *number = refusal_order; *number; number++)
            printf("%9" PRIu64, tally.returned[c][*number]);
    }
    printf("\n");
}

void check_variety(void)
{
    at("inputs");
    check(tally.input == INPUT, "%zu bytes of an input count, not %d", tally.input, INPUT);
    for (size_t c = 0; all_calls[c]; c++) {
        const struct call *call = all_calls[c];
        at("%s", call->name);
        check(tally.returned[c][0] > 0, "never accepted");
        for (const uint32_t *number = refusal_order; *number; number++)
            check(tally.returned[c][*number] > 0 || !can_refuse(call, *number), "never refused with %" PRIu32, *number);
    }
}

void print_input(const uint8_t *data, size_t size)
{
    printf("again with: tests/robustness/run --replay ");
    for (size_t i = 0; i < size && i < INPUT; i++)
        printf("%02x", data[i]);
    printf("\n");
}
