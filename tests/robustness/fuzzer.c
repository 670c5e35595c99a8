/* Inputs from libFuzzer. */
#include "harness.h"

#include <stdlib.h>

int LLVMFuzzerInitialize(int *count, char ***words);
int LLVMFuzzerTestOneInput(const uint8_t *data, size_t size);

int LLVMFuzzerInitialize(int *count, char ***words)
{
    (void)count;
    (void)words;
    start("robustness");
    return atexit(print_tally);
}

int LLVMFuzzerTestOneInput(const uint8_t *data, size_t size)
{
    if (one_input(data, size)) {
        print_input(data, size);
        abort();
    }
    return 0;
}
