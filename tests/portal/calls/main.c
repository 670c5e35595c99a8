/* Every call and every sister, accepted and with each of its refusals. */
#include "calls.h"

int main(void)
{
    start("calls");
    test_examples();
    test_block_examples();
    test_lookup_examples();
    test_vertical_examples();
    test_hidden_examples();
    test_accepted();
    test_refusals();
    test_numbers();
    test_gadgets();
    test_weights();
    test_amplitudes();
    test_limits();
    test_hidden_limits();
    test_public_as_hidden();
    test_lengths();
    test_words();
    test_extremes();
    test_errors();
    test_classes();
#if !defined(__SANITIZE_ADDRESS__)
    /* AddressSanitizer widens the frames that are measured, and doesn't follow a change of stacks. */
    test_stack();
#endif
    return finish();
}
