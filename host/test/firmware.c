/* The entry, called as the controller's firmware calls it. Ends with 0 only if every
   call does exactly what tlilcueyoh.h promises. */
#include "call.h"
#include "checks.h"

#include <stdio.h>

int main(void)
{
    watch_pages();
    check_guards();
    check_vectors();
    check_round_trips();
    check_shared_key_and_block();
    check_order_of_refusals();
    check_wide_numbers();
    check_key_lengths();
    check_blank_keys();
    check_block_lengths();
    check_rooms();
    check_wide_lengths();
    check_random_calls();
    printf("firmware: %lu calls, all as promised\n", calls_made());
    return 0;
}
