/* What the program checks, one promise of the header after another. */
#ifndef CHECKS_H
#define CHECKS_H

void check_guards(void);
void check_vectors(void);
void check_round_trips(void);
void check_shared_key_and_block(void);
void check_order_of_refusals(void);
void check_wide_numbers(void);
void check_key_lengths(void);
void check_blank_keys(void);
void check_block_lengths(void);
void check_rooms(void);
void check_wide_lengths(void);
void check_random_calls(void);

#endif
