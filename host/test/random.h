/* Random numbers, the same in every run. */
#ifndef RANDOM_H
#define RANDOM_H

#include <stddef.h>
#include <stdint.h>

uint64_t random_number(void);
size_t random_below(size_t bound);
void random_bytes(uint8_t *bytes, size_t length);

#endif
