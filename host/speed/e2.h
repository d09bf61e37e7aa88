/* What the blocks and the round keys of E2 share. */
#ifndef E2_H
#define E2_H

#include "speed.h"

extern uint8_t e2_s[256];

static inline uint32_t e2_substituted(uint32_t w)
{
    return word_of(e2_s[at(w, 0)], e2_s[at(w, 1)], e2_s[at(w, 2)], e2_s[at(w, 3)]);
}

/* P(S(x)), P by 001's steps on words. */
static inline void e2_ps(uint32_t *y, uint32_t x0, uint32_t x1)
{
    uint32_t a = e2_substituted(x0), b = e2_substituted(x1);
    b ^= a;
    a ^= left(b, 16);
    b ^= left(a, 24);
    y[0] = a ^ b;
    y[1] = b;
}

/* The keys of a key of 16 bytes in the order in which they are used, to encipher or decipher. */
void e2_set_up(uint32_t k[16][4], const uint8_t *key, int direction);

#endif
