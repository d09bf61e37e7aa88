/* What the blocks and the round keys of Hierocrypt-3 share. */
#ifndef HIEROCRYPT3_H
#define HIEROCRYPT3_H

#include "speed.h"

/* Each round key: its first half as rows, its second as columns. Behind the last round
   only a first half is used. */
struct hierocrypt3_keys {
    int rounds;
    uint32_t k[9][8];
};

extern uint8_t hierocrypt3_s[256];

void hierocrypt3_set_up(struct hierocrypt3_keys *keys, const uint8_t *key);

#endif
