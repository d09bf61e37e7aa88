/* The works that are measured, each on both sides where C has it too. */
#ifndef WORKS_H
#define WORKS_H

#include "speed.h"

/* 64 KiB in a call of `blocks`, `cbc`, `bytes` and the seals; so many calls of the entry in a row; so many slots on a
   card at the most. */
enum { BLOCKS = 4096, BYTES = 16 * BLOCKS, ENTRIES = 256, SLOTS = 256 };

struct work {
    const char *name;
    void (*run)(int cipher, int direction);
    /* what the amounts are divided by */
    int blocks;
};

enum { OUR_BLOCKS, C_BLOCKS, OUR_CBC, C_CBC, OUR_ENTRY, C_ENTRY, OUR_BYTES, WORKS };
extern const struct work works[WORKS];

/* The seals, whatever the direction, with the blocks that they are laid beside. */
enum { SEALED_BLOCKS, OUR_SEAL, C_SEAL, OUR_SEAL_BYTES, SEAL_WORKS };
extern const struct work seal_works[SEAL_WORKS];

/* On the cards that make_cards made, whatever the cipher and the direction. */
enum { OUR_GOOD, C_GOOD, OUR_FIND, C_FIND, OUR_COMPARE, C_COMPARE, CARD_WORKS };
extern const struct work card_works[CARD_WORKS];

/* Two cards of so many full slots, a multiple of 16, in an order that chance gave: a sixteenth of the pairs of each is
   not on the other, and a sixteenth has other contents there. */
void make_cards(int slots);

void make_ready(void);

/* Ends the program if C gives other bytes than the proved side, for the ciphers that C has too, and for cards. */
void hold_to_each_other(void);
void hold_cards(void);

#endif
