/* See works.h. */
#include "works.h"
#include "../tlilcueyoh.h"
#include "proved.h"

#include <stdio.h>
#include <stdlib.h>
#include <string.h>

/* The earlier Noekeon has none of its own: it is laid beside the other Noekeon's time. */
static const struct yardstick *const yardsticks[] = {
    NULL, &hierocrypt3_yardstick, &e2_yardstick, &noekeon_yardstick, &noekeon_yardstick,
};
static uint8_t key[16], first[16], in[BYTES], out[BYTES], other[BYTES];

/* How much of the input is sealed: all of it where that is measured. */
static size_t sealed = BYTES;

static void done(uint64_t answer)
{
    if (answer == TLILCUEYOH_DONE)
        return;
    fprintf(stderr, "bench: refused %d\n", (int)answer);
    exit(1);
}

static void our_blocks(int cipher, int direction)
{
    done(tlilcueyoh_speed_blocks(cipher, direction, key, 16, in, BYTES, out, BYTES));
}

static void c_blocks(int cipher, int direction)
{
    yardsticks[cipher]->blocks(direction, key, in, other, BLOCKS);
}

static void our_cbc(int cipher, int direction)
{
    done(tlilcueyoh_speed_cbc(cipher, direction, key, 16, first, 16, in, BYTES, out, BYTES));
}

static void c_cbc(int cipher, int direction)
{
    yardsticks[cipher]->cbc(direction, key, first, in, other, BLOCKS);
}

static void our_entry(int cipher, int direction)
{
    for (size_t i = 0; i < 16 * ENTRIES; i += 16)
        done(tlilcueyoh_block(cipher, direction, key, 16, in + i, 16, out + i, 16));
}

static void c_entry(int cipher, int direction)
{
    for (size_t i = 0; i < 16 * ENTRIES; i += 16)
        yardsticks[cipher]->blocks(direction, key, in + i, other + i, 1);
}

static void our_bytes(int cipher, int direction)
{
    done(tlilcueyoh_speed_bytes(cipher, direction, key, 16, first, 16, in, BYTES, out, BYTES));
}

static void our_seal(int cipher, int direction)
{
    (void)direction;
    done(tlilcueyoh_speed_seal(cipher, key, 16, in, sealed, out, BYTES));
}

static void c_seal(int cipher, int direction)
{
    (void)direction;
    yardsticks[cipher]->seal(key, in, sealed, other);
}

static void our_seal_bytes(int cipher, int direction)
{
    (void)direction;
    done(tlilcueyoh_speed_seal_bytes(cipher, key, 16, in, sealed, out, BYTES));
}

const struct work seal_works[SEAL_WORKS] = {
    { "blocks", our_blocks, BLOCKS }, { "seal", our_seal, BLOCKS }, { "c-seal", c_seal, BLOCKS },
    { "seal-bytes", our_seal_bytes, BLOCKS },
};

const struct work works[WORKS] = {
    { "blocks", our_blocks, BLOCKS }, { "c-blocks", c_blocks, BLOCKS },
    { "cbc", our_cbc, BLOCKS }, { "c-cbc", c_cbc, BLOCKS },
    { "entry", our_entry, ENTRIES }, { "c-entry", c_entry, ENTRIES },
    { "bytes", our_bytes, BLOCKS },
};

void make_ready(void)
{
    srand(1);
    for (size_t i = 0; i < BYTES; i++)
        in[i] = (uint8_t)rand();
    memcpy(key, in + 16, 16);
    memcpy(first, in + 32, 16);
    for (int cipher = HIEROCRYPT3; cipher <= NOEKEON; cipher++)
        yardsticks[cipher]->make_ready();
}

static void hold(const struct work *ours, const struct work *c, int cipher, int direction)
{
    memset(out, 0, BYTES);
    memset(other, 0, BYTES);
    ours->run(cipher, direction);
    c->run(cipher, direction);
    if (memcmp(out, other, BYTES) == 0)
        return;
    fprintf(stderr, "bench: cipher %d, direction %d: %s and %s give different bytes\n", cipher, direction,
            ours->name, c->name);
    exit(1);
}

/* Also short messages, and such as end within a block. The last length is the one that is measured. */
static void hold_seals(int cipher)
{
    static const size_t lengths[] = { 0, 1, 15, 16, 17, 32, BYTES - 1, BYTES };
    for (size_t i = 0; i < sizeof lengths / sizeof *lengths; i++) {
        sealed = lengths[i];
        hold(&seal_works[OUR_SEAL], &seal_works[C_SEAL], cipher, ENCIPHER);
        hold(&seal_works[OUR_SEAL_BYTES], &seal_works[C_SEAL], cipher, ENCIPHER);
    }
}

void hold_to_each_other(void)
{
    for (int cipher = HIEROCRYPT3; cipher <= NOEKEON; cipher++) {
        for (int direction = ENCIPHER; direction <= DECIPHER; direction++) {
            hold(&works[OUR_BLOCKS], &works[C_BLOCKS], cipher, direction);
            hold(&works[OUR_CBC], &works[C_CBC], cipher, direction);
            hold(&works[OUR_ENTRY], &works[C_ENTRY], cipher, direction);
        }
        hold_seals(cipher);
    }
    hold_cards();
}
