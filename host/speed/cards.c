/* The works on cards; see works.h. */
#include "card.h"
#include "proved.h"
#include "works.h"

#include <stdio.h>
#include <stdlib.h>
#include <string.h>

/* A change takes 4 bytes, and two full cards may have a change for each slot. */
static uint8_t first[16 * SLOTS], second[16 * SLOTS], out[8 * SLOTS], other[8 * SLOTS];
static size_t length;

static void yes(uint64_t answer, uint64_t wanted)
{
    if (answer == wanted)
        return;
    fprintf(stderr, "bench: a full card gives %d\n", (int)answer);
    exit(1);
}

static void our_good(int cipher, int direction)
{
    (void)cipher, (void)direction;
    yes(tlilcueyoh_speed_good(first, length), 1);
}

static void c_good(int cipher, int direction)
{
    (void)cipher, (void)direction;
    yes((uint64_t)card_good(first, length), 1);
}

/* The last slot's pair, so that the search is a whole pass. */
static void our_find(int cipher, int direction)
{
    const uint8_t *last = first + length - 16;
    (void)cipher, (void)direction;
    yes(tlilcueyoh_speed_find(first, length, 256u * last[0] + last[1], last[2]), 16);
}

static void c_find(int cipher, int direction)
{
    const uint8_t *last = first + length - 16;
    (void)cipher, (void)direction;
    yes(card_find(first, length, 256u * last[0] + last[1], last[2]), 16);
}

static void our_compare(int cipher, int direction)
{
    (void)cipher, (void)direction;
    yes(tlilcueyoh_speed_compare(first, length, second, length, out, sizeof out), length / 256 * 12);
}

static void c_compare(int cipher, int direction)
{
    (void)cipher, (void)direction;
    yes(card_compare(first, length, second, length, other, sizeof other).written, length / 256 * 12);
}

const struct work card_works[CARD_WORKS] = {
    { "good", our_good, 1 }, { "c-good", c_good, 1 }, { "find", our_find, 1 }, { "c-find", c_find, 1 },
    { "compare", our_compare, 1 }, { "c-compare", c_compare, 1 },
};

/* Pair i: a recipe has 32 segments, and two bytes that are not zero. */
static uint8_t *lay(uint8_t *slot, int i, uint8_t minutes)
{
    const uint8_t recipe = (uint8_t)(1 + i / 32), segment = (uint8_t)(1 + i % 32);
    const uint8_t record[16] = { recipe, recipe, segment, 2, 0x2e, 0xe0, 2, 0x58, 0, minutes };
    memcpy(slot, record, 16);
    return slot + 16;
}

static void shuffle(uint8_t *card, int slots)
{
    uint8_t held[16];
    for (int i = slots - 1; i > 0; i--) {
        int j = rand() % (i + 1);
        memcpy(held, card + 16 * i, 16);
        memcpy(card + 16 * i, card + 16 * j, 16);
        memcpy(card + 16 * j, held, 16);
    }
}

void make_cards(int slots)
{
    uint8_t *one = first, *two = second;
    for (int i = 0; i < slots / 16 * 17; i++) {
        if (i % 17 != 0)
            one = lay(one, i, 30);
        if (i % 17 != 1)
            two = lay(two, i, i % 17 == 2 ? 31 : 30);
    }
    length = 16 * (size_t)slots;
    srand(1);
    shuffle(first, slots);
    shuffle(second, slots);
}

/* A comparison with so much room must answer this, and both sides write the same. */
static void hold_comparison(size_t room, uint8_t answer)
{
    memset(out, 0xaa, sizeof out);
    memset(other, 0xaa, sizeof other);
    uint64_t written = tlilcueyoh_speed_compare(first, length, second, length, out, room);
    struct compared c = card_compare(first, length, second, length, other, room);
    if (c.answer == answer && c.written == written && memcmp(out, other, sizeof out) == 0)
        return;
    fprintf(stderr, "bench: two cards of %d bytes, %d of room: compare and c-compare differ\n", (int)length, (int)room);
    exit(1);
}

/* Also too little room, a pair that stands twice and a byte that breaks the rules, on either card. */
void hold_cards(void)
{
    for (int slots = 0; slots <= SLOTS; slots += 16) {
        make_cards(slots);
        hold_comparison(sizeof out, COMPARED);
        if (slots == 0)
            continue;
        hold_comparison(length / 256 * 12, COMPARED);
        hold_comparison(length / 256 * 12 - 1, NO_ROOM);
        for (int i = 0; i < 2; i++) {
            uint8_t *card = i == 0 ? first : second;
            make_cards(slots);
            memcpy(card + length - 16, card, 16);
            hold_comparison(sizeof out, BAD_CARD);
            make_cards(slots);
            card[length - 1] = 1;
            hold_comparison(sizeof out, BAD_CARD);
        }
    }
}
