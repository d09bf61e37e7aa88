/* A recipe card in C: judged and searched by the proved code's roads; two compared by the quickest road found. */
#ifndef CARD_H
#define CARD_H

#include <stddef.h>
#include <stdint.h>

int card_good(const uint8_t *card, size_t len);

/* How many bytes a find hands back, 16 or none. */
size_t card_find(const uint8_t *card, size_t len, uint64_t recipe, uint64_t segment);

/* What a comparison answers, and how many bytes it writes to the front of out: refused, none. */
enum { COMPARED = 0, NO_ROOM = 9, BAD_CARD = 12 };
struct compared {
    uint8_t answer;
    uint64_t written;
};
struct compared card_compare(const uint8_t *first, size_t first_len, const uint8_t *second, size_t second_len,
                             uint8_t *out, size_t out_len);

#endif
