/* What the archives of crates/speed, crates/card_speed and crates/seal_speed have for C. Each answers a refusal's
   number, or what is found, and writes as the proved call does; specs/Works.antt of each crate has it in full. */
#ifndef PROVED_H
#define PROVED_H

#include <stddef.h>
#include <stdint.h>

/* Whole blocks, each by itself. */
uint64_t tlilcueyoh_speed_blocks(uint64_t cipher, uint64_t direction, const uint8_t *key, size_t key_len,
                                 const uint8_t *in, size_t in_len, uint8_t *out, size_t out_len);

/* The input as one piece of a fresh stream. */
uint64_t tlilcueyoh_speed_cbc(uint64_t cipher, uint64_t direction, const uint8_t *key, size_t key_len,
                              const uint8_t *first, size_t first_len, const uint8_t *in, size_t in_len,
                              uint8_t *out, size_t out_len);

/* The input in pieces of one byte. Every block is written to the front of out, so that the last one stands there. */
uint64_t tlilcueyoh_speed_bytes(uint64_t cipher, uint64_t direction, const uint8_t *key, size_t key_len,
                                const uint8_t *first, size_t first_len, const uint8_t *in, size_t in_len,
                                uint8_t *out, size_t out_len);

uint64_t tlilcueyoh_speed_good(const uint8_t *card, size_t card_len);
uint64_t tlilcueyoh_speed_find(const uint8_t *card, size_t card_len, uint64_t recipe, uint64_t segment);
uint64_t tlilcueyoh_speed_compare(const uint8_t *first, size_t first_len, const uint8_t *second, size_t second_len,
                                  uint8_t *out, size_t out_len);

/* The input as one piece of a fresh seal, which is then written to the front of out: 16 bytes. */
uint64_t tlilcueyoh_speed_seal(uint64_t cipher, const uint8_t *key, size_t key_len, const uint8_t *in, size_t in_len,
                               uint8_t *out, size_t out_len);

/* The same in pieces of one byte. */
uint64_t tlilcueyoh_speed_seal_bytes(uint64_t cipher, const uint8_t *key, size_t key_len, const uint8_t *in,
                                     size_t in_len, uint8_t *out, size_t out_len);

#endif
