/* Hierocrypt-3's round keys for a key of 16 bytes, in C as one would write them for speed: 002, section 2.3.
   The intermediate keys are the same on the way back, so a step of sigma gives two round keys: its own, and
   that of the step which undoes it. */
#include "hierocrypt3.h"

enum { ROUNDS = 6, TURN = 4 };

static inline uint64_t pair(uint32_t a, uint32_t b) { return (uint64_t)a << 32 | b; }

static inline uint64_t exchanged(uint64_t x) { return x << 32 | x >> 32; }

static inline uint32_t substituted(uint32_t w)
{
    const uint8_t *s = hierocrypt3_s;
    return word_of(s[at(w, 0)], s[at(w, 1)], s[at(w, 2)], s[at(w, 3)]);
}

static inline uint64_t f_sigma(uint64_t x)
{
    uint32_t b = substituted((uint32_t)x), a = substituted((uint32_t)(x >> 32)) ^ b;
    return pair(a, left(a, 16) ^ b);
}

static inline uint64_t m5e(uint64_t x)
{
    uint32_t a = (uint32_t)(x >> 32), c = (uint32_t)x;
    return pair(a ^ left(a, 16) ^ (left(a, 24) & 0x00ffff00),
                (c & 0xffffff00) ^ left(c, 8) ^ (left(c, 16) & 0xffff00ff) ^ (left(c, 24) & 0xff0000ff));
}

static inline void first_half(uint32_t *k, uint64_t k1, uint64_t k2)
{
    uint32_t columns[4] = { (uint32_t)(k1 >> 32), (uint32_t)k1, (uint32_t)(k2 >> 32), (uint32_t)k2 };
    turned(k, columns);
}

static inline void second_half(uint32_t *k, uint64_t k3, uint64_t k4)
{
    k[4] = (uint32_t)(k3 >> 32);
    k[5] = (uint32_t)k3;
    k[6] = (uint32_t)(k4 >> 32);
    k[7] = (uint32_t)k4;
}

/* Step t from Z, with round keys t and 2 TURN + 1 - t, of which there are ROUNDS + 1. */
static inline void sigma(uint32_t k[9][8], uint64_t *z, int t, uint64_t g)
{
    uint64_t w1 = z[2] ^ z[3], w2 = exchanged(w1) ^ z[3];
    uint64_t z3 = m5e(w1) ^ g, z4 = m5e(w2), v = f_sigma(z[1] ^ z3), z2 = z[0] ^ v;
    int back = 2 * TURN + 1 - t;
    first_half(k[t - 1], z2, z3 ^ v);
    second_half(k[t - 1], z4 ^ v, z[1] ^ z4);
    if (back <= ROUNDS + 1)
        first_half(k[back - 1], z[0] ^ z3, w1 ^ v);
    if (back <= ROUNDS)
        second_half(k[back - 1], w2 ^ v, z[1] ^ w2);
    z[0] = z[1];
    z[1] = z2;
    z[2] = z3;
    z[3] = z4;
}

void hierocrypt3_set_up(struct hierocrypt3_keys *keys, const uint8_t *key)
{
    const uint32_t h0 = 0x5a827999, h1 = 0x6ed9eba1, h2 = 0x8f1bbcdc, h3 = 0xca62c1d6;
    uint32_t x[4];
    load4(x, key);
    uint64_t k1 = pair(x[0], x[1]), k2 = pair(x[2], x[3]), z3 = m5e(k1) ^ pair(h1, h0);
    uint64_t z[4] = { k2, k1 ^ f_sigma(k2 ^ z3), z3, m5e(pair(h3, h2)) };
    keys->rounds = ROUNDS;
    sigma(keys->k, z, 1, pair(h3, h0));
    sigma(keys->k, z, 2, pair(h2, h1));
    sigma(keys->k, z, 3, pair(h1, h3));
    sigma(keys->k, z, 4, pair(h0, h2));
}
