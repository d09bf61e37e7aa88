/* Hierocrypt-3 in C as one would write it for speed: T-tables on words for S and mds_L, MDS_H on rows. Deciphering
   takes the same road as the proved code, the inverse of S and then a table for that of mds_L.
   A yardstick of host/bench; nothing of the product uses it. */
#include "hierocrypt3.h"

uint8_t hierocrypt3_s[256];
static uint8_t unsubstituted[256];
static uint32_t forward[4][256], backward[4][256];

static uint8_t product(uint8_t a, uint8_t b)
{
    uint8_t sum = 0;
    for (; b; b >>= 1) {
        if (b & 1)
            sum ^= a;
        a = (uint8_t)((a << 1) ^ (a & 0x80 ? 0x63 : 0));
    }
    return sum;
}

static uint8_t permuted(uint8_t x)
{
    static const int from[8] = { 3, 7, 5, 8, 6, 2, 4, 1 };
    uint8_t y = 0;
    for (int i = 0; i < 8; i++)
        y = (uint8_t)(y << 1 | (x >> (8 - from[i]) & 1));
    return y;
}

static uint32_t column(uint8_t x, const uint8_t *row, int place)
{
    uint32_t w = 0;
    for (int i = 0; i < 4; i++)
        w = w << 8 | product(row[(place - i + 4) & 3], x);
    return w;
}

static void tables(void)
{
    static const uint8_t row[4] = { 0xc4, 0x65, 0xc8, 0x8b }, inverse[4] = { 0x82, 0xc4, 0x34, 0xf6 };
    for (int x = 0; x < 256; x++) {
        uint8_t power = 1;
        for (int i = 0; i < 247; i++)
            power = product(power, permuted((uint8_t)x));
        hierocrypt3_s[x] = power ^ 0x07;
        unsubstituted[hierocrypt3_s[x]] = (uint8_t)x;
    }
    for (int x = 0; x < 256; x++)
        for (int j = 0; j < 4; j++) {
            forward[j][x] = column(hierocrypt3_s[x], row, j);
            backward[j][x] = column((uint8_t)x, inverse, j);
        }
}

static inline void substituted(uint32_t *rows, const uint8_t *table, const uint32_t *columns)
{
    for (int i = 0; i < 4; i++)
        rows[i] = word_of(table[at(columns[0], i)], table[at(columns[1], i)], table[at(columns[2], i)],
                          table[at(columns[3], i)]);
}

static inline void mixed(uint32_t *columns, uint32_t t[4][256], const uint32_t *rows)
{
    for (int i = 0; i < 4; i++)
        columns[i] = t[0][at(rows[0], i)] ^ t[1][at(rows[1], i)] ^ t[2][at(rows[2], i)] ^ t[3][at(rows[3], i)];
}

static inline void unmixed(uint32_t *columns, uint32_t t[4][256])
{
    for (int i = 0; i < 4; i++)
        columns[i] = t[0][at(columns[i], 0)] ^ t[1][at(columns[i], 1)] ^ t[2][at(columns[i], 2)] ^
                     t[3][at(columns[i], 3)];
}

static inline void mds_h(uint32_t *r)
{
    uint32_t p = r[0], q = r[1], u = r[2], v = r[3];
    uint32_t a = p ^ left(p, 8), b = q ^ left(q, 8), c = u ^ left(u, 8), d = v ^ left(v, 8);
    r[0] = a ^ c ^ left(p ^ q ^ v, 16) ^ left(p ^ q ^ u ^ v, 24);
    r[1] = a ^ b ^ d ^ left(p ^ q ^ u, 16) ^ left(q ^ u ^ v, 24);
    r[2] = a ^ b ^ c ^ left(p ^ q ^ u ^ v, 16) ^ left(u ^ v, 24);
    r[3] = b ^ d ^ left(p ^ u, 16) ^ left(p ^ q ^ u, 24);
}

static inline void mds_h_inverse(uint32_t *r)
{
    uint32_t p = r[0], q = r[1], u = r[2], v = r[3];
    uint32_t c0 = p ^ q ^ u ^ v, c1 = q ^ u ^ v, c2 = u ^ v, c3 = p ^ q ^ u;
    r[0] = q ^ v ^ left(c0, 8) ^ left(c0, 16) ^ left(q ^ u, 24);
    r[1] = p ^ u ^ left(c1, 8) ^ left(c1, 16) ^ left(p ^ u ^ v, 24);
    r[2] = p ^ q ^ v ^ left(c2, 8) ^ left(c2, 16) ^ left(q ^ v, 24);
    r[3] = p ^ u ^ v ^ left(c3, 8) ^ left(c3, 16) ^ left(p ^ q, 24);
}

static inline void encipher(uint32_t *columns, const struct hierocrypt3_keys *keys)
{
    uint32_t rows[4];
    turned(rows, columns);
    for (int t = 0; t < keys->rounds; t++) {
        if (t)
            mds_h(rows);
        add(rows, keys->k[t]);
        mixed(columns, forward, rows);
        add(columns, keys->k[t] + 4);
        substituted(rows, hierocrypt3_s, columns);
    }
    add(rows, keys->k[keys->rounds]);
    turned(columns, rows);
}

static inline void decipher(uint32_t *columns, const struct hierocrypt3_keys *keys)
{
    uint32_t rows[4];
    turned(rows, columns);
    add(rows, keys->k[keys->rounds]);
    for (int t = keys->rounds; t-- > 0;) {
        if (t < keys->rounds - 1)
            mds_h_inverse(rows);
        substituted(columns, unsubstituted, rows);
        add(columns, keys->k[t] + 4);
        unmixed(columns, backward);
        substituted(rows, unsubstituted, columns);
        add(rows, keys->k[t]);
    }
    turned(columns, rows);
}

static void blocks_of(int direction, const uint8_t *key, const uint8_t *in, uint8_t *out, size_t blocks)
{
    struct hierocrypt3_keys keys;
    uint32_t x[4];
    hierocrypt3_set_up(&keys, key);
    if (direction == ENCIPHER)
        for (; blocks; blocks--, in += 16, out += 16) {
            load4(x, in);
            encipher(x, &keys);
            store4(out, x);
        }
    else
        for (; blocks; blocks--, in += 16, out += 16) {
            load4(x, in);
            decipher(x, &keys);
            store4(out, x);
        }
}

static void cbc_of(int direction, const uint8_t *key, const uint8_t *first, const uint8_t *in, uint8_t *out,
                   size_t blocks)
{
    struct hierocrypt3_keys keys;
    uint32_t chain[4], x[4], next[4];
    hierocrypt3_set_up(&keys, key);
    load4(chain, first);
    if (direction == ENCIPHER)
        for (; blocks; blocks--, in += 16, out += 16) {
            load4(x, in);
            add(chain, x);
            encipher(chain, &keys);
            store4(out, chain);
        }
    else
        for (; blocks; blocks--, in += 16, out += 16) {
            load4(x, in);
            load4(next, in);
            decipher(x, &keys);
            add(x, chain);
            store4(out, x);
            for (int i = 0; i < 4; i++)
                chain[i] = next[i];
        }
}

static void seal_of(const uint8_t *key, const uint8_t *in, size_t length, uint8_t *seal)
{
    cmac(&hierocrypt3_yardstick, key, in, length, seal);
}

const struct yardstick hierocrypt3_yardstick = { tables, blocks_of, cbc_of, seal_of };
