/* E2 in C as one would write it for speed: halves of two words, the odd inverse by the same doubling.
   A yardstick of host/bench; nothing of the product uses it. */
#include "e2.h"

uint8_t e2_s[256];

static uint8_t product(uint8_t a, uint8_t b)
{
    uint8_t sum = 0;
    for (; b; b >>= 1) {
        if (b & 1)
            sum ^= a;
        a = (uint8_t)((a << 1) ^ (a & 0x80 ? 0x1b : 0));
    }
    return sum;
}

static void tables(void)
{
    for (int x = 0; x < 256; x++) {
        uint8_t power = 1;
        for (int i = 0; i < 127; i++)
            power = product(power, (uint8_t)x);
        e2_s[x] = (uint8_t)(97 * power + 225);
    }
}

static uint32_t inverse(uint32_t z)
{
    uint32_t y = 3 * z ^ 2;
    for (int right = 4; right < 32; right *= 2)
        y *= 2 - z * y;
    return y;
}

static inline void f(uint32_t *l, const uint32_t *right, const uint32_t *k)
{
    uint32_t y[2];
    e2_ps(y, right[0] ^ k[0], right[1] ^ k[1]);
    uint32_t a = e2_substituted(y[0] ^ k[2]), b = e2_substituted(y[1] ^ k[3]);
    l[0] ^= a << 8 | b >> 24;
    l[1] ^= b << 8 | a >> 24;
}

static inline void permuted(uint32_t *y, const uint32_t *x, int step)
{
    for (int i = 0; i < 4; i++)
        y[i] = (x[i] & 0xff000000) | (x[(i + step) & 3] & 0xff0000) | (x[(i + 2 * step) & 3] & 0xff00) |
               (x[(i + 3 * step) & 3] & 0xff);
}

/* One block in place, in the direction that the keys are ordered for. */
static inline void work(uint32_t *x, const uint32_t k[16][4])
{
    uint32_t m[4];
    for (int i = 0; i < 4; i++)
        x[i] = (x[i] ^ k[12][i]) * (k[13][i] | 1);
    permuted(m, x, 1);
    for (int i = 0; i < 12; i += 2) {
        f(m, m + 2, k[i]);
        f(m + 2, m, k[i + 1]);
    }
    uint32_t swapped[4] = { m[2], m[3], m[0], m[1] };
    permuted(x, swapped, 3);
    for (int i = 0; i < 4; i++)
        x[i] = x[i] * inverse(k[14][i] | 1) ^ k[15][i];
}

static void blocks_of(int direction, const uint8_t *key, const uint8_t *in, uint8_t *out, size_t blocks)
{
    uint32_t k[16][4], x[4];
    e2_set_up(k, key, direction);
    for (; blocks; blocks--, in += 16, out += 16) {
        load4(x, in);
        work(x, (const uint32_t (*)[4])k);
        store4(out, x);
    }
}

static void cbc_of(int direction, const uint8_t *key, const uint8_t *first, const uint8_t *in, uint8_t *out,
                   size_t blocks)
{
    uint32_t k[16][4], chain[4], x[4], next[4];
    e2_set_up(k, key, direction);
    load4(chain, first);
    if (direction == ENCIPHER)
        for (; blocks; blocks--, in += 16, out += 16) {
            load4(x, in);
            add(chain, x);
            work(chain, (const uint32_t (*)[4])k);
            store4(out, chain);
        }
    else
        for (; blocks; blocks--, in += 16, out += 16) {
            load4(x, in);
            load4(next, in);
            work(x, (const uint32_t (*)[4])k);
            add(x, chain);
            store4(out, x);
            for (int i = 0; i < 4; i++)
                chain[i] = next[i];
        }
}

static void seal_of(const uint8_t *key, const uint8_t *in, size_t length, uint8_t *seal)
{
    cmac(&e2_yardstick, key, in, length, seal);
}

const struct yardstick e2_yardstick = { tables, blocks_of, cbc_of, seal_of };
