/* E2's round keys for a key of 16 bytes, in C as one would write them for speed: 001, 'Computation of the round
   subkeys', on words. */
#include "e2.h"

static const uint32_t g[2] = { 0x01234567, 0x89abcdef };

/* K2 and K3 of a short key: S three and four times on g. */
static const uint32_t missing[4] = { 0x582ed330, 0x84499eb8, 0xeccf5709, 0x2e5000d8 };

/* G: y becomes Y of itself, and l is L, whose last part is the next U. */
static inline void g_of(uint32_t l[4][2], uint32_t y[4][2], const uint32_t *u)
{
    for (int i = 0; i < 4; i++) {
        e2_ps(y[i], y[i][0], y[i][1]);
        e2_ps(l[i], u[0], u[1]);
        l[i][0] ^= y[i][0];
        l[i][1] ^= y[i][1];
        u = l[i];
    }
}

/* Where k(number + 1) stands in the order of use. */
static inline int place(int number, int direction)
{
    if (direction == ENCIPHER)
        return number;
    return number < 12 ? 11 - number : 27 - number;
}

/* Bytes 4 half to 4 half + 3 of every second q, for word w of the keys that they make. */
static inline void spread(uint32_t k[16][4], uint32_t q[32][2], int w, int odd, int half, int direction)
{
    uint32_t rows[4], columns[4];
    for (int i = 0; i < 4; i++)
        rows[i] = q[8 * w + 2 * i + odd][half];
    turned(columns, rows);
    for (int i = 0; i < 4; i++)
        k[place(2 * (4 * half + i) + odd, direction)][w] = columns[i];
}

void e2_set_up(uint32_t k[16][4], const uint8_t *key, int direction)
{
    uint32_t x[4], l[4][2], q[32][2];
    load4(x, key);
    uint32_t y[4][2] = { { x[0], x[1] }, { x[2], x[3] }, { missing[0], missing[1] }, { missing[2], missing[3] } };
    g_of(l, y, g);
    g_of(q, y, l[3]);
    for (int i = 4; i < 32; i += 4)
        g_of(q + i, y, q[i - 1]);
    for (int w = 0; w < 4; w++)
        for (int odd = 0; odd < 2; odd++)
            for (int half = 0; half < 2; half++)
                spread(k, q, w, odd, half, direction);
}
