/* The yardsticks: each cipher in C, and the small functions on words that they share. */
#ifndef SPEED_H
#define SPEED_H

#include <stddef.h>
#include <stdint.h>

enum { HIEROCRYPT3 = 1, E2 = 2, NOEKEON = 3, NOEKEON_EARLIER = 4 };
enum { ENCIPHER = 1, DECIPHER = 2 };

/* A cipher under a key of 16 bytes, which is set up in each call: whole blocks, each by
   itself or chained, and the seal of a message of any length, 16 bytes. */
struct yardstick {
    /* once, before anything else */
    void (*make_ready)(void);
    void (*blocks)(int direction, const uint8_t *key, const uint8_t *in, uint8_t *out, size_t blocks);
    void (*cbc)(int direction, const uint8_t *key, const uint8_t *first, const uint8_t *in, uint8_t *out,
                size_t blocks);
    void (*seal)(const uint8_t *key, const uint8_t *in, size_t length, uint8_t *seal);
};

extern const struct yardstick hierocrypt3_yardstick, e2_yardstick, noekeon_yardstick;

/* The seal over any cipher, for the bytes and not for the time: the key is set up for each block. */
void cmac(const struct yardstick *cipher, const uint8_t *key, const uint8_t *in, size_t length, uint8_t *seal);

static inline uint32_t left(uint32_t x, int n) { return x << n | x >> (32 - n); }

static inline uint8_t at(uint32_t w, int i) { return (uint8_t)(w >> (24 - 8 * i)); }

static inline uint32_t word_of(uint8_t a, uint8_t b, uint8_t c, uint8_t d)
{
    return (uint32_t)a << 24 | (uint32_t)b << 16 | (uint32_t)c << 8 | d;
}

static inline void load4(uint32_t *w, const uint8_t *b)
{
    for (int i = 0; i < 4; i++)
        w[i] = word_of(b[4 * i], b[4 * i + 1], b[4 * i + 2], b[4 * i + 3]);
}

static inline void store4(uint8_t *b, const uint32_t *w)
{
    for (int i = 0; i < 16; i++)
        b[i] = (uint8_t)(w[i / 4] >> (24 - 8 * (i & 3)));
}

static inline void add(uint32_t *x, const uint32_t *k)
{
    for (int i = 0; i < 4; i++)
        x[i] ^= k[i];
}

/* Rows for columns: byte j of word i becomes byte i of word j. */
static inline void turned(uint32_t *y, const uint32_t *x)
{
    const uint32_t odd = 0xff00ff00, even = 0x00ff00ff;
    uint32_t a = (x[0] & odd) | (x[1] >> 8 & even), b = (x[0] << 8 & odd) | (x[1] & even);
    uint32_t c = (x[2] & odd) | (x[3] >> 8 & even), d = (x[2] << 8 & odd) | (x[3] & even);
    y[0] = (a & 0xffff0000) | c >> 16;
    y[1] = (b & 0xffff0000) | d >> 16;
    y[2] = a << 16 | (c & 0xffff);
    y[3] = b << 16 | (d & 0xffff);
}

#endif
