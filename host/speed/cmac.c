/* The seal: the CMAC of NIST SP 800-38B. */
#include "speed.h"

#include <string.h>

/* By x in the field of 2^128 elements: K1 of the enciphered zero block, K2 of K1. */
static void doubled(uint8_t *block)
{
    uint8_t over = block[0] >> 7 ? 0x87 : 0;
    for (int i = 0; i < 15; i++)
        block[i] = (uint8_t)(block[i] << 1 | block[i + 1] >> 7);
    block[15] = (uint8_t)(block[15] << 1 ^ over);
}

/* The last block, of `length` bytes: a whole one with K1, any other padded with a one bit and with K2. */
static void last_block(uint8_t *last, uint8_t *subkey, const uint8_t *in, size_t length)
{
    doubled(subkey);
    memcpy(last, in, length);
    if (length < 16) {
        doubled(subkey);
        memset(last + length, 0, 16 - length);
        last[length] = 0x80;
    }
    for (int i = 0; i < 16; i++)
        last[i] ^= subkey[i];
}

void cmac(const struct yardstick *cipher, const uint8_t *key, const uint8_t *in, size_t length, uint8_t *seal)
{
    static const uint8_t zero[16];
    uint8_t subkey[16], last[16];
    cipher->blocks(ENCIPHER, key, zero, subkey, 1);
    memset(seal, 0, 16);
    for (; length > 16; length -= 16, in += 16)
        cipher->cbc(ENCIPHER, key, seal, in, seal, 1);
    last_block(last, subkey, in, length);
    cipher->cbc(ENCIPHER, key, seal, last, seal, 1);
}
