/* Noekeon by libtomcrypt, whose omac is the CMAC. */
#include "speed.h"

#include <stdio.h>
#include <stdlib.h>
#include <tomcrypt.h>

static int number;

static void well(int answer)
{
    if (answer == CRYPT_OK)
        return;
    fprintf(stderr, "libtomcrypt: %s\n", error_to_string(answer));
    exit(1);
}

static void make_ready(void)
{
    number = register_cipher(&noekeon_desc);
    if (number < 0)
        well(CRYPT_INVALID_CIPHER);
}

static void blocks_of(int direction, const uint8_t *key, const uint8_t *in, uint8_t *out, size_t blocks)
{
    symmetric_key keys;
    well(noekeon_setup(key, 16, 0, &keys));
    if (direction == ENCIPHER)
        for (; blocks; blocks--, in += 16, out += 16)
            noekeon_ecb_encrypt(in, out, &keys);
    else
        for (; blocks; blocks--, in += 16, out += 16)
            noekeon_ecb_decrypt(in, out, &keys);
}

static void cbc_of(int direction, const uint8_t *key, const uint8_t *first, const uint8_t *in, uint8_t *out,
                   size_t blocks)
{
    symmetric_CBC cbc;
    well(cbc_start(number, first, key, 16, 0, &cbc));
    well((direction == ENCIPHER ? cbc_encrypt : cbc_decrypt)(in, out, (unsigned long)(16 * blocks), &cbc));
    well(cbc_done(&cbc));
}

static void seal_of(const uint8_t *key, const uint8_t *in, size_t length, uint8_t *seal)
{
    unsigned long room = 16;
    well(omac_memory(number, key, 16, in, (unsigned long)length, seal, &room));
}

const struct yardstick noekeon_yardstick = { make_ready, blocks_of, cbc_of, seal_of };
