/* A card of several blocks in CBC with the entry, for copying: C(j) = E(P(j) xor C(j-1)) and P(j) = D(C(j)) xor C(j-1),
   C(0) the first block (document 01, 'Refusal numbers', last paragraph).

   The entry sets the key up in every call, since it keeps nothing between calls. What that costs is the difference of the
   lines `entry-` and CIPHER-WAY in docs/BENCHMARK.md: with Hierocrypt-3 one and a half to two times the block's own time,
   with E2 one and a third, with either Noekeon a third. Firmware that has Rattle, and not C, around it calls `set_up`
   once and feeds a stream.

   card CIPHER DIRECTION KEY FIRST: numbers, and hex digits; the message from standard input, the result to standard
   output. It ends with 1 if a call is refused or the message isn't whole blocks. A card that was sold as cipher 3 before
   version 2 is deciphered as cipher 4: no answer tells the two Noekeons apart, since any bytes can be deciphered. */
#include "tlilcueyoh.h"

#include <stdio.h>
#include <stdlib.h>
#include <string.h>

/* The call, and then the stack that it used overwritten: traces of the key and of the round keys are gone from there.
   It can't reach what the compiler keeps in registers, what an interrupt saved, what the caller's own frame holds, or
   copies in caches. It has to be the same function that calls and wipes, at the same depth, and not be inlined. */
static void wipe(void)
{
    volatile uint8_t stack[TLILCUEYOH_STACK_BYTES];
    for (size_t i = 0; i < sizeof stack; i++)
        stack[i] = 0;
}

static uint64_t block_wiped(uint64_t cipher, uint64_t direction, const uint8_t *key, size_t key_len,
                            const uint8_t in[TLILCUEYOH_BLOCK_BYTES], uint8_t out[TLILCUEYOH_BLOCK_BYTES])
{
    static uint64_t (*volatile call)(uint64_t, uint64_t, const uint8_t *, size_t, const uint8_t *, size_t, uint8_t *,
                                     size_t) = tlilcueyoh_block;
    static void (*volatile wiped)(void) = wipe;
    uint64_t answer = call(cipher, direction, key, key_len, in, TLILCUEYOH_BLOCK_BYTES, out, TLILCUEYOH_BLOCK_BYTES);
    wiped();
    return answer;
}

static void xor_block(uint8_t *to, const uint8_t *with)
{
    for (size_t i = 0; i < TLILCUEYOH_BLOCK_BYTES; i++)
        to[i] ^= with[i];
}

/* The message's blocks to `out`, which is no byte of the message; `chain` is the first block, and then the last ciphertext
   block. At a refusal the output holds the blocks before it. */
static uint64_t card(uint64_t cipher, uint64_t direction, const uint8_t *key, size_t key_len, uint8_t *chain,
                     const uint8_t *in, size_t length, uint8_t *out)
{
    for (size_t at = 0; at < length; at += TLILCUEYOH_BLOCK_BYTES) {
        uint8_t block[TLILCUEYOH_BLOCK_BYTES];
        memcpy(block, in + at, sizeof block);
        if (direction == TLILCUEYOH_ENCIPHER)
            xor_block(block, chain);
        uint64_t answer = block_wiped(cipher, direction, key, key_len, block, out + at);
        if (answer != TLILCUEYOH_DONE)
            return answer;
        if (direction == TLILCUEYOH_DECIPHER)
            xor_block(out + at, chain);
        memcpy(chain, direction == TLILCUEYOH_ENCIPHER ? out + at : in + at, TLILCUEYOH_BLOCK_BYTES);
    }
    return TLILCUEYOH_DONE;
}

static size_t bytes_of(const char *hex, uint8_t *bytes, size_t most)
{
    size_t n = 0;
    for (unsigned byte; n < most && sscanf(hex + 2 * n, "%2x", &byte) == 1; n++)
        bytes[n] = (uint8_t)byte;
    return n;
}

int main(int words, char **word)
{
    static uint8_t in[1 << 20], out[1 << 20];
    uint8_t key[33], first[TLILCUEYOH_BLOCK_BYTES];
    if (tlilcueyoh_version() != TLILCUEYOH_VERSION || words != 5)
        return 1;
    size_t key_len = bytes_of(word[3], key, sizeof key);
    size_t length = fread(in, 1, sizeof in, stdin);
    if (bytes_of(word[4], first, sizeof first) != sizeof first || length % TLILCUEYOH_BLOCK_BYTES != 0)
        return 1;
    if (card(strtoull(word[1], NULL, 10), strtoull(word[2], NULL, 10), key, key_len, first, in, length, out) != TLILCUEYOH_DONE)
        return 1;
    return fwrite(out, 1, length, stdout) != length;
}
