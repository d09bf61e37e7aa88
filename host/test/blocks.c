/* What the entry makes of good calls: known blocks, and there and back again. */
#include "call.h"
#include "checks.h"

#include <stdio.h>
#include <string.h>

struct vector {
    uint64_t cipher;
    const char *key, *plain, *ciphered;
};

/* The first three are those of document 002, section 4, with its misprints settled; Noekeon's
   are libtomcrypt's own test and another answer of it; the others are answers of the second
   program. The last, on the same key and block, is the earlier Noekeon's. */
static const struct vector vectors[] = {
    {TLILCUEYOH_HIEROCRYPT3, "4703c87e817842c4ce6b167d43701b76",
     "85693846db4c1b3487272e555761c7f5", "5c5f4b00aec36d893cf1041e7fa8bae8"},
    {TLILCUEYOH_HIEROCRYPT3, "7742a03889b58601f74d551388872377324fbc1d30c54fc6",
     "544066209d931b330c9089fdb4cb8259", "1d3105988dbbd50cb0a17193ea5ba244"},
    {TLILCUEYOH_HIEROCRYPT3, "11a180269a78dda4994746213b5a6dd6e34ffe0cc465d583aff66e1329419c94",
     "c16d7efca1cbafc7625cbe9c2593de2d", "c86cd3b4a3185232e3457d638c6515c9"},
    {TLILCUEYOH_E2, "000102030405060708090a0b0c0d0e0f",
     "00112233445566778899aabbccddeeff", "dc5fb3d23836b62532ad59fa023f6645"},
    {TLILCUEYOH_E2, "000102030405060708090a0b0c0d0e0f1011121314151617",
     "00112233445566778899aabbccddeeff", "67c5b8290d4d672fb2bbc0a981c0d11d"},
    {TLILCUEYOH_E2, "000102030405060708090a0b0c0d0e0f101112131415161718191a1b1c1d1e1f",
     "00112233445566778899aabbccddeeff", "60543d0346ebbd0ecadff442f38309aa"},
    {TLILCUEYOH_NOEKEON, "aa3c8c86d98bf8be21e0360978fbe490",
     "e4966cd313a06cafd023c9fd45322316", "a6ecb8a861fd62d91302fe9e47013fc3"},
    {TLILCUEYOH_NOEKEON, "000102030405060708090a0b0c0d0e0f",
     "00112233445566778899aabbccddeeff", "bc0f896c2f202862871805418ce171bf"},
    {TLILCUEYOH_NOEKEON_EARLIER, "000102030405060708090a0b0c0d0e0f",
     "00112233445566778899aabbccddeeff", "ef6a546cf0214ca5982e043e46fd1fb2"},
};

static size_t read_hex(uint8_t *bytes, const char *hex)
{
    size_t length = strlen(hex) / 2;
    for (size_t i = 0; i < length; i++) {
        unsigned byte = 0;
        sscanf(hex + 2 * i, "%2x", &byte);
        bytes[i] = (uint8_t)byte;
    }
    return length;
}

static void check_vector(const struct vector *vector, uint64_t direction, enum layout layout)
{
    uint8_t wanted[TLILCUEYOH_BLOCK_BYTES], worked[TLILCUEYOH_BLOCK_BYTES];
    int forth = direction == TLILCUEYOH_ENCIPHER;
    struct call call = good_call((struct kind){vector->cipher, 0}, direction);
    set_layouts(&call, layout);
    call.key_length = read_hex(call.key, vector->key);
    read_hex(call.block, forth ? vector->plain : vector->ciphered);
    read_hex(wanted, forth ? vector->ciphered : vector->plain);
    expect(&call, TLILCUEYOH_DONE, worked);
    if (memcmp(worked, wanted, sizeof wanted) != 0)
        differs(&call, "out isn't the block of the known vector");
}

void check_vectors(void)
{
    for (size_t v = 0; v < sizeof vectors / sizeof *vectors; v++)
        for (enum layout layout = CANARIES; layout < LAYOUTS; layout++) {
            check_vector(&vectors[v], TLILCUEYOH_ENCIPHER, layout);
            check_vector(&vectors[v], TLILCUEYOH_DECIPHER, layout);
        }
}

void check_round_trips(void)
{
    for (int k = 0; k < KINDS; k++)
        for (uint64_t direction = TLILCUEYOH_ENCIPHER; direction <= TLILCUEYOH_DECIPHER; direction++)
            for (enum layout layout = CANARIES; layout < LAYOUTS; layout++) {
                struct call call = good_call(kinds[k], direction);
                set_layouts(&call, layout);
                expect_round_trip(&call);
            }
}

/* The header allows key and block to be the same bytes. */
void check_shared_key_and_block(void)
{
    for (int k = 0; k < KINDS; k++) {
        uint8_t apart[TLILCUEYOH_BLOCK_BYTES], shared[TLILCUEYOH_BLOCK_BYTES];
        struct call call = good_call(kinds[k], TLILCUEYOH_ENCIPHER);
        memcpy(call.block, call.key, TLILCUEYOH_BLOCK_BYTES);
        expect(&call, TLILCUEYOH_DONE, apart);
        uint64_t answer = counted(call.cipher, call.direction, call.key, call.key_length,
                                  call.key, TLILCUEYOH_BLOCK_BYTES, shared, sizeof shared);
        if (answer != TLILCUEYOH_DONE || memcmp(shared, apart, sizeof shared) != 0)
            differs(&call, "key and block in the same bytes came out otherwise");
    }
}
