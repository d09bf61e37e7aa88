/* Lengths that end in a legal one in 8, 16 or 32 bits. The bytes are there, so that
   each call is one that the header allows. */
#define _DEFAULT_SOURCE
#include "call.h"
#include "checks.h"

#include <sys/mman.h>

static uint8_t *mapped(size_t length)
{
    uint8_t *bytes = mmap(NULL, length, PROT_READ | PROT_WRITE,
                          MAP_PRIVATE | MAP_ANONYMOUS | MAP_NORESERVE, -1, 0);
    if (bytes == MAP_FAILED)
        fails("no address space to try wide lengths in");
    return bytes;
}

static void check_wide(struct kind kind, uint8_t *bytes, size_t more)
{
    struct call call = good_call(kind, TLILCUEYOH_ENCIPHER);
    uint8_t out[TLILCUEYOH_BLOCK_BYTES];
    if (counted(call.cipher, call.direction, bytes, call.key_length + more,
                call.block, call.block_length, out, sizeof out) != TLILCUEYOH_KEY_LENGTH)
        differs(&call, "a key far longer than this one wasn't refused as such");
    if (counted(call.cipher, call.direction, call.key, call.key_length,
                bytes, call.block_length + more, out, sizeof out) != TLILCUEYOH_BLOCK_LENGTH)
        differs(&call, "a block far longer than this one wasn't refused as such");
    if (counted(call.cipher, call.direction, call.key, call.key_length,
                call.block, call.block_length, bytes, 15 + more) != TLILCUEYOH_DONE)
        differs(&call, "a room far larger than this one was refused");
}

void check_wide_lengths(void)
{
    static const size_t more[] = {(size_t)1 << 8, (size_t)1 << 16, (size_t)1 << 32};
    size_t length = ((size_t)1 << 32) + LONGEST;
    uint8_t *bytes = mapped(length);
    for (int k = 0; k < KINDS; k++)
        for (size_t m = 0; m < sizeof more / sizeof *more; m++)
            check_wide(kinds[k], bytes, more[m]);
    munmap(bytes, length);
}
