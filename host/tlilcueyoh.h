/* Tlilcueyoh: one block of Hierocrypt-3, E2 or either Noekeon, enciphered or deciphered.
   Follows document 01, 'What is built' and 'Refusal numbers', and 02, requests 2 and 7.

   The entry works ONE block and doesn't chain: a card of several blocks is CBC, which
   the caller does around it. host/example/card.c has both directions, for copying. */
#ifndef TLILCUEYOH_H
#define TLILCUEYOH_H

#include <stddef.h>
#include <stdint.h>

#ifdef __cplusplus
extern "C" {
#endif

/* The version that this header speaks of. The archive's is what tlilcueyoh_version
   answers: a host that compares them notices an archive of another version. In version 1
   the number 3 was the earlier Noekeon, and there was no 4; before version 3 a blank key
   was taken. */
#define TLILCUEYOH_VERSION 3

/* Every block has this many bytes. */
#define TLILCUEYOH_BLOCK_BYTES 16

/* No call needs more stack than this; host/check measures it. */
#define TLILCUEYOH_STACK_BYTES 4352

/* Ciphers, with their legal key lengths in bytes. */
#define TLILCUEYOH_HIEROCRYPT3     1 /* 16, 24 or 32 */
#define TLILCUEYOH_E2              2 /* 16, 24 or 32 */
#define TLILCUEYOH_NOEKEON         3 /* 16; as its designers published it */
#define TLILCUEYOH_NOEKEON_EARLIER 4 /* 16; as document 003 has it: for cards sold as number 3 before version 2 */

/* Directions. */
#define TLILCUEYOH_ENCIPHER 1
#define TLILCUEYOH_DECIPHER 2

/* Answers: done, or the first refusal in this order whose cause applies.
   The order is that of the tests and not that of the numbers. TLILCUEYOH_BLOCK_LENGTH
   and TLILCUEYOH_KEY_LENGTH are refusals and not lengths. */
#define TLILCUEYOH_DONE            0
#define TLILCUEYOH_UNKNOWN_CIPHER  1 /* cipher isn't 1 to 4 */
#define TLILCUEYOH_KEY_LENGTH      2 /* key_len is illegal for the cipher */
#define TLILCUEYOH_BLANK_KEY      17 /* the key's bytes are all equal */
#define TLILCUEYOH_DIRECTION       4 /* direction isn't 1 or 2 */
#define TLILCUEYOH_BLOCK_LENGTH   11 /* in_len isn't 16 */
#define TLILCUEYOH_NO_ROOM         9 /* out_len is under 16 */

/* Enciphers or deciphers the block `in` under `key`, and writes it to `out`.

   cipher     TLILCUEYOH_HIEROCRYPT3, _E2, _NOEKEON or _NOEKEON_EARLIER; all 64 bits count:
              257 isn't 1
   direction  TLILCUEYOH_ENCIPHER or _DECIPHER; all 64 bits count
   key        key_len bytes, the key; only read
   in         in_len bytes, the block; only read
   out        out_len bytes of room

   The caller sees to it that
   - each pointer is good for its length: key and in for reading, out for writing.
     A pointer with length 0 may be null; no other may;
   - no byte of out's out_len bytes is also a byte of key or of in, even where the
     call is going to be refused. A block can't be worked in place: input and output
     are never the same bytes. key and in are only read and may overlap each other;
   - no one else writes key or in, or touches out, while the call runs.
   Otherwise the behaviour is undefined.

   Promised, for every input that meets this:
   - the answer is TLILCUEYOH_DONE if no refusal's cause applies, and else the first
     refusal whose cause does;
   - done: the first 16 bytes of out are the block enciphered or deciphered, and the
     rest of out is left as it was;
   - refused: no byte is written;
   - of the caller's memory, nothing outside the three buffers is read or written;
   - deciphering what was enciphered with the same cipher and key gives the block back;
   - the answer and the bytes depend on the arguments alone. There is no state between
     calls, so calls may run at the same time in any number of threads.

   Not promised: that the time taken tells nothing of key or block, or that traces of
   the key are wiped from the stack. host/example/card.c has a wrapper that wipes. */
uint64_t tlilcueyoh_block(uint64_t cipher, uint64_t direction,
                          const uint8_t *key, size_t key_len,
                          const uint8_t *in, size_t in_len,
                          uint8_t *out, size_t out_len);

/* The archive's version: TLILCUEYOH_VERSION, if header and archive belong together. */
uint64_t tlilcueyoh_version(void);

#ifdef __cplusplus
}
#endif

#endif
