/* One block of a card, deciphered as the controller's firmware does it, for copying: the call, and what to do after
   each of its answers. The entry works one block and doesn't chain; a card of several blocks is card.c's.
   It reads nothing but the arrays below and prints what it did. */
#include "tlilcueyoh.h"

#include <stdio.h>
#include <string.h>

/* The first test data of document 002, section 4, with its broken digits settled (second/README.md). */
static const uint8_t key[16] = {0x47, 0x03, 0xc8, 0x7e, 0x81, 0x78, 0x42, 0xc4,
                                0xce, 0x6b, 0x16, 0x7d, 0x43, 0x70, 0x1b, 0x76};
static const uint8_t card[TLILCUEYOH_BLOCK_BYTES] = {0x5c, 0x5f, 0x4b, 0x00, 0xae, 0xc3, 0x6d, 0x89,
                                                     0x3c, 0xf1, 0x04, 0x1e, 0x7f, 0xa8, 0xba, 0xe8};
static const uint8_t recipe[TLILCUEYOH_BLOCK_BYTES] = {0x85, 0x69, 0x38, 0x46, 0xdb, 0x4c, 0x1b, 0x34,
                                                       0x87, 0x27, 0x2e, 0x55, 0x57, 0x61, 0xc7, 0xf5};

/* What a key that was never written reads as. */
static const uint8_t blank[16] = {0xff, 0xff, 0xff, 0xff, 0xff, 0xff, 0xff, 0xff,
                                  0xff, 0xff, 0xff, 0xff, 0xff, 0xff, 0xff, 0xff};

/* Only after USE_BLOCK does the output hold a block: no refusal writes a byte. */
enum next { USE_BLOCK, READ_CARD_AGAIN, ASK_FOR_KEY, REJECT_CARD, STOP };

static enum next after(uint64_t answer)
{
    switch (answer) {
    case TLILCUEYOH_DONE:
        printf("done: the block is used\n");
        return USE_BLOCK;
    case TLILCUEYOH_UNKNOWN_CIPHER:
        printf("unknown cipher: the card is not for this controller and is rejected\n");
        return REJECT_CARD;
    case TLILCUEYOH_KEY_LENGTH:
        printf("key length: the cipher takes no key of this length, the potter is asked for the key\n");
        return ASK_FOR_KEY;
    case TLILCUEYOH_BLANK_KEY:
        printf("blank key: its bytes are all equal, as where none was written, the potter is asked for the key\n");
        return ASK_FOR_KEY;
    case TLILCUEYOH_DIRECTION:
        printf("direction: neither of the two, a fault of this program, which stops\n");
        return STOP;
    case TLILCUEYOH_BLOCK_LENGTH:
        printf("block length: not 16 bytes, the card was not read whole and is read again\n");
        return READ_CARD_AGAIN;
    case TLILCUEYOH_NO_ROOM:
        printf("no room: under 16 bytes of output, a fault of this program, which stops\n");
        return STOP;
    default:
        printf("an answer that tlilcueyoh.h does not have: archive and header do not belong together\n");
        return STOP;
    }
}

/* A call by its numbers, key and lengths. The first is good; each of the others has one fault. */
struct call {
    uint64_t cipher, direction;
    const uint8_t *key;
    size_t key_length, block_length, room;
    enum next next;
};

static const struct call calls[] = {
    {TLILCUEYOH_HIEROCRYPT3, TLILCUEYOH_DECIPHER, key, sizeof key, sizeof card, sizeof recipe, USE_BLOCK},
    {5, TLILCUEYOH_DECIPHER, key, sizeof key, sizeof card, sizeof recipe, REJECT_CARD},
    {TLILCUEYOH_HIEROCRYPT3, TLILCUEYOH_DECIPHER, key, 15, sizeof card, sizeof recipe, ASK_FOR_KEY},
    {TLILCUEYOH_HIEROCRYPT3, TLILCUEYOH_DECIPHER, blank, sizeof blank, sizeof card, sizeof recipe, ASK_FOR_KEY},
    {TLILCUEYOH_HIEROCRYPT3, 0, key, sizeof key, sizeof card, sizeof recipe, STOP},
    {TLILCUEYOH_HIEROCRYPT3, TLILCUEYOH_DECIPHER, key, sizeof key, 15, sizeof recipe, READ_CARD_AGAIN},
    {TLILCUEYOH_HIEROCRYPT3, TLILCUEYOH_DECIPHER, key, sizeof key, sizeof card, 15, STOP},
};

static void use(const uint8_t *block)
{
    for (size_t i = 0; i < TLILCUEYOH_BLOCK_BYTES; i++)
        printf("%02x", block[i]);
    printf("\n");
}

int main(void)
{
    for (size_t i = 0; i < sizeof calls / sizeof *calls; i++) {
        const struct call *call = &calls[i];
        uint8_t out[TLILCUEYOH_BLOCK_BYTES];
        uint64_t answer = tlilcueyoh_block(call->cipher, call->direction, call->key, call->key_length, card,
                                           call->block_length, out, call->room);
        enum next next = after(answer);
        if (next != call->next)
            return 1;
        if (next == USE_BLOCK) {
            use(out);
            if (memcmp(out, recipe, sizeof recipe) != 0)
                return 1;
        }
    }
    return 0;
}
