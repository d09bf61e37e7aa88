/* Noekeon against libtomcrypt's, which others wrote after its designers: random blocks through the entry, and random
   messages through the stream, in one piece and byte by byte. And the earlier Noekeon gives other blocks than it.
   Ends with 0 only if this is so, and says how much was compared. */
#include "../speed/proved.h"
#include "../speed/speed.h"
#include "../test/random.h"
#include "../tlilcueyoh.h"
#include "print.h"

#include <stdio.h>
#include <stdlib.h>
#include <string.h>

enum { KEYS = 20000, MESSAGES = 10000, EARLIER_KEYS = 500 };
enum { BLOCK = TLILCUEYOH_BLOCK_BYTES, MOST_BLOCKS = 20, MOST = BLOCK * MOST_BLOCKS };

/* What is worked, and what came of it on both sides. */
struct message {
    int direction;
    uint8_t key[16], first[BLOCK], in[MOST];
    size_t length;
    uint8_t ours[MOST], theirs[MOST];
};

static unsigned long blocks_compared, messages_compared, others;

static void fails(const struct message *message, const char *what, uint64_t answer)
{
    fprintf(stderr, "tomcrypt: %s, %s, answered %d\n", what,
            message->direction == ENCIPHER ? "enciphered" : "deciphered", (int)answer);
    print_bytes("key", message->key, sizeof message->key);
    print_bytes("first block", message->first, sizeof message->first);
    print_bytes("input", message->in, message->length);
    print_bytes("ours", message->ours, message->length);
    print_bytes("libtomcrypt", message->theirs, message->length);
    exit(1);
}

/* The bytes behind the message are zero on both sides. */
static void hold(const struct message *message, const char *what, uint64_t answer)
{
    if (answer != TLILCUEYOH_DONE || memcmp(message->ours, message->theirs, MOST) != 0)
        fails(message, what, answer);
}

static struct message some_message(int direction, size_t blocks)
{
    struct message message = { .direction = direction, .length = BLOCK * blocks };
    random_bytes(message.key, sizeof message.key);
    random_bytes(message.first, sizeof message.first);
    random_bytes(message.in, message.length);
    return message;
}

static uint64_t by_entry(struct message *message, uint64_t cipher)
{
    return tlilcueyoh_block(cipher, (uint64_t)message->direction, message->key, sizeof message->key, message->in, BLOCK,
                            message->ours, BLOCK);
}

static void compare_block(int direction)
{
    struct message message = some_message(direction, 1);
    noekeon_yardstick.blocks(direction, message.key, message.in, message.theirs, 1);
    hold(&message, "a block differs from libtomcrypt's", by_entry(&message, TLILCUEYOH_NOEKEON));
    blocks_compared++;
}

static void in_one_piece(struct message *message)
{
    uint64_t answer = tlilcueyoh_speed_cbc(TLILCUEYOH_NOEKEON, (uint64_t)message->direction, message->key,
                                           sizeof message->key, message->first, BLOCK, message->in, message->length,
                                           message->ours, message->length);
    hold(message, "a message in one piece differs from libtomcrypt's", answer);
}

/* Only the last whole block stands in the output, so each is had by a stream that ends less than a block behind it. */
static void byte_by_byte(struct message *message)
{
    uint64_t answer = TLILCUEYOH_DONE;
    memset(message->ours, 0, MOST);
    for (size_t at = 0; at < message->length && answer == TLILCUEYOH_DONE; at += BLOCK) {
        size_t more = at + BLOCK < message->length ? random_below(BLOCK) : 0;
        answer = tlilcueyoh_speed_bytes(TLILCUEYOH_NOEKEON, (uint64_t)message->direction, message->key,
                                        sizeof message->key, message->first, BLOCK, message->in, at + BLOCK + more,
                                        message->ours + at, BLOCK);
    }
    hold(message, "a message byte by byte differs from libtomcrypt's", answer);
}

static void compare_message(int direction)
{
    size_t blocks = random_below(MOST_BLOCKS + 1);
    struct message message = some_message(direction, blocks);
    noekeon_yardstick.cbc(direction, message.key, message.first, message.in, message.theirs, blocks);
    in_one_piece(&message);
    byte_by_byte(&message);
    messages_compared++;
}

static void tell_apart(int direction)
{
    struct message message = some_message(direction, 1);
    noekeon_yardstick.blocks(direction, message.key, message.in, message.theirs, 1);
    uint64_t answer = by_entry(&message, TLILCUEYOH_NOEKEON_EARLIER);
    if (answer != TLILCUEYOH_DONE || memcmp(message.ours, message.theirs, BLOCK) == 0)
        fails(&message, "a block of the earlier Noekeon doesn't differ from libtomcrypt's", answer);
    others++;
}

static void both_ways(void (*compare)(int direction), int times)
{
    for (int n = 0; n < times; n++) {
        compare(ENCIPHER);
        compare(DECIPHER);
    }
}

int main(void)
{
    noekeon_yardstick.make_ready();
    both_ways(compare_block, KEYS);
    both_ways(compare_message, MESSAGES);
    both_ways(tell_apart, EARLIER_KEYS);
    printf("tomcrypt: %lu blocks, and %lu messages in one piece and byte by byte, all as libtomcrypt gives them; "
           "%lu blocks of the earlier Noekeon, all others\n", blocks_compared, messages_compared, others);
    return 0;
}
