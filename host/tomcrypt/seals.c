/* The seal under Noekeon against libtomcrypt's omac, which is the CMAC that others wrote: random messages of every
   length up to 200 bytes, in one piece and byte by byte. And the earlier Noekeon gives other seals than it.
   Ends with 0 only if this is so, and says how much was compared. */
#include "../speed/proved.h"
#include "../speed/speed.h"
#include "../test/random.h"
#include "../tlilcueyoh.h"
#include "print.h"

#include <stdio.h>
#include <stdlib.h>
#include <string.h>

/* So many messages of each length. */
enum { MESSAGES = 50, EARLIER_MESSAGES = 5 };
enum { MOST = 200, SEAL = 16, MOST_ROOM = 3 * SEAL };

/* What is sealed, what stands in the output before, and what came of it on both sides. */
struct message {
    uint8_t key[16], in[MOST];
    size_t length, room;
    uint8_t before[MOST_ROOM], ours[MOST_ROOM], theirs[MOST_ROOM];
};

typedef uint64_t seal_call(uint64_t cipher, const uint8_t *key, size_t key_len, const uint8_t *in, size_t in_len,
                           uint8_t *out, size_t out_len);

static unsigned long messages_compared, others;

static void fails(const struct message *message, const char *what, uint64_t answer)
{
    fprintf(stderr, "tomcrypt: %s, %zu bytes with %zu bytes of room, answered %d\n", what, message->length,
            message->room, (int)answer);
    print_bytes("key", message->key, sizeof message->key);
    print_bytes("input", message->in, message->length);
    print_bytes("before", message->before, MOST_ROOM);
    print_bytes("ours", message->ours, MOST_ROOM);
    print_bytes("libtomcrypt", message->theirs, MOST_ROOM);
    exit(1);
}

static void seal_theirs(struct message *message)
{
    memcpy(message->theirs, message->before, MOST_ROOM);
    noekeon_yardstick.seal(message->key, message->in, message->length, message->theirs);
}

/* Behind the length there are random bytes too, which no seal may depend on. */
static struct message some_message(size_t length)
{
    struct message message = { .length = length, .room = SEAL + random_below(MOST_ROOM - SEAL + 1) };
    random_bytes(message.key, sizeof message.key);
    random_bytes(message.in, MOST);
    random_bytes(message.before, MOST_ROOM);
    seal_theirs(&message);
    return message;
}

static uint64_t seal_ours(struct message *message, seal_call *call, uint64_t cipher)
{
    memcpy(message->ours, message->before, MOST_ROOM);
    return call(cipher, message->key, sizeof message->key, message->in, message->length, message->ours, message->room);
}

/* Every byte of the output and of what is behind it. */
static void compare(struct message *message, seal_call *call, const char *what)
{
    uint64_t answer = seal_ours(message, call, TLILCUEYOH_NOEKEON);
    if (answer != TLILCUEYOH_DONE || memcmp(message->ours, message->theirs, MOST_ROOM) != 0)
        fails(message, what, answer);
}

static void compare_message(size_t length)
{
    struct message message = some_message(length);
    compare(&message, tlilcueyoh_speed_seal, "a seal in one piece differs from libtomcrypt's");
    compare(&message, tlilcueyoh_speed_seal_bytes, "a seal byte by byte differs from libtomcrypt's");
    messages_compared++;
}

static void tell_apart(size_t length)
{
    struct message message = some_message(length);
    uint64_t answer = seal_ours(&message, tlilcueyoh_speed_seal, TLILCUEYOH_NOEKEON_EARLIER);
    if (answer != TLILCUEYOH_DONE || memcmp(message.ours, message.theirs, SEAL) == 0)
        fails(&message, "a seal of the earlier Noekeon doesn't differ from libtomcrypt's", answer);
    others++;
}

static void every_length(void (*work)(size_t length), int times)
{
    for (int n = 0; n < times; n++)
        for (size_t length = 0; length <= MOST; length++)
            work(length);
}

int main(void)
{
    noekeon_yardstick.make_ready();
    every_length(compare_message, MESSAGES);
    every_length(tell_apart, EARLIER_MESSAGES);
    printf("tomcrypt: the seals of %lu messages of 0 to %d bytes, in one piece and byte by byte, all as libtomcrypt "
           "gives them; %lu seals of the earlier Noekeon, all others\n", messages_compared, MOST, others);
    return 0;
}
