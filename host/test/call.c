/* See call.h. */
#include "call.h"
#include "random.h"

#include <inttypes.h>
#include <signal.h>
#include <stdio.h>
#include <stdlib.h>
#include <string.h>

const struct kind kinds[KINDS] = {
    {TLILCUEYOH_HIEROCRYPT3, 16}, {TLILCUEYOH_HIEROCRYPT3, 24}, {TLILCUEYOH_HIEROCRYPT3, 32},
    {TLILCUEYOH_E2, 16}, {TLILCUEYOH_E2, 24}, {TLILCUEYOH_E2, 32},
    {TLILCUEYOH_NOEKEON, 16}, {TLILCUEYOH_NOEKEON_EARLIER, 16},
};

static struct guarded key, block, out;
static const struct call *current;
static unsigned long made;

unsigned long calls_made(void) { return made; }

static void print_bytes(const char *name, const uint8_t *bytes, size_t length)
{
    fprintf(stderr, "  %-9s %zu bytes ", name, length);
    for (size_t i = 0; i < length; i++)
        fprintf(stderr, "%02x", bytes[i]);
    fprintf(stderr, "\n");
}

void fails(const char *what)
{
    fprintf(stderr, "firmware: call %lu: %s\n", made, what);
    _Exit(1);
}

void differs(const struct call *call, const char *what)
{
    static const char *const layouts[LAYOUTS] = {"canaries", "page behind", "page before", "alone"};
    fprintf(stderr, "firmware: call %lu: %s\n", made, what);
    fprintf(stderr, "  cipher    0x%" PRIx64 "\n  direction 0x%" PRIx64 "\n", call->cipher, call->direction);
    print_bytes("key", call->key, call->key_length);
    print_bytes("block", call->block, call->block_length);
    fprintf(stderr, "  layouts   key %s, block %s, out %s\n", layouts[call->key_layout],
            layouts[call->block_layout], layouts[call->out_layout]);
    print_bytes("out", out.bytes, out.length);
    _Exit(1);
}

static void touched(int signal_number)
{
    static const char what[] = "a byte outside the buffers was read or written";
    (void)signal_number;
    if (current == NULL)
        fails(what);
    differs(current, what);
}

void watch_pages(void) { signal(SIGSEGV, touched); }

struct call good_call(struct kind kind, uint64_t direction)
{
    struct call call = {.cipher = kind.cipher, .direction = direction, .key_length = kind.key_length,
                        .block_length = TLILCUEYOH_BLOCK_BYTES, .room = TLILCUEYOH_BLOCK_BYTES};
    random_bytes(call.key, LONGEST);
    random_bytes(call.block, LONGEST);
    call.canary = (uint8_t)random_below(256);
    return call;
}

void set_layouts(struct call *call, enum layout layout)
{
    call->key_layout = call->block_layout = call->out_layout = layout;
}

static void lay_buffers(const struct call *call)
{
    guard_lay(&key, call->key_layout, call->key, call->key_length, call->canary);
    guard_lay(&block, call->block_layout, call->block, call->block_length, call->canary);
    guard_lay(&out, call->out_layout, NULL, call->room, call->canary);
}

static void check_buffers(const struct call *call, uint64_t answer)
{
    size_t written = answer == TLILCUEYOH_DONE ? TLILCUEYOH_BLOCK_BYTES : 0;
    if (!guard_stands(&key, 0))
        differs(call, "the key or a byte beside it was changed");
    if (!guard_stands(&block, 0))
        differs(call, "the block or a byte beside it was changed");
    if (!guard_stands(&out, written))
        differs(call, written ? "out was changed behind its first 16 bytes, or a byte beside out"
                              : "refused, but out or a byte beside it was changed");
}

uint64_t counted(uint64_t cipher, uint64_t direction, const uint8_t *key_bytes, size_t key_length,
                 const uint8_t *block_bytes, size_t block_length, uint8_t *out_bytes, size_t room)
{
    made++;
    return tlilcueyoh_block(cipher, direction, key_bytes, key_length, block_bytes, block_length,
                            out_bytes, room);
}

void expect(const struct call *call, uint64_t answer, uint8_t *worked)
{
    lay_buffers(call);
    current = call;
    uint64_t given = counted(call->cipher, call->direction, key.bytes, key.length,
                             block.bytes, block.length, out.bytes, out.length);
    current = NULL;
    if (given != answer) {
        char what[80];
        snprintf(what, sizeof what, "the answer is %" PRIu64 ", but should be %" PRIu64, given, answer);
        differs(call, what);
    }
    check_buffers(call, answer);
    if (answer == TLILCUEYOH_DONE && worked != NULL)
        memcpy(worked, out.bytes, TLILCUEYOH_BLOCK_BYTES);
}

void expect_round_trip(const struct call *call)
{
    uint8_t back[TLILCUEYOH_BLOCK_BYTES];
    struct call other = *call;
    other.direction = call->direction == TLILCUEYOH_ENCIPHER ? TLILCUEYOH_DECIPHER : TLILCUEYOH_ENCIPHER;
    expect(call, TLILCUEYOH_DONE, other.block);
    if (memcmp(other.block, call->block, TLILCUEYOH_BLOCK_BYTES) == 0)
        differs(call, "the block came out as it went in");
    expect(&other, TLILCUEYOH_DONE, back);
    if (memcmp(back, call->block, TLILCUEYOH_BLOCK_BYTES) != 0)
        differs(&other, "the other direction didn't give the block back");
}
