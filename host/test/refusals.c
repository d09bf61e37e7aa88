/* Each refusal where its cause applies and nowhere else, and their order. */
#include "call.h"
#include "checks.h"

#include <string.h>

static int legal_key_length(uint64_t cipher, size_t length)
{
    for (int k = 0; k < KINDS; k++)
        if (kinds[k].cipher == cipher && kinds[k].key_length == length)
            return 1;
    return 0;
}

/* Causes in the order of their refusals; a set of them is a number with bit i for cause i. */
enum { CAUSES = 6, VARIANTS = 6 };

static const uint64_t refusals[CAUSES] = {
    TLILCUEYOH_UNKNOWN_CIPHER, TLILCUEYOH_KEY_LENGTH, TLILCUEYOH_BLANK_KEY,
    TLILCUEYOH_DIRECTION, TLILCUEYOH_BLOCK_LENGTH, TLILCUEYOH_NO_ROOM,
};

static void damage(struct call *call, unsigned set, int variant)
{
    static const uint64_t ciphers[VARIANTS] = {
        0, 5, 256 + 1, (UINT64_C(1) << 32) + 1, UINT64_MAX, 256 + 4};
    static const uint64_t directions[VARIANTS] = {
        0, 3, 256 + 2, (UINT64_C(1) << 32) + 1, UINT64_MAX, 256 + 1};
    static const size_t key_lengths[VARIANTS] = {0, 15, 17, 23, 33, LONGEST};
    static const int blanks[VARIANTS] = {0x00, 0xFF, 0x01, 0x7F, 0x80, 0xA5};
    static const size_t block_lengths[VARIANTS] = {0, 15, 17, 1, 32, LONGEST};
    static const size_t rooms[VARIANTS] = {0, 15, 1, 8, 14, 15};
    if (set & 1)
        call->cipher = ciphers[variant];
    if (set & 2)
        call->key_length = key_lengths[variant];
    if (set & 4)
        memset(call->key, blanks[variant], LONGEST);
    if (set & 8)
        call->direction = directions[variant];
    if (set & 16)
        call->block_length = block_lengths[variant];
    if (set & 32)
        call->room = rooms[variant];
}

static uint64_t first_refusal(unsigned set)
{
    for (int cause = 0; cause < CAUSES; cause++)
        if (set >> cause & 1)
            return refusals[cause];
    return TLILCUEYOH_DONE;
}

static void check_set(unsigned set, struct kind kind, uint64_t direction)
{
    for (int variant = 0; variant < VARIANTS; variant++)
        for (enum layout layout = CANARIES; layout < LAYOUTS; layout++) {
            struct call call = good_call(kind, direction);
            set_layouts(&call, layout);
            damage(&call, set, variant);
            expect(&call, first_refusal(set), NULL);
        }
}

/* Every set of causes at once: none, each alone, all pairs, and on to all six. */
void check_order_of_refusals(void)
{
    for (unsigned set = 0; set < 1u << CAUSES; set++)
        for (int k = 0; k < KINDS; k++) {
            check_set(set, kinds[k], TLILCUEYOH_ENCIPHER);
            check_set(set, kinds[k], TLILCUEYOH_DECIPHER);
        }
}

static void check_numbers(uint64_t cipher, uint64_t direction, uint64_t answer)
{
    struct call call = good_call((struct kind){cipher, 16}, direction);
    expect(&call, answer, NULL);
}

/* Numbers that end in a legal one, or begin with one, aren't legal. */
void check_wide_numbers(void)
{
    for (uint64_t cipher = 1; cipher <= 4; cipher++)
        for (uint64_t direction = 1; direction <= 2; direction++) {
            for (int bit = 2; bit < 64; bit++) {
                uint64_t high = UINT64_C(1) << bit;
                check_numbers(cipher + high, direction, TLILCUEYOH_UNKNOWN_CIPHER);
                check_numbers(cipher, direction + high, TLILCUEYOH_DIRECTION);
            }
            for (int shift = 8; shift < 64; shift += 8) {
                check_numbers(cipher << shift, direction, TLILCUEYOH_UNKNOWN_CIPHER);
                check_numbers(cipher, direction << shift, TLILCUEYOH_DIRECTION);
            }
            check_numbers(UINT64_MAX, direction, TLILCUEYOH_UNKNOWN_CIPHER);
            check_numbers(cipher, UINT64_MAX, TLILCUEYOH_DIRECTION);
        }
}

enum { EVERY_CALL = KINDS * 2 * LAYOUTS };

/* A good call of each kind, direction and layout; n is under EVERY_CALL. */
static struct call every_call(int n)
{
    struct call call = good_call(kinds[n % KINDS], 1 + (uint64_t)(n / KINDS % 2));
    set_layouts(&call, (enum layout)(n / KINDS / 2));
    return call;
}

void check_key_lengths(void)
{
    for (int n = 0; n < EVERY_CALL; n++)
        for (size_t length = 0; length <= LONGEST; length++) {
            struct call call = every_call(n);
            call.key_length = length;
            expect(&call, legal_key_length(call.cipher, length) ? TLILCUEYOH_DONE : TLILCUEYOH_KEY_LENGTH,
                   NULL);
        }
}

/* Every byte over and over; and with a bit changed in any one place the key is taken. */
void check_blank_keys(void)
{
    for (int n = 0; n < EVERY_CALL; n++)
        for (int byte = 0; byte < 256; byte++) {
            struct call call = every_call(n);
            memset(call.key, byte, LONGEST);
            expect(&call, TLILCUEYOH_BLANK_KEY, NULL);
            call.key[(size_t)byte % call.key_length] ^= (uint8_t)(1 << byte % 8);
            expect_round_trip(&call);
        }
}

void check_block_lengths(void)
{
    for (int n = 0; n < EVERY_CALL; n++)
        for (size_t length = 0; length <= LONGEST; length++) {
            struct call call = every_call(n);
            call.block_length = length;
            expect(&call, length == 16 ? TLILCUEYOH_DONE : TLILCUEYOH_BLOCK_LENGTH, NULL);
        }
}

void check_rooms(void)
{
    for (int n = 0; n < EVERY_CALL; n++)
        for (size_t room = 0; room <= LONGEST; room++) {
            struct call call = every_call(n);
            call.room = room;
            if (room < 16)
                expect(&call, TLILCUEYOH_NO_ROOM, NULL);
            else
                expect_round_trip(&call);
        }
}
