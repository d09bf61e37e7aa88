/* Random calls, good and damaged mixed, against the order of refusals said once more. */
#include "call.h"
#include "checks.h"
#include "random.h"

#include <string.h>

enum { RANDOM_CALLS = 150000 };

static int is_blank(const struct call *call)
{
    for (size_t i = 1; i < call->key_length; i++)
        if (call->key[i] != call->key[i - 1])
            return 0;
    return 1;
}

static uint64_t predicted(const struct call *call)
{
    if (call->cipher == 0 || call->cipher > 4)
        return TLILCUEYOH_UNKNOWN_CIPHER;
    int one_length = call->cipher == TLILCUEYOH_NOEKEON || call->cipher == TLILCUEYOH_NOEKEON_EARLIER;
    if (call->key_length != 16 && (one_length || (call->key_length != 24 && call->key_length != 32)))
        return TLILCUEYOH_KEY_LENGTH;
    if (is_blank(call))
        return TLILCUEYOH_BLANK_KEY;
    if (call->direction == 0 || call->direction > 2)
        return TLILCUEYOH_DIRECTION;
    if (call->block_length != 16)
        return TLILCUEYOH_BLOCK_LENGTH;
    if (call->room < 16)
        return TLILCUEYOH_NO_ROOM;
    return TLILCUEYOH_DONE;
}

/* A small number, a small one made wide, or any. */
static uint64_t some_number(void)
{
    uint64_t small = random_below(6);
    switch (random_below(3)) {
    case 0:
        return small;
    case 1:
        return small + (UINT64_C(1) << (8 + random_below(56)));
    default:
        return random_number();
    }
}

static size_t some_length(void)
{
    static const size_t near[] = {0, 15, 16, 17, 23, 24, 25, 31, 32, 33};
    return random_below(2) ? random_below(LONGEST + 1) : near[random_below(sizeof near / sizeof *near)];
}

/* One byte over and over; in every other key, one place that may differ. */
static void make_uniform(uint8_t *key)
{
    memset(key, random_below(2) ? 0xFF : 0, LONGEST);
    if (random_below(2))
        key[random_below(LONGEST)] = (uint8_t)random_below(256);
}

/* Good but for its key, which may be blank. */
static struct call some_call(void)
{
    struct call call = good_call(kinds[random_below(KINDS)], 1 + random_below(2));
    call.room = 16 + random_below(LONGEST - 15);
    call.key_layout = (enum layout)random_below(LAYOUTS);
    call.block_layout = (enum layout)random_below(LAYOUTS);
    call.out_layout = (enum layout)random_below(LAYOUTS);
    if (random_below(8) == 0)
        make_uniform(call.key);
    if (random_below(8) == 0)
        memset(call.block, random_below(2) ? 0xFF : 0, LONGEST);
    return call;
}

/* Draws about one in three of the call's numbers and lengths anew; it may stay or become good. */
static void damage(struct call *call)
{
    if (random_below(3) == 0)
        call->cipher = some_number();
    if (random_below(3) == 0)
        call->direction = some_number();
    if (random_below(3) == 0)
        call->key_length = some_length();
    if (random_below(3) == 0)
        call->block_length = some_length();
    if (random_below(3) == 0)
        call->room = some_length();
}

void check_random_calls(void)
{
    for (int n = 0; n < RANDOM_CALLS; n++) {
        struct call call = some_call();
        if (random_below(2))
            damage(&call);
        if (predicted(&call) == TLILCUEYOH_DONE)
            expect_round_trip(&call);
        else
            expect(&call, predicted(&call), NULL);
    }
}
