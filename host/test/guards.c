/* The guards themselves: no byte that a call may not change can change unnoticed. */
#include "call.h"
#include "checks.h"

static void check_area(struct guarded *guarded, size_t front)
{
    for (size_t i = 0; i < guarded->area_length; i++) {
        uint8_t *byte = guarded->area + i;
        int allowed = byte >= guarded->bytes && byte < guarded->bytes + front;
        *byte ^= 1;
        if (guard_stands(guarded, front) != allowed)
            fails("a guard doesn't notice what it is there for");
        *byte ^= 1;
    }
    if (!guard_stands(guarded, front))
        fails("a guard sees a change where there is none");
}

static void check_layout(enum layout layout, size_t length, size_t front)
{
    static const uint8_t bytes[LONGEST];
    static struct guarded guarded;
    guard_lay(&guarded, layout, bytes, length, (uint8_t)length);
    check_area(&guarded, front);
}

void check_guards(void)
{
    for (enum layout layout = CANARIES; layout < LAYOUTS; layout++) {
        check_layout(layout, 0, 0);
        check_layout(layout, 16, 0);
        check_layout(layout, 16, 16);
        check_layout(layout, LONGEST, 0);
        check_layout(layout, LONGEST, 16);
    }
}
