/* Buffers that notice what a call does to them and around them. A layout says what
   stands beside the buffer: canaries, a page that may not be touched, or nothing. */
#ifndef GUARD_H
#define GUARD_H

#include <stddef.h>
#include <stdint.h>

/* The page may not be touched even by code that no sanitizer has gone through, as
   the archive's. ALONE is an allocation of exactly the length, null for length 0. */
enum layout { CANARIES, PAGE_BEHIND, PAGE_BEFORE, ALONE, LAYOUTS };

enum { GUARD_PAGE = 4096 };

/* Zero before its first use. */
struct guarded {
    uint8_t *bytes;
    size_t length;
    uint8_t *page;
    uint8_t *area;
    size_t area_length;
    uint8_t image[GUARD_PAGE];
};

/* Lays a buffer of `length` bytes, far fewer than half a page, in the place of the one
   laid before: `bytes`, or canaries if that is null. `canary` varies the canaries. */
void guard_lay(struct guarded *guarded, enum layout layout, const uint8_t *bytes,
               size_t length, uint8_t canary);

/* Whether buffer and canaries stand as laid, but for `front` bytes at the buffer's front. */
int guard_stands(struct guarded *guarded, size_t front);

#endif
