/* One call of the entry, made as firmware would make it and checked all round. */
#ifndef CALL_H
#define CALL_H

#include "../tlilcueyoh.h"
#include "guard.h"

/* Lengths and rooms under test go from 0 to this. */
enum { LONGEST = 40 };

struct call {
    uint64_t cipher;
    uint64_t direction;
    size_t key_length;
    size_t block_length;
    size_t room;
    uint8_t key[LONGEST];
    uint8_t block[LONGEST];
    enum layout key_layout;
    enum layout block_layout;
    enum layout out_layout;
    uint8_t canary;
};

/* The legal pairs of cipher and key length. */
struct kind {
    uint64_t cipher;
    size_t key_length;
};

enum { KINDS = 8 };
extern const struct kind kinds[KINDS];

/* A good call of this kind with some key, some block and a room of 16. */
struct call good_call(struct kind kind, uint64_t direction);

void set_layouts(struct call *call, enum layout layout);

/* Makes the call and checks that it gives `answer`, writes what it may and touches
   nothing else. If done, `worked` (unless null) gets the block. */
void expect(const struct call *call, uint64_t answer, uint8_t *worked);

/* The call, which is good, changes its block, and the other direction gives it back. */
void expect_round_trip(const struct call *call);

/* The entry itself, counted, for calls that no struct call can hold. */
uint64_t counted(uint64_t cipher, uint64_t direction, const uint8_t *key_bytes, size_t key_length,
                 const uint8_t *block_bytes, size_t block_length, uint8_t *out_bytes, size_t room);

/* Says what differed, without a call's inputs or with them, and ends the program with 1. */
void fails(const char *what);
void differs(const struct call *call, const char *what);

/* Makes it a difference where a call touches a page that it may not. */
void watch_pages(void);

unsigned long calls_made(void);

#endif
