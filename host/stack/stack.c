/* How much stack a call of the entry needs: it runs on a stack of its own that is painted first, and the deepest byte that
   lost its paint is looked for. Prints the most that any cipher, key length and direction takes. */
#define _GNU_SOURCE
#include "tlilcueyoh.h"

#include <stdio.h>
#include <string.h>
#include <ucontext.h>

#define PAINT 0xa5

static uint8_t stack[1 << 16];
static ucontext_t back, there;
static uint64_t cipher, direction, answer;
static size_t key_len;
static uint8_t key[32] = {1}, in[TLILCUEYOH_BLOCK_BYTES], out[TLILCUEYOH_BLOCK_BYTES];

static void empty(void) {}

static void call(void)
{
    answer = tlilcueyoh_block(cipher, direction, key, key_len, in, sizeof in, out, sizeof out);
}

static size_t used(void (*function)(void))
{
    memset(stack, PAINT, sizeof stack);
    getcontext(&there);
    there.uc_stack.ss_sp = stack;
    there.uc_stack.ss_size = sizeof stack;
    there.uc_link = &back;
    makecontext(&there, function, 0);
    swapcontext(&back, &there);
    size_t clean = 0;
    while (clean < sizeof stack && stack[clean] == PAINT)
        clean++;
    return sizeof stack - clean;
}

static size_t longest_key(void)
{
    return cipher == TLILCUEYOH_NOEKEON || cipher == TLILCUEYOH_NOEKEON_EARLIER ? 16 : 32;
}

int main(void)
{
    size_t base = used(empty), most = 0;
    for (cipher = 1; cipher <= 4; cipher++)
        for (direction = 1; direction <= 2; direction++)
            for (key_len = 16; key_len <= longest_key(); key_len += 8) {
                size_t n = used(call) - base;
                if (answer != TLILCUEYOH_DONE)
                    return 1;
                if (n > most)
                    most = n;
            }
    printf("%zu\n", most);
    return most > TLILCUEYOH_STACK_BYTES;
}
