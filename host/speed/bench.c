/* Measures every work of works.h, for each cipher and direction, on cards and for each cipher's seals, a line
   WORK NAME AMOUNT for each, an amount being that of a block. `bench times`: the shortest of many runs in turn, in
   nanoseconds. `bench counts`, which callgrind runs: a dump for each, called WORK NAME BLOCKS. host/bench makes its
   lines of both. */
#define _POSIX_C_SOURCE 199309L
#include "works.h"

#include <stdio.h>
#include <string.h>
#include <time.h>
#include <valgrind/callgrind.h>

/* Pieces of one byte take so long that they are run less often. */
enum { REPEATS = 100, BYTES_EVERY = 10 };

static int in_bytes(const struct work *work)
{
    return work == &works[OUR_BYTES] || work == &seal_works[OUR_SEAL_BYTES];
}

static double now(void)
{
    struct timespec t;
    clock_gettime(CLOCK_MONOTONIC, &t);
    return 1e9 * (double)t.tv_sec + (double)t.tv_nsec;
}

static void shortest(double *best, const struct work *work, int cipher, int direction)
{
    double begun = now();
    work->run(cipher, direction);
    double took = (now() - begun) / work->blocks;
    if (took < *best)
        *best = took;
}

static void times(const char *name, const struct work *some, int n, int cipher, int direction)
{
    double best[WORKS];
    for (int w = 0; w < n; w++)
        best[w] = 1e12;
    for (int i = 0; i < REPEATS; i++)
        for (int w = 0; w < n; w++)
            if (!in_bytes(&some[w]) || i % BYTES_EVERY == 0)
                shortest(&best[w], &some[w], cipher, direction);
    for (int w = 0; w < n; w++)
        printf("%s %s %.3f\n", some[w].name, name, best[w]);
}

static void counts(const char *name, const struct work *some, int n, int cipher, int direction)
{
    char title[64];
    for (int w = 0; w < n; w++) {
        snprintf(title, sizeof title, "%s %s %d", some[w].name, name, some[w].blocks);
        CALLGRIND_ZERO_STATS;
        some[w].run(cipher, direction);
        CALLGRIND_DUMP_STATS_AT(title);
    }
}

int main(int argc, char **argv)
{
    static const char *const ciphers[] = { "", "hierocrypt3", "e2", "noekeon", "noekeon-earlier" };
    static const char *const ways[] = { "", "encipher", "decipher" };
    static const struct { const char *name; int slots; } cards[] = {
        { "card", SLOTS }, { "card-64", 64 }, { "card-16", 16 },
    };
    if (argc != 2 || (strcmp(argv[1], "times") != 0 && strcmp(argv[1], "counts") != 0)) {
        fprintf(stderr, "bench times | counts\n");
        return 2;
    }
    void (*measure)(const char *, const struct work *, int, int, int) = strcmp(argv[1], "times") == 0 ? times : counts;
    make_ready();
    hold_to_each_other();
    for (int cipher = HIEROCRYPT3; cipher <= NOEKEON_EARLIER; cipher++)
        for (int direction = ENCIPHER; direction <= DECIPHER; direction++) {
            char name[32];
            snprintf(name, sizeof name, "%s-%s", ciphers[cipher], ways[direction]);
            measure(name, works, WORKS, cipher, direction);
        }
    for (size_t i = 0; i < sizeof cards / sizeof *cards; i++) {
        make_cards(cards[i].slots);
        measure(cards[i].name, card_works, CARD_WORKS, 0, 0);
    }
    for (int cipher = HIEROCRYPT3; cipher <= NOEKEON_EARLIER; cipher++)
        measure(ciphers[cipher], seal_works, SEAL_WORKS, cipher, ENCIPHER);
    return 0;
}
