/* See guard.h. A buffer lies in one page between two that may not be touched. */
#define _DEFAULT_SOURCE
#include "guard.h"

#include <stdio.h>
#include <stdlib.h>
#include <string.h>
#include <sys/mman.h>

static void broken(const char *what)
{
    perror(what);
    exit(2);
}

static uint8_t *page_between_two(void)
{
    uint8_t *pages = mmap(NULL, 3 * GUARD_PAGE, PROT_NONE, MAP_PRIVATE | MAP_ANONYMOUS, -1, 0);
    if (pages == MAP_FAILED)
        broken("mmap");
    if (mprotect(pages + GUARD_PAGE, GUARD_PAGE, PROT_READ | PROT_WRITE) != 0)
        broken("mprotect");
    return pages + GUARD_PAGE;
}

static size_t offset_in_page(enum layout layout, size_t length)
{
    switch (layout) {
    case PAGE_BEHIND:
        return GUARD_PAGE - length;
    case PAGE_BEFORE:
        return 0;
    default:
        return GUARD_PAGE / 2 + 1;
    }
}

/* Canaries differ from place to place, so that bytes moved along are noticed too. */
static const uint8_t *canaries(uint8_t canary)
{
    static uint8_t row[256 + GUARD_PAGE];
    if (row[1] == 0)
        for (size_t i = 0; i < sizeof row; i++)
            row[i] = (uint8_t)(29 * i);
    return row + canary;
}

static void lay_alone(struct guarded *guarded, size_t length)
{
    guarded->area = length == 0 ? NULL : malloc(length);
    if (length != 0 && guarded->area == NULL)
        broken("malloc");
    guarded->area_length = length;
    guarded->bytes = guarded->area;
}

static void lay_in_page(struct guarded *guarded, enum layout layout, size_t length)
{
    if (guarded->page == NULL)
        guarded->page = page_between_two();
    guarded->area = guarded->page;
    guarded->area_length = GUARD_PAGE;
    guarded->bytes = guarded->page + offset_in_page(layout, length);
}

static void lift(struct guarded *guarded)
{
    if (guarded->area != guarded->page)
        free(guarded->area);
    guarded->area = NULL;
}

void guard_lay(struct guarded *guarded, enum layout layout, const uint8_t *bytes,
               size_t length, uint8_t canary)
{
    lift(guarded);
    if (layout == ALONE)
        lay_alone(guarded, length);
    else
        lay_in_page(guarded, layout, length);
    guarded->length = length;
    if (guarded->area_length == 0)
        return;
    memcpy(guarded->area, canaries(canary), guarded->area_length);
    if (bytes != NULL && length != 0)
        memcpy(guarded->bytes, bytes, length);
    memcpy(guarded->image, guarded->area, guarded->area_length);
}

int guard_stands(struct guarded *guarded, size_t front)
{
    if (guarded->area_length == 0)
        return 1;
    memcpy(guarded->image + (guarded->bytes - guarded->area), guarded->bytes, front);
    return memcmp(guarded->area, guarded->image, guarded->area_length) == 0;
}
