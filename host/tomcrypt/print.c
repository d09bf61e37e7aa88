/* See print.h. */
#include "print.h"

#include <stdio.h>

void print_bytes(const char *name, const uint8_t *bytes, size_t length)
{
    fprintf(stderr, "  %-11s ", name);
    for (size_t i = 0; i < length; i++)
        fprintf(stderr, "%02x", bytes[i]);
    fprintf(stderr, "\n");
}
