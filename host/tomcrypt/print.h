/* What a failure says. */
#ifndef PRINT_H
#define PRINT_H

#include <stddef.h>
#include <stdint.h>

/* A name and bytes in hex, to stderr. */
void print_bytes(const char *name, const uint8_t *bytes, size_t length);

#endif
