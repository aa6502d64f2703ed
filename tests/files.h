/* A stream of burst files, each after its length as a little-endian u32, from standard input. */
#ifndef FILES_H
#define FILES_H

#include <stdint.h>
#include <stdio.h>
#include <stdlib.h>

/* The next file into *bytes, grown as needed; its length, or -1 at the end. */
static inline int64_t next_file(uint8_t **bytes, size_t *room)
{
    uint8_t head[4];
    if (fread(head, 1, 4, stdin) != 4)
        return -1;
    size_t length = head[0] | head[1] << 8 | head[2] << 16 | (size_t)head[3] << 24;
    if (length > *room) {
        *room = length;
        *bytes = realloc(*bytes, length);
    }
    if (length != 0 && (*bytes == NULL || fread(*bytes, 1, length, stdin) != length))
        exit(2);
    return (int64_t)length;
}

#endif
