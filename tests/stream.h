/* Bytes from standard input and to standard output. */
#ifndef STREAM_H
#define STREAM_H

#include <stdint.h>
#include <stdio.h>
#include <stdlib.h>
#include <string.h>

/* what `room` is full of */
enum { MARK = 0xa5 };

/* the next `size` bytes of standard input; 0 at its end */
static inline int get(void *data, size_t size)
{
    size_t read = fread(data, 1, size, stdin);
    if (read != size && read != 0)
        exit(2);
    return read == size;
}

static inline void put(const void *data, size_t size)
{
    if (fwrite(data, 1, size, stdout) != size)
        exit(2);
}

/* never NULL, and full of marks */
static inline void *room(size_t size)
{
    void *data = malloc(size + 1);
    if (data == NULL)
        exit(2);
    return memset(data, MARK, size + 1);
}

#endif
