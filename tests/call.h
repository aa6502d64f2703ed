/* One call of a stream that the reference writes: its head, the descriptions that it has, and its buffers. */
#ifndef CALL_H
#define CALL_H

#include "stacker.h"

#include <stdio.h>
#include <stdlib.h>
#include <string.h>

enum { WIDTH, HEIGHT, COUNT, REFERENCE, ROW_LENGTH, BLACK, NOISE_KIND = BLACK + 4, ISO, SHOT, READ, STRENGTH, SIDE, SPATIAL, SAMPLES, VECTORS, OUTPUT, WORK, WORDS };

static uint64_t head[WORDS];

/* a buffer of so many elements, with those that follow in the stream where it is filled; NULL where it has none */
static inline void *lent(uint64_t length, size_t size, int filled)
{
    void *buffer = length == 0 ? NULL : malloc(length * size);
    if (length != 0 && (buffer == NULL || (filled && fread(buffer, size, length, stdin) != length)))
        exit(2);
    return buffer;
}

static inline double number(uint64_t bits)
{
    double x;
    memcpy(&x, &bits, sizeof x);
    return x;
}

static inline stacker_burst burst(void)
{
    stacker_burst burst = { .width = head[WIDTH], .height = head[HEIGHT], .count = head[COUNT], .reference = head[REFERENCE],
        .row_length = head[ROW_LENGTH] };
    for (int plane = 0; plane < 4; plane++)
        burst.black[plane] = (uint16_t)head[BLACK + plane];
    return burst;
}

static inline stacker_noise measured(void)
{
    return (stacker_noise){ .shot = number(head[SHOT]), .read = number(head[READ]) };
}

static inline stacker_iso_noise at_iso(void)
{
    return (stacker_iso_noise){ .iso = (uint32_t)head[ISO], .shot = number(head[SHOT]), .read = number(head[READ]) };
}

static inline stacker_tuning tuning(void)
{
    return (stacker_tuning){ .strength = head[STRENGTH], .side = head[SIDE], .spatial = head[SPATIAL] };
}

#endif
