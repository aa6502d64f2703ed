/* A burst as the C variants see it, and what they all share. */
#ifndef BURST_H
#define BURST_H

#include <stddef.h>
#include <stdint.h>
#include <stdlib.h>

enum { SIDE = 16, STEP = 8, PARITIES = 4 };

typedef struct {
    int width, height, count, reference;
    const uint16_t *samples;
} burst;

typedef struct {
    int32_t down, right;
} vector;

/* Ls, Lr, t of the recipe */
typedef struct {
    int64_t shot, read, strength;
} noise_levels;

static inline void *allocated(size_t size)
{
    void *memory = malloc(size);
    if (!memory)
        exit(2);
    return memory;
}

static inline int clamp(int value, int least, int most)
{
    return value < least ? least : value > most ? most : value;
}

/* The index that is read for z among `size` of them: -1 reads 0, -2 reads 1, past the far end likewise, with period twice the size. */
static inline int mirrored(int z, int size)
{
    int k = z < 0 ? -1 - z : z;
    if (k >= 2 * size)
        k %= 2 * size;
    return k < size ? k : 2 * size - 1 - k;
}

static inline const uint16_t *frame_of(const burst *b, int frame)
{
    return b->samples + (size_t)frame * b->width * b->height;
}

/* The k-th frame beside the reference. */
static inline int other_frame(const burst *b, int k)
{
    return k < b->reference ? k : k + 1;
}

/* Tiles of the merge, and of the finest level of the alignment, along a row and along a column. */
static inline int tile_columns(const burst *b)
{
    return b->width / 16 + 1;
}

static inline int tile_rows(const burst *b)
{
    return b->height / 16 + 1;
}

/* w of the recipe */
static const int32_t WEIGHT[SIDE] = { 39, 345, 910, 1648, 2448, 3186, 3751, 4057, 4057, 3751, 3186, 2448, 1648, 910, 345, 39 };

#endif
