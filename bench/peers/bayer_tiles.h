/* Tiles of the four planes at one origin, read together: they lie in one square of 32 by 32 samples. */
#ifndef BAYER_TILES_H
#define BAYER_TILES_H

#include "burst.h"

#include <math.h>
#include <string.h>

typedef int16_t four_tiles[PARITIES][SIDE][SIDE];

/* Pairs of samples taken apart. */
static inline void split_pairs(const uint16_t *restrict pairs, int16_t *restrict even, int16_t *restrict odd)
{
#pragma GCC unroll 1 /* one loop of vectors rather than sixteen single steps */
    for (int x = 0; x < SIDE; x++) {
        even[x] = (int16_t)pairs[2 * x];
        odd[x] = (int16_t)pairs[2 * x + 1];
    }
}

/* Sixteen pairs of samples of a row, from pair `left` on, mirrored outside the row. */
static inline void gather_row(const uint16_t *row, int width, int left, int16_t *even, int16_t *odd)
{
    uint16_t pairs[2 * SIDE];
    if (left >= 0 && left + SIDE <= width) {
        split_pairs(row + 2 * left, even, odd);
        return;
    }
    for (int x = 0; x < SIDE; x++)
        memcpy(&pairs[2 * x], row + 2 * mirrored(left + x, width), 2 * sizeof *pairs);
    split_pairs(pairs, even, odd);
}

static inline void gather_tiles(const burst *b, int frame, int top, int left, four_tiles out)
{
    for (int y = 0; y < SIDE; y++) {
        const uint16_t *upper = frame_of(b, frame) + 2 * (size_t)mirrored(top + y, b->height / 2) * b->width;
        gather_row(upper, b->width / 2, left, out[0][y], out[1][y]);
        gather_row(upper + b->width, b->width / 2, left, out[2][y], out[3][y]);
    }
}

/* V of one tile of the reference; the squares' sum fits 32 bits. */
static inline int64_t noise_of_tile(const noise_levels *n, const int16_t *tile)
{
    uint32_t squares = 0;
    for (int i = 0; i < SIDE * SIDE; i++)
        squares += (uint32_t)(tile[i] * tile[i]);
    return n->strength * (n->shot * (int64_t)sqrt((double)squares) + 16 * n->read) / 16;
}

#endif
