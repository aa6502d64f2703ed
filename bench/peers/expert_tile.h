/* One tile's correction in whole numbers, as fast as plain C is known to do it. */
#ifndef EXPERT_TILE_H
#define EXPERT_TILE_H

#include "burst.h"

/* Adds P of a tile of differences to `sum`; `noise` is V and above 0. By two divisions a bin, by one and a 128-bit product, or by one in double
   precision. */
typedef void add_correction(const int16_t difference[SIDE][SIDE], int64_t noise, int32_t sum[SIDE][SIDE]);

add_correction add_correction_two, add_correction_one, add_correction_double;

/* From B, packed in both directions, to G, packed likewise. */
typedef void shrink_bins(int64_t noise, const int64_t (*restrict z)[SIDE], int32_t (*restrict s)[SIDE]);

shrink_bins shrink_bins_two, shrink_bins_one, shrink_bins_double;

#endif
