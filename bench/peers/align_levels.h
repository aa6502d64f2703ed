/* The walk from the coarsest level to the finest, the same for every C variant: they differ in how they search one tile. */
#ifndef ALIGN_LEVELS_H
#define ALIGN_LEVELS_H

#include "burst.h"

enum { REACH = 4, WINDOW = SIDE + 2 * REACH, OFFSETS = 81 };

/* A tile in its first 8 or 16 rows and columns, or a window of all offsets of one. */
typedef int16_t block[WINDOW][WINDOW];

/* All offsets -4..4 in tie order, from 0 to 8 each. */
extern vector OFFSET[OFFSETS];

/* How one variant compares: `candidate` is the absolute sum of two tiles of side 16; the searches answer the place in OFFSET of the first
   least sum and set that sum: absolute at side 16, squared at side 16, squared at side 8. */
typedef struct {
    uint64_t (*candidate)(const block tile, const block moved);
    int (*absolute)(const block tile, const block window, uint64_t *sum);
    int (*squared)(const block tile, const block window, uint64_t *sum);
    int (*squared_small)(const block tile, const block window, uint64_t *sum);
} tile_search;

typedef struct alignment alignment;

/* An alignment, as a peer makes and discards it. */
void *make_alignment(const burst *b);
void free_alignment(void *scratch);
void align_levels(const burst *b, alignment *a, const tile_search *search, vector *vectors, uint64_t residuals[7]);

#endif
