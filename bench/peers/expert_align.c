/* Alignment as fast as plain C does it: sums of four rows in 16-bit lanes, or by products of pairs, with and without leaving an offset once its
   sum is no longer below the least. */
#include "align_levels.h"
#include "peers.h"

enum { ROWS = 4 };

static inline uint16_t apart(int16_t a, int16_t b)
{
    return (uint16_t)((a > b ? a : b) - (a > b ? b : a));
}

/* Absolute differences of four rows of 16; those of one column fit 16 bits: 4 * 16380. */
static inline uint64_t absolute_rows(const int16_t (*tile)[WINDOW], const int16_t (*window)[WINDOW], int right)
{
    const int16_t *a = window[0] + right, *b = window[1] + right, *c = window[2] + right, *d = window[3] + right;
    uint32_t sum = 0;
    for (int x = 0; x < SIDE; x++)
        sum += (uint16_t)(apart(tile[0][x], a[x]) + apart(tile[1][x], b[x]) + apart(tile[2][x], c[x]) + apart(tile[3][x], d[x]));
    return sum;
}

/* Squared differences of four rows; those of one row fit 32 bits: 16 * 16380 * 16380. The compiler multiplies and adds pairs. */
static inline uint64_t squared_rows(int side, const int16_t (*tile)[WINDOW], const int16_t (*window)[WINDOW], int right)
{
    const int16_t *a = window[0] + right, *b = window[1] + right, *c = window[2] + right, *d = window[3] + right;
    uint32_t sum[ROWS] = { 0 };
    for (int x = 0; x < side; x++) {
        int16_t e = (int16_t)(tile[0][x] - a[x]), f = (int16_t)(tile[1][x] - b[x]);
        int16_t g = (int16_t)(tile[2][x] - c[x]), h = (int16_t)(tile[3][x] - d[x]);
        sum[0] += (uint32_t)(e * e);
        sum[1] += (uint32_t)(f * f);
        sum[2] += (uint32_t)(g * g);
        sum[3] += (uint32_t)(h * h);
    }
    return (uint64_t)sum[0] + sum[1] + sum[2] + sum[3];
}

static inline uint64_t sum_rows(int side, int is_squared, const block tile, const block window, int top, vector offset)
{
    const int16_t(*moved)[WINDOW] = window + top + offset.down;
    return is_squared ? squared_rows(side, tile + top, moved, offset.right) : absolute_rows(tile + top, moved, offset.right);
}

/* The first least of the offsets; with `early` an offset is left after the four rows that bring it up to the least. */
static inline int search(int side, int is_squared, int early, const block tile, const block window, uint64_t *least)
{
    int best = 0;
    *least = UINT64_MAX;
    tile = __builtin_assume_aligned(tile, 16); /* as align_levels makes it */
    for (int i = 0; i < OFFSETS; i++) {
        uint64_t sum = 0;
        for (int top = 0; top < side && !(early && sum >= *least); top += ROWS)
            sum += sum_rows(side, is_squared, tile, window, top, OFFSET[i]);
        if (sum < *least) {
            *least = sum;
            best = i;
        }
    }
    return best;
}

static uint64_t candidate(const block tile, const block moved)
{
    uint64_t sum = 0;
    for (int top = 0; top < SIDE; top += ROWS)
        sum += absolute_rows(tile + top, moved + top, 0);
    return sum;
}

static int whole_absolute(const block tile, const block window, uint64_t *sum)
{
    return search(16, 0, 0, tile, window, sum);
}

static int whole_squared(const block tile, const block window, uint64_t *sum)
{
    return search(16, 1, 0, tile, window, sum);
}

static int early_absolute(const block tile, const block window, uint64_t *sum)
{
    return search(16, 0, 1, tile, window, sum);
}

static int early_squared(const block tile, const block window, uint64_t *sum)
{
    return search(16, 1, 1, tile, window, sum);
}

/* The coarsest level is too small for leaving early to matter. */
static int squared_small(const block tile, const block window, uint64_t *sum)
{
    return search(8, 1, 0, tile, window, sum);
}

static const tile_search WHOLE = { candidate, whole_absolute, whole_squared, squared_small };
static const tile_search EARLY = { candidate, early_absolute, early_squared, squared_small };

static void align_whole(void *scratch, const burst *b, const noise_levels *n, result *r)
{
    (void)n;
    align_levels(b, scratch, &WHOLE, r->vectors, r->residuals);
}

static void align_early(void *scratch, const burst *b, const noise_levels *n, result *r)
{
    (void)n;
    align_levels(b, scratch, &EARLY, r->vectors, r->residuals);
}

const peer expert_align_whole = { "expert C, no early exit", 1, make_alignment, free_alignment, align_whole };
const peer expert_align_early = { "expert C, early exit", 1, make_alignment, free_alignment, align_early };
