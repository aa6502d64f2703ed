/* Straightforward alignment: every offset summed whole. */
#include "align_levels.h"
#include "peers.h"

/* Sums are kept by columns, which the compiler holds in vector registers; those of squares fit 32 bits too: 16 * 16380 * 16380. */
static inline uint64_t total(int side, const uint32_t columns[SIDE])
{
    uint64_t sum = 0;
    for (int x = 0; x < side; x++)
        sum += columns[x];
    return sum;
}

static inline uint64_t absolute_sum(int side, const block tile, const block window, int down, int right)
{
    uint32_t columns[SIDE] = { 0 };
    for (int y = 0; y < side; y++)
        for (int x = 0; x < side; x++)
            columns[x] += (uint32_t)abs(tile[y][x] - window[y + down][x + right]);
    return total(side, columns);
}

static inline uint64_t squared_sum(int side, const block tile, const block window, int down, int right)
{
    uint32_t columns[SIDE] = { 0 };
    for (int y = 0; y < side; y++)
        for (int x = 0; x < side; x++) {
            int d = tile[y][x] - window[y + down][x + right];
            columns[x] += (uint32_t)(d * d);
        }
    return total(side, columns);
}

/* The first least of the offsets. */
static inline int search(int side, int squared, const block tile, const block window, uint64_t *least)
{
    int best = 0;
    *least = UINT64_MAX;
    for (int i = 0; i < OFFSETS; i++) {
        int down = OFFSET[i].down, right = OFFSET[i].right;
        uint64_t sum = squared ? squared_sum(side, tile, window, down, right) : absolute_sum(side, tile, window, down, right);
        if (sum < *least) {
            *least = sum;
            best = i;
        }
    }
    return best;
}

static uint64_t candidate(const block tile, const block moved)
{
    return absolute_sum(16, tile, moved, 0, 0);
}

static int absolute(const block tile, const block window, uint64_t *sum)
{
    return search(16, 0, tile, window, sum);
}

static int squared(const block tile, const block window, uint64_t *sum)
{
    return search(16, 1, tile, window, sum);
}

static int squared_small(const block tile, const block window, uint64_t *sum)
{
    return search(8, 1, tile, window, sum);
}

static const tile_search SEARCH = { candidate, absolute, squared, squared_small };

static void align(void *scratch, const burst *b, const noise_levels *n, result *r)
{
    (void)n;
    align_levels(b, scratch, &SEARCH, r->vectors, r->residuals);
}

const peer straight_align = { "straightforward C", 1, make_alignment, free_alignment, align };
