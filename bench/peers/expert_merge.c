/* The merge around expert_tile.c: the four planes together, V once per tile, tiles without a difference skipped, windows in doubles that hold
   every sum exactly. */
#include "bayer_tiles.h"
#include "expert_tile.h"
#include "peers.h"

#include <string.h>

typedef int32_t correction[PARITIES][SIDE][SIDE];

/* Two rows of tiles, and w * w' as doubles. */
typedef struct {
    correction *rows[2];
    double window[SIDE][SIDE];
} scratch;

static void *make(const burst *b)
{
    scratch *s = allocated(sizeof *s);
    for (int i = 0; i < 2; i++)
        s->rows[i] = allocated((size_t)tile_columns(b) * sizeof(correction));
    for (int y = 0; y < SIDE; y++)
        for (int x = 0; x < SIDE; x++)
            s->window[y][x] = WEIGHT[y] * WEIGHT[x];
    return s;
}

static void discard(void *memory)
{
    scratch *s = memory;
    free(s->rows[0]);
    free(s->rows[1]);
    free(s);
}

/* Whether any difference is not 0. */
static int subtract(const int16_t *restrict reference, int16_t *restrict other)
{
    int16_t any = 0;
    for (int i = 0; i < SIDE * SIDE; i++) {
        other[i] = (int16_t)(reference[i] - other[i]);
        any |= other[i];
    }
    return any != 0;
}

/* The corrections of the four planes' tiles, summed over the other frames. */
static inline void correct_tiles(const burst *b, const noise_levels *n, const vector *vectors, int row, int column, add_correction add,
    correction sum)
{
    int top = STEP * (row - 1), left = STEP * (column - 1);
    size_t tiles = (size_t)tile_rows(b) * tile_columns(b), at = (size_t)row * tile_columns(b) + column;
    _Alignas(64) four_tiles reference, other;
    int64_t noise[PARITIES];
    gather_tiles(b, b->reference, top, left, reference);
    for (int p = 0; p < PARITIES; p++)
        noise[p] = noise_of_tile(n, reference[p][0]);
    memset(sum, 0, sizeof(correction));
    for (int k = 0; k + 1 < b->count; k++) {
        vector v = vectors[k * tiles + at];
        gather_tiles(b, other_frame(b, k), top + v.down, left + v.right, other);
        for (int p = 0; p < PARITIES; p++)
            if (noise[p] != 0 && subtract(reference[p][0], other[p][0]))
                add(other[p], noise[p], sum[p]);
    }
}

/* The four tiles over one output of a plane: 2^32 times the corrections' weighted sum. */
static inline double windowed(const scratch *s, const correction *upper, const correction *lower, int parity, int i, int x)
{
    return s->window[8 + i][8 + x] * upper[0][parity][8 + i][8 + x] + s->window[8 + i][x] * upper[1][parity][8 + i][x]
        + s->window[i][8 + x] * lower[0][parity][i][8 + x] + s->window[i][x] * lower[1][parity][i][x];
}

/* floor((N * sample - sum / 2^32 + N / 2) / N), held to 0..4095. N times that is held below 4096 N first, so `inverse`, 2^19 / N rounded up,
   divides exactly. */
static inline uint16_t output_sample(uint16_t sample, double sum, int count, uint32_t inverse)
{
    double scaled = (sample + 0.5) * count - sum * 0x1p-32, most = 4095.5 * count;
    scaled = scaled < 0 ? 0 : scaled > most ? most : scaled;
    return (uint16_t)((uint32_t)(int32_t)scaled * inverse >> 19);
}

/* Both planes of one Bayer row from the tile rows above and below it. */
static void output_row(const burst *b, const scratch *s, int y, const correction *upper, const correction *lower, uint16_t *restrict out)
{
    const uint16_t *restrict reference = frame_of(b, b->reference) + (size_t)y * b->width;
    int i = y / 2 % 8, parity = 2 * (y % 2), count = b->count;
    uint32_t inverse = ((1u << 19) + (uint32_t)count - 1) / (uint32_t)count;
    for (int column = 0; column < b->width / 16; column++)
        for (int x = 0; x < 8; x++) {
            int at = 2 * (8 * column + x);
            double even = windowed(s, upper + column, lower + column, parity, i, x);
            double odd = windowed(s, upper + column, lower + column, parity + 1, i, x);
            out[at] = output_sample(reference[at], even, count, inverse);
            out[at + 1] = output_sample(reference[at + 1], odd, count, inverse);
        }
}

static inline void merge(const scratch *s, const burst *b, const noise_levels *n, const vector *vectors, add_correction add, uint16_t *output)
{
    for (int row = 0; row < tile_rows(b); row++) {
        correction *upper = s->rows[(row + 1) % 2], *lower = s->rows[row % 2];
        for (int column = 0; column < tile_columns(b); column++)
            correct_tiles(b, n, vectors, row, column, add, lower[column]);
        for (int y = row > 0 ? 16 * (row - 1) : 0; y < 16 * row; y++)
            output_row(b, s, y, (const correction *)upper, (const correction *)lower, output + (size_t)y * b->width);
    }
}

static void merge_two(void *memory, const burst *b, const noise_levels *n, result *r)
{
    merge(memory, b, n, r->vectors, add_correction_two, r->output);
}

static void merge_one(void *memory, const burst *b, const noise_levels *n, result *r)
{
    merge(memory, b, n, r->vectors, add_correction_one, r->output);
}

static void merge_double(void *memory, const burst *b, const noise_levels *n, result *r)
{
    merge(memory, b, n, r->vectors, add_correction_double, r->output);
}

const peer expert_merge_two = { "expert C, two divisions", 1, make, discard, merge_two };
const peer expert_merge_one = { "expert C, one division", 1, make, discard, merge_one };
const peer expert_merge_double = { "expert C, division in double", 1, make, discard, merge_double };
