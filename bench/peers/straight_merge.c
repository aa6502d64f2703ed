/* Straightforward merge in whole numbers: the exact transform by rows and columns, with mirrored samples folded and half of the bins. */
#include "peers.h"

#include <math.h>
#include <string.h>

enum { HALF = 9 };

/* Built once more with -DTALLY, it counts the exact halves it rounds, by sign. */
#ifdef TALLY
uint64_t half_tally[HALVES][2];
#define COUNT_HALF(kind, is_half, negative) (half_tally[kind][negative] += (is_half))
#else
#define COUNT_HALF(kind, is_half, negative) ((void)0)
#endif

/* ---- the transform ---- */

/* C(k) and S(k) of the recipe at k * x modulo 16, for k and x in 0..8: the rest follows by symmetry. */
static int32_t COSINE[HALF][HALF], SINE[HALF][HALF];

static void fill_tables(void)
{
    static const int32_t c[16] = { 16384, 15137, 11585, 6270, 0, -6270, -11585, -15137, -16384, -15137, -11585, -6270, 0, 6270, 11585, 15137 };
    for (int k = 0; k < HALF; k++)
        for (int x = 0; x < HALF; x++) {
            COSINE[k][x] = c[k * x % 16];
            SINE[k][x] = c[(k * x + 12) % 16];
        }
}

typedef int32_t merge_tile[SIDE][SIDE];

/* The half of the bins that settles the other by conjugate symmetry. */
typedef struct {
    int32_t re[HALF][SIDE], im[HALF][SIDE];
} half_bins;

typedef struct {
    int64_t re[HALF][SIDE], im[HALF][SIDE];
} wide_bins;

/* x + its mirror and x - its mirror, places 0..8. */
static inline void fold(const int32_t in[SIDE], int32_t even[HALF], int32_t odd[HALF])
{
    even[0] = in[0];
    even[8] = in[8];
    odd[0] = odd[8] = 0;
    for (int i = 1; i < 8; i++) {
        even[i] = in[i] + in[SIDE - i];
        odd[i] = in[i] - in[SIDE - i];
    }
}

static inline int64_t dot(const int32_t a[HALF], const int32_t b[HALF])
{
    int64_t sum = 0;
    for (int i = 0; i < HALF; i++)
        sum += (int64_t)a[i] * b[i];
    return sum;
}

/* Complex 16-point transform with C and -S; with C and +S the same values stand mirrored. */
static void transform_row(const int32_t re[SIDE], const int32_t im[SIDE], int mirrored, int64_t out_re[SIDE], int64_t out_im[SIDE])
{
    int32_t even_re[HALF], odd_re[HALF], even_im[HALF], odd_im[HALF];
    fold(re, even_re, odd_re);
    fold(im, even_im, odd_im);
    for (int k = 0; k < HALF; k++) {
        int64_t a = dot(even_re, COSINE[k]), b = dot(odd_im, SINE[k]), c = dot(even_im, COSINE[k]), d = dot(odd_re, SINE[k]);
        int plus = mirrored ? (SIDE - k) % SIDE : k, minus = (SIDE - plus) % SIDE;
        out_re[minus] = a - b;
        out_im[minus] = c + d;
        out_re[plus] = a + b;
        out_im[plus] = c - d;
    }
}

static void fold_columns(const merge_tile in, int32_t even[HALF][SIDE], int32_t odd[HALF][SIDE])
{
    for (int x = 0; x < SIDE; x++) {
        even[0][x] = in[0][x];
        even[8][x] = in[8][x];
        odd[0][x] = odd[8][x] = 0;
    }
    for (int y = 1; y < 8; y++)
        for (int x = 0; x < SIDE; x++) {
            even[y][x] = in[y][x] + in[SIDE - y][x];
            odd[y][x] = in[y][x] - in[SIDE - y][x];
        }
}

/* Down the columns, rows 0..8 of the bins; the sums fit 32 bits. */
static void transform_columns(const merge_tile difference, half_bins *out)
{
    int32_t even[HALF][SIDE], odd[HALF][SIDE];
    fold_columns(difference, even, odd);
    memset(out, 0, sizeof *out);
    for (int k = 0; k < HALF; k++)
        for (int y = 0; y < HALF; y++)
            for (int x = 0; x < SIDE; x++) {
                out->re[k][x] += even[y][x] * COSINE[k][y];
                out->im[k][x] -= odd[y][x] * SINE[k][y];
            }
}

/* value / 2^shift to nearest, halves away from zero */
static inline int64_t nearest(int64_t value, int shift)
{
    COUNT_HALF(shift == 24 ? HALF_Q : HALF_P, (value & (((int64_t)1 << shift) - 1)) == (int64_t)1 << (shift - 1), value < 0);
    return (value + ((int64_t)1 << (shift - 1)) - (value < 0)) >> shift;
}

/* noise * part / power to nearest, halves away from zero */
static inline int32_t shrink(int64_t part, int64_t noise, int64_t power)
{
    int64_t size = (noise * llabs(part) + power / 2) / power;
    COUNT_HALF(HALF_G, power % 2 == 0 && noise * llabs(part) % power == power / 2, part < 0);
    return (int32_t)(part < 0 ? -size : size);
}

/* Rounds the bins to sixteenths and shrinks them; rows 1 to 7 also stand for their mirrors, so they count twice. */
static void wiener(const wide_bins *in, int64_t noise, half_bins *out)
{
    for (int k = 0; k < HALF; k++) {
        int32_t times = k == 0 || k == 8 ? 1 : 2;
        for (int l = 0; l < SIDE; l++) {
            int64_t re = nearest(in->re[k][l], 24), im = nearest(in->im[k][l], 24), power = re * re + im * im + noise;
            out->re[k][l] = times * shrink(re, noise, power);
            out->im[k][l] = times * shrink(im, noise, power);
        }
    }
}

/* The real part of the inverse down the columns, in 1/256 sample, added to the sum over the frames. */
static void add_inverse_columns(const wide_bins *in, merge_tile sum)
{
    for (int y = 0; y < HALF; y++) {
        int64_t a[SIDE] = { 0 }, b[SIDE] = { 0 };
        for (int k = 0; k < HALF; k++)
            for (int x = 0; x < SIDE; x++) {
                a[x] += in->re[k][x] * COSINE[k][y];
                b[x] += in->im[k][x] * SINE[k][y];
            }
        for (int x = 0; x < SIDE; x++)
            sum[y][x] += (int32_t)nearest(a[x] - b[x], 32);
        if (y > 0 && y < 8)
            for (int x = 0; x < SIDE; x++)
                sum[SIDE - y][x] += (int32_t)nearest(a[x] + b[x], 32);
    }
}

static void add_correction(const merge_tile difference, int64_t noise, merge_tile sum)
{
    half_bins half;
    wide_bins wide;
    transform_columns(difference, &half);
    for (int k = 0; k < HALF; k++)
        transform_row(half.re[k], half.im[k], 0, wide.re[k], wide.im[k]);
    wiener(&wide, noise, &half);
    for (int k = 0; k < HALF; k++)
        transform_row(half.re[k], half.im[k], 1, wide.re[k], wide.im[k]);
    add_inverse_columns(&wide, sum);
}

/* ---- tiles and planes ---- */

/* A plane's tile at this origin, mirrored outside. `parity` is 2 * row + column. */
static void gather(const burst *b, int frame, int parity, int top, int left, merge_tile out)
{
    int width = b->width / 2, height = b->height / 2, inside = left >= 0 && left + SIDE <= width;
    const uint16_t *plane = frame_of(b, frame) + (parity / 2) * b->width + parity % 2;
    for (int y = 0; y < SIDE; y++) {
        const uint16_t *row = plane + 2 * (size_t)mirrored(top + y, height) * b->width;
        for (int x = 0; x < SIDE; x++)
            out[y][x] = row[2 * (inside ? left + x : mirrored(left + x, width))];
    }
}

static int64_t noise_number(const noise_levels *n, const merge_tile reference)
{
    uint64_t squares = 0;
    for (int y = 0; y < SIDE; y++)
        for (int x = 0; x < SIDE; x++)
            squares += (uint32_t)(reference[y][x] * reference[y][x]);
    int64_t root = (int64_t)sqrt((double)squares);
    return n->strength * (n->shot * root + 16 * n->read) / 16;
}

/* The sum over the other frames of one tile's correction. */
static void correct_tile(const burst *b, const noise_levels *n, const vector *vectors, int parity, int row, int column, merge_tile sum)
{
    int columns = tile_columns(b), rows = tile_rows(b), top = STEP * (row - 1), left = STEP * (column - 1);
    merge_tile reference, other;
    gather(b, b->reference, parity, top, left, reference);
    int64_t noise = noise_number(n, reference);
    memset(sum, 0, sizeof(merge_tile));
    if (noise == 0)
        return;
    for (int k = 0; k + 1 < b->count; k++) {
        vector v = vectors[((size_t)k * rows + row) * columns + column];
        gather(b, other_frame(b, k), parity, top + v.down, left + v.right, other);
        for (int y = 0; y < SIDE; y++)
            for (int x = 0; x < SIDE; x++)
                other[y][x] = reference[y][x] - other[y][x];
        add_correction(other, noise, sum);
    }
}

/* Two correction tiles side by side, windowed over the eight columns they share. */
static inline int64_t windowed(const merge_tile *tiles, int y, int x)
{
    return (int64_t)WEIGHT[8 + x] * tiles[0][y][8 + x] + (int64_t)WEIGHT[x] * tiles[1][y][x];
}

/* One row of a plane from the tile rows above and below it. */
static void output_row(const burst *b, int parity, int y, const merge_tile *upper, const merge_tile *lower, uint16_t *output)
{
    size_t start = (size_t)(2 * y + parity / 2) * b->width + parity % 2;
    const uint16_t *reference = frame_of(b, b->reference) + start;
    uint16_t *out = output + start;
    int64_t half = (int64_t)b->count << 31;
    int i = y % 8;
    for (int column = 0; column < b->width / 16; column++)
        for (int x = 0; x < 8; x++) {
            int at = 2 * (8 * column + x);
            int64_t sum = WEIGHT[8 + i] * windowed(upper + column, 8 + i, x) + WEIGHT[i] * windowed(lower + column, i, x);
            COUNT_HALF(HALF_OUTPUT, sum % (2 * half) == half || sum % (2 * half) == -half, sum < 0);
            int32_t scaled = (int32_t)((2 * half * reference[at] - sum + half) >> 32);
            out[at] = (uint16_t)clamp(scaled / b->count, 0, 4095);
        }
}

static void merge_plane(const burst *b, const noise_levels *n, const vector *vectors, int parity, merge_tile *rows[2], uint16_t *output)
{
    for (int row = 0; row < tile_rows(b); row++) {
        merge_tile *upper = rows[(row + 1) % 2], *lower = rows[row % 2];
        for (int column = 0; column < tile_columns(b); column++)
            correct_tile(b, n, vectors, parity, row, column, lower[column]);
        for (int y = row > 0 ? 8 * (row - 1) : 0; y < 8 * row; y++)
            output_row(b, parity, y, (const merge_tile *)upper, (const merge_tile *)lower, output);
    }
}

/* Two rows of tiles. */
static void *make(const burst *b)
{
    fill_tables();
    return allocated(2 * (size_t)tile_columns(b) * sizeof(merge_tile));
}

static void merge(void *scratch, const burst *b, const noise_levels *n, result *r)
{
    merge_tile *rows[2] = { scratch, (merge_tile *)scratch + tile_columns(b) };
    for (int parity = 0; parity < PARITIES; parity++)
        merge_plane(b, n, r->vectors, parity, rows, r->output);
}

#ifdef TALLY
const peer tally_merge = { "tally", 1, make, free, merge };
#else
const peer straight_merge = { "straightforward C", 1, make, free, merge };
#endif
