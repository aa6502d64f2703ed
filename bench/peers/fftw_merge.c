/* The merge in single precision over FFTW: the same tiles, vectors, noise numbers and windows, no word promised. The inverse is linear, so one for
   the shrunk bins' sum over the frames is enough; the other variant takes one for each frame. */
#include "bayer_tiles.h"
#include "peers.h"

#include <fftw3.h>
#include <string.h>

enum { BINS = SIDE * (SIDE / 2 + 1) };

typedef float plane_tiles[PARITIES][SIDE][SIDE];
typedef fftwf_complex plane_bins[PARITIES][BINS];

/* One tile's values and bins, the bins' sum over the frames, w * w' over 2^24 and over the inverse's 256, two rows of tiles, and plans for the
   four planes at once. */
typedef struct {
    _Alignas(64) plane_tiles values;
    _Alignas(64) plane_bins bins, sum;
    float window[SIDE][SIDE];
    plane_tiles *rows[2];
    fftwf_plan forward, inverse;
} scratch;

static void *aligned(size_t size)
{
    void *memory = aligned_alloc(64, size);
    if (!memory)
        exit(2);
    return memory;
}

static void *make(const burst *b)
{
    static const int sides[2] = { SIDE, SIDE };
    scratch *s = aligned(sizeof *s);
    for (int i = 0; i < 2; i++)
        s->rows[i] = aligned((size_t)tile_columns(b) * sizeof(plane_tiles));
    for (int y = 0; y < SIDE; y++)
        for (int x = 0; x < SIDE; x++)
            s->window[y][x] = (float)(WEIGHT[y] * WEIGHT[x]) * 0x1p-32f;
    s->forward = fftwf_plan_many_dft_r2c(2, sides, PARITIES, s->values[0][0], NULL, 1, SIDE * SIDE, s->bins[0], NULL, 1, BINS, FFTW_PATIENT);
    s->inverse = fftwf_plan_many_dft_c2r(2, sides, PARITIES, s->sum[0], NULL, 1, BINS, s->values[0][0], NULL, 1, SIDE * SIDE, FFTW_PATIENT);
    return s;
}

static void discard(void *memory)
{
    scratch *s = memory;
    fftwf_destroy_plan(s->forward);
    fftwf_destroy_plan(s->inverse);
    free(s->rows[0]);
    free(s->rows[1]);
    free(s);
}

/* Differences of the four planes as single precision. */
static void subtract(const int16_t *restrict reference, const int16_t *restrict other, float *restrict out)
{
    for (int i = 0; i < PARITIES * SIDE * SIDE; i++)
        out[i] = (float)(reference[i] - other[i]);
}

/* Adds the bins, each times v / (|D|^2 + v); nothing where v is 0. */
static void add_shrunk(const fftwf_complex *restrict bins, float v, fftwf_complex *restrict sum)
{
    if (v == 0)
        return;
    for (int i = 0; i < BINS; i++) {
        float re = bins[i][0], im = bins[i][1], weight = v / (re * re + im * im + v);
        sum[i][0] += weight * re;
        sum[i][1] += weight * im;
    }
}

static void add_tiles(const float *restrict values, float *restrict sum)
{
    for (int i = 0; i < PARITIES * SIDE * SIDE; i++)
        sum[i] += values[i];
}

/* The corrections of the four planes' tiles, summed over the other frames: in bins, or with an inverse for each frame. */
static inline void correct_tiles(scratch *s, const burst *b, const noise_levels *n, const vector *vectors, int row, int column, int each,
    plane_tiles out)
{
    int top = STEP * (row - 1), left = STEP * (column - 1);
    size_t tiles = (size_t)tile_rows(b) * tile_columns(b), at = (size_t)row * tile_columns(b) + column;
    _Alignas(64) four_tiles reference, other;
    float v[PARITIES];
    gather_tiles(b, b->reference, top, left, reference);
    for (int p = 0; p < PARITIES; p++)
        v[p] = (float)noise_of_tile(n, reference[p][0]) / 256;
    memset(out, 0, sizeof(plane_tiles));
    memset(s->sum, 0, sizeof s->sum);
    for (int k = 0; k + 1 < b->count; k++) {
        vector moved = vectors[k * tiles + at];
        gather_tiles(b, other_frame(b, k), top + moved.down, left + moved.right, other);
        subtract(reference[0][0], other[0][0], s->values[0][0]);
        fftwf_execute(s->forward);
        for (int p = 0; p < PARITIES; p++)
            add_shrunk(s->bins[p], v[p], s->sum[p]);
        if (!each)
            continue;
        fftwf_execute(s->inverse);
        add_tiles(s->values[0][0], out[0][0]);
        memset(s->sum, 0, sizeof s->sum);
    }
    if (!each)
        fftwf_execute_dft_c2r(s->inverse, s->sum[0], out[0][0]);
}

static inline float windowed(const scratch *s, const plane_tiles *upper, const plane_tiles *lower, int parity, int i, int x)
{
    return s->window[8 + i][8 + x] * upper[0][parity][8 + i][8 + x] + s->window[8 + i][x] * upper[1][parity][8 + i][x]
        + s->window[i][8 + x] * lower[0][parity][i][8 + x] + s->window[i][x] * lower[1][parity][i][x];
}

static inline uint16_t output_sample(uint16_t sample, float correction)
{
    float value = (float)sample - correction + 0.5f;
    value = value < 0 ? 0 : value > 4095 ? 4095 : value;
    return (uint16_t)(int32_t)value;
}

/* Both planes of one Bayer row from the tile rows above and below it. */
static void output_row(const burst *b, const scratch *s, int y, const plane_tiles *upper, const plane_tiles *lower, uint16_t *restrict out)
{
    const uint16_t *restrict reference = frame_of(b, b->reference) + (size_t)y * b->width;
    int i = y / 2 % 8, parity = 2 * (y % 2);
    float share = 1.0f / (float)b->count;
    for (int column = 0; column < b->width / 16; column++)
        for (int x = 0; x < 8; x++) {
            int at = 2 * (8 * column + x);
            out[at] = output_sample(reference[at], share * windowed(s, upper + column, lower + column, parity, i, x));
            out[at + 1] = output_sample(reference[at + 1], share * windowed(s, upper + column, lower + column, parity + 1, i, x));
        }
}

static inline void merge(scratch *s, const burst *b, const noise_levels *n, const vector *vectors, int each, uint16_t *output)
{
    for (int row = 0; row < tile_rows(b); row++) {
        plane_tiles *upper = s->rows[(row + 1) % 2], *lower = s->rows[row % 2];
        for (int column = 0; column < tile_columns(b); column++)
            correct_tiles(s, b, n, vectors, row, column, each, lower[column]);
        for (int y = row > 0 ? 16 * (row - 1) : 0; y < 16 * row; y++)
            output_row(b, s, y, (const plane_tiles *)upper, (const plane_tiles *)lower, output + (size_t)y * b->width);
    }
}

static void merge_one(void *memory, const burst *b, const noise_levels *n, result *r)
{
    merge(memory, b, n, r->vectors, 0, r->output);
}

static void merge_each(void *memory, const burst *b, const noise_levels *n, result *r)
{
    merge(memory, b, n, r->vectors, 1, r->output);
}

const peer fftw_merge_one = { "FFTW float, one inverse", 0, make, discard, merge_one };
const peer fftw_merge_each = { "FFTW float, inverse per frame", 0, make, discard, merge_each };
