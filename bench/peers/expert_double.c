/* The bins of one tile by one division in double precision each, in loops that the compiler turns into vectors. A double is not exact here, but it
   is near: where a quotient comes too near a half for its rounding to be sure, the whole tile is divided in whole numbers instead. */
#include "expert_tile.h"

#include <math.h>
#include <string.h>

/* Rows 0..7 hold bins (v, u) with u = 0..7, rows 8 + v bins (v, -u); of the bins with v or u in {0, 8}, (v, 8) stands at (8 + v, 0), (8, u) at
   (8, u), (8, 0) and (8, 8) at the start of the last row. */
enum { PLACES = 17, LANES = 8 };

typedef double wide_bins[PLACES][LANES];
typedef int32_t bins[PLACES][LANES];

static inline double as_double(uint64_t bits)
{
    double value;
    memcpy(&value, &bits, sizeof value);
    return value;
}

static inline uint64_t as_bits(double value)
{
    uint64_t bits;
    memcpy(&bits, &value, sizeof bits);
    return bits;
}

/* B / 2^24 to nearest, halves away from zero: moved up by 2^62 to shift it unsigned, then taken for the last bits of a double above 2^52. */
static inline double to_sixteenths(int64_t b)
{
    uint64_t bits = (uint64_t)b;
    uint64_t moved = (bits + ((uint64_t)1 << 62 | (uint64_t)1 << 23) - (bits >> 63)) >> 24;
    return as_double(moved | as_bits(0x1p52)) - (0x1p52 + 0x1p38);
}

static __attribute__((noinline)) void combine(const int64_t (*restrict z)[SIDE], double (*restrict re)[LANES], double (*restrict im)[LANES])
{
    for (int v = 1; v < 8; v++) {
        for (int u = 0; u < LANES; u++) {
            int64_t rr = z[v][u], ir = z[8 + v][u], ri = z[v][8 + u], ii = z[8 + v][8 + u];
            re[v][u] = to_sixteenths(rr - ii), im[v][u] = to_sixteenths(ir + ri);
            re[8 + v][u] = to_sixteenths(rr + ii), im[8 + v][u] = to_sixteenths(ri - ir);
        }
        re[v][0] = to_sixteenths(z[v][0]), im[v][0] = to_sixteenths(z[8 + v][0]);
        re[8 + v][0] = to_sixteenths(z[v][8]), im[8 + v][0] = to_sixteenths(z[8 + v][8]);
    }
    for (int u = 0; u < LANES; u++) {
        re[0][u] = to_sixteenths(z[0][u]), im[0][u] = to_sixteenths(z[0][8 + u]);
        re[8][u] = to_sixteenths(z[8][u]), im[8][u] = to_sixteenths(z[8][8 + u]);
        re[16][u] = im[16][u] = 0;
    }
    re[8][0] = to_sixteenths(z[0][8]), re[16][0] = to_sixteenths(z[8][0]), re[16][1] = to_sixteenths(z[8][8]);
    im[0][0] = im[8][0] = 0;
}

/* To nearest: the last bits of a double near 2^52. The error before rounding is below 2^-32, so the answer is sure unless what is rounded off is
   within 2^-28 of a half; bit 62 of `unsure` tells. */
static inline int32_t rounded(double g, uint64_t *unsure)
{
    double moved = g + 0x1.8p52, rest = g - (moved - 0x1.8p52);
    *unsure |= as_bits(fabs(rest) + (1.5 + 0x1p-28));
    return (int32_t)(uint32_t)as_bits(moved);
}

/* V * Q / (|Q|^2 + V); whether every rounding is sure. */
static __attribute__((noinline)) int shrink(int64_t noise, const double *restrict re, const double *restrict im, int32_t *restrict out_re,
    int32_t *restrict out_im)
{
    double v = (double)noise;
    uint64_t unsure = 0;
    for (int i = 0; i < PLACES * LANES; i++) {
        double a = re[i], b = im[i], weight = v / (a * a + b * b + v);
        out_re[i] = rounded(a * weight, &unsure);
        out_im[i] = rounded(b * weight, &unsure);
    }
    return (unsure >> 62) == 0;
}

/* In lane 0 the one, in the others the other: without a branch, and without single stores into rows that are read as vectors next. */
static inline int32_t chosen(int lane, int32_t one, int32_t other)
{
    static const int32_t mask[LANES] = { -1 };
    return other ^ ((one ^ other) & mask[lane]);
}

/* Back into packed parts; bins of u in {0, 8} also stand for their mirrors. */
static __attribute__((noinline)) void spread(const int32_t (*restrict re)[LANES], const int32_t (*restrict im)[LANES], int32_t (*restrict s)[SIDE])
{
    for (int v = 1; v < 8; v++)
#pragma GCC unroll 1 /* vectors along u */
        for (int u = 0; u < LANES; u++) {
            int32_t a = re[v][u], b = im[v][u], c = re[8 + v][u], d = im[8 + v][u];
            s[v][u] = chosen(u, 2 * a, a + c);
            s[8 + v][u] = chosen(u, 2 * b, b - d);
            s[v][8 + u] = chosen(u, 2 * c, b + d);
            s[8 + v][8 + u] = chosen(u, 2 * d, c - a);
        }
    for (int u = 0; u < LANES; u++) {
        s[0][u] = re[0][u];
        s[0][8 + u] = chosen(u, re[8][0], im[0][u]);
        s[8][u] = chosen(u, re[16][0], re[8][u]);
        s[8][8 + u] = chosen(u, re[16][1], im[8][u]);
    }
}

void shrink_bins_double(int64_t noise, const int64_t (*restrict z)[SIDE], int32_t (*restrict s)[SIDE])
{
    _Alignas(64) wide_bins q_re, q_im;
    _Alignas(64) bins re, im;
    combine(z, q_re, q_im);
    if (shrink(noise, q_re[0], q_im[0], re[0], im[0]))
        spread(re, im, s);
    else
        shrink_bins_two(noise, z, s);
}
