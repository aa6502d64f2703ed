/* Both passes of the transform fold every symmetry of the table; the first works on 16-bit differences with 32-bit sums. Between the passes
   half of the bins is enough, and combining, rounding, shrinking and spreading them is one step. */
#include "expert_tile.h"

enum { C0 = 16384, C1 = 15137, C2 = 11585, C3 = 6270 };

#define INLINE static inline __attribute__((always_inline))
#define ALONE static __attribute__((noinline))
/* for 64-bit products and divisions, which x86-64 does faster one by one */
#define SCALAR __attribute__((noinline, optimize("no-tree-vectorize")))
#ifdef __AVX512DQ__
#define PRODUCTS ALONE
#else
#define PRODUCTS static SCALAR
#endif

#define IN int16_t
#define FOLD int16_t
#define WIDE int32_t
#define FORWARD forward_16
#include "real16.h"

#define IN int32_t
#define FOLD int64_t
#define WIDE int64_t
#define FORWARD forward_32
#define INVERSE inverse_32_wide
#include "real16.h"

#define IN int32_t
#define WIDE int32_t
#define INVERSE inverse_32
#include "real16.h"

#define IN int64_t
#define WIDE int64_t
#define INVERSE inverse_64
#include "real16.h"

typedef int32_t narrow[SIDE][SIDE];
typedef int64_t wide[SIDE][SIDE];

/* Down the columns; the compiler takes several columns at once. */
ALONE void forward_columns(const int16_t (*restrict difference)[SIDE], int32_t (*restrict y)[SIDE])
{
    for (int x = 0; x < SIDE; x++)
        forward_16(&difference[0][x], SIDE, &y[0][x], SIDE);
}

/* Along the rows; z stands transposed, packed place of the column first. */
ALONE void forward_rows(const int32_t (*restrict y)[SIDE], int64_t (*restrict z)[SIDE])
{
    for (int k = 0; k < SIDE; k++)
        forward_32(y[k], 1, &z[0][k], SIDE);
}

/* ---- the bins ---- */

typedef struct {
    int64_t re, im;
} complex_bin;

/* B / 2^24 to nearest, halves away from zero */
INLINE int64_t to_sixteenths(int64_t b)
{
    return (b + ((int64_t)1 << 23) + (b >> 63)) >> 24;
}

INLINE uint64_t size_of(int64_t value)
{
    return (uint64_t)((value ^ value >> 63) - (value >> 63));
}

INLINE int64_t with_sign_of(int64_t value, uint64_t size)
{
    return ((int64_t)size ^ value >> 63) - (value >> 63);
}

typedef complex_bin shrink(int64_t noise, int64_t re, int64_t im);

INLINE complex_bin shrink_two(int64_t noise, int64_t re, int64_t im)
{
    int64_t a = to_sixteenths(re), b = to_sixteenths(im);
    uint64_t power = (uint64_t)(a * a + b * b + noise), half = power / 2;
    uint64_t p = ((uint64_t)noise * size_of(a) + half) / power, q = ((uint64_t)noise * size_of(b) + half) / power;
    return (complex_bin){ with_sign_of(a, p), with_sign_of(b, q) };
}

/* The quotient by a reciprocal rounded down is at most one too small. */
INLINE uint64_t quotient(uint64_t x, uint64_t power, uint64_t reciprocal)
{
    uint64_t q = (uint64_t)((unsigned __int128)x * reciprocal >> 64);
    return q + (x - q * power >= power);
}

INLINE complex_bin shrink_one(int64_t noise, int64_t re, int64_t im)
{
    int64_t a = to_sixteenths(re), b = to_sixteenths(im);
    uint64_t power = (uint64_t)(a * a + b * b + noise), half = power / 2, reciprocal = UINT64_MAX / power;
    uint64_t p = quotient((uint64_t)noise * size_of(a) + half, power, reciprocal);
    uint64_t q = quotient((uint64_t)noise * size_of(b) + half, power, reciprocal);
    return (complex_bin){ with_sign_of(a, p), with_sign_of(b, q) };
}

/* Bins (v, u) and (v, -u) from the four products of packed parts, and back into such parts. */
INLINE void shrink_pair(shrink rule, int64_t noise, const wide z, int v, int u, narrow s)
{
    int64_t rr = z[v][u], ir = z[8 + v][u], ri = z[v][8 + u], ii = z[8 + v][8 + u];
    complex_bin plus = rule(noise, rr - ii, ir + ri), minus = rule(noise, rr + ii, ri - ir);
    s[v][u] = (int32_t)(plus.re + minus.re);
    s[8 + v][u] = (int32_t)(plus.im - minus.im);
    s[v][8 + u] = (int32_t)(plus.im + minus.im);
    s[8 + v][8 + u] = (int32_t)(minus.re - plus.re);
}

/* A bin of v or u in {0, 8}, whose parts stand at two places; `times` 2 where it stands for its mirror in v. */
INLINE void shrink_edge(shrink rule, int64_t noise, const int64_t *re, const int64_t *im, int times, int32_t *out_re, int32_t *out_im)
{
    complex_bin bin = rule(noise, *re, *im);
    *out_re = times * (int32_t)bin.re;
    *out_im = times * (int32_t)bin.im;
}

INLINE void shrink_each(shrink rule, int64_t noise, const wide z, narrow s)
{
    for (int v = 1; v < 8; v++) {
        for (int u = 1; u < 8; u++)
            shrink_pair(rule, noise, z, v, u, s);
        for (int u = 0; u <= 8; u += 8) {
            shrink_edge(rule, noise, &z[v][u], &z[8 + v][u], 2, &s[v][u], &s[8 + v][u]);
            shrink_edge(rule, noise, &z[u][v], &z[u][8 + v], 1, &s[u][v], &s[u][8 + v]);
        }
    }
    for (int v = 0; v <= 8; v += 8)
        for (int u = 0; u <= 8; u += 8)
            s[v][u] = (int32_t)rule(noise, z[v][u], 0).re;
}

SCALAR void shrink_bins_two(int64_t noise, const int64_t (*restrict z)[SIDE], int32_t (*restrict s)[SIDE])
{
    shrink_each(shrink_two, noise, z, s);
}

SCALAR void shrink_bins_one(int64_t noise, const int64_t (*restrict z)[SIDE], int32_t (*restrict s)[SIDE])
{
    shrink_each(shrink_one, noise, z, s);
}

/* ---- the inverse ---- */

/* A shrunk bin is at most half the root of V, so below this V the first pass fits 32 bits: 16 (sqrt(V)/2 + 0.71) 16384.2 < 2^31. */
enum { SMALL_NOISE = 268000000 };

ALONE void inverse_first(const int32_t (*restrict s)[SIDE], int32_t (*restrict h)[SIDE])
{
    for (int k = 0; k < SIDE; k++)
        inverse_32(&s[0][k], SIDE, 1, &h[0][k], SIDE);
}

ALONE void inverse_first_wide(const int32_t (*restrict s)[SIDE], int64_t (*restrict h)[SIDE])
{
    for (int k = 0; k < SIDE; k++)
        inverse_32_wide(&s[0][k], SIDE, 1, &h[0][k], SIDE);
}

/* P, to nearest, halves away from zero */
INLINE int32_t to_correction(int64_t value)
{
    return (int32_t)((value + ((int64_t)1 << 31) + (value >> 63)) >> 32);
}

PRODUCTS void inverse_last(const int32_t (*restrict h)[SIDE], int32_t (*restrict sum)[SIDE])
{
    for (int x = 0; x < SIDE; x++) {
        int64_t column[SIDE];
        inverse_32_wide(h[x], 1, 2, column, 1);
        for (int y = 0; y < SIDE; y++)
            sum[y][x] += to_correction(column[y]);
    }
}

PRODUCTS void inverse_last_wide(const int64_t (*restrict h)[SIDE], int32_t (*restrict sum)[SIDE])
{
    for (int x = 0; x < SIDE; x++) {
        int64_t column[SIDE];
        inverse_64(h[x], 1, 2, column, 1);
        for (int y = 0; y < SIDE; y++)
            sum[y][x] += to_correction(column[y]);
    }
}

INLINE void add(shrink_bins rule, const int16_t difference[SIDE][SIDE], int64_t noise, int32_t sum[SIDE][SIDE])
{
    _Alignas(64) narrow y, s;
    _Alignas(64) wide z;
    forward_columns(difference, y);
    forward_rows(y, z);
    rule(noise, z, s);
    if (noise < SMALL_NOISE) {
        inverse_first(s, y);
        inverse_last(y, sum);
    } else {
        inverse_first_wide(s, z);
        inverse_last_wide(z, sum);
    }
}

void add_correction_two(const int16_t difference[SIDE][SIDE], int64_t noise, int32_t sum[SIDE][SIDE])
{
    add(shrink_bins_two, difference, noise, sum);
}

void add_correction_one(const int16_t difference[SIDE][SIDE], int64_t noise, int32_t sum[SIDE][SIDE])
{
    add(shrink_bins_one, difference, noise, sum);
}

void add_correction_double(const int16_t difference[SIDE][SIDE], int64_t noise, int32_t sum[SIDE][SIDE])
{
    add(shrink_bins_double, difference, noise, sum);
}
