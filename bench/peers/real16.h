/* The 16-point transform of real values by the recipe's table, folded as far as the rounded table allows exactly: C(k+8) = -C(k),
   C(8-k) = -C(k), S(k) = C(k+12). Twelve table multiplications each way.
   The result is packed: place k is the real part of bin k for k = 0..8, place 8 + k the imaginary part of bin k for k = 1..7.
   Included once for each set of types: IN of the values, FOLD of their sums, WIDE of products; FORWARD and INVERSE name what is wanted. */


#ifdef FORWARD
/* y(k) = sum of x(n) C(kn) and - x(n) S(kn); values stand `from` and `to` apart. */
static inline __attribute__((always_inline)) void FORWARD(const IN *x, int from, WIDE *y, int to)
{
    FOLD x0 = x[0], x1 = x[from], x2 = x[2 * from], x3 = x[3 * from], x4 = x[4 * from], x5 = x[5 * from], x6 = x[6 * from], x7 = x[7 * from];
    FOLD x8 = x[8 * from], x9 = x[9 * from], x10 = x[10 * from], x11 = x[11 * from], x12 = x[12 * from], x13 = x[13 * from];
    FOLD x14 = x[14 * from], x15 = x[15 * from];
    FOLD s0 = x0 + x8, s1 = x1 + x9, s2 = x2 + x10, s3 = x3 + x11, s4 = x4 + x12, s5 = x5 + x13, s6 = x6 + x14, s7 = x7 + x15;
    FOLD t0 = x0 - x8, t1 = x1 - x9, t2 = x2 - x10, t3 = x3 - x11, t4 = x4 - x12, t5 = x5 - x13, t6 = x6 - x14, t7 = x7 - x15;

    /* bins 0, 4, 8 */
    WIDE a0 = (WIDE)s0 + s4, a1 = (WIDE)s1 + s5, a2 = (WIDE)s2 + s6, a3 = (WIDE)s3 + s7;
    y[0] = (a0 + a2 + a1 + a3) * C0;
    y[8 * to] = (a0 + a2 - a1 - a3) * C0;
    y[4 * to] = (a0 - a2) * C0;
    y[12 * to] = (a3 - a1) * C0;

    /* bins 2, 6 */
    FOLD b0 = s0 - s4, b1 = s1 - s5, b2 = s2 - s6, b3 = s3 - s7, less = b1 - b3, more = b1 + b3;
    WIDE g = (WIDE)less * C2, h = (WIDE)more * C2, m0 = (WIDE)b0 * C0, m2 = (WIDE)b2 * C0;
    y[2 * to] = m0 + g;
    y[6 * to] = m0 - g;
    y[10 * to] = -(m2 + h);
    y[14 * to] = m2 - h;

    /* bins 1, 3, 5, 7: real parts, then imaginary parts */
    FOLD e1 = t1 - t7, e2 = t2 - t6, e3 = t3 - t5;
    WIDE p = (WIDE)e1 * C1 + (WIDE)e3 * C3, q = (WIDE)e1 * C3 - (WIDE)e3 * C1;
    WIDE r0 = (WIDE)t0 * C0, r2 = (WIDE)e2 * C2;
    y[to] = r0 + r2 + p;
    y[7 * to] = r0 + r2 - p;
    y[3 * to] = r0 - r2 + q;
    y[5 * to] = r0 - r2 - q;
    FOLD o1 = t1 + t7, o2 = t2 + t6, o3 = t3 + t5;
    WIDE u = (WIDE)o3 * C1 + (WIDE)o1 * C3, v = (WIDE)o3 * C3 - (WIDE)o1 * C1;
    WIDE i2 = (WIDE)o2 * C2, i4 = (WIDE)t4 * C0;
    y[9 * to] = -(u + i2 + i4);
    y[15 * to] = i2 + i4 - u;
    y[11 * to] = v - i2 + i4;
    y[13 * to] = v + i2 - i4;
}
#undef FORWARD
#undef FOLD
#endif

#ifdef INVERSE
/* The transpose, x(n) from packed z(k); `times` counts every place but 0 and 8, for bins that also stand for their mirrors. */
static inline __attribute__((always_inline)) void INVERSE(const IN *z, int from, int times, WIDE *x, int to)
{
    WIDE z0 = z[0], z1 = z[from], z2 = z[2 * from], z3 = z[3 * from], z4 = z[4 * from], z5 = z[5 * from], z6 = z[6 * from], z7 = z[7 * from];
    WIDE z8 = z[8 * from], i1 = z[9 * from], i2 = z[10 * from], i3 = z[11 * from], i4 = z[12 * from], i5 = z[13 * from];
    WIDE i6 = z[14 * from], i7 = z[15 * from];

    /* sums of places eight apart, halved: from bins 0, 4, 8 and from bins 2, 6 */
    WIDE more = z0 + z8, less = z0 - z8, r4 = z4 * times, j4 = i4 * times;
    WIDE a0 = (more + r4) * C0, a1 = (less - j4) * C0, a2 = (more - r4) * C0, a3 = (less + j4) * C0;
    WIDE g = (z2 - z6) * (times * C2), h = (i2 + i6) * (times * C2);
    WIDE b0 = (z2 + z6) * (times * C0), b1 = g - h, b2 = (i6 - i2) * (times * C0), b3 = -(g + h);
    WIDE s0 = a0 + b0, s1 = a1 + b1, s2 = a2 + b2, s3 = a3 + b3, s4 = a0 - b0, s5 = a1 - b1, s6 = a2 - b2, s7 = a3 - b3;

    /* their differences, halved: from bins 1, 3, 5, 7 */
    WIDE p = z1 - z7, q = z3 - z5, u = i1 + i7, v = i3 + i5;
    WIDE e1 = p * (times * C1) + q * (times * C3), e2 = (z1 + z7 - z3 - z5) * (times * C2), e3 = p * (times * C3) - q * (times * C1);
    WIDE o1 = -(v * (times * C1) + u * (times * C3)), o2 = (i7 - i1 + i5 - i3) * (times * C2), o3 = v * (times * C3) - u * (times * C1);
    WIDE t0 = (z1 + z7 + z3 + z5) * (times * C0), t4 = (i7 - i1 - i5 + i3) * (times * C0);
    WIDE t1 = e1 + o1, t2 = e2 + o2, t3 = e3 + o3, t5 = o3 - e3, t6 = o2 - e2, t7 = o1 - e1;

    x[0] = s0 + t0, x[to] = s1 + t1, x[2 * to] = s2 + t2, x[3 * to] = s3 + t3;
    x[4 * to] = s4 + t4, x[5 * to] = s5 + t5, x[6 * to] = s6 + t6, x[7 * to] = s7 + t7;
    x[8 * to] = s0 - t0, x[9 * to] = s1 - t1, x[10 * to] = s2 - t2, x[11 * to] = s3 - t3;
    x[12 * to] = s4 - t4, x[13 * to] = s5 - t5, x[14 * to] = s6 - t6, x[15 * to] = s7 - t7;
}
#undef INVERSE
#endif

#undef IN
#undef WIDE
