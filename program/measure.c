/* noise and calibrate: outside the proofs but for the noise number. */
#include "program.h"

#include <inttypes.h>
#include <math.h>
#include <stdlib.h>
#include <string.h>

/* the curve at the frames' ISO */
static stacker_noise at_iso(const request *r)
{
    double a = r->iso != 0 ? r->iso / 100.0 : 1;
    return (stacker_noise){ .shot = a * r->noise.shot, .read = a * a * r->noise.read };
}

/* the number by which merge would refuse the curve, or 0 */
static uint64_t curve_refusal(stacker_noise noise)
{
    if (!(isfinite(noise.shot) && isfinite(noise.read) && noise.shot >= 0 && noise.read >= 0))
        return STACKER_REFUSED_NOISE;
    return noise.shot > 64 || noise.read > 4096 ? STACKER_REFUSED_NOISE_LIMIT : STACKER_ACCEPTED;
}

int noise_command(request *r, char **names, int count)
{
    static const uint64_t levels[] = { 0, 16, 64, 128, 256, 512, 1024, 2048, 4095 };
    (void)names;
    if (count != 0 || !r->has_noise)
        fail(WRONG, "noise takes --noise SHOT,READ and no file");
    stacker_noise noise = at_iso(r);
    accepted("noise", r->side != 16 && r->side != 32 ? STACKER_REFUSED_SIDE : curve_refusal(noise), "");
    printf("shot %.6g, read %.6g, strength %" PRIu64 ", side %" PRIu64 "\nlevel above black   deviation   noise number V, in 1/%d of a squared sample\n", noise.shot,
        noise.read, r->strength, r->side, r->side == 16 ? 256 : 16);
    for (size_t i = 0; i < sizeof levels / sizeof *levels; i++)
        printf("%17" PRIu64 "   %9.3f   %" PRIu64 "\n", levels[i], sqrt(noise.shot * (double)levels[i] + noise.read),
            noise_number(r, noise, r->side * levels[i]));
    return DONE;
}

/* CALIBRATE. Two frames of one steady, even scene differ by noise alone: in each small block of a plane half the variance of their difference is the
   noise's variance at the block's mean. Blocks with a sample at 0 or 4095 are left out: what is cut off there has no known variance. */

enum { BLOCK = 16, FITS = 8 };

typedef struct {
    double *mean, *variance;
    size_t count, left_out;
} points;

/* one block of a plane: its first sample's index in both frames of a pair */
static void add_block(points *p, const job *j, size_t at, double black)
{
    const uint16_t *a = j->samples + at, *b = a + j->area;
    double sum = 0, difference = 0, squares = 0;
    int cut = 0;
    for (size_t i = 0; i < BLOCK * BLOCK; i++) {
        size_t place = 2 * (i / BLOCK * j->burst.width + i % BLOCK);
        double d = (double)a[place] - (double)b[place];
        cut |= a[place] == 0 || b[place] == 0 || a[place] == SAMPLE_MOST || b[place] == SAMPLE_MOST;
        sum += (double)a[place] + (double)b[place];
        difference += d;
        squares += d * d;
    }
    double n = BLOCK * BLOCK;
    p->mean[p->count] = sum / (2 * n) - black;
    p->variance[p->count] = (squares - difference * difference / n) / (n - 1) / 2;
    p->count += !cut;
    p->left_out += (size_t)cut;
}

static void add_pair(points *p, const job *j, const uint16_t *black)
{
    size_t rows = j->burst.height / 2 / BLOCK, columns = j->burst.width / 2 / BLOCK;
    for (size_t i = 0; i < 4 * rows * columns; i++) {
        size_t plane = i / (rows * columns), row = i / columns % rows, column = i % columns;
        size_t y = 2 * BLOCK * row + plane / 2, x = 2 * BLOCK * column + plane % 2;
        add_block(p, j, y * j->burst.width + x, black[plane]);
    }
}

/* a line through the points: the spread of a variance is proportional to it, so each weighs 1 / variance², by the line of the fit before */
static stacker_noise fitted(const points *p)
{
    stacker_noise line = { 0, 1 };
    for (int fit = 0; fit < FITS; fit++) {
        double w = 0, x = 0, v = 0, xx = 0, xv = 0;
        for (size_t i = 0; i < p->count; i++) {
            double spread = fmax(line.shot * p->mean[i] + line.read, 1), weight = 1 / (spread * spread);
            w += weight;
            x += weight * p->mean[i];
            v += weight * p->variance[i];
            xx += weight * p->mean[i] * p->mean[i];
            xv += weight * p->mean[i] * p->variance[i];
        }
        line.shot = (w * xv - x * v) / (w * xx - x * x);
        line.read = (v - line.shot * x) / w;
    }
    return line;
}

static void read_pair(points *p, request *r, char **names)
{
    job j = { .names = names, .files = 2 };
    request pair = *r;
    read_burst(&j, &pair);
    size_t blocks = j.area / (BLOCK * BLOCK);
    p->mean = realloc(p->mean, (p->count + blocks + 1) * sizeof *p->mean);
    p->variance = realloc(p->variance, (p->count + blocks + 1) * sizeof *p->variance);
    if (p->mean == NULL || p->variance == NULL)
        fail(WRONG, "out of memory");
    size_t before = p->count;
    add_pair(p, &j, pair.black);
    double mean = 0, variance = 0;
    for (size_t i = before; i < p->count; i++) {
        mean += p->mean[i] / (double)(p->count - before);
        variance += p->variance[i] / (double)(p->count - before);
    }
    printf("%s, %s: level %.2f above black, variance %.3f\n", names[0], names[1], mean, variance);
    release(&j);
}

int calibrate_command(request *r, char **names, int count)
{
    points p = { NULL, NULL, 0, 0 };
    if (count < 4 || count % 2 != 0)
        fail(WRONG, "calibrate takes pairs of frames of one even scene each, at two levels of light or more");
    for (int i = 0; i < count; i += 2)
        read_pair(&p, r, names + i);
    if (p.count < 2)
        fail(WRONG, "each block has a sample at 0 or 4095: nothing is left to measure");
    stacker_noise line = fitted(&p);
    if (!isfinite(line.shot) || !isfinite(line.read))
        fail(WRONG, "all pairs have one level: a line takes two");
    printf("%zu blocks measured, %zu left out for a sample at 0 or 4095\n", p.count, p.left_out);
    printf("shot %.6g, read %.6g: --noise %.6g,%.6g\n", line.shot, line.read, line.shot, line.read);
    printf("DNG NoiseProfile: %.10g %.10g\n", line.shot / SAMPLE_MOST, line.read / SAMPLE_MOST / SAMPLE_MOST);
    free(p.mean);
    free(p.variance);
    return DONE;
}
