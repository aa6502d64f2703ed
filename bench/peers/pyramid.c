/* Sums of Bayer squares, then halvings by the weights 1 3 3 1. */
#include "pyramid.h"

#include "burst.h"

static image make_image(int width, int height)
{
    return (image){ width, height, allocated((size_t)width * height * sizeof(int16_t)) };
}

pyramid make_pyramid(int width, int height)
{
    static const int scale[LEVELS] = { 2, 4, 16, 64 };
    pyramid p;
    for (int i = 0; i < LEVELS; i++)
        p.level[i] = make_image(width / scale[i], height / scale[i]);
    for (int i = 0; i < 2; i++)
        p.between[i] = make_image(p.level[i + 1].width / 2, p.level[i + 1].height / 2);
    return p;
}

void free_pyramid(pyramid *p)
{
    for (int i = 0; i < LEVELS; i++)
        free(p->level[i].values);
    for (int i = 0; i < 2; i++)
        free(p->between[i].values);
}

static void bayer_sums(const uint16_t *frame, image *out)
{
    size_t width = 2 * (size_t)out->width;
    for (int y = 0; y < out->height; y++) {
        const uint16_t *upper = frame + 2 * (size_t)y * width, *lower = upper + width;
        int16_t *row = out->values + (size_t)y * out->width;
        for (int x = 0; x < out->width; x++)
            row[x] = (int16_t)(upper[2 * x] + upper[2 * x + 1] + lower[2 * x] + lower[2 * x + 1]);
    }
}

static const int16_t *clamped_row(const image *in, int y)
{
    return in->values + (size_t)clamp(y, 0, in->height - 1) * in->width;
}

/* Weights 1 3 3 1 down the columns, with an edge value repeated at either end. */
static void halve_columns(const image *in, int p, int32_t *sums)
{
    const int16_t *a = clamped_row(in, 2 * p - 1), *b = clamped_row(in, 2 * p), *c = clamped_row(in, 2 * p + 1), *d = clamped_row(in, 2 * p + 2);
    for (int x = 0; x < in->width; x++)
        sums[x + 1] = a[x] + 3 * (b[x] + c[x]) + d[x];
    sums[0] = sums[1];
    sums[in->width + 1] = sums[in->width];
}

static void halve(const image *in, image *out)
{
    int32_t sums[2048 + 2];
    for (int p = 0; p < out->height; p++) {
        halve_columns(in, p, sums);
        int16_t *row = out->values + (size_t)p * out->width;
        for (int x = 0; x < out->width; x++)
            row[x] = (int16_t)((sums[2 * x] + 3 * (sums[2 * x + 1] + sums[2 * x + 2]) + sums[2 * x + 3] + 32) >> 6);
    }
}

void build_pyramid(const uint16_t *frame, pyramid *p)
{
    bayer_sums(frame, &p->level[0]);
    halve(&p->level[0], &p->level[1]);
    for (int i = 0; i < 2; i++) {
        halve(&p->level[i + 1], &p->between[i]);
        halve(&p->between[i], &p->level[i + 2]);
    }
}
