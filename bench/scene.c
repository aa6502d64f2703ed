#include "scene.h"

#include "peers/burst.h"

#include <math.h>

/* xorshift64*: the same numbers in every run */
static uint64_t random_bits(void)
{
    static uint64_t seed = 88172645463325252u;
    seed ^= seed >> 12;
    seed ^= seed << 25;
    seed ^= seed >> 27;
    return seed * 2685821657736338717u;
}

static int below(int n)
{
    return (int)((random_bits() >> 33) % (uint64_t)n);
}

/* ---- the scene ---- */

enum { MARGIN = 64, OBJECT = 96, SPACING = 320, CLIPPED = 4800 };

static double wave(int at, double period)
{
    return sin(6.283185307179586 * at / period);
}

/* What the camera looks at: waves, bars with hard edges, a texture of small squares, and lights and dark parts in a grid. */
static int16_t *make_canvas(int width, int height)
{
    int16_t *canvas = allocated((size_t)width * height * sizeof *canvas);
    double *slow = allocated((size_t)width * sizeof *slow), *fast = allocated((size_t)width * sizeof *fast);
    int *grain = allocated((size_t)(width / 5 + 1) * sizeof *grain);
    for (int x = 0; x < width; x++) {
        slow[x] = 700 * wave(x, 211);
        fast[x] = 300 * wave(x, 37);
    }
    for (int y = 0; y < height; y++) {
        double slow_y = wave(y, 173), fast_y = wave(y, 29);
        for (int x = 0; y % 5 == 0 && x < width; x += 5)
            grain[x / 5] = below(240);
        for (int x = 0; x < width; x++) {
            int value = 1200 + (int)(slow[x] * slow_y + fast[x] * fast_y) + grain[x / 5] + ((x + 2 * y) % 97 < 30 ? 450 : 0);
            int spot = (x % 250) * (x % 250) + (y % 230) * (y % 230);
            canvas[(size_t)y * width + x] = (int16_t)(spot < 900 ? CLIPPED : spot > 90000 ? value / 64 : value);
        }
    }
    free(slow);
    free(fast);
    free(grain);
    return canvas;
}

/* A sum of four bytes is near enough to a normal distribution; its deviation is 147.8. */
static int noisy(int level, const float deviation[CLIPPED + 1])
{
    uint64_t r = random_bits();
    int sum = (int)(r >> 56) + (int)(r >> 48 & 255) + (int)(r >> 40 & 255) + (int)(r >> 32 & 255) - 510;
    return clamp(level + (int)lrintf((float)sum * deviation[level] / 147.8f), 0, 4095);
}

/* Whole and half plane steps, so that some frames fit the reference exactly and some do not. */
static const int SHAKE[8][2] = { { 0, 0 }, { -8, 10 }, { 13, -6 }, { 4, 18 }, { -17, 7 }, { 10, -14 }, { 21, 3 }, { -11, 26 } };

const lighting LIGHTING[LIGHTINGS] = { { "usual", 6, 1.5, 20 }, { "dim", 1, 2, 60 }, { "noisy", 6, 8, 200 } };

static void fill_scene_row(uint16_t *row, int y, int width, int frame, int light, const int16_t *canvas, const float *deviation)
{
    static const int gain[PARITIES] = { 200, 256, 256, 150 };
    int stride = width + 2 * MARGIN, down = y + MARGIN + SHAKE[frame][0], right = MARGIN + SHAKE[frame][1];
    int across = (y + 5 * frame) % SPACING < OBJECT;
    for (int x = 0; x < width; x++) {
        int object = across && (x + SPACING - 9 * frame) % SPACING < OBJECT;
        int level = object ? canvas[(size_t)(y + 5 * frame) * stride + x + SPACING - 9 * frame - 256] : canvas[(size_t)down * stride + x + right];
        row[x] = (uint16_t)noisy(level * gain[2 * (y % 2) + x % 2] * light / (6 * 256), deviation);
    }
}

void fill_lit_scene(const lighting *l, uint16_t *samples, int width, int height, int count)
{
    int16_t *canvas = make_canvas(width + 2 * MARGIN, height + 2 * MARGIN);
    float deviation[CLIPPED + 1];
    for (int i = 0; i <= CLIPPED; i++)
        deviation[i] = (float)sqrt(l->shot * i + l->read);
    for (int frame = 0; frame < count; frame++)
        for (int y = 0; y < height; y++)
            fill_scene_row(samples + ((size_t)frame * height + y) * width, y, width, frame, l->light, canvas, deviation);
    free(canvas);
}

void fill_scene(uint16_t *samples, int width, int height, int count)
{
    fill_lit_scene(&LIGHTING[USUAL], samples, width, height, count);
}

/* ---- bursts for the comparison alone ---- */

enum { PATCH = 64 };

/* One level, and in every other column of each plane another. */
static void fill_patch(uint16_t *patch, int width, int level, int stripe)
{
    for (int y = 0; y < PATCH; y++)
        for (int x = 0; x < PATCH; x++)
            patch[(size_t)y * width + x] = (uint16_t)(x / 2 % 2 ? level + stripe : level);
}

void fill_patches(uint16_t *samples, int width, int height, int count)
{
    int columns = width / PATCH, rows = height / PATCH;
    int *level = allocated((size_t)columns * rows * sizeof *level);
    for (int i = 0; i < columns * rows; i++)
        level[i] = 8 + below(i % 2 ? 40 : 4072);
    for (int frame = 0; frame < count; frame++)
        for (int i = 0; i < columns * rows; i++) {
            uint16_t *patch = samples + ((size_t)frame * height + i / columns * PATCH) * width + i % columns * PATCH;
            fill_patch(patch, width, level[i] + below(9) - 4, below(3) ? 0 : below(7) - 3);
        }
    free(level);
}

void fill_sparse(uint16_t *samples, int width, int height, int count)
{
    for (size_t i = 0; i < (size_t)width * height * count; i++)
        samples[i] = (uint16_t)(below(24) ? 100 : 99 + below(3));
}

void fill_spikes(uint16_t *samples, int width, int height, int count)
{
    static const int spike[8] = { 10, -10, 10, -10, 1023, -1024, 1900, -2048 };
    for (size_t i = 0; i < (size_t)width * height * count; i++)
        samples[i] = (uint16_t)(below(600) ? 2100 : 2100 + spike[below(8)]);
}

void fill_random(uint16_t *samples, int width, int height, int count)
{
    for (size_t i = 0; i < (size_t)width * height * count; i++)
        samples[i] = (uint16_t)below(4096);
}

void fill_black_white(uint16_t *samples, int width, int height, int count)
{
    for (size_t i = 0; i < (size_t)width * height * count; i++)
        samples[i] = (uint16_t)(below(2) * 4095);
}
