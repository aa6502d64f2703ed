/* The bursts that are merged, the same in every run. */
#ifndef SCENE_H
#define SCENE_H

#include <stdint.h>

/* The light on the scene, in sixths of the usual, and the sensor's curve. */
typedef struct {
    const char *name;
    int light;
    double shot, read;
} lighting;

enum { USUAL, DIM, NOISY, LIGHTINGS };
extern const lighting LIGHTING[LIGHTINGS];

/* A textured scene with edges, clipped lights and dark parts, shot by a shaking camera while squares move across it. */
void fill_lit_scene(const lighting *l, uint16_t *samples, int width, int height, int count);

/* The same under the usual light. */
void fill_scene(uint16_t *samples, int width, int height, int count);

/* Patches of one level, or of two in stripes, which differ by a few steps from frame to frame: corrections and outputs that are exact halves. */
void fill_patches(uint16_t *samples, int width, int height, int count);

/* One level with a step up or down here and there: bins near zero, and shrunk bins that are exact halves. */
void fill_sparse(uint16_t *samples, int width, int height, int count);

/* One level with lone spikes: bins of one size all over a tile, which add up as far as they can, and shrunk bins that are exact halves where it
   settles an output. */
void fill_spikes(uint16_t *samples, int width, int height, int count);

/* The full range at random, and black or white at random: the greatest sums. */
void fill_random(uint16_t *samples, int width, int height, int count);
void fill_black_white(uint16_t *samples, int width, int height, int count);

#endif
