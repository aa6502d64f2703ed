/* The pyramid of one frame, as all C variants build it. */
#ifndef PYRAMID_H
#define PYRAMID_H

#include <stdint.h>

enum { LEVELS = 4 };

/* A level's values are at most 4 * 4095, so differences fit 16 bits. */
typedef struct {
    int width, height;
    int16_t *values;
} image;

typedef struct {
    image level[LEVELS];
    image between[2]; /* after the first halving of a quarter */
} pyramid;

pyramid make_pyramid(int width, int height);
void free_pyramid(pyramid *p);
void build_pyramid(const uint16_t *frame, pyramid *p);

#endif
