/* A card without noise, for the examples: a module with a hairline across its edge, printed clouds, digits, and lines that come
   closer together.
   Places are in samples of a 512 by 512 frame and need not be whole. */
#ifndef CARD_H
#define CARD_H

#include <math.h>
#include <stdint.h>
#include <string.h>

/* How much of a sample lies inside an edge at this signed distance. */
static double inside(double distance)
{
    return fmin(1, fmax(0, 0.5 - distance));
}

static double mixed(double from, double to, double part)
{
    return from + (to - from) * part;
}

/* Signed distance to a rectangle with round corners. */
static double round_box(double y, double x, double top, double left, double bottom, double right, double radius)
{
    double down = fabs(y - (top + bottom) / 2) - (bottom - top) / 2 + radius;
    double side = fabs(x - (left + right) / 2) - (right - left) / 2 + radius;
    double outside = hypot(fmax(down, 0), fmax(side, 0));
    return outside + fmin(fmax(down, side), 0) - radius;
}

/* Distance to the hairline, which bends once. */
static double hairline(double y, double x)
{
    static const double points[3][2] = { { 214, 168 }, { 246, 196 }, { 262, 236 } };
    double nearest = 1e9;
    for (int i = 0; i < 2; i++) {
        double down = points[i + 1][0] - points[i][0], right = points[i + 1][1] - points[i][1];
        double along = ((y - points[i][0]) * down + (x - points[i][1]) * right) / (down * down + right * right);
        along = fmin(1, fmax(0, along));
        nearest = fmin(nearest, hypot(y - points[i][0] - along * down, x - points[i][1] - along * right));
    }
    return nearest;
}

/* The module: its outline, and the gaps between its contacts. */
static double module(double level, double y, double x)
{
    level = mixed(level, 400 + level / 5, inside(round_box(y, x, 150, 84, 270, 204, 16)));
    double gaps = fmin(fabs(x - 144), fmin(fabs(y - 190), fabs(y - 230)));
    double contact = round_box(y, x, 154, 88, 266, 200, 12);
    return mixed(level, 200, inside(gaps - 1.5) * inside(contact));
}

/* Whether a digit's picture of four by seven points has one here. */
static int point(char digit, int row, int column)
{
    static const char *const digits[10] = { "69bd996", "2622227", "691248f", "e11611e", "1359f11", "f8e111e", "648e996", "f112244", "6996996", "6997126" };
    if (digit < '0' || digit > '9' || row < 0 || row > 6 || column < 0 || column > 3)
        return 0;
    char hex = digits[digit - '0'][row];
    int bits = hex <= '9' ? hex - '0' : hex - 'a' + 10;
    return bits >> (3 - column) & 1;
}

/* The embossed number: points of four samples, five points from digit to digit. */
static int digits(double y, double x)
{
    static const char number[] = "4095 0064 0016 0008";
    int row = (int)floor((y - 320) / 4), column = (int)floor((x - 84) / 4);
    if (column < 0 || column / 5 >= (int)strlen(number))
        return 0;
    return point(number[column / 5], row, column % 5);
}

/* Upright lines whose distance falls from sixteen samples to four. */
static int lines(double y, double x)
{
    if (y < 384 || y >= 432 || x < 84 || x >= 428)
        return 0;
    double place = 84;
    for (double gap = 16; gap >= 4; gap *= 0.9375) {
        if (x >= place && x < place + gap / 2)
            return 1;
        place += gap;
    }
    return 0;
}

/* A number from -1 to 1 for each node of a net. */
static double node(int row, int column)
{
    uint32_t mix = ((uint32_t)row * 73856093u ^ (uint32_t)column * 19349663u) * 2654435761u;
    return ldexp((double)(mix >> 8), -23) - 1;
}

/* Printed clouds: nodes twelve samples apart, with straight slopes between. */
static double clouds(double y, double x)
{
    int row = (int)floor(y / 12), column = (int)floor(x / 12);
    double down = y / 12 - row, right = x / 12 - column;
    double above = mixed(node(row, column), node(row, column + 1), right);
    double below = mixed(node(row + 1, column), node(row + 1, column + 1), right);
    return mixed(above, below, down);
}

/* How much of the light the hairline leaves at a place. */
static double left_by_hairline(double y, double x)
{
    return mixed(1, 0.45, inside(hairline(y, x) - 1));
}

/* The light at a place. */
static double card(double y, double x)
{
    double ground = clouds(y, x);
    double level = mixed(90 + 60 * ground, 250 + 70 * ground, inside(round_box(y, x, 56, 40, 456, 472, 28)));
    level = module(level, y, x);
    if (digits(y, x) || lines(y, x))
        level *= 0.55;
    return level * left_by_hairline(y, x);
}

#endif
