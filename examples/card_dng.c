/* Draws noisy frames of a card as DNG files, as a camera would take them: card_dng DIRECTORY WIDTH HEIGHT COUNT KIND, where KIND is
     card     a card that moves by some samples from frame to frame; a frame larger than 512 by 512 shows several of them
     lifted   the same, and in the last frame the lower right corner has lifted
     flat     even light, two frames for each of five levels, for a calibration
   The files are DIRECTORY/frame-0.dng and so on. Noise of a sample x above black has the variance SHOT x + READ; the files say so. */
#include "card.h"

#include <stdio.h>
#include <stdlib.h>

enum { FRAMES_MOST = 16, WHITE = 4095, PERIOD = 512 };

static const double SHOT = 3, READ = 100;
static const uint16_t BLACK[4] = { 64, 60, 61, 66 };
static const double MOVES[FRAMES_MOST][2] = { { 0, 0 }, { 2, -4 }, { -6, 2 }, { 4, 6 }, { -2, -8 }, { 8, 2 }, { -4, 4 }, { 6, -6 } };
static const double LEVELS[] = { 0, 100, 400, 1200, 2500 };

typedef struct {
    int width, height, count;
    enum { CARD, CORNER, FLAT } kind;
} scene;

/* A random number of mean 0 and variance 1: twelve uniform ones by SplitMix64. */
static double deviation(void)
{
    static uint64_t state;
    double sum = -6;
    for (int i = 0; i < 12; i++) {
        uint64_t z = state += 0x9e3779b97f4a7c15;
        z = (z ^ z >> 30) * 0xbf58476d1ce4e5b9;
        z = (z ^ z >> 27) * 0x94d049bb133111eb;
        sum += ldexp((double)((z ^ z >> 31) >> 11), -53);
    }
    return sum;
}

static double around(double place)
{
    return place - PERIOD * floor(place / PERIOD);
}

/* How far the corner of the last frame has lifted here, in samples: nothing above the line from (W + H) 0.684 on. */
static double lifted(const scene *s, int frame, int y, int x)
{
    return s->kind == CORNER && frame == s->count - 1 ? fmax(0, y + x - 0.684 * (s->width + s->height)) / 16 : 0;
}

/* Red and blue pixels see less light than green ones. */
static double light(const scene *s, int frame, int y, int x)
{
    static const double colours[2][2] = { { 0.8, 1 }, { 1, 0.65 } };
    if (s->kind == FLAT)
        return LEVELS[frame / 2 % 5];
    return colours[y % 2][x % 2] * card(around(y - MOVES[frame][0] + lifted(s, frame, y, x)), around(x - MOVES[frame][1]));
}

static uint16_t sample(const scene *s, int frame, int y, int x)
{
    double level = light(s, frame, y, x), noisy = level + sqrt(SHOT * level + READ) * deviation();
    return (uint16_t)fmin(WHITE, fmax(0, BLACK[2 * (y % 2) + x % 2] + floor(noisy + 0.5)));
}

static void put(FILE *file, uint64_t value, int bytes)
{
    for (int i = 0; i < bytes; i++)
        fputc((int)(value >> 8 * i & 255), file);
}

static void put_double(FILE *file, double value)
{
    uint64_t bits;
    memcpy(&bits, &value, sizeof bits);
    put(file, bits, 8);
}

/* An entry of the directory: its value, or where that stands. */
typedef struct {
    unsigned tag, type, count, value;
} entry;

enum { BYTE = 1, ASCII = 2, SHORT = 3, LONG = 4, RATIONAL = 5, SRATIONAL = 10, DOUBLE = 12 };

/* Places of what does not fit into an entry, in this order behind the directory, then the strip. */
enum { ENTRIES = 22, VALUES = 8 + 2 + 12 * ENTRIES + 4, MODEL = VALUES, LEVELS_AT = MODEL + 20, MATRIX = LEVELS_AT + 8, NEUTRAL = MATRIX + 72,
    PROFILE = NEUTRAL + 24, STRIP = PROFILE + 16 };

static void put_directory(FILE *file, const scene *s)
{
    const unsigned width = (unsigned)s->width, height = (unsigned)s->height;
    const entry entries[ENTRIES] = { { 254, LONG, 1, 0 }, { 256, LONG, 1, width }, { 257, LONG, 1, height }, { 258, SHORT, 1, 16 }, { 259, SHORT, 1, 1 },
        { 262, SHORT, 1, 32803 }, { 273, LONG, 1, STRIP }, { 274, SHORT, 1, 1 }, { 277, SHORT, 1, 1 }, { 278, LONG, 1, height },
        { 279, LONG, 1, 2 * width * height }, { 284, SHORT, 1, 1 }, { 33421, SHORT, 2, 2 | 2 << 16 }, { 33422, BYTE, 4, 0x02010100 },
        { 50706, BYTE, 4, 0x0401 }, { 50708, ASCII, 20, MODEL }, { 50713, SHORT, 2, 2 | 2 << 16 }, { 50714, SHORT, 4, LEVELS_AT },
        { 50717, LONG, 1, WHITE }, { 50721, SRATIONAL, 9, MATRIX }, { 50728, RATIONAL, 3, NEUTRAL }, { 51041, DOUBLE, 2, PROFILE } };
    fputs("II*", file);
    put(file, 0, 1);
    put(file, 8, 4);
    put(file, ENTRIES, 2);
    for (int i = 0; i < ENTRIES; i++) {
        put(file, entries[i].tag, 2);
        put(file, entries[i].type, 2);
        put(file, entries[i].count, 4);
        put(file, entries[i].value, 4);
    }
    put(file, 0, 4);
}

/* camera, black levels, a colour matrix of ones, neutral, noise profile */
static void put_values(FILE *file)
{
    fwrite("Stacker example\0\0\0\0\0", 1, 20, file);
    for (int plane = 0; plane < 4; plane++)
        put(file, BLACK[plane], 2);
    for (int i = 0; i < 9; i++) {
        put(file, i % 4 == 0, 4);
        put(file, 1, 4);
    }
    for (int i = 0; i < 6; i++)
        put(file, 1, 4);
    put_double(file, SHOT / WHITE);
    put_double(file, READ / WHITE / WHITE);
}

static void write_frame(const char *directory, const scene *s, int frame)
{
    char path[1024];
    snprintf(path, sizeof path, "%s/frame-%d.dng", directory, frame);
    FILE *file = fopen(path, "wb");
    if (file == NULL) {
        perror(path);
        exit(2);
    }
    put_directory(file, s);
    put_values(file);
    for (int i = 0; i < s->width * s->height; i++)
        put(file, sample(s, frame, i / s->width, i % s->width), 2);
    if (fclose(file) != 0)
        exit(2);
}

int main(int argc, char **argv)
{
    static const char *const kinds[] = { "card", "lifted", "flat" };
    scene s = { 0, 0, 0, CARD };
    int kind = 3;
    if (argc == 6) {
        s = (scene){ atoi(argv[2]), atoi(argv[3]), atoi(argv[4]), CARD };
        for (kind = 0; kind < 3 && strcmp(argv[5], kinds[kind]) != 0;)
            kind++;
    }
    if (kind == 3 || s.width < 1 || s.height < 1 || s.width > 16384 || s.height > 16384 || s.count < 1 || s.count > FRAMES_MOST) {
        fprintf(stderr, "usage: card_dng DIRECTORY WIDTH HEIGHT COUNT card|lifted|flat\n");
        return 2;
    }
    s.kind = kind == 0 ? CARD : kind == 1 ? CORNER : FLAT;
    for (int frame = 0; frame < s.count; frame++)
        write_frame(argv[1], &s, frame);
    return 0;
}
