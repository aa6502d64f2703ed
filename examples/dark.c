/* The card in a tenth of the light, over a pedestal, merged by tiles of side 16 and of side 32: dark DIRECTORY. It writes there
     dark-noisy.pgm, dark-16.pgm, dark-32.pgm   the reference frame, and the frames merged by either side
   and prints for each side how many vectors tell how the card moved, how far the merged frame is from the card without noise, and how deep the hairline is in
   it. It ends with 1 where a call is refused, or side 32 has fewer right vectors or a frame that is farther off. */
#include "card.h"
#include "stacker.h"

#include <inttypes.h>
#include <stdio.h>
#include <stdlib.h>

enum { SIDE = 512, FRAMES = 8, FRAME = SIDE * SIDE, BLACK = 64, MOST_TILES = SIDE / 16 + 1 };

/* The noise of a sample x above black has the variance SHOT x + READ. */
static const double SHOT = 3, READ = 100, LIGHT = 0.1;

/* the lent buffers, of the lengths that stacker.h gives; those of side 16 have room for side 32 */
static uint16_t samples[FRAMES * FRAME], merged[FRAME];
static int32_t vectors[(FRAMES - 1) * 2 * MOST_TILES * MOST_TILES];
static int64_t work[2 * FRAME];

/* How far each frame's card has moved down and right of the reference's, frame 0. */
static const double moves[FRAMES][2] = { { 0, 0 }, { 2, -4 }, { -6, 2 }, { 4, 6 }, { -2, -8 }, { 8, 2 }, { -4, 4 }, { 6, -6 } };

/* The light at a place of a frame: red and blue pixels see less of it than green ones. */
static double light(int frame, int y, int x)
{
    static const double colours[2][2] = { { 0.8, 1 }, { 1, 0.65 } };
    return LIGHT * colours[y % 2][x % 2] * card(y - moves[frame][0], x - moves[frame][1]);
}

/* A random number of mean 0 and variance 1: twelve uniform ones by SplitMix64. */
static double deviation(void)
{
    static uint64_t state;
    double sum = -6;
    for (int i = 0; i < 12; i++) {
        uint64_t z = state += 0x9e3779b97f4a7c15;
        z = (z ^ z >> 30) * 0xbf58476d1ce4e5b9;
        z = (z ^ z >> 27) * 0x94d049bb133111eb;
        sum += ldexp((double)((z ^ z >> 31) >> 11), -53);
    }
    return sum;
}

static void take_frames(void)
{
    for (int i = 0; i < FRAMES * FRAME; i++) {
        double level = light(i / FRAME, i / SIDE % SIDE, i % SIDE);
        double noisy = BLACK + level + sqrt(SHOT * level + READ) * deviation();
        samples[i] = (uint16_t)fmin(4095, fmax(0, floor(noisy + 0.5)));
    }
}

static void write_frame(const char *directory, const char *name, const uint16_t *frame)
{
    char path[1024];
    snprintf(path, sizeof path, "%s/%s.pgm", directory, name);
    size_t length = stacker_pgm_length(SIDE, SIDE);
    uint8_t *bytes = malloc(length);
    FILE *file = fopen(path, "wb");
    if (!bytes || !file || stacker_write_pgm(SIDE, SIDE, frame, FRAME, bytes, length) != STACKER_ACCEPTED || fwrite(bytes, 1, length, file) != length
        || fclose(file) != 0) {
        perror(path);
        exit(2);
    }
    free(bytes);
}

/* The root of the mean squared distance from the reference's card without noise. */
static double distance(const uint16_t *frame)
{
    double sum = 0;
    for (int i = 0; i < FRAME; i++) {
        double off = frame[i] - BLACK - light(0, i / SIDE, i % SIDE);
        sum += off * off;
    }
    return sqrt(sum / FRAME);
}

/* How deep the hairline is in a frame, in hundredths of its depth on the card. */
static double hairline_depth(const uint16_t *frame)
{
    double depth = 0, whole = 0;
    for (int i = 0; i < FRAME; i++) {
        int y = i / SIDE, x = i % SIDE;
        double left = left_by_hairline(y, x), clean = light(0, y, x);
        if (left > 0.5)
            continue;
        depth += clean / left - (frame[i] - BLACK);
        whole += clean / left - clean;
    }
    return 100 * depth / whole;
}

/* How many of a thousand vectors are within one step of the card's move: a step is two samples. */
static int right_vectors(int tiles)
{
    int all = (FRAMES - 1) * tiles * tiles, right = 0;
    for (int i = 0; i < all; i++) {
        const double *move = moves[1 + i / (tiles * tiles)];
        right += fabs(vectors[2 * i] - move[0] / 2) <= 1 && fabs(vectors[2 * i + 1] - move[1] / 2) <= 1;
    }
    return 1000 * right / all;
}

/* What a merge by tiles of one side comes to. */
typedef struct {
    int right;
    double off;
} outcome;

static outcome try_side(const char *directory, uint64_t side)
{
    char name[16];
    stacker_burst burst = { .width = SIDE, .height = SIDE, .count = FRAMES, .row_length = SIDE, .black = { BLACK, BLACK, BLACK, BLACK } };
    stacker_noise noise = { .shot = SHOT, .read = READ };
    stacker_tuning tuning = { .strength = 600, .side = side };
    size_t tiles = SIDE / side + 1;
    uint64_t refusal = stacker_run(burst, noise, tuning, samples, FRAMES * FRAME, vectors, (FRAMES - 1) * 2 * tiles * tiles, merged, FRAME, work,
        2 * FRAME).refusal;
    if (refusal != STACKER_ACCEPTED) {
        printf("refused %" PRIu64 ": %s\n", refusal, stacker_refusal_text(refusal));
        exit(1);
    }
    snprintf(name, sizeof name, "dark-%d", (int)side);
    write_frame(directory, name, merged);
    outcome found = { right_vectors((int)tiles), distance(merged) };
    printf("%4d%9d of 1000%11.2f%9.0f %%\n", (int)side, found.right, found.off, hairline_depth(merged));
    return found;
}

int main(int argc, char **argv)
{
    if (argc != 2)
        return 2;
    take_frames();
    write_frame(argv[1], "dark-noisy", samples);
    printf("in a tenth of the light the reference frame is %.2f off the card without noise\nside   right vectors   distance   hairline\n", distance(samples));
    outcome narrow = try_side(argv[1], 16), wide = try_side(argv[1], 32);
    return wide.right <= narrow.right || wide.off >= narrow.off;
}
