/* A head back from repair: its noise is known only between two curves. Eight frames of a card are aligned once and merged into a low and a high frame, between
   which lies the frame of every curve between the two: range DIRECTORY. It writes there
     range-low.pgm, range-high.pgm   both frames where the noise is known to a fifth
   and prints, for noise known to a twentieth, to a fifth and to a half, how far apart low and high are, and for comparison how far apart the frames are that are
   merged with the lower and with the upper curve. It ends with 1 where a call is refused, or a frame merged with the lower, the true or the upper curve is not
   between low and high. */
#include "card.h"
#include "stacker.h"

#include <inttypes.h>
#include <stdio.h>
#include <stdlib.h>

enum { SIDE = 512, FRAMES = 8, FRAME = SIDE * SIDE, TILES = SIDE / 16 + 1, VECTORS = (FRAMES - 1) * 2 * TILES * TILES };

/* A sample x has the variance 3 x + 100: nobody but this simulation knows it. */
static const stacker_noise TRUE_NOISE = { .shot = 3, .read = 100 };

static const stacker_burst burst = { .width = SIDE, .height = SIDE, .count = FRAMES, .row_length = SIDE };
static const stacker_tuning tuning = { .strength = 600, .side = 16 };

/* the lent buffers, of the lengths that stacker.h gives */
static uint16_t samples[FRAMES * FRAME], low[FRAME], high[FRAME], at_lower[FRAME], at_upper[FRAME];
static int32_t vectors[VECTORS];
static int64_t work[2 * FRAME];

/* How far each frame's card has moved down and right of the reference's, frame 0. In the last frame its lower right corner has lifted. */
static const double moves[FRAMES][2] = { { 0, 0 }, { 2, -4 }, { -6, 2 }, { 4, 6 }, { -2, -8 }, { 8, 2 }, { -4, 4 }, { 6, -6 } };

/* The light at a place of a frame: red and blue pixels see less of it than green ones. */
static double light(int frame, int y, int x)
{
    static const double colours[2][2] = { { 0.8, 1 }, { 1, 0.65 } };
    double lifted = frame == FRAMES - 1 ? fmax(0, y + x - 700) / 16 : 0;
    return colours[y % 2][x % 2] * card(y - moves[frame][0] + lifted, x - moves[frame][1]);
}

/* A random number of mean 0 and variance 1: twelve uniform ones by SplitMix64. */
static double deviation(void)
{
    static uint64_t state;
    double sum = -6;
    for (int i = 0; i < 12; i++) {
        uint64_t z = state += 0x9e3779b97f4a7c15;
        z = (z ^ z >> 30) * 0xbf58476d1ce4e5b9;
        z = (z ^ z >> 27) * 0x94d049bb133111eb;
        sum += ldexp((double)((z ^ z >> 31) >> 11), -53);
    }
    return sum;
}

static void take_frames(void)
{
    for (int i = 0; i < FRAMES * FRAME; i++) {
        double level = light(i / FRAME, i / SIDE % SIDE, i % SIDE);
        double noisy = level + sqrt(TRUE_NOISE.shot * level + TRUE_NOISE.read) * deviation();
        samples[i] = (uint16_t)fmin(4095, fmax(0, floor(noisy + 0.5)));
    }
}

static void must_accept(uint64_t refusal)
{
    if (refusal == STACKER_ACCEPTED)
        return;
    printf("refused %" PRIu64 ": %s\n", refusal, stacker_refusal_text(refusal));
    exit(1);
}

static void write_frame(const char *directory, const char *name, const uint16_t *frame)
{
    char path[1024];
    snprintf(path, sizeof path, "%s/%s.pgm", directory, name);
    size_t length = stacker_pgm_length(SIDE, SIDE);
    uint8_t *bytes = malloc(length);
    FILE *file = fopen(path, "wb");
    if (!bytes || !file || stacker_write_pgm(SIDE, SIDE, frame, FRAME, bytes, length) != STACKER_ACCEPTED || fwrite(bytes, 1, length, file) != length
        || fclose(file) != 0) {
        perror(path);
        exit(2);
    }
    free(bytes);
}

static stacker_noise times(stacker_noise noise, double factor)
{
    return (stacker_noise){ factor * noise.shot, factor * noise.read };
}

/* The frame merged with a curve between the two ends. */
static void merge_between(stacker_noise noise, uint16_t *frame)
{
    must_accept(stacker_merge(burst, noise, tuning, samples, FRAMES * FRAME, vectors, VECTORS, frame, FRAME, work, 2 * FRAME));
    for (int i = 0; i < FRAME; i++)
        if (frame[i] < low[i] || frame[i] > high[i]) {
            printf("a merged frame is not between low and high\n");
            exit(1);
        }
}

/* How far apart two frames are: the mean, and the most. */
static void print_apart(const uint16_t *from, const uint16_t *to)
{
    double sum = 0;
    int most = 0;
    for (int i = 0; i < FRAME; i++) {
        int apart = abs(to[i] - from[i]);
        sum += apart;
        most = apart > most ? apart : most;
    }
    printf("%8.2f%6d", sum / FRAME, most);
}

/* Low and high where the curve is known to this part of itself. */
static void try_range(double part)
{
    stacker_noise lower = times(TRUE_NOISE, 1 - part), upper = times(TRUE_NOISE, 1 + part);
    must_accept(stacker_range(burst, lower, upper, tuning, samples, FRAMES * FRAME, vectors, VECTORS, low, FRAME, high, FRAME, work, 2 * FRAME));
    merge_between(TRUE_NOISE, at_lower);
    merge_between(lower, at_lower);
    merge_between(upper, at_upper);
    printf("%5.0f %%", 100 * part);
    print_apart(low, high);
    print_apart(at_lower, at_upper);
    printf("\n");
}

int main(int argc, char **argv)
{
    if (argc != 2)
        return 2;
    take_frames();
    must_accept(stacker_align(burst, tuning, samples, FRAMES * FRAME, vectors, VECTORS, work, 2 * FRAME).refusal);
    printf("steps between low and high, and between the frames merged with either end\nknown to   mean  most    mean  most\n");
    try_range(0.05);
    try_range(0.2);
    write_frame(argv[1], "range-low", low);
    write_frame(argv[1], "range-high", high);
    try_range(0.5);
    return 0;
}
