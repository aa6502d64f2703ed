/* Eight noisy frames of a card are aligned and merged by one call: merge DIRECTORY. It writes there
     noisy.pgm, merged.pgm   the reference frame and the merged one, as Bayer samples
     spatial-0.pgm, spatial-26.pgm, spatial-256.pgm   the first two frames merged, without the spatial filter, with the published s and with the greatest
     vectors.txt             a line per other frame and tile: frame, row and column of the tile, down, right
     card.burst              a burst file of 64 by 64 samples of the first five frames, each sample up to 99
   and prints how many vectors tell how the card moved, how far both frames are from the card without noise, and how far merges of other tunings are,
   with how much of the hairline is left in them. It ends with 1 where a call is refused, less than nine tenths of the vectors are right, or the merged frame is not twice as near as the noisy
   one. */
#include "card.h"
#include "stacker.h"

#include <inttypes.h>
#include <stdio.h>
#include <stdlib.h>

enum { SIDE = 512, FRAMES = 8, REFERENCE = 0, TILES = SIDE / 16 + 1, FRAME = SIDE * SIDE };

/* The noise of a sample x has the variance SHOT x + READ. The strength counts eighths of tau, the filter's s 256ths: the published analysis takes a tau
   of 75 and an s of 0.1, so 26. */
static const double SHOT = 3, READ = 100;
static const uint64_t STRENGTH = 600;

/* the lent buffers, of the lengths that stacker.h gives */
static uint16_t samples[FRAMES * FRAME], merged[FRAME];
static int32_t vectors[(FRAMES - 1) * 2 * TILES * TILES];
static int64_t work[2 * FRAME];

/* How far each frame's card has moved down and right of the reference's. In the last frame its lower right corner has lifted. */
static const double moves[FRAMES][2] = { { 0, 0 }, { 2, -4 }, { -6, 2 }, { 4, 6 }, { -2, -8 }, { 8, 2 }, { -4, 4 }, { 6, -6 } };

/* The light at a place of a frame: red and blue pixels see less of it than green ones. */
static double light(int frame, int y, int x)
{
    static const double colours[2][2] = { { 0.8, 1 }, { 1, 0.65 } };
    double lifted = frame == FRAMES - 1 ? fmax(0, y + x - 700) / 16 : 0;
    return colours[y % 2][x % 2] * card(y - moves[frame][0] + lifted, x - moves[frame][1]);
}

/* A random number of mean 0 and variance 1: twelve uniform ones by SplitMix64. */
static double deviation(void)
{
    static uint64_t state;
    double sum = -6;
    for (int i = 0; i < 12; i++) {
        uint64_t z = state += 0x9e3779b97f4a7c15;
        z = (z ^ z >> 30) * 0xbf58476d1ce4e5b9;
        z = (z ^ z >> 27) * 0x94d049bb133111eb;
        sum += ldexp((double)((z ^ z >> 31) >> 11), -53);
    }
    return sum;
}

static void take_frames(void)
{
    for (int i = 0; i < FRAMES * FRAME; i++) {
        double level = light(i / FRAME, i / SIDE % SIDE, i % SIDE);
        double noisy = level + sqrt(SHOT * level + READ) * deviation();
        samples[i] = (uint16_t)fmin(4095, fmax(0, floor(noisy + 0.5)));
    }
}

static FILE *created(const char *directory, const char *name)
{
    char path[1024];
    snprintf(path, sizeof path, "%s/%s", directory, name);
    FILE *file = fopen(path, "wb");
    if (!file) {
        perror(path);
        exit(2);
    }
    return file;
}

static void closed(FILE *file)
{
    if (fclose(file) != 0)
        exit(2);
}

/* A PGM file, which Netpbm viewers open. */
static void write_frame(FILE *file, const uint16_t *frame)
{
    size_t length = stacker_pgm_length(SIDE, SIDE);
    uint8_t *bytes = malloc(length);
    if (!bytes || stacker_write_pgm(SIDE, SIDE, frame, FRAME, bytes, length) != STACKER_ACCEPTED || fwrite(bytes, 1, length, file) != length)
        exit(2);
    free(bytes);
    closed(file);
}

static void write_vectors(FILE *file)
{
    for (int i = 0; i < (FRAMES - 1) * TILES * TILES; i++) {
        /* the other frames are 1 to 7 */
        int frame = 1 + i / (TILES * TILES), row = i / TILES % TILES, column = i % TILES;
        fprintf(file, "%d %d %d %" PRId32 " %" PRId32 "\n", frame, row, column, vectors[2 * i], vectors[2 * i + 1]);
    }
    closed(file);
}

/* The module's corner with the hairline, a sixth as bright: so the shot level is a sixth of 1024 SHOT, the read level a 36th of 1024 READ. */
static void write_burst(FILE *file)
{
    enum { PART = 64, COUNT = 5, TOP = 224, LEFT = 176, SCALE = 6 };
    fprintf(file, "width height count reference shot read strength\n%d %d %d %d %d %d %d\n", PART, PART, COUNT, 0, (int)(1024 * SHOT / SCALE),
        (int)(1024 * READ / (SCALE * SCALE)), (int)STRENGTH);
    for (int i = 0; i < COUNT * PART * PART; i++) {
        int frame = i / (PART * PART), row = TOP + i / PART % PART, column = LEFT + i % PART;
        int sample = samples[(frame * SIDE + row) * SIDE + column] / SCALE;
        fprintf(file, "%d%c", sample < 99 ? sample : 99, i % PART == PART - 1 ? '\n' : ' ');
    }
    closed(file);
}

/* The root of the mean squared distance from the reference's card without noise. */
static double distance(const uint16_t *frame)
{
    double sum = 0;
    for (int i = 0; i < FRAME; i++) {
        double off = frame[i] - light(REFERENCE, i / SIDE, i % SIDE);
        sum += off * off;
    }
    return sqrt(sum / FRAME);
}

/* How many of a thousand vectors of frames 1 to 6, where the whole card moved, are within one step of that move: a step is two samples. */
static int right_vectors(void)
{
    enum { ALL = (FRAMES - 2) * TILES * TILES };
    int right = 0;
    for (int i = 0; i < ALL; i++) {
        const double *move = moves[1 + i / (TILES * TILES)];
        right += fabs(vectors[2 * i] - move[0] / 2) <= 1 && fabs(vectors[2 * i + 1] - move[1] / 2) <= 1;
    }
    return 1000 * right / ALL;
}

static void must_accept(uint64_t refusal)
{
    if (refusal == STACKER_ACCEPTED)
        return;
    printf("refused %" PRIu64 ": %s\n", refusal, stacker_refusal_text(refusal));
    exit(1);
}

/* How deep the hairline is in a frame, in hundredths of its depth on the card. */
static double hairline_depth(const uint16_t *frame)
{
    double depth = 0, whole = 0;
    for (int i = 0; i < FRAME; i++) {
        int y = i / SIDE, x = i % SIDE;
        double left = left_by_hairline(y, x), clean = light(REFERENCE, y, x), ground = clean / left;
        if (left > 0.5)
            continue;
        depth += ground - frame[i];
        whole += ground - clean;
    }
    return 100 * depth / whole;
}

/* The first frames merged with the vectors found: those of the other frames stand one after the other. */
static void merge_first(uint64_t count, uint64_t strength, uint64_t spatial)
{
    stacker_burst burst = { .width = SIDE, .height = SIDE, .count = count, .reference = REFERENCE, .row_length = SIDE };
    stacker_noise noise = { .shot = SHOT, .read = READ };
    stacker_tuning tuning = { .strength = strength, .side = 16, .spatial = spatial };
    must_accept(stacker_merge(burst, noise, tuning, samples, count * FRAME, vectors, (count - 1) * 2 * TILES * TILES, merged, FRAME, work, 2 * FRAME));
}

static void write_filtered(const char *directory, const char *name, uint64_t spatial)
{
    merge_first(2, STRENGTH, spatial);
    write_frame(created(directory, name), merged);
}

static void print_tunings(void)
{
    static const uint64_t tried[][3] = { { 8, 0, 0 }, { 8, 8, 0 }, { 8, 64, 0 }, { 8, 600, 0 }, { 8, 1024, 0 }, { 8, 600, 26 }, { 2, 600, 0 },
        { 2, 600, 26 }, { 2, 600, 128 }, { 2, 600, 256 } };
    printf("frames   strength   spatial   distance   hairline\n");
    for (size_t i = 0; i < sizeof tried / sizeof *tried; i++) {
        merge_first(tried[i][0], tried[i][1], tried[i][2]);
        printf("%6" PRIu64 "%11" PRIu64 "%10" PRIu64 "%11.2f%9.0f %%\n", tried[i][0], tried[i][1], tried[i][2], distance(merged),
            hairline_depth(merged));
    }
}

int main(int argc, char **argv)
{
    if (argc != 2)
        return 2;
    take_frames();
    stacker_burst burst = { .width = SIDE, .height = SIDE, .count = FRAMES, .reference = REFERENCE, .row_length = SIDE };
    stacker_noise noise = { .shot = SHOT, .read = READ };
    stacker_tuning tuning = { .strength = STRENGTH, .side = 16 };
    must_accept(stacker_run(burst, noise, tuning, samples, FRAMES * FRAME, vectors, sizeof vectors / sizeof *vectors, merged, FRAME, work,
        2 * FRAME).refusal);
    write_frame(created(argv[1], "noisy.pgm"), samples + REFERENCE * FRAME);
    write_frame(created(argv[1], "merged.pgm"), merged);
    write_vectors(created(argv[1], "vectors.txt"));
    write_burst(created(argv[1], "card.burst"));
    int right = right_vectors();
    double before = distance(samples + REFERENCE * FRAME), after = distance(merged);
    printf("vectors within one step of the card's move: %d of 1000\n", right);
    printf("distance from the card without noise: noisy %.2f, merged %.2f\n", before, after);
    write_filtered(argv[1], "spatial-0.pgm", 0);
    write_filtered(argv[1], "spatial-26.pgm", 26);
    write_filtered(argv[1], "spatial-256.pgm", 256);
    print_tunings();
    return right < 900 || after > before / 2;
}
