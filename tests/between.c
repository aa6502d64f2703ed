/* Low and high of a range of noise beside frames that the library itself merges: between SIDE ROUNDS. In each round a burst of every count, of random width and
   height up to SIDE, gets a random range; frames merged with twenty curves between its ends, both ends and their corners among them, have every word between
   low and high. With both curves at one of them low and high are the merged frame, word for word, and so they are by ISO numbers. */
#include "random.h"

#include <stdio.h>
#include <stdlib.h>
#include <string.h>

enum { CURVES = 20, COUNTS = 8 };

static stacker_burst burst;
static stacker_tuning tuning;
static size_t sample_count, vector_count, size;
static uint16_t *samples, *low, *high, *merged;
static int32_t *vectors;
static int64_t *work;

static void failed(const char *what)
{
    fprintf(stderr, "tests: between: %d by %d, %d frames: %s\n", (int)burst.width, (int)burst.height, (int)burst.count, what);
    exit(1);
}

static void *room(size_t count, size_t element)
{
    void *data = calloc(count, element);
    if (data == NULL)
        exit(2);
    return data;
}

/* Light that a sample may have: noise up to a brightness that goes by the place, all dark on one side, or only black and white. */
static uint16_t light(uint64_t kind, uint64_t column)
{
    uint64_t most = kind == 0 ? 4095 : kind == 1 ? 16 * (column % 256) : column < burst.width / 2 ? 0 : 600;
    return kind == 3 ? (uint16_t)(4095 * below(2)) : (uint16_t)(most / 2 + below(most / 2 + 1));
}

static void filled(void)
{
    uint64_t kind = below(4), reach = below(3);
    for (size_t i = 0; i < sample_count; i++)
        samples[i] = i % burst.row_length < burst.width ? light(kind, i % burst.row_length) : 65535;
    for (size_t i = 0; i < vector_count; i++)
        vectors[i] = reach == 0 ? 0 : reach == 1 ? (int32_t)below(345) - 172 : below(2) == 0 ? -172 : 172;
    for (int plane = 0; plane < 4; plane++)
        burst.black[plane] = (uint16_t)(below(2) * below(256));
}

static void range(stacker_noise lower, stacker_noise upper)
{
    if (stacker_range(burst, lower, upper, tuning, samples, sample_count, vectors, vector_count, low, size, high, size, work, 2 * size) != STACKER_ACCEPTED)
        failed("refused");
}

static void merge(stacker_noise noise)
{
    if (stacker_merge(burst, noise, tuning, samples, sample_count, vectors, vector_count, merged, size, work, 2 * size) != STACKER_ACCEPTED)
        failed("refused");
}

/* low and high are the frame merged with the one curve, given as it is or for ISO 100 */
static void same(stacker_noise noise)
{
    range(noise, noise);
    merge(noise);
    if (memcmp(low, merged, 2 * size) != 0 || memcmp(high, merged, 2 * size) != 0)
        failed("equal curves, and not the merged frame");
    stacker_iso_noise one = STACKER_ISO_NOISE(100, noise.shot, noise.read), half = STACKER_ISO_NOISE(50, 2 * noise.shot, 4 * noise.read);
    if (stacker_range_iso(burst, one, half, tuning, samples, sample_count, vectors, vector_count, low, size, high, size, work, 2 * size) != STACKER_ACCEPTED)
        failed("refused by ISO");
    if (memcmp(low, merged, 2 * size) != 0 || memcmp(high, merged, 2 * size) != 0)
        failed("equal curves by ISO, and not the merged frame");
}

static double between(double from, double to, double part)
{
    double x = from + part * (to - from);
    return x < from ? from : x > to ? to : x;
}

/* the part of the way at which a curve lies: first the corners, then any, half of them near the lower end */
static double part(int curve, int second)
{
    if (curve < 4)
        return second ? curve & 1 : curve >> 1;
    double any = (double)below(1 << 20) / (1 << 20);
    return curve % 2 == 0 ? any : any * any * any * any * any;
}

static uint16_t inside(stacker_noise lower, stacker_noise upper)
{
    uint16_t widest = 0;
    range(lower, upper);
    for (int curve = 0; curve < CURVES; curve++) {
        stacker_noise noise = { between(lower.shot, upper.shot, part(curve, 0)), between(lower.read, upper.read, part(curve, 1)) };
        merge(noise);
        for (size_t i = 0; i < size; i++) {
            if (merged[i] < low[i] || merged[i] > high[i])
                failed("a merged word is not between low and high");
            uint16_t width = (uint16_t)(high[i] - low[i]);
            widest = width > widest ? width : widest;
        }
    }
    return widest;
}

/* a range: from nothing, of one number alone, narrow or wide */
static void ends(stacker_noise *lower, stacker_noise *upper)
{
    static const double shots[] = { 0.01, 0.37, 3.0, 64.0 }, reads[] = { 0.0, 2.5, 100.0, 4096.0 }, parts[] = { 0.0, 0.5, 0.99, 1.0 };
    upper->shot = shots[below(4)];
    upper->read = reads[below(4)];
    lower->shot = upper->shot * parts[below(4)];
    lower->read = upper->read * parts[below(4)];
}

static uint16_t round_of(uint64_t count, uint64_t side)
{
    static const uint64_t strengths[] = { 1, 8, 64, 600, 1024 };
    stacker_noise lower, upper;
    burst = (stacker_burst){ .width = 64 * (1 + below(side / 64)), .height = 64 * (1 + below(side / 64)), .count = count, .reference = below(count) };
    burst.row_length = burst.width + below(SPARE + 1);
    tuning = (stacker_tuning){ .strength = strengths[below(5)], .side = 16 };
    size = burst.width * burst.height;
    sample_count = count * burst.row_length * burst.height;
    vector_count = (count - 1) * 2 * (burst.width / 16 + 1) * (burst.height / 16 + 1);
    filled();
    ends(&lower, &upper);
    uint16_t widest = inside(lower, upper);
    same(upper);
    return widest;
}

int main(int argc, char **argv)
{
    if (argc != 3)
        return 2;
    uint64_t side = strtoul(argv[1], NULL, 10), rounds = strtoul(argv[2], NULL, 10);
    uint16_t widest = 0;
    if (side < 64 || side > 4096)
        return 2;
    samples = room(COUNTS * (side + SPARE) * side, sizeof *samples);
    vectors = room((COUNTS - 1) * 2 * (side / 16 + 1) * (side / 16 + 1), sizeof *vectors);
    low = room(side * side, sizeof *low);
    high = room(side * side, sizeof *high);
    merged = room(side * side, sizeof *merged);
    work = room(2 * side * side, sizeof *work);
    for (uint64_t i = 0; i < rounds * COUNTS; i++) {
        uint16_t width = round_of(1 + i % COUNTS, side);
        widest = width > widest ? width : widest;
    }
    printf("tests: between: %d bursts, each merged at %d curves between: every word between low and high, which lie up to %d apart; equal curves give the "
           "merged frame twice\n", (int)(rounds * COUNTS), CURVES, widest);
    return 0;
}
