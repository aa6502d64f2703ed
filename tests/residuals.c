/* Residuals of tiles: every word beside a plain sum by document 01, at random vectors and both sides; at align's vectors a frame's add up to its answer; each
   fault is refused by its number, and leaves every buffer as it was. */
#include "random.h"

#include <stdio.h>
#include <stdlib.h>
#include <string.h>

enum { COUNT_MOST = 5, SAMPLES_MOST = COUNT_MOST * (MOST + SPARE) * MOST, TILES_MOST = (COUNT_MOST - 1) * 13 * 13 };
static uint16_t samples[SAMPLES_MOST];
static int32_t vectors[2 * TILES_MOST + 2];
static uint64_t residuals[TILES_MOST + 1];
static int64_t work[2 * MOST * MOST + 1];

static void failed(const char *what)
{
    fprintf(stderr, "tests: residuals: %s\n", what);
    exit(1);
}

/* -1 reads 0, -2 reads 1, and past the far end likewise */
static uint64_t mirrored(int64_t i, int64_t n)
{
    int64_t k = (i < 0 ? -1 - i : i) % (2 * n);
    return (uint64_t)(k < n ? k : 2 * n - 1 - k);
}

/* level 0: the sum of a 2 by 2 square */
static int32_t level0(stacker_burst b, uint64_t frame, int64_t y, int64_t x)
{
    const uint16_t *at = samples + (frame * b.height + 2 * mirrored(y, (int64_t)b.height / 2)) * b.row_length + 2 * mirrored(x, (int64_t)b.width / 2);
    return at[0] + at[1] + at[b.row_length] + at[b.row_length + 1];
}

static uint64_t residual(stacker_burst b, uint64_t frame, int64_t side, int64_t top, int64_t left, const int32_t *v)
{
    uint64_t sum = 0;
    for (int64_t i = 0; i < side * side; i++) {
        int64_t y = top + i / side, x = left + i % side;
        sum += (uint64_t)abs(level0(b, b.reference, y, x) - level0(b, frame, y + v[0], x + v[1]));
    }
    return sum;
}

static void beside(stacker_burst b, int64_t side)
{
    size_t columns = b.width / (uint64_t)side + 1, tiles = columns * (b.height / (uint64_t)side + 1);
    for (size_t i = 0; i < (b.count - 1) * tiles; i++) {
        size_t k = i / tiles, t = i % tiles;
        int64_t half = side / 2, top = half * (int64_t)(t / columns) - half, left = half * (int64_t)(t % columns) - half;
        if (residuals[i] != residual(b, k + (k >= b.reference), side, top, left, vectors + 2 * i))
            failed("a word differs from the plain sum");
    }
}

static void cleared(size_t length)
{
    for (size_t i = 0; i < length; i++)
        if (work[i] != 0)
            failed("the work area is not zero");
}

/* the call, at lengths that differ from the right ones by so much */
static uint64_t call(stacker_burst b, uint64_t side, size_t words, const size_t off[4])
{
    stacker_tuning tuning = { .side = side };
    return stacker_residuals(b, tuning, samples, b.count * b.row_length * b.height + off[0], vectors, 2 * words + off[1], residuals, words + off[2], work,
        2 * b.width * b.height + off[3]);
}

static const size_t right[4];

static void refused(stacker_burst b, uint64_t side, size_t words, const size_t off[4], uint64_t number)
{
    static uint64_t held_residuals[TILES_MOST + 1];
    static int64_t held_work[2 * MOST * MOST + 1];
    residuals[0] = 77;
    work[0] = 77;
    memcpy(held_residuals, residuals, sizeof residuals);
    memcpy(held_work, work, sizeof work);
    if (call(b, side, words, off) != number)
        failed("another number than the fault's");
    if (memcmp(held_residuals, residuals, sizeof residuals) != 0 || memcmp(held_work, work, sizeof work) != 0)
        failed("a refusal has changed a buffer");
}

static void faults(stacker_burst b, uint64_t side, size_t words)
{
    stacker_burst other = b;
    for (size_t i = 0; i < 4; i++) {
        size_t off[4] = { 0 };
        off[i] = 1;
        refused(b, side, words, off, 4 + i);
    }
    other.width = 100;
    refused(other, side, words, right, STACKER_REFUSED_SIZE);
    other = b, other.count = 9;
    refused(other, side, words, right, STACKER_REFUSED_COUNT);
    other = b, other.reference = b.count;
    refused(other, side, words, right, STACKER_REFUSED_REFERENCE);
    refused(b, 8, words, right, STACKER_REFUSED_SIDE);
    other = b, other.row_length = b.width - 1;
    refused(other, side, words, right, STACKER_REFUSED_ROW_LENGTH);
    if (words > 0) {
        int32_t held = vectors[2 * words - 1];
        vectors[2 * words - 1] = held < 0 ? -173 : 173;
        refused(b, side, words, right, STACKER_REFUSED_VECTOR_PART);
        samples[0] += 4096;
        refused(b, side, words, right, STACKER_REFUSED_SAMPLE_VALUE);
        samples[0] -= 4096;
        vectors[2 * words - 1] = held;
    }
}

static void round_of(stacker_burst b, uint64_t side)
{
    size_t tiles = (b.width / side + 1) * (b.height / side + 1), words = (b.count - 1) * tiles;
    stacker_tuning tuning = { .side = side };
    fill(b, samples);
    for (size_t i = 0; i < 2 * words; i++)
        vectors[i] = (int32_t)below(345) - 172;
    faults(b, side, words);
    if (call(b, side, words, right) != 0)
        failed("refused");
    beside(b, (int64_t)side);
    cleared(2 * b.width * b.height);
    stacker_alignment found = stacker_align(b, tuning, samples, b.count * b.row_length * b.height, vectors, 2 * words, work, 2 * b.width * b.height);
    if (found.refusal != 0 || call(b, side, words, right) != 0)
        failed("refused");
    beside(b, (int64_t)side);
    for (size_t k = 0; k + 1 < b.count; k++) {
        uint64_t sum = 0;
        for (size_t t = 0; t < tiles; t++)
            sum += residuals[k * tiles + t];
        if (sum != found.residuals[k])
            failed("a frame's words do not add up to align's answer");
    }
}

int main(void)
{
    int rounds = each_burst(COUNT_MOST, round_of);
    printf("tests: residuals: %d bursts at both sides, every word as by a plain sum, at align's vectors adding up to its answer\n", rounds);
    return 0;
}
