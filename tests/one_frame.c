/* Frames aligned one by one, from the last to the first and each in a work area that holds anything: every word and every number as align answers them; each
   fault is refused by its number, and leaves every buffer as it was. */
#include "random.h"

#include <stdio.h>
#include <stdlib.h>
#include <string.h>

enum { COUNT_MOST = 8, PARTS_MOST = 2 * 13 * 13 };
static uint16_t samples[COUNT_MOST * (MOST + SPARE) * MOST + 1];
static int32_t vectors[(COUNT_MOST - 1) * PARTS_MOST], joined[(COUNT_MOST - 1) * PARTS_MOST + 1];
static int64_t work[2 * MOST * MOST + 1];

static void failed(const char *what)
{
    fprintf(stderr, "tests: one frame: %s\n", what);
    exit(1);
}

/* the call for the k-th other frame, at lengths that differ from the right ones by so much */
static stacker_frame_alignment call(stacker_burst b, uint64_t side, uint64_t k, int32_t *to, const size_t off[3])
{
    stacker_tuning tuning = { .side = side };
    size_t parts = 2 * (b.width / side + 1) * (b.height / side + 1);
    return stacker_align_frame(b, tuning, k, samples, b.count * b.row_length * b.height + off[0], to, parts + off[1], work, b.width * b.height + off[2]);
}

static const size_t right[3];

static void refused(stacker_burst b, uint64_t side, uint64_t k, const size_t off[3], uint64_t number)
{
    static int32_t held_vectors[sizeof joined / sizeof *joined];
    static int64_t held_work[sizeof work / sizeof *work];
    joined[0] = 77;
    work[0] = 77;
    memcpy(held_vectors, joined, sizeof joined);
    memcpy(held_work, work, sizeof work);
    stacker_frame_alignment answer = call(b, side, k, joined, off);
    if (answer.refusal != number || answer.residual != 0 || answer.rows != 0)
        failed("another number than the fault's, or a field beside it");
    if (memcmp(held_vectors, joined, sizeof joined) != 0 || memcmp(held_work, work, sizeof work) != 0)
        failed("a refusal has changed a buffer");
}

/* faults that are refused whatever k is, then those of k itself, then those behind it */
static void faults(stacker_burst b, uint64_t side)
{
    stacker_burst other = b;
    uint64_t beyond = b.count - 1;
    size_t wrong[3] = { 1, 1, 1 };
    other.width = 100;
    refused(other, side, beyond, wrong, STACKER_REFUSED_SIZE);
    other = b, other.count = 9;
    refused(other, side, 0, right, STACKER_REFUSED_COUNT);
    other = b, other.reference = b.count;
    refused(other, side, beyond, wrong, STACKER_REFUSED_REFERENCE);
    refused(b, 8, beyond, wrong, STACKER_REFUSED_SIDE);
    other = b, other.row_length = b.width - 1;
    refused(other, side, beyond, wrong, STACKER_REFUSED_ROW_LENGTH);
    refused(b, side, beyond, wrong, STACKER_REFUSED_PART);
    refused(b, side, UINT64_MAX, right, STACKER_REFUSED_PART);
    if (b.count == 1)
        return;
    static const uint64_t numbers[3] = { STACKER_REFUSED_SAMPLE_LENGTH, STACKER_REFUSED_VECTOR_LENGTH, STACKER_REFUSED_WORK_LENGTH };
    for (size_t i = 0; i < 3; i++) {
        refused(b, side, beyond - 1, wrong, numbers[i]);
        wrong[i] = 0;
    }
    uint16_t *last = samples + b.count * b.row_length * b.height - b.row_length + b.width - 1;
    *last += 4096;
    refused(b, side, 0, right, STACKER_REFUSED_SAMPLE_VALUE);
    *last -= 4096;
}

static void round_of(stacker_burst b, uint64_t side)
{
    size_t parts = 2 * (b.width / side + 1) * (b.height / side + 1), area = 2 * b.width * b.height;
    stacker_tuning tuning = { .side = side };
    fill(b, samples);
    faults(b, side);
    stacker_alignment whole = stacker_align(b, tuning, samples, b.count * b.row_length * b.height, vectors, (b.count - 1) * parts, work, area);
    uint64_t rows = 0;
    for (uint64_t k = b.count - 1; k-- > 0;) {
        for (size_t i = 0; i < area / 2; i++)
            work[i] = (int64_t)(below(1u << 31) << 33);
        stacker_frame_alignment answer = call(b, side, k, joined + k * parts, right);
        if (answer.refusal != 0 || answer.residual != whole.residuals[k])
            failed("another sum than align's");
        rows += answer.rows;
        for (size_t i = 0; i < area / 2; i++)
            if (work[i] != 0)
                failed("the work area is not zero");
    }
    if (whole.refusal != 0 || rows != whole.rows || memcmp(vectors, joined, (b.count - 1) * parts * sizeof *vectors) != 0)
        failed("rows or vectors are not align's");
}

int main(void)
{
    printf("tests: one frame: %d bursts at both sides, aligned frame by frame as at once\n", each_burst(COUNT_MOST, round_of));
    return 0;
}
