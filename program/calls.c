/* The proved calls as a request asks for them: the one place that fills in a tuning. */
#include "program.h"

#include <inttypes.h>
#include <string.h>

static stacker_tuning tuning_of(const request *r)
{
    stacker_tuning tuning = { .strength = r->strength, .side = r->side, .spatial = r->spatial };
    return tuning;
}

static stacker_iso_noise at_iso(const request *r, stacker_noise curve)
{
    stacker_iso_noise noise = { .iso = r->iso, .shot = curve.shot, .read = curve.read };
    return noise;
}

/* ends the program where a call has refused, or its threads had no memory */
static void answered(const char *what, uint64_t refusal)
{
    if (refusal == STACKER_THREADS_NO_MEMORY)
        fail(WRONG, "%s: out of memory", what);
    accepted(what, refusal, "");
}

void align_burst(job *j, const request *r)
{
    progress("aligning %" PRIu64 " frames of %" PRIu64 " by %" PRIu64 " ", j->burst.count, j->burst.width, j->burst.height);
    j->answer = stacker_threads_align(j->burst, tuning_of(r), j->samples, j->samples_length, j->vectors, j->vectors_length, r->threads);
    answered("align", j->answer.refusal);
}

/* in one thread: the proved call that chooses the frame is the one that merges */
static void run_sharpest(job *j, const request *r)
{
    const stacker_burst *b = &j->burst;
    stacker_frames frames = { .width = b->width, .height = b->height, .count = b->count, .row_length = b->row_length };
    memcpy(frames.black, b->black, sizeof frames.black);
    stacker_choice choice = r->iso != 0
        ? stacker_run_sharpest_iso(frames, at_iso(r, r->noise), tuning_of(r), j->samples, j->samples_length, j->vectors, j->vectors_length, j->merged,
            j->area, j->work, j->work_length)
        : stacker_run_sharpest(frames, r->noise, tuning_of(r), j->samples, j->samples_length, j->vectors, j->vectors_length, j->merged, j->area,
            j->work, j->work_length);
    j->answer = choice.alignment;
    j->burst.reference = choice.reference;
}

static void run(job *j, const request *r)
{
    j->answer = r->iso != 0
        ? stacker_threads_run_iso(j->burst, at_iso(r, r->noise), tuning_of(r), j->samples, j->samples_length, j->vectors, j->vectors_length, j->merged,
            j->area, r->threads)
        : stacker_threads_run(j->burst, r->noise, tuning_of(r), j->samples, j->samples_length, j->vectors, j->vectors_length, j->merged, j->area,
            r->threads);
}

void merge_burst(job *j, const request *r)
{
    progress("merging %" PRIu64 " frames of %" PRIu64 " by %" PRIu64 " ", j->burst.count, j->burst.width, j->burst.height);
    (r->sharpest ? run_sharpest : run)(j, r);
    answered("merge", j->answer.refusal);
    j->is_merged = 1;
}

/* low and high by the vectors that the merge has found */
void merge_range(job *j, const request *r)
{
    progress("merging between two curves ");
    j->low = room(j->area, sizeof *j->low);
    j->high = room(j->area, sizeof *j->high);
    uint64_t refusal = r->iso != 0
        ? stacker_range_iso(j->burst, at_iso(r, r->noise), at_iso(r, r->upper), tuning_of(r), j->samples, j->samples_length, j->vectors, j->vectors_length,
            j->low, j->area, j->high, j->area, j->work, j->work_length)
        : stacker_range(j->burst, r->noise, r->upper, tuning_of(r), j->samples, j->samples_length, j->vectors, j->vectors_length, j->low, j->area,
            j->high, j->area, j->work, j->work_length);
    accepted("range", refusal, "");
}

/* the residual of each tile at such vectors as align finds, in their order */
void residuals_at(job *j, const int32_t *vectors, uint64_t *residuals)
{
    stacker_tuning tuning = { .side = j->side };
    uint64_t refusal = stacker_residuals(j->burst, tuning, j->samples, j->samples_length, vectors, j->vectors_length, residuals, j->vectors_length / 2,
        j->work, j->work_length);
    accepted("residuals", refusal, "");
}

/* V of a tile with this root: its RMS times the side */
uint64_t noise_number(const request *r, stacker_noise noise, uint64_t root)
{
    return station_noise(noise.shot, noise.read, r->strength, root, r->side);
}
