/* The burst from its files, by the proved readers. */
#include "program.h"

#include <inttypes.h>
#include <stdlib.h>
#include <string.h>

/* ends the program where a call has refused */
void accepted(const char *what, uint64_t number, const char *hint)
{
    if (number != STACKER_ACCEPTED)
        fail(REFUSED, "%s: refused %d: %s%s%s", what, (int)number, stacker_refusal_text(number), *hint ? "; " : "", hint);
}

/* what a file's head suggests to whoever sees it refused */
const char *hint_of(head found)
{
    static char text[120];
    if (found.tag != 0)
        snprintf(text, sizeof text, "it is tag %" PRIu64, found.tag);
    else if (found.kind == PGM && found.maxval != 0 && found.maxval != SAMPLE_MOST)
        snprintf(text, sizeof text, "its maxval is %" PRIu64 ": see --scale", found.maxval);
    else if (found.width != 0 && found.kind != BURST && (found.width % 64 != 0 || found.height % 64 != 0 || found.width > SIDE_MOST || found.height > SIDE_MOST))
        snprintf(text, sizeof text, "it has %" PRIu64 " by %" PRIu64 " samples: see --crop", found.width, found.height);
    else
        text[0] = 0;
    return text;
}

static uint64_t length_of(const job *j, uint64_t number)
{
    const stacker_burst *b = &j->burst;
    return station_length(b->width, b->height, b->count, j->side, b->row_length, number);
}

/* makes the buffers; a size, count or side that is refused is answered by align's number for it */
void lend(job *j, const request *r, uint64_t width, uint64_t height, uint64_t count)
{
    j->side = r->side;
    j->burst = (stacker_burst){ .width = width, .height = height, .count = count, .row_length = width };
    if (length_of(j, STATION_OUTPUT) == 0)
        align_burst(j, r);
    j->area = length_of(j, STATION_OUTPUT);
    j->samples_length = length_of(j, STATION_SAMPLES);
    j->vectors_length = length_of(j, STATION_VECTORS);
    j->work_length = length_of(j, STATION_WORK);
    j->tile_columns = width / j->side + 1;
    j->tile_rows = height / j->side + 1;
    j->tiles = j->tile_columns * j->tile_rows;
    j->samples = room(j->samples_length, sizeof *j->samples);
    j->merged = room(j->area, sizeof *j->merged);
    j->vectors = room(j->vectors_length, sizeof *j->vectors);
    j->work = room(j->work_length, sizeof *j->work);
}

static stacker_frames frames_of(const job *j)
{
    stacker_frames frames = { .width = j->burst.width, .height = j->burst.height, .count = j->burst.count, .row_length = j->burst.row_length };
    return frames;
}

/* A file that is no frame of the library has no buffers either: its reader is lent none, and answers why. */
static void refuse_alone(const char *path, content file, head found)
{
    stacker_frames frames = { .width = found.width, .height = found.height, .count = 1, .row_length = found.width };
    accepted(path, found.refusal, hint_of(found));
    if (found.kind == DNG)
        accepted(path, stacker_read_dng(file.bytes, file.length, frames, 0, NULL, 0).refusal, hint_of(found));
    else
        accepted(path, stacker_read_pgm(file.bytes, file.length, NULL, 0).refusal, hint_of(found));
}

/* what the first DNG file tells counts for the burst where the command line says nothing else; others that differ are noted */
static void take_levels(job *j, request *r, const char *path, stacker_dng dng)
{
    int first = !j->has_curve;
    j->has_curve = 1;
    if (first && !r->has_noise)
        r->noise = (stacker_noise){ .shot = dng.shot, .read = dng.read };
    if (first && !r->has_black)
        memcpy(r->black, dng.black, sizeof r->black);
    if (!r->has_noise && (dng.shot != r->noise.shot || dng.read != r->noise.read))
        note("%s: its noise profile is not the first file's, which is taken", path);
    if (!r->has_black && memcmp(dng.black, r->black, sizeof r->black) != 0)
        note("%s: its black levels are not the first file's, which are taken", path);
}

static void read_frame(job *j, request *r, uint64_t i, content file, head found)
{
    const char *path = j->names[i];
    if (i == 0) {
        if (station_length(found.width, found.height, 1, SIDE, found.width, STATION_OUTPUT) == 0)
            refuse_alone(path, file, found);
        lend(j, r, found.width, found.height, (uint64_t)j->files);
    }
    if (found.kind == DNG) {
        stacker_dng dng = stacker_read_dng(file.bytes, file.length, frames_of(j), i, j->samples, j->samples_length);
        accepted(path, dng.refusal, hint_of(found));
        take_levels(j, r, path, dng);
    } else {
        accepted(path, stacker_read_pgm(file.bytes, file.length, j->samples + i * j->area, j->area).refusal, hint_of(found));
    }
}

static void read_burst_file(job *j, request *r, content file, head found)
{
    uint64_t number = station_check(file.bytes, file.length);
    accepted(j->names[0], number, "");
    lend(j, r, found.width, found.height, found.count);
    stacker_file read = stacker_read_file(file.bytes, file.length, j->samples, j->samples_length);
    accepted(j->names[0], read.refusal, "");
    r->reference = r->has_reference ? r->reference : read.reference;
    r->noise = r->has_noise ? r->noise : stacker_file_noise(read);
    r->strength = r->has_strength ? r->strength : stacker_file_tuning(read).strength;
    j->has_curve = 1;
}

/* whether a merged frame is to be written over a DNG file */
static int writes_dng(const request *r)
{
    const char *const frames[] = { r->output, r->low, r->high };
    int writes = 0;
    for (int i = 0; i < 3; i++)
        writes |= frames[i] != NULL && ends_in(frames[i], ".dng");
    return writes;
}

static void read_one(job *j, request *r, int i)
{
    progress("reading file %d of %d ", i + 1, j->files);
    content file = read_whole(j->names[i]);
    head found = head_of(file);
    if (found.kind == OTHER)
        fail(WRONG, "%s: neither a DNG, a PGM nor a burst file", j->names[i]);
    if (found.kind == BURST && j->files > 1)
        fail(WRONG, "%s: a burst file stands alone", j->names[i]);
    if (r->has_crop || r->has_scale)
        file = converted(j->names[i], file, &found, r);
    if (found.kind == BURST)
        read_burst_file(j, r, file, found);
    else
        read_frame(j, r, (uint64_t)i, file, found);
    if (found.kind == DNG && writes_dng(r))
        j->dngs[i] = file;
    else
        free(file.bytes);
}

void read_burst(job *j, request *r)
{
    if (j->files > FRAMES_MOST)
        accepted(j->names[0], STACKER_REFUSED_COUNT, "");
    for (int i = 0; i < j->files; i++)
        read_one(j, r, i);
    memcpy(j->burst.black, r->black, sizeof r->black);
    j->burst.reference = r->reference;
}

void release(job *j)
{
    for (int i = 0; i < FRAMES_MOST; i++)
        free(j->dngs[i].bytes);
    for (int k = 0; k < FRAMES_MOST - 1; k++)
        free(j->fields[k].is_lifted);
    free(j->samples);
    free(j->merged);
    free(j->low);
    free(j->high);
    free(j->vectors);
    free(j->work);
    free(j->own);
    free(j->at_common);
}
