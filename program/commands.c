/* merge, align and info. */
#include "program.h"

#include <inttypes.h>
#include <stdlib.h>
#include <string.h>

static void write_merged(const char *path, const job *j, const uint16_t *frame)
{
    if (path != NULL)
        (ends_in(path, ".dng") ? write_dng : write_frame)(path, j, frame);
}

static void write_all(const job *j, const request *r)
{
    progress("writing ");
    write_merged(r->output, j, j->merged);
    write_merged(r->low, j, j->low);
    write_merged(r->high, j, j->high);
    if (r->vectors != NULL) {
        FILE *to = output_begin(r->vectors);
        (ends_in(r->vectors, ".csv") ? write_csv : write_json)(to, j, r);
        output_end(to);
    }
    if (r->page != NULL) {
        FILE *to = output_begin(r->page);
        write_page(to, j, r);
        output_end(to);
    }
    outputs_written(j->names, j->files);
    progress_end();
}

static void tell(const job *j, const request *r, double took)
{
    const stacker_burst *b = &j->burst;
    note("%" PRIu64 " frame%s of %" PRIu64 " by %" PRIu64 " on frame %" PRIu64 " in %.2f s", b->count, b->count == 1 ? "" : "s", b->width, b->height, b->reference,
        took);
    for (uint64_t k = 0; k + 1 < b->count; k++) {
        const field *f = &j->fields[k];
        note("frame %" PRIu64 ": mostly %+d down %+d right; %zu of %zu tiles lifted; residual %" PRIu64, f->frame, (int)f->common[0], (int)f->common[1],
            f->lifted, j->tiles, j->answer.residuals[k]);
    }
    if (r->has_crop || r->has_scale)
        note("outside the proofs: the frames were %s before they were read", r->has_scale ? r->has_crop ? "cropped and scaled" : "scaled" : "cropped");
}

static int work_on(request *r, char **names, int count, int merging)
{
    job j = { .names = names, .files = count };
    if (count < 1)
        fail(WRONG, "no file is given; see stacker --help");
    read_burst(&j, r);
    if (merging && !r->has_noise && !j.has_curve)
        fail(WRONG, "no noise curve: PGM files carry none; give --noise SHOT,READ");
    double start = seconds();
    (merging ? merge_burst : align_burst)(&j, r);
    if (r->has_upper)
        merge_range(&j, r);
    double took = seconds() - start;
    int wants_tiles = r->vectors != NULL || r->page != NULL || r->has_lifted || !quiet;
    if (wants_tiles)
        find_lifted(&j, r);
    write_all(&j, r);
    tell(&j, r, took);
    int lifted = r->has_lifted && lifted_tiles(&j) >= r->lifted;
    release(&j);
    return lifted ? LIFTED : DONE;
}

int merge_command(request *r, char **names, int count)
{
    int ends = r->low != NULL || r->high != NULL;
    if (ends != r->has_upper)
        fail(WRONG, "--upper SHOT,READ goes with --low and --high, one of them at least");
    if (r->output == NULL && r->vectors == NULL && r->page == NULL && !r->has_lifted && !ends)
        fail(WRONG, "merge needs --output, --vectors, --page, --lifted, or --upper with --low and --high");
    return work_on(r, names, count, 1);
}

int align_command(request *r, char **names, int count)
{
    if (r->output != NULL || r->low != NULL || r->high != NULL || r->has_upper || r->sharpest)
        fail(WRONG, "align merges nothing: it has no --output, no --low and --high, and no sharpest frame");
    return work_on(r, names, count, 0);
}

static uint64_t dng_told(const char *path, content file, head found)
{
    stacker_frames frames = { .width = found.width, .height = found.height, .count = 1, .row_length = found.width };
    size_t length = station_length(found.width, found.height, 1, SIDE, found.width, STATION_SAMPLES);
    uint16_t *samples = room(length, sizeof *samples);
    stacker_dng dng = stacker_read_dng(file.bytes, file.length, frames, 0, samples, length);
    free(samples);
    if (dng.refusal == STACKER_ACCEPTED)
        printf("%s: DNG, %" PRIu64 " by %" PRIu64 ", shot %.6g, read %.6g, black %d %d %d %d\n", path, found.width, found.height, dng.shot, dng.read,
            dng.black[0], dng.black[1], dng.black[2], dng.black[3]);
    return dng.refusal;
}

static uint64_t pgm_told(const char *path, content file, head found)
{
    size_t length = station_length(found.width, found.height, 1, SIDE, found.width, STATION_OUTPUT);
    uint16_t *frame = room(length, sizeof *frame);
    stacker_pgm pgm = stacker_read_pgm(file.bytes, file.length, frame, length);
    free(frame);
    if (pgm.refusal == STACKER_ACCEPTED)
        printf("%s: PGM, %" PRIu64 " by %" PRIu64 "\n", path, pgm.width, pgm.height);
    return pgm.refusal;
}

static uint64_t burst_told(const char *path, content file, head found)
{
    uint64_t number = station_check(file.bytes, file.length);
    if (number == STACKER_ACCEPTED)
        printf("%s: burst file, %" PRIu64 " frames of %" PRIu64 " by %" PRIu64 "\n", path, found.count, found.width, found.height);
    return number;
}

static int info(const char *path)
{
    content file = read_whole(path);
    head found = head_of(file);
    uint64_t number = found.refusal;
    if (found.kind == OTHER)
        printf("%s: neither a DNG, a PGM nor a burst file\n", path);
    else if (number == STACKER_ACCEPTED)
        number = (found.kind == DNG ? dng_told : found.kind == PGM ? pgm_told : burst_told)(path, file, found);
    if (number != STACKER_ACCEPTED) {
        const char *hint = hint_of(found);
        printf("%s: refused %d: %s%s%s\n", path, (int)number, stacker_refusal_text(number), *hint ? "; " : "", hint);
    }
    free(file.bytes);
    return found.kind == OTHER || number != STACKER_ACCEPTED ? REFUSED : DONE;
}

int info_command(request *r, char **names, int count)
{
    int status = DONE;
    (void)r;
    if (count < 1)
        fail(WRONG, "no file is given; see stacker --help");
    for (int i = 0; i < count; i++)
        status |= info(names[i]);
    return status;
}
