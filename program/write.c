/* A merged frame as a file. */
#include "program.h"

#include <stdlib.h>
#include <string.h>

void write_frame(const char *path, const job *j, const uint16_t *frame)
{
    size_t length = stacker_pgm_length(j->burst.width, j->burst.height);
    uint8_t *bytes = room(length, 1);
    accepted(path, stacker_write_pgm(j->burst.width, j->burst.height, frame, j->area, bytes, length), "");
    FILE *to = output_begin(path);
    fwrite(bytes, 1, length, to);
    output_end(to);
    free(bytes);
}

/* whether the proved reader finds the merged samples in a file, and the same noise and black levels as before */
static int reads_back(const job *j, const uint16_t *frame, content file, stacker_dng before)
{
    stacker_frames size = { .width = j->burst.width, .height = j->burst.height, .count = 1, .row_length = j->burst.width };
    uint16_t *samples = room(j->area, sizeof *samples);
    stacker_dng dng = stacker_read_dng(file.bytes, file.length, size, 0, samples, j->area);
    int same = memcmp(samples, frame, j->area * sizeof *samples) == 0;
    same &= dng.refusal == before.refusal && memcmp(&dng.shot, &before.shot, sizeof dng.shot) == 0;
    same &= memcmp(&dng.read, &before.read, sizeof dng.read) == 0 && memcmp(dng.black, before.black, sizeof dng.black) == 0;
    free(samples);
    return same;
}

/* The reference's DNG file with the merged samples in its strip: colours, levels and dates are the camera's. A file whose strip lies over its tags
   cannot hold them, and is not written. */
void write_dng(const char *path, const job *j, const uint16_t *frame)
{
    content file = j->dngs[j->burst.reference];
    if (file.bytes == NULL)
        fail(WRONG, "%s: the frame merged on is no DNG file, over which alone a DNG is written", path);
    stacker_frames size = { .width = j->burst.width, .height = j->burst.height, .count = 1, .row_length = j->burst.width };
    uint16_t *samples = room(j->area, sizeof *samples);
    stacker_dng before = stacker_read_dng(file.bytes, file.length, size, 0, samples, j->area);
    free(samples);
    uint8_t *strip = file.bytes + dng_value(file, 273);
    for (size_t i = 0; i < j->area; i++) {
        strip[2 * i] = (uint8_t)frame[i];
        strip[2 * i + 1] = (uint8_t)(frame[i] >> 8);
    }
    if (!reads_back(j, frame, file, before))
        fail(WRONG, "%s: the merged samples do not fit into the reference's file", path);
    FILE *to = output_begin(path);
    fwrite(file.bytes, 1, file.length, to);
    output_end(to);
}
