/* DNG files of one size are read, merged on the first with its noise and black levels, and written as a PGM file:
     merge_dng OUTPUT.pgm FILE.dng...
   It ends with 1 where a file or the merge is refused, and prints why. */
#include "stacker.h"

#include <stdio.h>
#include <stdlib.h>

/* eighths of tau */
static const uint64_t STRENGTH = 600;

static void *room(size_t count, size_t size)
{
    void *memory = calloc(count + 1, size);
    if (memory == NULL)
        exit(2);
    return memory;
}

/* ends the program where a call has refused */
static void accepted(const char *what, uint64_t refusal)
{
    if (refusal != STACKER_ACCEPTED) {
        fprintf(stderr, "%s: refused by %d: %s\n", what, (int)refusal, stacker_refusal_text(refusal));
        exit(1);
    }
}

/* the bytes of a file */
static uint8_t *contents(const char *path, size_t *length)
{
    FILE *file = fopen(path, "rb");
    if (file == NULL || fseek(file, 0, SEEK_END) != 0 || ftell(file) < 0) {
        perror(path);
        exit(2);
    }
    *length = (size_t)ftell(file);
    rewind(file);
    uint8_t *bytes = room(*length, 1);
    if (fread(bytes, 1, *length, file) != *length || fclose(file) != 0) {
        perror(path);
        exit(2);
    }
    return bytes;
}

/* reads each file into its frame; answers the first one's noise and black levels */
static stacker_dng read_files(stacker_frames frames, char **paths, uint16_t *samples, size_t samples_length)
{
    stacker_dng first = { 0 };
    for (uint64_t i = 0; i < frames.count; i++) {
        size_t length;
        uint8_t *file = contents(paths[i], &length);
        stacker_dng dng = stacker_read_dng(file, length, frames, i, samples, samples_length);
        accepted(paths[i], dng.refusal);
        if (i == 0)
            first = dng;
        free(file);
    }
    return first;
}

/* the size of a file's frame, so that buffers can be made */
static stacker_dng_frame size_of(const char *path)
{
    size_t length;
    uint8_t *file = contents(path, &length);
    stacker_dng_frame size = stacker_dng_size(file, length);
    if (size.tag != 0)
        fprintf(stderr, "%s: tag %d is at fault\n", path, (int)size.tag);
    accepted(path, size.refusal);
    free(file);
    return size;
}

static void write_frame(const char *path, uint64_t width, uint64_t height, const uint16_t *frame)
{
    size_t length = stacker_pgm_length(width, height);
    uint8_t *bytes = room(length, 1);
    accepted(path, stacker_write_pgm(width, height, frame, width * height, bytes, length));
    FILE *file = fopen(path, "wb");
    if (file == NULL || fwrite(bytes, 1, length, file) != length || fclose(file) != 0) {
        perror(path);
        exit(2);
    }
    free(bytes);
}

int main(int argc, char **argv)
{
    if (argc < 3 || argc > 10) {
        fprintf(stderr, "usage: merge_dng OUTPUT.pgm FILE.dng..., of one to eight files\n");
        return 2;
    }
    stacker_dng_frame size = size_of(argv[2]);
    uint64_t width = size.width, height = size.height, count = (uint64_t)argc - 2;
    size_t area = width * height, samples_length = count * area;
    size_t vectors_length = (count - 1) * 2 * (width / 16 + 1) * (height / 16 + 1);
    uint16_t *samples = room(samples_length, 2), *merged = room(area, 2);
    int32_t *vectors = room(vectors_length, 4);
    int64_t *work = room(2 * area, 8);

    stacker_frames frames = { .width = width, .height = height, .count = count, .row_length = width };
    stacker_dng first = read_files(frames, argv + 2, samples, samples_length);
    stacker_burst burst = { .width = width, .height = height, .count = count, .row_length = width };
    for (int plane = 0; plane < 4; plane++)
        burst.black[plane] = first.black[plane];
    stacker_noise noise = { .shot = first.shot, .read = first.read };
    stacker_tuning tuning = { .strength = STRENGTH, .side = 16 };
    stacker_alignment answer =
        stacker_run(burst, noise, tuning, samples, samples_length, vectors, vectors_length, merged, area, work, 2 * area);
    accepted("merge", answer.refusal);
    write_frame(argv[1], width, height, merged);
    free(samples);
    free(merged);
    free(vectors);
    free(work);
    return 0;
}
