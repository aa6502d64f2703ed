/* DNG files. `dng read` takes the questions of the reference's `read-dng` and answers as that does, and prints each number on standard error. It sees
   itself that the file's size agrees with the reading. `dng size FILE` prints refusal, tag, width and height of a file.
   `dng frame WIDTH HEIGHT FILE` reads a file into a burst of one frame and prints black levels, shot, read and then the samples, a word to a line. */
#include "stacker.h"
#include "stream.h"

#include <inttypes.h>
#include <math.h>

/* the bits of a number; those of a NaN are always the same */
static uint64_t bits(double value)
{
    uint64_t word;
    memcpy(&word, &value, sizeof word);
    return isnan(value) ? 0x7ff8000000000000 : word;
}

/* A file that is read has the burst's size; one that has another, or none, is refused, by the same number but where it is 21 for the size alone. 20 and 21
   name a tag. */
static int size_agrees(stacker_dng_frame size, stacker_frames frames, uint64_t refusal)
{
    int same = size.refusal == 0 && size.width == frames.width && size.height == frames.height;
    if (size.refusal != 0 && (size.width != 0 || size.height != 0 || (size.refusal != STACKER_REFUSED_DNG_STRUCTURE && size.tag == 0)))
        return 0;
    if (size.refusal == 0 && size.tag != 0)
        return 0;
    return refusal == 0 ? same : same ? refusal < STACKER_REFUSED_DNG_STRUCTURE || refusal > STACKER_REFUSED_DNG_VALUE
        : refusal == (size.refusal == 0 ? STACKER_REFUSED_DNG_VALUE : size.refusal);
}

/* width, height, count, row length, frame, the samples' length, the file's length; samples; file */
static int read_dng(void)
{
    uint64_t ask[7];
    if (!get(ask, sizeof ask))
        return 0;
    uint16_t *samples = room(2 * ask[5]);
    uint8_t *file = room(ask[6]);
    if ((!get(samples, 2 * ask[5]) && ask[5] != 0) || (!get(file, ask[6]) && ask[6] != 0))
        exit(2);
    stacker_frames frames = { .width = ask[0], .height = ask[1], .count = ask[2], .row_length = ask[3] };
    stacker_dng dng = stacker_read_dng(file, ask[6], frames, ask[4], samples, ask[5]);
    uint64_t answer[7] = { dng.refusal, bits(dng.shot), bits(dng.read), dng.black[0], dng.black[1], dng.black[2], dng.black[3] };
    put(answer, sizeof answer);
    put(samples, 2 * ask[5]);
    if (!size_agrees(stacker_dng_size(file, ask[6]), frames, dng.refusal))
        exit(1);
    free(samples);
    free(file);
    fprintf(stderr, "%" PRIu64 "\n", dng.refusal);
    return 1;
}

/* the bytes of a file, and how many, at most as many as these */
static uint8_t *content(const char *path, size_t most, size_t *length)
{
    uint8_t *file = room(most);
    FILE *stream = fopen(path, "rb");
    if (stream == NULL)
        exit(2);
    *length = fread(file, 1, most, stream);
    fclose(stream);
    return file;
}

static int print_frame(uint64_t width, uint64_t height, const char *path)
{
    size_t length;
    uint16_t *samples = room(2 * width * height);
    uint8_t *file = content(path, 2 * width * height + 65536, &length);
    stacker_frames frames = { .width = width, .height = height, .count = 1, .row_length = width };
    stacker_dng dng = stacker_read_dng(file, length, frames, 0, samples, width * height);
    if (dng.refusal != STACKER_ACCEPTED)
        return (int)dng.refusal;
    printf("%d %d %d %d\n%.17g %.17g\n", dng.black[0], dng.black[1], dng.black[2], dng.black[3], dng.shot, dng.read);
    for (size_t i = 0; i < width * height; i++)
        printf("%d\n", samples[i]);
    free(samples);
    free(file);
    return 0;
}

static int print_size(const char *path)
{
    size_t length;
    uint8_t *file = content(path, 1 << 20, &length);
    stacker_dng_frame size = stacker_dng_size(file, length);
    printf("%" PRIu64 " %" PRIu64 " %" PRIu64 " %" PRIu64 "\n", size.refusal, size.tag, size.width, size.height);
    free(file);
    return 0;
}

int main(int argc, char **argv)
{
    if (argc == 2 && strcmp(argv[1], "read") == 0) {
        while (read_dng())
            ;
        return 0;
    }
    if (argc == 3 && strcmp(argv[1], "size") == 0)
        return print_size(argv[2]);
    if (argc == 5 && strcmp(argv[1], "frame") == 0)
        return print_frame(strtoull(argv[2], NULL, 10), strtoull(argv[3], NULL, 10), argv[4]);
    return 2;
}
