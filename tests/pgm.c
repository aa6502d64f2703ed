/* PGM files. `pgm write` and `pgm read` take the questions of the reference's `write-pgm` and `read-pgm` and answer as those do. They see
   themselves that a refusal leaves the lent buffer as it was, that a file's size agrees with its reading, and that each file written is read, and each
   file read is written, as the same.
   `pgm made` writes a frame of 128 by 64 whose sample i is 1237 i modulo 4096, `pgm plain` prints a file as plain PGM, a word to a line. */
#include "stacker.h"
#include "stream.h"

static int marked(const uint8_t *data, size_t size)
{
    for (size_t i = 0; i < size; i++)
        if (data[i] != MARK)
            return 0;
    return 1;
}

/* width, height, the frame's length, the bytes' length; the frame */
static int write_frame(void)
{
    uint64_t ask[4];
    if (!get(ask, sizeof ask))
        return 0;
    uint16_t *frame = room(2 * ask[2]), *back = room(2 * ask[2]);
    uint8_t *bytes = room(ask[3]);
    if (!get(frame, 2 * ask[2]) && ask[2] != 0)
        exit(2);
    uint64_t number = stacker_write_pgm(ask[0], ask[1], frame, ask[2], bytes, ask[3]);
    put(&number, 8);
    if (number == 0) {
        put(bytes, ask[3]);
        stacker_pgm answer = stacker_read_pgm(bytes, ask[3], back, ask[2]);
        if (ask[3] != stacker_pgm_length(ask[0], ask[1]) || answer.refusal != 0 || answer.width != ask[0] || answer.height != ask[1] ||
            memcmp(frame, back, 2 * ask[2]) != 0)
            exit(1);
    }
    if (!marked(bytes + (number == 0 ? ask[3] : 0), number == 0 ? 1 : ask[3] + 1))
        exit(1);
    free(frame);
    free(back);
    free(bytes);
    return 1;
}

/* the frame's length, the file's length; the file */
static int read_file(void)
{
    uint64_t ask[2];
    if (!get(ask, sizeof ask))
        return 0;
    uint16_t *frame = room(2 * ask[0]);
    uint8_t *bytes = room(ask[1]), *back = room(ask[1]);
    if (!get(bytes, ask[1]) && ask[1] != 0)
        exit(2);
    stacker_pgm answer = stacker_read_pgm(bytes, ask[1], frame, ask[0]), size = stacker_pgm_size(bytes, ask[1]);
    put(&answer, sizeof answer);
    if (memcmp(&size, &answer, sizeof size) != 0 && (answer.refusal == 0 || size.refusal != 0))
        exit(1);
    if (answer.refusal == 0) {
        put(frame, 2 * ask[0]);
        if (stacker_write_pgm(answer.width, answer.height, frame, ask[0], back, ask[1]) != 0 || memcmp(bytes, back, ask[1]) != 0)
            exit(1);
    } else if (!marked((const uint8_t *)frame, 2 * ask[0]))
        exit(1);
    free(frame);
    free(bytes);
    free(back);
    return 1;
}

enum { SIDE = 512 };
static uint16_t frame_room[SIDE * SIDE];
static uint8_t byte_room[2 * SIDE * SIDE + 18];

static int made(void)
{
    enum { W = 128, H = 64 };
    for (unsigned i = 0; i < W * H; i++)
        frame_room[i] = (uint16_t)(i * 1237 % 4096);
    size_t length = stacker_pgm_length(W, H);
    uint64_t number = stacker_write_pgm(W, H, frame_room, W * H, byte_room, length);
    put(byte_room, length);
    return (int)number;
}

/* of at most 512 by 512 */
static int plain(void)
{
    size_t length = fread(byte_room, 1, sizeof byte_room - 1, stdin);
    unsigned width, height;
    if (sscanf((const char *)byte_room, "P5 %u %u", &width, &height) != 2 || width > SIDE || height > SIDE)
        return 2;
    stacker_pgm answer = stacker_read_pgm(byte_room, length, frame_room, (size_t)width * height);
    if (answer.refusal != STACKER_ACCEPTED)
        return (int)answer.refusal;
    printf("P2\n%u\n%u\n4095\n", (unsigned)answer.width, (unsigned)answer.height);
    for (size_t i = 0; i < answer.width * answer.height; i++)
        printf("%u\n", (unsigned)frame_room[i]);
    return 0;
}

int main(int argc, char **argv)
{
    const char *what = argc == 2 ? argv[1] : "";
    if (strcmp(what, "made") == 0)
        return made();
    if (strcmp(what, "plain") == 0)
        return plain();
    if (strcmp(what, "write") == 0)
        while (write_frame())
            ;
    else if (strcmp(what, "read") == 0)
        while (read_file())
            ;
    else
        return 2;
    return fflush(stdout) != 0;
}
