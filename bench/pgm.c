/* Writing and reading a frame as PGM, beside plain C with the same loops: nanoseconds a sample, the best of some rounds taken in turn. */
#include "stacker.h"
#include "timer.h"

#include <stdio.h>
#include <stdlib.h>
#include <string.h>

/* the same work with no test of lengths: the samples are tested, then stored */
static int plain_write(size_t side, const uint16_t *frame, uint8_t *bytes) {
    uint16_t bits = 0;
    for (size_t i = 0; i < side * side; i++)
        bits |= frame[i];
    if (bits > 4095)
        return 11;
    bytes += sprintf((char *)bytes, "P5\n%zu %zu\n4095\n", side, side);
    for (size_t i = 0; i < side * side; i++) {
        bytes[2 * i] = (uint8_t)(frame[i] >> 8);
        bytes[2 * i + 1] = (uint8_t)frame[i];
    }
    return 0;
}

static int plain_read(const uint8_t *bytes, uint16_t *frame) {
    size_t width, height;
    int start;
    if (sscanf((const char *)bytes, "P5\n%zu %zu\n4095%n", &width, &height, &start) != 2)
        return 17;
    bytes += start + 1;
    uint8_t bits = 0;
    for (size_t i = 0; i < width * height; i++)
        bits |= bytes[2 * i];
    if (bits > 15)
        return 11;
    for (size_t i = 0; i < width * height; i++)
        frame[i] = (uint16_t)(bytes[2 * i] << 8 | bytes[2 * i + 1]);
    return 0;
}

enum { WRITE, PLAIN_WRITE, READ, PLAIN_READ, COPY, KINDS };

static int work(int kind, size_t side, uint16_t *frame, uint8_t *bytes, size_t length) {
    switch (kind) {
    case WRITE:
        return (int)stacker_write_pgm(side, side, frame, side * side, bytes, length);
    case PLAIN_WRITE:
        return plain_write(side, frame, bytes);
    case READ:
        return (int)stacker_read_pgm(bytes, length, frame, side * side).refusal;
    case PLAIN_READ:
        return plain_read(bytes, frame);
    default:
        memcpy(bytes + length - 2 * side * side, frame, 2 * side * side);
        return 0;
    }
}

int main(void) {
    printf("PGM, ns a sample   write  plain C   read  plain C  memcpy\n");
    for (size_t side = 512; side <= 4096; side *= 8) {
        size_t length = stacker_pgm_length(side, side);
        uint16_t *frame = malloc(2 * side * side);
        uint8_t *bytes = malloc(length + 1);
        if (frame == NULL || bytes == NULL)
            return 1;
        for (size_t i = 0; i < side * side; i++)
            frame[i] = (uint16_t)(i * 40503 % 4096);
        double best[KINDS] = { 0 };
        for (int round = 0; round < 30; round++)
            for (int kind = 0; kind < KINDS; kind++) {
                double start = clock_time();
                if (work(kind, side, frame, bytes, length) != 0)
                    return 1;
                double taken = (clock_time() - start) / (double)(side * side);
                if (kind == COPY)
                    work(WRITE, side, frame, bytes, length);
                keep_least(&best[kind], taken, round == 0);
            }
        printf("%4zu by %4zu       %5.2f    %5.2f  %5.2f    %5.2f   %5.2f\n", side, side, best[WRITE], best[PLAIN_WRITE], best[READ],
            best[PLAIN_READ], best[COPY]);
        free(frame);
        free(bytes);
    }
    return 0;
}
