/* Reading a frame from a DNG file, beside plain C with the same loops and beside memcpy: nanoseconds a byte of the file, the best of some rounds
   taken in turn. The last line is a small frame behind a directory of 65,535 entries, which plain C walks once. */
#include "stacker.h"
#include "timer.h"

#include <stdio.h>
#include <stdlib.h>
#include <string.h>

enum { BYTE = 1, SHORT = 3, LONG = 4, DOUBLE = 12, NEEDED = 12, HEADER = 8 };

static void put(uint8_t *bytes, uint64_t value, int size) {
    for (int i = 0; i < size; i++)
        bytes[i] = (uint8_t)(value >> 8 * i);
}

static uint32_t get(const uint8_t *bytes, int size) {
    uint32_t value = 0;
    for (int i = 0; i < size; i++)
        value |= (uint32_t)bytes[i] << 8 * i;
    return value;
}

static uint8_t *entry(uint8_t *at, unsigned tag, unsigned type, uint32_t count, uint32_t value) {
    put(at, tag, 2);
    put(at + 2, type, 2);
    put(at + 4, count, 4);
    put(at + 8, value, 4);
    return at + 12;
}

/* a file of a square frame: header, directory with the needed entries behind the others, noise profile, strip */
static uint8_t *made(uint32_t side, uint32_t others, size_t *length) {
    uint32_t entries = NEEDED + others, profile = HEADER + 2 + 12 * entries, strip = profile + 16;
    *length = strip + 2 * (size_t)side * side;
    uint8_t *file = calloc(*length, 1), *at = file + HEADER + 2;
    if (file == NULL)
        exit(1);
    memcpy(file, "II*\0\10\0\0\0", HEADER);
    put(file + HEADER, entries, 2);
    for (uint32_t i = 0; i < others; i++)
        at = entry(at, 50000, BYTE, 1, 0);
    at = entry(at, 256, LONG, 1, side);
    at = entry(at, 257, LONG, 1, side);
    at = entry(at, 258, SHORT, 1, 16);
    at = entry(at, 259, SHORT, 1, 1);
    at = entry(at, 262, SHORT, 1, 32803);
    at = entry(at, 273, LONG, 1, strip);
    at = entry(at, 277, SHORT, 1, 1);
    at = entry(at, 279, LONG, 1, 2 * side * side);
    at = entry(at, 33421, SHORT, 2, 0x20002);
    at = entry(at, 33422, BYTE, 4, 0x2010100);
    at = entry(at, 50717, LONG, 1, 4095);
    entry(at, 51041, DOUBLE, 2, profile);
    for (size_t i = 0; i < (size_t)side * side; i++)
        put(file + strip + 2 * i, i * 40503 % 4096, 2);
    return file;
}

/* the same work with no test of the file: one walk to the strip, its samples tested, then stored */
static int plain(const uint8_t *file, size_t side, uint16_t *frame) {
    const uint8_t *strip = NULL, *directory = file + get(file + 4, 4);
    for (uint32_t i = 0; i < get(directory, 2); i++)
        if (get(directory + 2 + 12 * i, 2) == 273)
            strip = file + get(directory + 10 + 12 * i, 4);
    if (strip == NULL)
        return 20;
    uint8_t bits = 0;
    for (size_t i = 0; i < side * side; i++)
        bits |= strip[2 * i + 1];
    if (bits > 15)
        return 11;
    for (size_t i = 0; i < side * side; i++)
        frame[i] = (uint16_t)(strip[2 * i] | strip[2 * i + 1] << 8);
    return 0;
}

enum { READ, PLAIN, COPY, KINDS };

static int work(int kind, const uint8_t *file, size_t length, size_t side, uint16_t *frame) {
    stacker_frames frames = { .width = side, .height = side, .count = 1, .row_length = side };
    switch (kind) {
    case READ:
        return (int)stacker_read_dng(file, length, frames, 0, frame, side * side).refusal;
    case PLAIN:
        return plain(file, side, frame);
    default:
        memcpy(frame, file + length - 2 * side * side, 2 * side * side);
        return 0;
    }
}

int main(void) {
    static const uint32_t sizes[][2] = { { 512, 0 }, { 4096, 0 }, { 64, 65535 - NEEDED } };
    printf("DNG, ns a byte                    read  plain C  memcpy\n");
    for (int size = 0; size < 3; size++) {
        size_t side = sizes[size][0], length;
        uint8_t *file = made(sizes[size][0], sizes[size][1], &length);
        uint16_t *frame = malloc(2 * side * side);
        if (frame == NULL)
            return 1;
        double best[KINDS] = { 0 };
        for (int round = 0; round < 30; round++)
            for (int kind = 0; kind < KINDS; kind++) {
                double start = clock_time();
                if (work(kind, file, length, side, frame) != 0)
                    return 1;
                keep_least(&best[kind], (clock_time() - start) / (double)length, round == 0);
            }
        printf("%4zu by %4zu, %5u entries       %5.3f    %5.3f   %5.3f\n", side, side, sizes[size][1] + NEEDED, best[READ], best[PLAIN], best[COPY]);
        free(file);
        free(frame);
    }
    return 0;
}
