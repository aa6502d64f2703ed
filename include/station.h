/* The capture station's functions. Each is total: it answers for every argument, and keeps nothing between calls. Link with libstation.a. */
#ifndef STATION_H
#define STATION_H

#include <stddef.h>
#include <stdint.h>

#ifdef __cplusplus
extern "C" {
#endif

/* The lent buffers of stacker.h, by the number of the refusal that tests their length. */
typedef enum {
    STATION_SAMPLES = 4, /* uint16_t */
    STATION_VECTORS = 5, /* int32_t */
    STATION_OUTPUT = 6,  /* uint16_t */
    STATION_WORK = 7     /* int64_t */
} station_buffer;

/* The length of a buffer in elements, for `count` frames of that size in rows of `row_length` words, merged by tiles of `side`: `number` is a
   station_buffer. 0 for any other number, and where refusal 1 (size), 2 (count of frames), 22 (a side other than 16 or 32) or 23 (row length not from
   width to width + 256) would stand. The vectors of a lone frame have the length 0: there 0 is the answer. */
uint64_t station_length(uint64_t width, uint64_t height, uint64_t count, uint64_t side, uint64_t row_length, uint64_t number);

/* The noise number V of the curve `shot` (samples) and `read` (squared samples), the strength (eighths of tau, 0..1024) and the root of a tile of
   `side`: for 16 in 1/256 of a squared sample, of a root that is the tile's RMS in sixteenths, 0..65520; for 32 in 1/16, of its RMS in thirty-seconds,
   0..131040. 0 where refusal 8, 9, 10 or 22 would stand, or the root exceeds that. */
uint64_t station_noise(double shot, double read, uint64_t strength, uint64_t root, uint64_t side);

/* The number of the refusal with which reading a burst file of these bytes would end, or 0: every test of file reading but 4, the length
   of the lent samples. `file` points to `file_length` bytes, and may be NULL where that is 0. */
uint64_t station_check(const uint8_t *file, size_t file_length);

#ifdef __cplusplus
}
#endif

#endif
