/* Random numbers and bursts, the same in every run. */
#ifndef RANDOM_H
#define RANDOM_H

#include "stacker.h"

/* width and height of a burst, and spare words after a row, at most */
enum { MOST = 192, SPARE = 3 };

static inline uint64_t below(uint64_t n)
{
    static uint64_t state = 1;
    state = state * 6364136223846793005u + 1442695040888963407u;
    return (state >> 33) % n;
}

/* samples of the full range, and 65535 in the spare words */
static inline void fill(stacker_burst b, uint16_t *samples)
{
    for (size_t i = 0; i < b.count * b.row_length * b.height; i++)
        samples[i] = (uint16_t)(i % b.row_length < b.width ? below(4096) : 65535);
}

/* a burst of each count from 1 on at either side, and how many there were */
static inline int each_burst(uint64_t counts, void (*round_of)(stacker_burst b, uint64_t side))
{
    int rounds = 0;
    for (uint64_t count = 1; count <= counts; count++)
        for (uint64_t side = 16; side <= 32; side += 16, rounds++) {
            uint64_t width = 64 * (1 + below(MOST / 64)), height = 64 * (1 + below(MOST / 64));
            stacker_burst b = { .width = width, .height = height, .count = count, .reference = below(count), .row_length = width + below(SPARE + 1) };
            round_of(b, side);
        }
    return rounds;
}

#endif
