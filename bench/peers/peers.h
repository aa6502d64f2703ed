/* What is compared: each variant of align and merge under one shape. The C files are built twice, by gcc -O3 and by gcc -O3 -march=native. */
#ifndef PEERS_H
#define PEERS_H

#include "burst.h"

/* Align fills vectors and residual sums; merge reads the vectors and fills the output. */
typedef struct {
    vector *vectors;
    uint64_t residuals[7];
    uint16_t *output;
} result;

/* `make` allocates what a call of this size needs beside the burst and its result, and `discard` frees it. */
typedef struct {
    const char *name;
    int exact; /* whether it follows the recipe word for word */
    void *(*make)(const burst *b);
    void (*discard)(void *scratch);
    void (*call)(void *scratch, const burst *b, const noise_levels *n, result *r);
} peer;

enum { ALIGN_PEERS = 3, MERGE_PEERS = 6 };

/* The variants of one build. */
typedef struct {
    const peer *align[ALIGN_PEERS], *merge[MERGE_PEERS];
} peer_list;

extern const peer_list plain_peers, native_peers;

extern const peer library_align, straight_align, expert_align_whole, expert_align_early;
extern const peer library_merge, straight_merge, expert_merge_two, expert_merge_one, expert_merge_double, fftw_merge_one, fftw_merge_each;

/* How often the recipe met an exact half of each sign, counted by a build of straight_merge.c with -DTALLY. */
enum { HALF_Q, HALF_G, HALF_P, HALF_OUTPUT, HALVES };
extern const peer tally_merge;
extern uint64_t half_tally[HALVES][2];

#endif
