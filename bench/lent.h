/* A square burst of the scene and the buffers that the library's calls are lent with it. */
#ifndef LENT_H
#define LENT_H

#include "peers/burst.h"
#include "scene.h"
#include "stacker.h"

#include <stdio.h>

typedef struct {
    stacker_burst burst;
    size_t frame, sample_count, vector_count, work_count;
    uint16_t *samples, *output;
    int32_t *vectors;
    int64_t *work;
} lent;

/* Words of the vectors at tiles of this side. */
static inline size_t vector_words(int size, int count, int side)
{
    size_t tiles = (size_t)(size / side) + 1;
    return (size_t)(count - 1) * 2 * tiles * tiles;
}

/* Under this light, for tiles of side 16. */
static inline lent lend(const lighting *l, int size, int count)
{
    size_t frame = (size_t)size * (size_t)size;
    lent b = { .burst = STACKER_BURST(size, size, count, 0), .frame = frame, .sample_count = (size_t)count * frame,
        .vector_count = vector_words(size, count, SIDE), .work_count = 2 * frame };
    b.samples = allocated(b.sample_count * sizeof *b.samples);
    b.output = allocated(frame * sizeof *b.output);
    b.vectors = allocated((b.vector_count + 1) * sizeof *b.vectors); /* a lone frame has none */
    b.work = allocated(b.work_count * sizeof *b.work);
    fill_lit_scene(l, b.samples, size, size, count);
    return b;
}

static inline void release(lent *b)
{
    free(b->samples);
    free(b->output);
    free(b->vectors);
    free(b->work);
}

static inline void must_accept(uint64_t refusal)
{
    if (refusal == STACKER_ACCEPTED)
        return;
    fprintf(stderr, "refused: %s\n", stacker_refusal_text(refusal));
    exit(1);
}

#endif
