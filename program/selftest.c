/* selftest: a burst of three frames of 64 by 64, from a few lines of arithmetic, whose merged frame and vectors are known at both sides of tiles. The numbers
   are those of the independent program's answers to the same burst (tests/run program): FNV-1a over words. */
#include "program.h"

#include <inttypes.h>

enum { WIDTH = 64, COUNT = 3, MOVE = 2 };

typedef struct {
    uint64_t side, merged, vectors;
} known;

static const known KNOWN[] = { { 16, 0xb9969f14afbe51ee, 0x4770820fcd6a05e5 }, { 32, 0xc6e45a779325cfa1, 0xa622087dd562eabb } };

static void take_frames(job *j)
{
    uint64_t state = 1;
    for (size_t i = 0; i < j->samples_length; i++) {
        size_t frame = i / j->area, y = i / WIDTH % WIDTH + MOVE * frame, x = i % WIDTH + 2 * MOVE * frame;
        state = state * 6364136223846793005u + 1442695040888963407u;
        j->samples[i] = (uint16_t)(400 + (y / 8 * 7 + x / 8 * 13) % 11 * 200 + (state >> 58));
    }
}

static uint64_t mixed(uint64_t sum, uint64_t word)
{
    return (sum ^ word) * 1099511628211u;
}

static void try_side(const known *k)
{
    job j = { 0 };
    request r = { .strength = STRENGTH, .side = k->side, .noise = { .shot = 3, .read = 100 } };
    uint64_t merged = 14695981039346656037u, vectors = merged;
    lend(&j, &r, WIDTH, WIDTH, COUNT);
    take_frames(&j);
    merge_burst(&j, &r);
    for (size_t i = 0; i < j.area; i++)
        merged = mixed(merged, j.merged[i]);
    for (size_t i = 0; i < j.vectors_length; i++)
        vectors = mixed(vectors, (uint64_t)j.vectors[i]);
    progress_end();
    release(&j);
    printf("selftest: side %" PRIu64 ": merged frame %016" PRIx64 ", vectors %016" PRIx64 "\n", k->side, merged, vectors);
    if (merged != k->merged || vectors != k->vectors)
        fail(REFUSED, "selftest: merged frame must be %016" PRIx64 ", vectors %016" PRIx64, k->merged, k->vectors);
}

int selftest_command(request *r, char **names, int count)
{
    (void)r;
    (void)names;
    if (count != 0)
        fail(WRONG, "selftest takes no file");
    for (size_t i = 0; i < sizeof KNOWN / sizeof *KNOWN; i++)
        try_side(&KNOWN[i]);
    return DONE;
}
