/* What tiles of side 32 cost beside those of side 16: align, and merge at two strengths, the sides taken in turn. ns of processor time per pixel and other
   frame, the best of some rounds. */
#include "lent.h"
#include "timer.h"

#include <stdio.h>

enum { ROUNDS = 9, SIDES = 2, CALLS = 3 };

static const int TILE[SIDES] = { 16, 32 };

/* The strength of a call that merges; 0 is align. */
static const uint64_t STRENGTH[CALLS] = { 0, 8, 600 };

/* One call at one side with its vectors, in ns per pixel and other frame. */
static double time_of(lent *b, const lighting *l, int call, int side, int32_t *vectors)
{
    stacker_noise noise = { .shot = l->shot, .read = l->read };
    stacker_tuning tuning = { .strength = STRENGTH[call], .side = (uint64_t)TILE[side] };
    size_t words = vector_words((int)b->burst.width, (int)b->burst.count, TILE[side]);
    double start = cpu_time();
    uint64_t refusal = call == 0
        ? stacker_align(b->burst, tuning, b->samples, b->sample_count, vectors, words, b->work, b->work_count).refusal
        : stacker_merge(b->burst, noise, tuning, b->samples, b->sample_count, vectors, words, b->output, b->frame, b->work, b->work_count);
    must_accept(refusal);
    return (cpu_time() - start) / ((double)b->frame * (double)(b->burst.count - 1));
}

static void print_line(const lighting *l, int size, int count)
{
    lent b = lend(l, size, count);
    int32_t *wide = allocated(vector_words(size, count, TILE[1]) * sizeof *wide), *vectors[SIDES] = { b.vectors, wide };
    printf("  %-8s%5d  N = %d", l->name, size, count);
    for (int call = 0; call < CALLS; call++) {
        double best[SIDES] = { 0 };
        for (int round = 0; round < SIDES * ROUNDS; round++)
            keep_least(&best[round % SIDES], time_of(&b, l, call, round % SIDES, vectors[round % SIDES]), round < SIDES);
        printf("   %6.2f %6.2f %5.2f", best[0], best[1], best[1] / best[0]);
    }
    printf("\n");
    fflush(stdout);
    free(wide);
    release(&b);
}

int main(void)
{
    printf("ns per pixel and other frame at sides 16 and 32, and their ratio\n%-24s%13s%25s%23s\n", "", "align", "merge, strength 8", "strength 600");
    for (int light = 0; light < LIGHTINGS; light++)
        for (int size = 512; size <= 1024; size *= 2)
            for (int count = 2; count <= 8; count *= 2)
                print_line(&LIGHTING[light], size, count);
    return 0;
}
