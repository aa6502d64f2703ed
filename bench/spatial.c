/* What the spatial filter costs: merge without it, at the published s and at the greatest, taken in turn. ns of processor time per pixel of the frame,
   the best of some rounds. */
#include "lent.h"
#include "timer.h"

#include <stdio.h>

enum { ROUNDS = 9, TRIED = 3 };

static const uint64_t SPATIAL[TRIED] = { 0, 26, 256 };

static void print_line(const lighting *l, int side, int count)
{
    lent b = lend(l, side, count);
    stacker_noise noise = { .shot = l->shot, .read = l->read };
    stacker_tuning tuning = { .strength = 600, .side = SIDE };
    must_accept(stacker_align(b.burst, tuning, b.samples, b.sample_count, b.vectors, b.vector_count, b.work, b.work_count).refusal);
    double best[TRIED] = { 0 };
    for (int round = 0; round < TRIED * ROUNDS; round++) {
        tuning.spatial = SPATIAL[round % TRIED];
        double start = cpu_time();
        must_accept(stacker_merge(b.burst, noise, tuning, b.samples, b.sample_count, b.vectors, b.vector_count, b.output, b.frame, b.work, b.work_count));
        keep_least(&best[round % TRIED], (cpu_time() - start) / (double)b.frame, round < TRIED);
    }
    printf("  %-8s%5d  N = %d  %8.2f  %8.2f %+7.2f  %8.2f %+7.2f\n", l->name, side, count, best[0], best[1], best[1] - best[0], best[2], best[2] - best[0]);
    release(&b);
}

int main(void)
{
    printf("merge at strength 600 by s, ns per pixel of the frame\n%-24s%8d  %16d  %16d\n", "", (int)SPATIAL[0], (int)SPATIAL[1], (int)SPATIAL[2]);
    for (int light = 0; light < LIGHTINGS; light++)
        for (int side = 512; side <= 1024; side *= 2)
            for (int count = 2; count <= 8; count *= 2)
                print_line(&LIGHTING[light], side, count);
    return 0;
}
