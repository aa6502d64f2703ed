/* What low and high of a range of noise cost beside one merged frame: merge, the range of equal curves and the range from half to twice the noise, taken in
   turn. ns of processor time per pixel and other frame, the best of some rounds. */
#include "lent.h"
#include "timer.h"

#include <stdio.h>

enum { ROUNDS = 9, SIZE = 512, MERGE = 0, EQUAL, APART, TIMED };

static const stacker_tuning TUNING = { .strength = 600, .side = SIDE };

/* One call, in ns per pixel and other frame. */
static double time_of(lent *b, uint16_t *high, const lighting *l, int timed)
{
    double apart = timed == APART ? 2 : 1;
    stacker_noise lower = { l->shot / apart, l->read / apart }, upper = { l->shot * apart, l->read * apart };
    double start = cpu_time();
    uint64_t refusal = timed == MERGE
        ? stacker_merge(b->burst, lower, TUNING, b->samples, b->sample_count, b->vectors, b->vector_count, b->output, b->frame, b->work, b->work_count)
        : stacker_range(b->burst, lower, upper, TUNING, b->samples, b->sample_count, b->vectors, b->vector_count, b->output, b->frame, high, b->frame, b->work,
            b->work_count);
    must_accept(refusal);
    return (cpu_time() - start) / ((double)b->frame * (double)(b->burst.count - 1));
}

static void print_line(const lighting *l, int count)
{
    lent b = lend(l, SIZE, count);
    uint16_t *high = allocated(b.frame * sizeof *high);
    must_accept(stacker_align(b.burst, TUNING, b.samples, b.sample_count, b.vectors, b.vector_count, b.work, b.work_count).refusal);
    double best[TIMED] = { 0 };
    for (int round = 0; round < TIMED * ROUNDS; round++)
        keep_least(&best[round % TIMED], time_of(&b, high, l, round % TIMED), round < TIMED);
    printf("  %-8s%5d  N = %d  %8.2f  %8.2f %6.2f  %8.2f %6.2f\n", l->name, SIZE, count, best[MERGE], best[EQUAL], best[EQUAL] / best[MERGE], best[APART],
        best[APART] / best[MERGE]);
    fflush(stdout);
    free(high);
    release(&b);
}

int main(void)
{
    printf("low and high at strength 600, ns per pixel and other frame, and beside merge\n%-24s%8s  %15s  %15s\n", "", "merge", "equal curves", "half to twice");
    for (int light = 0; light < LIGHTINGS; light++)
        for (int count = 4; count <= 8; count *= 2)
            print_line(&LIGHTING[light], count);
    return 0;
}
