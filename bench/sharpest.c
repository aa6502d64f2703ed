/* What choosing the reference costs: run on the frame that is chosen, and the call that chooses it, taken in turn. Milliseconds of processor time, the
   best of some rounds. */
#include "lent.h"
#include "timer.h"

#include <stdio.h>

enum { MOST = 1024, FRAMES = 8 };

static const stacker_noise noise = { .shot = 1.5, .read = 20 };
static const stacker_tuning tuning = { .strength = 64, .side = SIDE };

static void measure(int side, int count, int rounds)
{
    lent b = lend(&LIGHTING[USUAL], side, count);
    stacker_frames frames = STACKER_FRAMES(side, side, count);
    double best[2] = { 0 };
    for (int round = 0; round < 2 * rounds; round++) {
        double start = cpu_time();
        uint64_t refusal;
        if (round % 2 == 0) {
            stacker_choice choice = stacker_run_sharpest(frames, noise, tuning, b.samples, b.sample_count, b.vectors, b.vector_count, b.output, b.frame,
                b.work, b.work_count);
            refusal = choice.alignment.refusal;
            b.burst.reference = choice.reference;
        } else {
            refusal = stacker_run(b.burst, noise, tuning, b.samples, b.sample_count, b.vectors, b.vector_count, b.output, b.frame, b.work, b.work_count).refusal;
        }
        double taken = (cpu_time() - start) * 1e-6;
        must_accept(refusal);
        keep_least(&best[round % 2], taken, round < 2);
    }
    printf("%4d by %4d  %d  %9.3f  %9.3f  %+6.2f %%\n", side, side, count, best[1], best[0], 100 * (best[0] / best[1] - 1));
    release(&b);
}

int main(void)
{
    printf("frames        N        run   choosing\n");
    for (int side = 64; side <= MOST; side *= 4)
        for (int count = 1; count <= FRAMES; count += count < 3 ? 1 : 5)
            measure(side, count, 200 * 64 / side + 10);
    return 0;
}
