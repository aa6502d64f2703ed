/* What parts cost beside the whole, and what threads gain: align frame by frame and merge by bands, each part alone in one thread; then run in one thread and in
   two, by the clock; then what more cores would take, reckoned from the parts. Milliseconds, the best of some rounds. */
#include "lent.h"
#include "stacker_threads.h"
#include "timer.h"

#include <stdio.h>

enum { FRAMES = 8, OTHERS = FRAMES - 1, BANDS_MOST = 16 };

static const stacker_noise noise = { .shot = 1.5, .read = 20 };
static const stacker_tuning tuning = { .strength = 600, .side = SIDE };
static lent all;

/* ---- the whole and its parts, of which each takes its best time ---- */

static void whole_align(int part, int parts)
{
    (void)part, (void)parts;
    must_accept(stacker_align(all.burst, tuning, all.samples, all.sample_count, all.vectors, all.vector_count, all.work, all.work_count).refusal);
}

static void frame(int part, int parts)
{
    size_t length = all.vector_count / (size_t)parts;
    must_accept(stacker_align_frame(all.burst, tuning, (uint64_t)part, all.samples, all.sample_count, all.vectors + (size_t)part * length, length,
        all.work, all.work_count / 2).refusal);
}

static void whole_merge(int part, int parts)
{
    (void)part, (void)parts;
    must_accept(stacker_merge(all.burst, noise, tuning, all.samples, all.sample_count, all.vectors, all.vector_count, all.output, all.frame, all.work,
        all.work_count));
}

static void band(int part, int parts)
{
    size_t tile_rows = all.burst.height / SIDE, top = (size_t)part * tile_rows / (size_t)parts * SIDE, rows = (size_t)(part + 1) * tile_rows / (size_t)parts * SIDE - top;
    size_t width = all.burst.width;
    must_accept(stacker_merge_band(all.burst, noise, tuning, top, rows, all.samples, all.sample_count, all.vectors, all.vector_count,
        all.output + top * width, rows * width, all.work, 4 * SIDE * width));
}

/* the memory of a thread's work area for a frame: made, touched and given back */
static void area(int part, int parts)
{
    (void)part, (void)parts;
    volatile char *memory = allocated(all.work_count / 2 * sizeof *all.work);
    for (size_t i = 0; i < all.work_count / 2 * sizeof *all.work; i += 4096)
        memory[i] = 1;
    free((void *)memory);
}

typedef struct {
    double sum, longest, each[BANDS_MOST];
} cost;

static cost measured(void (*made)(int part, int parts), int parts, int rounds)
{
    cost c = { 0, 0, { 0 } };
    for (int i = 0; i < rounds * parts; i++) {
        double start = cpu_time();
        made(i % parts, parts);
        keep_least(&c.each[i % parts], (cpu_time() - start) * 1e-6, i < parts);
    }
    for (int i = 0; i < parts; i++) {
        c.sum += c.each[i];
        c.longest = c.each[i] > c.longest ? c.each[i] : c.longest;
    }
    return c;
}

/* ---- the tables ---- */

/* when the last of `threads` is done, each taking the next frame, the farthest from the first one before others, where it is done with one */
static double queued(const cost *c, int parts, int threads)
{
    double busy[BANDS_MOST] = { 0 }, end = 0;
    for (int part = parts - 1; part >= 0; part--) {
        int first = 0;
        for (int i = 1; i < threads; i++)
            first = busy[i] < busy[first] ? i : first;
        busy[first] += c->each[part];
        end = busy[first] > end ? busy[first] : end;
    }
    return end;
}

static void tell_cost(const char *name, int parts, const cost *c, const cost *whole)
{
    printf("%3d %-10s %10.1f  %12.3f  %12.1f\n", parts, name, c->sum, c->sum / whole->sum, c->longest);
}

/* a work area, the queue's last frame and the longest band, beside one thread */
static void reckon(const cost *memory, const cost *frames, const cost *bands, double whole, int cores)
{
    double align = queued(frames, OTHERS, cores), total = memory->sum + align + bands->longest;
    printf("%3d cores: area %.1f + frames %.1f + band %.1f = %.1f, %.2f of one thread's %.1f\n", cores, memory->sum, align, bands->longest, total, total / whole,
        whole);
}

static void tell_parts(int rounds)
{
    cost align = measured(whole_align, 1, rounds), frames = measured(frame, OTHERS, rounds), merge = measured(whole_merge, 1, rounds);
    cost bands[BANDS_MOST + 1], memory = measured(area, 1, rounds);
    printf("    parts             CPU  of the whole  longest part\n");
    tell_cost("align", 1, &align, &align);
    tell_cost("frames", OTHERS, &frames, &align);
    tell_cost("merge", 1, &merge, &merge);
    for (int parts = 1; parts <= BANDS_MOST; parts *= 2) {
        bands[parts] = measured(band, parts, rounds);
        tell_cost("bands", parts, &bands[parts], &merge);
    }
    printf("run, reckoned from these as if no core waited for memory:\n");
    for (int cores = 2; cores <= BANDS_MOST; cores *= 2)
        reckon(&memory, &frames, &bands[cores], 2 * memory.sum + align.sum + merge.sum, cores);
}

/* run in one thread and in two, taken in turn: by the clock, and the processor's time of all threads */
static void tell_threads(int rounds)
{
    double best[2][2] = { { 0, 0 }, { 0, 0 } };
    for (int round = 0; round < 2 * rounds; round++) {
        double wall = clock_time(), cpu = cpu_time(), *b = best[round % 2];
        must_accept(stacker_threads_run(all.burst, noise, tuning, all.samples, all.sample_count, all.vectors, all.vector_count, all.output, all.frame,
            (size_t)round % 2 + 1).refusal);
        keep_least(&b[0], (clock_time() - wall) * 1e-6, round < 2);
        keep_least(&b[1], (cpu_time() - cpu) * 1e-6, round < 2);
    }
    printf("run, by the clock: one thread %.1f, two threads %.1f, %.2f of it; CPU %.1f and %.1f, %.3f of it\n", best[0][0], best[1][0], best[1][0] / best[0][0],
        best[0][1], best[1][1], best[1][1] / best[0][1]);
}

static void measure(int size, int rounds)
{
    all = lend(&LIGHTING[USUAL], size, FRAMES);
    printf("%d by %d, N = %d, strength %d\n", size, size, FRAMES, (int)tuning.strength);
    whole_align(0, 1);
    tell_parts(rounds);
    tell_threads(rounds);
    release(&all);
}

/* sizes, or 1024 and 4096 */
int main(int argc, char **argv)
{
    setvbuf(stdout, NULL, _IOLBF, 0);
    for (int i = 1; i < argc; i++)
        measure(atoi(argv[i]), 5);
    if (argc == 1) {
        measure(1024, 20);
        measure(4096, 5);
    }
    return 0;
}
