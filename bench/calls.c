/* This library's align and merge beside C of the same recipe and beside a merge in single precision: CPU time, peak memory, and in every run
   whether vectors, residual sums and outputs are the same word for word.
   calls [greatest size [greatest N]] */
#include "memory.h"
#include "scene.h"
#include "strengths.h"
#include "subject.h"
#include "tables.h"
#include "timer.h"

#include <malloc.h>
#include <stdio.h>
#include <string.h>

enum { MOST_REPEATS = 9 };

static const int REPEATS[SIZES] = { 9, 5, 3 };

/* The usual light's own curve, and tau = 1; timed at each of STRENGTH. */
static const noise_levels SCENE_NOISE = { 1536, 20480, 8 };

/* ---- small bursts ---- */

/* One small size under every kind of burst and several noises; how many merges. Where the shot part is 0, V is the product of the others: 2^26,
   1 and 25538 make halves out of patches, sparse steps and spikes, the last two stand on either side of what 32 bits hold of spikes. */
static int compare_small(int width, int height, int count, int reference, distance *d)
{
    static void (*const fill[])(uint16_t *, int, int, int) = { fill_scene, fill_patches, fill_sparse, fill_spikes, fill_random,
        fill_black_white };
    static const noise_levels noises[] = { { 1536, 20480, 8 }, { 1024, 0, 0 }, { 65536, 4194304, 1024 }, { 7, 1, 3 }, { 0, 4194304, 16 },
        { 0, 1, 1 }, { 0, 25538, 1 }, { 0, 4187484, 64 }, { 0, 4194304, 256 } };
    enum { KINDS = sizeof fill / sizeof *fill, NOISES = sizeof noises / sizeof *noises };
    subject s = make_subject(width, height, count, reference);
    void *scratch = tally_merge.make(&s.burst);
    for (int i = 0; i < KINDS * NOISES; i++) {
        if (i % NOISES == 0) {
            fill[i / NOISES](s.samples, width, height, count);
            run_lines(&s, ALIGN, NULL, NULL);
        }
        s.noise = noises[i % NOISES];
        run_lines(&s, MERGE, NULL, d);
        tally_merge.call(scratch, &s.burst, &s.noise, &s.found);
    }
    tally_merge.discard(scratch);
    free_subject(&s);
    return KINDS * NOISES;
}

static void print_distance(const distance *d, const char *where)
{
    printf("Single precision differs from the library %s by at most %d, in %.3f %% of words.\n", where, d->greatest,
        100.0 * (double)d->differing / (double)d->words);
}

static void compare_all_small(void)
{
    static const char *const names[HALVES] = { "Q", "G", "P", "output" };
    distance d = { 0 };
    int merges = compare_small(64, 64, 2, 1, &d) + compare_small(128, 64, 3, 0, &d) + compare_small(192, 128, 2, 0, &d)
        + compare_small(128, 192, 4, 2, &d) + compare_small(64, 64, 8, 7, &d);
    printf("C and library have the same vectors, residual sums and outputs in %d merges of small bursts.\n", merges);
    printf("Exact halves rounded in them, above and below 0:");
    for (int i = 0; i < HALVES; i++) {
        printf("  %s %llu %llu", names[i], (unsigned long long)half_tally[i][0], (unsigned long long)half_tally[i][1]);
        if (half_tally[i][0] == 0 || half_tally[i][1] == 0) {
            printf("\ncalls: no half of one sign among the small bursts\n");
            exit(1);
        }
    }
    printf("\n");
    print_distance(&d, "there");
    fflush(stdout);
}

/* ---- large scenes ---- */

/* All variants in turn, again and again. */
static void measure_time(measurements *m, int size, int count, distance *d)
{
    static double times[TIMED][MOST_REPEATS][MOST_LINES];
    subject s = make_subject(SIZE[size], SIZE[size], COUNT[count], 0);
    s.noise = SCENE_NOISE;
    fill_scene(s.samples, SIZE[size], SIZE[size], COUNT[count]);
    for (int repeat = 0; repeat < REPEATS[size]; repeat++)
        for (int timed = 0; timed < TIMED; timed++) {
            s.noise.strength = timed == 0 ? SCENE_NOISE.strength : STRENGTH[timed - 1];
            run_lines(&s, call_of(timed), times[timed][repeat], d);
        }
    for (int timed = 0; timed < TIMED; timed++)
        for (int i = 0; i < LENGTH[call_of(timed)]; i++) {
            double of_line[MOST_REPEATS];
            for (int repeat = 0; repeat < REPEATS[size]; repeat++)
                of_line[repeat] = times[timed][repeat][i];
            m->ns[timed][i][size][count] = median(of_line, REPEATS[size]) / ((double)pixels(&s.burst) * (COUNT[count] - 1));
        }
    free_subject(&s);
}

/* Of two frames, and vectors at rest. */
static void measure_memory(measurements *m, int size)
{
    uint16_t *samples = allocated(2 * (size_t)SIZE[size] * SIZE[size] * sizeof *samples);
    burst b = { SIZE[size], SIZE[size], 2, 0, samples };
    vector *vectors = allocated(vectors_size(&b));
    fill_scene(samples, SIZE[size], SIZE[size], 2);
    memset(vectors, 0, vectors_size(&b));
    for (int call = 0; call < CALLS; call++)
        for (int i = 0; i < LENGTH[call]; i++)
            m->megabytes[call][i][size] = peak_megabytes(LINES[call][i].peer, &b, &SCENE_NOISE, call == MERGE ? vectors : NULL);
    free(samples);
    free(vectors);
}

/* How many of the rising values are at most this. */
static int at_most(const int *values, int length, int most)
{
    int n = 0;
    while (n < length && values[n] <= most)
        n++;
    return n;
}

int main(int arguments, char **argument)
{
    static measurements m;
    m.sizes = at_most(SIZE, SIZES, arguments > 1 ? atoi(argument[1]) : 2048);
    m.counts = at_most(COUNT, COUNTS, arguments > 2 ? atoi(argument[2]) : 8);
    if (m.sizes == 0 || m.counts == 0) {
        printf("calls [greatest size, from 512 [greatest N, from 2]]\n");
        return 2;
    }
    mallopt(M_MMAP_THRESHOLD, 1 << 14); /* freed buffers go back, so that a later peak is that of one call */
    fill_lines();
    for (int size = 0; size < m.sizes; size++) /* before any call here, so that a call's stack counts */
        measure_memory(&m, size);
    compare_all_small();
    distance d = { 0 };
    for (int size = 0; size < m.sizes; size++)
        for (int count = 0; count < m.counts; count++)
            measure_time(&m, size, count, &d);
    print_distance(&d, "in the timed scenes");
    printf("CPU time is the median of %d, %d and %d runs at %d, %d and %d, all variants in turn.\n", REPEATS[0], REPEATS[1], REPEATS[2], SIZE[0],
        SIZE[1], SIZE[2]);
    printf("-O3 is gcc -O3, native is gcc -O3 -march=native.\n");
    print_tables(&m);
    print_strengths(m.sizes, m.counts);
    return 0;
}
