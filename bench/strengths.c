#include "strengths.h"

#include "scene.h"
#include "tables.h"
#include "timer.h"

#include <stdio.h>

/* Lines as gcc -O3 builds them: expert C's align with early exits; expert C's merge with divisions in double, and FFTW's with an inverse for each frame. */
enum { EXACT_ALIGN = 1 + 2 * 2, EXACT = 1 + 2 * 3, FFTW_EACH = 1 + 2 * 5 };

enum { TRIED = 4, TURNS = 7, SIZES_HERE = 2 };

/* The weakest that is of use, the original's tau of 8, the published 75, and the greatest. */
static const int TRIED_STRENGTH[TRIED] = { 8, 64, 600, 1024 };

/* Medians of both, in turn, in ns. */
typedef struct {
    double library, fftw;
} merge_times;

static merge_times measure(subject *s, distance *d)
{
    double library[TURNS], fftw[TURNS];
    run_line(s, MERGE, 0, d);
    run_line(s, MERGE, EXACT, d); /* words, not time */
    for (int turn = 0; turn < TURNS; turn++) {
        library[turn] = run_line(s, MERGE, 0, d);
        fftw[turn] = run_line(s, MERGE, FFTW_EACH, d);
    }
    double words = (double)pixels(&s->burst) * (s->burst.count - 1);
    return (merge_times){ median(library, TURNS) / words, median(fftw, TURNS) / words };
}

/* One light, size and count: a line of times and ratios over the strengths. */
static void print_line(const lighting *l, int size, int count, distance *d)
{
    subject s = make_subject(size, size, count, 0);
    fill_lit_scene(l, s.samples, size, size, count);
    run_line(&s, ALIGN, 0, d);
    run_line(&s, ALIGN, EXACT_ALIGN, d); /* the vectors that the others merge with */
    printf("  %-8s%5d  N = %d", l->name, size, count);
    for (int i = 0; i < TRIED; i++) {
        s.noise = (noise_levels){ (int64_t)(l->shot * 1024), (int64_t)(l->read * 1024), TRIED_STRENGTH[i] };
        merge_times t = measure(&s, d);
        printf("   %6.2f %5.2f", t.library, t.library / t.fftw);
    }
    printf("\n");
    fflush(stdout);
    free_subject(&s);
}

void print_strengths(int sizes, int counts)
{
    distance d = { 0 };
    printf("\nmerge by light and strength: ns per pixel and other frame, and over FFTW with an inverse for each frame (%s %s)\n%-24s",
        LINES[MERGE][FFTW_EACH].peer->name, LINES[MERGE][FFTW_EACH].build, "");
    for (int i = 0; i < TRIED; i++)
        printf("%15d", TRIED_STRENGTH[i]);
    printf("\n");
    for (int light = 0; light < LIGHTINGS; light++)
        for (int size = 0; size < sizes && size < SIZES_HERE; size++)
            for (int count = 0; count < counts; count++)
                print_line(&LIGHTING[light], SIZE[size], COUNT[count], &d);
}
