#include "tables.h"

#include <stdio.h>

const int SIZE[SIZES] = { 512, 1024, 2048 }, COUNT[COUNTS] = { 2, 4, 8 }, STRENGTH[STRENGTHS] = { 64, 600 };

int call_of(int timed)
{
    return timed == 0 ? ALIGN : MERGE;
}

/* The sizes, and below them the counts where there are any. */
static void print_heading(const char *title, int sizes, int counts)
{
    printf("\n%-40s", title);
    for (int size = 0; size < sizes; size++)
        printf("%*d", size > 0 && counts > 0 ? 8 * counts : 8, SIZE[size]);
    printf("\n");
    if (counts == 0)
        return;
    printf("%-40s", "");
    for (int i = 0; i < sizes * counts; i++)
        printf("   N = %d", COUNT[i % counts]);
    printf("\n");
}

static void print_name(int call, int i)
{
    printf("  %-30s %-7s", LINES[call][i].peer->name, LINES[call][i].build);
}

static void print_times(const measurements *m, int timed, const char *title)
{
    print_heading(title, m->sizes, m->counts);
    for (int i = 0; i < LENGTH[call_of(timed)]; i++) {
        print_name(call_of(timed), i);
        for (int j = 0; j < m->sizes * m->counts; j++)
            printf("%8.2f", m->ns[timed][i][j / m->counts][j % m->counts]);
        printf("\n");
    }
}

static void print_ratios(const measurements *m, int timed, const char *title)
{
    print_heading(title, m->sizes, m->counts);
    for (int i = 1; i < LENGTH[call_of(timed)]; i++) {
        print_name(call_of(timed), i);
        for (int j = 0; j < m->sizes * m->counts; j++)
            printf("%8.2f", m->ns[timed][0][j / m->counts][j % m->counts] / m->ns[timed][i][j / m->counts][j % m->counts]);
        printf("\n");
    }
}

static void print_memory(const measurements *m, int call, const char *title)
{
    print_heading(title, m->sizes, 0);
    for (int i = 0; i < LENGTH[call]; i++) {
        print_name(call, i);
        for (int size = 0; size < m->sizes; size++)
            printf("%8.1f", m->megabytes[call][i][size]);
        printf("\n");
    }
}

void print_tables(const measurements *m)
{
    print_times(m, 0, "align, ns per pixel and other frame");
    print_ratios(m, 0, "align, library's time over the peer's");
    for (int k = 0; k < STRENGTHS; k++) {
        char title[64];
        snprintf(title, sizeof title, "merge, strength %d, ns likewise", STRENGTH[k]);
        print_times(m, 1 + k, title);
        snprintf(title, sizeof title, "merge, strength %d, library's over", STRENGTH[k]);
        print_ratios(m, 1 + k, title);
    }
    print_memory(m, ALIGN, "align, peak MB beside samples, N = 2");
    print_memory(m, MERGE, "merge, peak MB beside its input, N = 2");
}
