/* The one timer of all benchmarks, in ns, and what is kept of some rounds. */
#ifndef TIMER_H
#define TIMER_H

#include <stdlib.h>
#include <time.h>

static inline double nanoseconds(clockid_t clock)
{
    struct timespec now;
    clock_gettime(clock, &now);
    return 1e9 * (double)now.tv_sec + (double)now.tv_nsec;
}

/* CPU time, which other programs on the machine disturb less than the clock. */
static inline double cpu_time(void)
{
    return nanoseconds(CLOCK_PROCESS_CPUTIME_ID);
}

static inline double clock_time(void)
{
    return nanoseconds(CLOCK_MONOTONIC);
}

/* The least so far; in the first round what was taken. */
static inline void keep_least(double *least, double taken, int first)
{
    if (first || taken < *least)
        *least = taken;
}

static inline int rising(const void *a, const void *b)
{
    double x = *(const double *)a, y = *(const double *)b;
    return (x > y) - (x < y);
}

/* Sorts them. */
static inline double median(double *values, int length)
{
    qsort(values, (size_t)length, sizeof *values, rising);
    return values[length / 2];
}

#endif
