/* What was measured, and its tables. */
#ifndef TABLES_H
#define TABLES_H

#include "subject.h"

enum { SIZES = 3, COUNTS = 3 };

/* What is timed: align, and merge at each strength. */
enum { STRENGTHS = 2, TIMED = 1 + STRENGTHS };

extern const int SIZE[SIZES], COUNT[COUNTS], STRENGTH[STRENGTHS];

/* ns per pixel and other frame, and peak MB of two frames; only the first so many sizes and counts hold. */
typedef struct {
    int sizes, counts;
    double ns[TIMED][MOST_LINES][SIZES][COUNTS], megabytes[CALLS][MOST_LINES][SIZES];
} measurements;

/* The call of which this is a time. */
int call_of(int timed);

void print_tables(const measurements *m);

#endif
