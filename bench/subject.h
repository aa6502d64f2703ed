/* One burst, run through every variant of a call: each line of a table. */
#ifndef SUBJECT_H
#define SUBJECT_H

#include "peers/peers.h"

enum { ALIGN, MERGE, CALLS, MOST_LINES = 1 + 2 * MERGE_PEERS };

/* The library first, then each peer in both builds. */
typedef struct {
    const peer *peer;
    const char *build;
} line;

extern line LINES[CALLS][MOST_LINES];
extern const int LENGTH[CALLS];

void fill_lines(void);

typedef struct {
    burst burst;
    noise_levels noise;
    uint16_t *samples;
    result library, found;
    void *scratch[CALLS][MOST_LINES];
} subject;

subject make_subject(int width, int height, int count, int reference);
void free_subject(subject *s);

size_t pixels(const burst *b);
size_t vectors_size(const burst *b);

/* How far the merges in single precision are from the library. */
typedef struct {
    uint64_t words, differing;
    int greatest;
} distance;

/* One line once; its CPU time in ns. Ends the program where it is exact and differs in a word from the library, which has to be run before it. */
double run_line(subject *s, int call, int i, distance *d);

/* Each line once, their times unless `times` is NULL. */
void run_lines(subject *s, int call, double *times, distance *d);

#endif
