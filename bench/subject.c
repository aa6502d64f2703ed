#include "subject.h"

#include "timer.h"

#include <stdio.h>
#include <string.h>

line LINES[CALLS][MOST_LINES] = { { { &library_align, "" } }, { { &library_merge, "" } } };
const int LENGTH[CALLS] = { 1 + 2 * ALIGN_PEERS, 1 + 2 * MERGE_PEERS };

void fill_lines(void)
{
    for (int i = 0; i < ALIGN_PEERS; i++) {
        LINES[ALIGN][1 + 2 * i] = (line){ plain_peers.align[i], "-O3" };
        LINES[ALIGN][2 + 2 * i] = (line){ native_peers.align[i], "native" };
    }
    for (int i = 0; i < MERGE_PEERS; i++) {
        LINES[MERGE][1 + 2 * i] = (line){ plain_peers.merge[i], "-O3" };
        LINES[MERGE][2 + 2 * i] = (line){ native_peers.merge[i], "native" };
    }
}

size_t pixels(const burst *b)
{
    return (size_t)b->width * b->height;
}

size_t vectors_size(const burst *b)
{
    return (size_t)(b->count - 1) * tile_columns(b) * tile_rows(b) * sizeof(vector);
}

static result make_result(const burst *b)
{
    return (result){ .vectors = allocated(vectors_size(b)), .output = allocated(pixels(b) * sizeof(uint16_t)) };
}

subject make_subject(int width, int height, int count, int reference)
{
    uint16_t *samples = allocated((size_t)count * width * height * sizeof *samples);
    subject s = { .burst = { width, height, count, reference, samples }, .noise = { 0, 0, 0 }, .samples = samples };
    s.library = make_result(&s.burst);
    s.found = make_result(&s.burst);
    for (int call = 0; call < CALLS; call++)
        for (int i = 0; i < LENGTH[call]; i++)
            s.scratch[call][i] = LINES[call][i].peer->make(&s.burst);
    return s;
}

void free_subject(subject *s)
{
    free(s->samples);
    free(s->library.vectors);
    free(s->library.output);
    free(s->found.vectors);
    free(s->found.output);
    for (int call = 0; call < CALLS; call++)
        for (int i = 0; i < LENGTH[call]; i++)
            LINES[call][i].peer->discard(s->scratch[call][i]);
}

static void must_hold(int holds, const char *what, const line *l, const burst *b)
{
    if (holds)
        return;
    printf("calls: %s differ: %s %s, %d by %d, %d frames\n", what, l->peer->name, l->build, b->width, b->height, b->count);
    exit(1);
}

static void add_distance(distance *d, const uint16_t *a, const uint16_t *b, size_t words)
{
    d->words += words;
    for (size_t i = 0; i < words; i++) {
        int apart = abs(a[i] - b[i]);
        d->differing += apart != 0;
        d->greatest = apart > d->greatest ? apart : d->greatest;
    }
}

static void compare(const subject *s, int call, const line *l, distance *d)
{
    const burst *b = &s->burst;
    if (call == ALIGN) {
        must_hold(memcmp(s->library.residuals, s->found.residuals, sizeof s->found.residuals) == 0, "residual sums", l, b);
        must_hold(memcmp(s->library.vectors, s->found.vectors, vectors_size(b)) == 0, "vectors", l, b);
    } else if (l->peer->exact) {
        must_hold(memcmp(s->library.output, s->found.output, pixels(b) * sizeof *s->found.output) == 0, "outputs", l, b);
    } else {
        add_distance(d, s->library.output, s->found.output, pixels(b));
    }
}

/* What a call has to fill. */
static void spoil(result *r, int call, const burst *b)
{
    if (call == MERGE) {
        memset(r->output, 0xff, pixels(b) * sizeof *r->output);
        return;
    }
    memset(r->vectors, 0x7f, vectors_size(b));
    memset(r->residuals, 0x7f, sizeof r->residuals);
}

double run_line(subject *s, int call, int i, distance *d)
{
    result *r = i == 0 ? &s->library : &s->found;
    spoil(r, call, &s->burst);
    double start = cpu_time();
    LINES[call][i].peer->call(s->scratch[call][i], &s->burst, &s->noise, r);
    double time = cpu_time() - start;
    if (i > 0)
        compare(s, call, &LINES[call][i], d);
    return time;
}

void run_lines(subject *s, int call, double *times, distance *d)
{
    for (int i = 0; i < LENGTH[call]; i++) {
        double time = run_line(s, call, i, d);
        if (times)
            times[i] = time;
    }
}
