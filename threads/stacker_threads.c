/* The calls of stacker.h in threads: stacker_threads.h has what is promised.

   A refusal leaves every buffer as it was because of three things. All parts of a phase make the same tests of the same words before they store, so that all are
   refused or none. What they do not test, or a later phase would refuse, is settled before the first thread is started, by proved calls that are refused in
   any case and so store nothing. The memory of all phases is there before the first. */
#define _GNU_SOURCE
#include "stacker_threads.h"

#include <pthread.h>
#include <sched.h>
#include <signal.h>
#include <stdatomic.h>
#include <stdlib.h>
#include <unistd.h>

enum { OTHERS_MOST = 7, THREADS_MOST = 256 }; /* 256 rows of tiles are the most that a frame has */

/* What the caller has told. */
typedef struct {
    stacker_burst burst;
    stacker_tuning tuning;
    const stacker_noise *noise; /* one of these two; the other is NULL */
    const stacker_iso_noise *iso;
    const uint16_t *samples;
    size_t samples_length;
    const int32_t *vectors; /* that merge reads */
    int32_t *found;         /* that align writes */
    size_t vectors_length;
    uint16_t *output;
    size_t output_length;
} told;

/* One phase: parts that any thread may take, in any order. */
typedef struct phase phase;
struct phase {
    const told *told;
    uint64_t (*make)(phase *p, size_t part, int64_t *work); /* one proved call; answers its refusal */
    size_t parts, work_length;
    size_t order[OTHERS_MOST];  /* of the frames in align */
    stacker_alignment answer;   /* of align, but for the rows, */
    uint64_t rows[OTHERS_MOST]; /* which are added up at the end */
    atomic_size_t next;         /* the queue: the first part that nobody has taken */
    _Atomic uint64_t refusal;   /* of any part: all are refused alike */
};

typedef struct {
    phase *phase;
    int64_t *work; /* of this thread alone */
} worker;

static size_t least(size_t one, size_t other)
{
    return one < other ? one : other;
}

/* ---- the threads ---- */

static void *take_parts(void *given)
{
    const worker *w = given;
    phase *p = w->phase;
    for (size_t part; (part = atomic_fetch_add(&p->next, 1)) < p->parts;) {
        uint64_t refusal = p->make(p, part, w->work);
        if (refusal != STACKER_ACCEPTED)
            atomic_store(&p->refusal, refusal);
    }
    return NULL;
}

/* starts a thread for each worker but the last; how many there are */
static size_t start(pthread_t *threads, worker *workers, size_t count)
{
    size_t started = 0;
    sigset_t all, own;
    sigfillset(&all);
    pthread_sigmask(SIG_SETMASK, &all, &own);
    while (started + 1 < count && pthread_create(&threads[started], NULL, take_parts, &workers[started]) == 0)
        started++;
    pthread_sigmask(SIG_SETMASK, &own, NULL);
    return started;
}

static void await(const pthread_t *threads, size_t started)
{
    while (started > 0)
        pthread_join(threads[--started], NULL);
}

/* makes all parts of a phase, the caller's thread at work too; what a thread that cannot be started would do, the others do */
static uint64_t make_parts(phase *p, size_t count, int64_t *memory)
{
    pthread_t threads[THREADS_MOST];
    worker workers[THREADS_MOST];
    count = least(count, p->parts);
    for (size_t i = 0; i < count; i++)
        workers[i] = (worker){ p, memory + i * p->work_length };
    size_t started = start(threads, workers, count);
    take_parts(&workers[count - 1]);
    await(threads, started);
    return p->refusal;
}

static size_t processors(void)
{
    cpu_set_t set;
    if (sched_getaffinity(0, sizeof set, &set) == 0)
        return (size_t)CPU_COUNT(&set);
    long online = sysconf(_SC_NPROCESSORS_ONLN);
    return online > 0 ? (size_t)online : 1;
}

/* ---- align, frame by frame ---- */

/* where nothing is to be shared out: a lone frame, which has no other; one other; or one thread, which then tests the samples once */
static int aligns_whole(const told *t, size_t threads)
{
    return threads == 1 || t->burst.count <= 2;
}

/* words of one work area: of the burst's alignment, or of a frame's, which is half of it */
static size_t align_work(const told *t, int whole)
{
    return (whole ? 2 : 1) * t->burst.width * t->burst.height;
}

/* The farthest from the reference first: they have moved most, as a rule, and take longest, and a queue should end in what is short. */
static void set_order(phase *p, const stacker_burst *burst)
{
    size_t low = 0, high = burst->count - 1; /* the others from low to below high are left */
    for (size_t part = 0; part < p->parts; part++)
        p->order[part] = burst->reference - low > high - burst->reference ? low++ : --high;
}

static uint64_t align_frame(phase *p, size_t part, int64_t *work)
{
    const told *t = p->told;
    size_t other = p->order[part], length = t->vectors_length / (t->burst.count - 1);
    stacker_frame_alignment answer = stacker_align_frame(t->burst, t->tuning, other, t->samples, t->samples_length, t->found + other * length, length,
        work, p->work_length);
    p->answer.residuals[other] = answer.residual;
    p->rows[other] = answer.rows;
    return answer.refusal;
}

static uint64_t align_whole(phase *p, size_t part, int64_t *work)
{
    const told *t = p->told;
    (void)part;
    p->answer = stacker_align(t->burst, t->tuning, t->samples, t->samples_length, t->found, t->vectors_length, work, p->work_length);
    return p->answer.refusal;
}

static stacker_alignment align(const told *t, size_t threads, int64_t *memory)
{
    int whole = aligns_whole(t, threads);
    phase p = { .told = t, .make = whole ? align_whole : align_frame, .parts = whole ? 1 : t->burst.count - 1, .work_length = align_work(t, whole) };
    if (!whole)
        set_order(&p, &t->burst);
    uint64_t refusal = make_parts(&p, threads, memory);
    if (refusal != STACKER_ACCEPTED)
        return (stacker_alignment){ .refusal = refusal };
    for (size_t other = 0; other < OTHERS_MOST; other++)
        p.answer.rows += p.rows[other];
    return p.answer;
}

/* ---- merge, by bands ---- */

static size_t band_work(const told *t)
{
    return stacker_band_work(t->burst, t->tuning);
}

/* rows of tiles that a band may begin at */
static size_t tile_rows(const told *t)
{
    return t->burst.height / t->tuning.side;
}

/* Bands of equal height as far as they go. Each tests all samples and makes a row of tiles that its neighbour makes too, so there are no more than threads. */
static uint64_t merge_band(phase *p, size_t part, int64_t *work)
{
    const told *t = p->told;
    size_t side = t->tuning.side, top = part * tile_rows(t) / p->parts * side, rows = (part + 1) * tile_rows(t) / p->parts * side - top;
    uint16_t *output = t->output + top * t->burst.width;
    size_t length = rows * t->burst.width;
    return t->iso != NULL
        ? stacker_merge_band_iso(t->burst, *t->iso, t->tuning, top, rows, t->samples, t->samples_length, t->vectors, t->vectors_length, output,
            length, work, p->work_length)
        : stacker_merge_band(t->burst, *t->noise, t->tuning, top, rows, t->samples, t->samples_length, t->vectors, t->vectors_length, output, length,
            work, p->work_length);
}

static uint64_t merge(const told *t, size_t threads, int64_t *memory)
{
    phase p = { .told = t, .make = merge_band, .parts = least(threads, tile_rows(t)), .work_length = band_work(t) };
    return make_parts(&p, threads, memory);
}

/* ---- before the first thread ---- */

static uint64_t merge_refusal(const told *t, int64_t *work, size_t work_length)
{
    return t->iso != NULL
        ? stacker_merge_iso(t->burst, *t->iso, t->tuning, t->samples, t->samples_length, t->vectors, t->vectors_length, t->output, t->output_length,
            work, work_length)
        : stacker_merge(t->burst, *t->noise, t->tuning, t->samples, t->samples_length, t->vectors, t->vectors_length, t->output, t->output_length, work,
            work_length);
}

/* Refusals 1 to 6, 22 and 23, or 0: without a work area the call is refused by 7 where these have passed. */
static uint64_t shape_refusal(const told *t)
{
    uint64_t refusal = merge_refusal(t, NULL, 0);
    return refusal == STACKER_REFUSED_WORK_LENGTH ? STACKER_ACCEPTED : refusal;
}

/* Refusals 8 to 10, 18, 24 and 25, or 0, which ask neither for the size nor for the samples: a lone frame that is too bright is refused by 11 where these
   have passed, so that nothing is stored to what is lent here. */
static uint64_t level_refusal(const told *t)
{
    enum { SIDE = 64, AREA = SIDE * SIDE };
    static const uint16_t bright[AREA] = { UINT16_MAX };
    static uint16_t output[AREA];
    static int64_t work[2 * AREA];
    told lone = { .burst = STACKER_BURST(SIDE, SIDE, 1, 0), .tuning = t->tuning, .noise = t->noise, .iso = t->iso, .samples = bright,
        .samples_length = AREA, .output = output, .output_length = AREA };
    for (int plane = 0; plane < 4; plane++)
        lone.burst.black[plane] = t->burst.black[plane];
    uint64_t refusal = merge_refusal(&lone, work, 2 * AREA);
    return refusal == STACKER_REFUSED_SAMPLE_VALUE ? STACKER_ACCEPTED : refusal;
}

/* words of all work areas: those of bands lie where those of frames were */
static size_t work_words(const told *t, size_t threads, int aligning, int merging)
{
    int whole = aligns_whole(t, threads);
    size_t frames = aligning ? (whole ? 1 : least(threads, t->burst.count - 1)) * align_work(t, whole) : 0;
    size_t bands = merging ? least(threads, tile_rows(t)) * band_work(t) : 0;
    return frames > bands ? frames : bands;
}

/* memory for as many threads as asked for, or as there is memory for; NULL where there is none for one */
static int64_t *reserve(const told *t, size_t *threads, int aligning, int merging)
{
    int64_t *memory = NULL;
    *threads = least(*threads == 0 ? processors() : *threads, THREADS_MOST);
    while (*threads > 0 && (memory = malloc(work_words(t, *threads, aligning, merging) * sizeof *memory)) == NULL)
        --*threads;
    return memory;
}

/* ---- the functions ---- */

stacker_alignment stacker_threads_align(stacker_burst burst, stacker_tuning tuning, const uint16_t *samples, size_t samples_length, int32_t *vectors,
    size_t vectors_length, size_t threads)
{
    told t = { .burst = burst, .tuning = tuning, .samples = samples, .samples_length = samples_length, .found = vectors, .vectors_length = vectors_length };
    stacker_alignment answer = stacker_align(burst, tuning, samples, samples_length, vectors, vectors_length, NULL, 0);
    if (answer.refusal != STACKER_REFUSED_WORK_LENGTH)
        return answer;
    int64_t *memory = reserve(&t, &threads, 1, 0);
    if (memory == NULL)
        return (stacker_alignment){ .refusal = STACKER_THREADS_NO_MEMORY };
    answer = align(&t, threads, memory);
    free(memory);
    return answer;
}

static uint64_t merge_told(const told *t, size_t threads)
{
    uint64_t refusal = shape_refusal(t);
    if (refusal != STACKER_ACCEPTED)
        return refusal;
    int64_t *memory = reserve(t, &threads, 0, 1);
    if (memory == NULL)
        return STACKER_THREADS_NO_MEMORY;
    refusal = merge(t, threads, memory);
    free(memory);
    return refusal;
}

uint64_t stacker_threads_merge(stacker_burst burst, stacker_noise noise, stacker_tuning tuning, const uint16_t *samples, size_t samples_length,
    const int32_t *vectors, size_t vectors_length, uint16_t *output, size_t output_length, size_t threads)
{
    told t = { .burst = burst, .tuning = tuning, .noise = &noise, .samples = samples, .samples_length = samples_length, .vectors = vectors,
        .vectors_length = vectors_length, .output = output, .output_length = output_length };
    return merge_told(&t, threads);
}

uint64_t stacker_threads_merge_iso(stacker_burst burst, stacker_iso_noise noise, stacker_tuning tuning, const uint16_t *samples, size_t samples_length,
    const int32_t *vectors, size_t vectors_length, uint16_t *output, size_t output_length, size_t threads)
{
    told t = { .burst = burst, .tuning = tuning, .iso = &noise, .samples = samples, .samples_length = samples_length, .vectors = vectors,
        .vectors_length = vectors_length, .output = output, .output_length = output_length };
    return merge_told(&t, threads);
}

/* A lone frame has no vectors to be found, and merge tests its samples. */
static stacker_alignment run_told(const told *t, size_t threads)
{
    stacker_alignment answer = { .refusal = shape_refusal(t) };
    if (answer.refusal == STACKER_ACCEPTED)
        answer.refusal = level_refusal(t);
    if (answer.refusal != STACKER_ACCEPTED)
        return answer;
    int aligning = t->burst.count > 1;
    int64_t *memory = reserve(t, &threads, aligning, 1);
    if (memory == NULL)
        return (stacker_alignment){ .refusal = STACKER_THREADS_NO_MEMORY };
    if (aligning)
        answer = align(t, threads, memory);
    if (answer.refusal == STACKER_ACCEPTED)
        answer.refusal = merge(t, threads, memory);
    free(memory);
    return answer;
}

stacker_alignment stacker_threads_run(stacker_burst burst, stacker_noise noise, stacker_tuning tuning, const uint16_t *samples, size_t samples_length,
    int32_t *vectors, size_t vectors_length, uint16_t *output, size_t output_length, size_t threads)
{
    told t = { .burst = burst, .tuning = tuning, .noise = &noise, .samples = samples, .samples_length = samples_length, .vectors = vectors,
        .found = vectors, .vectors_length = vectors_length, .output = output, .output_length = output_length };
    return run_told(&t, threads);
}

stacker_alignment stacker_threads_run_iso(stacker_burst burst, stacker_iso_noise noise, stacker_tuning tuning, const uint16_t *samples,
    size_t samples_length, int32_t *vectors, size_t vectors_length, uint16_t *output, size_t output_length, size_t threads)
{
    told t = { .burst = burst, .tuning = tuning, .iso = &noise, .samples = samples, .samples_length = samples_length, .vectors = vectors,
        .found = vectors, .vectors_length = vectors_length, .output = output, .output_length = output_length };
    return run_told(&t, threads);
}
