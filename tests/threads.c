/* The functions of stacker_threads.h beside the calls of stacker.h, word for word, and the parts that they are made of:

   threads stream         each call of a stream of the reference's, by align, merge and run, in 1, 2, 3 and 8 threads, faults included
   threads parts          bands of every height and place and every other frame by itself, at both sides, and what is no part
   threads faults         each refusal, and any two of their causes at once
   threads short          where memory or threads are short: fewer work, or it is said and nothing has changed
   threads large W H N S T   one burst of this size, count and side in T threads, 0 for one on each processor

   Link with --wrap for malloc and pthread_create, which are refused here where that is asked. */
#include "call.h"
#include "stacker_threads.h"

#include <pthread.h>

enum { CALLS = 3, ALIGN = 0, MERGE = 1, RUN = 2 };
static const char *const NAMES[CALLS] = { "align", "merge", "run" };

/* what is lent to a call, and what it answers */
typedef struct {
    int32_t *vectors;
    uint16_t *output;
    stacker_alignment answer;
} state;

static uint16_t *samples;
static int64_t *work;

/* ---- what is short ---- */

static size_t memory_most = SIZE_MAX; /* bytes of one allocation */
static int threads_most = 1000;       /* that are started in one phase */

void *__real_malloc(size_t size);
void *__wrap_malloc(size_t size);
int __real_pthread_create(pthread_t *thread, const pthread_attr_t *how, void *(*work_of)(void *), void *given);
int __wrap_pthread_create(pthread_t *thread, const pthread_attr_t *how, void *(*work_of)(void *), void *given);

void *__wrap_malloc(size_t size)
{
    return size <= memory_most ? __real_malloc(size) : NULL;
}

int __wrap_pthread_create(pthread_t *thread, const pthread_attr_t *how, void *(*work_of)(void *), void *given)
{
    return threads_most-- > 0 ? __real_pthread_create(thread, how, work_of, given) : 11; /* EAGAIN */
}

/* ---- one call, both ways ---- */

static void call_whole(int call, state *s)
{
    const size_t work_length = head[WORK];
    s->answer = (stacker_alignment){ 0 };
    if (call == ALIGN)
        s->answer = stacker_align(burst(), tuning(), samples, head[SAMPLES], s->vectors, head[VECTORS], work, work_length);
    else if (call == MERGE && head[NOISE_KIND] == 0)
        s->answer.refusal = stacker_merge(burst(), measured(), tuning(), samples, head[SAMPLES], s->vectors, head[VECTORS], s->output, head[OUTPUT], work, work_length);
    else if (call == MERGE)
        s->answer.refusal = stacker_merge_iso(burst(), at_iso(), tuning(), samples, head[SAMPLES], s->vectors, head[VECTORS], s->output, head[OUTPUT], work, work_length);
    else if (head[NOISE_KIND] == 0)
        s->answer = stacker_run(burst(), measured(), tuning(), samples, head[SAMPLES], s->vectors, head[VECTORS], s->output, head[OUTPUT], work, work_length);
    else
        s->answer = stacker_run_iso(burst(), at_iso(), tuning(), samples, head[SAMPLES], s->vectors, head[VECTORS], s->output, head[OUTPUT], work, work_length);
}

static void call_threads(int call, state *s, size_t threads)
{
    s->answer = (stacker_alignment){ 0 };
    if (call == ALIGN)
        s->answer = stacker_threads_align(burst(), tuning(), samples, head[SAMPLES], s->vectors, head[VECTORS], threads);
    else if (call == MERGE && head[NOISE_KIND] == 0)
        s->answer.refusal = stacker_threads_merge(burst(), measured(), tuning(), samples, head[SAMPLES], s->vectors, head[VECTORS], s->output, head[OUTPUT], threads);
    else if (call == MERGE)
        s->answer.refusal = stacker_threads_merge_iso(burst(), at_iso(), tuning(), samples, head[SAMPLES], s->vectors, head[VECTORS], s->output, head[OUTPUT], threads);
    else if (head[NOISE_KIND] == 0)
        s->answer = stacker_threads_run(burst(), measured(), tuning(), samples, head[SAMPLES], s->vectors, head[VECTORS], s->output, head[OUTPUT], threads);
    else
        s->answer = stacker_threads_run_iso(burst(), at_iso(), tuning(), samples, head[SAMPLES], s->vectors, head[VECTORS], s->output, head[OUTPUT], threads);
}

static state copy_of(const state *s)
{
    state copy = { lent(head[VECTORS], sizeof *s->vectors, 0), lent(head[OUTPUT], sizeof *s->output, 0), s->answer };
    if (head[VECTORS] != 0)
        memcpy(copy.vectors, s->vectors, head[VECTORS] * sizeof *s->vectors);
    if (head[OUTPUT] != 0)
        memcpy(copy.output, s->output, head[OUTPUT] * sizeof *s->output);
    return copy;
}

static void give_back(state *s)
{
    free(s->vectors);
    free(s->output);
}

static void same(const state *one, const state *other, const char *what, size_t threads)
{
    if (memcmp(&one->answer, &other->answer, sizeof one->answer) == 0
        && (head[VECTORS] == 0 || memcmp(one->vectors, other->vectors, head[VECTORS] * sizeof *one->vectors) == 0)
        && (head[OUTPUT] == 0 || memcmp(one->output, other->output, head[OUTPUT] * sizeof *one->output) == 0))
        return;
    fprintf(stderr, "tests: threads: %s in %zu threads differs: %d frames of %d by %d, side %d: answers %d and %d\n", what, threads, (int)head[COUNT], (int)head[WIDTH],
        (int)head[HEIGHT], (int)head[SIDE], (int)one->answer.refusal, (int)other->answer.refusal);
    exit(1);
}

/* the call whole, and in so many threads, from the same buffers; the refusal */
static uint64_t compared(int call, const state *before, size_t threads)
{
    state whole = copy_of(before), shared = copy_of(before);
    call_whole(call, &whole);
    call_threads(call, &shared, threads);
    same(&whole, &shared, NAMES[call], threads);
    uint64_t refusal = whole.answer.refusal;
    give_back(&whole);
    give_back(&shared);
    return refusal;
}

/* a work area of the right length, so that 7 is not what is compared: these functions lend their own */
static void lend_work(void)
{
    int small = head[WIDTH] <= 4096 && head[HEIGHT] <= 4096;
    head[WORK] = small ? 2 * head[WIDTH] * head[HEIGHT] : 0;
    work = lent(head[WORK], sizeof *work, 0);
}

/* ---- the modes ---- */

static int stream(void)
{
    static const size_t THREADS[] = { 1, 2, 3, 8 };
    int calls = 0, refused = 0;
    while (fread(head, sizeof *head, WORDS, stdin) == WORDS) {
        state before = { 0 };
        samples = lent(head[SAMPLES], sizeof *samples, 1);
        before.vectors = lent(head[VECTORS], sizeof *before.vectors, 1);
        before.output = lent(head[OUTPUT], sizeof *before.output, 1);
        lend_work();
        for (int i = 0; i < CALLS * 4; i++) {
            uint64_t refusal = compared(i % CALLS, &before, THREADS[i / CALLS]);
            calls++;
            refused += refusal != 0;
        }
        free(samples);
        free(work);
        give_back(&before);
    }
    printf("tests: threads: %d calls word for word in 1, 2, 3 and 8 threads, %d of them refused\n", calls, refused);
    return calls == 0;
}

/* a burst of a few lines of arithmetic that moves from frame to frame, with a few spare words in each row; the calls' head */
static state made(size_t width, size_t height, size_t count, size_t side)
{
    uint64_t random = 1;
    const uint64_t told[WORDS] = { [WIDTH] = width, [HEIGHT] = height, [COUNT] = count, [REFERENCE] = count / 2, [ROW_LENGTH] = width + 3, [STRENGTH] = 600, [SIDE] = side,
        [SAMPLES] = count * (width + 3) * height, [VECTORS] = (count - 1) * 2 * (width / side + 1) * (height / side + 1), [OUTPUT] = width * height };
    memcpy(head, told, sizeof head);
    const double curve[2] = { 3, 100 };
    memcpy(&head[SHOT], curve, sizeof curve);
    lend_work();
    samples = lent(head[SAMPLES], sizeof *samples, 0);
    for (size_t i = 0; i < head[SAMPLES]; i++) {
        size_t frame = i / ((width + 3) * height), y = i / (width + 3) % height + 2 * frame, x = i % (width + 3) + 4 * frame;
        random = random * 6364136223846793005u + 1442695040888963407u;
        samples[i] = (uint16_t)(400 + (y / 8 * 7 + x / 8 * 13) % 11 * 200 + (random >> 58));
    }
    state s = { calloc(head[VECTORS] + 1, sizeof *s.vectors), calloc(head[OUTPUT] + 1, sizeof *s.output), { 0 } };
    if (s.vectors == NULL || s.output == NULL)
        exit(2);
    return s;
}

static void unmade(state *s)
{
    give_back(s);
    free(samples);
    free(work);
}

static void must(int holds, const char *what, uint64_t first, uint64_t count)
{
    if (holds)
        return;
    fprintf(stderr, "tests: threads: %s: %d, %d\n", what, (int)first, (int)count);
    exit(1);
}

/* one band beside its stretch of the whole, or refused by 27 where it is none; what is lent ends zero, or is as it was */
static void try_band(const state *whole, uint64_t top, uint64_t rows)
{
    uint64_t side = head[SIDE], width = head[WIDTH], height = head[HEIGHT];
    int is_band = top % side == 0 && rows % side == 0 && rows >= side && rows <= height && top <= height - rows;
    size_t length = (is_band ? rows : side) * width, work_length = 4 * side * width;
    uint16_t *output = calloc(length, sizeof *output);
    int64_t *area = calloc(work_length, sizeof *area);
    if (output == NULL || area == NULL)
        exit(2);
    area[0] = 1;
    uint64_t refusal = stacker_merge_band(burst(), measured(), tuning(), top, rows, samples, head[SAMPLES], whole->vectors, head[VECTORS], output, length, area, work_length);
    must(refusal == (is_band ? STACKER_ACCEPTED : STACKER_REFUSED_PART) && area[0] == !is_band, "a band's answer", top, rows);
    for (size_t i = 0; i < length; i++)
        must(output[i] == (is_band ? whole->output[top * width + i] : 0), "a band's words", top, rows);
    free(output);
    free(area);
}

static int try_bands(const state *whole)
{
    int bands = 0;
    uint64_t side = head[SIDE], height = head[HEIGHT];
    for (uint64_t at = 0; at < (height / side + 2) * (height / side + 2); at++, bands++)
        try_band(whole, at / (height / side + 2) * side, at % (height / side + 2) * side);
    const uint64_t none[][2] = { { 0, side / 2 }, { side / 2, side }, { 1, side }, { 0, side + 1 }, { 0, 0 }, { UINT64_MAX - side + 1, side }, { side, UINT64_MAX - side + 1 } };
    for (size_t i = 0; i < sizeof none / sizeof *none; i++)
        try_band(whole, none[i][0], none[i][1]);
    return bands;
}

/* each other frame by itself beside align's answer; a place that none has is 27 */
static int try_frames(const state *whole)
{
    size_t length = head[VECTORS] / (head[COUNT] - 1);
    uint64_t rows = 0;
    int32_t *vectors = calloc(length, sizeof *vectors);
    if (vectors == NULL)
        exit(2);
    for (uint64_t other = 0; other + 1 < head[COUNT]; other++) {
        stacker_frame_alignment a = stacker_align_frame(burst(), tuning(), other, samples, head[SAMPLES], vectors, length, work, head[WORK] / 2);
        must(a.refusal == 0 && a.residual == whole->answer.residuals[other], "a frame's answer", other, a.refusal);
        must(memcmp(vectors, whole->vectors + other * length, length * sizeof *vectors) == 0, "a frame's vectors", other, 0);
        rows += a.rows;
    }
    must(rows == whole->answer.rows, "the frames' rows", rows, whole->answer.rows);
    for (uint64_t other = head[COUNT] - 1; other != 1; other = other == UINT64_MAX ? 1 : UINT64_MAX) {
        stacker_frame_alignment a = stacker_align_frame(burst(), tuning(), other, samples, head[SAMPLES], vectors, length, work, head[WORK] / 2);
        must(a.refusal == STACKER_REFUSED_PART && a.residual == 0 && a.rows == 0, "no frame", other, a.refusal);
    }
    free(vectors);
    return (int)head[COUNT] - 1;
}

static int parts(void)
{
    static const uint64_t TRIED[][4] = { { 64, 192, 16, 0 }, { 128, 128, 16, 26 }, { 64, 64, 16, 0 }, { 64, 256, 32, 0 }, { 128, 64, 32, 0 } };
    int bands = 0, frames = 0;
    for (size_t i = 0; i < sizeof TRIED / sizeof *TRIED; i++) {
        state whole = made(TRIED[i][0], TRIED[i][1], 3, TRIED[i][2]);
        head[SPATIAL] = TRIED[i][3];
        call_whole(RUN, &whole);
        must(whole.answer.refusal == 0, "a burst is refused", i, whole.answer.refusal);
        bands += try_bands(&whole);
        frames += try_frames(&whole);
        unmade(&whole);
    }
    printf("tests: threads: bands of every height and place: %d; frames by themselves: %d; what is none is 27\n", bands, frames);
    return 0;
}

/* what is wrong with a burst: a word of the head, or the last sample or vector part */
enum { LAST_SAMPLE = WORDS, LAST_PART };
static const struct {
    int place;
    uint64_t value;
} FAULTS[] = { { WIDTH, 65 }, { HEIGHT, 0 }, { COUNT, 0 }, { COUNT, 9 }, { REFERENCE, 3 }, { SIDE, 17 }, { ROW_LENGTH, 63 }, { SAMPLES, 1 }, { VECTORS, 1 }, { OUTPUT, 1 },
    { SHOT, 0xBFF0000000000000 }, { NOISE_KIND, 1 }, { READ, 0x40C0000000000000 }, { STRENGTH, 1025 }, { BLACK + 2, 256 }, { SPATIAL, 257 }, { SPATIAL, 1 },
    { LAST_SAMPLE, 4096 }, { LAST_PART, 173 } };
enum { FAULTS_COUNT = sizeof FAULTS / sizeof *FAULTS, NUMBERS = 16 }; /* 1 to 6, 8 to 12, 18 and 22 to 25 */

static void spoil(const state *s, int fault, const uint64_t *right)
{
    if (FAULTS[fault].place == LAST_SAMPLE)
        samples[right[SAMPLES] - 4] = (uint16_t)FAULTS[fault].value; /* three spare words are behind it */
    else if (FAULTS[fault].place == LAST_PART)
        s->vectors[right[VECTORS] - 1] = (int32_t)FAULTS[fault].value;
    else
        head[FAULTS[fault].place] = FAULTS[fault].value;
}

/* two faults, or one twice: every call in 1, 2 and 8 threads answers as the whole does, and leaves the same buffers; which numbers, by bits */
static uint64_t try_faults(const state *s, int one, int other)
{
    uint64_t right[WORDS], met = 0;
    memcpy(right, head, sizeof head);
    spoil(s, one, right);
    spoil(s, other, right);
    for (int i = 0; i < 3 * CALLS; i++)
        met |= (uint64_t)1 << compared(i % CALLS, s, i / CALLS == 2 ? 8 : (size_t)i / CALLS + 1);
    memcpy(head, right, sizeof head);
    samples[right[SAMPLES] - 4] = 0;
    s->vectors[right[VECTORS] - 1] = 0;
    return met;
}

static int faults(void)
{
    uint64_t met = 0;
    int numbers = 0;
    for (uint64_t side = 16; side <= 32; side += 16) {
        state before = made(64, 64, 3, side);
        for (int i = 0; i < FAULTS_COUNT * FAULTS_COUNT; i++)
            met |= try_faults(&before, i / FAULTS_COUNT, i % FAULTS_COUNT);
        unmade(&before);
    }
    for (int number = 1; number < 64; number++)
        numbers += (int)(met >> number & 1);
    must(numbers == NUMBERS, "refusals that were met", (uint64_t)numbers, NUMBERS);
    printf("tests: threads: %d pairs of faults by %d numbers: answers and buffers are the calls' own\n", 2 * FAULTS_COUNT * FAULTS_COUNT, numbers);
    return 0;
}

/* memory for so many bytes at once, and so many threads: each call answers as ever, or that there is no memory and nothing has changed */
static void try_short(const state *before, size_t bytes, int threads)
{
    for (int call = 0; call < CALLS; call++) {
        state whole = copy_of(before), shared = copy_of(before);
        call_whole(call, &whole);
        memory_most = bytes;
        threads_most = threads;
        call_threads(call, &shared, 8);
        memory_most = SIZE_MAX;
        size_t least = call == MERGE ? 32 * head[SIDE] * head[WIDTH] : 16 * head[WIDTH] * head[HEIGHT];
        if (bytes < least) {
            give_back(&whole);
            whole = copy_of(before);
            whole.answer.refusal = STACKER_THREADS_NO_MEMORY;
        }
        same(&whole, &shared, NAMES[call], 8);
        give_back(&whole);
        give_back(&shared);
    }
}

static int short_of(void)
{
    state before = made(128, 192, 4, 16);
    size_t area = 16 * head[WIDTH] * head[HEIGHT], band = 32 * head[SIDE] * head[WIDTH];
    const size_t BYTES[] = { 0, band - 1, band, 2 * band, area - 1, area, 2 * area - 1, 2 * area, 3 * area, SIZE_MAX };
    for (size_t i = 0; i < sizeof BYTES / sizeof *BYTES; i++)
        for (int threads = 0; threads < 4; threads++)
            try_short(&before, BYTES[i], threads);
    unmade(&before);
    printf("tests: threads: short of memory or threads, fewer work; where there is no memory for one, nothing has changed\n");
    return 0;
}

static int large(char **told)
{
    state before = made(strtoul(told[0], NULL, 10), strtoul(told[1], NULL, 10), strtoul(told[2], NULL, 10), strtoul(told[3], NULL, 10));
    size_t threads = strtoul(told[4], NULL, 10);
    must(compared(RUN, &before, threads) == 0, "a burst is refused", head[WIDTH], head[HEIGHT]);
    unmade(&before);
    printf("tests: threads: %s frames of %s by %s, side %s, word for word, threads = %s\n", told[2], told[0], told[1], told[3], told[4]);
    return 0;
}

int main(int argc, char **argv)
{
    if (argc == 2 && strcmp(argv[1], "stream") == 0)
        return stream();
    if (argc == 2 && strcmp(argv[1], "parts") == 0)
        return parts();
    if (argc == 2 && strcmp(argv[1], "faults") == 0)
        return faults();
    if (argc == 2 && strcmp(argv[1], "short") == 0)
        return short_of();
    return argc == 7 && strcmp(argv[1], "large") == 0 ? large(argv + 2) : 2;
}
