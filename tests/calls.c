/* Answers a stream of calls from standard input as the reference's `align`, `merge`, `run`, `choose`, `range` or `residuals` does, with the library:
   calls align|merge|run|choose|range|residuals [SPARE]. With SPARE, samples of the right length are lent in rows with so many spare words, each 65535, in place of
   the burst's own. It sees itself that the work area ends as promised, zero or after a refusal as it was, and that the stack is enough. At the end it
   writes to standard error how many calls there were, and the most stack that one took. */
#include "call.h"
#include "stack.h"

/* what a call of the range adds after its buffers, whose noise and output are the lower noise and the low frame; and one of the residuals, their length */
enum { UPPER_KIND, UPPER_ISO, UPPER_SHOT, UPPER_READ, HIGH, RANGE_WORDS, RESIDUALS = 0, RESIDUAL_WORDS };

/* what the work area holds before a call */
static const int64_t MARK = -4915937;

static uint64_t more[RANGE_WORDS];
static uint16_t *samples, *output, *high;
static int32_t *vectors;
static uint64_t *found;
static int64_t *work;
static stacker_alignment answer;
static uint64_t chosen;

static void take(uint64_t *words, size_t count)
{
    if (fread(words, 8, count, stdin) != count)
        exit(2);
}

static stacker_noise measured_upper(void)
{
    return (stacker_noise){ .shot = number(more[UPPER_SHOT]), .read = number(more[UPPER_READ]) };
}

static stacker_iso_noise at_iso_upper(void)
{
    return (stacker_iso_noise){ .iso = (uint32_t)more[UPPER_ISO], .shot = number(more[UPPER_SHOT]), .read = number(more[UPPER_READ]) };
}

static void align(void)
{
    answer = stacker_align(burst(), tuning(), samples, head[SAMPLES], vectors, head[VECTORS], work, head[WORK]);
}

static void merge(void)
{
    memset(&answer, 0, sizeof answer);
    if (head[NOISE_KIND] == 0)
        answer.refusal = stacker_merge(burst(), measured(), tuning(), samples, head[SAMPLES], vectors, head[VECTORS], output, head[OUTPUT],
            work, head[WORK]);
    else
        answer.refusal = stacker_merge_iso(burst(), at_iso(), tuning(), samples, head[SAMPLES], vectors, head[VECTORS], output, head[OUTPUT],
            work, head[WORK]);
}

static void range(void)
{
    memset(&answer, 0, sizeof answer);
    if (head[NOISE_KIND] == 0)
        answer.refusal = stacker_range(burst(), measured(), measured_upper(), tuning(), samples, head[SAMPLES], vectors, head[VECTORS],
            output, head[OUTPUT], high, more[HIGH], work, head[WORK]);
    else
        answer.refusal = stacker_range_iso(burst(), at_iso(), at_iso_upper(), tuning(), samples, head[SAMPLES], vectors, head[VECTORS],
            output, head[OUTPUT], high, more[HIGH], work, head[WORK]);
}

static void residuals(void)
{
    memset(&answer, 0, sizeof answer);
    answer.refusal = stacker_residuals(burst(), tuning(), samples, head[SAMPLES], vectors, head[VECTORS], found, more[RESIDUALS], work, head[WORK]);
}

static void run(void)
{
    if (head[NOISE_KIND] == 0)
        answer = stacker_run(burst(), measured(), tuning(), samples, head[SAMPLES], vectors, head[VECTORS], output, head[OUTPUT], work, head[WORK]);
    else
        answer = stacker_run_iso(burst(), at_iso(), tuning(), samples, head[SAMPLES], vectors, head[VECTORS], output, head[OUTPUT], work, head[WORK]);
}

/* Lays the samples in rows with other spare words, where the burst and its samples' length are right. */
static void pad(uint64_t spare)
{
    uint64_t width = head[WIDTH], rows = head[COUNT] * head[HEIGHT], row_length = head[ROW_LENGTH];
    if (width > 4096 || head[HEIGHT] > 4096 || head[COUNT] > 8 || row_length < width || row_length > width + 256 || head[SAMPLES] != rows * row_length)
        return;
    uint16_t *padded = lent(rows * (width + spare), sizeof *padded, 0);
    for (uint64_t row = 0; row < rows; row++) {
        memcpy(padded + row * (width + spare), samples + row * row_length, width * sizeof *padded);
        for (uint64_t i = 0; i < spare; i++)
            padded[row * (width + spare) + width + i] = 65535;
    }
    free(samples);
    samples = padded;
    head[ROW_LENGTH] = width + spare;
    head[SAMPLES] = rows * (width + spare);
}

/* the burst but for its reference */
static stacker_frames frames(void)
{
    stacker_frames frames = { .width = head[WIDTH], .height = head[HEIGHT], .count = head[COUNT], .row_length = head[ROW_LENGTH] };
    memcpy(frames.black, burst().black, sizeof frames.black);
    return frames;
}

static void choose(void)
{
    stacker_choice choice;
    if (head[NOISE_KIND] == 0)
        choice = stacker_run_sharpest(frames(), measured(), tuning(), samples, head[SAMPLES], vectors, head[VECTORS], output, head[OUTPUT],
            work, head[WORK]);
    else
        choice = stacker_run_sharpest_iso(frames(), at_iso(), tuning(), samples, head[SAMPLES], vectors, head[VECTORS], output, head[OUTPUT],
            work, head[WORK]);
    answer = choice.alignment;
    chosen = choice.reference;
}

static void (*called(const char *name))(void)
{
    return strcmp(name, "align") == 0 ? align : strcmp(name, "merge") == 0 ? merge : strcmp(name, "choose") == 0 ? choose
        : strcmp(name, "range") == 0 ? range : strcmp(name, "residuals") == 0 ? residuals : run;
}

static void write_all(const void *data, size_t size)
{
    if (size != 0 && fwrite(data, 1, size, stdout) != size)
        exit(2);
}

static void lend(void (*call)(void))
{
    samples = lent(head[SAMPLES], 2, 1);
    vectors = lent(head[VECTORS], 4, 1);
    output = lent(head[OUTPUT], 2, 1);
    if (call == range) {
        take(more, RANGE_WORDS);
        high = lent(more[HIGH], 2, 1);
    } else if (call == residuals) {
        take(more, RESIDUAL_WORDS);
        found = lent(more[RESIDUALS], 8, 1);
    }
    work = lent(head[WORK], 8, 0);
    for (uint64_t i = 0; i < head[WORK]; i++)
        work[i] = MARK;
}

static void write_answer(void (*call)(void))
{
    write_all(&answer, sizeof answer);
    if (call == choose)
        write_all(&chosen, sizeof chosen);
    write_all(vectors, 4 * head[VECTORS]);
    write_all(output, 2 * head[OUTPUT]);
    if (call == range)
        write_all(high, 2 * more[HIGH]);
    else if (call == residuals)
        write_all(found, 8 * more[RESIDUALS]);
}

static void release(void)
{
    free(samples);
    free(vectors);
    free(output);
    free(high);
    free(found);
    free(work);
}

int main(int argc, char **argv)
{
    if (argc < 2 || argc > 3)
        return 2;
    void (*call)(void) = called(argv[1]);
    unsigned long count = 0;
    size_t deepest = 0;
    for (; fread(head, 8, WORDS, stdin) == WORDS; count++) {
        lend(call);
        if (argc == 3)
            pad(strtoul(argv[2], NULL, 10));
        size_t stack = stack_of(call);
        deepest = stack > deepest ? stack : deepest;
        for (uint64_t i = 0; i < head[WORK]; i++)
            if (work[i] != (answer.refusal == 0 ? 0 : MARK))
                return 1;
        write_answer(call);
        release();
    }
    fprintf(stderr, "%lu calls on at most %zu bytes of stack\n", count, deepest);
    return deepest > STACK_MOST;
}
