/* Lengths that are told wrongly: pages BURST DNG. Every buffer of every call ends at a page that can be neither read nor written, and is told one element too
   long, twice as long, and as long as can be told, alone and with all others, at both sides. A call must refuse it by its number, and leave every buffer as it
   was, before it touches a word that is not there. A DNG file may go on after its last part, and of a burst file the size question reads two lines, so there only
   the end of the call is asked. With the right lengths each call must end on the stack that stacker.h tells. */
#define _DEFAULT_SOURCE
#include "stack.h"
#include "stacker.h"
#include "station.h"

#include <signal.h>
#include <stdio.h>
#include <stdlib.h>
#include <string.h>
#include <sys/mman.h>
#include <unistd.h>

#define VECTORS_OF(side) ((N - 1) * 2 * (W / (side) + 1) * (H / (side) + 1))
enum { W = 64, H = 64, N = 5, ROWS = 32, DNG_W = 128 };

/* The buffers; a call names those that it takes. */
enum { SAMPLES, VECTORS, OUTPUT, WORK, BYTES, BURST_FILE, DNG_FILE, DNG_FRAME, RESIDUALS, HIGH, FRAME_VECTORS, FRAME_WORK, BAND, BAND_WORK, BUFFERS };
static const size_t element[BUFFERS] = { 2, 4, 2, 8, 1, 1, 1, 2, 8, 2, 4, 8, 2, 8 };
static size_t length[BUFFERS] = {
    N * W * H, VECTORS_OF(16), W * H, 2 * W * H, 0, 0, 0, DNG_W * H, VECTORS_OF(16) / 2, W * H, VECTORS_OF(16) / (N - 1), W * H, ROWS * W, 0
};
static uint8_t *lent[BUFFERS], *held[BUFFERS];

static const stacker_burst burst = { W, H, N, 0, W, { 0, 0, 0, 0 } };
static const stacker_frames frames = { W, H, N, W, { 0, 0, 0, 0 } }, dng_frames = { DNG_W, H, 1, DNG_W, { 0, 0, 0, 0 } };
static const stacker_noise noise = { 3.0, 100.0 }, upper = { 4.0, 200.0 };
static const stacker_iso_noise iso = { 400, 1.0, 10.0 }, upper_iso = { 800, 1.0, 10.0 };
static stacker_tuning tuning = STACKER_TUNING(512);

#define SAMPLES_READ (const uint16_t *)lent[SAMPLES], told[SAMPLES]
#define VECTORS_READ (const int32_t *)lent[VECTORS], told[VECTORS]
#define WRITTEN (uint16_t *)lent[OUTPUT], told[OUTPUT], (int64_t *)lent[WORK], told[WORK]
#define BOTH_WRITTEN (uint16_t *)lent[OUTPUT], told[OUTPUT], (uint16_t *)lent[HIGH], told[HIGH], (int64_t *)lent[WORK], told[WORK]
#define FRAME_WRITTEN (int32_t *)lent[FRAME_VECTORS], told[FRAME_VECTORS], (int64_t *)lent[FRAME_WORK], told[FRAME_WORK]
#define BAND_WRITTEN (uint16_t *)lent[BAND], told[BAND], (int64_t *)lent[BAND_WORK], told[BAND_WORK]
#define FOUND (int32_t *)lent[VECTORS], told[VECTORS], WRITTEN

static uint64_t align(const size_t *told)
{
    return stacker_align(burst, tuning, SAMPLES_READ, (int32_t *)lent[VECTORS], told[VECTORS], (int64_t *)lent[WORK], told[WORK]).refusal;
}

static uint64_t align_frame(const size_t *told)
{
    return stacker_align_frame(burst, tuning, N - 2, SAMPLES_READ, FRAME_WRITTEN).refusal;
}

static uint64_t residuals(const size_t *told)
{
    return stacker_residuals(burst, tuning, SAMPLES_READ, VECTORS_READ, (uint64_t *)lent[RESIDUALS], told[RESIDUALS], (int64_t *)lent[WORK], told[WORK]);
}

static uint64_t merge(const size_t *told) { return stacker_merge(burst, noise, tuning, SAMPLES_READ, VECTORS_READ, WRITTEN); }
static uint64_t merge_iso(const size_t *told) { return stacker_merge_iso(burst, iso, tuning, SAMPLES_READ, VECTORS_READ, WRITTEN); }
static uint64_t band(const size_t *told) { return stacker_merge_band(burst, noise, tuning, H - ROWS, ROWS, SAMPLES_READ, VECTORS_READ, BAND_WRITTEN); }
static uint64_t band_iso(const size_t *told) { return stacker_merge_band_iso(burst, iso, tuning, H - ROWS, ROWS, SAMPLES_READ, VECTORS_READ, BAND_WRITTEN); }
static uint64_t range(const size_t *told) { return stacker_range(burst, noise, upper, tuning, SAMPLES_READ, VECTORS_READ, BOTH_WRITTEN); }
static uint64_t range_iso(const size_t *told) { return stacker_range_iso(burst, iso, upper_iso, tuning, SAMPLES_READ, VECTORS_READ, BOTH_WRITTEN); }
static uint64_t run(const size_t *told) { return stacker_run(burst, noise, tuning, SAMPLES_READ, FOUND).refusal; }
static uint64_t run_iso(const size_t *told) { return stacker_run_iso(burst, iso, tuning, SAMPLES_READ, FOUND).refusal; }
static uint64_t sharpest(const size_t *told) { return stacker_run_sharpest(frames, noise, tuning, SAMPLES_READ, FOUND).alignment.refusal; }
static uint64_t sharpest_iso(const size_t *told) { return stacker_run_sharpest_iso(frames, iso, tuning, SAMPLES_READ, FOUND).alignment.refusal; }

static uint64_t read_file(const size_t *told)
{
    return stacker_read_file(lent[BURST_FILE], told[BURST_FILE], (uint16_t *)lent[SAMPLES], told[SAMPLES]).refusal;
}

static uint64_t write_pgm(const size_t *told)
{
    return stacker_write_pgm(W, H, (const uint16_t *)lent[OUTPUT], told[OUTPUT], lent[BYTES], told[BYTES]);
}

static uint64_t read_pgm(const size_t *told)
{
    return stacker_read_pgm(lent[BYTES], told[BYTES], (uint16_t *)lent[OUTPUT], told[OUTPUT]).refusal;
}

static uint64_t read_dng(const size_t *told)
{
    return stacker_read_dng(lent[DNG_FILE], told[DNG_FILE], dng_frames, 0, (uint16_t *)lent[DNG_FRAME], told[DNG_FRAME]).refusal;
}

static uint64_t file_size(const size_t *told) { return stacker_file_size(lent[BURST_FILE], told[BURST_FILE]).refusal; }
static uint64_t pgm_size(const size_t *told) { return stacker_pgm_size(lent[BYTES], told[BYTES]).refusal; }
static uint64_t dng_size(const size_t *told) { return stacker_dng_size(lent[DNG_FILE], told[DNG_FILE]).refusal; }
static uint64_t check(const size_t *told) { return station_check(lent[BURST_FILE], told[BURST_FILE]); }

/* A call, and the number that refuses a wrong length of each buffer that it takes; NOT_TAKEN where it takes none, ANY where the length may be longer. */
enum { NOT_TAKEN = 0, ANY = 1000 };
static const struct {
    const char *name;
    uint64_t (*call)(const size_t *told);
    uint64_t number[BUFFERS];
} calls[] = {
    { "stacker_align", align, { [SAMPLES] = 4, [VECTORS] = 5, [WORK] = 7 } },
    { "stacker_align_frame", align_frame, { [SAMPLES] = 4, [FRAME_VECTORS] = 5, [FRAME_WORK] = 7 } },
    { "stacker_merge", merge, { [SAMPLES] = 4, [VECTORS] = 5, [OUTPUT] = 6, [WORK] = 7 } },
    { "stacker_merge_iso", merge_iso, { [SAMPLES] = 4, [VECTORS] = 5, [OUTPUT] = 6, [WORK] = 7 } },
    { "stacker_merge_band", band, { [SAMPLES] = 4, [VECTORS] = 5, [BAND] = 6, [BAND_WORK] = 7 } },
    { "stacker_merge_band_iso", band_iso, { [SAMPLES] = 4, [VECTORS] = 5, [BAND] = 6, [BAND_WORK] = 7 } },
    { "stacker_residuals", residuals, { [SAMPLES] = 4, [VECTORS] = 5, [RESIDUALS] = 6, [WORK] = 7 } },
    { "stacker_range", range, { [SAMPLES] = 4, [VECTORS] = 5, [OUTPUT] = 6, [HIGH] = 6, [WORK] = 7 } },
    { "stacker_range_iso", range_iso, { [SAMPLES] = 4, [VECTORS] = 5, [OUTPUT] = 6, [HIGH] = 6, [WORK] = 7 } },
    { "stacker_run", run, { [SAMPLES] = 4, [VECTORS] = 5, [OUTPUT] = 6, [WORK] = 7 } },
    { "stacker_run_iso", run_iso, { [SAMPLES] = 4, [VECTORS] = 5, [OUTPUT] = 6, [WORK] = 7 } },
    { "stacker_run_sharpest", sharpest, { [SAMPLES] = 4, [VECTORS] = 5, [OUTPUT] = 6, [WORK] = 7 } },
    { "stacker_run_sharpest_iso", sharpest_iso, { [SAMPLES] = 4, [VECTORS] = 5, [OUTPUT] = 6, [WORK] = 7 } },
    { "stacker_read_file", read_file, { [SAMPLES] = 4, [BURST_FILE] = 15 } },
    { "stacker_write_pgm", write_pgm, { [OUTPUT] = 6, [BYTES] = 16 } },
    { "stacker_read_pgm", read_pgm, { [OUTPUT] = 6, [BYTES] = 17 } },
    { "stacker_read_dng", read_dng, { [DNG_FILE] = ANY, [DNG_FRAME] = 4 } },
    { "stacker_file_size", file_size, { [BURST_FILE] = ANY } },
    { "stacker_pgm_size", pgm_size, { [BYTES] = 17 } },
    { "stacker_dng_size", dng_size, { [DNG_FILE] = ANY } },
    { "station_check", check, { [BURST_FILE] = 15 } },
};

/* what is being tried, for the handler of a fault */
static char trying[128];

static void fault(int number)
{
    (void)number;
    ssize_t written = write(2, trying, strlen(trying));
    _exit(written < 0 ? 3 : 1);
}

/* `size` bytes that end where a page begins that can be neither read nor written */
static uint8_t *at_the_edge(size_t size)
{
    size_t page = (size_t)sysconf(_SC_PAGESIZE), whole = (size + page - 1) / page * page;
    uint8_t *data = mmap(NULL, whole + page, PROT_READ | PROT_WRITE, MAP_PRIVATE | MAP_ANONYMOUS, -1, 0);
    if (data == MAP_FAILED || mprotect(data + whole, page, PROT_NONE) != 0)
        exit(2);
    return data + whole - size;
}

static void fill(int buffer, const char *path)
{
    FILE *file = fopen(path, "rb");
    if (file == NULL || fseek(file, 0, SEEK_END) != 0)
        exit(2);
    length[buffer] = (size_t)ftell(file);
    lent[buffer] = at_the_edge(length[buffer]);
    rewind(file);
    if (fread(lent[buffer], 1, length[buffer], file) != length[buffer])
        exit(2);
    fclose(file);
}

static void restore(void)
{
    for (int i = 0; i < BUFFERS; i++)
        memcpy(lent[i], held[i], element[i] * length[i]);
}

/* The call refuses the lengths with this number and leaves every buffer as it was. */
static void refused(size_t c, const size_t *told, uint64_t number)
{
    uint64_t answer = calls[c].call(told);
    int same = 1;
    for (int i = 0; i < BUFFERS; i++)
        same &= memcmp(lent[i], held[i], element[i] * length[i]) == 0;
    if (number != ANY && (answer != number || !same)) {
        fprintf(stderr, "%sanswered %d\n", trying, (int)answer);
        exit(1);
    }
    restore();
}

/* Each buffer alone told too long, and with all others; how many lengths were refused by their number. */
static int wrong_lengths(size_t c)
{
    int tried = 0;
    for (int i = 0; i < BUFFERS; i++) {
        const size_t longer[] = { length[i] + 1, 2 * length[i], SIZE_MAX };
        for (size_t k = 0; k < 3 && calls[c].number[i] != NOT_TAKEN; k++) {
            size_t told[BUFFERS];
            memcpy(told, length, sizeof told);
            told[i] = longer[k];
            snprintf(trying, sizeof trying, "tests: pages: %s: buffer %d told %zu for %zu: ", calls[c].name, i, longer[k], length[i]);
            refused(c, told, calls[c].number[i]);
            for (int j = 0; j < BUFFERS; j++)
                told[j] = k == 0 ? length[j] + 1 : k == 1 ? 2 * length[j] : SIZE_MAX;
            strcat(trying, "all: ");
            refused(c, told, ANY);
            tried += calls[c].number[i] != ANY;
        }
    }
    return tried;
}

/* a call with the right lengths, on a stack of its own */
static size_t called;
static uint64_t answered;
static void call(void) { answered = calls[called].call(length); }

/* Each call with the right lengths, and with wrong ones; how many of those were refused by their number. */
static int each_call(void)
{
    int tried = 0;
    for (size_t c = 0; c < sizeof calls / sizeof *calls; c++) {
        /* low and high are for tiles of side 16 alone */
        if (calls[c].number[HIGH] != NOT_TAKEN && tuning.side != 16)
            continue;
        snprintf(trying, sizeof trying, "tests: pages: %s: right lengths: ", calls[c].name);
        called = c;
        size_t stack = stack_of(call);
        if (answered != 0 || stack > STACK_MOST) {
            fprintf(stderr, "%sanswered %d, on %zu bytes of stack\n", trying, (int)answered, stack);
            exit(1);
        }
        restore();
        tried += wrong_lengths(c);
    }
    return tried;
}

/* Tiles of side 32, whose fewer vectors and residuals end at the same page; a band's work area is longer. */
static void widen(void)
{
    size_t fewer = VECTORS_OF(16) - VECTORS_OF(32);
    tuning.side = 32;
    length[VECTORS] -= fewer;
    lent[VECTORS] += fewer * element[VECTORS];
    length[RESIDUALS] -= fewer / 2;
    lent[RESIDUALS] += fewer / 2 * element[RESIDUALS];
    length[FRAME_VECTORS] -= fewer / (N - 1);
    lent[FRAME_VECTORS] += fewer / (N - 1) * element[FRAME_VECTORS];
    length[BAND_WORK] = stacker_band_work(burst, tuning);
    lent[BAND_WORK] = at_the_edge(element[BAND_WORK] * length[BAND_WORK]);
    free(held[BAND_WORK]);
    held[BAND_WORK] = calloc(length[BAND_WORK], element[BAND_WORK]);
    if (held[BAND_WORK] == NULL)
        exit(2);
}

int main(int count, char **names)
{
    if (count != 3)
        return 2;
    signal(SIGSEGV, fault);
    signal(SIGBUS, fault);
    fill(BURST_FILE, names[1]);
    fill(DNG_FILE, names[2]);
    length[BYTES] = stacker_pgm_length(W, H);
    length[BAND_WORK] = stacker_band_work(burst, tuning);
    for (int i = 0; i < BUFFERS; i++) {
        if (lent[i] == NULL)
            lent[i] = at_the_edge(element[i] * length[i]);
        held[i] = malloc(element[i] * length[i]);
        if (held[i] == NULL)
            return 2;
    }
    if (stacker_write_pgm(W, H, (const uint16_t *)lent[OUTPUT], W * H, lent[BYTES], length[BYTES]) != 0)
        return 1;
    for (int i = 0; i < BUFFERS; i++)
        memcpy(held[i], lent[i], element[i] * length[i]);

    int tried = each_call();
    widen();
    tried += each_call();
    printf("tests: pages: %d wrong lengths of %d calls refused at both sides, no word read or written behind a buffer\n", tried, (int)(sizeof calls / sizeof *calls));
    return 0;
}
