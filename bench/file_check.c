/* The time per byte of station_check on a large accepted burst file in memory, beside a plain C parser of the same grammar and order of
   refusals. Their answers are compared in each run, and first on many small files, most of them damaged. */
#include "peers/burst.h"
#include "station.h"
#include "timer.h"

#include <stdio.h>
#include <string.h>

enum { REPEATS = 11, DAMAGED = 500 };

/* ---- the plain C parser ---- */

static const char NAMES[] = "width height count reference shot read strength\n";
enum { NAMES_LENGTH = sizeof NAMES - 1 };

typedef struct {
    const uint8_t *at, *end;
} cursor;

/* The value at `at`, of 1 to 9 digits, and the place past it; NULL where there is none. */
static const uint8_t *parse_value(const uint8_t *at, const uint8_t *end, uint32_t *value)
{
    const uint8_t *start = at;
    uint32_t v = 0;
    for (; at < end && (uint8_t)(*at - '0') < 10; at++)
        v = v * 10 + (*at - '0');
    *value = v;
    return at - start >= 1 && at - start <= 9 ? at : NULL;
}

/* The place past the spaces after a value; NULL where none stands. */
static const uint8_t *parse_spaces(const uint8_t *at, const uint8_t *end)
{
    if (at == end || *at != ' ')
        return NULL;
    while (at < end && *at == ' ')
        at++;
    return at;
}

/* A line that does not parse: 15 where it has no LF, else 14. */
static unsigned malformed(const cursor *line)
{
    return memchr(line->at, '\n', (size_t)(line->end - line->at)) ? 14 : 15;
}

/* A line of seven values. */
static unsigned parse_header(cursor *file, uint32_t values[7])
{
    const uint8_t *at = file->at, *end = file->end;
    for (int i = 0; i < 7; i++) {
        if (i > 0 && !(at = parse_spaces(at, end)))
            return malformed(file);
        if (!(at = parse_value(at, end, &values[i])))
            return malformed(file);
    }
    if (at == end || *at != '\n')
        return malformed(file);
    file->at = at + 1;
    return 0;
}

/* A row of samples; one above 4095 counts only where the whole row is well formed. */
static unsigned parse_row(cursor *file, uint32_t width)
{
    const uint8_t *at = file->at, *end = file->end;
    uint32_t greatest = 0;
    for (uint32_t i = 0; i < width; i++) {
        uint32_t value;
        if (i > 0 && !(at = parse_spaces(at, end)))
            return malformed(file);
        if (!(at = parse_value(at, end, &value)))
            return malformed(file);
        if (value > greatest)
            greatest = value;
    }
    if (at == end || *at != '\n')
        return malformed(file);
    file->at = at + 1;
    return greatest > 4095 ? 11 : 0;
}

static int size_allowed(uint32_t size)
{
    return size % 64 == 0 && size >= 64 && size <= 4096;
}

/* width, height, count, reference, shot, read, strength */
static unsigned header_refusal(const uint32_t v[7])
{
    if (!size_allowed(v[0]) || !size_allowed(v[1]))
        return 1;
    if (v[2] < 1 || v[2] > 8)
        return 2;
    if (v[3] >= v[2])
        return 3;
    if (v[4] > 65536 || v[5] > 4194304)
        return 9;
    return v[6] > 1024 ? 10 : 0;
}

static unsigned parse_names(cursor *file)
{
    size_t length = (size_t)(file->end - file->at);
    if (length == 0 || !memchr(file->at, '\n', length))
        return 15;
    if (length < NAMES_LENGTH || memcmp(file->at, NAMES, NAMES_LENGTH) != 0)
        return 13;
    file->at += NAMES_LENGTH;
    return 0;
}

static unsigned plain_check(const uint8_t *bytes, size_t length)
{
    cursor file = { bytes, bytes + length };
    uint32_t header[7];
    unsigned number;
    if ((number = parse_names(&file)) || (number = parse_header(&file, header)) || (number = header_refusal(header)))
        return number;
    for (uint32_t row = 0; row < header[1] * header[2]; row++)
        if ((number = parse_row(&file, header[0])))
            return number;
    return file.at < file.end ? 15 : 0;
}

/* ---- the files ---- */

/* xorshift64*: the same files in every run */
static uint64_t below(uint64_t n)
{
    static uint64_t seed = 88172645463325252u;
    seed ^= seed >> 12;
    seed ^= seed << 25;
    seed ^= seed >> 27;
    return (seed * 2685821657736338717u >> 11) % n;
}

/* A burst of random samples of the full range, at most five bytes each, in these many rows; the second line may say otherwise. */
static uint8_t *make_file(const char *values, size_t width, size_t rows, size_t *length)
{
    char *file = allocated(5 * width * rows + 200), *at = file;
    at += sprintf(at, "%s%s\n", NAMES, values);
    for (size_t row = 0; row < rows; row++)
        for (size_t column = 0; column < width; column++)
            at += sprintf(at, "%u%c", (unsigned)below(4096), column + 1 < width ? ' ' : '\n');
    *length = (size_t)(at - file);
    return (uint8_t *)file;
}

/* Overwrites a byte, a quarter of the time in the first two lines, and now and then cuts the file. Its new length. */
static size_t damage(uint8_t *file, size_t length)
{
    static const char stray[] = "0123456789  \n\n\t\r-x";
    file[below(below(4) == 0 ? 80 : length)] = (uint8_t)stray[below(sizeof stray)];
    return below(8) == 0 ? below(length + 1) : length;
}

/* ---- the comparison ---- */

static void must_agree(const uint8_t *file, size_t length, unsigned tally[16])
{
    uint64_t library = station_check(file, length);
    unsigned plain = plain_check(file, length);
    if (library != plain) {
        printf("file_check: the library answers %u and plain C %u\n", (unsigned)library, plain);
        exit(1);
    }
    tally[plain]++;
}

/* A small file with this second line, whole and then damaged in many ways. */
static void compare_damaged(const char *values, unsigned tally[16])
{
    size_t length;
    uint8_t *good = make_file(values, 64, 128, &length), *file = allocated(length);
    must_agree(good, length, tally);
    for (int i = 1; i < DAMAGED; i++) {
        memcpy(file, good, length);
        size_t left = damage(file, length);
        must_agree(file, left, tally);
    }
    free(good);
    free(file);
}

static void compare(void)
{
    static const char *const values[] = { "64 64 2 0 1024 4096 8", "64 64 2 1 65536 4194304 1024", "64 64 2 0 65537 4096 8",
        "64 64 2 0 1024 4194305 1025", "64 64 2 0 1024 4096 1025", "64 64 2 2 1024 4096 8", "64 64 9 0 1024 4096 8", "64 96 2 0 1024 4096 8" };
    enum { FILES = sizeof values / sizeof *values };
    unsigned tally[16] = { 0 };
    for (int i = 0; i < FILES; i++)
        compare_damaged(values[i], tally);
    printf("same answers on %d files, most of them damaged; how many got each number:\n", FILES * DAMAGED);
    for (int number = 0; number < 16; number++)
        if (tally[number] != 0)
            printf("  %d: %u", number, tally[number]);
    printf("\n\n");
}

int main(void)
{
    compare();
    size_t length;
    uint8_t *file = make_file("4096 1664 2 0 1024 4096 8", 4096, 2 * 1664, &length);
    double library[REPEATS], plain[REPEATS];
    for (int i = 0; i < REPEATS; i++) {
        double start = cpu_time();
        uint64_t library_number = station_check(file, length);
        double between = cpu_time();
        unsigned plain_number = plain_check(file, length);
        double end = cpu_time();
        if (library_number != 0 || plain_number != 0) {
            printf("file_check: the library answers %u and plain C %u to a good file\n", (unsigned)library_number, plain_number);
            return 1;
        }
        library[i] = (between - start) / (double)length;
        plain[i] = (end - between) / (double)length;
    }
    double l = median(library, REPEATS), p = median(plain, REPEATS);
    printf("accepted file of %.1f MB, CPU time in ns per byte, %d interleaved runs\n", (double)length / 1e6, REPEATS);
    printf("%-16s %8s %8s %8s\n", "", "median", "least", "most");
    printf("%-16s %8.3f %8.3f %8.3f\n", "station_check", l, library[0], library[REPEATS - 1]);
    printf("%-16s %8.3f %8.3f %8.3f\n", "plain C, -O3", p, plain[0], plain[REPEATS - 1]);
    printf("%-16s %8.2f\n", "ratio", l / p);
    free(file);
    return 0;
}
