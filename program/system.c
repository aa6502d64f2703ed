/* Errors, memory, reading of files and what is said while work goes on. */
#define _POSIX_C_SOURCE 200809L
#include "program.h"

#include <errno.h>
#include <signal.h>
#include <stdarg.h>
#include <stdlib.h>
#include <string.h>
#include <sys/time.h>
#include <time.h>
#include <unistd.h>

void fail(int status, const char *format, ...)
{
    va_list arguments;
    progress_end();
    fputs("stacker: ", stderr);
    va_start(arguments, format);
    vfprintf(stderr, format, arguments);
    va_end(arguments);
    fputc('\n', stderr);
    outputs_dropped();
    exit(status);
}

void note(const char *format, ...)
{
    va_list arguments;
    if (quiet)
        return;
    progress_end();
    fputs("stacker: ", stderr);
    va_start(arguments, format);
    vfprintf(stderr, format, arguments);
    va_end(arguments);
    fputc('\n', stderr);
}

/* memory of zeros; never NULL, for a count of 0 too */
void *room(size_t count, size_t size)
{
    void *memory = calloc(count + 1, size);
    if (memory == NULL)
        fail(WRONG, "out of memory: %zu elements of %zu bytes", count, size);
    return memory;
}

static FILE *opened(const char *path)
{
    FILE *file = strcmp(path, "-") == 0 ? stdin : fopen(path, "rb");
    if (file == NULL)
        fail(WRONG, "%s: %s", path, strerror(errno));
    return file;
}

/* the bytes of a file, or of standard input where the path is - */
content read_whole(const char *path)
{
    content file = { NULL, 0 };
    FILE *from = opened(path);
    size_t size = 0, got = 1;
    while (got > 0) {
        size = 2 * file.length + (1 << 20);
        uint8_t *more = realloc(file.bytes, size);
        if (more == NULL)
            fail(WRONG, "%s: out of memory", path);
        file.bytes = more;
        got = fread(file.bytes + file.length, 1, size - file.length, from);
        file.length += got;
    }
    if (ferror(from))
        fail(WRONG, "%s: %s", path, strerror(errno));
    if (from != stdin)
        fclose(from);
    uint8_t *fitting = realloc(file.bytes, file.length + (file.length == 0)); /* no room behind the file: a sanitizer sees what reads past it */
    file.bytes = fitting != NULL ? fitting : file.bytes;
    return file;
}

double seconds(void)
{
    struct timespec now;
    clock_gettime(CLOCK_MONOTONIC, &now);
    return (double)now.tv_sec + 1e-9 * (double)now.tv_nsec;
}

/* The line of progress: what is being done, and since how many seconds. After each second the signal writes it, by write(2) alone: short work shows none. */
static char line[160];
static volatile sig_atomic_t line_length, ticks;
static int shown;

/* a whole number in decimal digits; how many */
static size_t put_digits(char *to, int value)
{
    size_t count = 1;
    for (int rest = value; rest >= 10; rest /= 10)
        count++;
    for (size_t i = count; i > 0; value /= 10)
        to[--i] = (char)('0' + value % 10);
    return count;
}

static void tick(int number)
{
    (void)number;
    int saved = errno;
    char text[sizeof line + 16] = "\r";
    size_t length = 1 + (size_t)line_length;
    memcpy(text + 1, line, (size_t)line_length);
    ticks++;
    length += put_digits(text + length, ticks);
    memcpy(text + length, " s", 2);
    if (write(STDERR_FILENO, text, length + 2) < 0)
        line_length = 0;
    errno = saved;
}

static void every_second(int on)
{
    struct itimerval timer = { { on, 0 }, { on, 0 } };
    struct sigaction action = { .sa_handler = tick, .sa_flags = SA_RESTART };
    sigaction(SIGALRM, &action, NULL);
    setitimer(ITIMER_REAL, &timer, NULL);
}

/* says on a terminal what is being done now; nothing elsewhere */
void progress(const char *format, ...)
{
    va_list arguments;
    if (quiet || !isatty(STDERR_FILENO))
        return;
    progress_end();
    va_start(arguments, format);
    int length = vsnprintf(line, sizeof line, format, arguments);
    va_end(arguments);
    line_length = length < (int)sizeof line ? length : (int)sizeof line - 1;
    ticks = 0;
    shown = 1;
    every_second(1);
}

void progress_end(void)
{
    if (!shown)
        return;
    every_second(0);
    fputs("\r\033[K", stderr);
    shown = 0;
}
