/* Damages files and runs the program on each: damaged COUNT SEED DIRECTORY GOOD FILE... GOOD is a frame that stays whole and goes along in some runs;
   DIRECTORY takes what is written. Prints how the runs ended. It stops at one that ends by a signal, a sanitizer or a status that the program does not
   have, and at one that was refused and has written something: damaged.log in DIRECTORY says why, and `file` is what was read.

   The program's main has the name stacker_main, and its exit comes back here: some files go through each process, as starting one takes longer. */
#define _GNU_SOURCE
#include <fcntl.h>
#include <getopt.h>
#include <setjmp.h>
#include <stdint.h>
#include <stdio.h>
#include <stdlib.h>
#include <string.h>
#include <sys/mman.h>
#include <sys/wait.h>
#include <unistd.h>

int stacker_main(int argc, char **argv);
void stacker_exit(int status);
extern int quiet;

enum { FILES_MOST = 16, WORDS_MOST = 16, RUNS = 10, STATUSES = 4, BATCH = 50 };

typedef struct {
    uint8_t *bytes;
    size_t length;
} content;

static uint64_t state;

static uint64_t random_below(uint64_t most)
{
    state += 0x9e3779b97f4a7c15;
    uint64_t z = (state ^ state >> 30) * 0xbf58476d1ce4e5b9;
    z = (z ^ z >> 27) * 0x94d049bb133111eb;
    return (z ^ z >> 31) % most;
}

static content read_whole(const char *path)
{
    content file = { malloc(1 << 20), 0 };
    FILE *from = fopen(path, "rb");
    if (from == NULL || file.bytes == NULL)
        exit(2);
    file.length = fread(file.bytes, 1, 1 << 20, from);
    fclose(from);
    return file;
}

/* most damage goes where a head stands */
static size_t place(size_t length)
{
    size_t within = random_below(3) == 0 || length < 450 ? length : random_below(2) == 0 ? 450 : 40;
    return within == 0 ? 0 : random_below(within);
}

static void put(content file, size_t at, uint64_t value, size_t bytes)
{
    for (size_t i = 0; i < bytes && at + i < file.length; i++)
        file.bytes[at + i] = (uint8_t)(value >> 8 * i);
}

/* one fault: a byte, a word at a limit, a piece moved, an entry of the directory changed, or another length */
static void damage(content *file)
{
    static const uint64_t limits[] = { 0, 1, 2, 3, 4, 12, 63, 64, 65, 128, 255, 256, 257, 4095, 4096, 65535, 65536, 1u << 24, 0x7fffffff, 0x80000000, 0xffffffff };
    size_t at = place(file->length);
    switch (random_below(7)) {
    case 0: put(*file, at, random_below(256), 1); break;
    case 1: put(*file, at, limits[random_below(sizeof limits / sizeof *limits)], 2 + 2 * random_below(2)); break;
    case 2: put(*file, 10 + 12 * random_below(22) + 2 * random_below(6), limits[random_below(sizeof limits / sizeof *limits)], 4); break;
    case 3: put(*file, at, "0123456789 \n#/-"[random_below(15)] & 255u, 1); break;
    case 4: file->length = random_below(2) == 0 ? at : random_below(file->length + 1); break;
    case 5: {
        size_t to = place(file->length), count = random_below(64);
        if (at + count <= file->length && to + count <= file->length)
            memmove(file->bytes + to, file->bytes + at, count);
        break;
    }
    default: put(*file, at, file->bytes[at] ^ 1u << random_below(8), 1); break;
    }
}

static void write_damaged(const char *path, content whole)
{
    content file = { malloc(whole.length + 1), whole.length };
    FILE *to = fopen(path, "wb");
    if (file.bytes == NULL || to == NULL)
        exit(2);
    memcpy(file.bytes, whole.bytes, whole.length);
    for (uint64_t faults = random_below(3) + 1; faults > 0 && file.length > 0; faults--)
        damage(&file);
    fwrite(file.bytes, 1, file.length, to);
    fclose(to);
    free(file.bytes);
}

/* the ways in which the program is asked; F is the damaged file, G the good frame */
static const char *const runs[RUNS][WORDS_MOST] = {
    { "stacker", "info", "F" },
    { "stacker", "merge", "-o", "o.pgm", "-v", "v.json", "-p", "p.html", "F", "-n", "3,100" },
    { "stacker", "merge", "-q", "-o", "o.dng", "-v", "v.csv", "F" },
    { "stacker", "merge", "-o", "o.pgm", "-c", "max", "-n", "3,100", "F" },
    { "stacker", "merge", "-o", "o.dng", "-c", "64x64+2+2", "F" },
    { "stacker", "merge", "-o", "o.pgm", "-m", "max", "-c", "max", "-n", "3,100", "F" },
    { "stacker", "merge", "-o", "o.pgm", "-m", "1", "-n", "3,100", "-b", "64", "F" },
    { "stacker", "merge", "-r", "sharpest", "--lifted", "-o", "o.dng", "-p", "p.html", "F", "G", "G" },
    { "stacker", "align", "-v", "v.json", "G", "F" },
    { "stacker", "calibrate", "F", "G", "G", "F" },
};

static jmp_buf back;

void stacker_exit(int status)
{
    longjmp(back, status + 1);
}

static char *arguments[WORDS_MOST + 1];

static int filled_in(const char *const *words, char *good)
{
    static char file[] = "file";
    int count = 0;
    for (; count < WORDS_MOST && words[count] != NULL; count++)
        arguments[count] = strcmp(words[count], "G") == 0 ? good : strcmp(words[count], "F") == 0 ? file : (char *)(uintptr_t)words[count];
    arguments[count] = NULL;
    return count;
}

/* the status of one run of the program in this process */
static int run(int count)
{
    optind = 0;
    quiet = 0;
    int ended = setjmp(back);
    return ended == 0 ? stacker_main(count, arguments) : ended - 1;
}

static int written(void)
{
    static const char *const outputs[] = { "o.pgm", "o.dng", "v.json", "v.csv", "p.html" };
    int some = 0;
    for (size_t i = 0; i < sizeof outputs / sizeof *outputs; i++)
        some |= unlink(outputs[i]) == 0;
    return some;
}

typedef struct {
    content whole[FILES_MOST];
    uint64_t files;
    char *good;
    uint64_t *ended; /* by status; shared between processes */
} plan;

/* some files in a process of its own */
static void batch(const plan *p, uint64_t count)
{
    int log = open("damaged.log", O_CREAT | O_TRUNC | O_WRONLY, 0666), none = open("/dev/null", O_WRONLY);
    dup2(none, 1);
    dup2(log, 2);
    for (uint64_t i = 0; i < count; i++) {
        write_damaged("file", p->whole[random_below(p->files)]);
        int status = run(filled_in(runs[random_below(RUNS)], p->good)), some = written();
        if (status < 0 || status >= STATUSES || ((status == 1 || status == 2) && some))
            _exit(1);
        p->ended[status]++;
    }
    _exit(0);
}

/* whether a batch ended as it should */
static int passes(const plan *p, uint64_t count)
{
    int status;
    pid_t process = fork();
    if (process == 0)
        batch(p, count);
    return process > 0 && waitpid(process, &status, 0) == process && WIFEXITED(status) && WEXITSTATUS(status) == 0;
}

static plan planned(int argc, char **argv)
{
    plan p = { .files = 0 };
    for (int i = 5; i < argc && i < 5 + FILES_MOST; i++)
        p.whole[p.files++] = read_whole(argv[i]);
    p.good = realpath(argv[4], NULL);
    p.ended = mmap(NULL, STATUSES * sizeof *p.ended, PROT_READ | PROT_WRITE, MAP_SHARED | MAP_ANONYMOUS, -1, 0);
    if (p.good == NULL || p.ended == MAP_FAILED || chdir(argv[3]) != 0)
        exit(2);
    return p;
}

int main(int argc, char **argv)
{
    if (argc < 6)
        return 2;
    plan p = planned(argc, argv);
    uint64_t count = strtoull(argv[1], NULL, 10), seed = strtoull(argv[2], NULL, 10);
    for (uint64_t done = 0; done < count; done += BATCH) {
        state = seed << 32 | done;
        if (!passes(&p, count - done < BATCH ? count - done : BATCH)) {
            printf("damaged: a fault among the files from %llu on: see %s/damaged.log\n", (unsigned long long)done, argv[3]);
            return 1;
        }
    }
    printf("damaged: %llu files: %llu done, %llu refused, %llu wrong usage or file, %llu with lifted tiles; no fault\n", (unsigned long long)count,
        (unsigned long long)p.ended[0], (unsigned long long)p.ended[1], (unsigned long long)p.ended[2], (unsigned long long)p.ended[3]);
    return 0;
}
