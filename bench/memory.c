#define _DEFAULT_SOURCE
#include "memory.h"

#include "subject.h"

#include <sys/resource.h>
#include <sys/wait.h>
#include <unistd.h>

static long peak_kilobytes(void)
{
    struct rusage usage;
    getrusage(RUSAGE_SELF, &usage);
    return usage.ru_maxrss;
}

/* In this process. */
static double growth(const peer *p, const burst *b, const noise_levels *n, vector *vectors)
{
    long before = peak_kilobytes();
    result r = { .vectors = vectors };
    if (vectors)
        r.output = allocated(pixels(b) * sizeof *r.output);
    else
        r.vectors = allocated(vectors_size(b));
    p->call(p->make(b), b, n, &r);
    return (double)(peak_kilobytes() - before) * 1024 / 1e6;
}

double peak_megabytes(const peer *p, const burst *b, const noise_levels *n, vector *vectors)
{
    int ends[2], status;
    double megabytes;
    if (pipe(ends) != 0)
        exit(2);
    pid_t child = fork();
    if (child == 0) {
        megabytes = growth(p, b, n, vectors);
        _exit(write(ends[1], &megabytes, sizeof megabytes) == sizeof megabytes ? 0 : 2);
    }
    close(ends[1]);
    if (child < 0 || read(ends[0], &megabytes, sizeof megabytes) != sizeof megabytes || waitpid(child, &status, 0) != child || status != 0)
        exit(2);
    close(ends[0]);
    return megabytes;
}
