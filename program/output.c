/* Outputs. Each is made in memory; when all are whole they are written under other names beside their own, and then renamed: a run that ends early
   leaves nothing behind. */
#define _POSIX_C_SOURCE 200809L
#include "program.h"

#include <errno.h>
#include <stdlib.h>
#include <string.h>
#include <sys/stat.h>
#include <unistd.h>

enum { OUTPUTS_MOST = 5 };

typedef struct {
    const char *path;
    char *bytes, *temporary;
    size_t length;
} output;

static output outputs[OUTPUTS_MOST];
static int made;

FILE *output_begin(const char *path)
{
    output *o = &outputs[made++];
    o->path = path;
    FILE *file = open_memstream(&o->bytes, &o->length);
    if (file == NULL)
        fail(WRONG, "%s: %s", path, strerror(errno));
    return file;
}

void output_end(FILE *file)
{
    if (ferror(file) | (fclose(file) != 0))
        fail(WRONG, "%s: %s", outputs[made - 1].path, strerror(errno));
}

/* what has been made goes, and so does what stands under another name: for a run that ends early */
void outputs_dropped(void)
{
    for (int i = 0; i < made; i++) {
        if (outputs[i].temporary != NULL)
            unlink(outputs[i].temporary);
        free(outputs[i].temporary);
        outputs[i].temporary = NULL;
    }
    made = 0;
}

static void failed(const char *path)
{
    fail(WRONG, "%s: %s", path, strerror(errno));
}

static void poured(const output *o, FILE *file)
{
    size_t written = fwrite(o->bytes, 1, o->length, file);
    if ((written != o->length) | ((file == stdout ? fflush(file) : fclose(file)) != 0))
        failed(o->path);
}

/* A regular file, or none yet: the bytes go under a name of their own first. Anything else, a pipe or a device, is written as it is. */
static int is_plain(const char *path)
{
    struct stat is;
    return lstat(path, &is) != 0 ? errno == ENOENT : S_ISREG(is.st_mode);
}

static void prepared(output *o)
{
    mode_t mask = umask(0);
    umask(mask);
    o->temporary = room(strlen(o->path) + 8, 1);
    sprintf(o->temporary, "%s.XXXXXX", o->path);
    int descriptor = mkstemp(o->temporary);
    if (descriptor < 0) {
        free(o->temporary);
        o->temporary = NULL;
        failed(o->path);
    }
    fchmod(descriptor, 0666 & ~mask);
    FILE *file = fdopen(descriptor, "wb");
    if (file == NULL)
        failed(o->path);
    poured(o, file);
}

static void written_through(const output *o)
{
    FILE *file = strcmp(o->path, "-") == 0 ? stdout : fopen(o->path, "wb");
    if (file == NULL)
        failed(o->path);
    poured(o, file);
}

/* no output may be one of the files that are read, nor another output */
static void apart_from(const char *path, char **inputs, int count)
{
    struct stat out, in;
    int times = 0;
    for (int i = 0; i < made; i++)
        times += strcmp(outputs[i].path, path) == 0;
    if (times > 1)
        fail(WRONG, "%s: is asked for twice", path);
    if (strcmp(path, "-") == 0 || stat(path, &out) != 0)
        return;
    for (int i = 0; i < count; i++)
        if (stat(inputs[i], &in) == 0 && in.st_dev == out.st_dev && in.st_ino == out.st_ino)
            fail(WRONG, "%s: is read too, and is not written over", path);
}

/* what is written through must be whole before anything is renamed */
static void prepare(output *o)
{
    if (strcmp(o->path, "-") != 0 && is_plain(o->path))
        prepared(o);
    else
        written_through(o);
}

static void finish(output *o)
{
    if (o->temporary != NULL && rename(o->temporary, o->path) != 0)
        failed(o->path);
    free(o->temporary);
    free(o->bytes);
    o->temporary = NULL;
}

void outputs_written(char **inputs, int count)
{
    for (int i = 0; i < made; i++)
        apart_from(outputs[i].path, inputs, count);
    for (int i = 0; i < made; i++)
        prepare(&outputs[i]);
    for (int i = 0; i < made; i++)
        finish(&outputs[i]);
    made = 0;
}

int ends_in(const char *path, const char *ending)
{
    size_t length = strlen(path), end = strlen(ending);
    return length > end && strcmp(path + length - end, ending) == 0;
}
