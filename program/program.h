/* What the files of the program `stacker` share. See stacker.1. */
#ifndef PROGRAM_H
#define PROGRAM_H

#include "stacker.h"
#include "stacker_threads.h"
#include "station.h"

#include <stddef.h>
#include <stdint.h>
#include <stdio.h>

enum { DONE = 0, REFUSED = 1, WRONG = 2, LIFTED = 3 }; /* exit status */

enum { FRAMES_MOST = 8, SIDE_MOST = 4096, SAMPLE_MOST = 4095, VECTOR_MOST = 172 };

enum { SIDE = 16, STRENGTH = 600 }; /* of tiles, and of the merge, where nothing else is asked for: document 002 has both, the latter as tau = 75 */

/* Part of a frame, in samples. A width of 0 asks for the largest part in the middle that the library takes. */
typedef struct {
    uint64_t width, height, left, top;
} part;

/* A factor for samples; `over` 0 stands for the file's maxval. */
typedef struct {
    uint64_t times, over;
} factor;

/* What the command line asks for. What is not asked for is taken from the first file: has_... tell. */
typedef struct {
    const char *output, *vectors, *page, *low, *high;
    int sharpest, has_reference, has_noise, has_upper, has_strength, has_black, has_crop, has_scale, has_lifted;
    uint64_t reference, strength, spatial, side;
    uint64_t threads;       /* 0: one on each processor */
    uint64_t apart, lifted; /* steps from the common vector; count of tiles */
    uint32_t iso;           /* 0: the curve is for the frames as they are */
    stacker_noise noise, upper; /* upper: where the noise is known only between the two */
    uint16_t black[4];
    part crop;
    factor scale;
} request;

typedef struct {
    uint8_t *bytes;
    size_t length;
} content;

/* What a file is, and what the proved size question answers: its refusal, the tag at fault of a DNG file, or the size and count of its frames. A PGM
   file in another spelling than the library's is refused by 17, and has the size that its head says. */
typedef struct {
    enum { OTHER, DNG, PGM, BURST } kind;
    uint64_t refusal, tag;
    uint64_t width, height, count;
    uint64_t maxval; /* of a PGM file, */
    size_t samples;  /* and where its samples begin */
} head;

/* One other frame's vectors, as an inspector wants them. */
typedef struct {
    uint64_t frame;
    int32_t common[2]; /* the most frequent vector */
    int32_t far;       /* the greatest part of a vector, without its sign */
    size_t still, apart, lifted, unjudged;
    const uint64_t *own, *at_common; /* by tile: its residual at its own vector, and at the common one */
    uint8_t *is_lifted;              /* by tile */
} field;

/* A burst with all that is lent and answered. */
typedef struct {
    stacker_burst burst;
    char **names; /* of its files */
    int files, has_curve, is_merged; /* has_curve: a file has told noise and black levels */
    content dngs[FRAMES_MOST]; /* the files, where a DNG is to be written over one */
    uint16_t *samples, *merged;
    uint16_t *low, *high; /* where the noise is known only between two curves */
    int32_t *vectors;
    int64_t *work;
    uint64_t side; /* of a tile, in places of a plane */
    size_t area, tile_columns, tile_rows, tiles;
    size_t samples_length, vectors_length, work_length;
    stacker_alignment answer;
    uint64_t *own, *at_common; /* the residuals of all other frames, in the order of the vectors */
    field fields[FRAMES_MOST - 1];
} job;

/* main.c */
extern int quiet;

/* system.c */
void fail(int status, const char *format, ...) __attribute__((format(printf, 2, 3), noreturn));
void note(const char *format, ...) __attribute__((format(printf, 1, 2)));
void *room(size_t count, size_t size);
content read_whole(const char *path);
double seconds(void);
void progress(const char *format, ...) __attribute__((format(printf, 1, 2)));
void progress_end(void);

/* output.c */
FILE *output_begin(const char *path);
void output_end(FILE *file);
void outputs_written(char **inputs, int count);
void outputs_dropped(void);
int ends_in(const char *path, const char *ending);

/* unproved.c */
uint64_t little(const uint8_t *at, int bytes);
uint8_t *dng_entry(content file, unsigned tag);
uint64_t dng_value(content file, unsigned tag);
head head_of(content file);

/* convert.c */
content converted(const char *path, content file, head *found, const request *r);

/* burst.c */
void accepted(const char *what, uint64_t number, const char *hint);
const char *hint_of(head found);
void lend(job *j, const request *r, uint64_t width, uint64_t height, uint64_t count);
void read_burst(job *j, request *r);
void release(job *j);

/* calls.c */
void align_burst(job *j, const request *r);
void merge_burst(job *j, const request *r);
void merge_range(job *j, const request *r);
void residuals_at(job *j, const int32_t *vectors, uint64_t *residuals);
uint64_t noise_number(const request *r, stacker_noise noise, uint64_t root);

/* lifted.c */
void find_lifted(job *j, const request *r);
size_t lifted_tiles(const job *j);

/* write.c */
void write_frame(const char *path, const job *j, const uint16_t *frame);
void write_dng(const char *path, const job *j, const uint16_t *frame);

/* table.c */
void write_facts(FILE *to, const job *j, const request *r);
void write_json(FILE *to, const job *j, const request *r);
void write_csv(FILE *to, const job *j, const request *r);

/* page.c */
void write_page(FILE *to, const job *j, const request *r);

/* options.c */
int options(request *r, int argc, char **argv);

/* the commands */
int merge_command(request *r, char **names, int count);
int align_command(request *r, char **names, int count);
int info_command(request *r, char **names, int count);
int noise_command(request *r, char **names, int count);
int selftest_command(request *r, char **names, int count);
int calibrate_command(request *r, char **names, int count);

#endif
