/* The burst stacker: one to eight raw frames of one scene are aligned on one of them, the reference, and merged into one cleaner frame.

   First come the types, the calls and what goes with them; behind them EXAMPLES, FRAMES, SHARPNESS, LENT BUFFERS, AFTER A CALL, REFUSALS, NOISE,
   RANGE OF NOISE, STRENGTH, SIDE, BANDS, SPATIAL FILTER, ZEROS and THE MACHINE. Link with libstacker.a. For x86-64 Linux; C99 and later, C++11 and
   later. */
#ifndef STACKER_H
#define STACKER_H

#include <stddef.h>
#include <stdint.h>

#define STACKER_VERSION "1.0.0"
#define STACKER_VERSION_MAJOR 1
#define STACKER_VERSION_MINOR 0
#define STACKER_VERSION_PATCH 0
#define STACKER_VERSION_NUMBER (1000000 * STACKER_VERSION_MAJOR + 1000 * STACKER_VERSION_MINOR + STACKER_VERSION_PATCH)

#ifdef __cplusplus
extern "C" {
#endif

/* What a call is told. Set a description to zero and fill in what is needed (ZEROS, below). */

typedef struct {
    uint64_t width, height; /* of each frame, in samples */
    uint64_t count;         /* of frames */
    uint64_t reference;     /* index of the frame that the others are merged on */
    uint64_t row_length;    /* words from a row to the next: width, or up to 256 more */
    uint16_t black[4];      /* levels of the planes R, G, G and B, 0..255: what a dark frame holds */
} stacker_burst;

/* The same without a reference, which stacker_run_sharpest chooses. */
typedef struct {
    uint64_t width, height;
    uint64_t count;
    uint64_t row_length;
    uint16_t black[4];
} stacker_frames;

typedef struct {
    double shot; /* in samples: a sample x has the variance shot x + read */
    double read; /* in squared samples */
} stacker_noise;

typedef struct {
    uint32_t iso;
    double shot, read; /* as above, at ISO 100 */
} stacker_iso_noise;

typedef struct {
    uint64_t strength; /* eighths of the published tau, 0..1024: STRENGTH, below */
    uint64_t side;     /* of the finest tiles and of the merge's, 16 or 32: SIDE, below */
    uint64_t spatial;  /* the spatial filter's published s in 1/256, 0..256: SPATIAL FILTER, below; 0 is no filter, and all that side 32 takes */
} stacker_tuning;

/* Initialisers for the descriptions, as C and as C++11: frames without spare words, tiles of side 16, and 0 in all else that is not named.

       stacker_burst burst = STACKER_BURST(512, 512, 8, 0); */

#define STACKER_BURST(width, height, count, reference) \
    { (uint64_t)(width), (uint64_t)(height), (uint64_t)(count), (uint64_t)(reference), (uint64_t)(width), { 0, 0, 0, 0 } }
#define STACKER_FRAMES(width, height, count) { (uint64_t)(width), (uint64_t)(height), (uint64_t)(count), (uint64_t)(width), { 0, 0, 0, 0 } }
#define STACKER_NOISE(shot, read) { (double)(shot), (double)(read) }
#define STACKER_ISO_NOISE(iso, shot, read) { (uint32_t)(iso), (double)(shot), (double)(read) }
#define STACKER_TUNING(strength) { (uint64_t)(strength), 16, 0 }

/* What a call answers: the refusal's number, or 0 with the other fields filled in. */

typedef struct {
    uint64_t refusal;
    uint64_t residuals[7]; /* per other frame in rising index, its sum of finest residuals; unused places are 0 */
    uint64_t rows;         /* how many tile rows were summed in all: ROWS, below */
} stacker_alignment;

typedef struct {
    uint64_t refusal;
    uint64_t residual; /* the frame's sum of finest residuals */
    uint64_t rows;     /* how many tile rows were summed for it */
} stacker_frame_alignment;

typedef struct {
    stacker_alignment alignment;
    uint64_t reference; /* index of the frame chosen */
} stacker_choice;

typedef struct {
    uint64_t refusal;
    uint64_t width, height, count, reference;
    uint64_t shot_level, read_level; /* 1024 times the shot and read of stacker_noise */
    uint64_t strength;
} stacker_file;

typedef struct {
    uint64_t refusal;
    uint64_t width, height;
} stacker_pgm;

typedef struct {
    uint64_t refusal;
    uint64_t tag; /* beside 19, 20 and 21 the tag at fault, or 0: docs/DNG.md has the tags */
    uint64_t width, height;
} stacker_dng_frame;

typedef struct {
    uint64_t refusal;
    double shot, read; /* of the file's noise profile, for stacker_noise; not tested */
    uint16_t black[4]; /* the file's levels, for stacker_burst; not tested */
} stacker_dng;

typedef enum {
    STACKER_ACCEPTED = 0,
    STACKER_REFUSED_SIZE = 1,
    STACKER_REFUSED_COUNT = 2,
    STACKER_REFUSED_REFERENCE = 3,
    STACKER_REFUSED_SAMPLE_LENGTH = 4,
    STACKER_REFUSED_VECTOR_LENGTH = 5,
    STACKER_REFUSED_OUTPUT_LENGTH = 6,
    STACKER_REFUSED_WORK_LENGTH = 7,
    STACKER_REFUSED_NOISE = 8,
    STACKER_REFUSED_NOISE_LIMIT = 9,
    STACKER_REFUSED_STRENGTH = 10,
    STACKER_REFUSED_SAMPLE_VALUE = 11,
    STACKER_REFUSED_VECTOR_PART = 12,
    STACKER_REFUSED_FIRST_LINE = 13,
    STACKER_REFUSED_VALUE_LINE = 14,
    STACKER_REFUSED_FILE_END = 15,
    STACKER_REFUSED_BYTE_LENGTH = 16,
    STACKER_REFUSED_PGM_FORM = 17,
    STACKER_REFUSED_BLACK_LEVEL = 18,
    STACKER_REFUSED_DNG_STRUCTURE = 19,
    STACKER_REFUSED_DNG_TAG = 20,
    STACKER_REFUSED_DNG_VALUE = 21,
    STACKER_REFUSED_SIDE = 22,
    STACKER_REFUSED_ROW_LENGTH = 23,
    STACKER_REFUSED_SPATIAL_STRENGTH = 24,
    STACKER_REFUSED_FILTERED_SIDE = 25,
    STACKER_REFUSED_NOISE_RANGE = 26,
    STACKER_REFUSED_PART = 27
} stacker_refusal;

/* Aligns each other frame on the reference. Of the tuning it reads the side alone. */
stacker_alignment stacker_align(stacker_burst burst, stacker_tuning tuning, const uint16_t *samples, size_t samples_length, int32_t *vectors,
    size_t vectors_length, int64_t *work, size_t work_length);

/* Aligns one other frame, at place other among them: 0 is the first in rising index, count - 2 the last. For threads that share a burst, each with a
   work area of its own: vectors of its own too, or align's vectors from other * 2 * (width / side + 1) * (height / side + 1) on. The calls for all other
   frames, in any order, give what align does: its vectors, its residuals, and rows that add up to its. */
stacker_frame_alignment stacker_align_frame(stacker_burst burst, stacker_tuning tuning, uint64_t other, const uint16_t *samples, size_t samples_length,
    int32_t *vectors, size_t vectors_length, int64_t *work, size_t work_length);

/* Merges the frames by lent vectors, which are only read; answers the refusal's number, or 0. */
uint64_t stacker_merge(stacker_burst burst, stacker_noise noise, stacker_tuning tuning, const uint16_t *samples, size_t samples_length,
    const int32_t *vectors, size_t vectors_length, uint16_t *output, size_t output_length, int64_t *work, size_t work_length);

uint64_t stacker_merge_iso(stacker_burst burst, stacker_iso_noise noise, stacker_tuning tuning, const uint16_t *samples, size_t samples_length,
    const int32_t *vectors, size_t vectors_length, uint16_t *output, size_t output_length, int64_t *work, size_t work_length);

/* Merges by lent vectors where the noise is known only between a lower and an upper curve, into two frames: whatever curve lies between, the frame that
   stacker_merge makes with it lies between low and high at each sample (RANGE OF NOISE, below). For tiles of side 16 without the spatial filter; answers the
   refusal's number, or 0. */
uint64_t stacker_range(stacker_burst burst, stacker_noise lower, stacker_noise upper, stacker_tuning tuning, const uint16_t *samples,
    size_t samples_length, const int32_t *vectors, size_t vectors_length, uint16_t *low, size_t low_length, uint16_t *high, size_t high_length,
    int64_t *work, size_t work_length);

/* Each end with an ISO number of its own. */
uint64_t stacker_range_iso(stacker_burst burst, stacker_iso_noise lower, stacker_iso_noise upper, stacker_tuning tuning, const uint16_t *samples,
    size_t samples_length, const int32_t *vectors, size_t vectors_length, uint16_t *low, size_t low_length, uint16_t *high, size_t high_length,
    int64_t *work, size_t work_length);

/* Merges a band of the frame, rows top to top + rows - 1, into an output of just these rows: the same words that merge puts there. Bands that follow one
   another make up the frame, each by any thread, with its own rows of the output and a work area of its own: BANDS, below. */
uint64_t stacker_merge_band(stacker_burst burst, stacker_noise noise, stacker_tuning tuning, uint64_t top, uint64_t rows, const uint16_t *samples,
    size_t samples_length, const int32_t *vectors, size_t vectors_length, uint16_t *output, size_t output_length, int64_t *work, size_t work_length);

uint64_t stacker_merge_band_iso(stacker_burst burst, stacker_iso_noise noise, stacker_tuning tuning, uint64_t top, uint64_t rows, const uint16_t *samples,
    size_t samples_length, const int32_t *vectors, size_t vectors_length, uint16_t *output, size_t output_length, int64_t *work, size_t work_length);

/* The length of a band's work area, 4 * side * width words whatever its rows, or 0 where width, height, count, row length or side is refused. */
uint64_t stacker_band_work(stacker_burst burst, stacker_tuning tuning);

/* The finest residual of every tile of every other frame at its lent vector: the sum of absolute differences at level 0 between the reference's tile and the
   frame's, moved by the vector. One word for each tile, in the order of the vectors. At the vectors that align finds, a frame's words add up to its sum
   there. Of the tuning it reads the side alone; answers the refusal's number, or 0. */
uint64_t stacker_residuals(stacker_burst burst, stacker_tuning tuning, const uint16_t *samples, size_t samples_length, const int32_t *vectors,
    size_t vectors_length, uint64_t *residuals, size_t residuals_length, int64_t *work, size_t work_length);

/* Aligns, then merges. */
stacker_alignment stacker_run(stacker_burst burst, stacker_noise noise, stacker_tuning tuning, const uint16_t *samples, size_t samples_length,
    int32_t *vectors, size_t vectors_length, uint16_t *output, size_t output_length, int64_t *work, size_t work_length);

stacker_alignment stacker_run_iso(stacker_burst burst, stacker_iso_noise noise, stacker_tuning tuning, const uint16_t *samples, size_t samples_length,
    int32_t *vectors, size_t vectors_length, uint16_t *output, size_t output_length, int64_t *work, size_t work_length);

/* Chooses the sharpest of the first three frames (of both where there are two) as the reference, then does what run does with it. */
stacker_choice stacker_run_sharpest(stacker_frames frames, stacker_noise noise, stacker_tuning tuning, const uint16_t *samples,
    size_t samples_length, int32_t *vectors, size_t vectors_length, uint16_t *output, size_t output_length, int64_t *work, size_t work_length);

stacker_choice stacker_run_sharpest_iso(stacker_frames frames, stacker_iso_noise noise, stacker_tuning tuning, const uint16_t *samples,
    size_t samples_length, int32_t *vectors, size_t vectors_length, uint16_t *output, size_t output_length, int64_t *work, size_t work_length);

/* Reads a burst file into the lent samples, whose length must be the one that the file's second line asks for. */
stacker_file stacker_read_file(const uint8_t *file, size_t file_length, uint16_t *samples, size_t samples_length);

/* The size questions: what buffers the reading of a file asks for. They read no sample, and make the tests that the readers make first. A file
   that a reader accepts has the size answered here, and one that is refused here is refused by its reader. */

/* What the first two lines of a burst file say: 15, 13, then 15, 14, 1, 2, 3, 9 and 10. */
stacker_file stacker_file_size(const uint8_t *file, size_t file_length);

/* The size of a PGM file's frame: 17. */
stacker_pgm stacker_pgm_size(const uint8_t *bytes, size_t bytes_length);

/* The size of a DNG file's frame, be it allowed or not, or the tag at fault: 19, 20 and 21, for a burst of that size. Its samples stand in the
   file, so that 2 * width * height is at most the file's length. */
stacker_dng_frame stacker_dng_size(const uint8_t *file, size_t file_length);

/* How many bytes the PGM file of a frame has, or 0 where width or height is refused. */
uint64_t stacker_pgm_length(uint64_t width, uint64_t height);

/* Writes a frame as a PGM file, for Netpbm viewers, over lent bytes of exactly that length; answers the refusal's number, or 0. */
uint64_t stacker_write_pgm(uint64_t width, uint64_t height, const uint16_t *frame, size_t frame_length, uint8_t *bytes, size_t bytes_length);

/* Reads a PGM file in the same spelling into a lent frame of the file's width * height samples. */
stacker_pgm stacker_read_pgm(const uint8_t *bytes, size_t bytes_length, uint16_t *frame, size_t frame_length);

/* Reads a DNG file into one frame of the lent samples, by its index, and touches no other word of them: width, height and row length are the burst's. */
stacker_dng stacker_read_dng(const uint8_t *file, size_t file_length, stacker_frames frames, uint64_t frame, uint16_t *samples, size_t samples_length);

/* What align, merge and run take of a file that was read: its frames, its noise, its strength and tiles of side 16. */

static inline stacker_burst stacker_file_burst(stacker_file file)
{
    stacker_burst burst = STACKER_BURST(file.width, file.height, file.count, file.reference);
    return burst;
}

/* The curve with exactly these levels: both quotients are exact, and merge and run find the file's own levels in them. */
static inline stacker_noise stacker_file_noise(stacker_file file)
{
    stacker_noise noise = { (double)file.shot_level / 1024.0, (double)file.read_level / 1024.0 };
    return noise;
}

static inline stacker_tuning stacker_file_tuning(stacker_file file)
{
    stacker_tuning tuning = STACKER_TUNING(file.strength);
    return tuning;
}

/* Stores what a refusal's number says as ASCII text, and zeros behind it; answers the text's length, at most 127. A buffer that is shorter stays as it
   was. For languages that do not take the next function. */
uint64_t stacker_refusal_words(uint64_t number, uint8_t *text, size_t text_length);

/* The version of the library: 1000000 * major + 1000 * minor + patch, as STACKER_VERSION_NUMBER has the header's. */
uint64_t stacker_version(void);

/* The same words, in C. */
static inline const char *stacker_refusal_text(uint64_t number)
{
    switch (number) {
    case STACKER_ACCEPTED: return "accepted";
    case STACKER_REFUSED_SIZE: return "width or height not a multiple of 64 from 64 to 4096";
    case STACKER_REFUSED_COUNT: return "count of frames 0 or above 8";
    case STACKER_REFUSED_REFERENCE: return "reference, or index of the frame to be read, not below the count of frames";
    case STACKER_REFUSED_SAMPLE_LENGTH: return "samples not of length count * row_length * height";
    case STACKER_REFUSED_VECTOR_LENGTH: return "vectors not of length (count - 1) * 2 * (width / side + 1) * (height / side + 1), or for one frame without (count - 1)";
    case STACKER_REFUSED_OUTPUT_LENGTH: return "output or frame not of length width * height, band not of rows * width, or residuals not half as many as the vectors' parts";
    case STACKER_REFUSED_WORK_LENGTH: return "work area not of length 2 * width * height, or for a band 4 * side * width";
    case STACKER_REFUSED_NOISE: return "shot or read negative or not finite, or ISO outside 25..409600";
    case STACKER_REFUSED_NOISE_LIMIT: return "shot above 64 or read above 4096 after ISO, or a file's levels above 65536 or 4194304";
    case STACKER_REFUSED_STRENGTH: return "strength above 1024";
    case STACKER_REFUSED_SAMPLE_VALUE: return "a sample above 4095";
    case STACKER_REFUSED_VECTOR_PART: return "a part of a vector outside -172..172";
    case STACKER_REFUSED_FIRST_LINE: return "a file whose first line differs";
    case STACKER_REFUSED_VALUE_LINE: return "a file with a malformed line of values";
    case STACKER_REFUSED_FILE_END: return "a file that is short, or goes on after its last row";
    case STACKER_REFUSED_BYTE_LENGTH: return "bytes not of the length that stacker_pgm_length answers";
    case STACKER_REFUSED_PGM_FORM: return "not a PGM file as stacker_write_pgm writes it";
    case STACKER_REFUSED_BLACK_LEVEL: return "a black level above 255";
    case STACKER_REFUSED_DNG_STRUCTURE: return "not a little-endian TIFF file, or a part of it lies past its end";
    case STACKER_REFUSED_DNG_TAG: return "a DNG file in which a needed tag is absent or a listed one stands twice";
    case STACKER_REFUSED_DNG_VALUE: return "a DNG file with a type, count or value that is not read, or of another size than the burst";
    case STACKER_REFUSED_SIDE: return "side of the tiles neither 16 nor 32, or not 16 where a range of noise is asked for";
    case STACKER_REFUSED_ROW_LENGTH: return "row length not from width to width + 256";
    case STACKER_REFUSED_SPATIAL_STRENGTH: return "spatial strength above 256, or not 0 where a range of noise is asked for";
    case STACKER_REFUSED_FILTERED_SIDE: return "spatial strength not 0 with tiles of side 32";
    case STACKER_REFUSED_NOISE_RANGE: return "lower shot or read above the upper one after ISO";
    case STACKER_REFUSED_PART: return "a band of rows off the grid of tiles or outside the frame, or a frame that is none of the others";
    default: return "no refusal of this version";
    }
}

#ifdef __cplusplus
}
#endif

/* EXAMPLES. Eight frames of 512 by 512 samples, merged on the first; noise of variance 3 x + 100 at a sample x; strength 600, so tau = 75;
   tiles of side 16:

       enum { W = 512, H = 512, N = 8, SIDE = 16, VECTORS = (N - 1) * 2 * (W / SIDE + 1) * (H / SIDE + 1) };
       static uint16_t samples[N * W * H], output[W * H];
       static int32_t vectors[VECTORS];
       static int64_t work[2 * W * H];

       stacker_burst burst = { .width = W, .height = H, .count = N, .row_length = W };
       stacker_noise noise = { .shot = 3.0, .read = 100.0 };
       stacker_tuning tuning = { .strength = 600, .side = SIDE };
       stacker_alignment answer = stacker_run(burst, noise, tuning, samples, N * W * H, vectors, VECTORS, output, W * H, work, 2 * W * H);
       if (answer.refusal != STACKER_ACCEPTED) {
           fprintf(stderr, "refused: %s\n", stacker_refusal_text(answer.refusal));
           return 1;   // nothing has changed
       }

   Whether a tile of the k-th other frame has moved, at tile row a and tile column b:

       const int32_t *vector = vectors + 2 * ((k * (H / SIDE + 1) + a) * (W / SIDE + 1) + b);
       int moved = vector[0] != 0 || vector[1] != 0;

   The same frames on the sharpest of the first three, where the first may be soft:

       stacker_frames frames = { .width = W, .height = H, .count = N, .row_length = W };
       stacker_choice choice = stacker_run_sharpest(frames, noise, tuning, samples, N * W * H, vectors, VECTORS, output, W * H, work, 2 * W * H);
       if (choice.alignment.refusal != STACKER_ACCEPTED)
           return 1;
       printf("merged on frame %d\n", (int)choice.reference);

   A burst file of that size and count instead of frames, with its own noise and strength; stacker_file_size(bytes, length) tells size and count first:

       stacker_file file = stacker_read_file(bytes, length, samples, N * W * H);
       if (file.refusal != STACKER_ACCEPTED)
           return 1;   // STACKER_REFUSED_SAMPLE_LENGTH where it has more or fewer samples
       answer = stacker_run(stacker_file_burst(file), stacker_file_noise(file), stacker_file_tuning(file),
           samples, N * W * H, vectors, VECTORS, output, W * H, work, 2 * W * H);

   The merged frame as a PGM file, which has at most 18 bytes before its samples:

       static uint8_t pgm[2 * W * H + 18];
       size_t pgm_length = stacker_pgm_length(W, H);
       if (stacker_write_pgm(W, H, output, W * H, pgm, pgm_length) != STACKER_ACCEPTED)
           return 1;
       fwrite(pgm, 1, pgm_length, stdout);

   examples/merge.c, examples/sharpest.c, examples/range.c, whose noise is known only between two curves, and examples/merge_dng.c, which reads its frames from
   DNG files, are whole programs; examples/cpp/merge.cpp calls from C++, examples/merge.py from Python, examples/burst_file.rs from Rust.

   FRAMES are Bayer RGGB, row by row, frame after frame: 16-bit words that hold 0..4095. Black is already subtracted, or the burst says what it is.
   A row takes row_length words: those after its W samples are spare. They may hold anything and are never read into a result. Output rows have none.
   VECTORS tell, for each other frame in rising index, tile by tile and row by row, how far down and then how far right the tile has moved in a
   plane: a step is two samples. Tiles of side 16 cover 16 by 16 places of a plane and begin every 8 places, the first at -8; those of side 32 cover 32 by
   32 places and begin every 16, the first at -16.

   ROWS. For each tile 81 offsets are tried, offset zero first, and each is left after the tile's row at which its running total of differences reaches the
   least so far; the three candidates that a tile of levels 2 to 0 starts from are always summed whole. The answer counts the rows that this rule sums, over
   all tiles, levels and frames: at most 648 for a tile of level 3, 2,688 for one of side 32, 1,344 for any other, 789,503,736 in all. A picture with much to
   tell offsets apart takes few. The count has its price, a sum for each row of its own: beside an align that sums every offset whole and counts nothing,
   this one took 1.08 to 1.25 times the time on a textured scene, and 1.44 to 1.48 times on dark noise, where offsets are left near their last row.

   SHARPNESS of a frame is the sum, over its green plane of even rows and odd columns, of the absolute steps to the right neighbour and to the one
   below, where the plane has one. Of frames that are equally sharp the first is chosen.

   LENT BUFFERS, for frames of width W, height H and row length L, N of them, and tiles of side S; a file means L = W and S = 16. A length counts elements,
   not bytes; station_length of station.h answers it too.

       buffer     elements    length                          read_file   align     merge     run       residuals   range
       samples    uint16_t    N*L*H                           written     read      read      read      read        read
       vectors    int32_t     (N-1)*2*(W/S+1)*(H/S+1)                     written   read      written   read        read
       output     uint16_t    W*H                                                   written   written
       work       int64_t     2*W*H                                       cleared   cleared   cleared   cleared     cleared
       residuals  uint64_t    (N-1)*(W/S+1)*(H/S+1)                                                     written
       low, high  uint16_t    W*H each                                                                              written

   run_sharpest does with them as run; align_frame as align, but that its vectors are one frame's, 2*(W/S+1)*(H/S+1), and its work area
   W*H; merge_band as merge, but that its output has rows*W words and its work area 4*S*W.

   A PGM file is P5, LF, width, a space, height, LF, 4095, LF, then each sample as two bytes, the high one first: no comment, no leading zero, nothing
   behind it. Its frame has W*H uint16_t, its bytes are as many as stacker_pgm_length answers. Writing reads the frame and writes the bytes, reading the
   other way round.

   A DNG file brings one frame: width * height words of samples are written, row by row, and neither spare words nor another frame. docs/DNG.md has which
   tags it must have, which are passed over and what is refused.

   - Any length may be passed: a wrong one is refused, and nothing is read or written beyond it.
   - A pointer may be NULL where its length is 0, and only there.
   - A buffer that is written or cleared must not overlap another lent one, and each must be aligned for its elements, as malloc's memory is.
     These two are the caller's part: no call tests them, and no statement covers them.
   - What a buffer holds before a call that writes or clears it does not matter.

   AFTER A CALL that answers 0 the written buffers hold the result, every word of it, and the work area is zero. After a refusal every lent buffer is
   as it was, and every other field of the answer is 0, the index chosen too; but a DNG file's tag at fault is named.

   REFUSALS. A call makes its tests in the order of the numbers, but 22, 23 and 27 before 4, 26 after 9, and 18, 24 and 25 after 10, and answers the first
   that fails: align 1 to 5, 7, 11, 22 and 23; merge 1 to 12, 18 and 22 to 25; run 1 to 11, 18 and 22 to 25; run_sharpest run's but for 3, whichever frame
   it chooses; residuals 1 to 7, 11, 12, 22 and 23, where 6 is of the residuals' length; range 1 to 12, 18, 22 to 24 and 26, where 22 is any side but 16, 24
   any s but 0, 6 of either frame, and 8 and 9 of either noise; align_frame align's, with 27 after 23, where 5 and 7 are of one frame's lengths; merge_band
   merge's, with 27 after 23, where 6 and 7 are of the band's.
   A file is tested line by line: no first LF 15, 13; line two 15, 14, then 1, 2, 3, 9, 10, 4; each row 15, 14, 11; then what follows, 15.
   Writing a PGM file tests 1, 6, 16, 11 in that order, reading one 17, 6, 11.
   Reading a DNG file tests 19, 20, 21, then 1, 2, 3 of the frame's index, 23, 4 and 11 of the file's samples.

   NOISE. stacker_merge_iso, stacker_run_iso, stacker_run_sharpest_iso and stacker_range_iso scale the curve for ISO 100 by a = iso / 100: shot by a, read by
   a * a. A file has the levels floor(1024 shot) and floor(1024 read) instead; stacker_file_noise turns them back. The curve speaks of light: in the noise of
   a tile each sample of the reference counts as what it exceeds its plane's black level by, or 0. Nothing else looks at black levels: vectors,
   residuals and the merged frame keep the pedestal. A file means levels of 0.

   RANGE OF NOISE. A head back from repair may have a noise that is known only between two curves. Lend stacker_range the vectors that align or run found, which
   do not depend on noise, and take both curves, neither shot nor read of the lower one above the upper one's after ISO. For every curve between, shot with
   shot and read with read, no sample of the frame that stacker_merge makes with it is below low's or above high's. So where low and high are equal the merged
   sample is known in spite of the noise, and elsewhere their distance bounds what knowing the noise could change. That is a bound for each sample by itself:
   low and high need not be the merge at any curve, and can lie further apart than such merges do. It takes some ten times as long as a merge; equal
   curves give the merged frame twice and take as long as one merge.

   STRENGTH. The greater, the more of the other frames is taken where they differ from the reference. Take 600, the tau of 75 that the published
   analysis of HDR+ settled on; 64 is the tau of 8 that the original names, which that analysis found too weak. A strength of 0 gives the reference back,
   1024 is the greatest. README has what they do to one scene.

   SIDE of the tiles, at align's finest level and in merge. Take 16; 32 is the original's for very dark scenes, where 16 by 16 places tell too little of how a
   tile moved. The levels above keep their tiles. Side 32 has about a quarter of the vectors, so those of one side are refused at the other, by their length.
   README has what either does to a dark scene.

   BANDS begin and end at multiples of the side: rows 0, 16, 32 and so on of the frame with side 16. A band has at least that many rows; else, or where it goes
   beyond the frame, it is refused (27). Every band of a burst reads all of the samples and vectors in its tests, so that all bands are accepted or all are
   refused alike, their own rows and lengths apart. A band works out one row of tiles more than the whole frame does in its place: few tall bands take less
   time together than many low ones.

   SPATIAL FILTER, for tiles of side 16 alone. Where frames agree, grain that all of them share or that few of them can average stays. A spatial s above 0 takes
   some of it out of the merged tile by a second Wiener step, whose noise grows with the frequency, with s and with the noise curve, and falls with the count
   of frames. The published s is 0.1, so 26 here; text and lines that are near the noise lose contrast with it, so look before you raise it. It knows nothing of
   the strength: at strength 0 the reference itself is filtered, and with one frame that frame. Where s is 0 a lone frame comes back unchanged, and only there.

   ZEROS. A width, height, count, row length, side or ISO of 0 is refused. Reference 0 is the first frame. Shot and read of 0 say that there is no noise, and
   strength 0 asks for no merging: either gives the reference back where the spatial s is 0 too, which asks for no filter. Black levels of 0 say that
   black is already subtracted. A field that a later version adds is refused at zero, or means there what this version does.

   THE MACHINE. A call allocates nothing. No proof bounds its stack: the tests fail where a call takes more than 64 KB. It keeps nothing between calls and has
   no state: threads may call at once, each with vectors, output and work area of its own that no other thread touches meanwhile. The floating-point environment
   must be the usual one: rounding to nearest, subnormal numbers kept. */
#endif
