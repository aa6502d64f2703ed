/* The command line: its table, its help and how each value is read. */
#define _POSIX_C_SOURCE 200809L
#include "program.h"

#include <errno.h>
#include <getopt.h>
#include <inttypes.h>
#include <stdlib.h>
#include <string.h>

static const char *const help[] = {
    "Usage: stacker merge [OPTION]... FILE...       align the frames and merge them into one\n",
    "       stacker align [OPTION]... FILE...       the vectors alone\n",
    "       stacker info FILE...                    what each file holds, or the number that refuses it\n",
    "       stacker noise --noise SHOT,READ         the noise number of tiles from dark to white\n",
    "       stacker calibrate FILE FILE...          the noise curve from pairs of frames of an even scene\n",
    "       stacker selftest                        a burst of known answer, word for word\n",
    "\n",
    "FILE is a frame (DNG or PGM, one to eight of one size) or a burst file; its first bytes tell which. - is standard input.\n",
    "\n",
    "  -o, --output FILE       the merged frame: PGM, or the reference's DNG with the merged samples where FILE ends in .dng\n",
    "  -v, --vectors FILE      vectors and residuals of all tiles: JSON, or CSV where FILE ends in .csv\n",
    "  -p, --page FILE         all of it as one HTML page for a browser\n",
    "  -r, --reference N       index of the frame to merge on, or sharpest: of the first three [0, or the burst file's]\n",
    "  -s, --strength N        0..1024, eighths of the published tau [600, or the burst file's]\n",
    "  -t, --side N            16 or 32, of the tiles: 32 is for very dark scenes [16]\n",
    "  -f, --spatial N         0..256, the spatial filter's s in 1/256, for side 16 [0: none]\n",
    "  -n, --noise SHOT,READ   a sample x has the variance SHOT x + READ [the first DNG's, or the burst file's]\n",
    "  -u, --upper SHOT,READ   the noise is known only between --noise and this; for side 16 without the spatial filter\n",
    "  -L, --low FILE          then the frame of the least samples,\n",
    "  -H, --high FILE         and of the greatest: with any curve between, the merged frame lies between the two\n",
    "  -i, --iso N             the curve is for ISO 100, and the frames were taken at N\n",
    "  -b, --black R,G,G,B     black levels of the four planes, or one for all [the first DNG's, or 0]\n",
    "  -c, --crop WxH+X+Y      take this part of each frame, at even X and Y; max: the largest in the middle\n",
    "  -m, --scale A/B         multiply the samples of PGM files by A/B: 1 keeps them under any maxval; max is 4095/maxval\n",
    "  -a, --apart N           steps from the common vector from which on a tile may be lifted [1: two and more]\n",
    "  -l, --lifted[=N]        end with 3 where N tiles or more are lifted [1]\n",
    "  -j, --threads N         at most so many threads at once, or 0 for one on each processor [0]\n",
    "  -q, --quiet             say nothing but errors\n",
    "  -h, --help\n",
    "  -V, --version\n",
    "\n",
    "--crop and --scale are outside the proofs, and so are reading these options, calibrate, and the page's drawing.\n",
    "Exit status: 0 done; 1 refused, with number and words on standard error; 2 wrong usage, or a file that cannot be read or\n",
    "written; 3 tiles are lifted, where --lifted asks. Nothing is written unless all is accepted.\n",
};

static uint64_t number(const char *name, const char *text, uint64_t most)
{
    char *end;
    errno = 0;
    unsigned long long value = strtoull(text, &end, 10);
    if (errno != 0 || end == text || *end != 0 || *text < '0' || *text > '9' || value > most)
        fail(WRONG, "--%s: %s is no whole number from 0 to %" PRIu64, name, text, most);
    return value;
}

static void set_reference(request *r, const char *text)
{
    r->sharpest = strcmp(text, "sharpest") == 0;
    r->reference = r->sharpest ? 0 : number("reference", text, UINT32_MAX);
    r->has_reference = 1;
}

static stacker_noise curve(const char *name, const char *text)
{
    int end = 0;
    stacker_noise noise;
    if (sscanf(text, "%lf,%lf%n", &noise.shot, &noise.read, &end) != 2 || text[end] != 0)
        fail(WRONG, "--%s: %s is not SHOT,READ", name, text);
    return noise;
}

static void set_black(request *r, const char *text)
{
    int end = 0;
    uint16_t *b = r->black;
    if (strchr(text, ',') == NULL)
        b[0] = b[1] = b[2] = b[3] = (uint16_t)number("black", text, UINT16_MAX);
    else if (sscanf(text, "%5hu,%5hu,%5hu,%5hu%n", &b[0], &b[1], &b[2], &b[3], &end) != 4 || text[end] != 0)
        fail(WRONG, "--black: %s is not R,G,G,B", text);
    r->has_black = 1;
}

static void set_crop(request *r, const char *text)
{
    int end = 0;
    part *p = &r->crop;
    r->has_crop = 1;
    if (strcmp(text, "max") == 0)
        return;
    int read = sscanf(text, "%5" SCNu64 "x%5" SCNu64 "+%5" SCNu64 "+%5" SCNu64 "%n", &p->width, &p->height, &p->left, &p->top, &end);
    if (read != 4 || text[end] != 0 || p->width == 0 || p->height == 0)
        fail(WRONG, "--crop: %s is neither WxH+X+Y nor max", text);
    if (p->left % 2 != 0 || p->top % 2 != 0)
        fail(WRONG, "--crop: %s begins at an odd place, where the colours of a frame change", text);
}

static void set_scale(request *r, const char *text)
{
    int end = 0;
    factor *f = &r->scale;
    *f = (factor){ SAMPLE_MOST, 0 };
    r->has_scale = 1;
    if (strcmp(text, "max") == 0)
        return;
    f->over = 1;
    int read = sscanf(text, "%5" SCNu64 "%n/%5" SCNu64 "%n", &f->times, &end, &f->over, &end);
    if (read < 1 || text[end] != 0 || f->over == 0)
        fail(WRONG, "--scale: %s is neither a whole number, A/B nor max", text);
}

/* the options that take a whole number, by their letter: where it goes, and the most that is read here; what the library refuses goes further */
static void set_number(request *r, int letter, const char *text)
{
    switch (letter) {
    case 's': r->strength = number("strength", text, UINT32_MAX); r->has_strength = 1; break;
    case 't': r->side = number("side", text, UINT32_MAX); break;
    case 'f': r->spatial = number("spatial", text, UINT32_MAX); break;
    case 'i': r->iso = (uint32_t)number("iso", text, UINT32_MAX); break;
    case 'j': r->threads = number("threads", text, UINT32_MAX); break;
    case 'a': r->apart = number("apart", text, 2 * VECTOR_MOST); break;
    default: r->lifted = text != NULL ? number("lifted", text, UINT32_MAX) : 1; r->has_lifted = 1; break;
    }
}

static void set(request *r, int letter, const char *text)
{
    switch (letter) {
    case 'o': r->output = text; break;
    case 'v': r->vectors = text; break;
    case 'p': r->page = text; break;
    case 'r': set_reference(r, text); break;
    case 'n': r->noise = curve("noise", text); r->has_noise = 1; break;
    case 'u': r->upper = curve("upper", text); r->has_upper = 1; break;
    case 'L': r->low = text; break;
    case 'H': r->high = text; break;
    case 'b': set_black(r, text); break;
    case 'c': set_crop(r, text); break;
    case 'm': set_scale(r, text); break;
    case 'q': quiet = 1; break;
    default: set_number(r, letter, text); break;
    }
}

/* fills in the request; answers the index of the first argument that is no option */
int options(request *r, int argc, char **argv)
{
    static const struct option table[] = { { "output", 1, 0, 'o' }, { "vectors", 1, 0, 'v' }, { "page", 1, 0, 'p' }, { "reference", 1, 0, 'r' },
        { "strength", 1, 0, 's' }, { "side", 1, 0, 't' }, { "spatial", 1, 0, 'f' }, { "noise", 1, 0, 'n' }, { "upper", 1, 0, 'u' },
        { "low", 1, 0, 'L' }, { "high", 1, 0, 'H' }, { "iso", 1, 0, 'i' }, { "black", 1, 0, 'b' },
        { "crop", 1, 0, 'c' }, { "scale", 1, 0, 'm' }, { "apart", 1, 0, 'a' }, { "lifted", 2, 0, 'l' }, { "threads", 1, 0, 'j' }, { "quiet", 0, 0, 'q' },
        { "help", 0, 0, 'h' }, { "version", 0, 0, 'V' }, { 0, 0, 0, 0 } };
    for (int letter; (letter = getopt_long(argc, argv, "o:v:p:r:s:t:f:n:u:L:H:i:b:c:m:a:l::j:qhV", table, NULL)) != -1;) {
        if (letter == '?')
            exit(WRONG);
        if (letter == 'h')
            for (size_t i = 0; i < sizeof help / sizeof *help; i++)
                fputs(help[i], stdout);
        if (letter == 'V')
            puts("stacker " STACKER_VERSION);
        if (letter == 'h' || letter == 'V')
            exit(fflush(stdout) == 0 ? DONE : WRONG);
        set(r, letter, optarg);
    }
    return optind;
}
