/* Outside the proofs: --crop and --scale. Each makes another file in memory, of a size and spelling that the proved readers take; they read and test
   that one as any other. */
#include "program.h"

#include <inttypes.h>
#include <stdlib.h>
#include <string.h>

/* the largest part in the middle, at even offsets and of sides that are multiples of 64 up to 4096 */
static part middle(uint64_t width, uint64_t height)
{
    part p = { width / 64 * 64, height / 64 * 64, 0, 0 };
    p.width = p.width < SIDE_MOST ? p.width : SIDE_MOST;
    p.height = p.height < SIDE_MOST ? p.height : SIDE_MOST;
    p.left = (width - p.width) / 4 * 2;
    p.top = (height - p.height) / 4 * 2;
    return p;
}

/* what is taken of a file's frame: all of it where --crop is not given */
static part taken(const char *path, const head *found, const request *r)
{
    part p = { found->width, found->height, 0, 0 };
    if (r->has_crop)
        p = r->crop.width != 0 ? r->crop : middle(found->width, found->height);
    if (p.width == 0 || p.height == 0 || p.left + p.width > found->width || p.top + p.height > found->height)
        fail(WRONG, "%s: %" PRIu64 "x%" PRIu64 "+%" PRIu64 "+%" PRIu64 " does not lie in a frame of %" PRIu64 " by %" PRIu64, path, p.width, p.height, p.left,
            p.top, found->width, found->height);
    return p;
}

static void put_little(uint8_t *at, uint64_t value, int bytes)
{
    for (int i = 0; i < bytes; i++)
        at[i] = (uint8_t)(value >> 8 * i);
}

/* an entry's value as LONG */
static void put_value(content file, unsigned tag, uint64_t value)
{
    uint8_t *entry = dng_entry(file, tag);
    if (entry != NULL) {
        put_little(entry + 2, 4, 2);
        put_little(entry + 8, value, 4);
    }
}

/* takes out the entries that speak of places in the whole frame: crops, areas and opcodes */
static void without_places(content file)
{
    static const unsigned tags[] = { 50719, 50720, 50829, 50830, 51008, 51009, 51022 };
    uint64_t at = little(file.bytes + 4, 4), entries = at + 2 <= file.length ? little(file.bytes + at, 2) : 0, kept = 0;
    if (at + 2 + 12 * entries > file.length)
        return;
    uint8_t *first = file.bytes + at + 2;
    for (uint64_t i = 0; i < entries; i++) {
        int about_places = 0;
        for (size_t t = 0; t < sizeof tags / sizeof *tags; t++)
            about_places |= little(first + 12 * i, 2) == tags[t];
        if (!about_places)
            memmove(first + 12 * kept++, first + 12 * i, 12);
    }
    memset(first + 12 * kept, 0, 12 * (size_t)(entries - kept)); /* behind the entries stands the next directory's offset: none */
    put_little(file.bytes + at, kept, 2);
}

/* the part's samples in place of the strip where that comes last, else behind all else, and the tags that say so */
static content cropped_dng(content file, const head *found, part p)
{
    uint64_t strip = dng_value(file, 273), end = strip + 2 * found->width * found->height, length = 2 * p.width * p.height;
    int small = found->width <= UINT16_MAX && found->height <= UINT16_MAX && file.length + length <= UINT32_MAX;
    if (!small || end > file.length)
        return file; /* refused by the proved reader: 19, or 1 for its size */
    uint64_t start = end == file.length ? strip : file.length;
    content made = { room(start + length, 1), start + length };
    memcpy(made.bytes, file.bytes, start);
    for (uint64_t y = 0; y < p.height; y++)
        memcpy(made.bytes + start + 2 * p.width * y, file.bytes + strip + 2 * ((p.top + y) * found->width + p.left), 2 * p.width);
    put_value(made, 256, p.width);
    put_value(made, 257, p.height);
    put_value(made, 273, start);
    put_value(made, 278, p.height);
    put_value(made, 279, length);
    without_places(made);
    free(file.bytes);
    return made;
}

/* a sample times the factor, to nearest, halves upward; what does not fit 16 bits is 65535, which the proved reader refuses */
static uint64_t scaled(uint64_t sample, factor f, uint64_t maxval)
{
    uint64_t over = f.over != 0 ? f.over : maxval, value = (2 * sample * f.times + over) / (2 * over);
    return value < UINT16_MAX ? value : UINT16_MAX;
}

/* the part's samples under a head that the proved reader takes */
static content converted_pgm(const char *path, content file, const head *found, part p, factor f)
{
    uint64_t bytes = found->maxval > 255 ? 2 : 1;
    if (found->maxval == 0 || found->maxval > UINT16_MAX || found->samples + bytes * found->width * found->height > file.length)
        fail(WRONG, "%s: no PGM file, or cut short", path);
    char text[64];
    int start = snprintf(text, sizeof text, "P5\n%" PRIu64 " %" PRIu64 "\n4095\n", p.width, p.height);
    content made = { room((size_t)start + 2 * p.width * p.height, 1), (size_t)start + 2 * p.width * p.height };
    memcpy(made.bytes, text, (size_t)start);
    uint8_t *to = made.bytes + start;
    for (uint64_t i = 0; i < p.width * p.height; i++) {
        const uint8_t *at = file.bytes + found->samples + bytes * ((p.top + i / p.width) * found->width + p.left + i % p.width);
        uint64_t sample = scaled(bytes == 2 ? (uint64_t)at[0] << 8 | at[1] : at[0], f, found->maxval);
        *to++ = (uint8_t)(sample >> 8);
        *to++ = (uint8_t)sample;
    }
    free(file.bytes);
    return made;
}

/* the file as --crop and --scale ask for it; its head is that of the file made */
content converted(const char *path, content file, head *found, const request *r)
{
    if (r->has_scale && found->kind != PGM)
        fail(WRONG, "%s: --scale is for PGM files", path);
    if (found->kind != DNG && found->kind != PGM)
        fail(WRONG, "%s: --crop is for DNG and PGM files", path);
    if (found->kind == PGM ? !r->has_scale && found->maxval != SAMPLE_MOST : found->refusal != STACKER_ACCEPTED)
        return file; /* refused by the proved reader: 17, or 19 to 21 */
    part p = taken(path, found, r);
    factor as_is = { 1, 1 };
    content made = found->kind == DNG ? cropped_dng(file, found, p) : converted_pgm(path, file, found, p, r->has_scale ? r->scale : as_is);
    *found = head_of(made);
    return made;
}
