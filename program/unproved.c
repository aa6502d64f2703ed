/* Outside the proofs: what a file is, by its first bytes; the head of a PGM file in another spelling than the library's, for --scale; and an entry of a DNG
   file, for --crop and for writing over its strip. The proved readers test each file whole. */
#include "program.h"

#include <string.h>

uint64_t little(const uint8_t *at, int bytes)
{
    uint64_t value = 0;
    for (int i = 0; i < bytes; i++)
        value |= (uint64_t)at[i] << 8 * i;
    return value;
}

/* the first entry of a tag with one SHORT or LONG in the first directory, or NULL */
uint8_t *dng_entry(content file, unsigned tag)
{
    enum { SHORT = 3, LONG = 4 };
    uint64_t at = file.length < 8 ? file.length : little(file.bytes + 4, 4);
    uint64_t entries = at + 2 <= file.length ? little(file.bytes + at, 2) : 0;
    for (uint64_t i = 0; i < entries && at + 2 + 12 * (i + 1) <= file.length; i++) {
        uint8_t *entry = file.bytes + at + 2 + 12 * i;
        uint64_t type = little(entry + 2, 2);
        if (little(entry, 2) == tag && (type == SHORT || type == LONG) && little(entry + 4, 4) == 1)
            return entry;
    }
    return NULL;
}

/* its value, or 0 */
uint64_t dng_value(content file, unsigned tag)
{
    const uint8_t *entry = dng_entry(file, tag);
    return entry == NULL ? 0 : little(entry + 8, little(entry + 2, 2) == 3 ? 2 : 4);
}

/* the first place from `at` on that is neither white space nor in a comment, as Netpbm passes over them */
static size_t behind_space(content file, size_t at)
{
    int comment = 0;
    for (; at < file.length; at++) {
        uint8_t byte = file.bytes[at];
        int space = byte == ' ' || (byte >= '\t' && byte <= '\r');
        if (comment || byte == '#')
            comment = byte != '\n';
        else if (!space)
            break;
    }
    return at;
}

/* the whole number behind white space and comments; *at moves behind it. UINT64_MAX where none stands, and no more than 8 digits are heeded. */
static uint64_t pgm_number(content file, size_t *at)
{
    uint64_t value = UINT64_MAX;
    for (*at = behind_space(file, *at); *at < file.length && file.bytes[*at] >= '0' && file.bytes[*at] <= '9'; (*at)++) {
        value = value == UINT64_MAX ? 0 : value;
        value = value < 10000000 ? 10 * value + file.bytes[*at] - '0' : value;
    }
    return value;
}

static head pgm_head(content file)
{
    stacker_pgm told = stacker_pgm_size(file.bytes, file.length);
    head found = { .kind = PGM, .refusal = told.refusal, .count = 1 };
    size_t at = 2;
    uint64_t width = pgm_number(file, &at), height = pgm_number(file, &at), maxval = pgm_number(file, &at);
    if (width == UINT64_MAX || height == UINT64_MAX || maxval == UINT64_MAX)
        return found;
    found.width = told.refusal == STACKER_ACCEPTED ? told.width : width;
    found.height = told.refusal == STACKER_ACCEPTED ? told.height : height;
    found.maxval = maxval;
    found.samples = at < file.length ? at + 1 : at;
    return found;
}

static head dng_head(content file)
{
    stacker_dng_frame told = stacker_dng_size(file.bytes, file.length);
    return (head){ .kind = DNG, .refusal = told.refusal, .tag = told.tag, .width = told.width, .height = told.height, .count = 1 };
}

static head burst_head(content file)
{
    stacker_file told = stacker_file_size(file.bytes, file.length);
    return (head){ .kind = BURST, .refusal = told.refusal, .width = told.width, .height = told.height, .count = told.count };
}

head head_of(content file)
{
    if (file.length >= 2 && (memcmp(file.bytes, "II", 2) == 0 || memcmp(file.bytes, "MM", 2) == 0))
        return dng_head(file);
    if (file.length >= 2 && memcmp(file.bytes, "P5", 2) == 0)
        return pgm_head(file);
    if (file.length >= 5 && memcmp(file.bytes, "width", 5) == 0)
        return burst_head(file);
    return (head){ .kind = OTHER };
}
