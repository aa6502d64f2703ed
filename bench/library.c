/* This library, through its header. */
#include "peers/peers.h"
#include "stacker.h"

#include <stdio.h>
#include <string.h>

static size_t pixels(const burst *b)
{
    return (size_t)b->width * b->height;
}

static size_t vector_words(const burst *b)
{
    return (size_t)(b->count - 1) * 2 * tile_columns(b) * tile_rows(b);
}

static void must_accept(const char *call, uint64_t refusal)
{
    if (refusal == 0)
        return;
    printf("%s refuses: %s\n", call, stacker_refusal_text(refusal));
    exit(1);
}

static void *make(const burst *b)
{
    return allocated(2 * pixels(b) * sizeof(int64_t));
}

static stacker_burst described(const burst *b)
{
    return (stacker_burst){ .width = (uint64_t)b->width, .height = (uint64_t)b->height, .count = (uint64_t)b->count,
        .reference = (uint64_t)b->reference, .row_length = (uint64_t)b->width };
}

static void align(void *scratch, const burst *b, const noise_levels *n, result *r)
{
    stacker_tuning tuning = STACKER_TUNING(n->strength);
    stacker_alignment answer = stacker_align(described(b), tuning, b->samples, b->count * pixels(b), &r->vectors->down, vector_words(b), scratch,
        2 * pixels(b));
    must_accept("stacker_align", answer.refusal);
    memcpy(r->residuals, answer.residuals, sizeof answer.residuals);
}

static void merge(void *scratch, const burst *b, const noise_levels *n, result *r)
{
    stacker_noise noise = { .shot = (double)n->shot / 1024, .read = (double)n->read / 1024 };
    stacker_tuning tuning = STACKER_TUNING(n->strength);
    uint64_t refusal = stacker_merge(described(b), noise, tuning, b->samples, b->count * pixels(b), &r->vectors->down, vector_words(b), r->output,
        pixels(b), scratch, 2 * pixels(b));
    must_accept("stacker_merge", refusal);
}

const peer library_align = { "this library", 1, make, free, align };
const peer library_merge = { "this library", 1, make, free, merge };
