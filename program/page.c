/* The inspection page: page.html with its style and script, the facts as JSON, and pictures and tiles in words of 12 bits, each as two digits of base 64. */
#include "program.h"

#include <inttypes.h>
#include <string.h>

static const char *const text[] = {
#include "page.inc"
};

static void put_word(FILE *to, unsigned value)
{
    static const char digits[] = "ABCDEFGHIJKLMNOPQRSTUVWXYZabcdefghijklmnopqrstuvwxyz0123456789+/";
    fputc(digits[value >> 6 & 63], to);
    fputc(digits[value & 63], to);
}

/* one word for each square of four samples: their mean, to nearest */
static void put_picture(FILE *to, const job *j, const uint16_t *frame)
{
    size_t width = j->burst.width;
    for (size_t i = 0; i < j->area / 4; i++) {
        const uint16_t *at = frame + 2 * (i / (width / 2) * width + i % (width / 2));
        put_word(to, (unsigned)(at[0] + at[1] + at[width] + at[width + 1] + 2) / 4);
    }
}

/* six words for each tile: down and right above 2048; the residual at its own vector and at the common one, high word first */
static void put_tiles(FILE *to, const job *j, const field *f)
{
    const int32_t *vectors = j->vectors + 2 * j->tiles * (size_t)(f - j->fields);
    for (size_t t = 0; t < j->tiles; t++) {
        put_word(to, (unsigned)(vectors[2 * t] + 2048));
        put_word(to, (unsigned)(vectors[2 * t + 1] + 2048));
        put_word(to, (unsigned)(f->own[t] >> 12));
        put_word(to, (unsigned)f->own[t]);
        put_word(to, (unsigned)(f->at_common[t] >> 12));
        put_word(to, (unsigned)f->at_common[t]);
    }
}

static void put_frames(FILE *to, const job *j)
{
    for (uint64_t k = 0; k + 1 < j->burst.count; k++) {
        const field *f = &j->fields[k];
        fprintf(to, "%s\n  {\"frame\": %" PRIu64 ", \"residual\": %" PRIu64 ", \"common\": [%" PRId32 ", %" PRId32 "], \"apart\": %zu, \"lifted\": [", k ? "," : "",
            f->frame, j->answer.residuals[k], f->common[0], f->common[1], f->apart);
        for (size_t t = 0, some = 0; t < j->tiles; t++)
            if (f->is_lifted[t])
                fprintf(to, "%s%zu", some++ == 0 ? "" : ",", t);
        fputs("], \"words\": \"", to);
        put_tiles(to, j, f);
        fputs("\"}", to);
    }
}

static void put_data(FILE *to, const job *j, const request *r)
{
    write_facts(to, j, r);
    fputs(",\n \"picture\": \"", to);
    put_picture(to, j, j->samples + j->burst.reference * j->area);
    fputs("\",\n \"merged\": \"", to);
    if (j->is_merged)
        put_picture(to, j, j->merged);
    fputs("\",\n \"frames\": [", to);
    put_frames(to, j);
    fputs("]}\n", to);
}

void write_page(FILE *to, const job *j, const request *r)
{
    for (size_t i = 0; i < sizeof text / sizeof *text; i++)
        if (strcmp(text[i], "@data@\n") == 0)
            put_data(to, j, r);
        else
            fputs(text[i], to);
}
