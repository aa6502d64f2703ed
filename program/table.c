/* Vectors and residuals as JSON and as CSV. */
#include "program.h"

#include <inttypes.h>
#include <math.h>

/* how many bytes of well-formed UTF-8 stand here, 0 where none does */
static int character(const unsigned char *at)
{
    int more = at[0] < 0x80 ? 0 : at[0] >= 0xc2 && at[0] < 0xe0 ? 1 : (at[0] & 0xf0) == 0xe0 ? 2 : at[0] >= 0xf0 && at[0] < 0xf5 ? 3 : -1;
    for (int i = 1; i <= more; i++)
        if ((at[i] & 0xc0) != 0x80)
            return 0;
    return more + 1;
}

/* a JSON string that may stand in an HTML script too; bytes that are no UTF-8 become the replacement character */
static void put_string(FILE *to, const char *text)
{
    fputc('"', to);
    for (int length; *text; text += length > 0 ? length : 1) {
        length = character((const unsigned char *)text);
        if (length == 0)
            fputs("\\ufffd", to);
        else if (*text == '"' || *text == '\\' || *text == '<' || (unsigned char)*text < 32)
            fprintf(to, "\\u%04x", (unsigned char)*text);
        else
            fwrite(text, 1, (size_t)length, to);
    }
    fputc('"', to);
}

/* JSON has no number for what is not finite */
static void put_number(FILE *to, const char *name, double value)
{
    if (isfinite(value))
        fprintf(to, " \"%s\": %.17g,", name, value);
    else
        fprintf(to, " \"%s\": null,", name);
}

static void put_names(FILE *to, const job *j)
{
    for (int i = 0; i < j->files; i++) {
        fputs(i == 0 ? "[" : ", ", to);
        put_string(to, j->names[i]);
    }
    fputs("]", to);
}

static void put_conversion(FILE *to, const request *r)
{
    const char *what = r->has_crop && r->has_scale ? "cropped and scaled" : r->has_crop ? "cropped" : "scaled";
    if (r->has_crop || r->has_scale)
        fprintf(to, " \"outside_the_proofs\": \"frames %s before they were read\",\n", what);
}

/* what is said of the whole burst, without its closing brace */
void write_facts(FILE *to, const job *j, const request *r)
{
    const stacker_burst *b = &j->burst;
    fprintf(to, "{\"stacker\": \"%s\", \"width\": %" PRIu64 ", \"height\": %" PRIu64 ", \"count\": %" PRIu64 ", \"reference\": %" PRIu64 ",\n", STACKER_VERSION,
        b->width, b->height, b->count, b->reference);
    put_number(to, "shot", r->noise.shot);
    put_number(to, "read", r->noise.read);
    fprintf(to, " \"iso\": %" PRIu32 ", \"strength\": %" PRIu64 ", \"spatial\": %" PRIu64 ", \"black\": [%d, %d, %d, %d],\n", r->iso, r->strength, r->spatial,
        b->black[0], b->black[1], b->black[2], b->black[3]);
    fprintf(to, " \"side\": %" PRIu64 ", \"tile_rows\": %zu, \"tile_columns\": %zu, \"apart\": %" PRIu64 ", \"rows\": %" PRIu64 ",\n", j->side, j->tile_rows,
        j->tile_columns, r->apart, j->answer.rows);
    put_conversion(to, r);
    fputs(" \"files\": ", to);
    put_names(to, j);
}

/* one other frame, without its closing brace */
static void put_field(FILE *to, const job *j, const field *f)
{
    fprintf(to, "{\"frame\": %" PRIu64 ", \"residual\": %" PRIu64 ", \"common\": [%" PRId32 ", %" PRId32 "], \"far\": %" PRId32, f->frame,
        j->answer.residuals[f - j->fields], f->common[0], f->common[1], f->far);
    fprintf(to, ", \"tiles\": %zu, \"still\": %zu, \"apart\": %zu, \"unjudged\": %zu, \"lifted\": %zu", j->tiles, f->still, f->apart, f->unjudged,
        f->lifted);
}

static void put_list(FILE *to, const char *name, const uint64_t *values, size_t count)
{
    fprintf(to, ",\n   \"%s\": [", name);
    for (size_t t = 0; t < count; t++)
        fprintf(to, "%s%" PRIu64, t == 0 ? "" : ",", values[t]);
    fputs("]", to);
}

static void put_tiles(FILE *to, const job *j, const field *f)
{
    const int32_t *vectors = j->vectors + 2 * j->tiles * (size_t)(f - j->fields);
    fputs(",\n   \"vectors\": [", to);
    for (size_t t = 0; t < 2 * j->tiles; t++)
        fprintf(to, "%s%" PRId32, t == 0 ? "" : ",", vectors[t]);
    fputs("]", to);
    put_list(to, "residuals", f->own, j->tiles);
    put_list(to, "residuals_at_common", f->at_common, j->tiles);
    fputs(",\n   \"lifted_tiles\": [", to);
    for (size_t t = 0, some = 0; t < j->tiles; t++)
        if (f->is_lifted[t])
            fprintf(to, "%s%zu", some++ == 0 ? "" : ",", t);
    fputs("]", to);
}

void write_json(FILE *to, const job *j, const request *r)
{
    write_facts(to, j, r);
    fputs(",\n \"frames\": [", to);
    for (uint64_t k = 0; k + 1 < j->burst.count; k++) {
        fputs(k == 0 ? "\n  " : ",\n  ", to);
        put_field(to, j, &j->fields[k]);
        put_tiles(to, j, &j->fields[k]);
        fputs("}", to);
    }
    fputs("]}\n", to);
}

/* y and x are the tile's middle, in samples */
void write_csv(FILE *to, const job *j, const request *r)
{
    (void)r;
    fputs("frame,tile_row,tile_column,y,x,down,right,residual,residual_at_common,lifted\n", to);
    for (size_t i = 0; i < (j->burst.count - 1) * j->tiles; i++) {
        const field *f = &j->fields[i / j->tiles];
        size_t t = i % j->tiles, row = t / j->tile_columns, column = t % j->tile_columns;
        fprintf(to, "%" PRIu64 ",%zu,%zu,%zu,%zu,%" PRId32 ",%" PRId32, f->frame, row, column, (size_t)j->side * row, (size_t)j->side * column,
            j->vectors[2 * i], j->vectors[2 * i + 1]);
        fprintf(to, ",%" PRIu64 ",%" PRIu64 ",%d\n", f->own[t], f->at_common[t], f->is_lifted[t]);
    }
}
