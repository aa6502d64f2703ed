#include "align_levels.h"

#include "pyramid.h"

#include <string.h>

/* How a level's tiles find their guess: f and q towards the coarser level. */
typedef struct {
    int side, f, q;
} level_rule;

static const level_rule RULES[LEVELS] = { { 16, 2, 2 }, { 16, 4, 4 }, { 16, 4, 2 }, { 8, 0, 0 } };

/* The vectors of one level, tiles row by row. */
typedef struct {
    int columns, rows;
    vector *vectors;
} field;

struct alignment {
    pyramid reference, other;
    field fields[LEVELS];
};

vector OFFSET[OFFSETS];

static int by_tie_order(const void *a, const void *b)
{
    const vector *p = a, *q = b;
    int near = abs(p->down - REACH) + abs(p->right - REACH), far = abs(q->down - REACH) + abs(q->right - REACH);
    if (near != far)
        return near - far;
    return p->down != q->down ? p->down - q->down : p->right - q->right;
}

static int tiles_along(int size, int step)
{
    return (size + step - 1) / step + 1;
}

void *make_alignment(const burst *b)
{
    alignment *a = allocated(sizeof *a);
    a->reference = make_pyramid(b->width, b->height);
    a->other = make_pyramid(b->width, b->height);
    for (int i = 0; i < LEVELS; i++) {
        field *f = &a->fields[i];
        f->columns = tiles_along(a->reference.level[i].width, RULES[i].side / 2);
        f->rows = tiles_along(a->reference.level[i].height, RULES[i].side / 2);
        f->vectors = allocated((size_t)f->columns * f->rows * sizeof(vector));
    }
    for (int i = 0; i < OFFSETS; i++)
        OFFSET[i] = (vector){ i / 9, i % 9 };
    qsort(OFFSET, OFFSETS, sizeof *OFFSET, by_tie_order);
    return a;
}

void free_alignment(void *scratch)
{
    alignment *a = scratch;
    free_pyramid(&a->reference);
    free_pyramid(&a->other);
    for (int i = 0; i < LEVELS; i++)
        free(a->fields[i].vectors);
    free(a);
}

/* A square of a level, mirrored outside. */
static inline void copy_square(const image *in, int top, int left, int size, block out)
{
    int inside = left >= 0 && left + size <= in->width;
    for (int y = 0; y < size; y++) {
        const int16_t *row = in->values + (size_t)mirrored(top + y, in->height) * in->width;
        if (inside)
            memcpy(out[y], row + left, (size_t)size * sizeof **out);
        else
            for (int x = 0; x < size; x++)
                out[y][x] = row[mirrored(left + x, in->width)];
    }
}

/* The same with the size as a constant, for the compiler. */
static void copy_block(const image *in, int top, int left, int size, block out)
{
    switch (size) {
    case WINDOW:
        copy_square(in, top, left, WINDOW, out);
        break;
    case SIDE:
        copy_square(in, top, left, SIDE, out);
        break;
    default:
        copy_square(in, top, left, size, out);
    }
}

static int own_index(int a, int q, int last)
{
    int own = (2 * a + q) / (2 * q);
    return own < last ? own : last;
}

static int neighbour_index(int a, int q, int last)
{
    int own = (2 * a + q) / (2 * q), neighbour = a / q < own ? a / q : own + 1;
    return neighbour < last ? neighbour : last;
}

/* The best of own, sideways and vertical coarse vectors, by absolute sums. */
static vector best_candidate(const image *other, const level_rule *rule, const field *coarse, int row, int column, const tile_search *search,
    const block tile)
{
    int own_row = own_index(row, rule->q, coarse->rows - 1), own_column = own_index(column, rule->q, coarse->columns - 1);
    int rows[3] = { own_row, own_row, neighbour_index(row, rule->q, coarse->rows - 1) };
    int columns[3] = { own_column, neighbour_index(column, rule->q, coarse->columns - 1), own_column };
    uint64_t least = UINT64_MAX;
    vector best = { 0, 0 };
    for (int i = 0; i < 3; i++) {
        vector v = coarse->vectors[rows[i] * coarse->columns + columns[i]];
        v = (vector){ v.down * rule->f, v.right * rule->f };
        block moved;
        copy_block(other, STEP * (row - 1) + v.down, STEP * (column - 1) + v.right, SIDE, moved);
        uint64_t sum = search->candidate(tile, moved);
        if (sum < least) {
            least = sum;
            best = v;
        }
    }
    return best;
}

/* One level of one frame; the sum of its residuals. The coarsest level has no coarser field and starts at rest. */
static uint64_t align_level(const image *reference, const image *other, int level, const field *coarse, const tile_search *search, field *fine)
{
    const level_rule *rule = &RULES[level];
    int (*least)(const block, const block, uint64_t *) = level == 0 ? search->absolute : rule->side == 16 ? search->squared : search->squared_small;
    uint64_t residuals = 0;
    for (int i = 0; i < fine->rows * fine->columns; i++) {
        int row = i / fine->columns, column = i % fine->columns, top = rule->side / 2 * (row - 1), left = rule->side / 2 * (column - 1);
        _Alignas(64) block tile, window;
        copy_block(reference, top, left, rule->side, tile);
        vector guess = coarse ? best_candidate(other, rule, coarse, row, column, search, tile) : (vector){ 0, 0 };
        copy_block(other, top + guess.down - REACH, left + guess.right - REACH, rule->side + 2 * REACH, window);
        uint64_t sum;
        vector offset = OFFSET[least(tile, window, &sum)];
        fine->vectors[i] = (vector){ guess.down + offset.down - REACH, guess.right + offset.right - REACH };
        residuals += sum;
    }
    return residuals;
}

static uint64_t align_frame(const uint16_t *frame, alignment *a, const tile_search *search)
{
    uint64_t residuals = 0;
    build_pyramid(frame, &a->other);
    for (int i = LEVELS - 1; i >= 0; i--)
        residuals = align_level(&a->reference.level[i], &a->other.level[i], i, i + 1 < LEVELS ? &a->fields[i + 1] : NULL, search, &a->fields[i]);
    return residuals;
}

void align_levels(const burst *b, alignment *a, const tile_search *search, vector *vectors, uint64_t residuals[7])
{
    size_t tiles = (size_t)a->fields[0].columns * a->fields[0].rows;
    memset(residuals, 0, 7 * sizeof *residuals);
    build_pyramid(frame_of(b, b->reference), &a->reference);
    for (int k = 0; k + 1 < b->count; k++) {
        residuals[k] = align_frame(frame_of(b, other_frame(b, k)), a, search);
        memcpy(vectors + k * tiles, a->fields[0].vectors, tiles * sizeof(vector));
    }
}
