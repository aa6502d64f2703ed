/* Which tiles have lifted. A tile without texture matches anywhere, so its vector alone tells nothing: a tile counts as lifted if its vector is more than
   `apart` steps from the frame's most frequent one, and its residual there is over 1.25 times that at its own. Tiles that reach past the
   frame's edge, themselves or at the common vector, are not judged: what they would be compared with was not taken. */
#include "program.h"

#include <stdlib.h>
#include <string.h>

enum { SPAN = 2 * VECTOR_MOST + 1 };

static int32_t reach(const int32_t *vector, const int32_t *from)
{
    int32_t down = abs(vector[0] - from[0]), right = abs(vector[1] - from[1]);
    return down > right ? down : right;
}

/* the most frequent vector; of several the one whose last tile comes first */
static void find_common(const job *j, field *f, const int32_t *vectors)
{
    static const int32_t none[2];
    uint32_t *seen = room(SPAN * SPAN, sizeof *seen), most = 0;
    for (size_t t = 0; t < j->tiles; t++) {
        const int32_t *v = vectors + 2 * t;
        uint32_t times = ++seen[(v[0] + VECTOR_MOST) * SPAN + v[1] + VECTOR_MOST];
        if (times > most) {
            most = times;
            memcpy(f->common, v, sizeof f->common);
        }
        f->still += v[0] == 0 && v[1] == 0;
        f->far = reach(v, none) > f->far ? reach(v, none) : f->far;
    }
    free(seen);
}

static int within(int64_t start, int64_t side, uint64_t samples)
{
    return start >= 0 && start + side <= (int64_t)samples / 2;
}

static int is_judged(const job *j, const field *f, size_t t)
{
    int64_t side = (int64_t)j->side, half = side / 2;
    int64_t top = half * (int64_t)(t / j->tile_columns) - half, left = half * (int64_t)(t % j->tile_columns) - half;
    return within(top, side, j->burst.height) && within(left, side, j->burst.width) && within(top + f->common[0], side, j->burst.height)
        && within(left + f->common[1], side, j->burst.width);
}

static void judge(const job *j, field *f, const int32_t *vectors, uint64_t apart)
{
    for (size_t t = 0; t < j->tiles; t++) {
        int judged = is_judged(j, f, t), is_apart = (uint64_t)reach(vectors + 2 * t, f->common) > apart;
        f->is_lifted[t] = judged && is_apart && 4 * f->at_common[t] > 5 * f->own[t];
        f->unjudged += !judged;
        f->apart += (size_t)is_apart;
        f->lifted += f->is_lifted[t];
    }
}

/* every tile's residual at its own vector, and at its frame's common one */
static void measure(job *j)
{
    int32_t *common = room(j->vectors_length, sizeof *common);
    for (size_t i = 0; i < j->vectors_length / 2; i++)
        memcpy(common + 2 * i, j->fields[i / j->tiles].common, 2 * sizeof *common);
    residuals_at(j, j->vectors, j->own);
    residuals_at(j, common, j->at_common);
    free(common);
}

void find_lifted(job *j, const request *r)
{
    progress("looking for lifted tiles ");
    j->own = room(j->vectors_length / 2, sizeof *j->own);
    j->at_common = room(j->vectors_length / 2, sizeof *j->at_common);
    for (uint64_t k = 0; k + 1 < j->burst.count; k++) {
        field *f = &j->fields[k];
        f->frame = k + (k >= j->burst.reference);
        f->own = j->own + j->tiles * k;
        f->at_common = j->at_common + j->tiles * k;
        f->is_lifted = room(j->tiles, 1);
        find_common(j, f, j->vectors + 2 * j->tiles * k);
    }
    measure(j);
    for (uint64_t k = 0; k + 1 < j->burst.count; k++)
        judge(j, &j->fields[k], j->vectors + 2 * j->tiles * k, r->apart);
}

size_t lifted_tiles(const job *j)
{
    size_t sum = 0;
    for (uint64_t k = 0; k + 1 < j->burst.count; k++)
        sum += j->fields[k].lifted;
    return sum;
}
