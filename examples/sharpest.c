/* Four noisy frames of a card, of which the trigger came early for the first: it is soft. One call takes the sharpest of the first three as the
   reference and merges the others on it. It prints the index chosen, and how far the merged frame is from the card without noise, beside a merge
   on frame 0. It ends with 1 where a call is refused, frame 0 is chosen, or the merge on it is not twice as far. */
#include "card.h"
#include "stacker.h"

#include <inttypes.h>
#include <stdio.h>

enum { SIDE = 512, FRAMES = 4, SOFT = 0, TILES = SIDE / 16 + 1, FRAME = SIDE * SIDE, VECTORS = (FRAMES - 1) * 2 * TILES * TILES };

/* The noise of a sample x has the variance SHOT x + READ. The strength counts eighths of tau. */
static const stacker_noise noise = { .shot = 0.25, .read = 16 };
static const stacker_tuning tuning = { .strength = 600, .side = 16 };

/* the lent buffers, of the lengths that stacker.h gives */
static uint16_t samples[FRAMES * FRAME], merged[FRAME];
static int32_t vectors[VECTORS];
static int64_t work[2 * FRAME];

/* The light at a place of a frame. In the soft one it is spread over places up to six samples away. */
static double light(int frame, int y, int x)
{
    if (frame != SOFT)
        return card(y, x);
    double sum = 0;
    for (int down = -6; down <= 6; down += 3)
        for (int right = -6; right <= 6; right += 3)
            sum += card(y + down, x + right);
    return sum / 25;
}

/* A random number of mean 0 and variance 1: twelve uniform ones of a linear congruence. */
static double deviation(void)
{
    static uint64_t state = 1;
    double sum = -6;
    for (int i = 0; i < 12; i++) {
        state = state * 6364136223846793005u + 1442695040888963407u;
        sum += ldexp((double)(state >> 11), -53);
    }
    return sum;
}

static void take_frames(void)
{
    for (int i = 0; i < FRAMES * FRAME; i++) {
        double level = light(i / FRAME, i / SIDE % SIDE, i % SIDE);
        double noisy = level + sqrt(noise.shot * level + noise.read) * deviation();
        samples[i] = (uint16_t)fmin(4095, fmax(0, floor(noisy + 0.5)));
    }
}

/* The root of the mean squared distance from the card without noise. */
static double distance(const uint16_t *frame)
{
    double sum = 0;
    for (int i = 0; i < FRAME; i++) {
        double off = frame[i] - card(i / SIDE, i % SIDE);
        sum += off * off;
    }
    return sqrt(sum / FRAME);
}

static int refused(uint64_t refusal)
{
    if (refusal != STACKER_ACCEPTED)
        printf("refused %" PRIu64 ": %s\n", refusal, stacker_refusal_text(refusal));
    return refusal != STACKER_ACCEPTED;
}

int main(void)
{
    take_frames();
    stacker_frames frames = { .width = SIDE, .height = SIDE, .count = FRAMES, .row_length = SIDE };
    stacker_choice choice = stacker_run_sharpest(frames, noise, tuning, samples, FRAMES * FRAME, vectors, VECTORS, merged, FRAME, work, 2 * FRAME);
    if (refused(choice.alignment.refusal))
        return 1;
    double sharp = distance(merged);
    stacker_burst burst = { .width = SIDE, .height = SIDE, .count = FRAMES, .reference = SOFT, .row_length = SIDE };
    stacker_alignment answer = stacker_run(burst, noise, tuning, samples, FRAMES * FRAME, vectors, VECTORS, merged, FRAME, work, 2 * FRAME);
    if (refused(answer.refusal))
        return 1;
    double soft = distance(merged);
    printf("sharpest of the first three frames: %" PRIu64 "\n", choice.reference);
    printf("distance from the card without noise: merged on it %.2f, merged on frame %d %.2f\n", sharp, SOFT, soft);
    return choice.reference == SOFT || soft < 2 * sharp;
}
