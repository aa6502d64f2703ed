/* What stacker.h itself works out: its initialisers, what merge and run take of a file, each level there and back, and words for each refusal, which are
   the library's as is the version. */
#include "stacker.h"

#include <string.h>

enum { GREATEST_LEVEL = 4194304, LAST = STACKER_REFUSED_PART, REFUSALS = LAST + 1 };

static int describes(void)
{
    stacker_file file = { .width = 64, .height = 128, .count = 3, .reference = 2, .strength = 5 };
    stacker_burst burst = stacker_file_burst(file);
    uint16_t none[4] = { 0, 0, 0, 0 };
    return burst.width == 64 && burst.height == 128 && burst.count == 3 && burst.reference == 2 && burst.row_length == 64
        && memcmp(burst.black, none, sizeof none) == 0 && stacker_file_tuning(file).strength == 5 && stacker_file_tuning(file).side == 16
        && stacker_file_tuning(file).spatial == 0;
}

static int initialises(void)
{
    int width = 64, height = 128, count = 3;
    stacker_burst burst = STACKER_BURST(width, height, count, 2), same_burst = { .width = 64, .height = 128, .count = 3, .reference = 2, .row_length = 64 };
    stacker_frames frames = STACKER_FRAMES(width, height, count), same_frames = { .width = 64, .height = 128, .count = 3, .row_length = 64 };
    stacker_noise noise = STACKER_NOISE(3, 100);
    stacker_iso_noise iso = STACKER_ISO_NOISE(400, 3, 100);
    stacker_tuning tuning = STACKER_TUNING(600), same_tuning = { .strength = 600, .side = 16 };
    return memcmp(&burst, &same_burst, sizeof burst) == 0 && memcmp(&frames, &same_frames, sizeof frames) == 0 && noise.shot == 3 && noise.read == 100
        && iso.iso == 400 && iso.shot == 3 && iso.read == 100 && memcmp(&tuning, &same_tuning, sizeof tuning) == 0;
}

static int keeps_levels(void)
{
    for (uint64_t level = 0; level <= GREATEST_LEVEL; level++) {
        stacker_file file = { .shot_level = level, .read_level = GREATEST_LEVEL - level };
        stacker_noise noise = stacker_file_noise(file);
        if ((uint64_t)(1024 * noise.shot) != file.shot_level || (uint64_t)(1024 * noise.read) != file.read_level)
            return 0;
    }
    return 1;
}

static int has_words(void)
{
    uint64_t numbers[REFUSALS + 1]; /* and one that no call answers */
    for (uint64_t i = 0; i <= LAST; i++)
        numbers[i] = i;
    numbers[REFUSALS] = UINT64_MAX;
    for (int i = 0; i <= REFUSALS; i++)
        for (int j = i + 1; j <= REFUSALS; j++)
            if (strcmp(stacker_refusal_text(numbers[i]), stacker_refusal_text(numbers[j])) == 0)
                return 0;
    return 1;
}

/* a buffer of each length: too short it stays, else it holds the words and zeros */
static int stores_words(uint64_t number)
{
    enum { ROOM = 128 };
    const char *words = stacker_refusal_text(number);
    size_t length = strlen(words);
    for (size_t room = 0; room <= ROOM; room++) {
        uint8_t text[ROOM + 1], expected[ROOM + 1];
        memset(text, 7, sizeof text);
        memset(expected, 7, sizeof expected);
        if (length <= room) {
            memset(expected, 0, room);
            memcpy(expected, words, length);
        }
        if (stacker_refusal_words(number, text, room) != length || memcmp(text, expected, sizeof text) != 0)
            return 0;
    }
    return length < ROOM;
}

static int says_the_same(void)
{
    for (uint64_t number = 0; number < 100; number++)
        if (!stores_words(number))
            return 0;
    return stores_words(UINT64_MAX) && stacker_version() == STACKER_VERSION_NUMBER;
}

int main(void)
{
    return !(describes() && initialises() && keeps_levels() && has_words() && says_the_same());
}
