/* Asks the station's functions several thousand questions, edges and random, and writes each question and its answer for comparison:
   station lengths|noise QUESTIONS ANSWERS
   Or checks each burst file of a stream on standard input, and writes the numbers: station check ANSWERS */
#include "files.h"
#include "station.h"

#include <inttypes.h>
#include <math.h>
#include <stdio.h>
#include <stdlib.h>
#include <string.h>

static FILE *questions, *answers;

/* xorshift64*: the same questions in every run */
static uint64_t seed = 88172645463325252u;

static uint64_t any(void)
{
    seed ^= seed >> 12;
    seed ^= seed << 25;
    seed ^= seed >> 27;
    return seed * 2685821657736338717u;
}

static uint64_t below(uint64_t n)
{
    return any() % n;
}

static void ask_length(uint64_t width, uint64_t height, uint64_t count, uint64_t side, uint64_t row_length, uint64_t number)
{
    fprintf(questions, "%" PRIu64 " %" PRIu64 " %" PRIu64 " %" PRIu64 " %" PRIu64 " %" PRIu64 "\n", width, height, count, side, row_length, number);
    fprintf(answers, "%" PRIu64 "\n", station_length(width, height, count, side, row_length, number));
}

/* every side and row length of the list, and each number beside those of the buffers */
static void ask_sides_and_rows(uint64_t width, uint64_t height, uint64_t count)
{
    static const uint64_t sides[] = { 0, 8, 16, 17, 31, 32, 33, 64, UINT64_MAX };
    const uint64_t rows[] = { width - 1, width, width + 1, width + 255, width + 256, width + 257, 0, UINT64_MAX };
    for (size_t s = 0; s < sizeof sides / sizeof *sides; s++)
        for (size_t r = 0; r < sizeof rows / sizeof *rows; r++)
            for (uint64_t number = 3; number < 9; number++)
                ask_length(width, height, count, sides[s], rows[r], number);
}

static uint64_t bits_of(double x)
{
    uint64_t bits;
    memcpy(&bits, &x, sizeof bits);
    return bits;
}

static double of_bits(uint64_t bits)
{
    double x;
    memcpy(&x, &bits, sizeof x);
    return x;
}

static void ask_noise(double shot, double read, uint64_t strength, uint64_t root, uint64_t side)
{
    fprintf(questions, "%016" PRIx64 " %016" PRIx64 " %" PRIu64 " %" PRIu64 " %" PRIu64 "\n", bits_of(shot), bits_of(read), strength, root, side);
    fprintf(answers, "%" PRIu64 "\n", station_noise(shot, read, strength, root, side));
}

/* at either side, with a root that it allows */
static void ask_noise_of_root(double shot, double read, uint64_t strength)
{
    uint64_t side = 16 + 16 * below(2);
    ask_noise(shot, read, strength, below(4095 * side + 1), side);
}

static void lengths(void)
{
    static const uint64_t sizes[] = { 0, 1, 63, 64, 65, 96, 128, 4032, 4095, 4096, 4097, 4160, 1u << 31, UINT64_MAX - 63, UINT64_MAX };
    static const uint64_t counts[] = { 0, 1, 2, 7, 8, 9, UINT64_MAX };
    enum { SIZES = sizeof sizes / sizeof *sizes, COUNTS = sizeof counts / sizeof *counts };
    for (int w = 0; w < SIZES; w++)
        for (int h = 0; h < SIZES; h++)
            for (int n = 0; n < COUNTS; n++)
                for (uint64_t number = 3; number < 9; number++)
                    for (uint64_t side = 16; side <= 32; side += 16)
                        ask_length(sizes[w], sizes[h], counts[n], side, sizes[w], number);
    static const uint64_t shapes[][3] = { { 64, 64, 2 }, { 128, 4096, 1 }, { 4096, 64, 8 }, { 4096, 4096, 8 }, { 65, 64, 2 }, { 64, 64, 9 } };
    for (size_t i = 0; i < sizeof shapes / sizeof *shapes; i++)
        ask_sides_and_rows(shapes[i][0], shapes[i][1], shapes[i][2]);
    for (int i = 0; i < 4000; i++) {
        uint64_t width = 64 * (1 + below(64));
        ask_length(width, 64 * (1 + below(64)), 2 + below(7), 16 + 16 * below(2), width + below(257), 4 + below(4));
    }
    for (int i = 0; i < 1000; i++) {
        uint64_t width = below(4200);
        ask_length(width, 64 * below(70), below(12), 15 + below(19), width + below(300), below(10));
    }
    for (int i = 0; i < 1000; i++)
        ask_length(any(), any(), any(), any(), any(), any());
}

static void noise(void)
{
    const double numbers[] = { 0.0, -0.0, 1.0 / 1024, nextafter(1.0 / 1024, 0), 0x1p-1074, -0x1p-1074, 0x1p-1022, 0.1, 1, 63.999, 64,
        nextafter(64, 0), nextafter(64, 65), 65, 4095.9999, 4096, nextafter(4096, 0), nextafter(4096, 5000), -1, 1e300, -1e300,
        INFINITY, -INFINITY, NAN, -NAN };
    static const uint64_t strengths[] = { 0, 1, 8, 1023, 1024, 1025, UINT64_MAX };
    static const uint64_t roots[] = { 0, 1, 1600, 65519, 65520, 65521, 131039, 131040, 131041, UINT64_MAX };
    static const uint64_t sides[] = { 16, 32, 0, 8, 17, 64, UINT64_MAX };
    enum { NUMBERS = sizeof numbers / sizeof *numbers, STRENGTHS = sizeof strengths / sizeof *strengths, ROOTS = sizeof roots / sizeof *roots, SIDES = sizeof sides / sizeof *sides };
    for (int s = 0; s < NUMBERS; s++)
        for (int r = 0; r < NUMBERS; r++)
            for (int t = 0; t < STRENGTHS; t++)
                for (int side = 0; side < 2; side++)
                    ask_noise(numbers[s], numbers[r], strengths[t], roots[(s + r + t) % ROOTS], sides[side]);
    for (int side = 0; side < SIDES; side++)
        for (int root = 0; root < ROOTS; root++)
            ask_noise(64, 4096, 1024, roots[root], sides[side]);
    for (int i = 0; i < 4000; i++)
        ask_noise_of_root(64 * ldexp((double)below(1u << 20), -20 - (int)below(20)),
            4096 * ldexp((double)below(1u << 20), -20 - (int)below(20)), below(1025));
    for (int i = 0; i < 4000; i++)
        ask_noise(of_bits(any()), of_bits(any()), below(1100), below(132000), 15 + below(19));
    /* every exponent whose floor is above 0, and their neighbours, with random fractions */
    for (uint64_t exponent = 1010; exponent < 1040; exponent++)
        for (int i = 0; i < 40; i++)
            ask_noise_of_root(of_bits(exponent << 52 | any() >> 12), of_bits(exponent << 52 | any() >> 12), below(1025));
}

static int check(const char *path)
{
    answers = fopen(path, "w");
    if (!answers)
        return 2;
    uint8_t *bytes = NULL;
    size_t room = 0;
    for (int64_t length; (length = next_file(&bytes, &room)) >= 0;)
        fprintf(answers, "%" PRIu64 "\n", station_check(bytes, (size_t)length));
    return fclose(answers) != 0;
}

int main(int argc, char **argv)
{
    if (argc == 3 && strcmp(argv[1], "check") == 0)
        return check(argv[2]);
    if (argc != 4)
        return 2;
    questions = fopen(argv[2], "w");
    answers = fopen(argv[3], "w");
    if (!questions || !answers)
        return 2;
    if (strcmp(argv[1], "lengths") == 0)
        lengths();
    else if (strcmp(argv[1], "noise") == 0)
        noise();
    else
        return 2;
    return fclose(questions) != 0 || fclose(answers) != 0;
}
