/* Reads each burst file of a stream with stacker_read_file, into samples of a right or a wrong length. It writes what the reference's `read` is
   asked and what the library answered, and sees itself that a refusal leaves the samples as they were, that the file's size agrees, and that the
   stack is enough: read QUESTIONS ANSWERS */
#include "files.h"
#include "stack.h"
#include "stacker.h"

#include <string.h>

enum { ROOM = 3 * 64 * 64 };

/* kept at refusals */
static const uint16_t MARK = 51966;

static uint8_t *bytes;
static uint16_t samples[ROOM + 1];
static uint64_t file_length, lent;
static stacker_file answer;

static void read_file(void)
{
    answer = stacker_read_file(bytes, file_length, samples, lent);
}

/* the answer of the size question is the reader's where that accepts, and where it refuses itself */
static int size_agrees(void)
{
    stacker_file size = stacker_file_size(bytes, file_length);
    return memcmp(&size, &answer, sizeof size) == 0 || (answer.refusal != 0 && size.refusal == 0);
}

static void put(FILE *out, const void *data, size_t size)
{
    if (size != 0 && fwrite(data, 1, size, out) != size)
        exit(2);
}

int main(int argc, char **argv)
{
    FILE *questions = argc == 3 ? fopen(argv[1], "wb") : NULL, *answers = argc == 3 ? fopen(argv[2], "wb") : NULL;
    if (!questions || !answers)
        return 2;
    size_t room = 0, cases = 0;
    for (int64_t length; (length = next_file(&bytes, &room)) >= 0; cases++) {
        /* the length that most of the files want, or one beside it */
        static const uint64_t lents[] = { 2 * 64 * 64, 2 * 64 * 64, 64 * 64, 2 * 64 * 64, ROOM, 2 * 64 * 64 - 1, 0 };
        lent = lents[cases % 7];
        file_length = (uint64_t)length;
        for (size_t i = 0; i <= ROOM; i++)
            samples[i] = MARK;
        if (stack_of(read_file) > STACK_MOST || !size_agrees())
            return 1;
        put(questions, &lent, 8);
        put(questions, &file_length, 8);
        put(questions, bytes, file_length);
        put(answers, &answer, sizeof answer);
        if (answer.refusal == 0)
            put(answers, samples, 2 * lent);
        for (size_t i = answer.refusal == 0 ? lent : 0; i <= ROOM; i++)
            if (samples[i] != MARK)
                return 1;
    }
    return fclose(questions) != 0 || fclose(answers) != 0;
}
