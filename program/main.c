/* stacker: merges a burst of raw frames from files, by the proved calls of libstacker. */
#include "program.h"

#include <string.h>

int quiet;

int main(int argc, char **argv)
{
    static const struct {
        const char *name;
        int (*run)(request *r, char **names, int count);
    } commands[] = {
        { "merge", merge_command },
        { "align", align_command },
        { "info", info_command },
        { "noise", noise_command },
        { "calibrate", calibrate_command },
        { "selftest", selftest_command },
    };
    request r = { .strength = STRENGTH, .side = SIDE, .apart = 1, .lifted = 1 };
    int first = options(&r, argc, argv);
    if (first >= argc)
        fail(WRONG, "no command is given; see stacker --help");
    for (size_t i = 0; i < sizeof commands / sizeof *commands; i++)
        if (strcmp(argv[first], commands[i].name) == 0) {
            int status = commands[i].run(&r, argv + first + 1, argc - first - 1);
            if (fflush(stdout) != 0)
                fail(WRONG, "standard output cannot be written");
            return status;
        }
    fail(WRONG, "no such command: %s; see stacker --help", argv[first]);
}
