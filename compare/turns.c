/*
 * turns NAME ROUNDS INPUT PROVED PLAIN [RUNNER..]: two programs run in turns on one input, each so many
 * times, started by the words of RUNNER, where there are any. Prints a row as bench.c does: the name, the least time of the
 * proved and of the plain one in nanoseconds, from start to end of the process, with tabs between.
 */
#include <fcntl.h>
#include <stdio.h>
#include <stdlib.h>
#include <time.h>
#include <unistd.h>
#include <sys/wait.h>

enum { MOST_WORDS = 15 };

static double nanoseconds(void)
{
    struct timespec t;
    clock_gettime(CLOCK_MONOTONIC, &t);
    return 1e9 * (double)t.tv_sec + (double)t.tv_nsec;
}

/* One run with this input, its output thrown away. */
static double time_of(char *const *words, const char *input)
{
    double start = nanoseconds();
    int status = 0, child = fork();
    if (child == 0) {
        if (dup2(open(input, O_RDONLY), 0) == 0 && dup2(open("/dev/null", O_WRONLY), 1) == 1)
            execv(words[0], words);
        _exit(127);
    }
    if (child < 0 || waitpid(child, &status, 0) != child || status != 0) {
        fputs("turns: a program failed\n", stderr);
        exit(1);
    }
    return nanoseconds() - start;
}

int main(int argc, char **argv)
{
    char *words[MOST_WORDS + 2] = {0};
    double least[2] = {1e18, 1e18};
    int runner = argc - 6;

    if (runner < 0 || runner > MOST_WORDS) {
        fputs("usage: turns NAME ROUNDS INPUT PROVED PLAIN [RUNNER..]\n", stderr);
        return 2;
    }
    for (int i = 0; i < runner; i++)
        words[i] = argv[6 + i];
    for (unsigned long rounds = strtoul(argv[2], NULL, 10); rounds > 0; rounds--) {
        for (int which = 0; which < 2; which++) {
            words[runner] = argv[4 + which];
            double taken = time_of(words, argv[3]);
            if (taken < least[which])
                least[which] = taken;
        }
    }
    printf("%s\t%.0f\t%.0f\n", argv[1], least[0], least[1]);
    return 0;
}
