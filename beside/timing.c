/*
 * Times programs on one card.
 *
 *   timing REPETITIONS CARD PROGRAM [ARGUMENT...] [-- PROGRAM [ARGUMENT...]]...
 *
 * The programs take turns, so that a busy moment of the machine falls on all of them. Prints for each the
 * least time that a processor spent on the whole process, in milliseconds.
 */
#define _GNU_SOURCE
#include <fcntl.h>
#include <spawn.h>
#include <stdio.h>
#include <stdlib.h>
#include <string.h>
#include <sys/resource.h>
#include <sys/wait.h>

extern char **environ;

enum { MOST_PROGRAMS = 8 };

static double milliseconds(struct timeval time)
{
    return (double)time.tv_sec * 1e3 + (double)time.tv_usec / 1e3;
}

static double time_once(char **program, const char *card)
{
    posix_spawn_file_actions_t actions;
    struct rusage spent;
    pid_t child;
    int status;
    posix_spawn_file_actions_init(&actions);
    posix_spawn_file_actions_addopen(&actions, 0, card, O_RDONLY, 0);
    posix_spawn_file_actions_addopen(&actions, 1, "/dev/null", O_WRONLY, 0);
    int error = posix_spawn(&child, program[0], &actions, NULL, program, environ);
    posix_spawn_file_actions_destroy(&actions);
    if (error != 0 || wait4(child, &status, 0, &spent) < 0 || !WIFEXITED(status) || WEXITSTATUS(status) != 0) {
        fprintf(stderr, "timing: %s failed on %s\n", program[0], card);
        exit(2);
    }
    return milliseconds(spent.ru_utime) + milliseconds(spent.ru_stime);
}

int main(int argc, char **argv)
{
    char **programs[MOST_PROGRAMS];
    double least[MOST_PROGRAMS];
    int count = 0;
    if (argc < 4) {
        fputs("usage: timing REPETITIONS CARD PROGRAM [ARGUMENT...] [-- PROGRAM [ARGUMENT...]]...\n", stderr);
        return 2;
    }
    for (int i = 3; i < argc && count < MOST_PROGRAMS; i++) {
        least[count] = 1e9;
        programs[count++] = &argv[i];
        while (i < argc && strcmp(argv[i], "--") != 0)
            i++;
        argv[i] = NULL; /* ends this program's arguments */
    }
    for (int repetition = atoi(argv[1]); repetition > 0; repetition--) {
        for (int i = 0; i < count; i++) {
            double spent = time_once(programs[i], argv[2]);
            least[i] = spent < least[i] ? spent : least[i];
        }
    }
    for (int i = 0; i < count; i++)
        printf("%s%.3f", i ? " " : "", least[i]);
    printf("\n");
    return 0;
}
