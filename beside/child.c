/* Running a program on an input, with a limit on its time. */
#define _GNU_SOURCE
#include "child.h"

#include <errno.h>
#include <fcntl.h>
#include <poll.h>
#include <signal.h>
#include <spawn.h>
#include <stdio.h>
#include <sys/wait.h>
#include <time.h>
#include <unistd.h>

extern char **environ;

static long milliseconds(void)
{
    struct timespec now;
    clock_gettime(CLOCK_MONOTONIC, &now);
    return now.tv_sec * 1000 + now.tv_nsec / 1000000;
}

/* Two pipes: what is written to input[1] and read from output[0] is ours. */
static int start(char *const *arguments, int input[2], int output[2], pid_t *child)
{
    posix_spawn_file_actions_t actions;
    if (pipe2(input, O_CLOEXEC) != 0 || pipe2(output, O_CLOEXEC) != 0)
        return -1;
    posix_spawn_file_actions_init(&actions);
    posix_spawn_file_actions_adddup2(&actions, input[0], 0);
    posix_spawn_file_actions_adddup2(&actions, output[1], 1);
    int error = posix_spawnp(child, arguments[0], &actions, NULL, arguments, environ);
    posix_spawn_file_actions_destroy(&actions);
    close(input[0]);
    close(output[1]);
    if (error == 0)
        return 0;
    errno = error;
    perror(arguments[0]);
    close(input[1]);
    close(output[0]);
    return -1;
}

/* Writes what the pipe takes. Answers how much is done, which is all if the program stopped reading. */
static size_t feed(int pipe, const uint8_t *input, size_t done, size_t length, size_t chunk)
{
    size_t wanted = length - done;
    ssize_t written = write(pipe, input + done, chunk && chunk < wanted ? chunk : wanted);
    if (written < 0)
        return errno == EAGAIN || errno == EINTR ? done : length;
    return done + (size_t)written;
}

/* Reads what is there. Answers 0 at the end of what the program writes. */
static int gather(int pipe, struct answer *answer)
{
    char rest[ANSWER_ROOM];
    size_t room = ANSWER_ROOM - answer->length;
    ssize_t got = room ? read(pipe, answer->bytes + answer->length, room) : read(pipe, rest, sizeof rest);
    if (got < 0)
        return errno == EAGAIN || errno == EINTR;
    if (room)
        answer->length += (size_t)got;
    return got > 0;
}

/* Feeds and gathers until the program ends its answer or the time is up. */
static void talk(int to, int from, const uint8_t *input, size_t length, size_t chunk, long deadline, struct answer *answer)
{
    size_t done = 0;
    int open = 1;
    for (;;) {
        if (open && done == length) {
            close(to);
            open = 0;
        }
        struct pollfd polled[2] = { { from, POLLIN, 0 }, { open ? to : -1, POLLOUT, 0 } };
        long left = deadline - milliseconds();
        answer->late = left <= 0;
        if (answer->late || (poll(polled, 2, (int)left) < 0 && errno != EINTR))
            break;
        if (polled[1].revents)
            done = feed(to, input, done, length, chunk);
        if (polled[0].revents && !gather(from, answer))
            break;
    }
    if (open)
        close(to);
    close(from);
}

int ask(char *const *arguments, const uint8_t *input, size_t length, size_t chunk, int seconds, struct answer *answer)
{
    int to[2], from[2];
    pid_t child;
    answer->length = 0;
    answer->late = 0;
    if (start(arguments, to, from, &child) != 0)
        return -1;
    fcntl(to[1], F_SETFL, O_NONBLOCK);
    talk(to[1], from[0], input, length, chunk, milliseconds() + 1000L * seconds, answer);
    if (answer->late)
        kill(child, SIGKILL);
    while (waitpid(child, &answer->status, 0) < 0 && errno == EINTR)
        continue;
    return 0;
}
