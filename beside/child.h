/* Running a program on an input, with a limit on its time. */
#ifndef CHILD_H
#define CHILD_H

#include <stddef.h>
#include <stdint.h>
#include <sys/types.h>

enum { ANSWER_ROOM = 4096 };

struct answer {
    char bytes[ANSWER_ROOM];
    size_t length;  /* of what it wrote, kept up to ANSWER_ROOM bytes */
    int status;     /* as `wait` gives it */
    int late;       /* it was stopped at the time limit */
};

/*
 * Runs the program, found at arguments[0] or on the path, with the input on its standard input, and
 * gathers what it writes. `chunk` is the most bytes written at once, 0 for no such limit.
 * Answers 0, or -1 if the program could not be started.
 */
int ask(char *const *arguments, const uint8_t *input, size_t length, size_t chunk, int seconds, struct answer *answer);

#endif
