/*
 * Feeds the program `sheet` inputs that are mostly no cards.
 *
 *   bad-input SHEET COUNT FIRST_SEED SAVE [PROGRAM ARGUMENT...]
 *
 * Each must be answered in time, with status 0 and a sheet of exactly a right form, which must also be the
 * interpreter's. At the first failure the input is saved to the file SAVE and the status is 1.
 * A program with its arguments may be put before `sheet`, such as one that watches its memory.
 */
#include "cards.h"
#include "child.h"
#include "interpreter.h"
#include "random.h"

#include <signal.h>
#include <stdio.h>
#include <stdlib.h>
#include <string.h>
#include <sys/wait.h>

enum { SECONDS = 20, INPUT_ROOM = 300000, MOST_ARGUMENTS = 32 };

/* ---- Inputs ---- */

static size_t random_bytes(uint64_t *random, uint8_t *input)
{
    static const int limits[] = { 4, 100, 3000, 16384, 16386, 40000, 200000 };
    size_t length = (size_t)draw_below(random, limits[draw_below(random, 7)]);
    int alphabet = draw_below(random, 3);
    for (size_t i = 0; i < length; i++) {
        uint8_t byte = (uint8_t)(draw(random) >> 20);
        input[i] = alphabet == 0 ? byte : alphabet == 1 ? (uint8_t)(32 + byte % 96) : (uint8_t)"\n 0"[byte % 3];
    }
    return length;
}

/* Right words in wrong places. */
static size_t random_words(uint64_t *random, uint8_t *input)
{
    static const char *const words[] = {
        "bench 2\n", "kind tally\n", "kind flags\n", "order first\n", "order turns\n", "objects 1\n", "objects 2\n", "0\n", "-5\n", "lines 3\n",
        "lines 9\n", "set n0 1\n", "add n1 n0\n", "point p0 o1\n", "alias p1 p0\n", "read n0 p0\n", "write p0 n1\n", "join p1 n1\n",
        "if n0 n1\n", "else\n", "end\n", "repeat 3\n", "task\n", "do\n", "with\n", "cont\n", "rd p0\n", "cm p1\n", "dfwr p0\n", "nocm p0\n",
        "end", " ", "\n", "n0", "p3 ", "o15", "-", "32768",
    };
    static const char *const heads[] = {
        "", "bench 2\n", "bench 2\nkind tally\norder last\n", "bench 2\nkind flags\norder turns\nobjects 2\n1\n2\n",
        "bench 2\nkind tally\norder narrow\nobjects 2\n1\n2\nlines 8\n",
    };
    size_t length = (size_t)sprintf((char *)input, "%s", heads[draw_below(random, 5)]);
    for (int i = draw_below(random, 14); i > 0; i--)
        length += (size_t)sprintf((char *)input + length, "%s", words[draw_below(random, (int)(sizeof words / sizeof words[0]))]);
    return length;
}

static void spoil_byte(uint64_t *random, uint8_t *input, size_t length)
{
    size_t at = draw(random) % length;
    switch (draw_below(random, 5)) {
    case 0: input[at] = 0; break;
    case 1: input[at] = (uint8_t)draw(random); break;
    case 2: input[at] = ' '; break;
    case 3: input[at] = '\n'; break;
    default: input[at] ^= (uint8_t)(1 << draw_below(random, 8)); break;
    }
}

/* A generated card with a part put in again somewhere, bytes spoilt, or an end cut off. */
static size_t mutated_card(uint64_t *random, uint8_t *input)
{
    size_t length = make_card(draw(random) >> 1, input);
    if (length == 0)
        return 0;
    if (chance(random, 25)) {
        size_t from = draw(random) % length, part = draw(random) % (length - from), at = draw(random) % length;
        memmove(input + at + part, input + at, length - at);
        memmove(input + at, input + from, part);
        length += part;
    }
    if (chance(random, 60))
        for (int i = draw_below(random, 6); i > 0; i--)
            spoil_byte(random, input, length);
    return chance(random, 15) ? draw(random) % length : length;
}

/* A card, or a part of one, over and over. */
static size_t long_input(uint64_t *random, uint8_t *input)
{
    size_t length = make_card(draw(random) >> 1, input);
    size_t wanted = 16384 + (size_t)draw_below(random, chance(random, 90) ? 40000 : INPUT_ROOM - 16384);
    if (length == 0)
        input[length++] = 'x';
    for (size_t i = length; i < wanted; i++)
        input[i] = input[i - length];
    return wanted > length ? wanted : length;
}

static size_t make_input(uint64_t *random, uint8_t *input)
{
    int pick = draw_below(random, 100);
    if (pick < 15)
        return random_bytes(random, input);
    if (pick < 30)
        return random_words(random, input);
    if (pick < 35)
        return long_input(random, input);
    if (pick < 36)
        return 0;
    return mutated_card(random, input);
}

/* ---- The exact form of a sheet ---- */

/* Passes over a text that must stand here. */
static bool pass(const char **at, const char *text)
{
    size_t length = strlen(text);
    if (strncmp(*at, text, length) != 0)
        return false;
    *at += length;
    return true;
}

/* Passes over a number in decimal, with no plus, no leading zero and no -0, within its limits. */
static bool pass_number(const char **at, long long low, long long high, long long *number)
{
    const char *start = *at;
    bool negative = pass(at, "-");
    long long size = 0;
    if (**at < '0' || **at > '9' || (**at == '0' && (negative || ((*at)[1] >= '0' && (*at)[1] <= '9'))))
        return false;
    for (; **at >= '0' && **at <= '9'; ++*at) {
        size = size * 10 + (**at - '0');
        if (*at - start > 15)
            return false;
    }
    *number = negative ? -size : size;
    return low <= *number && *number <= high;
}

static bool is_run_sheet(const char *at)
{
    long long number, objects;
    if (!pass(&at, "run 2\ntasks ") || !pass_number(&at, 1, 64, &number))
        return false;
    if (!pass(&at, "\nsteps ") || !pass_number(&at, 1, 1000000, &number))
        return false;
    if (!pass(&at, "\nobjects ") || !pass_number(&at, 1, 16, &objects) || !pass(&at, "\n"))
        return false;
    for (; objects > 0; objects--)
        if (!pass_number(&at, -2147483648LL, 4294967295LL, &number) || !pass(&at, "\n"))
            return false;
    return *at == '\0';
}

static bool is_fault_sheet(const char *at)
{
    long long number;
    if (!pass(&at, "fault 3\nkind "))
        return false;
    if (!pass(&at, "read\n") && !pass(&at, "write\n") && !pass(&at, "join\n") && !pass(&at, "declare\n"))
        return false;
    if (!pass(&at, "line ") || !pass_number(&at, 1, 256, &number) || !pass(&at, "\ntask main"))
        return false;
    for (int depth = 0; pass(&at, "."); depth++)
        if (depth == 8 || !pass_number(&at, 1, 63, &number))
            return false;
    return pass(&at, "\n") && *at == '\0';
}

static bool is_refused_sheet(const char *at)
{
    /* By number: the first and the last line that it can name, and the last word. No form has more than 3 words. */
    static const int first[] = { 0, 0, 1, 7, 7, 0, 0 }, last[] = { 0, 0, 278, 278, 277, 0, 0 }, words[] = { 0, 0, 4, 0, 0, 0, 0 };
    long long number, line, word;
    if (!pass(&at, "refused 3\nnumber ") || !pass_number(&at, 1, 6, &number))
        return false;
    if (!pass(&at, "\nline ") || !pass_number(&at, first[number], last[number], &line))
        return false;
    return pass(&at, "\nword ") && pass_number(&at, 0, words[number], &word) && pass(&at, "\n") && *at == '\0';
}

static bool is_sheet(const char *text)
{
    return is_run_sheet(text) || is_fault_sheet(text) || is_refused_sheet(text);
}

/* ---- The program ---- */

/* Answers NULL, or what was wrong. */
static const char *judge(struct answer *answer, const uint8_t *input, size_t length)
{
    char sheet[SHEET_ROOM];
    if (answer->late)
        return "no answer in time";
    if (WIFSIGNALED(answer->status))
        return "it was stopped by a signal";
    if (WEXITSTATUS(answer->status) != 0)
        return "its status is not 0";
    if (answer->length >= ANSWER_ROOM || memchr(answer->bytes, '\0', answer->length))
        return "its answer is no sheet";
    answer->bytes[answer->length] = '\0';
    if (!is_sheet(answer->bytes))
        return "its answer is no sheet";
    size_t sheet_length = sheet_of_text(input, length, ON_A_BENCH, sheet);
    if (sheet_length != answer->length || memcmp(sheet, answer->bytes, sheet_length) != 0)
        return "its sheet is not the interpreter's";
    return NULL;
}

static void save(const char *path, const uint8_t *input, size_t length)
{
    FILE *file = fopen(path, "wb");
    if (!file || fwrite(input, 1, length, file) != length || fclose(file) != 0)
        perror(path);
}

int main(int argc, char **argv)
{
    static uint8_t input[INPUT_ROOM + TEXT_ROOM];
    char *arguments[MOST_ARGUMENTS];
    long refused = 0;
    if (argc < 5 || argc - 5 >= MOST_ARGUMENTS - 1) {
        fputs("usage: bad-input SHEET COUNT FIRST_SEED SAVE [PROGRAM ARGUMENT...]\n", stderr);
        return 2;
    }
    for (int i = 5; i < argc; i++)
        arguments[i - 5] = argv[i];
    arguments[argc - 5] = argv[1];
    arguments[argc - 4] = NULL;
    signal(SIGPIPE, SIG_IGN);
    uint64_t first = strtoull(argv[3], NULL, 10), count = strtoull(argv[2], NULL, 10);
    for (uint64_t seed = first; seed < first + count; seed++) {
        struct answer answer;
        uint64_t random = seed * 0x9e3779b97f4a7c15u + 5;
        size_t length = make_input(&random, input);
        size_t chunk = chance(&random, 20) ? 1 + length / 30 : 0; /* so that reads come short */
        if (ask(arguments, input, length, chunk, SECONDS, &answer) != 0)
            return 2;
        const char *wrong = judge(&answer, input, length);
        if (wrong) {
            save(argv[4], input, length);
            printf("input of seed %llu, %zu bytes, saved as %s: %s\n---- sheet wrote\n", (unsigned long long)seed, length, argv[4], wrong);
            fwrite(answer.bytes, 1, answer.length < ANSWER_ROOM ? answer.length : ANSWER_ROOM, stdout);
            return 1;
        }
        refused += answer.length > 0 && strncmp(answer.bytes, "refused", 7) == 0;
    }
    printf("%llu inputs, each answered by a right sheet with status 0: %ld refused, %ld cards after all\n", (unsigned long long)count, refused,
           (long)count - refused);
    return 0;
}
