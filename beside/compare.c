/*
 * Compares the program `sheet` with the interpreter.
 *
 *   compare SHEET COUNT FIRST_SEED [CARD...]
 *
 * Each card file, and each card of COUNT seeds from FIRST_SEED on, is given to `sheet`; the interpreter
 * works it on a bench and serially, and small cards in random orders too. At the first difference the whole
 * card is printed and the status is 1.
 */
#include "cards.h"
#include "child.h"
#include "interpreter.h"

#include <signal.h>
#include <stdbool.h>
#include <stdio.h>
#include <stdlib.h>
#include <string.h>
#include <sys/wait.h>

enum { SECONDS = 10, RANDOM_ORDERS = 3, FEW_STEPS = 3000 };

/* How many sheets of each sort there were. */
struct tally {
    long cards, runs, faults[4], refused[7];
};

static const char *const fault_kinds[4] = { "read", "write", "join", "declare" };

static void count_sheet(struct tally *tally, const char *sheet)
{
    int number;
    char kind[16];
    tally->cards++;
    if (sscanf(sheet, "refused 3\nnumber %d", &number) == 1)
        tally->refused[number]++;
    else if (sscanf(sheet, "fault 3\nkind %15s", kind) == 1)
        for (int i = 0; i < 4; i++)
            tally->faults[i] += strcmp(kind, fault_kinds[i]) == 0;
    else
        tally->runs++;
}

static void print_tally(const struct tally *tally)
{
    long faults = 0, refused = 0;
    for (int i = 0; i < 4; i++)
        faults += tally->faults[i];
    for (int i = 1; i < 7; i++)
        refused += tally->refused[i];
    printf("%ld cards, no difference: %ld run, %ld faulted (", tally->cards, tally->runs, faults);
    for (int i = 0; i < 4; i++)
        printf("%s%s %ld", i ? ", " : "", fault_kinds[i], tally->faults[i]);
    printf("), %ld refused (", refused);
    for (int i = 1; i < 7; i++)
        printf("%sno. %d %ld", i > 1 ? ", " : "", i, tally->refused[i]);
    printf(")\n");
}

/* A sheet, and who wrote it. */
struct written {
    const char *who, *bytes;
    size_t length;
};

/* Shows a card so that no byte is lost on a terminal. */
static void print_card(const uint8_t *text, size_t length)
{
    for (size_t i = 0; i < length; i++) {
        if (text[i] == '\n' || (text[i] >= ' ' && text[i] <= '~'))
            putchar(text[i]);
        else
            printf("\\x%02x", text[i]);
    }
}

static int report(const char *name, const uint8_t *text, size_t length, const char *what, struct written a, struct written b)
{
    printf("difference: %s, %s\n", name, what);
    printf("---- %s wrote\n%.*s", a.who, (int)a.length, a.bytes);
    printf("---- %s wrote\n%.*s", b.who, (int)b.length, b.bytes);
    printf("---- the card, %zu bytes\n", length);
    print_card(text, length);
    printf("---- end of the card\n");
    return 1;
}

static bool same(struct written a, struct written b)
{
    return a.length == b.length && memcmp(a.bytes, b.bytes, a.length) == 0;
}

static long steps_of(const char *sheet)
{
    long steps;
    return sscanf(sheet, "run 2\ntasks %*d\nsteps %ld", &steps) == 1 ? steps : 0;
}

/* Answers 1 at a difference. */
static int compare(char *program, const char *name, const uint8_t *text, size_t length, struct tally *tally)
{
    char bench_sheet[SHEET_ROOM + 1], serial_sheet[SHEET_ROOM];
    char *arguments[] = { program, NULL };
    struct answer answer;
    struct written bench = { "the interpreter", bench_sheet, sheet_of_text(text, length, ON_A_BENCH, bench_sheet) };
    struct written serial = { "the interpreter serially", serial_sheet, sheet_of_text(text, length, SERIALLY, serial_sheet) };
    bench_sheet[bench.length] = '\0';
    if (!same(bench, serial))
        return report(name, text, length, "the interpreter differs with itself", serial, bench);
    if (steps_of(bench_sheet) < FEW_STEPS) {
        const char *wrong = try_orders(text, length, (uint64_t)tally->cards, RANDOM_ORDERS);
        if (wrong)
            return report(name, text, length, wrong, serial, bench);
    }
    if (ask(arguments, text, length, 0, SECONDS, &answer) != 0)
        exit(2);
    struct written theirs = { "sheet", answer.bytes, answer.length };
    if (answer.late)
        return report(name, text, length, "no answer in time", theirs, bench);
    if (!WIFEXITED(answer.status) || WEXITSTATUS(answer.status) != 0)
        return report(name, text, length, "its status is not 0", theirs, bench);
    if (!same(theirs, bench))
        return report(name, text, length, "the sheets differ", theirs, bench);
    count_sheet(tally, bench_sheet);
    return 0;
}

static size_t read_file(const char *path, uint8_t text[TEXT_ROOM])
{
    FILE *file = fopen(path, "rb");
    if (!file) {
        perror(path);
        exit(2);
    }
    size_t length = fread(text, 1, TEXT_ROOM, file);
    fclose(file);
    return length;
}

int main(int argc, char **argv)
{
    static uint8_t text[TEXT_ROOM];
    struct tally tally = { 0 };
    if (argc < 4) {
        fputs("usage: compare SHEET COUNT FIRST_SEED [CARD...]\n", stderr);
        return 2;
    }
    signal(SIGPIPE, SIG_IGN);
    for (int i = 4; i < argc; i++)
        if (compare(argv[1], argv[i], text, read_file(argv[i], text), &tally))
            return 1;
    uint64_t first = strtoull(argv[3], NULL, 10), count = strtoull(argv[2], NULL, 10);
    for (uint64_t seed = first; seed < first + count; seed++) {
        char name[40];
        snprintf(name, sizeof name, "the card of seed %llu", (unsigned long long)seed);
        if (compare(argv[1], name, text, make_card(seed, text), &tally))
            return 1;
    }
    print_tally(&tally);
    return 0;
}
