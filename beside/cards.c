/*
 * Cards by the thousand, each from a seed.
 *
 *   cards SEED            writes the card of that seed
 *   cards SEED COUNT DIR  writes COUNT cards from that seed on, as DIR/SEED.card
 *
 * Most cards are good ones: nested tasks, aliased pointers, declarations that are amended
 * and withdrawn, several tasks that join to one object, now and then a fault, and cards at
 * the limits. The others are good ones that were damaged.
 *
 * In order: the sketch of a card, its statements, cards at the limits, damage.
 */
#include "cards.h"
#include "random.h"

#include <stdarg.h>
#include <stdio.h>
#include <stdlib.h>
#include <string.h>

enum {
    MOST_OBJECTS = 16,
    MOST_DEPTH = 8,
    MOST_TASKS = 64,
    MOST_STEPS = 1000000,
    PAGE_LINES = 1600,
    LINE_ROOM = 48,
};

enum { RD = 1, WR = 2, CM = 4, EVERY = 7 };

static const int accesses[] = { RD, WR, CM };

static const char *access_name(int access)
{
    return access == RD ? "rd" : access == WR ? "wr" : "cm";
}

/* ---- The sketch of a card ---- */

/* The text as lines without their ends. */
struct page {
    char lines[PAGE_LINES][LINE_ROOM];
    int count;
};

struct sketch {
    uint64_t random;
    struct page page;
    int objects;
    int head;         /* lines before the lines section */
    int room;         /* lines that the lines section should not pass */
    int steps_left;   /* what loops may still spend, roughly */
    int tasks_left;
    int depth;
    int favourite;    /* the object that most tasks use */
    int commuting;    /* how often, in a hundred, a task joins rather than reads or writes */
    int carelessness; /* how often, in a hundred, declarations are not minded */
};

/* What a task has at some line, as far as it can be foretold. */
struct guess {
    int pointers[4]; /* -1 where it cannot be told */
    uint8_t held[MOST_OBJECTS], now[MOST_OBJECTS];
    bool steady;     /* in a loop: change no pointer, give nothing up */
};

/* The most steps and tasks of what was written. */
struct bounds {
    int64_t steps, tasks;
};

static struct bounds sum(struct bounds a, struct bounds b)
{
    return (struct bounds){ a.steps + b.steps, a.tasks + b.tasks };
}

static struct bounds larger(struct bounds a, struct bounds b)
{
    return (struct bounds){ a.steps > b.steps ? a.steps : b.steps, a.tasks > b.tasks ? a.tasks : b.tasks };
}

static struct bounds repeated(int rounds, struct bounds block)
{
    return (struct bounds){ 1 + rounds * (1 + block.steps), rounds * block.tasks };
}

static const struct bounds nothing = { 0, 0 }, one_step = { 1, 0 };

__attribute__((format(printf, 2, 3))) static void line(struct sketch *sketch, const char *format, ...)
{
    struct page *page = &sketch->page;
    va_list values;
    if (page->count == PAGE_LINES)
        return;
    va_start(values, format);
    vsnprintf(page->lines[page->count++], LINE_ROOM, format, values);
    va_end(values);
}

static int lines_left(const struct sketch *sketch)
{
    return sketch->room - (sketch->page.count - sketch->head);
}

static int below(struct sketch *sketch, int limit)
{
    return draw_below(&sketch->random, limit);
}

static bool often(struct sketch *sketch, int share)
{
    return chance(&sketch->random, share);
}

static int literal(struct sketch *sketch)
{
    static const int edges[] = { -32768, -32767, -1, 0, 1, 32766, 32767 };
    if (often(sketch, 60))
        return below(sketch, 41) - 20;
    if (often(sketch, 50))
        return edges[below(sketch, 7)];
    return below(sketch, 65536) - 32768;
}

static int some_object(struct sketch *sketch)
{
    return often(sketch, 45) ? sketch->favourite : below(sketch, sketch->objects);
}

/* ---- Simple statements ---- */

static struct bounds write_set(struct sketch *sketch)
{
    int word = below(sketch, 4);
    line(sketch, "set n%d %d", word, literal(sketch));
    return one_step;
}

static struct bounds write_add(struct sketch *sketch)
{
    int to = below(sketch, 4);
    line(sketch, "add n%d n%d", to, below(sketch, 4));
    return one_step;
}

static struct bounds write_point(struct sketch *sketch, struct guess *guess)
{
    int pointer = below(sketch, 4), object = some_object(sketch);
    line(sketch, "point p%d o%d", pointer, object);
    guess->pointers[pointer] = object;
    return one_step;
}

static struct bounds write_alias(struct sketch *sketch, struct guess *guess)
{
    int to = below(sketch, 4), from = below(sketch, 4);
    line(sketch, "alias p%d p%d", to, from);
    guess->pointers[to] = guess->pointers[from];
    return one_step;
}

/* A pointer and an access that stand in `sets` for its object; false if there are none. */
static bool find_access(struct sketch *sketch, const struct guess *guess, const uint8_t *sets, int *pointer, int *access)
{
    int start = below(sketch, 4), turn = often(sketch, sketch->commuting) ? 2 : below(sketch, 2);
    for (int i = 0; i < 12; i++) {
        *pointer = (start + i) % 4;
        *access = accesses[(turn + i / 4) % 3];
        int object = guess->pointers[*pointer];
        if (object >= 0 && sets[object] & *access)
            return true;
    }
    return false;
}

static bool careless(struct sketch *sketch)
{
    return often(sketch, sketch->carelessness);
}

static void any_access(struct sketch *sketch, int *pointer, int *access)
{
    *pointer = below(sketch, 4);
    *access = accesses[below(sketch, 3)];
}

static struct bounds write_touch(struct sketch *sketch, int pointer, int access)
{
    int word = below(sketch, 4);
    if (access == RD)
        line(sketch, "read n%d p%d", word, pointer);
    else
        line(sketch, "%s p%d n%d", access == WR ? "write" : "join", pointer, word);
    return one_step;
}

/* ---- Declarations ---- */

enum { WITHDRAWN, DEFERRED, IMMEDIATE };

static void write_declaration(struct sketch *sketch, int pointer, int access, int level)
{
    static const char *const prefixes[] = { "no", "df", "" };
    line(sketch, "%s%s p%d", prefixes[level], access_name(access), pointer);
}

static void declare(struct guess *guess, int object, int access, int level)
{
    if (object < 0)
        return;
    guess->held[object] &= ~access;
    guess->now[object] &= ~access;
    if (level != WITHDRAWN)
        guess->held[object] |= access;
    if (level == IMMEDIATE)
        guess->now[object] |= access;
}

static int level_in_with(struct sketch *sketch, const struct guess *guess)
{
    if (guess->steady || often(sketch, 60))
        return IMMEDIATE;
    return often(sketch, 50) ? DEFERRED : WITHDRAWN;
}

static struct bounds write_with(struct sketch *sketch, struct guess *guess)
{
    int wanted = often(sketch, 8) ? 0 : 1 + below(sketch, 3);
    line(sketch, "with");
    for (; wanted > 0; wanted--) {
        int pointer, access, level = level_in_with(sketch, guess);
        if (careless(sketch))
            any_access(sketch, &pointer, &access);
        else if (!find_access(sketch, guess, guess->held, &pointer, &access))
            break;
        write_declaration(sketch, pointer, access, level);
        declare(guess, guess->pointers[pointer], access, level);
    }
    line(sketch, "cont");
    return one_step;
}

/* Reads, writes or joins; makes an access immediate first if there is none. */
static struct bounds write_access(struct sketch *sketch, struct guess *guess)
{
    struct bounds bounds = nothing;
    int pointer, access;
    if (careless(sketch)) {
        any_access(sketch, &pointer, &access);
        return write_touch(sketch, pointer, access);
    }
    if (!find_access(sketch, guess, guess->now, &pointer, &access)) {
        if (!find_access(sketch, guess, guess->held, &pointer, &access))
            return write_add(sketch);
        line(sketch, "with");
        write_declaration(sketch, pointer, access, IMMEDIATE);
        line(sketch, "cont");
        declare(guess, guess->pointers[pointer], access, IMMEDIATE);
        bounds = one_step;
    }
    return sum(bounds, write_touch(sketch, pointer, access));
}

/* ---- Statements with blocks ---- */

static struct bounds write_block(struct sketch *sketch, struct guess *guess, int rounds, int statements);

/* After two arms only what holds in both is sure. */
static struct guess merged(const struct guess *a, const struct guess *b)
{
    struct guess guess = *a;
    for (int i = 0; i < 4; i++)
        if (a->pointers[i] != b->pointers[i])
            guess.pointers[i] = -1;
    for (int i = 0; i < MOST_OBJECTS; i++) {
        guess.held[i] &= b->held[i];
        guess.now[i] &= b->now[i];
    }
    return guess;
}

static void open_if(struct sketch *sketch)
{
    int left = below(sketch, 4);
    line(sketch, "if n%d n%d", left, below(sketch, 4));
}

static struct bounds write_if(struct sketch *sketch, struct guess *guess, int rounds)
{
    struct guess first = *guess, second = *guess;
    struct bounds first_arm, second_arm = nothing;
    open_if(sketch);
    sketch->depth++;
    first_arm = write_block(sketch, &first, rounds, below(sketch, 4));
    if (often(sketch, 55)) {
        line(sketch, "else");
        second_arm = write_block(sketch, &second, rounds, below(sketch, 4));
    }
    sketch->depth--;
    line(sketch, "end");
    *guess = merged(&first, &second);
    return sum(one_step, larger(first_arm, second_arm));
}

static int some_rounds(struct sketch *sketch, int rounds)
{
    int most = sketch->steps_left / (12 * rounds);
    int wanted = often(sketch, 85) ? below(sketch, 6) : below(sketch, 256);
    return wanted < most ? wanted : most < 0 ? 0 : most;
}

static struct bounds write_repeat(struct sketch *sketch, struct guess *guess, int rounds)
{
    struct guess body = *guess;
    int count = some_rounds(sketch, rounds);
    body.steady = guess->steady || often(sketch, 85);
    line(sketch, "repeat %d", count);
    sketch->depth++;
    struct bounds block = write_block(sketch, &body, rounds * (count ? count : 1), 1 + below(sketch, 4));
    sketch->depth--;
    line(sketch, "end");
    body.steady = guess->steady;
    *guess = count ? merged(&body, guess) : *guess;
    return repeated(count, block);
}

static void write_section(struct sketch *sketch, const struct guess *guess, struct guess *child)
{
    memset(child->held, 0, sizeof child->held);
    memset(child->now, 0, sizeof child->now);
    child->steady = false;
    for (int wanted = below(sketch, 5); wanted > 0; wanted--) {
        int pointer, access, level = often(sketch, 70) ? IMMEDIATE : DEFERRED;
        if (careless(sketch))
            any_access(sketch, &pointer, &access);
        else if (!find_access(sketch, guess, guess->held, &pointer, &access))
            break;
        write_declaration(sketch, pointer, access, level);
        declare(child, guess->pointers[pointer], access, level);
    }
}

static struct bounds write_task(struct sketch *sketch, const struct guess *guess, int rounds)
{
    struct guess child = *guess;
    sketch->tasks_left -= rounds;
    line(sketch, "task");
    write_section(sketch, guess, &child);
    line(sketch, "do");
    sketch->depth++;
    struct bounds block = write_block(sketch, &child, rounds, below(sketch, 6));
    sketch->depth--;
    line(sketch, "end");
    return sum((struct bounds){ 2, 1 }, block);
}

static struct bounds write_statement(struct sketch *sketch, struct guess *guess, int rounds)
{
    int pick = below(sketch, 100);
    bool room = sketch->depth < MOST_DEPTH && lines_left(sketch) > 12 + 2 * sketch->depth;
    bool pointing = !guess->steady;
    sketch->steps_left -= rounds;
    if (pick < 20 && room && sketch->tasks_left >= rounds)
        return write_task(sketch, guess, rounds);
    if (pick < 26 && room)
        return write_repeat(sketch, guess, rounds);
    if (pick < 33 && room)
        return write_if(sketch, guess, rounds);
    if (pick < 45 && lines_left(sketch) > 6 + sketch->depth)
        return write_with(sketch, guess);
    if (pick < 55 && pointing)
        return write_point(sketch, guess);
    if (pick < 60 && pointing)
        return write_alias(sketch, guess);
    if (pick < 70)
        return write_set(sketch);
    if (pick < 77)
        return write_add(sketch);
    return write_access(sketch, guess);
}

/* `rounds` is how often the block may be done, over all the loops around it. */
static struct bounds write_block(struct sketch *sketch, struct guess *guess, int rounds, int statements)
{
    struct bounds bounds = nothing;
    for (; statements > 0 && lines_left(sketch) > 4 + 2 * sketch->depth; statements--)
        bounds = sum(bounds, write_statement(sketch, guess, rounds));
    return bounds;
}

/* ---- Cards at the limits ---- */

/* Statements whose step bounds come to exactly `steps`. */
static void fill_steps(struct sketch *sketch, int64_t steps)
{
    while (steps > 0) {
        int sets = 1 + below(sketch, 4), inner = steps > 60000 ? 255 : 1 + below(sketch, 255);
        struct bounds block = repeated(inner, (struct bounds){ sets, 0 });
        int64_t outer = (steps - 1) / (1 + block.steps);
        if (steps < 3) {
            write_set(sketch);
            steps--;
        } else if (outer == 0) {
            int64_t rounds = (steps - 1) / 2 < 255 ? (steps - 1) / 2 : 255;
            line(sketch, "repeat %d", (int)rounds);
            write_set(sketch);
            line(sketch, "end");
            steps -= repeated((int)rounds, one_step).steps;
        } else {
            outer = outer < 255 ? outer : 255;
            line(sketch, "repeat %d", (int)outer);
            line(sketch, "repeat %d", inner);
            for (int i = 0; i < sets; i++)
                write_set(sketch);
            line(sketch, "end");
            line(sketch, "end");
            steps -= repeated((int)outer, block).steps;
        }
    }
}

/* Brings the step bound of the card to the limit or just past it. */
static void end_at_most_steps(struct sketch *sketch, struct bounds bounds)
{
    int64_t steps = MOST_STEPS - 2 + below(sketch, 4) - 1 - bounds.steps;
    if (often(sketch, 15)) {
        fill_steps(sketch, steps);
    } else { /* in an arm that is never taken */
        line(sketch, "if n0 n0");
        fill_steps(sketch, steps - 1);
        line(sketch, "end");
    }
}

/* Brings the task bound of the card to the limit or just past it. */
static struct bounds end_at_most_tasks(struct sketch *sketch, struct bounds bounds)
{
    static const struct bounds empty_task = { 2, 1 };
    int64_t wanted = MOST_TASKS - 2 + below(sketch, 4) - 1;
    while (bounds.tasks < wanted) {
        int left = (int)(wanted - bounds.tasks), rounds = left > 2 ? 1 + below(sketch, left / 2) : 1;
        struct bounds block = empty_task;
        line(sketch, "repeat %d", rounds);
        line(sketch, "task");
        line(sketch, "do");
        if (left >= 2 * rounds) { /* a task in the task */
            line(sketch, "task");
            line(sketch, "do");
            line(sketch, "end");
            block = sum(block, empty_task);
        }
        line(sketch, "end");
        line(sketch, "end");
        bounds = sum(bounds, repeated(rounds, block));
    }
    return bounds;
}

/* Blocks 8 or 9 deep. */
static void write_deep(struct sketch *sketch, struct guess *guess)
{
    int depth = MOST_DEPTH + often(sketch, 30);
    char opened[MOST_DEPTH + 1];
    struct guess at = *guess;
    for (int i = 0; i < depth; i++) {
        opened[i] = "irt"[below(sketch, 3)];
        if (opened[i] == 'i') {
            open_if(sketch);
            if (often(sketch, 50))
                line(sketch, "else");
        } else if (opened[i] == 'r') {
            line(sketch, "repeat %d", 1 + below(sketch, 2));
        } else {
            struct guess child = at;
            line(sketch, "task");
            write_section(sketch, &at, &child);
            line(sketch, "do");
            at = child;
        }
        if (often(sketch, 40))
            write_access(sketch, &at);
    }
    write_with(sketch, &at);
    for (int i = 0; i < depth; i++) {
        write_set(sketch);
        line(sketch, "end");
    }
}

/* Many tasks that join to few objects, in loops. */
static struct bounds write_crowd(struct sketch *sketch, struct guess *guess)
{
    int tasks = 2 + below(sketch, 50), outer = 1 + below(sketch, 6), inner = 1 + below(sketch, 12);
    int pointer = below(sketch, 4), object = some_object(sketch);
    if (often(sketch, 4)) { /* near the limit on steps */
        tasks = 2 + below(sketch, 60);
        outer = 51;
        inner = 250000 / (51 * tasks) < 255 ? 250000 / (51 * tasks) : 255;
    }
    line(sketch, "point p%d o%d", pointer, object);
    guess->pointers[pointer] = object;
    line(sketch, "repeat %d", tasks);
    line(sketch, "add n1 n2");
    line(sketch, "task");
    line(sketch, "%scm p%d", often(sketch, 50) ? "df" : "", pointer);
    line(sketch, "%scm p%d", often(sketch, 30) ? "df" : "", pointer);
    if (often(sketch, 20))
        line(sketch, "%s p%d", often(sketch, 50) ? "dfrd" : "dfwr", pointer);
    line(sketch, "do");
    line(sketch, "repeat %d", outer);
    line(sketch, "repeat %d", inner);
    if (often(sketch, 30)) {
        line(sketch, "with");
        line(sketch, "cm p%d", pointer);
        line(sketch, "cont");
    } else {
        write_set(sketch);
    }
    line(sketch, "join p%d n%d", pointer, below(sketch, 4));
    line(sketch, "end");
    line(sketch, "end");
    line(sketch, "end");
    line(sketch, "end");
    struct bounds block = sum((struct bounds){ 2, 1 }, repeated(outer, repeated(inner, (struct bounds){ 2, 0 })));
    return sum(one_step, repeated(tasks, sum(one_step, block)));
}

/* ---- A whole good card ---- */

static void count_lines(struct sketch *sketch, int error)
{
    snprintf(sketch->page.lines[sketch->head - 1], LINE_ROOM, "lines %d", sketch->page.count - sketch->head + error);
}

static void write_head(struct sketch *sketch)
{
    static const char *const orders[] = { "first", "last", "turns", "narrow" };
    line(sketch, "bench 2");
    line(sketch, "kind %s", often(sketch, 60) ? "tally" : "flags");
    line(sketch, "order %s", orders[below(sketch, 4)]);
    line(sketch, "objects %d", sketch->objects);
    for (int i = 0; i < sketch->objects; i++)
        line(sketch, "%d", literal(sketch));
    line(sketch, "lines 0");
    sketch->head = sketch->page.count;
}

static void start_sketch(struct sketch *sketch, uint64_t seed)
{
    static const int rooms[] = { 8, 25, 40, 60, 100, 180, 256 };
    static const int counts[] = { 1, 2, 3, 16 };
    sketch->random = seed * 0x2545f4914f6cdd1du + 77;
    sketch->page.count = 0;
    sketch->room = rooms[below(sketch, 7)];
    sketch->objects = often(sketch, 70) ? counts[below(sketch, 4)] : 1 + below(sketch, 16);
    sketch->steps_left = often(sketch, 92) ? 600 : 20000;
    sketch->tasks_left = MOST_TASKS - 1;
    sketch->depth = 0;
    sketch->favourite = below(sketch, sketch->objects);
    sketch->commuting = below(sketch, 100);
    sketch->carelessness = often(sketch, 50) ? 0 : often(sketch, 60) ? 3 : 10;
}

static struct guess guess_of_main(void)
{
    struct guess guess = { .steady = false };
    memset(guess.held, EVERY, sizeof guess.held);
    return guess;
}

/* Some pointers to start with, so that tasks can tell objects apart. */
static struct bounds write_start(struct sketch *sketch, struct guess *guess)
{
    struct bounds bounds = nothing;
    for (int i = below(sketch, 4); i > 0; i--)
        bounds = sum(bounds, write_point(sketch, guess));
    for (int i = below(sketch, 3); i > 0; i--)
        bounds = sum(bounds, write_set(sketch));
    return bounds;
}

enum sort { ORDINARY, CROWDED, DEEP, STEPS_AT_LIMIT, TASKS_AT_LIMIT, BOTH_AT_LIMIT, LINES_AT_LIMIT };

static enum sort some_sort(struct sketch *sketch)
{
    static const struct {
        enum sort sort;
        int share;
    } shares[] = { { CROWDED, 8 }, { DEEP, 3 }, { STEPS_AT_LIMIT, 2 }, { BOTH_AT_LIMIT, 1 }, { TASKS_AT_LIMIT, 4 }, { LINES_AT_LIMIT, 3 } };
    int pick = below(sketch, 100);
    for (size_t i = 0; i < sizeof shares / sizeof shares[0]; i++)
        if ((pick -= shares[i].share) < 0)
            return shares[i].sort;
    return ORDINARY;
}

static struct bounds write_beginning(struct sketch *sketch, struct guess *guess, enum sort sort)
{
    struct bounds bounds = write_start(sketch, guess);
    if (sort == CROWDED) {
        sketch->tasks_left = 5;
        return sum(bounds, write_crowd(sketch, guess));
    }
    if (sort == DEEP)
        write_deep(sketch, guess);
    if (sort != ORDINARY && sketch->room > 130)
        sketch->room -= 100; /* for the end */
    return bounds;
}

static void write_end(struct sketch *sketch, struct bounds bounds, enum sort sort)
{
    if (sort == TASKS_AT_LIMIT || sort == BOTH_AT_LIMIT)
        bounds = end_at_most_tasks(sketch, bounds);
    if (sort == STEPS_AT_LIMIT || sort == BOTH_AT_LIMIT)
        end_at_most_steps(sketch, bounds);
    if (sort == LINES_AT_LIMIT) /* as many as there may be, or one more */
        for (int most = 256 + often(sketch, 25); sketch->page.count - sketch->head < most;)
            write_add(sketch);
}

static void write_card(struct sketch *sketch)
{
    struct guess guess = guess_of_main();
    enum sort sort = some_sort(sketch);
    write_head(sketch);
    struct bounds bounds = write_beginning(sketch, &guess, sort);
    bounds = sum(bounds, write_block(sketch, &guess, 1, 1 + below(sketch, 40)));
    write_end(sketch, bounds, sort);
    count_lines(sketch, 0);
}

/* ---- Damage to lines ---- */

static int any_line(struct sketch *sketch)
{
    return below(sketch, sketch->page.count);
}

/* Some line that starts with `length` bytes of `text`, or any line if there is none. */
static int find_line(struct sketch *sketch, const char *text, size_t length)
{
    const struct page *page = &sketch->page;
    int start = any_line(sketch);
    for (int i = 0; i < page->count; i++)
        if (strncmp(page->lines[(start + i) % page->count], text, length) == 0)
            return (start + i) % page->count;
    return start;
}

static void drop_line(struct page *page, int at)
{
    page->count--;
    memmove(page->lines[at], page->lines[at + 1], (size_t)(page->count - at) * LINE_ROOM);
}

static void insert_line(struct page *page, int at, const char *text)
{
    if (page->count == PAGE_LINES)
        return;
    memmove(page->lines[at + 1], page->lines[at], (size_t)(page->count - at) * LINE_ROOM);
    snprintf(page->lines[at], LINE_ROOM, "%s", text);
    page->count++;
}

static void double_line(struct sketch *sketch)
{
    char copy[LINE_ROOM];
    int at = any_line(sketch);
    memcpy(copy, sketch->page.lines[at], LINE_ROOM);
    insert_line(&sketch->page, any_line(sketch), copy);
}

static void swap_lines(struct sketch *sketch)
{
    char copy[LINE_ROOM];
    int a = any_line(sketch), b = often(sketch, 50) && a > 0 ? a - 1 : any_line(sketch);
    memcpy(copy, sketch->page.lines[a], LINE_ROOM);
    memmove(sketch->page.lines[a], sketch->page.lines[b], LINE_ROOM);
    memcpy(sketch->page.lines[b], copy, LINE_ROOM);
}

static int words_of(const char *text)
{
    int words = 1;
    for (; *text; text++)
        words += *text == ' ';
    return words;
}

static const char *start_of_word(const char *text, int which)
{
    for (; which > 0; which--)
        text = strchr(text, ' ') + 1;
    return text;
}

/* Puts `word` in place of one word of a line; an empty one makes two spaces, or one at an end. */
static void replace_word(char *text, int which, const char *word)
{
    char old[LINE_ROOM];
    snprintf(old, LINE_ROOM, "%s", text);
    const char *start = start_of_word(old, which), *end = strchr(start, ' ');
    if (snprintf(text, LINE_ROOM, "%.*s%s%s", (int)(start - old), old, word, end ? end : "") >= LINE_ROOM)
        strcpy(text, old); /* no room for it */
}

static const char *any_of(struct sketch *sketch, const char *const *words, int count)
{
    return words[below(sketch, count)];
}

#define ANY_OF(sketch, words) any_of(sketch, words, (int)(sizeof words / sizeof words[0]))

static bool is_number(const char *word)
{
    return *word == '-' || (*word >= '0' && *word <= '9');
}

static bool is_name(const char *word)
{
    return (*word == 'n' || *word == 'p' || *word == 'o') && word[1] >= '0' && word[1] <= '9';
}

/* The least or greatest that is no longer right for a name or number in this line. */
static void just_past(struct sketch *sketch, const char *text, const char *old, char *word)
{
    bool low = often(sketch, 50);
    if (*old == 'o')
        snprintf(word, LINE_ROOM, "o%d", low ? sketch->objects : MOST_OBJECTS);
    else if (is_name(old))
        snprintf(word, LINE_ROOM, "%c4", *old);
    else if (strncmp(text, "repeat", 6) == 0)
        snprintf(word, LINE_ROOM, low ? "-1" : "256");
    else if (strncmp(text, "objects", 7) == 0)
        snprintf(word, LINE_ROOM, low ? "0" : "17");
    else if (strncmp(text, "lines", 5) == 0)
        snprintf(word, LINE_ROOM, low ? "-1" : "257");
    else
        snprintf(word, LINE_ROOM, low ? "-32769" : "32768");
}

/* A word that is nearly right where `old` stands. */
static void near_miss(struct sketch *sketch, const char *text, const char *old, char *word)
{
    static const char *const numbers[] = {
        "00", "01", "-0", "-00", "-01", "+1", "32767", "-32768", "65536", "99999", "4294967296", "18446744073709551616", "-", "",
        "-1", "1", "2", "3", "16", "255", "1x", "0x1", "1.",
    };
    static const char *const ends_of_names[] = { "0", "3", "", "00", "01", "-0", "-1", "O", "0x", "15", "256" };
    static const char *const keywords[] = {
        "", "tally", "flags", "first", "last", "turns", "narrow", "Tally", "wide", "set", "sets", "se", "if", "repeat", "task", "with",
        "do", "cont", "else", "end", "rd", "dfrd", "nord", "nocm", "nodf", "dfno", "cmp", "bench", "objects", "lines", "kind", "order",
        "point", "alias", "read", "write", "join", "n0", "p0", "o0", "N0", "P0", "0",
    };
    char letter = often(sketch, 85) ? *old : "nop"[below(sketch, 3)];
    if ((is_name(old) || is_number(old)) && often(sketch, 40))
        just_past(sketch, text, old, word);
    else if (is_name(old) && often(sketch, 85))
        snprintf(word, LINE_ROOM, "%c%s", letter, ANY_OF(sketch, ends_of_names));
    else
        snprintf(word, LINE_ROOM, "%s", is_number(old) && often(sketch, 85) ? ANY_OF(sketch, numbers) : ANY_OF(sketch, keywords));
}

static void damage_word(struct sketch *sketch)
{
    char *text = sketch->page.lines[often(sketch, 15) ? find_line(sketch, "repeat ", 7) : any_line(sketch)];
    char word[LINE_ROOM];
    int which = below(sketch, words_of(text)), length = (int)strlen(text);
    if (which == 0 && often(sketch, 50)) /* keywords have their share anyway */
        which = words_of(text) - 1;
    near_miss(sketch, text, start_of_word(text, which), word);
    if (often(sketch, 10))
        snprintf(text + length, (size_t)(LINE_ROOM - length), " %s", word);
    else
        replace_word(text, which, word);
}

static void drop_word(struct sketch *sketch)
{
    char *space = strrchr(sketch->page.lines[any_line(sketch)], ' ');
    if (space)
        *space = '\0';
}

/* A line that is right by itself, wherever it lands. */
static void stray_line(struct sketch *sketch)
{
    static const char *const strays[] = {
        "else", "end", "do", "cont", "rd p0", "dfwr p1", "nord p0", "nocm p1", "nowr p2", "task", "with", "if n0 n1", "repeat 2", "set n0 1",
        "point p0 o15", "point p1 o7", "end", "else",
    };
    int at = sketch->head + below(sketch, sketch->page.count - sketch->head + 1);
    insert_line(&sketch->page, at, ANY_OF(sketch, strays));
    if (often(sketch, 85))
        count_lines(sketch, 0);
}

/* Puts a line before some line that reads `text`. */
static void insert_before(struct sketch *sketch, const char *text, const char *inserted)
{
    int at = find_line(sketch, text, LINE_ROOM);
    if (strcmp(sketch->page.lines[at], text) != 0)
        return;
    insert_line(&sketch->page, at, inserted);
    count_lines(sketch, 0);
}

static void drop_some(struct sketch *sketch, const char *text)
{
    int at = find_line(sketch, text, LINE_ROOM);
    if (strcmp(sketch->page.lines[at], text) != 0)
        return;
    drop_line(&sketch->page, at);
    count_lines(sketch, 0);
}

static void miscount(struct sketch *sketch)
{
    int error = often(sketch, 50) ? 1 : -1;
    if (often(sketch, 50))
        count_lines(sketch, error);
    else
        snprintf(sketch->page.lines[3], LINE_ROOM, "objects %d", sketch->objects + error);
}

static void damage_lines(struct sketch *sketch)
{
    static const char *const keywords[] = { "end", "do", "cont", "else", "task", "with" };
    switch (below(sketch, 18)) {
    case 0:
        if (sketch->page.count > sketch->head)
            drop_line(&sketch->page, any_line(sketch));
        break;
    case 1: double_line(sketch); break;
    case 2: swap_lines(sketch); break;
    case 3: drop_word(sketch); break;
    case 4: miscount(sketch); break;
    case 5: insert_before(sketch, "do", often(sketch, 50) ? "nord p0" : "nocm p1"); break;
    case 6: insert_before(sketch, "end", "else"); break;
    case 7: drop_some(sketch, keywords[below(sketch, 6)]); break;
    case 8:
    case 9: stray_line(sketch); break;
    default: damage_word(sketch); break;
    }
}

/* ---- Damage to bytes ---- */

static size_t write_text(const struct page *page, uint8_t *text)
{
    size_t length = 0;
    for (int i = 0; i < page->count; i++) {
        size_t bytes = strlen(page->lines[i]);
        memcpy(text + length, page->lines[i], bytes);
        length += bytes;
        text[length++] = '\n';
    }
    return length;
}

static size_t insert_byte(uint8_t *text, size_t length, size_t at, uint8_t byte)
{
    memmove(text + at + 1, text + at, length - at);
    text[at] = byte;
    return length + 1;
}

/* The place of some byte of this value, or the end. */
static size_t find_byte(uint64_t *random, const uint8_t *text, size_t length, uint8_t byte)
{
    size_t start = length ? draw(random) % length : 0;
    for (size_t i = 0; i < length; i++)
        if (text[(start + i) % length] == byte)
            return (start + i) % length;
    return length;
}

/* Lengthens the text to the most bytes a card may have, or one more. */
static size_t stretch(uint64_t *random, uint8_t *text, size_t length)
{
    size_t wanted = 16384 + (size_t)draw_below(random, 2);
    uint8_t filler = "x \n0"[draw_below(random, 4)];
    size_t at = draw_below(random, 2) ? length : find_byte(random, text, length, '\n');
    if (length >= wanted)
        return length;
    memmove(text + at + (wanted - length), text + at, length - at);
    memset(text + at, filler, wanted - length);
    if (draw_below(random, 2))
        text[wanted - 1] = '\n';
    return wanted;
}

static size_t damage_bytes(uint64_t *random, uint8_t *text, size_t length)
{
    static const uint8_t odd[] = { '\t', '\r', 0, 0x80, 0xff, ' ', '\n', '-', '+' };
    if (length == 0)
        return length;
    size_t at = draw(random) % length;
    uint8_t strange = odd[draw_below(random, sizeof odd)];
    switch (draw_below(random, 12)) {
    case 0: text[at] ^= (uint8_t)(1 << draw_below(random, 8)); return length;
    case 1: text[at] = (uint8_t)draw(random); return length;
    case 2: text[at] = strange; return length;
    case 3: return length - 1; /* the last line is not ended */
    case 4: return at; /* cut short */
    case 5: return insert_byte(text, length, find_byte(random, text, length, ' '), ' ');
    case 6: return insert_byte(text, length, find_byte(random, text, length, '\n'), ' ');
    case 7: return insert_byte(text, length, find_byte(random, text, length, '\n'), strange);
    case 8: return insert_byte(text, length, at, "0123456789-nop \n"[draw_below(random, 16)]);
    case 9:
        memmove(text + at, text + at + 1, length - at - 1);
        return length - 1;
    case 10: return insert_byte(text, length, length, "\nx 0"[draw_below(random, 4)]);
    default: return draw_below(random, 3) ? length : stretch(random, text, length);
    }
}

/* ---- The programs ---- */

size_t make_card(uint64_t seed, uint8_t text[TEXT_ROOM])
{
    static struct sketch sketch;
    start_sketch(&sketch, seed);
    write_card(&sketch);
    int damage = below(&sketch, 100);
    if (damage < 18)
        for (int i = often(&sketch, 70) ? 1 : 1 + below(&sketch, 3); i > 0; i--)
            damage_lines(&sketch);
    size_t length = write_text(&sketch.page, text);
    if (damage >= 16 && damage < 25)
        for (int i = often(&sketch, 70) ? 1 : 1 + below(&sketch, 3); i > 0; i--)
            length = damage_bytes(&sketch.random, text, length);
    return length;
}

#ifndef WITHOUT_MAIN

static int write_file(const char *folder, uint64_t seed)
{
    static uint8_t text[TEXT_ROOM];
    char path[4096];
    size_t length = make_card(seed, text);
    snprintf(path, sizeof path, "%s/%llu.card", folder, (unsigned long long)seed);
    FILE *file = fopen(path, "wb");
    if (!file || fwrite(text, 1, length, file) != length || fclose(file) != 0) {
        perror(path);
        return 1;
    }
    return 0;
}

int main(int argc, char **argv)
{
    static uint8_t text[TEXT_ROOM];
    if (argc != 2 && argc != 4) {
        fputs("usage: cards SEED [COUNT DIR]\n", stderr);
        return 2;
    }
    uint64_t seed = strtoull(argv[1], NULL, 10);
    if (argc == 2) {
        fwrite(text, 1, make_card(seed, text), stdout);
        return 0;
    }
    for (uint64_t count = strtoull(argv[2], NULL, 10); count > 0; count--)
        if (write_file(argv[3], seed++) != 0)
            return 1;
    return 0;
}

#endif
