/*
 * A job card's sheet, in plain C.
 *
 *   interpreter              works the card on standard input off on a bench
 *   interpreter serial       works it from top to bottom, with a pile
 *   interpreter orders SEED  works it in random orders, which must all agree
 *
 * In order: cards and how they are read, tasks and their steps, sheets, serial working,
 * the line and the queues, schedulers, random orders, the program.
 */
#include "interpreter.h"
#include "random.h"

#include <stdbool.h>
#include <stdio.h>
#include <stdlib.h>
#include <string.h>

enum {
    MOST_OBJECTS = 16,
    MOST_LINES = 256,
    MOST_DEPTH = 8,
    MOST_TASKS = 64,
    MOST_STEPS = 1000000,
};

/* ---- Cards ---- */

enum access { RD = 1, WR = 2, CM = 4 }; /* bits, so that sets of accesses are numbers */
enum level { WITHDRAWN, DEFERRED, IMMEDIATE };
enum order { FIRST, LAST, TURNS, NARROW };
enum fault_kind { NO_FAULT, FAULT_READ, FAULT_WRITE, FAULT_JOIN, FAULT_DECLARE };

struct declaration {
    uint8_t access, level, pointer;
    int16_t line;
};

enum operation { SET, ADD, POINT, ALIAS, READ, WRITE, JOIN, IF, REPEAT, AGAIN, TASK, WITH, FINISH, JUMP };

/*
 * The lines become one array of instructions. Every instruction but JUMP is one step.
 * `next` is where the task goes on; `other` is the second way of an `if` (not less),
 * of `repeat` (no rounds), of AGAIN (another round) and, for `task`, where the child starts.
 */
struct instruction {
    uint8_t operation, first, second;
    int16_t line;
    int16_t number;                /* a literal, or a count of rounds */
    uint16_t section, section_end; /* declarations of `task` and `with` */
    const struct instruction *next, *other;
};

struct card {
    bool flags; /* kind flags, else tally */
    enum order order;
    int objects;
    uint32_t words[MOST_OBJECTS];
    struct instruction code[MOST_LINES + 1];
    int length;
    struct declaration declarations[MOST_LINES];
    int declared;
};

struct refusal {
    int number, line, word;
};

/* ---- Reading words ---- */

struct word {
    const char *bytes;
    size_t length;
};

/* One line of the text, and how far it is read. */
struct line {
    const char *rest;
    size_t length;
    bool more;
    int word; /* the number of the word last asked for */
};

static bool next_word(struct line *line, struct word *word)
{
    line->word++;
    if (!line->more)
        return false;
    const char *space = memchr(line->rest, ' ', line->length);
    line->more = space != NULL;
    word->bytes = line->rest;
    word->length = space ? (size_t)(space - line->rest) : line->length;
    if (space) {
        line->length -= word->length + 1;
        line->rest = space + 1;
    }
    return true;
}

static bool word_is(struct word word, const char *text)
{
    return word.length == strlen(text) && memcmp(word.bytes, text, word.length) == 0;
}

/* Decimal, with no plus, no leading zero and no -0. */
static bool read_number(struct word word, int low, int high, int *number)
{
    bool negative = word.length > 0 && word.bytes[0] == '-';
    size_t start = negative;
    if (word.length == start || word.length > start + 5)
        return false;
    if (word.bytes[start] == '0' && word.length > 1)
        return false;
    int size = 0;
    for (size_t i = start; i < word.length; i++) {
        if (word.bytes[i] < '0' || word.bytes[i] > '9')
            return false;
        size = size * 10 + (word.bytes[i] - '0');
    }
    *number = negative ? -size : size;
    return low <= *number && *number <= high;
}

static bool read_name(struct word word, char letter, int high, int *number)
{
    if (word.length == 0 || word.bytes[0] != letter)
        return false;
    return read_number((struct word){ word.bytes + 1, word.length - 1 }, 0, high, number);
}

/* What stands after the keyword: n, p and o are names, L a literal, C a count of rounds. */
static bool read_operand(struct word word, char what, int *number)
{
    switch (what) {
    case 'n':
    case 'p': return read_name(word, what, 3, number);
    case 'o': return read_name(word, what, MOST_OBJECTS - 1, number);
    case 'L': return read_number(word, -32768, 32767, number);
    default: return read_number(word, 0, 255, number);
    }
}

/* ---- Forms of a line ---- */

enum shape { SIMPLE, OPENS_IF, OPENS_REPEAT, OPENS_TASK, OPENS_WITH, ELSE, DO, CONT, END, DECLARES };

struct form {
    const char *keyword, *operands;
    enum shape shape;
    int operation; /* of a simple statement */
    int access, level; /* of a declaration */
};

static const struct form forms[] = {
    { "set", "nL", SIMPLE, SET, 0, 0 },
    { "add", "nn", SIMPLE, ADD, 0, 0 },
    { "point", "po", SIMPLE, POINT, 0, 0 },
    { "alias", "pp", SIMPLE, ALIAS, 0, 0 },
    { "read", "np", SIMPLE, READ, 0, 0 },
    { "write", "pn", SIMPLE, WRITE, 0, 0 },
    { "join", "pn", SIMPLE, JOIN, 0, 0 },
    { "if", "nn", OPENS_IF, 0, 0, 0 },
    { "repeat", "C", OPENS_REPEAT, 0, 0, 0 },
    { "task", "", OPENS_TASK, 0, 0, 0 },
    { "with", "", OPENS_WITH, 0, 0, 0 },
    { "else", "", ELSE, 0, 0, 0 },
    { "do", "", DO, 0, 0, 0 },
    { "cont", "", CONT, 0, 0, 0 },
    { "end", "", END, 0, 0, 0 },
    { "rd", "p", DECLARES, 0, RD, IMMEDIATE },
    { "wr", "p", DECLARES, 0, WR, IMMEDIATE },
    { "cm", "p", DECLARES, 0, CM, IMMEDIATE },
    { "dfrd", "p", DECLARES, 0, RD, DEFERRED },
    { "dfwr", "p", DECLARES, 0, WR, DEFERRED },
    { "dfcm", "p", DECLARES, 0, CM, DEFERRED },
    { "nord", "p", DECLARES, 0, RD, WITHDRAWN },
    { "nowr", "p", DECLARES, 0, WR, WITHDRAWN },
    { "nocm", "p", DECLARES, 0, CM, WITHDRAWN },
};

static const struct form *form_of(struct word keyword)
{
    for (size_t i = 0; i < sizeof forms / sizeof forms[0]; i++)
        if (word_is(keyword, forms[i].keyword))
            return &forms[i];
    return NULL;
}

/* ---- Loading a card ---- */

enum opened { MAIN, IN_IF, IN_ELSE, IN_REPEAT, IN_TASK_SECTION, IN_TASK, IN_WITH };

/* The most steps and tasks of a block, capped far above the limits. */
struct bounds {
    uint64_t steps, tasks;
};

enum { CAP = 1 << 30 };

/* A statement that is still open, and the bounds of its block so far. */
struct open {
    enum opened state;
    int opener, jump; /* its instruction, and the jump at the end of its first arm */
    struct bounds block, first_arm;
};

struct loader {
    struct card *card;
    const char *rest;
    size_t left;
    int text_line; /* the line last asked for, from 1 */
    struct line line;
    struct open opens[MOST_DEPTH + 2];
    int top; /* also the depth of the block that is being read */
    struct refusal refusal;
};

static bool refuse(struct loader *loader, int number, int line, int word)
{
    loader->refusal = (struct refusal){ number, line, word };
    return false;
}

static bool refuse_word(struct loader *loader)
{
    return refuse(loader, 2, loader->text_line, loader->line.word);
}

static bool refuse_place(struct loader *loader)
{
    return refuse(loader, 3, loader->text_line, 0);
}

static bool next_line(struct loader *loader)
{
    loader->text_line++;
    const char *newline = loader->left ? memchr(loader->rest, '\n', loader->left) : NULL;
    if (!newline)
        return refuse(loader, 2, loader->text_line, 0);
    size_t length = (size_t)(newline - loader->rest);
    loader->line = (struct line){ loader->rest, length, true, 0 };
    loader->rest = newline + 1;
    loader->left -= length + 1;
    return true;
}

static bool no_more_words(struct loader *loader)
{
    struct word word;
    return !next_word(&loader->line, &word) || refuse_word(loader);
}

/* A line of a keyword and one of several words. */
static bool load_choice(struct loader *loader, const char *keyword, const char *const *words, int count, int *choice)
{
    struct word word;
    if (!next_line(loader))
        return false;
    if (!next_word(&loader->line, &word) || !word_is(word, keyword))
        return refuse_word(loader);
    if (!next_word(&loader->line, &word))
        return refuse_word(loader);
    for (*choice = 0; *choice < count; ++*choice)
        if (word_is(word, words[*choice]))
            return no_more_words(loader);
    return refuse_word(loader);
}

/* A line of a keyword and a number. */
static bool load_count(struct loader *loader, const char *keyword, int low, int high, int *count)
{
    struct word word;
    if (!next_line(loader))
        return false;
    if (!next_word(&loader->line, &word) || !word_is(word, keyword))
        return refuse_word(loader);
    if (!next_word(&loader->line, &word) || !read_number(word, low, high, count))
        return refuse_word(loader);
    return no_more_words(loader);
}

static bool load_head(struct loader *loader)
{
    static const char *const kinds[] = { "tally", "flags" };
    static const char *const orders[] = { "first", "last", "turns", "narrow" };
    struct card *card = loader->card;
    int choice;
    if (!load_count(loader, "bench", 2, 2, &choice))
        return false;
    if (!load_choice(loader, "kind", kinds, 2, &choice))
        return false;
    card->flags = choice == 1;
    if (!load_choice(loader, "order", orders, 4, &choice))
        return false;
    card->order = (enum order)choice;
    return true;
}

static bool load_objects(struct loader *loader)
{
    struct card *card = loader->card;
    struct word word;
    int literal;
    if (!load_count(loader, "objects", 1, MOST_OBJECTS, &card->objects))
        return false;
    for (int object = 0; object < card->objects; object++) {
        if (!next_line(loader))
            return false;
        if (!next_word(&loader->line, &word) || !read_operand(word, 'L', &literal))
            return refuse_word(loader);
        if (!no_more_words(loader))
            return false;
        card->words[object] = (uint32_t)literal;
    }
    return true;
}

static uint64_t capped(uint64_t bound)
{
    return bound < CAP ? bound : CAP;
}

static uint64_t larger(uint64_t a, uint64_t b)
{
    return a > b ? a : b;
}

/* Counts a whole statement in the block that is being read. */
static void count_statement(struct loader *loader, uint64_t steps, uint64_t tasks)
{
    struct bounds *block = &loader->opens[loader->top].block;
    block->steps = capped(block->steps + steps);
    block->tasks = capped(block->tasks + tasks);
}

static struct instruction *emit(struct loader *loader, enum operation operation, int line)
{
    struct card *card = loader->card;
    struct instruction *instruction = &card->code[card->length++];
    *instruction = (struct instruction){ .operation = operation, .line = line };
    instruction->next = instruction + 1;
    return instruction;
}

/* Where the next instruction will stand. */
static const struct instruction *here(const struct loader *loader)
{
    return &loader->card->code[loader->card->length];
}

static void open_statement(struct loader *loader, enum opened state, int opener)
{
    loader->opens[++loader->top] = (struct open){ .state = state, .opener = opener };
}

static void begin_else(struct loader *loader)
{
    struct card *card = loader->card;
    struct open *open = &loader->opens[loader->top];
    open->state = IN_ELSE;
    open->jump = card->length;
    open->first_arm = open->block;
    open->block = (struct bounds){ 0, 0 };
    emit(loader, JUMP, 0);
    card->code[open->opener].other = here(loader);
}

static void close_if(struct loader *loader, const struct open *open)
{
    struct card *card = loader->card;
    if (open->state == IN_ELSE)
        card->code[open->jump].next = here(loader);
    else
        card->code[open->opener].other = here(loader);
    count_statement(loader, 1 + larger(open->first_arm.steps, open->block.steps),
                    larger(open->first_arm.tasks, open->block.tasks));
}

static void close_repeat(struct loader *loader, const struct open *open)
{
    struct instruction *repeat = &loader->card->code[open->opener];
    uint64_t rounds = (uint64_t)repeat->number;
    emit(loader, AGAIN, repeat->line)->other = repeat + 1;
    repeat->other = here(loader);
    count_statement(loader, 1 + rounds * (1 + open->block.steps), rounds * open->block.tasks);
}

static void close_task(struct loader *loader, const struct open *open)
{
    struct instruction *task = &loader->card->code[open->opener];
    emit(loader, FINISH, task->line);
    task->other = task + 1;
    task->next = here(loader);
    count_statement(loader, 2 + open->block.steps, 1 + open->block.tasks);
}

static bool close_statement(struct loader *loader)
{
    struct open open = loader->opens[loader->top];
    if (open.state == MAIN || open.state == IN_TASK_SECTION || open.state == IN_WITH)
        return refuse_place(loader);
    loader->top--;
    if (open.state == IN_REPEAT)
        close_repeat(loader, &open);
    else if (open.state == IN_TASK)
        close_task(loader, &open);
    else
        close_if(loader, &open);
    return true;
}

static void end_section(struct loader *loader)
{
    const struct open *open = &loader->opens[loader->top];
    loader->card->code[open->opener].section_end = loader->card->declared;
}

static bool add_declaration(struct loader *loader, const struct form *form, int pointer, int line)
{
    struct card *card = loader->card;
    enum opened state = loader->opens[loader->top].state;
    if (state != IN_WITH && (state != IN_TASK_SECTION || form->level == WITHDRAWN))
        return refuse_place(loader);
    card->declarations[card->declared++] = (struct declaration){ form->access, form->level, pointer, line };
    return true;
}

/* `if`, `repeat`, `task` and `with`. */
static bool add_opener(struct loader *loader, const struct form *form, const int *operands, int line)
{
    static const uint8_t operations[] = { [OPENS_IF] = IF, [OPENS_REPEAT] = REPEAT, [OPENS_TASK] = TASK, [OPENS_WITH] = WITH };
    static const uint8_t states[] = { [OPENS_IF] = IN_IF, [OPENS_REPEAT] = IN_REPEAT, [OPENS_TASK] = IN_TASK_SECTION, [OPENS_WITH] = IN_WITH };
    struct card *card = loader->card;
    if (form->shape != OPENS_WITH && loader->top == MOST_DEPTH)
        return refuse_place(loader);
    open_statement(loader, states[form->shape], card->length);
    struct instruction *instruction = emit(loader, operations[form->shape], line);
    instruction->first = operands[0];
    instruction->second = operands[1];
    instruction->number = operands[0];
    instruction->section = card->declared;
    return true;
}

static bool add_simple(struct loader *loader, const struct form *form, const int *operands, int line)
{
    if (form->operation == POINT && operands[1] >= loader->card->objects)
        return refuse(loader, 4, loader->text_line, 0);
    struct instruction *instruction = emit(loader, form->operation, line);
    instruction->first = operands[0];
    instruction->second = operands[1];
    instruction->number = operands[1];
    count_statement(loader, 1, 0);
    return true;
}

/* Puts a line of a right form where it stands, if it may stand there. */
static bool add_line(struct loader *loader, const struct form *form, const int *operands, int line)
{
    enum opened state = loader->opens[loader->top].state;
    bool in_section = state == IN_TASK_SECTION || state == IN_WITH;
    switch (form->shape) {
    case DECLARES:
        return add_declaration(loader, form, operands[0], line);
    case DO:
        if (state != IN_TASK_SECTION)
            return refuse_place(loader);
        end_section(loader);
        loader->opens[loader->top].state = IN_TASK;
        return true;
    case CONT:
        if (state != IN_WITH)
            return refuse_place(loader);
        end_section(loader);
        loader->top--;
        count_statement(loader, 1, 0);
        return true;
    case ELSE:
        if (state != IN_IF)
            return refuse_place(loader);
        begin_else(loader);
        return true;
    case END:
        return close_statement(loader);
    case SIMPLE:
        return in_section ? refuse_place(loader) : add_simple(loader, form, operands, line);
    default:
        return in_section ? refuse_place(loader) : add_opener(loader, form, operands, line);
    }
}

static bool load_line(struct loader *loader, int line)
{
    struct word word;
    int operands[2] = { 0, 0 };
    if (!next_line(loader))
        return false;
    next_word(&loader->line, &word); /* even an empty line has a first word */
    const struct form *form = form_of(word);
    if (!form)
        return refuse_word(loader);
    for (int i = 0; form->operands[i]; i++)
        if (!next_word(&loader->line, &word) || !read_operand(word, form->operands[i], &operands[i]))
            return refuse_word(loader);
    return no_more_words(loader) && add_line(loader, form, operands, line);
}

static const struct instruction *past_jumps(const struct instruction *at)
{
    while (at && at->operation == JUMP)
        at = at->next;
    return at;
}

/* Lets every instruction lead to a step, so that no jump is ever performed. */
static void thread_jumps(struct card *card)
{
    for (int i = 0; i < card->length; i++) {
        struct instruction *instruction = &card->code[i];
        if (instruction->operation == FINISH)
            continue;
        instruction->next = past_jumps(instruction->next);
        instruction->other = past_jumps(instruction->other);
    }
}

static bool load_lines(struct loader *loader)
{
    int count;
    if (!load_count(loader, "lines", 0, MOST_LINES, &count))
        return false;
    for (int line = 1; line <= count; line++)
        if (!load_line(loader, line))
            return false;
    if (loader->left > 0)
        return refuse(loader, 2, loader->text_line + 1, 0);
    if (loader->top > 0)
        return refuse(loader, 3, loader->text_line + 1, 0);
    return true;
}

/* Answers the refusal, whose number is 0 for a good card. */
static struct refusal load(const uint8_t *text, size_t length, struct card *card)
{
    struct loader loader = { .card = card, .rest = (const char *)text, .left = length };
    card->length = card->declared = 0;
    if (length > CARD_BYTES)
        return (struct refusal){ 1, 0, 0 };
    if (!load_head(&loader) || !load_objects(&loader) || !load_lines(&loader))
        return loader.refusal;
    if (loader.opens[0].block.tasks + 1 > MOST_TASKS)
        return (struct refusal){ 5, 0, 0 };
    if (loader.opens[0].block.steps + 1 > MOST_STEPS)
        return (struct refusal){ 6, 0, 0 };
    emit(&loader, FINISH, 0);
    thread_jumps(card);
    return (struct refusal){ 0, 0, 0 };
}

/* ---- Tasks and steps ---- */

/* What a task declares on one object. `now` holds the immediate accesses, all of them in `held`. */
struct declared {
    uint8_t held, now;
};

struct task {
    uint32_t words[4];
    uint8_t pointers[4];
    struct declared declared[MOST_OBJECTS];
    const struct instruction *at; /* what it does next */
    uint8_t loops;                /* open repeats, and the rounds left in each */
    uint8_t rounds[MOST_DEPTH];
    uint8_t maker, rank, children;
    enum fault_kind fault;
    int fault_line;
};

/* What serial working and the bench have in common. Tasks are numbered by making. */
struct run {
    const struct card *card;
    uint32_t words[MOST_OBJECTS];
    struct task tasks[MOST_TASKS];
    int made;
    int steps;
};

enum result { DONE, MADE, AMENDED, FINISHED, FAULTED };

/* Keeps what is seldom done out of the path of the common steps. */
#define SELDOM __attribute__((noinline))

static uint32_t add_words(bool flags, uint32_t a, uint32_t b)
{
    return flags ? a ^ b : a + b;
}

static uint32_t join_words(bool flags, uint32_t a, uint32_t b)
{
    return flags ? a | b : a + b;
}

static bool less(bool flags, uint32_t a, uint32_t b)
{
    if (flags)
        return (a & ~b) == 0 && a != b; /* a strict subset */
    return (a ^ 0x80000000u) < (b ^ 0x80000000u);
}

static long long number_of(bool flags, uint32_t word)
{
    if (flags || word < 0x80000000u)
        return word;
    return (long long)word - 0x100000000LL;
}

static void start_run(struct run *run, const struct card *card)
{
    run->card = card;
    memcpy(run->words, card->words, sizeof run->words);
    run->made = 1;
    run->steps = 0;
    struct task *main_task = &run->tasks[0];
    memset(main_task, 0, sizeof *main_task);
    main_task->at = card->code;
    for (int object = 0; object < card->objects; object++)
        main_task->declared[object].held = RD | WR | CM;
}

SELDOM static enum result fault(struct task *task, enum fault_kind kind, int line)
{
    task->fault = kind;
    task->fault_line = line;
    return FAULTED;
}

static void declare(struct declared *declared, int access, int level)
{
    declared->held &= ~access;
    declared->now &= ~access;
    if (level != WITHDRAWN)
        declared->held |= access;
    if (level == IMMEDIATE)
        declared->now |= access;
}

/* Checks each line of a section against `from` and applies it to `to`; they may be the same. */
static bool apply_section(const struct run *run, const struct instruction *instruction, struct task *task,
                          const struct declared *from, struct declared *to)
{
    for (int i = instruction->section; i < instruction->section_end; i++) {
        const struct declaration *line = &run->card->declarations[i];
        int object = task->pointers[line->pointer];
        if (!(from[object].held & line->access)) {
            fault(task, FAULT_DECLARE, line->line);
            return false;
        }
        declare(&to[object], line->access, line->level);
    }
    return true;
}

SELDOM static enum result make_child(struct run *run, const struct instruction *instruction, struct task *maker)
{
    struct task *child = &run->tasks[run->made];
    memset(child, 0, sizeof *child);
    if (!apply_section(run, instruction, maker, maker->declared, child->declared))
        return FAULTED;
    memcpy(child->words, maker->words, sizeof child->words);
    memcpy(child->pointers, maker->pointers, sizeof child->pointers);
    child->at = instruction->other;
    child->maker = (uint8_t)(maker - run->tasks);
    child->rank = ++maker->children;
    maker->at = instruction->next;
    run->made++;
    run->steps++;
    return MADE;
}

SELDOM static enum result amend(struct run *run, const struct instruction *instruction, struct task *task)
{
    struct declared amended[MOST_OBJECTS];
    memcpy(amended, task->declared, sizeof amended);
    if (!apply_section(run, instruction, task, amended, amended))
        return FAULTED;
    memcpy(task->declared, amended, sizeof amended);
    task->at = instruction->next;
    run->steps++;
    return AMENDED;
}

/* One step of a task. A step that faults changes nothing and is not counted. */
static inline enum result step(struct run *run, struct task *task)
{
    const struct instruction *instruction = task->at, *next = instruction->next;
    bool flags = run->card->flags;
    uint32_t *words = task->words;
    uint8_t *pointers = task->pointers;
    uint8_t first = instruction->first, second = instruction->second;
    int object;
    switch (instruction->operation) {
    case SET:
        words[first] = (uint32_t)instruction->number;
        break;
    case ADD:
        words[first] = add_words(flags, words[first], words[second]);
        break;
    case POINT:
        pointers[first] = second;
        break;
    case ALIAS:
        pointers[first] = pointers[second];
        break;
    case READ:
        object = pointers[second];
        if (!(task->declared[object].now & RD))
            return fault(task, FAULT_READ, instruction->line);
        words[first] = run->words[object];
        break;
    case WRITE:
        object = pointers[first];
        if (!(task->declared[object].now & WR))
            return fault(task, FAULT_WRITE, instruction->line);
        run->words[object] = words[second];
        break;
    case JOIN:
        object = pointers[first];
        if (!(task->declared[object].now & CM))
            return fault(task, FAULT_JOIN, instruction->line);
        run->words[object] = join_words(flags, run->words[object], words[second]);
        break;
    case IF:
        if (!less(flags, words[first], words[second]))
            next = instruction->other;
        break;
    case REPEAT:
        if (instruction->number == 0)
            next = instruction->other;
        else
            task->rounds[task->loops++] = (uint8_t)(instruction->number - 1);
        break;
    case AGAIN:
        if (task->rounds[task->loops - 1] == 0) {
            task->loops--;
        } else {
            task->rounds[task->loops - 1]--;
            next = instruction->other;
        }
        break;
    case TASK:
        return make_child(run, instruction, task);
    case WITH:
        return amend(run, instruction, task);
    case FINISH:
        run->steps++;
        return FINISHED;
    }
    task->at = next;
    run->steps++;
    return DONE;
}

/* ---- Sheets ---- */

static int write_place(const struct run *run, int number, char *out)
{
    const struct task *task = &run->tasks[number];
    if (number == 0)
        return sprintf(out, "main");
    int length = write_place(run, task->maker, out);
    return length + sprintf(out + length, ".%d", task->rank);
}

static size_t run_sheet(const struct run *run, char *out)
{
    const struct card *card = run->card;
    int length = sprintf(out, "run 2\ntasks %d\nsteps %d\nobjects %d\n", run->made, run->steps, card->objects);
    for (int object = 0; object < card->objects; object++)
        length += sprintf(out + length, "%lld\n", number_of(card->flags, run->words[object]));
    return (size_t)length;
}

static size_t fault_sheet(const struct run *run, int number, char *out)
{
    static const char *const kinds[] = { "", "read", "write", "join", "declare" };
    const struct task *task = &run->tasks[number];
    int length = sprintf(out, "fault 3\nkind %s\nline %d\ntask ", kinds[task->fault], task->fault_line);
    length += write_place(run, number, out + length);
    return (size_t)(length + sprintf(out + length, "\n"));
}

static size_t refused_sheet(struct refusal refusal, char *out)
{
    return (size_t)sprintf(out, "refused 3\nnumber %d\nline %d\nword %d\n", refusal.number, refusal.line, refusal.word);
}

/* ---- Serial working ---- */

/* The top of the pile makes every step; a child goes on top of its maker. */
static size_t work_serially(const struct card *card, char *sheet)
{
    struct run run;
    uint8_t pile[MOST_TASKS];
    int height = 1;
    pile[0] = 0;
    start_run(&run, card);
    while (height > 0) {
        int top = pile[height - 1];
        enum result result = step(&run, &run.tasks[top]);
        if (result == MADE)
            pile[height++] = (uint8_t)(run.made - 1);
        else if (result == FINISHED)
            height--;
        else if (result == FAULTED)
            return fault_sheet(&run, top, sheet);
    }
    return run_sheet(&run, sheet);
}

/* ---- The line and the queues ---- */

struct entry {
    uint8_t task;
    struct declared declared;
};

/* The tasks that declare anything on one object, in the line's order. */
struct queue {
    struct entry entries[MOST_TASKS];
    int length;
    uint64_t held_back; /* the tasks with an immediate declaration here that is not clear */
};

/* The tasks that may be given a turn, in the line's order, and where each stands. */
struct offer {
    uint8_t tasks[MOST_TASKS];
    uint8_t places[MOST_TASKS];
    int length;
    uint64_t set;
};

struct bench {
    struct run run;
    uint8_t line[MOST_TASKS]; /* the unfinished tasks */
    int length;
    struct queue queues[MOST_OBJECTS];
    uint64_t stuck, ready, out; /* sets of task numbers */
    struct offer offer;
};

static uint64_t bit(int number)
{
    return (uint64_t)1 << number;
}

/* The immediate accesses that are not clear behind an entry holding these accesses. */
static uint8_t barred_behind(uint8_t held)
{
    static const uint8_t barred[8] = {
        [RD] = WR | CM,
        [WR] = RD | WR | CM,
        [CM] = RD | WR,
        [RD | WR] = RD | WR | CM,
        [RD | CM] = RD | WR | CM,
        [WR | CM] = RD | WR | CM,
        [RD | WR | CM] = RD | WR | CM,
    };
    return barred[held];
}

static void judge_queue(struct queue *queue)
{
    uint64_t held_back = 0;
    uint8_t barred = 0;
    for (int place = 0; place < queue->length; place++) {
        const struct entry *entry = &queue->entries[place];
        held_back |= (uint64_t)((entry->declared.now & barred) != 0) << entry->task;
        barred |= barred_behind(entry->declared.held);
    }
    queue->held_back = held_back;
}

static int place_in_queue(const struct queue *queue, int task)
{
    int place = 0;
    while (queue->entries[place].task != task)
        place++;
    return place;
}

static int place_in_line(const struct bench *bench, int task)
{
    int place = 0;
    while (bench->line[place] != task)
        place++;
    return place;
}

/* Puts an element into a row before a place. */
static void put_in(void *row, int *length, int place, const void *element, size_t size)
{
    char *at = (char *)row + (size_t)place * size;
    memmove(at + size, at, (size_t)(*length - place) * size);
    memcpy(at, element, size);
    ++*length;
}

/* Takes the element at a place out of a row. */
static void take_out(void *row, int *length, int place, size_t size)
{
    char *at = (char *)row + (size_t)place * size;
    --*length;
    memmove(at, at + size, (size_t)(*length - place) * size);
}

/* A child stands just before its maker, in the line and in every queue. */
static void enter_child(struct bench *bench, int child)
{
    const struct task *task = &bench->run.tasks[child];
    uint8_t number = (uint8_t)child;
    put_in(bench->line, &bench->length, place_in_line(bench, task->maker), &number, sizeof number);
    for (int object = 0; object < bench->run.card->objects; object++) {
        struct entry entry = { number, task->declared[object] };
        struct queue *queue = &bench->queues[object];
        if (!entry.declared.held)
            continue;
        put_in(queue->entries, &queue->length, place_in_queue(queue, task->maker), &entry, sizeof entry);
        judge_queue(queue);
    }
}

static void leave_queue(struct queue *queue, int task)
{
    take_out(queue->entries, &queue->length, place_in_queue(queue, task), sizeof(struct entry));
    judge_queue(queue);
}

static void leave(struct bench *bench, int number)
{
    const struct task *task = &bench->run.tasks[number];
    take_out(bench->line, &bench->length, place_in_line(bench, number), sizeof bench->line[0]);
    for (int object = 0; object < bench->run.card->objects; object++)
        if (task->declared[object].held)
            leave_queue(&bench->queues[object], number);
}

/* After a `with`: brings the queues of the objects it named up to date. */
static void revise_queues(struct bench *bench, int number, const struct instruction *with)
{
    const struct task *task = &bench->run.tasks[number];
    unsigned revised = 0;
    for (int i = with->section; i < with->section_end; i++) {
        int object = task->pointers[bench->run.card->declarations[i].pointer];
        struct queue *queue = &bench->queues[object];
        struct declared declared = task->declared[object];
        if (revised >> object & 1)
            continue;
        revised |= 1u << object;
        if (!declared.held) {
            leave_queue(queue, number);
        } else {
            queue->entries[place_in_queue(queue, number)].declared = declared;
            judge_queue(queue);
        }
    }
}

/* The tasks that are not stuck and have every immediate declaration clear. */
static uint64_t judge_ready(const struct bench *bench)
{
    uint64_t held_back = bench->stuck;
    for (int object = 0; object < bench->run.card->objects; object++)
        held_back |= bench->queues[object].held_back;
    return ~held_back;
}

static void list_offer(struct bench *bench)
{
    struct offer *offer = &bench->offer;
    uint64_t free_ones = bench->ready & ~bench->out;
    offer->length = 0;
    offer->set = 0;
    for (int place = 0; place < bench->length; place++) {
        uint8_t task = bench->line[place];
        if (!(free_ones >> task & 1))
            continue;
        offer->set |= bit(task);
        offer->places[task] = (uint8_t)offer->length;
        offer->tasks[offer->length++] = task;
    }
}

static void open_bench(struct bench *bench, const struct card *card)
{
    start_run(&bench->run, card);
    bench->line[0] = 0;
    bench->length = 1;
    for (int object = 0; object < card->objects; object++) {
        struct queue *queue = &bench->queues[object];
        queue->entries[0] = (struct entry){ 0, bench->run.tasks[0].declared[object] };
        queue->length = 1;
        queue->held_back = 0;
    }
    bench->stuck = bench->out = 0;
    bench->ready = judge_ready(bench);
    list_offer(bench);
}

/* Brings line, queues and offer up to date after a step that changed more than words. */
SELDOM static void follow(struct bench *bench, int number, const struct instruction *instruction, enum result result)
{
    uint64_t ready = bench->ready;
    if (result == MADE)
        enter_child(bench, bench->run.made - 1);
    else if (result == AMENDED)
        revise_queues(bench, number, instruction);
    else if (result == FINISHED)
        leave(bench, number);
    else
        bench->stuck |= bit(number);
    bench->ready = judge_ready(bench);
    if (bench->ready != ready || result == MADE || result == FINISHED)
        list_offer(bench);
}

/* One step of a task. Most steps leave everybody's readiness as it was. */
static inline enum result perform(struct bench *bench, int number)
{
    struct task *task = &bench->run.tasks[number];
    const struct instruction *instruction = task->at;
    enum result result = step(&bench->run, task);
    if (result != DONE)
        follow(bench, number, instruction, result);
    return result;
}

static bool settled(const struct bench *bench)
{
    return bench->length == 0 || bench->stuck >> bench->line[0] & 1;
}

static size_t bench_sheet(const struct bench *bench, char *sheet)
{
    return bench->length == 0 ? run_sheet(&bench->run, sheet) : fault_sheet(&bench->run, bench->line[0], sheet);
}

/* ---- Schedulers ---- */

struct scheduler {
    enum order order;
    int count; /* where `turns` starts counting */
};

/* The first offered number met counting up from the count, with 0 after 63. */
static int choose_by_turns(struct scheduler *scheduler, const struct offer *offer)
{
    int count = scheduler->count;
    uint64_t from_count = offer->set >> count | offer->set << (-count & 63);
    scheduler->count = (count + 1) & 63;
    return offer->places[(count + __builtin_ctzll(from_count)) & 63];
}

/* A place in the offer, which is not empty. */
static int choose(struct scheduler *scheduler, const struct offer *offer)
{
    switch (scheduler->order) {
    case FIRST: return 0;
    case LAST: return offer->length - 1;
    case TURNS: return choose_by_turns(scheduler, offer);
    default: return (offer->length < 4 ? offer->length : 4) - 1; /* the last of the first four */
    }
}

static size_t work_off(const struct card *card, char *sheet)
{
    struct bench bench;
    struct scheduler scheduler = { card->order, 0 };
    open_bench(&bench, card);
    while (!settled(&bench)) {
        if (bench.offer.length == 0) {
            fputs("interpreter: nothing is ready, yet the run is not settled\n", stderr);
            abort();
        }
        perform(&bench, bench.offer.tasks[choose(&scheduler, &bench.offer)]);
    }
    return bench_sheet(&bench, sheet);
}

/* ---- Random orders ---- */

/* Readiness straight from its definition: no queues, only the line and the tasks. */
static bool ready_by_definition(const struct bench *bench, int place)
{
    int number = bench->line[place];
    const struct declared *mine = bench->run.tasks[number].declared;
    if (bench->stuck >> number & 1)
        return false;
    for (int earlier = 0; earlier < place; earlier++) {
        const struct declared *others = bench->run.tasks[bench->line[earlier]].declared;
        for (int object = 0; object < bench->run.card->objects; object++) {
            uint8_t held = others[object].held, now = mine[object].now;
            if (((now & RD) && (held & (WR | CM))) || ((now & WR) && held) || ((now & CM) && (held & (RD | WR))))
                return false;
        }
    }
    return true;
}

/* A queue straight from its definition. */
static bool queue_is_right(const struct bench *bench, int object)
{
    const struct queue *queue = &bench->queues[object];
    int entries = 0;
    for (int place = 0; place < bench->length; place++) {
        int number = bench->line[place];
        struct declared declared = bench->run.tasks[number].declared[object];
        if (!declared.held)
            continue;
        const struct entry *entry = &queue->entries[entries++];
        if (entries > queue->length || entry->task != number || entry->declared.held != declared.held ||
            entry->declared.now != declared.now)
            return false;
    }
    return entries == queue->length;
}

static const char *check_bench(const struct bench *bench)
{
    uint64_t unfinished = 0;
    for (int place = 0; place < bench->length; place++) {
        int number = bench->line[place];
        unfinished |= bit(number);
        if (ready_by_definition(bench, place) != (bench->ready >> number & 1))
            return "readiness is not that of the definition";
    }
    for (int object = 0; object < bench->run.card->objects; object++)
        if (!queue_is_right(bench, object))
            return "a queue is not that of the definition";
    if (bench->out & ~(unfinished & bench->ready))
        return "a turn is out for a task that is not ready";
    if (!settled(bench) && !(bench->ready & unfinished))
        return "nothing is ready, yet the run is not settled";
    return NULL;
}

static int random_turn_out(const struct bench *bench, uint64_t *state)
{
    uint64_t out = bench->out;
    for (int skip = draw_below(state, __builtin_popcountll(out)); skip > 0; skip--)
        out &= out - 1;
    return __builtin_ctzll(out);
}

/* Takes, performs and hands back at random until the run is settled. */
static const char *work_at_random(struct bench *bench, const struct card *card, uint64_t *state)
{
    int eagerness = 1 + draw_below(state, 9); /* how often to take rather than perform */
    open_bench(bench, card);
    while (!settled(bench)) {
        const char *wrong = NULL;
        bool may_take = bench->offer.length > 0;
        if (may_take && (!bench->out || draw_below(state, 10) < eagerness)) {
            bench->out |= bit(bench->offer.tasks[draw_below(state, bench->offer.length)]);
            list_offer(bench);
        } else if (bench->out) {
            int number = random_turn_out(bench, state);
            bench->out &= ~bit(number);
            list_offer(bench);
            bool handed_back = draw_below(state, 16) == 0;
            if (!handed_back && perform(bench, number) != DONE)
                wrong = check_bench(bench);
        } else {
            wrong = "nothing to take and nothing to perform, yet the run is not settled";
        }
        if (wrong)
            return wrong;
    }
    return check_bench(bench);
}

const char *try_orders(const uint8_t *text, size_t length, uint64_t seed, int runs)
{
    struct card card;
    struct bench bench;
    char serial[SHEET_ROOM], sheet[SHEET_ROOM];
    if (load(text, length, &card).number != 0)
        return NULL;
    size_t serial_length = work_serially(&card, serial);
    for (int i = 0; i < runs; i++) {
        const char *wrong = work_at_random(&bench, &card, &seed);
        if (wrong)
            return wrong;
        size_t sheet_length = bench_sheet(&bench, sheet);
        if (sheet_length != serial_length || memcmp(sheet, serial, sheet_length) != 0)
            return "a random order gave another sheet than serial working";
    }
    return NULL;
}

/* ---- The program ---- */

size_t sheet_of_text(const uint8_t *text, size_t length, enum way way, char sheet[SHEET_ROOM])
{
    struct card card;
    struct refusal refusal = load(text, length, &card);
    if (refusal.number != 0)
        return refused_sheet(refusal, sheet);
    return way == SERIALLY ? work_serially(&card, sheet) : work_off(&card, sheet);
}

#ifndef WITHOUT_MAIN

/* Keeps one byte more than a card may have, and reads the rest away. */
static size_t read_text(uint8_t text[CARD_BYTES + 1])
{
    size_t length = fread(text, 1, CARD_BYTES + 1, stdin);
    char rest[4096];
    while (fread(rest, 1, sizeof rest, stdin) > 0)
        continue;
    return length;
}

int main(int argc, char **argv)
{
    static uint8_t text[CARD_BYTES + 1];
    char sheet[SHEET_ROOM];
    bool serial = argc == 2 && strcmp(argv[1], "serial") == 0;
    bool orders = argc == 3 && strcmp(argv[1], "orders") == 0;
    if (argc != 1 && !serial && !orders) {
        fputs("usage: interpreter [serial | orders SEED] < CARD\n", stderr);
        return 2;
    }
    size_t length = read_text(text);
    if (orders) {
        const char *wrong = try_orders(text, length, strtoull(argv[2], NULL, 10), 20);
        if (wrong) {
            fprintf(stderr, "interpreter: %s\n", wrong);
            return 1;
        }
    }
    size_t sheet_length = sheet_of_text(text, length, serial ? SERIALLY : ON_A_BENCH, sheet);
    fwrite(sheet, 1, sheet_length, stdout);
    return 0;
}

#endif
