/* What the interpreter offers to the other programs of this folder. */
#ifndef INTERPRETER_H
#define INTERPRETER_H

#include <stddef.h>
#include <stdint.h>

enum {
    CARD_BYTES = 16384, /* a longer text is no card */
    SHEET_ROOM = 512,   /* enough for every sheet */
};

enum way { ON_A_BENCH, SERIALLY };

/* Writes the sheet of a card's text and answers its length. */
size_t sheet_of_text(const uint8_t *text, size_t length, enum way way, char sheet[SHEET_ROOM]);

/* Works the card `runs` times in random orders, with many turns out at once, and checks
   that every sheet is that of serial working. Answers NULL, or what was wrong. */
const char *try_orders(const uint8_t *text, size_t length, uint64_t seed, int runs);

#endif
