/* What the generator of cards offers to the other programs of this folder. */
#ifndef CARDS_H
#define CARDS_H

#include <stddef.h>
#include <stdint.h>

enum { TEXT_ROOM = 65536 };

/* Writes the card of a seed, or a damaged one, and answers its length. */
size_t make_card(uint64_t seed, uint8_t text[TEXT_ROOM]);

#endif
