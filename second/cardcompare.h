/* What cardcompare.c lends to the makers of cases: one text and two rows, each held twice, on which every call is made by the
   second maker and by the archive and the two outcomes are compared. A difference ends the program. */

#ifndef CARDCOMPARE_H
#define CARDCOMPARE_H

#include "card.h"
#include "run.h"

enum { longest_row = 300, largest_text = 20000, refusals = 6 };

typedef enum { door_at, door_write, doors } door;

/* The refusals as they are tested. */
extern const uint32_t order[refusals];

/* Lends the first `length` bytes of a text, which for the writer is the room for it. */
void lend_text(const uint8_t *text, size_t length);

/* Lends the rows of speeds and of turns, for the writer. */
void lend_rows(const uint32_t *speeds, size_t speeds_n, const uint32_t *turns, size_t turns_n);

/* Call the door on both and compare; the answer is that of both. */
second_card call_at(uint32_t count);
second_text call_write(uint32_t fitted, uint32_t allowed);

/* What is lent, as the last call left it. */
const uint8_t *text_now(void);

/* Counts a call that asks for two refusals, of which the first decides. */
void count_pair(door door, uint32_t first, uint32_t other);

#endif
