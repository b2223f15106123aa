/* What hexcompare.c lends to the makers of cases: one image and one text, each held twice, on which every call is made by the
   second maker and by the archive and the two outcomes are compared. A difference ends the program. */

#ifndef HEXCOMPARE_H
#define HEXCOMPARE_H

#include "hex.h"
#include "run.h"

enum { largest_image = 4200, largest_text = 72000 };

typedef enum { door_write, door_read, doors } door;

/* Lends the first n bytes of an image and the first `length` of a text, which for a writer is the room for it. */
void lend(const uint8_t *image, size_t n, const uint8_t *text, size_t length);

/* Calls the door on both and compares; the answer is that of both. */
second_hex call(door door);

/* What is lent, as the last call left it. */
const uint8_t *image_now(void);
const uint8_t *text_now(void);

/* Counts a text that asks for two refusals, of which the first decides. */
void count_pair(uint32_t first, uint32_t other, bool in_one_line);

#endif
