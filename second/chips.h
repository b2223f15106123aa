/* Random chips, for the programs that compare calls on them. */

#ifndef CHIPS_H
#define CHIPS_H

#include "compare.h"

/* The chip that was drawn last: good settings, cells and lives. */
extern places good;
extern uint8_t image[largest];
extern uint32_t lives[largest];

/* Nibbles 0 to 15 as data cells hold them. */
extern const uint8_t codes[16];

void draw_chip(void);

/* Other cells for the same settings. */
void draw_cells(void);

/* Settings that are likely not good, with cells and lives for them. */
places spoil(places at);

/* Changes a cell or a life of the chip that is lent. */
void disturb(void);

#endif
