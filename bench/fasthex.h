/* Intel HEX in C written for speed, to measure the archive against. Doors and answers are those of lyre.h. */

#ifndef FASTHEX_H
#define FASTHEX_H

#include "../include/lyre.h"

lyre_hex fast_hex_write(const uint8_t *image, size_t n, uint8_t *text, size_t room);
lyre_hex fast_hex_read(const uint8_t *text, size_t length, uint8_t *image, size_t n);

#endif
