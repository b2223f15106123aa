/* The turn counter in C written for speed, to measure the archive against. Doors and answers are those of lyre.h. */

#ifndef FAST_H
#define FAST_H

#include "../include/lyre.h"

lyre_answer fast_open(uint8_t *image, size_t n, uint32_t *lives, size_t lives_n, size_t m, size_t s, size_t e);
lyre_read_answer fast_read(const uint8_t *image, size_t n, size_t m, size_t s, size_t e);
lyre_answer fast_step(uint8_t *image, size_t n, uint32_t *lives, size_t lives_n, size_t m, size_t s, size_t e);
lyre_part fast_map_part(const uint8_t *image, size_t n, size_t m, size_t s, size_t e, uint32_t copy);
uint32_t fast_tray(const uint8_t *tray, size_t length, size_t each, size_t m, size_t s, size_t e, uint32_t *counts, size_t counts_n,
                   uint32_t *codes, size_t codes_n);

#endif
