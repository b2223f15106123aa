/* What cutcompare.c lends to the makers of cases, beside compare.h: calls that lose their power. */

#ifndef CUTCOMPARE_H
#define CUTCOMPARE_H

#include "compare.h"

/* The trial of a door, open or step, on both chips, compared; where the write fell that was torn, and what a read of both gives
   then, is counted. The answer is that of both. */
second_answer cut(door plain, size_t power, uint8_t torn);

/* The lent chip, to go back to. */
typedef struct {
    places at;
    uint8_t image[largest];
    uint32_t lives[largest];
} kept;

void keep(kept *chip);
void go_back(const kept *chip);
bool is_as(const kept *chip);

bool same_answer(second_answer one, second_answer other);

#endif
