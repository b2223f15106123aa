/* What compare.c lends to the makers of cases: one chip, held twice, on which every call is made by the second maker and by the
   archive and the two outcomes are compared. A difference ends the program. */

#ifndef COMPARE_H
#define COMPARE_H

#include "run.h"
#include "second.h"

enum { largest = 4200, asked_room = 64 };

typedef struct {
    size_t n, lives_n, m, s, e;
} places;

typedef enum { door_open, door_read, door_step, door_map_part, door_trial_open, door_trial_step, doors } door;

/* Lends the first n cells and the first lives_n lives, both at most `largest`. */
void lend(places at, const uint8_t *image, const uint32_t *lives);

/* Calls the door on both chips and compares; the answer is that of both. */
second_answer call(door door);
second_read_answer call_read(void);
second_part call_map_part(uint32_t copy);

/* The chip between two calls. */
uint8_t cell(size_t address);
uint32_t life(size_t address);
void set_cell(size_t address, uint8_t byte);
void set_life(size_t address, uint32_t life);

/* How often each door answered each number. */
void print_codes(void);

/* For who makes a call by himself, as cutcompare.c does: the chip as the second maker has it and as the archive has it, what is to be
   done before the two calls, and with their outcomes. `asked` is what was asked besides the settings, for a report. */

typedef struct {
    uint8_t room[guard + shifts + largest + guard];
    uint32_t lives_room[(guard + guard) / sizeof(uint32_t) + largest];
    uint8_t *image;
    uint32_t *lives;
} side;

extern side ours, theirs;
extern places lent;
extern char asked[asked_room];

/* An answer of the archive as one of the second maker's. */
#define ANSWER(answer) \
    ((second_answer){(answer).code, (answer).count, (answer).lag, (answer).place, (answer).writes, (answer).tried})

void remember(void);
void compare_answers(door door, second_answer mine, second_answer other);
void compare_chips(door door, uint32_t code);

#endif
