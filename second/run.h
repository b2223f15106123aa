/* What the comparing programs have in common: how they are started, the draws of random cases, how memory is lent, and how an outcome
   is told. */

#ifndef RUN_H
#define RUN_H

#include <stdbool.h>
#include <stddef.h>
#include <stdint.h>

/* What a program brings: its name, its cases, and what it tells at the end about what was met in them. A random case is given by
   the draws alone. */
extern const char program[];
void worked_cases(void);
void random_case(void);
void print_met(void);

/* Random cases run, and calls made; who makes a call adds it. */
extern uint64_t cases, calls;

/* Names the worked case that follows, for a report. */
void begin(uint64_t number);

/* Prints which case it is, and how to see it again. */
void where(void);

/* Ends the program unless it holds; says what should have. */
void expect(bool holds, const char *what);

/* In a table of what was met: how often, or - where it cannot be. What was met less than so often is marked, since a run that met
   something much less often than it is drawn says little about it; and such a run fails in the end. */
void print_times(bool possible, uint64_t times, uint64_t least);
void end_if_seldom(void);

/* What is lent stands between guards of so many bytes, and up to `shifts` less 1 further on in its room. The room has both guards and
   the shift besides what is lent. */
enum { guard = 128, shifts = 16 };

/* Lends a copy of the bytes, and says whether nobody wrote outside of it. */
void *lend_bytes(void *room, size_t shift, const void *bytes, size_t number);
bool guards_whole(const void *lent, size_t number);

uint64_t draw(void);
size_t below(size_t limit);
size_t between(size_t lowest, size_t highest);
bool chance(unsigned percent);
size_t smaller(size_t one, size_t other);

#endif
