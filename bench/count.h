/* Counts the instructions of a call by the processor's own trap flag: while it is set, every instruction ends in a signal. That
   needs no tool and no privilege, and works in the emulator too, so one method serves both kinds of machine.
   The instructions around the call are found once with a door that only returns, and taken off. */

#ifndef COUNT_H
#define COUNT_H

#include "../include/lyre.h"

typedef lyre_answer writing_door(uint8_t *image, size_t n, uint32_t *lives, size_t lives_n, size_t m, size_t s, size_t e);
typedef lyre_read_answer reading_door(const uint8_t *image, size_t n, size_t m, size_t s, size_t e);
typedef lyre_hex hex_door(const uint8_t *from, size_t length, uint8_t *into, size_t room);
typedef uint32_t tray_door(const uint8_t *tray, size_t length, size_t each, size_t m, size_t s, size_t e, uint32_t *counts,
                           size_t counts_n, uint32_t *codes, size_t codes_n);

typedef struct {
    size_t n, m, s, e;
} places;

enum { most_images = 64 };

/* The rows that a tray is read into. */
typedef struct {
    uint32_t counts[most_images], codes[most_images];
} entries;

void count_begin(void);

/* Call the door once and give its instructions, from its first to its return, both included. */
uint64_t count_writing(writing_door *door, uint8_t *image, uint32_t *lives, places at, lyre_answer *answer);
uint64_t count_reading(reading_door *door, const uint8_t *image, places at, lyre_read_answer *answer);
uint64_t count_hex(hex_door *door, const uint8_t *from, size_t length, uint8_t *into, size_t room, lyre_hex *answer);
uint64_t count_tray(tray_door *door, const uint8_t *tray, size_t length, places at, entries *rows, uint32_t *answer);

#endif
