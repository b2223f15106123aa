/* Texts that are made line by line, with damage of known kinds in known lines, so that the answer to them is known. */

#ifndef HEXLINES_H
#define HEXLINES_H

#include "hexcompare.h"

/* The image and the text of a case. */
typedef struct {
    size_t n;
    uint8_t image[largest_image];
    uint8_t text[largest_text];
    size_t length;
} made_text;

extern made_text made;

/* Any bytes, or often the same one. */
void fill(uint8_t *bytes, size_t number);

/* Makes an image, and good lines for it. */
void draw_lines(void);

/* Damages one line or two, or leaves something out, or both. */
void draw_damage(void);

/* Makes good lines that overlap, leave out and reach past the image by chance, so that the answer is not known. */
void strew_lines(void);

/* Makes the text of the lines. */
void lay_text(void);

/* The answer to the text, read for the image's size or for one that is not good. Counts the pairs of refusals it asks for. */
second_hex planned_answer(bool size_good);

#endif
