/* The second maker's tray of dumps, written from document 02, P7, and meant to be read beside it. What is refused is refused before
   either row is touched. An image that cannot be read is no matter of the call: its number stands in its own entry. */

#include "tray.h"

#include "second.h"

enum { most_images = 64, refused = 12 };

uint32_t second_tray(const uint8_t *tray, size_t length, size_t each, size_t m, size_t s, size_t e, uint32_t *counts,
                     size_t counts_n, uint32_t *codes, size_t codes_n)
{
    if (each == 0)
        return refused;
    if (length % each != 0)
        return refused;
    size_t images = length / each;
    if (images < 1 || images > most_images)
        return refused;
    if (counts_n < images || codes_n < images)
        return refused;
    for (size_t i = 0; i < images; i++) {
        second_answer answer = second_read(tray + i * each, each, m, s, e).answer;
        counts[i] = answer.count;
        codes[i] = answer.code;
    }
    return 0;
}
