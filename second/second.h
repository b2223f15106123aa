/* The second maker's turn counter. Fields and numbers mean what document 01, "What comes back", and document 02 say. */

#ifndef SECOND_H
#define SECOND_H

#include <stddef.h>
#include <stdint.h>

typedef struct {
    uint32_t code;
    uint32_t count;
    int64_t lag;
    uint64_t place;
    uint64_t writes;
    uint64_t tried;
} second_answer;

typedef struct {
    second_answer answer;
    uint32_t bit[8]; /* document 02, P1 */
} second_read_answer;

typedef struct {
    uint32_t code;
    uint64_t start;
    uint64_t length;
} second_part;

second_answer second_open(uint8_t *image, size_t n, uint32_t *lives, size_t lives_n, size_t m, size_t s, size_t e);
second_read_answer second_read(const uint8_t *image, size_t n, size_t m, size_t s, size_t e);
second_answer second_step(uint8_t *image, size_t n, uint32_t *lives, size_t lives_n, size_t m, size_t s, size_t e);

/* Document 02, P6: an open and a step with power for so many cell writes. The write after them leaves the torn byte. */
second_answer second_trial_open(uint8_t *image, size_t n, uint32_t *lives, size_t lives_n, size_t m, size_t s, size_t e,
                                size_t power, uint8_t torn);
second_answer second_trial_step(uint8_t *image, size_t n, uint32_t *lives, size_t lives_n, size_t m, size_t s, size_t e,
                                size_t power, uint8_t torn);

second_part second_map_part(const uint8_t *image, size_t n, size_t m, size_t s, size_t e, uint32_t copy);

#endif
