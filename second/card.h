/* The second maker's card for the sapphire. Fields and numbers mean what document 02, P4, says. */

#ifndef CARD_H
#define CARD_H

#include <stddef.h>
#include <stdint.h>

typedef struct {
    uint32_t code;
    uint32_t used;
    int64_t left;
    uint64_t time;
} second_card;

typedef struct {
    uint32_t code;
    uint64_t length;
} second_text;

second_card second_card_at(const uint8_t *text, size_t length, uint32_t count);
second_text second_card_write(uint32_t fitted, uint32_t allowed, const uint32_t *speeds, size_t speeds_n, const uint32_t *turns,
                              size_t turns_n, uint8_t *text, size_t room);

#endif
