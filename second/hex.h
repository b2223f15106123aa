/* The second maker's Intel HEX reader and writer. Fields and numbers mean what document 02, P2, says. */

#ifndef HEX_H
#define HEX_H

#include <stddef.h>
#include <stdint.h>

typedef struct {
    uint32_t code;
    uint64_t line;
    uint64_t length;
} second_hex;

second_hex second_hex_write(const uint8_t *image, size_t n, uint8_t *text, size_t room);
second_hex second_hex_read(const uint8_t *text, size_t length, uint8_t *image, size_t n);

#endif
