/* The second maker's tray of dumps. The rows and numbers mean what document 02, P7, says. */

#ifndef TRAY_H
#define TRAY_H

#include <stddef.h>
#include <stdint.h>

/* 0, or refusal 12. The tray is `length` bytes, one image `each`. */
uint32_t second_tray(const uint8_t *tray, size_t length, size_t each, size_t m, size_t s, size_t e, uint32_t *counts,
                     size_t counts_n, uint32_t *codes, size_t codes_n);

#endif
