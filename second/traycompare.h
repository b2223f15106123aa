/* What traycompare.c lends to the makers of cases: a tray and two rows, each held twice, on which a call is made by the second maker
   and by the archive and the two outcomes are compared. A difference ends the program. */

#ifndef TRAYCOMPARE_H
#define TRAYCOMPARE_H

#include "run.h"
#include "tray.h"

enum { most_images = 64, largest_tray = 300000, longest_row = 1000 };

/* What is asked besides the contents. */
typedef struct {
    size_t length, each, m, s, e, counts_n, codes_n;
} tray_call;

/* Why a call is refused, a bit each: the image length is 0, the tray is empty, it is no whole number of images, it is more than 64,
   or a row is shorter than the number of images. */
enum { no_length = 1, no_image = 2, a_rest = 4, too_many = 8, short_counts = 16, short_codes = 32, reasons = 6 };

/* Makes the call on both, with copies of the tray and of the rows, and compares. `why` has the reasons to refuse it; where there is
   none, it has to answer 0, and each entry has to be what reading its image alone gives. */
void call_tray(tray_call call, const uint8_t *tray, const uint32_t *counts, const uint32_t *codes, unsigned why);

/* The rows as the call left them. */
const uint32_t *counts_now(void);
const uint32_t *codes_now(void);

#endif
