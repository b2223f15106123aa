/* Does the runs of docs/FORMAT.md with the archive: takes their lines from standard input, and prints each as it has to stand, its
   own words and behind them what comes back. What the words mean is said in the page, under "Runs". */

#include "../include/lyre.h"

#include <inttypes.h>
#include <stdbool.h>
#include <stdio.h>
#include <stdlib.h>
#include <string.h>

enum { largest = 4096, ample = 1000 };

static uint8_t image[largest];
static uint32_t lives[largest];
static bool shown[largest];
static size_t n, m, s, e;
static bool shown_whole; /* some chip was shown with all its cells */

/* The next call is one that loses its power. */
static bool is_cut;
static size_t power;
static uint8_t torn;

static void fail(const char *what, const char *word)
{
    fprintf(stderr, "format: %s: %s\n", what, word);
    exit(1);
}

static void blank(size_t cells, size_t map, size_t start, size_t end)
{
    n = cells, m = map, s = start, e = end;
    memset(image, 0xFF, sizeof image);
    memset(shown, 0, sizeof shown);
    for (size_t i = 0; i < largest; i++)
        lives[i] = ample;
}

static lyre_answer open_it(void)
{
    if (!is_cut)
        return lyre_open(image, n, lives, n, m, s, e);
    is_cut = false;
    return lyre_trial_open(image, n, lives, n, m, s, e, power, torn);
}

static lyre_answer step_it(void)
{
    if (!is_cut)
        return lyre_step(image, n, lives, n, m, s, e);
    is_cut = false;
    return lyre_trial_step(image, n, lives, n, m, s, e, power, torn);
}

static void print_answer(lyre_answer answer)
{
    printf(" %" PRIu32 " %" PRIu32 " %" PRId64 " %" PRIu64 " %" PRIu64 " %" PRIu64, answer.code, answer.count, answer.lag,
           answer.place, answer.writes, answer.tried);
}

static lyre_read_answer read_it(void)
{
    return lyre_read(image, n, m, s, e);
}

static void print_read(lyre_read_answer read)
{
    print_answer((lyre_answer){read.code, read.count, read.lag, read.place, read.writes, read.tried});
}

static void print_counts(lyre_read_answer read)
{
    for (int bit = 0; bit < 8; bit++)
        printf(" %" PRIu32, read.bit[bit]);
}

static void print_part(uint32_t copy)
{
    lyre_part part = lyre_map_part(image, n, m, s, e, copy);
    if (part.length == 0)
        printf(" %" PRIu32 " none", part.code);
    else
        printf(" %" PRIu32 " cells %" PRIu64 "-%" PRIu64, part.code, part.start, part.start + part.length - 1);
}

static void open_setting_a(void)
{
    blank(129, 1, 25, 128);
    open_it();
}

/* The counts 0 to 15 have each nibble once in cell 128, as its code. */
static void print_codes(void)
{
    uint8_t codes[16];
    open_setting_a();
    for (unsigned count = 0; count < 16; count++, step_it())
        codes[count ^ count / 2] = image[128];
    for (int nibble = 0; nibble < 16; nibble++)
        printf(" %02X", codes[nibble]);
}

/* Of all bytes in one data cell, how many were mended in each bit. */
static void print_bits(void)
{
    unsigned mended[8] = {0};
    for (int byte = 0; byte < 256; byte++) {
        open_setting_a();
        image[128] = (uint8_t)byte, image[125] = 0x01;
        lyre_read_answer read = read_it();
        for (int bit = 0; bit < 8; bit++)
            mended[bit] += read.bit[bit];
    }
    for (int bit = 0; bit < 8; bit++)
        printf(" %u", mended[bit]);
}

/* With copy 2's nibble lost an open rewrites that one cell, and the byte itself where it was mended. */
static void print_readings(void)
{
    int clean = 0, mended = 0, lost = 0;
    for (int byte = 0; byte < 256; byte++) {
        open_setting_a();
        image[128] = (uint8_t)byte, image[125] = 0x01;
        lyre_answer answer = open_it();
        clean += answer.code == 0 && answer.writes == 1;
        mended += answer.code == 0 && answer.writes == 2;
        lost += answer.code == 5;
    }
    printf(" %d clean %d mended %d lost", clean, mended, lost);
}

/* Bytes that are all the same are printed once. */
static void print_cells(size_t first, size_t last)
{
    bool same = last > first;
    for (size_t i = first; i <= last; i++) {
        same = same && image[i] == image[first];
        shown[i] = true;
    }
    if (same)
        printf(" all %02X", image[first]);
    else
        for (size_t i = first; i <= last; i++)
            printf(" %02X", image[i]);
    shown_whole = shown_whole || memchr(shown, false, n) == NULL;
}

static void print_whether_in(const char *path)
{
    static uint8_t there[largest];
    FILE *file = fopen(path, "rb");
    if (file == NULL)
        fail("cannot be opened", path);
    bool same = fread(there, 1, largest, file) == n && memcmp(there, image, n) == 0;
    printf(" %s", same ? "same" : "differs");
    fclose(file);
}

/* The next word of the line, printed. */
static char *next_word(char *line)
{
    char *word = strtok(line, " \n");
    if (word != NULL)
        printf("%s%s", line == NULL ? " " : "", word);
    return word;
}

static char *needed_word(const char *after)
{
    char *word = next_word(NULL);
    if (word == NULL)
        fail("a word is missing after", after);
    return word;
}

/* A or A-B */
static void needed_range(const char *after, size_t *first, size_t *last)
{
    char *word = needed_word(after);
    int found = sscanf(word, "%zu-%zu", first, last);
    if (found == 1)
        *last = *first;
    if (found < 1 || *first > *last || *last >= n)
        fail("no cells of this chip", word);
}

/* power NUMBER torn BYTE */
static void needed_cut(const char *after)
{
    unsigned byte;
    if (sscanf(needed_word(after), "%zu", &power) != 1 || strcmp(needed_word(after), "torn") != 0 ||
        sscanf(needed_word("torn"), "%2x", &byte) != 1)
        fail("no number and torn byte", after);
    torn = (uint8_t)byte;
    is_cut = true;
}

/* Does a word that changes the chip or the next call, or one that ends the line with what comes back; says whether the line is at its
   end. */
static bool do_word(const char *word)
{
    size_t first, last;
    unsigned byte;
    if (sscanf(word, "%zu=%2x", &first, &byte) == 2 && first < n) {
        image[first] = (uint8_t)byte;
        return false;
    }
    if (strcmp(word, "worn") == 0) {
        needed_range(word, &first, &last);
        for (size_t i = first; i <= last; i++)
            lives[i] = 0;
        return false;
    }
    if (strcmp(word, "power") == 0) {
        needed_cut(word);
        return false;
    }
    if (strcmp(word, "open") == 0)
        print_answer(open_it());
    else if (strcmp(word, "step") == 0)
        print_answer(step_it());
    else if (strcmp(word, "read") == 0)
        print_read(read_it());
    else if (strcmp(word, "counts") == 0)
        print_counts(read_it());
    else if (strcmp(word, "call") == 0)
        printf(" code count lag place writes tried");
    else if (strcmp(word, "part") == 0)
        print_part((uint32_t)atoi(needed_word(word)));
    else if (strcmp(word, "cells") == 0)
        needed_range(word, &first, &last), print_cells(first, last);
    else if (strcmp(word, "file") == 0)
        print_whether_in(needed_word(word));
    else if (strcmp(word, "nibble") == 0)
        printf(" 0 1 2 3 4 5 6 7 8 9 A B C D E F");
    else if (strcmp(word, "codes") == 0)
        print_codes();
    else if (strcmp(word, "bytes") == 0)
        print_readings();
    else if (strcmp(word, "bits") == 0)
        print_bits();
    else
        fail("no such word", word);
    return true;
}

int main(void)
{
    char line[512];
    while (fgets(line, sizeof line, stdin) != NULL) {
        size_t cells, map, start, end;
        if (sscanf(line, "chip N %zu M %zu S %zu E %zu", &cells, &map, &start, &end) == 4 && cells <= largest) {
            blank(cells, map, start, end);
            printf("%s", line);
            continue;
        }
        char *word = next_word(line);
        while (word != NULL && !do_word(word))
            word = next_word(NULL);
        if (is_cut)
            fail("no open or step in its line", "power");
        printf("\n");
    }
    if (!shown_whole)
        fail("no chip is shown whole", "cells");
    return 0;
}
