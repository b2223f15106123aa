/* Trays whose outcome document 02, P7, gives, or that was worked out from it and from document 01. They hold the second maker to the
   documents, and the archive to both. Most images are chips of setting A, opened and stepped. */

#include "second.h"
#include "traycompare.h"

#include <string.h>

enum { size_a = 129, enough = 70, untouched = 0x55555555 };

static uint8_t tray[largest_tray];
static uint32_t counts_there[longest_row], codes_there[longest_row];

static uint8_t *image_at(size_t number)
{
    return tray + number * size_a;
}

static void lay_blank(size_t number)
{
    memset(image_at(number), 0xFF, size_a);
}

/* A chip that has counted so many turns. */
static void lay_counted(size_t number, uint32_t count)
{
    uint32_t lives[size_a];
    for (size_t i = 0; i < size_a; i++)
        lives[i] = 1000;
    lay_blank(number);
    second_open(image_at(number), size_a, lives, size_a, 1, 25, 128);
    for (uint32_t done = 0; done < count; done++)
        second_step(image_at(number), size_a, lives, size_a, 1, 25, 128);
}

/* Image i has counted 3 + i turns. */
static void lay_counts(void)
{
    for (size_t i = 0; i < most_images; i++)
        lay_counted(i, 3 + (uint32_t)i);
}

/* The first `length` bytes of the tray as images of `each`, with the places of setting A. */
static tray_call of(size_t length, size_t each, size_t counts_n, size_t codes_n)
{
    return (tray_call){.length = length, .each = each, .m = 1, .s = 25, .e = 128, .counts_n = counts_n, .codes_n = codes_n};
}

static tray_call of_a(size_t images, size_t counts_n, size_t codes_n)
{
    return of(images * size_a, size_a, counts_n, codes_n);
}

static void ask(tray_call call, unsigned why)
{
    static uint64_t number;
    begin(++number);
    memset(counts_there, 0x55, sizeof counts_there);
    memset(codes_there, 0x55, sizeof codes_there);
    call_tray(call, tray, counts_there, codes_there, why);
}

static void expect_entry(size_t entry, uint32_t code, uint32_t count)
{
    expect(codes_now()[entry] == code && counts_now()[entry] == count, "the code and the count of an image");
}

static void expect_codes(size_t images, uint32_t code)
{
    for (size_t i = 0; i < images; i++)
        expect_entry(i, code, 0);
}

static void expect_counts(size_t images)
{
    for (size_t i = 0; i < images; i++)
        expect_entry(i, 0, 3 + (uint32_t)i);
}

static void good_trays(void)
{
    lay_counts();
    ask(of_a(1, 1, 1), 0);
    expect_counts(1);
    ask(of_a(3, 3, 3), 0);
    expect_counts(3);
    ask(of_a(64, 64, 64), 0);
    expect_counts(64);
    ask(of_a(64, 65, longest_row), 0);
    expect_counts(64);
    expect(counts_now()[64] == untouched && codes_now()[64] == untouched && codes_now()[999] == untouched, "no entry past the 64");
    ask(of_a(2, 64, 2), 0);
    expect_counts(2);
    expect(counts_now()[2] == untouched && counts_now()[63] == untouched, "no entry past the two");
}

/* A chip of count 0 but for nibble 0, which is in cell 128 and, of copy 2, in cell 125. */
static void lay_nibble(size_t number, uint8_t in1, uint8_t in2)
{
    lay_counted(number, 0);
    image_at(number)[128] = in1;
    image_at(number)[125] = in2;
}

/* No image changes what is told of another. */
static void different_answers(void)
{
    lay_counted(0, 3);
    lay_blank(1);
    lay_counted(2, 5);
    image_at(2)[3] = 0x00; /* a pointer to cell 0 */
    ask(of_a(3, 4, 4), 0);
    expect_entry(0, 0, 3), expect_entry(1, 3, 0), expect_entry(2, 4, 0);
    lay_nibble(0, 0x01, 0x01); /* lost in both copies */
    lay_nibble(1, 0xCB, 0xB3); /* copy 1 has counted 5, copy 2 has 4 */
    lay_nibble(2, 0xB3, 0xCB); /* the other way */
    lay_nibble(3, 0x01, 0xB3); /* lost in one */
    lay_counted(4, 16);
    image_at(4)[1] = 0xA4; /* the mark, damaged */
    lay_counted(5, 16);
    lay_counted(6, 0);
    image_at(6)[29] = image_at(6)[34] = 0x34; /* nibble 7: the highest count */
    ask(of_a(7, 7, 7), 0);
    expect_entry(0, 5, 0), expect_entry(1, 0, 5), expect_entry(2, 6, 0), expect_entry(3, 0, 4), expect_entry(4, 3, 0);
    expect_entry(5, 0, 16), expect_entry(6, 0, UINT32_MAX);
}

/* What reading refuses of every image is told in each entry. */
static void refused_images(void)
{
    lay_counts();
    for (size_t each = 1; each <= 40; each++) {
        ask(of(64 * each, each, 64, 64), 0);
        expect_codes(64, 1);
    }
    ask(of(3 * 4097, 4097, 3, 4), 0);
    expect_codes(3, 1);
    tray_call call = of_a(64, 64, 64);
    call.s = 24;
    ask(call, 0);
    expect_codes(64, 2);
    call = of_a(3, 3, 3);
    call.m = SIZE_MAX;
    ask(call, 0);
    expect_codes(3, 2);
    ask(of(64 * 128, 128, 64, 64), 0); /* the area ends past the image */
    expect_codes(64, 2);
    memset(tray, 0xFF, sizeof tray);
    ask(of(64 * 4096, 4096, 64, 64), 0);
    expect_codes(64, 3);
}

static void wrong_numbers(void)
{
    static const size_t many[] = {65, 66, 127, 128, 129, 255, 256, 257, 320, 512};
    lay_counts();
    for (size_t i = 0; i < sizeof many / sizeof *many; i++)
        ask(of_a(many[i], longest_row, longest_row), too_many);
    for (size_t images = 0; images <= 65; images++) {
        unsigned why = images > most_images ? a_rest | too_many : a_rest;
        ask(of(images * size_a + 1, size_a, enough, enough), why);
        ask(of(images * size_a + size_a - 1, size_a, enough, enough), why);
    }
    ask(of(0, size_a, enough, enough), no_image);
    ask(of(0, size_a, 0, 0), no_image);
    ask(of(0, 0, enough, enough), no_length | no_image);
    ask(of(0, 0, 0, 0), no_length | no_image);
    ask(of(size_a, 0, enough, enough), no_length);
    ask(of(64 * size_a, 0, enough, enough), no_length);
}

static void short_rows(void)
{
    static const size_t numbers[] = {1, 2, 3, 8, 63, 64};
    lay_counts();
    for (size_t i = 0; i < sizeof numbers / sizeof *numbers; i++) {
        size_t images = numbers[i];
        ask(of_a(images, images - 1, images), short_counts);
        ask(of_a(images, images, images - 1), short_codes);
        ask(of_a(images, images - 1, images - 1), short_counts | short_codes);
        ask(of_a(images, 0, longest_row), short_counts);
        ask(of_a(images, longest_row, 0), short_codes);
        ask(of_a(images, images, images), 0);
        expect_counts(images);
    }
}

/* 12 comes before 1. */
static void lengths_refused(void)
{
    ask(of(41, 40, enough, enough), a_rest);
    ask(of(4098, 4097, enough, enough), a_rest);
    ask(of(65 * 40, 40, enough, enough), too_many);
    ask(of(65, 1, enough, enough), too_many);
    ask(of(65537, 1, enough, enough), too_many | short_counts | short_codes);
    ask(of(64, 1, 63, 64), short_counts);
    ask(of(2 * 4097, 4097, 2, 1), short_codes);
    ask(of(0, 40, enough, enough), no_image);
}

/* Images that are longer than the tray, by one or by as much as the type holds. */
static void far_lengths(void)
{
    lay_counts();
    for (size_t images = 1; images <= 64; images++) {
        const size_t length = images * size_a;
        ask(of(length, length + 1, enough, enough), a_rest);
        ask(of(length, SIZE_MAX, enough, enough), a_rest);
        ask(of(length, SIZE_MAX / 2 + 1, enough, enough), a_rest);
        ask(of(length, SIZE_MAX - length + 1, enough, enough), a_rest);
        ask(of(length, ((size_t)1 << 32) + size_a, enough, enough), a_rest);
    }
    for (size_t images = 2; images <= 64; images++) { /* so many have this length, but for what passes the type's top */
        const size_t each = SIZE_MAX / images + 1 + size_a;
        ask(of(images * each, each, enough, enough), a_rest);
    }
    ask(of(0, SIZE_MAX, enough, enough), no_image);
    ask(of(0, SIZE_MAX / 2 + 1, enough, enough), no_image);
}

void worked_cases(void)
{
    good_trays();
    different_answers();
    refused_images();
    wrong_numbers();
    short_rows();
    lengths_refused();
    far_lengths();
}
