/* The lines that crates/cases prints, worked out by the second maker: chips of document 01's bench list, chips that are easy to
   get wrong, and those of later requests. The map is at 1 and the area starts at 25 where a case does not say otherwise. */

#include "card.h"
#include "hex.h"
#include "second.h"
#include "tray.h"

#include <inttypes.h>
#include <stdio.h>
#include <string.h>

enum { map = 1, start = 25, none = 0 };

static uint8_t image[512];
static uint32_t lives[512];
static size_t n, end;

static void print_answer(const char *name, second_answer answer)
{
    printf("%s: code=%" PRIu32 " count=%" PRIu32 " lag=%" PRId64 " place=%" PRIu64 " writes=%" PRIu64 " tried=%" PRIu64, name,
           answer.code, answer.count, answer.lag, answer.place, answer.writes, answer.tried);
}

static void print_cell(size_t at)
{
    if (at != none)
        printf(" cell %zu=%u", at, image[at]);
}

static void say(const char *name, second_answer answer, size_t first, size_t second)
{
    print_answer(name, answer);
    print_cell(first);
    print_cell(second);
    printf("\n");
}

static void blank(size_t cells, size_t last)
{
    n = cells;
    end = last;
    memset(image, 0xFF, sizeof image);
    for (size_t i = 0; i < sizeof lives / sizeof *lives; i++)
        lives[i] = 1000;
}

static second_answer open_it(void)
{
    return second_open(image, n, lives, n, map, start, end);
}

static second_answer read_it(void)
{
    return second_read(image, n, map, start, end).answer;
}

static second_answer step_it(void)
{
    return second_step(image, n, lives, n, map, start, end);
}

static void opened(size_t cells, size_t last)
{
    blank(cells, last);
    open_it();
}

static void opened_a(void)
{
    opened(129, 128);
}

static void say_blank(const char *name, size_t cells, size_t m, size_t s, size_t e)
{
    blank(cells, e);
    say(name, second_open(image, n, lives, n, m, s, e), none, none);
}

/* Setting A at 4294967294, whose word is 80000001 hex. */
static void near_the_end(void)
{
    opened_a();
    image[128] = image[125] = 0x07;
    image[29] = image[34] = 0x34;
}

static void bench_list(void)
{
    blank(129, 128);
    say("14 open", open_it(), none, none);
    for (int i = 0; i < 16; i++) {
        second_answer answer = step_it();
        say("14 step", answer, 127, 124);
    }
    opened_a();
    lives[128] = 0;
    second_answer moved = step_it();
    say("15 cell 128 worn, step", moved, 3, none);
    say_blank("16 N 40, open", 40, 1, 25, 39);
    say_blank("16 N 41, open", 41, 1, 25, 40);
    say_blank("16 area of 15, open", 41, 1, 25, 39);
    say_blank("16 S 246, open", 262, 1, 246, 261);
    say_blank("16 S 247, open", 263, 1, 247, 262);
    near_the_end();
    say("17 read", read_it(), none, none);
    say("17 step", step_it(), none, none);
    say("17 the next step", step_it(), none, none);
}

static void marks_and_lags(void)
{
    blank(129, 128);
    image[1] = 0xA5;
    say("blank but for A5, open", open_it(), none, none);
    opened_a();
    image[128] = image[125] = 0x07;
    image[2] = 0xFF;
    say("5A gone, read", read_it(), none, none);
    say("5A gone, open", open_it(), none, none);
    opened_a();
    image[128] = 0x81;
    second_answer answer = open_it();
    say("cell 128 mended, open", answer, 3, 128);
    opened_a();
    image[128] = 0xCB;
    image[125] = 0xB3;
    answer = step_it();
    say("lag 1, step", answer, 128, 125);
    near_the_end();
    image[128] = 0x80;
    say("lag 1 at the last count, read", read_it(), none, none);
    say("lag 1 at the last count, step", step_it(), none, none);
    say("lag 1 at the last count, open", open_it(), none, none);
    opened_a();
    image[34] = 0x34;
    say("0 and the last count, read", read_it(), none, none);
}

static void wear(void)
{
    opened_a();
    lives[128] = lives[122] = 0;
    second_answer answer = step_it();
    say("cells 128 and 122 worn, step", answer, 3, none);
    opened_a();
    lives[128] = lives[3] = 0;
    answer = step_it();
    say("cells 128 and 3 worn, step", answer, 3, 122);
    say_blank("E 255, open", 512, 1, 25, 255);
    say_blank("E 256, open", 512, 1, 25, 256);
    say_blank("E 511, open", 512, 1, 25, 511);
    say_blank("M 18446744073709551593, open", 129, 18446744073709551593u, 25, 128);
    opened(512, 261);
    lives[261] = lives[4] = 0;
    answer = step_it();
    say("cells 261 and 4 worn, step", answer, 3, 4);
    say("cells 261 and 4 worn, read", read_it(), none, none);
    blank(41, 40);
    lives[40] = 0;
    say("cell 40 worn, open", open_it(), none, none);
    opened(41, 40);
    lives[37] = 0;
    say("cell 37 worn, step", step_it(), none, none);
    say("cell 37 worn, read", read_it(), none, none);
}

/* Document 02, P1. */
static void say_mended(const char *name)
{
    second_read_answer read = second_read(image, n, map, start, end);
    print_answer(name, read.answer);
    for (int bit = 0; bit < 8; bit++)
        printf(" bit%d=%" PRIu32, bit, read.bit[bit]);
    printf("\n");
}

/* Bytes in the two cells of nibble 0. */
static void hold(uint8_t in1, uint8_t in2)
{
    opened_a();
    image[128] = in1;
    image[125] = in2;
}

static void say_held(uint8_t in1, uint8_t in2, const char *name)
{
    hold(in1, in2);
    say_mended(name);
}

static void mended(void)
{
    static const size_t cells1[8] = {128, 127, 126, 25, 26, 27, 28, 29}, cells2[8] = {125, 124, 123, 30, 31, 32, 33, 34};
    say_held(0x80, 0x80, "P1 80, read");
    say_held(0x81, 0x80, "P1 81, read");
    say_held(0x06, 0x06, "P1 06 06, read");
    say_held(0x06, 0x0F, "P1 06 0F, read");
    say_held(0x87, 0x87, "P1 87 87, read");
    say_held(0x81, 0x01, "P1 81 01, read");
    say_held(0x01, 0x81, "P1 01 81, read");
    say_held(0xCA, 0xB1, "P1 CA B1, read");
    say_held(0xB1, 0xCA, "P1 B1 CA, read");
    hold(0xCA, 0xB1);
    image[29] = image[34] = 0x01;
    say_mended("P1 CA B1, nibble 7 lost, read");
    hold(0xCA, 0xB1);
    image[1] = 0xFF;
    say_mended("P1 CA B1, mark gone, read");
    near_the_end();
    for (int nibble = 0; nibble < 8; nibble++)
        image[cells1[nibble]] ^= (uint8_t)(1 << nibble);
    say_mended("P1 each bit, read");
    for (int nibble = 0; nibble < 8; nibble++)
        image[cells1[nibble]] = image[cells2[nibble]] = 0xC0;
    say_mended("P1 all C0, read");
}

/* Document 02, P2. */
static uint8_t text[11276];

static void print_hex(const char *name, second_hex answer)
{
    printf("%s: code=%" PRIu32 " line=%" PRIu64 " length=%" PRIu64, name, answer.code, answer.line, answer.length);
}

static void say_written(const char *name, const uint8_t *cells, size_t count, size_t room)
{
    print_hex(name, second_hex_write(cells, count, text, room));
    printf("\n");
}

static void writing(void)
{
    static const uint8_t zeros[4097];
    near_the_end();
    say_written("P2 setting A, room 377, write", image, 129, 377);
    say_written("P2 setting A, room 378, write", image, 129, 378);
    say_written("P2 N 40, write", zeros, 40, sizeof text);
    say_written("P2 N 4096, write", zeros, 4096, sizeof text);
    say_written("P2 N 4097, write", zeros, 4097, sizeof text);
}

/* Tells whether the image is now the one that was written, and whether it is as it was before the text was read. */
static void say_taken(const char *name, second_hex answer, const uint8_t *now, const uint8_t *written, const uint8_t *before,
                      size_t count)
{
    print_hex(name, answer);
    printf(" written=%d kept=%d\n", memcmp(now, written, count) == 0, memcmp(now, before, count) == 0);
}

static void longest(void)
{
    static uint8_t written[4096], before[4096], now[4096];
    memset(before, 0xFF, sizeof before);
    memset(now, 0xFF, sizeof now);
    second_hex_write(written, sizeof written, text, sizeof text);
    say_taken("P2 N 4096, read", second_hex_read(text, sizeof text, now, sizeof now), now, written, before, sizeof now);
}

/* The text of setting A, so that it can be damaged. Its last data record is that of cell 128 alone. */
static uint8_t *const last_data = text + 352, *const end_record = text + 366, *const text_end = text + 378;

static void written_a(void)
{
    near_the_end();
    second_hex_write(image, 129, text, sizeof text);
}

/* Reads the text up to `stop` into a blank chip. */
static void say_text(const char *name, const uint8_t *stop, size_t cells)
{
    uint8_t written[sizeof image], before[sizeof image];
    near_the_end();
    memcpy(written, image, sizeof image);
    blank(cells, 128);
    memcpy(before, image, sizeof image);
    say_taken(name, second_hex_read(text, (size_t)(stop - text), image, cells), image, written, before, sizeof image);
}

static void good_texts(void)
{
    written_a();
    say_text("P2 as written, read", text_end, 129);
    memcpy(end_record, ":00000001ff\n", 12);
    say_text("P2 lower case, read", text_end, 129);
    memcpy(end_record, ":00000001FF\r\n", 13);
    say_text("P2 CR LF, read", text_end + 1, 129);
}

static void malformed_texts(void)
{
    written_a();
    text[9] = 'G';
    say_text("P2 G for a digit, read", text_end, 129);
    written_a();
    say_text("P2 last line feed missing, read", text_end - 1, 129);
    *text_end = '\n';
    say_text("P2 a line after the end, read", text_end + 1, 129);
}

static void say_last_data(const char *name, const char *record)
{
    written_a();
    memcpy(last_data, record, 13);
    say_text(name, text_end, 129);
}

static void faulty_records(void)
{
    say_last_data("P2 checksum 77, read", ":010080000777");
    say_last_data("P2 type 01 with data, read", ":010080010777");
    say_last_data("P2 type 04, read", ":010080040774");
    say_last_data("P2 address 129, read", ":010081000777");
    say_last_data("P2 address 127 twice, read", ":01007F000779");
}

static void missing_parts_and_sizes(void)
{
    written_a();
    say_text("P2 end record missing, read", end_record, 129);
    say_text("P2 empty text, read", text, 129);
    say_text("P2 N 130, read", text_end, 130);
    say_text("P2 N 120, read", text_end, 120);
    say_text("P2 N 40, read", text_end, 40);
}

/* Document 02, P3. */
static void erased(void)
{
    say_held(0xFF, 0x61, "P3 FF 61, read");
    say_held(0x61, 0x00, "P3 61 00, read");
    say_held(0xFF, 0xFF, "P3 FF FF, read");
    say_held(0x00, 0x00, "P3 00 00, read");
    say_held(0xFF, 0xE6, "P3 FF E6, read");
    second_answer answer = open_it();
    say("P3 FF E6, open", answer, 128, none);
    hold(0xFF, 0x61);
    lives[128] = 0;
    answer = step_it();
    say("P3 FF 61, cell 128 worn, step", answer, 3, 122);
}

/* Document 02, P4. Most cases are of one card, or of its text. */
#define HEAD(allowed, runs) "fitted=100\nallowed=" allowed "\nruns=" runs "\n"
#define RUNS "speed=33\nturns=10\nspeed=45\nturns=3\n"
#define ALLOWING(allowed) HEAD(allowed, "2") RUNS
#define CARD ALLOWING("5000")
#define RUN "speed=33\nturns=1\n"

static const uint32_t card_speeds[2] = {33, 45}, card_turns[2] = {10, 3};

static void print_card(const char *name, second_text answer)
{
    printf("%s: code=%" PRIu32 " length=%" PRIu64, name, answer.code, answer.length);
}

static void say_rows(const char *name, const uint32_t *speeds, size_t speeds_n, const uint32_t *turns, size_t turns_n, size_t room)
{
    print_card(name, second_card_write(100, 5000, speeds, speeds_n, turns, turns_n, text, room));
    printf("\n");
}

static void print_turns(second_card answer)
{
    printf(" code=%" PRIu32 " used=%" PRIu32 " left=%" PRId64 " time=%" PRIu64 "\n", answer.code, answer.used, answer.left,
           answer.time);
}

static void say_at(const char *name, const void *card, size_t length, uint32_t count)
{
    printf("%s:", name);
    print_turns(second_card_at(card, length, count));
}

static void say_card(const char *name, const char *card, uint32_t count)
{
    say_at(name, card, strlen(card), count);
}

static void written_card(void)
{
    say_rows("P4 room 65, write", card_speeds, 2, card_turns, 2, 65);
    say_rows("P4 room 66, write", card_speeds, 2, card_turns, 2, 66);
    say_at("P4 count 113, answer", text, 66, 113);
    say_at("P4 count 99, answer", text, 66, 99);
    say_at("P4 count 112, answer", text, 66, 112);
    say_at("P4 count 114, answer", text, 66, 114);
}

/* What the text says, written again: it has to be that text. */
static void read_back(void)
{
    second_text again = second_card_write(100, 5000, card_speeds, 2, card_turns, 2, text, 66);
    print_card("P4 read back, write", again);
    printf(" same=%d\n", again.length == strlen(CARD) && memcmp(text, CARD, strlen(CARD)) == 0);
}

static void allowances(void)
{
    say_card("P4 allowed 12, count 113, answer", ALLOWING("12"), 113);
    say_card("P4 no runs, count 100, answer", HEAD("5000", "0"), 100);
    say_card("P4 allowed 0, count 113, answer", ALLOWING("0"), 113);
    say_card("P4 allowed 1000000, count 113, answer", ALLOWING("1000000"), 113);
    say_card("P4 allowed 1000001, count 113, answer", ALLOWING("1000001"), 113);
    say_card("P4 allowed 4294967296, count 113, answer", ALLOWING("4294967296"), 113);
}

/* A text of 64 runs alike and one more, or none. */
static void say_many(const char *name, const char *head, const char *run, const char *last, uint32_t count)
{
    char card[2048];
    strcpy(card, head);
    for (int i = 0; i < 64; i++)
        strcat(card, run);
    strcat(card, last);
    say_card(name, card, count);
}

static void many_runs(void)
{
    say_many("P4 64 runs, count 164, answer", HEAD("5000", "64"), RUN, "", 164);
    say_many("P4 64 runs of 4294967295, count 113, answer", HEAD("5000", "64"), "speed=33\nturns=4294967295\n", "", 113);
    say_card("P4 runs of 4294967295 and 14, count 113, answer", HEAD("5000", "2") "speed=33\nturns=4294967295\nspeed=45\nturns=14\n", 113);
    say_many("P4 65 runs, count 165, answer", HEAD("5000", "65"), RUN, RUN, 165);
    say_many("P4 65 runs, the last at 78, count 165, answer", HEAD("5000", "65"), RUN, "speed=78\nturns=1\n", 165);
    say_many("P4 65 runs, allowed 0, count 165, answer", HEAD("0", "65"), RUN, RUN, 165);
}

static void malformed_cards(void)
{
    say_card("P4 leading zero, count 113, answer", ALLOWING("05000"), 113);
    say_card("P4 byte behind the text, count 113, answer", CARD "\n", 113);
    say_at("P4 last line feed missing, count 113, answer", CARD, strlen(CARD) - 1, 113);
}

/* A card that says 65 runs is to the second maker rows of 65. */
static void rows(void)
{
    static const uint32_t other[1] = {78};
    uint32_t speeds[65], turns[65];
    for (int i = 0; i < 65; i++) {
        speeds[i] = 33;
        turns[i] = 1;
    }
    say_rows("P4 speed 78, write", other, 1, card_turns, 1, sizeof text);
    say_rows("P4 rows of 2 and 1, write", card_speeds, 2, card_turns, 1, sizeof text);
    say_rows("P4 65 runs, write", speeds, 65, turns, 65, sizeof text);
    say_rows("P4 a card that says 65 runs, write", speeds, 65, turns, 65, sizeof text);
}

/* A chip that is refused has no count. What the card is refused for by itself then shows where its runs add up. */
static void say_chip(const char *name, const char *card)
{
    second_answer read = read_it();
    uint32_t count = read.code == 0 ? read.count : 4294967294;
    second_card answer = second_card_at((const uint8_t *)card, strlen(card), count);
    if (read.code != 0)
        answer = (second_card){.code = answer.code};
    printf("%s: read=%" PRIu32, name, read.code);
    print_turns(answer);
}

static void cards_on_chips(void)
{
    near_the_end();
    say_chip("P4 chip at 4294967294, answer", "fitted=4294967281\nallowed=5000\nruns=2\n" RUNS);
    image[1] = 0xFF;
    say_chip("P4 chip, mark gone, answer", "fitted=4294967281\nallowed=5000\nruns=2\n" RUNS);
    say_chip("P4 chip, mark gone, allowed 0, answer", "fitted=4294967281\nallowed=0\nruns=2\n" RUNS);
}

/* Document 02, P6. A line of a call that is cut shows the torn cell. */
static void say_cut_open(const char *name, size_t power, uint8_t torn, size_t at)
{
    second_answer answer = second_trial_open(image, n, lives, n, map, start, end, power, torn);
    say(name, answer, at, none);
}

static void say_cut_step(const char *name, size_t power, uint8_t torn, size_t at)
{
    second_answer answer = second_trial_step(image, n, lives, n, map, start, end, power, torn);
    say(name, answer, at, none);
}

static void cut_opening(size_t power, uint8_t torn, size_t at, const char *cut, const char *read, const char *open)
{
    blank(129, 128);
    say_cut_open(cut, power, torn, at);
    say(read, read_it(), none, none);
    say(open, open_it(), none, none);
}

static void cut_step(size_t power, uint8_t torn, size_t at, const char *cut, const char *read, const char *open)
{
    opened_a();
    say_cut_step(cut, power, torn, at);
    say(read, read_it(), none, none);
    second_answer answer = open_it();
    say(open, answer, at, none);
}

static void cut_openings(void)
{
    cut_opening(0, 0x00, 128, "P6 power 0 torn 00, open", "P6 power 0 torn 00, open, read", "P6 power 0 torn 00, open, open");
    cut_opening(17, 0xFF, 4, "P6 power 17 torn FF, open", "P6 power 17 torn FF, open, read", "P6 power 17 torn FF, open, open");
    cut_opening(39, 0x00, 2, "P6 power 39 torn 00, open", "P6 power 39 torn 00, open, read", "P6 power 39 torn 00, open, open");
    cut_opening(39, 0x5A, 2, "P6 power 39 torn 5A, open", "P6 power 39 torn 5A, open, read", "P6 power 39 torn 5A, open, open");
    blank(129, 128);
    say_cut_open("P6 power 40 torn 00, open", 40, 0x00, 2);
}

static void cut_steps(void)
{
    cut_step(0, 0x01, 128, "P6 power 0 torn 01, step", "P6 power 0 torn 01, step, read", "P6 power 0 torn 01, step, open");
    cut_step(0, 0x81, 128, "P6 power 0 torn 81, step", "P6 power 0 torn 81, step, read", "P6 power 0 torn 81, step, open");
    cut_step(0, 0x06, 128, "P6 power 0 torn 06, step", "P6 power 0 torn 06, step, read", "P6 power 0 torn 06, step, open");
    cut_step(0, 0xCB, 128, "P6 power 0 torn CB, step", "P6 power 0 torn CB, step, read", "P6 power 0 torn CB, step, open");
    cut_step(1, 0xFF, 125, "P6 power 1 torn FF, step", "P6 power 1 torn FF, step, read", "P6 power 1 torn FF, step, open");
    cut_step(1, 0x07, 125, "P6 power 1 torn 07, step", "P6 power 1 torn 07, step, read", "P6 power 1 torn 07, step, open");
    cut_step(1, 0x80, 125, "P6 power 1 torn 80, step", "P6 power 1 torn 80, step, read", "P6 power 1 torn 80, step, open");
    cut_step(1, 0xCB, 125, "P6 power 1 torn CB, step", "P6 power 1 torn CB, step, read", "P6 power 1 torn CB, step, open");
    opened_a();
    say_cut_step("P6 power 2 torn CB, step", 2, 0xCB, 125);
}

static void cut_moves(void)
{
    opened_a();
    lives[128] = 0;
    say_cut_step("P6 128 worn, power 0 torn 07, step", 0, 0x07, 128);
    say_cut_step("P6 128 worn, power 1 torn CB, step", 1, 0xCB, 122);
    say("P6 128 worn, power 1 torn CB, step, read", read_it(), none, none);
    opened_a();
    lives[128] = 0;
    say_cut_step("P6 128 worn, power 2 torn FF, step", 2, 0xFF, 3);
    say("P6 128 worn, power 2 torn FF, step, read", read_it(), none, none);
    opened_a();
    image[1] = 0xFF;
    say_cut_step("P6 mark gone, power 0, step", 0, 0x00, none);
    opened_a();
    say_cut_open("P6 opened, power 0, open", 0, 0x00, none);
}

static uint8_t tray[512];
static size_t laid;

static void lay(void)
{
    memcpy(tray + laid, image, n);
    laid += n;
}

/* A chip at 1, a blank one, and one whose first two pointers are alike. */
static void lay_three(void)
{
    opened_a();
    image[128] = image[125] = 0x07;
    laid = 0;
    lay();
    blank(129, 128);
    lay();
    opened_a();
    image[3] = 127;
    lay();
}

static void say_tray(const char *name, size_t length, size_t each, size_t last, size_t counts_n, size_t codes_n)
{
    uint32_t counts[64] = {9, 9, 9, 9}, codes[64] = {9, 9, 9, 9};
    uint32_t code = second_tray(tray, length, each, map, start, last, counts, counts_n, codes, codes_n);
    printf("%s: code=%" PRIu32 " counts=%" PRIu32 ",%" PRIu32 ",%" PRIu32 ",%" PRIu32 " codes=%" PRIu32 ",%" PRIu32 ",%" PRIu32
           ",%" PRIu32 "\n", name, code, counts[0], counts[1], counts[2], counts[3], codes[0], codes[1], codes[2], codes[3]);
}

static void trays(void)
{
    lay_three();
    say_tray("P7 one image", 129, 129, 128, 4, 4);
    say_tray("P7 three images", 387, 129, 128, 4, 4);
    say_tray("P7 three images, rows of 3", 387, 129, 128, 3, 3);
    say_tray("P7 images of 40", 120, 40, 128, 4, 4);
    say_tray("P7 the area ends at 129", 387, 129, 129, 4, 4);
    say_tray("P7 counts of 2", 387, 129, 128, 2, 4);
    say_tray("P7 codes of 2", 387, 129, 128, 4, 2);
    say_tray("P7 image length 0", 387, 0, 128, 4, 4);
    say_tray("P7 no image", 0, 129, 128, 4, 4);
    say_tray("P7 a byte too few", 386, 129, 128, 4, 4);
    say_tray("P7 a byte too many", 388, 129, 128, 4, 4);
    say_tray("P7 64 images", 64, 1, 128, 64, 64);
    say_tray("P7 65 images", 65, 1, 128, 64, 64);
}

int main(void)
{
    bench_list();
    marks_and_lags();
    wear();
    mended();
    writing();
    longest();
    good_texts();
    malformed_texts();
    faulty_records();
    missing_parts_and_sizes();
    erased();
    written_card();
    read_back();
    allowances();
    many_runs();
    malformed_cards();
    rows();
    cards_on_chips();
    cut_openings();
    cut_steps();
    cut_moves();
    trays();
    return 0;
}
