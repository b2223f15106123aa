/* Cases whose outcome document 01 or its bench list gives in figures, or follows from document 02. They hold the second maker to the
   documents, and the archive to both. Numbers follow the bench list up to 17; those from 18 on are our own. */

#include "compare.h"

#include <string.h>

static const places setting_a = {129, 129, 1, 25, 128};
static const uint8_t code_of_zero = 0x80;

static void lend_blank(places at, uint32_t each_life)
{
    static uint8_t image[largest];
    static uint32_t lives[largest];
    memset(image, 0xFF, at.n);
    for (size_t i = 0; i < at.lives_n; i++)
        lives[i] = each_life;
    lend(at, image, lives);
}

static void open_a(void)
{
    lend_blank(setting_a, 1000);
    second_answer answer = call(door_open);
    expect(answer.code == 0 && answer.count == 0 && answer.writes == 40 && answer.tried == 0, "setting A opens with 40 writes");
}

/* Setting A opened has nibble 0 of copy 1 in cell 128 and of copy 2 in cell 125. */
static second_read_answer read_with(uint8_t in1, uint8_t in2)
{
    open_a();
    set_cell(128, in1);
    set_cell(125, in2);
    return call_read();
}

static void readings(void)
{
    begin(9);
    second_answer answer = read_with(0xCB, 0xB3).answer;
    expect(answer.code == 0 && answer.count == 5 && answer.lag == 1, "CB over B3 is count 5, lag 1");
    begin(10);
    answer = read_with(0xB3, 0xCB).answer;
    expect(answer.code == 6 && answer.lag == -1, "B3 over CB is refused 6, lag -1");
    begin(11);
    answer = read_with(0xCB, 0x19).answer;
    expect(answer.code == 6 && answer.lag == 2, "CB over 19 is refused 6, lag 2");
    begin(12);
    answer = read_with(0x01, 0xB3).answer;
    expect(answer.code == 0 && answer.count == 4 && answer.lag == 0, "01 over B3 is count 4");
    begin(13);
    answer = read_with(0x01, 0x01).answer;
    expect(answer.code == 5 && answer.place == 0, "01 twice is refused 5");
    begin(18);
    open_a();
    set_cell(34, 0x34); /* nibble 7 of copy 2: its word is 80000000 hex, its count 4294967295 */
    answer = call(door_read);
    expect(answer.code == 6 && answer.lag == -4294967295, "0 over 4294967295 is no lag of 1");
}

/* Document 02, P1 and P3: bytes in the two cells of nibble 0, what is read, and how many cells were mended in each bit. */
static void mended(void)
{
    static const struct {
        uint8_t in1, in2;
        uint32_t code, count, bit[8];
    } tries[] = {
        {0x80, 0x80, 0, 0, {0}},              {0x81, 0x80, 0, 0, {1}},
        {0x06, 0x06, 0, 1, {2}},              {0x06, 0x0F, 0, 1, {1, 0, 0, 1}},
        {0x87, 0x87, 0, 1, {[7] = 2}},        {0x81, 0x01, 0, 0, {1}},
        {0x01, 0x81, 0, 0, {1}},              {0xCA, 0xB1, 0, 5, {1, 1}},
        {0xB1, 0xCA, 6, 0, {0}},              {0x01, 0x01, 5, 0, {0}},
        {0xFF, 0x61, 0, 2, {0}},              {0x61, 0x00, 0, 2, {0}},
        {0xFF, 0xFF, 5, 0, {0}},              {0x00, 0xFF, 5, 0, {0}},
        {0xFF, 0xE6, 0, 9, {0}},              {0xFF, 0x87, 0, 1, {[7] = 1}},
    };
    begin(27);
    for (size_t i = 0; i < sizeof tries / sizeof *tries; i++) {
        second_read_answer read = read_with(tries[i].in1, tries[i].in2);
        expect(read.answer.code == tries[i].code && read.answer.count == tries[i].count &&
                   memcmp(read.bit, tries[i].bit, sizeof read.bit) == 0,
               "the count, and the bits that were mended");
    }
}

static void steps(void)
{
    begin(14);
    open_a();
    for (uint32_t count = 1; count <= 16; count++) {
        uint8_t nibble1 = cell(127), nibble9 = cell(124);
        second_answer answer = call(door_step);
        expect(answer.code == 0 && answer.count == count && answer.writes == 2 && answer.tried == 0, "a step writes 2");
        bool changed = cell(127) != nibble1 && cell(124) != nibble9;
        expect(changed == (count == 16), "the step to 16 writes nibble 1, and none before it");
    }
    begin(15);
    open_a();
    set_life(128, 0);
    second_answer answer = call(door_step);
    expect(answer.code == 0 && answer.count == 1 && answer.writes == 4 && answer.tried == 1, "a worn cell is moved");
    expect(cell(3) == 0x7A && cell(4) == 0, "the pointer names cell 122");
    begin(17);
    open_a();
    set_cell(128, 0x07), set_cell(125, 0x07), set_cell(29, 0x34), set_cell(34, 0x34); /* the word 80000001 hex */
    answer = call(door_step);
    expect(answer.code == 0 && answer.count == 4294967295, "the last step");
    answer = call(door_step);
    expect(answer.code == 7 && answer.count == 0 && answer.writes == 0, "no step past it");
}

static void limits(void)
{
    begin(16);
    static const struct {
        places at;
        uint32_t code;
    } tries[] = {
        {{40, 40, 1, 25, 39}, 1},        {{41, 41, 1, 25, 40}, 0},      {{41, 41, 1, 25, 39}, 2},
        {{4096, 4096, 1, 246, 4095}, 0}, {{4096, 4096, 1, 247, 4095}, 2}, {{4097, 4097, 1, 25, 4095}, 1},
        {{41, 40, 1, 25, 40}, 1},        {{41, 41, 0, 25, 40}, 2},      {{41, 41, 1, 24, 40}, 2},
        {{41, 41, 17, 1, 16}, 0},        {{41, 41, 17, 0, 16}, 2},      {{41, 41, 18, 1, 16}, 2},
        {{41, 41, 1, 25, 41}, 2},        {{129, 129, SIZE_MAX - 23, 25, 128}, 2},
        {{129, 129, 1, 25, SIZE_MAX}, 2}, {{129, 129, 1, SIZE_MAX, 128}, 2},
    };
    for (size_t i = 0; i < sizeof tries / sizeof *tries; i++) {
        lend_blank(tries[i].at, 1000);
        expect(call(door_open).code == tries[i].code, "a limit of the settings");
    }
}

static void first_openings(void)
{
    begin(19); /* cell 40 worn: the Low kind goes down to 34, and the last High one finds no place */
    lend_blank((places){41, 41, 1, 25, 40}, 1000);
    set_life(40, 0);
    second_answer answer = call(door_open);
    expect(answer.code == 8 && answer.place == 15 && answer.writes == 16 && answer.tried == 0, "an area with one cell too few");
    begin(20); /* one byte of the pointers is FF and already there */
    static const size_t ends[] = {255, 256, 511};
    for (size_t i = 0; i < 3; i++) {
        lend_blank((places){600, 600, 1, 25, ends[i]}, 1000);
        answer = call(door_open);
        expect(answer.code == 0 && answer.writes == 39, "a pointer byte of FF is not written");
    }
    begin(21); /* a mark cell that does not take its byte */
    lend_blank(setting_a, 1000);
    set_life(2, 0);
    answer = call(door_open);
    expect(answer.code == 9 && answer.place == 2 && answer.writes == 40, "a worn mark cell");
}

static void moves(void)
{
    begin(22); /* copy 1 has counted when copy 2 finds no spare */
    lend_blank((places){41, 41, 1, 25, 40}, 1000);
    call(door_open);
    set_life(37, 0);
    second_answer answer = call(door_step);
    expect(answer.code == 8 && answer.place == 8, "no spare in copy 2");
    answer = call(door_read);
    expect(answer.code == 0 && answer.count == 1 && answer.lag == 1, "a refused step may have counted");
    begin(23); /* a map byte fails: the spare keeps its byte and the call ends */
    open_a();
    set_life(128, 0), set_life(3, 0);
    answer = call(door_step);
    expect(answer.code == 9 && answer.place == 3 && answer.writes == 3 && answer.tried == 1, "a worn map cell");
    expect(cell(122) == 0x07 && cell(128) == code_of_zero, "the spare keeps its byte");
    begin(24); /* bad spares are passed over, one by one */
    open_a();
    set_life(128, 0), set_life(122, 0), set_life(121, 0);
    answer = call(door_step);
    expect(answer.code == 0 && answer.tried == 3 && cell(3) == 120, "bad spares are skipped");
}

/* The image that the program `look` is shown with in document 01, and the parts of its map. */
static void look(void)
{
    begin(25);
    static const uint8_t map[24] = {0xA5, 0x5A, 0x80, 0x00, 0x7F, 0x00, 0x7E, 0x00, 0x19, 0x1A, 0x1B, 0x1C,
                                    0x1D, 0x7D, 0x00, 0x7C, 0x00, 0x7B, 0x00, 0x1E, 0x1F, 0x20, 0x21, 0x22};
    lend_blank(setting_a, 1000);
    for (size_t i = 0; i < 24; i++)
        set_cell(1 + i, map[i]);
    for (size_t i = 25; i <= 34; i++)
        set_cell(i, code_of_zero);
    for (size_t i = 123; i <= 128; i++)
        set_cell(i, i == 125 || i == 128 ? 0x19 : code_of_zero);
    second_answer answer = call(door_read);
    expect(answer.code == 0 && answer.count == 3 && answer.lag == 0 && answer.place == 0, "the image of `look` reads 3");
    second_part part = call_map_part(1);
    expect(part.code == 0 && part.start == 3 && part.length == 11, "copy 1 stands behind the mark");
    part = call_map_part(2);
    expect(part.code == 0 && part.start == 14 && part.length == 11, "copy 2 stands behind copy 1");
    part = call_map_part(3);
    expect(part.code == 16 && part.start == 0 && part.length == 0, "there is no copy 3");
}

/* Condition 3: how often each cell has been written after n steps of a blank image. */
static void wear(void)
{
    begin(26);
    static const size_t cells1[8] = {128, 127, 126, 25, 26, 27, 28, 29}, cells2[8] = {125, 124, 123, 30, 31, 32, 33, 34};
    const uint32_t n = 4200;
    lend_blank(setting_a, 5000);
    call(door_open);
    for (uint32_t done = 0; done < n; done++)
        expect(call(door_step).code == 0, "every step answers");
    for (unsigned k = 0; k < 8; k++) {
        uint64_t written = ((uint64_t)n >> (4 * k)) - ((uint64_t)n >> (4 * k + 4));
        expect(life(cells1[k]) == 5000 - 1 - written && life(cells2[k]) == 5000 - 1 - written, "the wear of a nibble's cell");
    }
}

void worked_cases(void)
{
    readings();
    steps();
    limits();
    first_openings();
    moves();
    look();
    wear();
    mended();
}
