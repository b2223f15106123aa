/* Cuts whose outcome document 02, P6, gives, or that were worked out from it: every cut of an opening and of steps 1 to 40 on setting
   A, with every torn byte. */

#include "chips.h"
#include "cutcompare.h"

#include <string.h>

enum { lost = -1, all_bytes = 256, steps = 40, opening_writes = 40 };

static const places setting_a = {129, 129, 1, 25, 128};

/* Setting A's sixteen cells, in the order in which a first opening takes them: nibbles 0 to 7 of copy 1, then of copy 2. */
static const size_t cells_a[16] = {128, 127, 126, 25, 26, 27, 28, 29, 125, 124, 123, 30, 31, 32, 33, 34};

static void lend_blank(places at, uint32_t each_life)
{
    memset(image, 0xFF, at.n);
    for (size_t i = 0; i < at.n; i++)
        lives[i] = each_life;
    lend(at, image, lives);
}

/* What a byte reads as. */
static int nibble_of(uint8_t byte)
{
    for (int d = 0; d < 16; d++)
        for (int bit = 0; bit < 8; bit++)
            if (byte != 0x00 && byte != 0xFF && (byte == codes[d] || byte == (codes[d] ^ (1 << bit))))
                return d;
    return lost;
}

static int nibble_in(uint32_t count, int nibble)
{
    return (int)(((count ^ count >> 1) >> (4 * nibble)) & 15);
}

static void expect_exact(uint32_t count)
{
    for (int slot = 0; slot < 16; slot++)
        expect(cell(cells_a[slot]) == codes[nibble_in(count, slot % 8)], "every cell holds its code of the count");
}

/* An open settles both copies on the count that a read gave, and nothing moves. */
static void expect_settled(uint32_t count, int64_t lag)
{
    second_answer answer = call(door_open);
    expect(answer.code == 0 && answer.count == count && answer.lag == lag && answer.tried == 0, "an open answers that count");
    expect_exact(count);
    answer = call(door_read);
    expect(answer.code == 0 && answer.count == count && answer.lag == 0, "a read after it has lag 0");
}

/* Sixteen codes, 22 bytes of pointers, and the mark. */
static size_t opening_place(size_t power)
{
    return power < 16 ? cells_a[power] : power < 38 ? 3 + (power - 16) : power - 37;
}

/* Two good writes in every cell are enough. */
static void openings(void)
{
    begin(1);
    for (size_t power = 0; power <= opening_writes; power++)
        for (int torn = 0; torn < all_bytes; torn++) {
            lend_blank(setting_a, 2);
            second_answer answer = cut(door_open, power, (uint8_t)torn);
            if (power < opening_writes) {
                expect(answer.code == 11 && answer.place == opening_place(power), "an opening is cut in that write");
                expect(cell(answer.place) == torn && life(answer.place) == 1, "the torn byte is there, and a life less");
                answer = call(door_read);
                expect(answer.code == 3 || (power == 39 && torn == 0x5A), "its mark is not there yet");
            } else {
                expect(answer.code == 0 && answer.writes == opening_writes, "with power for 40 writes it is opened");
            }
            expect_settled(0, 0);
        }
    begin(2); /* one good write fewer: cell 3 does not take its pointer */
    lend_blank(setting_a, 2);
    set_life(3, 1);
    second_answer answer = cut(door_open, 16, 0xFF);
    expect(answer.code == 11 && answer.place == 3, "the opening is cut in cell 3");
    answer = call(door_open);
    expect(answer.code == 9 && answer.place == 3, "and cell 3 is worn");
    begin(3); /* a torn write to a worn cell changes nothing */
    lend_blank(setting_a, 2);
    set_life(128, 0);
    answer = cut(door_open, 0, 0x80);
    expect(answer.code == 11 && answer.place == 128 && cell(128) == 0xFF && life(128) == 0, "a worn cell keeps what it has");
}

/* A step from c, cut in copy 1's write or in copy 2's, and what a read gives then. */
static void one_cut(uint32_t c, int nibble, int second, uint8_t torn)
{
    const size_t place = cells_a[8 * second + nibble];
    const int found = nibble_of(torn), old = nibble_in(c, nibble), new = nibble_in(c + 1, nibble);
    second_answer answer = cut(door_step, (size_t)second, torn);
    expect(answer.code == 11 && answer.place == place, "the step is cut in that write");
    expect(cell(place) == torn && life(place) == 1, "the torn byte is there, and a life less");
    answer = call(door_read);
    if (found != lost && found != old && found != new) {
        expect(answer.code == 6 && answer.lag != 0 && answer.lag != 1, "another nibble is refused 6");
        expect(same_answer(call(door_open), answer), "and so is an open");
        return;
    }
    bool counted = second || found == new;
    int64_t lag = second ? found == old : found == new;
    expect(answer.code == 0 && answer.count == c + counted && answer.lag == lag, "the count and the lag of the table");
    expect_settled(c + counted, lag);
}

/* Two good writes in the two cells are enough. */
static void clean_steps(void)
{
    static kept chip;
    begin(4);
    lend_blank(setting_a, 1000);
    expect(call(door_open).code == 0, "setting A opens");
    for (uint32_t c = 0; c < steps; c++) {
        int nibble = 0;
        while (nibble_in(c, nibble) == nibble_in(c + 1, nibble))
            nibble++;
        set_life(cells_a[nibble], 2);
        set_life(cells_a[8 + nibble], 2);
        keep(&chip);
        for (int torn = 0; torn < all_bytes; torn++) {
            for (int second = 0; second < 2; second++) {
                one_cut(c, nibble, second, (uint8_t)torn);
                go_back(&chip);
            }
            second_answer answer = cut(door_step, 2, (uint8_t)torn);
            expect(answer.code == 0 && answer.count == c + 1 && answer.writes == 2, "with power for two writes it steps");
            go_back(&chip);
        }
        expect(call(door_step).code == 0, "the step answers");
        expect_exact(c + 1);
    }
}

/* A step from 4 to 5, cut, and the open after it cut as well: whatever the two torn bytes are, a read gives 4 or 5 or refusal 6. */
static void cut_twice(void)
{
    static kept chip, torn_once;
    begin(5);
    lend_blank(setting_a, 1000);
    call(door_open);
    for (int count = 0; count < 4; count++)
        call(door_step);
    keep(&chip);
    for (size_t first = 0; first < 2; first++)
        for (int torn = 0; torn < all_bytes; torn++) {
            go_back(&chip);
            cut(door_step, first, (uint8_t)torn);
            keep(&torn_once);
            for (size_t second = 0; second < 2; second++)
                for (int again = 0; again < all_bytes; again++) {
                    go_back(&torn_once);
                    second_answer answer = cut(door_open, second, (uint8_t)again);
                    if (answer.code != 11)
                        break; /* it was refused 6, or had no such write */
                    answer = call(door_read);
                    expect(answer.code == 6 || (answer.code == 0 && (answer.count == 4 || answer.count == 5)),
                           "the old count or the next, or refusal 6");
                }
        }
}

/* Setting A opened; cell 128 is worn, so that a step to 1 asks 128, then the spare 122, cell 3 and cell 125. */
static second_answer cut_in_a_move(size_t power, uint8_t torn)
{
    lend_blank(setting_a, 1000);
    call(door_open);
    set_life(128, 0);
    return cut(door_step, power, torn);
}

static void moves(void)
{
    static const size_t asked_for[4] = {128, 122, 3, 125};
    begin(6);
    for (size_t power = 0; power <= 4; power++)
        for (int torn = 0; torn < all_bytes; torn++) {
            second_answer answer = cut_in_a_move(power, (uint8_t)torn);
            if (power == 4) {
                expect(answer.code == 0 && answer.count == 1 && answer.writes == 4 && answer.tried == 1, "it moves");
                continue;
            }
            expect(answer.code == 11 && answer.place == asked_for[power], "a move is cut in that write");
            answer = call(door_read);
            if (power < 2) /* the pointer still names cell 128, which holds 80 */
                expect(answer.code == 0 && answer.count == 0 && answer.lag == 0, "the old count");
            else if (power == 2 && (torn < 35 || torn > 128 || (torn > 122 && torn < 128)))
                expect(answer.code == 4, "a pointer out of the area, or where another is");
            else if (power == 2 && torn == 122)
                expect(answer.code == 0 && answer.count == 1 && answer.lag == 1, "copy 1 has counted");
            else if (power == 2) /* cell 128 as before, or a blank one, where the nibble is lost */
                expect(answer.code == 0 && answer.count == 0 && answer.lag == 0, "the old count");
            second_answer opened = call(door_open);
            expect(opened.code == answer.code && opened.count == answer.count, "an open answers as the read");
        }
    begin(7); /* a pointer torn in a move where both copies of the nibble were damaged before: a lower count, and no refusal */
    lend_blank((places){512, 512, 1, 25, 511}, 1000);
    call(door_open);
    set_cell(511, 0x35), set_cell(508, 0x01), set_cell(504, 0x07), set_life(511, 0);
    expect(call(door_read).count == 15, "nibble 0 is 8 in copy 1 and lost in copy 2");
    second_answer answer = cut(door_step, 2, 0xF8);
    expect(answer.code == 11 && answer.place == 3 && cell(505) == 0x34, "the pointer to cell 505 is torn");
    answer = call(door_read);
    expect(answer.code == 0 && answer.count == 1 && answer.lag == 0, "and names cell 504");
}

/* What is refused is refused before any write is asked for. */
static void refusals(void)
{
    begin(8);
    lend_blank(setting_a, 1000);
    expect(cut(door_step, 0, 0).code == 3, "no mark");
    lend_blank((places){40, 40, 1, 25, 39}, 1000);
    expect(cut(door_open, 0, 0).code == 1, "40 cells");
    lend_blank((places){129, 129, 1, 24, 128}, 1000);
    expect(cut(door_open, 0, 0).code == 2, "an area in the map");
    lend_blank(setting_a, 1000);
    call(door_open);
    second_answer answer = cut(door_open, 0, 0);
    expect(answer.code == 0 && answer.writes == 0, "what is settled asks for no power");
    set_cell(3, 0x00);
    expect(cut(door_step, 0, 0).code == 4, "a map that is not sound");
    set_cell(3, 0x80), set_cell(128, 0x01), set_cell(125, 0x01);
    expect(cut(door_step, 0, 0).code == 5, "a nibble that is lost");
    set_cell(128, 0xB3), set_cell(125, 0xCB);
    expect(cut(door_open, 0, 0).code == 6, "copies that disagree");
    set_cell(128, 0x80), set_cell(125, 0x80), set_cell(29, 0x34), set_cell(34, 0x34);
    expect(cut(door_step, 0, 0).code == 7, "the last count");
}

void worked_cases(void)
{
    openings();
    clean_steps();
    cut_twice();
    moves();
    refusals();
}
