/* Cases whose outcome document 02, P4, gives, or that were worked out from it. They hold the second maker to the document, and the
   archive to both. Most are texts of one card: fitted at 100, 5000 turns allowed, 10 turns cut at 33 1/3 and 3 at 45. */

#include "cardcompare.h"

#include <inttypes.h>
#include <stdio.h>
#include <string.h>

#define BEFORE "fitted=100\nallowed=5000\n"
#define FIRST "speed=33\nturns=10\n"
#define SECOND "speed=45\nturns=3\n"
#define CARD BEFORE "runs=2\n" FIRST SECOND
#define NONE "fitted=0\nallowed=1\nruns=0\n"
#define TOP "4294967295"

static uint64_t number;

static void next_case(void)
{
    number += 1;
    begin(number);
}

static void expect_answer(const void *text, size_t length, uint32_t count, second_card wanted, const char *what)
{
    next_case();
    lend_text(text, length);
    second_card answer = call_at(count);
    expect(answer.code == wanted.code && answer.used == wanted.used && answer.left == wanted.left && answer.time == wanted.time,
           what);
}

static void expect_refused(const void *text, size_t length, uint32_t count, uint32_t code, const char *what)
{
    expect_answer(text, length, count, (second_card){.code = code}, what);
}

static void good_cards(void)
{
    static const struct {
        const char *text;
        uint32_t count, used;
        int64_t left;
        uint64_t time;
        const char *what;
    } tries[] = {
        {CARD, 113, 13, 4987, 330, "the document's card"},
        {NONE, 0, 0, 1, 0, "no runs and no turns"},
        {BEFORE "runs=0\n", 100, 0, 5000, 0, "no runs, at the fitted count"},
        {BEFORE "runs=1\nspeed=33\nturns=1\n", 101, 1, 4999, 27, "a turn at 33 1/3"},
        {BEFORE "runs=1\nspeed=45\nturns=1\n", 101, 1, 4999, 20, "a turn at 45"},
        {BEFORE "runs=1\nspeed=33\nturns=0\n", 100, 0, 5000, 0, "a run of no turns alone"},
        {BEFORE "runs=3\nspeed=45\nturns=0\nspeed=33\nturns=7\nspeed=45\nturns=0\n", 107, 7, 4993, 189, "runs of no turns"},
        {BEFORE "runs=3\nspeed=45\nturns=4\nspeed=45\nturns=5\nspeed=45\nturns=6\n", 115, 15, 4985, 300, "neighbours alike"},
        {"fitted=100\nallowed=14\nruns=2\n" FIRST SECOND, 113, 13, 1, 330, "one turn left"},
        {"fitted=100\nallowed=13\nruns=2\n" FIRST SECOND, 113, 13, 0, 330, "none left"},
        {"fitted=100\nallowed=12\nruns=2\n" FIRST SECOND, 113, 13, -1, 330, "overrun by one"},
        {"fitted=100\nallowed=1\nruns=2\n" FIRST SECOND, 113, 13, -12, 330, "the least allowance"},
        {"fitted=100\nallowed=1000000\nruns=2\n" FIRST SECOND, 113, 13, 999987, 330, "the most"},
        {"fitted=0\nallowed=1\nruns=1\nspeed=33\nturns=" TOP "\n", UINT32_MAX, UINT32_MAX, -4294967294, 115964116965,
         "every turn that can be counted, at 33 1/3"},
        {"fitted=0\nallowed=1\nruns=1\nspeed=45\nturns=" TOP "\n", UINT32_MAX, UINT32_MAX, -4294967294, 85899345900,
         "every turn that can be counted, at 45"},
        {"fitted=" TOP "\nallowed=1\nruns=0\n", UINT32_MAX, 0, 1, 0, "fitted at the highest count"},
    };
    for (size_t i = 0; i < sizeof tries / sizeof *tries; i++) {
        second_card wanted = {.used = tries[i].used, .left = tries[i].left, .time = tries[i].time};
        expect_answer(tries[i].text, strlen(tries[i].text), tries[i].count, wanted, tries[i].what);
    }
}

typedef struct {
    const char *text;
    uint32_t count, code;
    const char *what;
} refusal;

static void expect_each(const refusal *tries, size_t tries_n)
{
    for (size_t i = 0; i < tries_n; i++)
        expect_refused(tries[i].text, strlen(tries[i].text), tries[i].count, tries[i].code, tries[i].what);
}

#define EXPECT_EACH(tries) expect_each(tries, sizeof tries / sizeof *tries)

static void counts(void)
{
    static const refusal tries[] = {
        {CARD, 99, 2, "one below the fitted count"},
        {CARD, 0, 2, "count 0"},
        {CARD, 100, 3, "the fitted count, with turns on the card"},
        {CARD, 112, 3, "one turn less"},
        {CARD, 114, 3, "one turn more"},
        {CARD, UINT32_MAX, 3, "the highest count"},
        {NONE, 1, 3, "a turn and no run"},
        {BEFORE "runs=0\n", 99, 2, "below the fitted count, and no run"},
        {BEFORE "runs=1\nspeed=33\nturns=" TOP "\n", 99, 2, "turns that come to the count round 32 bits"},
        {BEFORE "runs=2\nspeed=33\nturns=" TOP "\nspeed=45\nturns=1\n", 100, 3, "turns that are 0 in 32 bits"},
        {BEFORE "runs=2\nspeed=33\nturns=" TOP "\nspeed=45\nturns=14\n", 113, 3, "turns that are right in 32 bits"},
    };
    EXPECT_EACH(tries);
}

static void lines_amiss(void)
{
    static const refusal tries[] = {
        {"", 0, 5, "an empty text"},
        {"\n", 0, 5, "a line feed alone"},
        {"\n" CARD, 113, 5, "an empty line first"},
        {BEFORE "\nruns=2\n" FIRST SECOND, 113, 5, "an empty line between two"},
        {CARD "\n", 113, 5, "an empty line last"},
        {CARD " ", 113, 5, "a space behind the last line"},
        {CARD "\r\n", 113, 5, "CR LF behind the last line"},
        {CARD CARD, 113, 5, "the card twice"},
        {CARD FIRST, 113, 5, "a run more than there are to be"},
        {CARD "speed=33\nturns=0\n", 113, 5, "a run more, of no turns"},
        {CARD "note=1\n", 113, 5, "a line more"},
        {BEFORE "runs=2\n" FIRST "speed=45\nturns=3", 113, 5, "the last line feed missing"},
        {BEFORE "runs=2\n" FIRST "speed=45\nturns=3\r\n", 113, 5, "CR LF"},
        {BEFORE "runs=2\n" FIRST "speed=45\nturns=3\r", 113, 5, "CR for LF"},
        {"fitted=100\r\nallowed=5000\r\nruns=0\r\n", 100, 5, "CR LF in each line"},
        {"fitted=100 allowed=5000 runs=0\n", 100, 5, "one line"},
        {BEFORE "runs=2\n" FIRST, 110, 5, "a run less"},
        {BEFORE "runs=2\n" FIRST "speed=45\n", 113, 5, "the last line missing"},
        {BEFORE "runs=2\n" FIRST "turns=3\n", 113, 5, "the last speed missing"},
        {BEFORE FIRST SECOND, 113, 5, "the number of runs missing"},
        {BEFORE, 100, 5, "the number of runs missing, and there are none"},
        {"fitted=100\nruns=2\n" FIRST SECOND, 113, 5, "the allowance missing"},
        {"allowed=5000\nruns=2\n" FIRST SECOND, 113, 5, "the fitted count missing"},
        {"fitted=100\n" CARD, 113, 5, "the fitted count twice"},
        {BEFORE "runs=2\nruns=2\n" FIRST SECOND, 113, 5, "the number of runs twice"},
        {"allowed=5000\nfitted=100\nruns=2\n" FIRST SECOND, 113, 5, "the allowance first"},
        {BEFORE "runs=2\nturns=10\nspeed=33\n" SECOND, 113, 5, "the turns before the speed"},
        {BEFORE FIRST SECOND "runs=2\n", 113, 5, "the number of runs behind them"},
        {BEFORE "runs=1\n" FIRST SECOND, 113, 5, "a number of runs that is too low"},
        {BEFORE "runs=3\n" FIRST SECOND, 113, 5, "a number of runs that is too high"},
        {BEFORE "runs=" TOP "\n" FIRST SECOND, 113, 5, "the highest number of runs"},
        {BEFORE "runs=64\n" FIRST SECOND, 113, 5, "64 runs to come, and two there"},
        {BEFORE "runs=65\n" FIRST SECOND, 113, 5, "65 runs to come, and two there"},
    };
    EXPECT_EACH(tries);
    expect_refused(CARD "\0", strlen(CARD) + 1, 113, 5, "a byte 0 behind the last line");
    expect_refused("\0" CARD, strlen(CARD) + 1, 113, 5, "a byte 0 first");
    expect_refused(CARD "and more", strlen(CARD) - 1, 113, 5, "what is not lent does not count");
    for (size_t length = 0; length < strlen(CARD); length++)
        expect_refused(CARD, length, 113, 5, "cut off anywhere");
}

static void keys_and_numbers_amiss(void)
{
    static const refusal tries[] = {
        {"Fitted=100\nallowed=5000\nruns=0\n", 100, 5, "a capital"},
        {"FITTED=100\nallowed=5000\nruns=0\n", 100, 5, "capitals"},
        {"fited=100\nallowed=5000\nruns=0\n", 100, 5, "a letter less"},
        {" fitted=100\nallowed=5000\nruns=0\n", 100, 5, "a space before a key"},
        {"fitted =100\nallowed=5000\nruns=0\n", 100, 5, "a space behind a key"},
        {"fitted= 100\nallowed=5000\nruns=0\n", 100, 5, "a space before a number"},
        {"fitted=100 \nallowed=5000\nruns=0\n", 100, 5, "a space behind a number"},
        {"fitted:100\nallowed=5000\nruns=0\n", 100, 5, "a colon"},
        {"fitted==100\nallowed=5000\nruns=0\n", 100, 5, "two equals signs"},
        {"fitted\nallowed=5000\nruns=0\n", 0, 5, "no equals sign"},
        {"fitted=\nallowed=5000\nruns=0\n", 0, 5, "no number"},
        {"fitted=0100\nallowed=5000\nruns=0\n", 100, 5, "a leading zero"},
        {"fitted=00\nallowed=5000\nruns=0\n", 0, 5, "two zeros"},
        {BEFORE "runs=00\n", 100, 5, "two zeros for no runs"},
        {BEFORE "runs=02\n" FIRST SECOND, 113, 5, "two runs with a leading zero"},
        {BEFORE "runs=2\n" FIRST "speed=45\nturns=03\n", 113, 5, "a leading zero in the last line"},
        {"fitted=+100\nallowed=5000\nruns=0\n", 100, 5, "a plus sign"},
        {"fitted=-0\nallowed=5000\nruns=0\n", 0, 5, "a minus sign"},
        {"fitted=1e2\nallowed=5000\nruns=0\n", 100, 5, "an exponent"},
        {"fitted=0x64\nallowed=5000\nruns=0\n", 100, 5, "hexadecimal"},
        {"fitted=100.0\nallowed=5000\nruns=0\n", 100, 5, "a fraction"},
        {"fitted=1/0\nallowed=5000\nruns=0\n", 100, 5, "the character before 0"},
        {"fitted=1:0\nallowed=5000\nruns=0\n", 100, 5, "the character behind 9"},
        {"fitted=4294967296\nallowed=5000\nruns=0\n", 0, 5, "the first number that is too high"},
        {"fitted=4294967396\nallowed=5000\nruns=0\n", 100, 5, "100 more than 32 bits can tell"},
        {"fitted=18446744073709551716\nallowed=5000\nruns=0\n", 100, 5, "100 more than 64 bits can tell"},
        {"fitted=10000000000\nallowed=5000\nruns=0\n", 100, 5, "eleven digits"},
        {"fitted=0\nallowed=4294967296\nruns=0\n", 0, 5, "the allowance too high for any number"},
        {"fitted=0\nallowed=4294967297\nruns=0\n", 0, 5, "an allowance of 1 in 32 bits"},
        {BEFORE "runs=4294967296\n", 100, 5, "no runs in 32 bits"},
        {BEFORE "runs=4294967298\n" FIRST SECOND, 113, 5, "two runs in 32 bits"},
        {BEFORE "runs=1\nspeed=33\nturns=4294967296\n", 100, 5, "too many turns"},
        {BEFORE "runs=1\nspeed=4294967329\nturns=0\n", 100, 5, "33 in 32 bits"},
        {BEFORE "runs=1\nspeed=\nturns=0\n", 100, 5, "no speed"},
        {BEFORE "runs=1\nspeed=0\nturns=0\n", 100, 5, "speed 0"},
        {BEFORE "runs=1\nspeed=3\nturns=0\n", 100, 5, "speed 3"},
        {BEFORE "runs=1\nspeed=27\nturns=0\n", 100, 5, "speed 27"},
        {BEFORE "runs=1\nspeed=32\nturns=0\n", 100, 5, "speed 32"},
        {BEFORE "runs=1\nspeed=34\nturns=0\n", 100, 5, "speed 34"},
        {BEFORE "runs=1\nspeed=44\nturns=0\n", 100, 5, "speed 44"},
        {BEFORE "runs=1\nspeed=46\nturns=0\n", 100, 5, "speed 46"},
        {BEFORE "runs=1\nspeed=78\nturns=0\n", 100, 5, "speed 78"},
        {BEFORE "runs=1\nspeed=033\nturns=0\n", 100, 5, "speed 033"},
        {BEFORE "runs=1\nspeed=45.0\nturns=0\n", 100, 5, "speed 45.0"},
        {BEFORE "runs=1\nspeed=33 1/3\nturns=0\n", 100, 5, "speed 33 1/3"},
    };
    EXPECT_EACH(tries);
}

static void allowances_and_order(void)
{
    static const refusal tries[] = {
        {"fitted=100\nallowed=0\nruns=2\n" FIRST SECOND, 113, 1, "no turn allowed"},
        {"fitted=100\nallowed=1000001\nruns=2\n" FIRST SECOND, 113, 1, "one too many allowed"},
        {"fitted=100\nallowed=" TOP "\nruns=2\n" FIRST SECOND, 113, 1, "the highest allowance"},
        {"fitted=100\nallowed=0\nruns=2\n" FIRST SECOND "\n", 113, 5, "1, and not in form behind it"},
        {"fitted=100\nallowed=0\nruns=2\n" FIRST "speed=46\nturns=3\n", 113, 5, "1, and a speed that is not in form"},
        {"fitted=100\nallowed=0\nruns=2\n" FIRST SECOND, 99, 1, "1, and the count too low"},
        {"fitted=100\nallowed=0\nruns=2\n" FIRST SECOND, 114, 1, "1, and not adding up"},
        {CARD "\n", 99, 5, "not in form, and the count too low"},
        {CARD "\n", 114, 5, "not in form and not adding up"},
    };
    EXPECT_EACH(tries);
}

/* Many runs, and the rows that they are written from */

static uint8_t text[largest_text];
static size_t text_n;
static uint32_t speeds[longest_row], turns[longest_row];

static void add_line(const char *key, uint32_t value)
{
    text_n += (size_t)sprintf((char *)text + text_n, "%s=%" PRIu32 "\n", key, value);
}

/* A text that announces some runs and has others. */
static void lay(uint32_t fitted, uint32_t allowed, uint32_t announced, size_t there, uint32_t turns_each)
{
    text_n = 0;
    add_line("fitted", fitted);
    add_line("allowed", allowed);
    add_line("runs", announced);
    for (size_t i = 0; i < there; i++) {
        add_line("speed", i % 2 == 0 ? 33 : 45);
        add_line("turns", turns_each);
    }
}

static void expect_laid(uint32_t count, uint32_t code, const char *what)
{
    expect_refused(text, text_n, count, code, what);
}

static void many_runs(void)
{
    lay(1000, 100, 64, 64, 2);
    expect_answer(text, text_n, 1128, (second_card){.used = 128, .left = -28, .time = 3008}, "64 runs");
    expect_laid(1127, 3, "64 runs, and a turn less");
    lay(1000, 100, 63, 63, 2);
    expect_answer(text, text_n, 1126, (second_card){.used = 126, .left = -26, .time = 2968}, "63 runs");
    lay(1000, 100, 65, 65, 2);
    expect_laid(1130, 4, "65 runs");
    expect_laid(1129, 4, "65 runs that do not add up");
    expect_laid(999, 4, "65 runs, and the count too low");
    expect_laid(1128, 4, "65 runs of which 64 add up");
    lay(1000, 0, 65, 65, 2);
    expect_laid(1130, 1, "65 runs and no turn allowed");
    lay(1000, 1000001, 65, 65, 2);
    expect_laid(1130, 1, "65 runs and too many turns allowed");
    lay(1000, 100, 65, 64, 2);
    expect_laid(1128, 5, "65 runs to come, and 64 there");
    lay(1000, 100, 64, 65, 2);
    expect_laid(1128, 5, "64 runs to come, and 65 there");
    lay(1000, 100, 65, 64, 2);
    add_line("speed", 46), add_line("turns", 2);
    expect_laid(1130, 5, "a bad 65th run");
    lay(1000, 100, 65, 65, 2);
    text_n -= 1;
    expect_laid(1130, 5, "the line feed of the 65th run missing");
    lay(1000, 100, longest_row, longest_row, 0);
    expect_laid(1000, 4, "300 runs of no turns");
    lay(0, 100, 64, 64, UINT32_MAX);
    expect_laid(4294967232, 3, "64 runs of the most turns, which are right in 32 bits");
    expect_laid(UINT32_MAX, 3, "64 runs of the most turns");
}

typedef struct {
    uint32_t fitted, allowed;
    size_t speeds_n, turns_n, room;
} sheet;

static void expect_written(sheet sheet, uint32_t code, size_t length, const char *what)
{
    next_case();
    memset(text, 0x55, largest_text);
    lend_text(text, sheet.room);
    lend_rows(speeds, sheet.speeds_n, turns, sheet.turns_n);
    second_text answer = call_write(sheet.fitted, sheet.allowed);
    expect(answer.code == code && answer.length == length, what);
}

static void expect_text(const char *wanted)
{
    expect(memcmp(text_now(), wanted, strlen(wanted)) == 0, wanted);
}

static void fill_rows(uint32_t turns_each)
{
    for (size_t i = 0; i < longest_row; i++) {
        speeds[i] = i % 2 == 0 ? 33 : 45;
        turns[i] = turns_each;
    }
}

static void writing(void)
{
    fill_rows(3);
    turns[0] = 10;
    expect_written((sheet){100, 5000, 2, 2, 66}, 0, 66, "the document's card takes 66 bytes");
    expect_text(CARD);
    expect_written((sheet){100, 5000, 2, 2, 65}, 6, 0, "room for 65");
    expect_written((sheet){100, 5000, 2, 2, 0}, 6, 0, "no room");
    expect_written((sheet){100, 5000, 2, 2, 80}, 0, 66, "room for 80");
    expect_text(CARD);
    expect(text_now()[66] == 0x55 && text_now()[79] == 0x55, "what stood past the text");
    expect_written((sheet){0, 1, 0, 0, 26}, 0, 26, "the shortest text");
    expect_text(NONE);
    expect_written((sheet){0, 1, 0, 0, 25}, 6, 0, "room for 25");
    fill_rows(UINT32_MAX);
    expect_written((sheet){UINT32_MAX, 1000000, 64, 64, 1706}, 0, 1706, "the longest text");
    expect_text("fitted=" TOP "\nallowed=1000000\nruns=64\nspeed=33\nturns=" TOP "\nspeed=45\nturns=" TOP "\n");
    expect_written((sheet){UINT32_MAX, 1000000, 64, 64, 1705}, 6, 0, "room for 1705");
}

static void rows_refused(void)
{
    fill_rows(3);
    expect_written((sheet){100, 0, 2, 2, 80}, 1, 0, "no turn allowed");
    expect_written((sheet){100, 1000001, 2, 2, 80}, 1, 0, "one too many allowed");
    expect_written((sheet){100, 0, 2, 2, 0}, 1, 0, "no turn allowed and no room");
    expect_written((sheet){100, 5000, 65, 65, 2000}, 4, 0, "65 runs");
    expect_written((sheet){100, 5000, 65, 65, 0}, 4, 0, "65 runs and no room");
    expect_written((sheet){100, 0, 65, 65, 2000}, 1, 0, "65 runs and no turn allowed");
    expect_written((sheet){100, 5000, 2, 1, 80}, 5, 0, "turns of one run missing");
    expect_written((sheet){100, 5000, 1, 2, 80}, 5, 0, "a speed missing");
    expect_written((sheet){100, 5000, 0, 1, 80}, 5, 0, "turns and no speed");
    expect_written((sheet){100, 5000, 1, 0, 80}, 5, 0, "a speed and no turns");
    expect_written((sheet){100, 5000, 65, 64, 2000}, 5, 0, "65 speeds for 64 runs");
    expect_written((sheet){100, 5000, 64, 65, 2000}, 5, 0, "64 speeds for 65 runs");
    expect_written((sheet){100, 0, 66, 65, 0}, 5, 0, "rows that differ, and all else amiss");
}

static void speeds_refused(void)
{
    static const uint32_t wrong[] = {0, 3, 20, 27, 32, 34, 44, 46, 78, 289, UINT32_MAX};
    static const size_t places[] = {0, 1, 63, 64, 65, 199, longest_row - 1};
    for (size_t place = 0; place < sizeof places / sizeof *places; place++)
        for (size_t i = 0; i < sizeof wrong / sizeof *wrong; i++) {
            fill_rows(3);
            speeds[places[place]] = wrong[i];
            size_t runs = places[place] + 1;
            expect_written((sheet){100, 5000, runs, runs, 8000}, 5, 0, "a wrong speed in the last run");
            expect_written((sheet){100, 0, longest_row, longest_row, 0}, 5, 0, "a wrong speed, and all else amiss");
        }
}

void worked_cases(void)
{
    good_cards();
    counts();
    lines_amiss();
    keys_and_numbers_amiss();
    allowances_and_order();
    many_runs();
    writing();
    rows_refused();
    speeds_refused();
}
