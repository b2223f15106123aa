/* Random cases. A case is a card with its text or its rows, and a call or two. Most cards ask for refusals that are known, none,
   one or several, so that the answer is known as well; other texts are ruined, or no card at all, and there the two makers alone
   are compared. */

#include "cardcompare.h"

#include <inttypes.h>
#include <stdio.h>
#include <stdlib.h>
#include <string.h>

#define COUNT_OF(list) (sizeof(list) / sizeof *(list))

enum { most_runs = 64, most_allowed = 1000000, lines_before_runs = 3, longest_number = 400 };

/* The card of a case, the count at which it is read, and its text. A good card's turns add up to those used. */
static struct {
    uint32_t fitted, allowed, used, count;
    size_t runs_n;
    uint32_t speeds[longest_row], turns[longest_row];
    uint8_t text[largest_text];
    size_t length;
} made;

/* Bit c is set where refusal c is asked for. */
static bool asks(unsigned damage, uint32_t code)
{
    return (damage >> code & 1) != 0;
}

static unsigned asking(uint32_t code)
{
    return 1u << code;
}

/* The one that is tested first. */
static uint32_t planned(door door, unsigned damage)
{
    uint32_t first = 0;
    for (size_t i = 0; i < refusals; i++)
        if (asks(damage, order[i]) && first == 0)
            first = order[i];
        else if (asks(damage, order[i]))
            count_pair(door, first, order[i]);
    return first;
}

/* Drawing a card */

/* Any number that is not above the highest; often a small one or one near the highest. */
static uint32_t up_to(uint32_t highest)
{
    uint32_t little = (uint32_t)below(chance(60) ? 3 : 100);
    uint32_t of_any_size = (uint32_t)draw();
    of_any_size >>= below(32);
    switch (below(5)) {
    case 0:
        return (uint32_t)smaller(little, highest);
    case 1:
        return highest - (uint32_t)smaller(little, highest);
    case 2:
        return (uint32_t)between(0, highest);
    default:
        return of_any_size <= highest ? of_any_size : (uint32_t)between(0, highest);
    }
}

static size_t draw_runs_n(bool too_many)
{
    static const size_t edges[] = {0, 0, 1, 1, 2, 2, 3, 63, 64, 64};
    if (too_many)
        return chance(40) ? 65 : chance(40) ? between(66, 68) : between(66, chance(85) ? 200 : longest_row - 1);
    return chance(60) ? edges[below(COUNT_OF(edges))] : below(chance(75) ? 8 : most_runs + 1);
}

static uint32_t draw_speed(void)
{
    return chance(50) ? 33 : 45;
}

static void draw_speeds(void)
{
    uint32_t same = draw_speed();
    bool all_alike = chance(25);
    for (size_t i = 0; i < made.runs_n; i++)
        made.speeds[i] = all_alike ? same : draw_speed();
}

/* Shares the turns used out among the runs. */
static void share_out(void)
{
    uint32_t rest = made.used;
    bool evenly = chance(40);
    for (size_t i = made.runs_n; i > 1; i--) {
        uint32_t most = evenly ? (uint32_t)smaller(rest, 2 * (size_t)rest / i) : chance(50) ? rest : (uint32_t)smaller(rest, 9);
        made.turns[i - 1] = up_to(most);
        rest -= made.turns[i - 1];
    }
    if (made.runs_n == 0)
        return;
    size_t place = below(made.runs_n);
    made.turns[0] = made.turns[place];
    made.turns[place] = rest;
}

static uint32_t draw_allowed(bool good)
{
    static const uint32_t outside[] = {0, 0, 0, 1000001, 1000001, 1000002, 1048576, 2000000, 0x80000001, UINT32_MAX};
    if (!good)
        return chance(80) ? outside[below(COUNT_OF(outside))] : 1000001 + up_to(UINT32_MAX - 1000001);
    if (made.used > 0 && made.used < most_allowed && chance(50)) /* just reached, just overrun, or one left */
        return (uint32_t)between(made.used == 1 ? 1 : made.used - 1, made.used + 1);
    return 1 + up_to(most_allowed - 1);
}

/* A count below the fitted one; now and then the turns add up to the difference as 32 bits hold it. */
static void count_too_low(void)
{
    if (made.fitted == 0)
        made.fitted = 1 + up_to(UINT32_MAX - 1);
    made.count = made.fitted - 1 - up_to(made.fitted - 1);
    if (made.runs_n == 0 || chance(50))
        return;
    made.used = made.count - made.fitted;
    share_out();
}

/* Turns that add up to those used only as 32 bits hold them. This needs two runs. */
static void add_up_modulo(void)
{
    bool all_highest = chance(15);
    uint64_t sum = 0;
    for (size_t i = 0; i < made.runs_n; i++) {
        made.turns[i] = all_highest ? UINT32_MAX : i < 2 ? 0x80000000 | (uint32_t)draw() : up_to(UINT32_MAX);
        sum += made.turns[i];
    }
    made.used = (uint32_t)sum;
    made.fitted = up_to(UINT32_MAX - made.used);
    made.count = made.fitted + made.used;
}

/* Another count, one off or any that is not below the fitted one. That of the good card was not the highest. */
static void count_another(void)
{
    uint32_t right = made.count;
    if (chance(50))
        made.count = right + (made.used == 0 || chance(50) ? 1 : UINT32_MAX);
    else
        made.count = made.fitted + up_to(UINT32_MAX - made.fitted);
    if (made.count == right)
        made.count += 1;
}

/* Another number of turns in a run, one off, round the ends too, or any. */
static void turn_more_or_less(void)
{
    uint32_t *turns = &made.turns[below(made.runs_n)];
    if (chance(60))
        *turns += chance(50) ? 1 : UINT32_MAX;
    else
        *turns ^= 1u << below(32);
}

static void not_adding_up(void)
{
    if (made.runs_n >= 2 && chance(40))
        add_up_modulo();
    else if (made.runs_n >= 1 && chance(50))
        turn_more_or_less();
    else
        count_another();
}

/* A card that asks for these of refusals 1 to 4. */
static void draw_card(unsigned damage)
{
    uint32_t highest = asks(damage, 3) ? UINT32_MAX - 1 : UINT32_MAX;
    made.runs_n = draw_runs_n(asks(damage, 4));
    made.used = made.runs_n == 0 ? 0 : up_to(chance(30) ? 100 : chance(40) ? 2 * most_allowed : highest);
    made.fitted = up_to(highest - made.used);
    made.count = made.fitted + made.used;
    draw_speeds();
    share_out();
    made.allowed = draw_allowed(!asks(damage, 1));
    if (asks(damage, 2))
        count_too_low();
    else if (asks(damage, 3))
        not_adding_up();
}

/* Some of these refusals: none, one, two, or any number. A count that is too low never fits the turns either. */
static unsigned draw_damage(const uint32_t *of, size_t of_n)
{
    size_t kind = below(100);
    unsigned damage = 0;
    if (kind < 20)
        return 0;
    if (kind < 90)
        damage |= asking(of[below(of_n)]);
    if (kind >= 45 && kind < 90)
        damage |= asking(of[below(of_n)]);
    for (size_t i = 0; kind >= 90 && i < of_n; i++)
        damage |= chance(50) ? asking(of[i]) : 0;
    return damage | (asks(damage, 2) ? asking(3) : 0);
}

/* The text of a card */

static void add_line(const char *key, uint32_t number)
{
    made.length += (size_t)sprintf((char *)made.text + made.length, "%s=%" PRIu32 "\n", key, number);
}

static void lay_text(void)
{
    made.length = 0;
    add_line("fitted", made.fitted);
    add_line("allowed", made.allowed);
    add_line("runs", (uint32_t)made.runs_n);
    for (size_t i = 0; i < made.runs_n; i++) {
        add_line("speed", made.speeds[i]);
        add_line("turns", made.turns[i]);
    }
}

/* Puts a few bytes, which are not of the text itself, in the place of others. */
static void replace(size_t place, size_t out, const void *in, size_t in_n)
{
    memmove(made.text + place + in_n, made.text + place + out, made.length - place - out);
    memcpy(made.text + place, in, in_n);
    made.length = made.length - out + in_n;
}

static void insert(size_t place, const char *word)
{
    replace(place, 0, word, strlen(word));
}

static void insert_byte(size_t place, uint8_t byte)
{
    replace(place, 0, &byte, 1);
}

/* Where a line stands in the text. */
typedef struct {
    size_t start, value, end; /* of its key, of its number, and its line feed */
} line;

static size_t find(size_t start, char character)
{
    while (made.text[start] != (uint8_t)character)
        start++;
    return start;
}

static line line_of(size_t number)
{
    size_t start = 0;
    for (; number > 0; number--)
        start = find(start, '\n') + 1;
    return (line){.start = start, .value = find(start, '=') + 1, .end = find(start, '\n')};
}

static void replace_value(line line, const char *word)
{
    replace(line.value, line.end - line.value, word, strlen(word));
}

/* Often one of the last, or of the first that are too many. */
static size_t draw_run(void)
{
    if (chance(35))
        return made.runs_n - 1;
    if (made.runs_n > most_runs && chance(40))
        return between(most_runs, smaller(made.runs_n - 1, most_runs + 1));
    return below(made.runs_n);
}

static size_t draw_line(void)
{
    if (made.runs_n == 0 || chance(30))
        return below(lines_before_runs);
    size_t run = draw_run();
    return lines_before_runs + 2 * run + below(2);
}

static size_t lines_n(void)
{
    return lines_before_runs + 2 * made.runs_n;
}

/* Texts that are not in form. Whatever a card says, each of these makes its text one that is not. */

static uint8_t draw_no_digit(void)
{
    static const char likely[] = "+-., _eExX'\r\t\n"; /* and the 0 behind them */
    uint8_t any = (uint8_t)draw();
    switch (below(4)) {
    case 0: /* one but for the highest bit */
        return (uint8_t)between('0' + 128, '9' + 128);
    case 1: /* just outside of them */
        return chance(50) ? '0' - 1 : '9' + 1;
    case 2:
        return (uint8_t)likely[below(sizeof likely)];
    default:
        return any >= '0' && any <= '9' ? (uint8_t)(any + 128) : any;
    }
}

/* The same number once or several times round 32 or 64 bits. */
static void number_round(line line)
{
    char word[longest_number];
    uint64_t number = strtoull((const char *)made.text + line.value, NULL, 10);
    uint64_t times = chance(60) ? 1 : between(1, 3000000000);
    if (chance(60)) {
        sprintf(word, "%" PRIu64, number + (times << 32));
    } else { /* 18446744073709551616 in two parts, for it is too large to be added to */
        uint64_t low = 709551616 + number;
        sprintf(word, "%" PRIu64 "%09" PRIu64, 18446744073 + low / 1000000000, low % 1000000000);
    }
    replace_value(line, word);
}

static void number_long(line line)
{
    char word[longest_number] = {(char)between('1', '9')};
    size_t digits = chance(50) ? between(11, 21) : between(11, longest_number - 1);
    for (size_t i = 1; i < digits; i++)
        word[i] = (char)(chance(30) ? '0' : between('0', '9'));
    replace_value(line, word);
}

static void number_other(line line)
{
    static const char *const words[] = {
        "", "-1", "+1", "-0", "00", "01", "0x1", "1e3", "1.0", "1,000", "1_000", "one", "1 1", "4294967296", "4294967296",
        "4294967297", "4294967300", "4295967296", "4300000000", "5000000000", "8589934592", "9999999999", "10000000000",
        "42949672950", "18446744073709551615", "18446744073709551616", "18446744073709551617",
        "340282366920938463463374607431768211457",
    };
    replace_value(line, words[below(COUNT_OF(words))]);
}

static void spoil_number(line line)
{
    static const char *const before[] = {"0", "0", "0", "00", "0000000000", "+", "-", " ", "\t", "'", "="};
    uint8_t no_digit = draw_no_digit();
    switch (below(7)) {
    case 0:
    case 1:
        insert(line.value, before[below(COUNT_OF(before))]);
        break;
    case 2:
        insert_byte(between(line.value, line.end), no_digit);
        break;
    case 3:
        made.text[between(line.value, line.end - 1)] = no_digit;
        break;
    case 4:
        number_round(line);
        break;
    case 5:
        number_long(line);
        break;
    default:
        number_other(line);
    }
}

/* Where there is no run, another number. */
static void spoil_speed(void)
{
    static const char *const words[] = {
        "", "0", "1", "3", "4", "5", "16", "20", "27", "32", "34", "44", "46", "78", "78", "033", "045", "33 ", "45.0", "33.3",
        "33 1/3", "330", "3345", "289", "301", "65569", "65581", "-33", "+45", "2147483681", "4294967295", "4294967329",
        "4294967341",
    };
    const char *word = words[below(COUNT_OF(words))];
    if (made.runs_n == 0)
        spoil_number(line_of(draw_line()));
    else
        replace_value(line_of(lines_before_runs + 2 * draw_run()), word);
}

/* More runs than there are, or fewer. */
static void spoil_runs(void)
{
    static const size_t more[] = {1, 1, 1, 2, 256, 65536};
    static const size_t others[] = {0, 1, 63, 64, 65, 66, 128, UINT32_MAX};
    char word[longest_number];
    size_t runs = others[below(COUNT_OF(others))];
    if (chance(40))
        runs = made.runs_n + more[below(COUNT_OF(more))];
    else if (made.runs_n > 0 && chance(60))
        runs = made.runs_n - 1;
    sprintf(word, "%zu", runs == made.runs_n ? runs + 1 : runs);
    replace_value(line_of(2), word);
}

static void spoil_key(line line)
{
    static const char *const keys[] = {"fitted", "allowed", "runs", "speed", "turns", "turn", "speeds", "run", "note", ""};
    static const char *const before[] = {" ", "\t", "#", "\xEF\xBB\xBF", "\"", "-"};
    size_t length = line.value - 1 - line.start, place = line.start + below(length);
    const char *other = keys[below(COUNT_OF(keys))];
    switch (below(7)) {
    case 0:
        if (strlen(other) == length && memcmp(made.text + line.start, other, length) == 0)
            other = "key";
        replace(line.start, length, other, strlen(other));
        break;
    case 1: /* one capital */
        made.text[chance(50) ? line.start : place] ^= 'a' ^ 'A';
        break;
    case 2: /* all of them */
        for (size_t i = 0; i < length; i++)
            made.text[line.start + i] ^= 'a' ^ 'A';
        break;
    case 3:
        made.text[place] ^= (uint8_t)(1u << below(8));
        break;
    case 4:
        replace(place, 1, "", 0);
        break;
    case 5:
        insert_byte(place, made.text[place]);
        break;
    default:
        insert(line.start, before[below(COUNT_OF(before))]);
    }
}

static void spoil_equals(line line)
{
    static const char *const others[] = {"", ":", " ", "==", " =", "= ", " = ", "\n", "-"};
    const char *other = others[below(COUNT_OF(others))];
    replace(line.value - 1, 1, other, strlen(other));
}

static void spoil_line_end(line line)
{
    static const char *const others[] = {"\r\n", "\r\n", "\r", "", " ", " \n", "\n\n", "\n\r", "\n ", ";", ";\n", "\t\n"};
    const char *other = others[below(COUNT_OF(others))];
    if (chance(6))
        made.text[line.end] = 0;
    else
        replace(line.end, 1, other, strlen(other));
}

static void all_with_cr(void)
{
    for (size_t i = lines_n(); i > 0; i--)
        insert(line_of(i - 1).end, "\r");
}

/* Puts a line behind the next one. */
static void exchange(size_t number)
{
    uint8_t copy[longest_number];
    line line = line_of(number), next = line_of(number + 1);
    size_t length = next.start - line.start;
    memcpy(copy, made.text + line.start, length);
    replace(next.end + 1, 0, copy, length);
    replace(line.start, length, "", 0);
}

/* A line left out, twice, in its neighbour's place, or one that does not belong. */
static void spoil_lines(void)
{
    static const char *const others[] = {
        "\n", "\n", "note=1\n", "#\n", "fitted=0\n", "allowed=1\n", "runs=0\n", "speed=33\n", "turns=0\n",
    };
    const char *other = others[below(COUNT_OF(others))];
    uint8_t copy[longest_number];
    size_t number = draw_line();
    line line = line_of(number);
    size_t length = line.end + 1 - line.start;
    memcpy(copy, made.text + line.start, length);
    switch (below(5)) {
    case 0:
        replace(line.start, length, "", 0);
        break;
    case 1:
        replace(line.start, 0, copy, length);
        break;
    case 2:
        exchange(smaller(number, lines_n() - 2));
        break;
    default:
        insert(chance(30) ? made.length : line.start, other);
    }
}

/* Behind the last line, or not as far. */
static void spoil_end(void)
{
    static const char *const more[] = {
        "\n", "\n", "\r\n", "\r", " ", "0", "#", "=", "\x1A", "speed=33\n", "speed=33\nturns=0\n", "speed=45\nturns=0", "turns=0\n",
        "runs=0\n",
    };
    static uint8_t copy[largest_text];
    switch (below(10)) {
    case 0:
    case 1:
        made.length -= 1;
        break;
    case 2:
        made.length = below(chance(20) ? 1 : made.length);
        break;
    case 3:
        made.length = chance(60) ? line_of(draw_line()).start : below(made.length);
        break;
    case 4: /* the whole text once more */
        memcpy(copy, made.text, made.length);
        replace(made.length, 0, copy, made.length);
        break;
    case 5:
        insert_byte(made.length, chance(60) ? 0 : (uint8_t)draw());
        break;
    default:
        insert(made.length, more[below(COUNT_OF(more))]);
    }
}

static void spoil_form(void)
{
    line line = line_of(draw_line());
    switch (below(14)) {
    case 0:
        spoil_key(line);
        break;
    case 1:
        spoil_equals(line);
        break;
    case 2:
        if (made.runs_n > 10 || chance(80))
            spoil_line_end(line);
        else
            all_with_cr();
        break;
    case 3:
    case 4:
        spoil_lines();
        break;
    case 5:
    case 6:
        spoil_end();
        break;
    case 7:
    case 8:
        spoil_runs();
        break;
    case 9:
    case 10:
        spoil_speed();
        break;
    default:
        spoil_number(line);
    }
}

/* Reading */

static uint64_t fifteenths(void)
{
    uint64_t sum = 0;
    for (size_t i = 0; i < made.runs_n; i++)
        sum += (uint64_t)made.turns[i] * (made.speeds[i] == 33 ? 27 : 20);
    return sum;
}

/* Reads the text that was made, or written, of the card. */
static void expect_read(unsigned damage)
{
    second_card answer = call_at(made.count);
    expect(answer.code == planned(door_at, damage), "the refusal that was asked for");
    if (answer.code == 0)
        expect(answer.used == made.used && answer.left == (int64_t)made.allowed - made.used && answer.time == fifteenths(),
               "what the card was made with");
}

static void read_as_planned(void)
{
    static const uint32_t codes[] = {1, 2, 3, 4, 5, 5};
    unsigned damage = draw_damage(codes, COUNT_OF(codes));
    draw_card(damage);
    lay_text();
    if (asks(damage, 5))
        spoil_form();
    lend_text(made.text, made.length);
    expect_read(damage);
}

/* Writing, and reading what was written */

static size_t draw_room(bool too_short)
{
    if (too_short)
        return chance(50) ? made.length - 1 : chance(20) ? 0 : below(made.length);
    return made.length + (chance(60) ? 0 : between(1, 40));
}

static uint32_t draw_wrong_speed(void)
{
    static const uint32_t speeds[] = {
        0, 1, 3, 16, 20, 27, 32, 34, 44, 46, 66, 78, 289, 301, 65569, 0x80000021, 0x8000002D, UINT32_MAX,
    };
    uint32_t any = (uint32_t)draw();
    return chance(80) || any == 33 || any == 45 ? speeds[below(COUNT_OF(speeds))] : any;
}

/* Rows that no text in form can be written from, though the card was made with good ones. */
static void spoil_rows(size_t *speeds_n, size_t *turns_n)
{
    size_t *other = chance(50) ? speeds_n : turns_n;
    uint32_t speed = draw_wrong_speed();
    if (made.runs_n > 0 && chance(60)) {
        made.speeds[draw_run()] = speed;
        return;
    }
    for (size_t i = made.runs_n; i < longest_row; i++) {
        made.speeds[i] = draw_speed();
        made.turns[i] = up_to(100);
    }
    if (made.runs_n > 0 && chance(50))
        *other -= chance(60) ? 1 : between(1, made.runs_n);
    else
        *other += chance(60) ? 1 : between(1, longest_row - made.runs_n);
}

static void write_card(void)
{
    static const uint32_t codes[] = {1, 4, 5, 6};
    static uint8_t text_there[largest_text];
    unsigned damage = draw_damage(codes, COUNT_OF(codes)), of_count = chance(80) ? 0 : asking(3);
    draw_card(damage | of_count);
    lay_text();
    size_t room = draw_room(asks(damage, 6)), speeds_n = made.runs_n, turns_n = made.runs_n;
    if (asks(damage, 5))
        spoil_rows(&speeds_n, &turns_n);
    for (size_t i = 0; i < room; i++)
        text_there[i] = (uint8_t)draw();
    lend_text(text_there, room);
    lend_rows(made.speeds, speeds_n, made.turns, turns_n);
    second_text answer = call_write(made.fitted, made.allowed);
    expect(answer.code == planned(door_write, damage), "the refusal that was asked for");
    if (answer.code != 0)
        return;
    expect(answer.length == made.length && memcmp(text_now(), made.text, made.length) == 0, "the one text of the card");
    lend_text(text_now(), answer.length);
    expect_read(of_count);
}

/* Texts whose answer is not known */

static uint8_t draw_character(void)
{
    static const char characters[] = "01234567890123456789=\n\n\rfitedalowrunsp";
    return chance(85) ? (uint8_t)characters[below(sizeof characters - 1)] : (uint8_t)draw();
}

static void ruin(void)
{
    uint8_t copy[longest_number];
    size_t place = below(made.length), number = below(smaller(made.length - place, 40));
    switch (below(7)) {
    case 0:
        made.text[place] ^= (uint8_t)(1u << below(8));
        break;
    case 1:
        made.text[place] = draw_character();
        break;
    case 2:
        insert_byte(place, draw_character());
        break;
    case 3:
        replace(place, 1, "", 0);
        break;
    case 4: /* a few out */
        replace(place, number, "", 0);
        break;
    case 5: /* a few twice */
        memcpy(copy, made.text + place, number);
        replace(place, 0, copy, number);
        break;
    default: /* a digit for another */
        while (place < made.length && (made.text[place] < '0' || made.text[place] > '9'))
            place++;
        if (place < made.length)
            made.text[place] = (uint8_t)between('0', '9');
    }
}

static void read_ruined(void)
{
    draw_card(chance(70) ? 0 : asking((uint32_t)between(1, 4)));
    lay_text();
    for (size_t times = chance(70) ? 1 : between(2, 5); times > 0 && made.length > 0; times--)
        ruin();
    lend_text(made.text, made.length);
    call_at(made.count);
}

/* The right keys in the right order with any numbers, and a count that has nothing to do with them. */
static void read_strewn(void)
{
    made.runs_n = below(4);
    made.fitted = up_to(UINT32_MAX);
    made.allowed = up_to(chance(70) ? 1100000 : UINT32_MAX);
    for (size_t i = 0; i < made.runs_n; i++) {
        made.speeds[i] = chance(90) ? draw_speed() : draw_wrong_speed();
        made.turns[i] = up_to(UINT32_MAX);
    }
    lay_text();
    lend_text(made.text, made.length);
    call_at(up_to(UINT32_MAX));
}

static void read_garbage(void)
{
    static const char *const words[] = {"fitted=", "allowed=", "runs=", "speed=", "turns=", "0", "1", "33", "45", "=", "\n", "\n"};
    bool of_words = chance(60);
    made.length = 0;
    for (size_t times = below(chance(50) ? 6 : 60); times > 0; times--)
        if (of_words)
            insert(made.length, words[below(COUNT_OF(words))]);
        else
            insert_byte(made.length, draw_character());
    lend_text(made.text, made.length);
    call_at(up_to(UINT32_MAX));
}

void random_case(void)
{
    size_t kind = below(100);
    if (kind < 60)
        read_as_planned();
    else if (kind < 85)
        write_card();
    else if (kind < 94)
        read_ruined();
    else if (kind < 97)
        read_strewn();
    else
        read_garbage();
}
