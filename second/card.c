/* The second maker's card for the sapphire in the head, written from document 02, P4, and meant to be read beside it. The form of a
   text is judged to its end before anything that it says, and a text is made whole before any of it is handed out. Nothing is done
   for speed. */

#include "card.h"

#include <stdbool.h>
#include <string.h>

enum {
    most_allowed = 1000000,
    most_runs = 64,
    most_digits = 10, /* of a number in form */
    page_size = 2048, /* the longest text takes 1706 */
};

/* 33 stands for 33 1/3, of which a turn takes 1.8 seconds, or 27 fifteenths of one. */
enum { speed_33 = 33, speed_45 = 45, fifteenths_at_33 = 27, fifteenths_at_45 = 20 };

static bool speed_good(uint32_t speed)
{
    return speed == speed_33 || speed == speed_45;
}

static bool allowance_good(uint32_t allowed)
{
    return allowed >= 1 && allowed <= most_allowed;
}

/* Reading: what of a text is still to be taken. What stands next is taken where it is what was asked for; otherwise the text is
   not in form, and that is the end of it. */

typedef struct {
    const uint8_t *next;
    size_t left;
} rest;

static void skip(rest *rest, size_t number)
{
    rest->next += number;
    rest->left -= number;
}

static bool take_word(rest *rest, const char *word)
{
    size_t length = strlen(word);
    if (rest->left < length || memcmp(rest->next, word, length) != 0)
        return false;
    skip(rest, length);
    return true;
}

static bool is_digit(uint8_t character)
{
    return character >= '0' && character <= '9';
}

static size_t digits_ahead(const rest *rest)
{
    size_t digits = 0;
    while (digits < rest->left && is_digit(rest->next[digits]))
        digits++;
    return digits;
}

static bool take_number(rest *rest, uint32_t *number)
{
    size_t digits = digits_ahead(rest);
    if (digits == 0)
        return false;
    if (digits > 1 && rest->next[0] == '0')
        return false;
    if (digits > most_digits)
        return false;
    uint64_t value = 0;
    for (size_t i = 0; i < digits; i++)
        value = 10 * value + (uint64_t)(rest->next[i] - '0');
    if (value > UINT32_MAX)
        return false;
    *number = (uint32_t)value;
    skip(rest, digits);
    return true;
}

static bool take_line(rest *rest, const char *key, uint32_t *number)
{
    return take_word(rest, key) && take_word(rest, "=") && take_number(rest, number) && take_word(rest, "\n");
}

/* What a text says. Of its runs only the turns at each speed are kept, which is all that is asked of them; 64 bits hold those of as
   many runs as a number in form can say. */
typedef struct {
    uint32_t fitted, allowed, runs;
    uint64_t turns_at_33, turns_at_45;
} card;

static bool take_run(rest *rest, card *card)
{
    uint32_t speed = 0, turns = 0;
    if (!take_line(rest, "speed", &speed))
        return false;
    if (!speed_good(speed))
        return false;
    if (!take_line(rest, "turns", &turns))
        return false;
    if (speed == speed_33)
        card->turns_at_33 += turns;
    else
        card->turns_at_45 += turns;
    return true;
}

static bool take_card(rest *rest, card *card)
{
    if (!take_line(rest, "fitted", &card->fitted))
        return false;
    if (!take_line(rest, "allowed", &card->allowed))
        return false;
    if (!take_line(rest, "runs", &card->runs))
        return false;
    for (uint32_t i = 0; i < card->runs; i++)
        if (!take_run(rest, card))
            return false;
    return rest->left == 0;
}

static uint64_t turns_of(const card *card)
{
    return card->turns_at_33 + card->turns_at_45;
}

static uint64_t time_of(const card *card)
{
    return fifteenths_at_33 * card->turns_at_33 + fifteenths_at_45 * card->turns_at_45;
}

static second_card refuse(uint32_t code)
{
    return (second_card){.code = code};
}

second_card second_card_at(const uint8_t *text, size_t length, uint32_t count)
{
    rest rest = {.next = text, .left = length};
    card card = {.runs = 0};
    if (!take_card(&rest, &card))
        return refuse(5);
    if (!allowance_good(card.allowed))
        return refuse(1);
    if (card.runs > most_runs)
        return refuse(4);
    if (count < card.fitted)
        return refuse(2);
    uint32_t used = count - card.fitted;
    if (turns_of(&card) != used)
        return refuse(3);
    return (second_card){.used = used, .left = (int64_t)card.allowed - (int64_t)used, .time = time_of(&card)};
}

/* Writing. The text is made here and counted; only then is it known whether there is room for it. */

typedef struct {
    uint8_t text[page_size];
    size_t length;
} page;

static void put_character(page *page, char character)
{
    page->text[page->length] = (uint8_t)character;
    page->length += 1;
}

static void put_word(page *page, const char *word)
{
    for (; *word != '\0'; word++)
        put_character(page, *word);
}

/* The digits before the last, if there are any, and the last. */
static void put_number(page *page, uint32_t number)
{
    if (number >= 10)
        put_number(page, number / 10);
    put_character(page, (char)('0' + number % 10));
}

static void put_line(page *page, const char *key, uint32_t number)
{
    put_word(page, key);
    put_character(page, '=');
    put_number(page, number);
    put_character(page, '\n');
}

static bool speeds_good(const uint32_t *speeds, size_t speeds_n)
{
    for (size_t i = 0; i < speeds_n; i++)
        if (!speed_good(speeds[i]))
            return false;
    return true;
}

/* The number of the refusal of what is to be written, or 0. */
static uint32_t judge(uint32_t allowed, const uint32_t *speeds, size_t speeds_n, size_t turns_n)
{
    if (speeds_n != turns_n)
        return 5;
    if (!speeds_good(speeds, speeds_n))
        return 5;
    if (!allowance_good(allowed))
        return 1;
    if (speeds_n > most_runs)
        return 4;
    return 0;
}

second_text second_card_write(uint32_t fitted, uint32_t allowed, const uint32_t *speeds, size_t speeds_n, const uint32_t *turns,
                              size_t turns_n, uint8_t *text, size_t room)
{
    uint32_t code = judge(allowed, speeds, speeds_n, turns_n);
    if (code != 0)
        return (second_text){.code = code};
    page page = {.length = 0};
    put_line(&page, "fitted", fitted);
    put_line(&page, "allowed", allowed);
    put_line(&page, "runs", (uint32_t)speeds_n);
    for (size_t i = 0; i < speeds_n; i++) {
        put_line(&page, "speed", speeds[i]);
        put_line(&page, "turns", turns[i]);
    }
    if (room < page.length)
        return (second_text){.code = 6};
    memcpy(text, page.text, page.length);
    return (second_text){.length = page.length};
}
