/* Random cases. A case is an image or a text and a call or two. Most texts are made with damage that is known, so that the answer
   is known as well; others are ruined afterwards, or no hex at all, and there the two makers alone are compared. */

#include "hexlines.h"

#include <string.h>

static size_t wrong_size(void)
{
    static const size_t sizes[] = {0, 1, 16, 39, 40, 40, 40, 4097, 4097, 4097, 4098, 4112, 4150};
    return sizes[below(13)];
}

static second_hex read_for(size_t size)
{
    static uint8_t image_there[largest_image];
    fill(image_there, size);
    lend(image_there, size, made.text, made.length);
    return call(door_read);
}

static bool made_image_read(void)
{
    return memcmp(image_now(), made.image, made.n) == 0;
}

static void read_as_planned(void)
{
    bool size_good = chance(88);
    lay_text();
    second_hex planned = planned_answer(size_good), answer = read_for(size_good ? made.n : wrong_size());
    expect(answer.code == planned.code && answer.line == planned.line, "the answer to the damage that was done");
    expect(answer.code != 0 || made_image_read(), "the image that the text was made from");
}

/* Writing, and reading what was written */

static size_t standard_length(size_t size)
{
    return 2 * size + 12 * ((size + 15) / 16) + 12;
}

static size_t draw_room(size_t length)
{
    switch (below(7)) {
    case 0:
        return 0;
    case 1:
        return below(length);
    case 2:
        return length - 1;
    case 3:
        return length + between(1, 40);
    default:
        return length;
    }
}

/* What the one wrote is byte for byte what the other wrote, so each reads the other's text too. */
static void read_back(size_t length)
{
    memcpy(made.text, text_now(), length);
    made.length = length;
    expect(read_for(made.n).code == 0 && made_image_read(), "what was written is read again");
}

static void write_image(void)
{
    static uint8_t text_there[largest_text];
    bool size_good = chance(80);
    size_t size = size_good ? made.n : wrong_size();
    size_t length = standard_length(size), room = draw_room(length);
    uint32_t code = !size_good ? 7 : room < length ? 8 : 0;
    if (!size_good && room < length)
        count_pair(7, 8, false);
    fill(made.image + made.n, largest_image - made.n);
    fill(text_there, room);
    lend(made.image, size, text_there, room);
    second_hex answer = call(door_write);
    expect(answer.code == code && answer.length == (code == 0 ? length : 0), "the length of a standard text");
    if (code == 0)
        read_back(length);
}

/* Texts whose answer is not known */

static uint8_t draw_character(void)
{
    static const char characters[] = ":0123456789ABCDEFabcdef\r\n\r\n ";
    return chance(85) ? (uint8_t)characters[below(sizeof characters - 1)] : (uint8_t)draw();
}

/* Moves what stands from one place on to another. */
static void move_rest(size_t from, size_t to)
{
    memmove(made.text + to, made.text + from, made.length - from);
    made.length = made.length - from + to;
}

static void ruin(void)
{
    size_t place = below(made.length), number = below(smaller(made.length - place, 60));
    switch (below(7)) {
    case 0:
        made.length = place;
        break;
    case 1:
        made.text[place] ^= (uint8_t)(1u << below(8));
        break;
    case 2:
        made.text[place] = draw_character();
        break;
    case 3: /* a few characters out */
        move_rest(place + number, place);
        break;
    case 4: /* a few twice */
        move_rest(place, place + number);
        break;
    case 5:
        move_rest(place, place + 1);
        made.text[place] = draw_character();
        break;
    default: /* a line end */
        while (place < made.length && made.text[place] != '\n')
            place++;
        if (place < made.length)
            made.text[place] = draw_character();
    }
}

static void read_ruined(void)
{
    lay_text();
    for (size_t times = chance(70) ? 1 : between(2, 5); times > 0 && made.length > 0; times--)
        ruin();
    read_for(made.n);
}

static void read_for_another_size(void)
{
    lay_text();
    read_for(chance(30) ? made.n - 1 : chance(50) ? made.n + 1 : between(41, 4096));
}

static void read_strewn(void)
{
    strew_lines();
    lay_text();
    read_for(made.n);
}

static void read_garbage(void)
{
    static const char *const alphabets[] = {":0123456789ABCDEF\n", ":0\n", "\r\n", ":\n", "\n", ":", "0"};
    size_t kind = below(9);
    made.length = below(chance(50) ? 12 : 300);
    for (size_t i = 0; i < made.length; i++)
        if (kind < 7)
            made.text[i] = (uint8_t)alphabets[kind][below(strlen(alphabets[kind]))];
        else
            made.text[i] = kind == 7 ? draw_character() : (uint8_t)draw();
    read_for(made.n);
}

void random_case(void)
{
    size_t kind = below(100);
    draw_lines();
    if (kind < 12) {
        write_image();
    } else if (kind < 18) {
        read_as_planned();
    } else if (kind < 80) {
        draw_damage();
        read_as_planned();
    } else if (kind < 90) {
        read_ruined();
    } else if (kind < 93) {
        read_for_another_size();
    } else if (kind < 96) {
        read_strewn();
    } else {
        read_garbage();
    }
}
