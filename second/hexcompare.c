/* Compares the second maker's Intel HEX reader and writer with those of the archive, call by call: the answer, every byte of the
   image and of the text, and the guards around what is lent. Use: hexcompare SEED COUNT [FIRST]; see run.c. */

#include "hexcompare.h"

#include <inttypes.h>
#include <stdio.h>
#include <stdlib.h>
#include <string.h>

#include "../include/lyre.h"

enum { codes = 9 };

typedef struct {
    uint8_t image_room[guard + shifts + largest_image + guard];
    uint8_t text_room[guard + shifts + largest_text + guard];
    uint8_t *image, *text;
} side;

static side ours, theirs;
static size_t lent_n, lent_length;
static uint8_t image_before[largest_image], text_before[largest_text];

const char program[] = "hexcompare";
static const char *const door_names[doors] = {"write", "read"};
static uint64_t met[doors][codes];
static uint64_t pairs[2][codes][codes]; /* in two lines, and in one */

static void lend_side(side *side, size_t image_shift, size_t text_shift)
{
    side->image = lend_bytes(side->image_room, image_shift, image_before, lent_n);
    side->text = lend_bytes(side->text_room, text_shift, text_before, lent_length);
}

void lend(const uint8_t *image, size_t n, const uint8_t *text, size_t length)
{
    lent_n = n;
    lent_length = length;
    /* What is lent may be what an earlier call left. */
    memcpy(image_before, image, n);
    memcpy(text_before, text, length);
    lend_side(&ours, 0, 0);
    /* Bytes ask for no alignment, so they stand at any. */
    lend_side(&theirs, (n + length) % shifts, length % shifts);
}

static bool side_whole(const side *side)
{
    return guards_whole(side->image, lent_n) && guards_whole(side->text, lent_length);
}

const uint8_t *image_now(void)
{
    return ours.image;
}

const uint8_t *text_now(void)
{
    return ours.text;
}

/* With a line for each of its lines. */
static void print_text(const uint8_t *text, size_t length)
{
    for (size_t i = 0; i < length; i++)
        if (text[i] == '\n')
            printf("\\n\n");
        else if (text[i] < ' ' || text[i] > '~' || text[i] == '\\')
            printf("\\x%02X", text[i]);
        else
            printf("%c", text[i]);
    printf("(end of the text)\n");
}

static void print_bytes(const char *what, const uint8_t *before, const uint8_t *mine, const uint8_t *other, size_t number)
{
    for (size_t i = 0; i < number; i++)
        if (mine[i] != other[i])
            printf("%s %zu: before %02X, second %02X, archive %02X\n", what, i, before[i], mine[i], other[i]);
}

/* Everything needed to see the call again without this program. */
static void differ(const char *what, door door)
{
    printf("DIFFERENCE: %s at the door %s, call %" PRIu64 "\n", what, door_names[door], calls);
    where();
    printf("n %zu, text of %zu; image before:", lent_n, lent_length);
    for (size_t i = 0; i < lent_n; i++)
        printf("%s%02X", i % 16 == 0 ? "\n" : " ", image_before[i]);
    printf("\ntext before:\n");
    print_text(text_before, lent_length);
    print_bytes("image", image_before, ours.image, theirs.image, lent_n);
    print_bytes("text", text_before, ours.text, theirs.text, lent_length);
    exit(1);
}

static void show(const char *who, second_hex answer)
{
    printf("%-7s code %" PRIu32 " line %" PRIu64 " length %" PRIu64 "\n", who, answer.code, answer.line, answer.length);
}

static void compare_answers(door door, second_hex mine, second_hex other)
{
    if (mine.code == other.code && mine.line == other.line && mine.length == other.length)
        return;
    show("second", mine);
    show("archive", other);
    differ("answer", door);
}

static void compare_lent(door door, second_hex answer)
{
    if (!side_whole(&ours) || !side_whole(&theirs))
        differ("a write outside what was lent", door);
    if (memcmp(ours.image, theirs.image, lent_n) != 0)
        differ("image", door);
    if (memcmp(ours.text, theirs.text, lent_length) != 0)
        differ("text", door);
    bool may_fill = door == door_read && answer.code == 0;
    if (!may_fill && memcmp(image_before, theirs.image, lent_n) != 0)
        differ("image touched", door);
    /* Past what was written the text is kept; where nothing was, the length is 0. */
    size_t written = answer.length;
    if (memcmp(text_before + written, theirs.text + written, lent_length - written) != 0)
        differ("text touched", door);
}

static bool has_code(door door, uint32_t code)
{
    return door == door_read ? code <= 7 : code == 0 || code == 7 || code == 8;
}

second_hex call(door door)
{
    calls += 1;
    memcpy(image_before, ours.image, lent_n);
    memcpy(text_before, ours.text, lent_length);
    second_hex mine;
    lyre_hex other;
    if (door == door_write) {
        mine = second_hex_write(ours.image, lent_n, ours.text, lent_length);
        other = lyre_hex_write(theirs.image, lent_n, theirs.text, lent_length);
    } else {
        mine = second_hex_read(ours.text, lent_length, ours.image, lent_n);
        other = lyre_hex_read(theirs.text, lent_length, theirs.image, lent_n);
    }
    compare_answers(door, mine, (second_hex){other.code, other.line, other.length});
    expect(has_code(door, mine.code) && mine.length <= lent_length, "a number that the door has");
    compare_lent(door, mine);
    met[door][mine.code] += 1;
    return mine;
}

void count_pair(uint32_t first, uint32_t other, bool in_one_line)
{
    pairs[in_one_line][first][other] += 1;
}

/* What was met. A run of few cases is not asked for much. */

static void print_codes(void)
{
    printf("%-9s%9s%9s\n", "code", door_names[door_write], door_names[door_read]);
    for (uint32_t code = 0; code < codes; code++) {
        printf("%-9" PRIu32, code);
        for (int each = 0; each < doors; each++)
            print_times(has_code((door)each, code), met[each][code], cases / 500);
        printf("\n");
    }
}

static bool has_pair(bool in_one_line, uint32_t first, uint32_t other)
{
    if (in_one_line)
        return first < other && other <= 5;
    if (other == 8)
        return first == 7;
    return first <= 7 && first != 6 && other <= 6;
}

static void print_pairs(bool in_one_line)
{
    printf("%s\n%-9s", in_one_line ? "with another refusal in the same line" : "with another refusal further on", "code");
    for (uint32_t other = 1; other < codes; other++)
        printf("%9" PRIu32, other);
    printf("\n");
    for (uint32_t first = 1; first < codes; first++) {
        if (!has_pair(in_one_line, first, 5)) /* then it has none */
            continue;
        printf("%-9" PRIu32, first);
        for (uint32_t other = 1; other < codes; other++)
            print_times(has_pair(in_one_line, first, other), pairs[in_one_line][first][other], cases / 2000);
        printf("\n");
    }
}

void print_met(void)
{
    print_codes();
    print_pairs(true);
    print_pairs(false);
    end_if_seldom();
}
