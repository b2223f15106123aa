/* Compares the second maker's card with that of the archive, call by call: the answer, every byte of the text and of the rows, and
   the guards around what is lent. Use: cardcompare SEED COUNT [FIRST]; see run.c. */

#include "cardcompare.h"

#include <inttypes.h>
#include <stdio.h>
#include <stdlib.h>
#include <string.h>

#include "../include/lyre.h"

enum { codes = refusals + 1, number_size = sizeof(uint32_t) };
enum { row_room = (guard + shifts + guard) / number_size + longest_row };

typedef struct {
    uint8_t text_room[guard + shifts + largest_text + guard];
    uint32_t speeds_room[row_room], turns_room[row_room];
    uint8_t *text;
    uint32_t *speeds, *turns;
} side;

static side ours, theirs;
static size_t lent_length, lent_speeds, lent_turns;
static uint8_t text_before[largest_text];
static uint32_t speeds_before[longest_row], turns_before[longest_row];

const char program[] = "cardcompare";
const uint32_t order[refusals] = {5, 1, 4, 2, 3, 6};
static const char *const door_names[doors] = {"at", "write"};
static uint64_t met[doors][codes];
static uint64_t pairs[doors][codes][codes];

void lend_text(const uint8_t *text, size_t length)
{
    lent_length = length;
    /* What is lent may be what an earlier call left. */
    memcpy(text_before, text, length);
    ours.text = lend_bytes(ours.text_room, 0, text_before, length);
    /* Bytes ask for no alignment, so they stand at any. */
    theirs.text = lend_bytes(theirs.text_room, length % shifts, text_before, length);
}

static void lend_rows_to(side *side, size_t shift)
{
    side->speeds = lend_bytes(side->speeds_room, shift, speeds_before, lent_speeds * number_size);
    side->turns = lend_bytes(side->turns_room, shift, turns_before, lent_turns * number_size);
}

void lend_rows(const uint32_t *speeds, size_t speeds_n, const uint32_t *turns, size_t turns_n)
{
    lent_speeds = speeds_n;
    lent_turns = turns_n;
    memcpy(speeds_before, speeds, speeds_n * number_size);
    memcpy(turns_before, turns, turns_n * number_size);
    lend_rows_to(&ours, 0);
    /* Numbers are aligned as they ask for, and no better. */
    lend_rows_to(&theirs, (lent_length + turns_n) * number_size % shifts);
}

static bool rows_whole(const side *side)
{
    return guards_whole(side->speeds, lent_speeds * number_size) && guards_whole(side->turns, lent_turns * number_size);
}

static bool rows_kept(const side *side)
{
    return memcmp(side->speeds, speeds_before, lent_speeds * number_size) == 0 &&
           memcmp(side->turns, turns_before, lent_turns * number_size) == 0;
}

const uint8_t *text_now(void)
{
    return ours.text;
}

/* With a line for each of its lines. */
static void print_text(const uint8_t *text, size_t length)
{
    for (size_t i = 0; i < length; i++)
        if (text[i] == '\n')
            printf("\\n\n");
        else if (text[i] < ' ' || text[i] > '~' || text[i] == '\\')
            printf("\\x%02X", text[i]);
        else
            printf("%c", text[i]);
    printf("(end of the text)\n");
}

static void print_row(const char *what, const uint32_t *numbers, size_t number)
{
    printf("%s, %zu:", what, number);
    for (size_t i = 0; i < number; i++)
        printf(" %" PRIu32, numbers[i]);
    printf("\n");
}

/* What was asked besides, for a report: a count, or fitted and allowed. */
static uint32_t asked[2];

/* Everything needed to see the call again without this program. */
static void differ(const char *what, door door)
{
    printf("DIFFERENCE: %s at the door %s, call %" PRIu64 "\n", what, door_names[door], calls);
    where();
    if (door == door_at) {
        printf("count %" PRIu32 "\n", asked[0]);
    } else {
        printf("fitted %" PRIu32 ", allowed %" PRIu32 "\n", asked[0], asked[1]);
        print_row("speeds", speeds_before, lent_speeds);
        print_row("turns", turns_before, lent_turns);
    }
    printf("text of %zu before:\n", lent_length);
    print_text(text_before, lent_length);
    for (size_t i = 0; i < lent_length; i++)
        if (ours.text[i] != theirs.text[i])
            printf("text %zu: before %02X, second %02X, archive %02X\n", i, text_before[i], ours.text[i], theirs.text[i]);
    exit(1);
}

/* Only `written` bytes at the start of the text may have changed, and nothing else that was lent. */
static void compare_text(door door, size_t written)
{
    if (!guards_whole(ours.text, lent_length) || !guards_whole(theirs.text, lent_length))
        differ("a write outside the text", door);
    if (memcmp(ours.text, theirs.text, lent_length) != 0)
        differ("text", door);
    if (memcmp(text_before + written, theirs.text + written, lent_length - written) != 0)
        differ("text touched", door);
}

static void compare_rows(door door)
{
    if (!rows_whole(&ours) || !rows_whole(&theirs))
        differ("a write outside the rows", door);
    if (!rows_kept(&ours) || !rows_kept(&theirs))
        differ("rows touched", door);
}

static bool has_code(door door, uint32_t code)
{
    return door == door_at ? code <= 5 : code <= 6 && code != 2 && code != 3;
}

static void show_card(const char *who, second_card answer)
{
    printf("%-7s code %" PRIu32 " used %" PRIu32 " left %" PRId64 " time %" PRIu64 "\n", who, answer.code, answer.used,
           answer.left, answer.time);
}

static void compare_cards(second_card mine, second_card other)
{
    if (mine.code == other.code && mine.used == other.used && mine.left == other.left && mine.time == other.time)
        return;
    show_card("second", mine);
    show_card("archive", other);
    differ("answer", door_at);
}

second_card call_at(uint32_t count)
{
    calls += 1;
    asked[0] = count;
    second_card mine = second_card_at(ours.text, lent_length, count);
    lyre_card other = lyre_card_at(theirs.text, lent_length, count);
    compare_cards(mine, (second_card){other.code, other.used, other.left, other.time});
    expect(has_code(door_at, mine.code), "a number that the door has");
    expect(mine.code == 0 || (mine.used == 0 && mine.left == 0 && mine.time == 0), "a refusal that says nothing else");
    compare_text(door_at, 0);
    met[door_at][mine.code] += 1;
    return mine;
}

static void show_text(const char *who, second_text answer)
{
    printf("%-7s code %" PRIu32 " length %" PRIu64 "\n", who, answer.code, answer.length);
}

static void compare_lengths(second_text mine, second_text other)
{
    if (mine.code == other.code && mine.length == other.length)
        return;
    show_text("second", mine);
    show_text("archive", other);
    differ("answer", door_write);
}

second_text call_write(uint32_t fitted, uint32_t allowed)
{
    calls += 1;
    asked[0] = fitted;
    asked[1] = allowed;
    second_text mine =
        second_card_write(fitted, allowed, ours.speeds, lent_speeds, ours.turns, lent_turns, ours.text, lent_length);
    lyre_text other =
        lyre_card_write(fitted, allowed, theirs.speeds, lent_speeds, theirs.turns, lent_turns, theirs.text, lent_length);
    compare_lengths(mine, (second_text){other.code, other.length});
    expect(has_code(door_write, mine.code) && mine.length <= lent_length, "a number that the door has");
    expect(mine.code == 0 || mine.length == 0, "a refusal that says nothing else");
    compare_text(door_write, mine.length);
    compare_rows(door_write);
    met[door_write][mine.code] += 1;
    return mine;
}

void count_pair(door door, uint32_t first, uint32_t other)
{
    pairs[door][first][other] += 1;
}

/* What was met. A run of few cases is not asked for much. */

static void print_codes(void)
{
    printf("%-9s%9s%9s\n", "code", door_names[door_at], door_names[door_write]);
    for (uint32_t code = 0; code < codes; code++) {
        printf("%-9" PRIu32, code);
        for (int each = 0; each < doors; each++)
            print_times(has_code((door)each, code), met[each][code], cases / 500);
        printf("\n");
    }
}

static void print_pairs(door door)
{
    printf("%s, with another refusal that is tested later\n%-9s", door_names[door], "code");
    for (size_t other = 0; other < refusals; other++)
        printf("%9" PRIu32, order[other]);
    printf("\n");
    for (size_t first = 0; first + 1 < refusals; first++) {
        if (!has_code(door, order[first]) || order[first] == 3) /* 3 is the last of its door */
            continue;
        printf("%-9" PRIu32, order[first]);
        for (size_t other = 0; other < refusals; other++)
            print_times(first < other && has_code(door, order[other]), pairs[door][order[first]][order[other]], cases / 2000);
        printf("\n");
    }
}

void print_met(void)
{
    print_codes();
    print_pairs(door_at);
    print_pairs(door_write);
    end_if_seldom();
}
