/* Compares the second maker's trays with those of the archive, call by call: the answer, every entry of both rows, every byte of the
   tray, and the guards around what is lent. Each entry is held as well to what reading its image alone gives. Use: traycompare SEED
   COUNT [FIRST]; see run.c. */

#include "traycompare.h"

#include <inttypes.h>
#include <stdio.h>
#include <stdlib.h>
#include <string.h>

#include "../include/lyre.h"
#include "second.h"

enum { entry_codes = 7, in_one_tray = 5, number_size = sizeof(uint32_t) };
enum { row_room = (guard + shifts + guard) / number_size + longest_row };

typedef struct {
    uint8_t tray_room[guard + shifts + largest_tray + guard];
    uint32_t counts_room[row_room], codes_room[row_room];
    uint8_t *tray;
    uint32_t *counts, *codes;
} side;

static side ours, theirs;
static tray_call asked;
static uint8_t tray_before[largest_tray];
static uint32_t counts_before[longest_row], codes_before[longest_row];

const char program[] = "traycompare";

/* What was met: entries of each code, trays with so many different codes, rows that end with the images or go on past them, and
   refusals by reason: for it alone, for others as well, and where reading an image would be refused 1. */
enum { alone, with_others, before_1, ways };
static const char *const way_names[ways] = {"alone", "others", "before 1"};
static const char *const reason_names[reasons] = {
    "image length 0", "empty tray", "no whole number", "more than 64 images", "too few counts", "too few codes",
};
static uint64_t met[entry_codes], different[in_one_tray + 1], rows_ending, rows_going_on, refused[reasons][ways];

static void lend_side(side *side, size_t shift)
{
    side->tray = lend_bytes(side->tray_room, shift, tray_before, asked.length);
    /* Numbers are aligned as they ask for, and no better. */
    side->counts = lend_bytes(side->counts_room, shift * number_size % shifts, counts_before, asked.counts_n * number_size);
    side->codes = lend_bytes(side->codes_room, shift / number_size * number_size, codes_before, asked.codes_n * number_size);
}

static void lend_both(tray_call call, const uint8_t *tray, const uint32_t *counts, const uint32_t *codes)
{
    asked = call;
    memcpy(tray_before, tray, call.length);
    memcpy(counts_before, counts, call.counts_n * number_size);
    memcpy(codes_before, codes, call.codes_n * number_size);
    lend_side(&ours, 0);
    lend_side(&theirs, (call.length + call.counts_n) % shifts);
}

static bool side_whole(const side *side)
{
    return guards_whole(side->tray, asked.length) && guards_whole(side->counts, asked.counts_n * number_size) &&
           guards_whole(side->codes, asked.codes_n * number_size);
}

static bool tray_kept(const side *side)
{
    return memcmp(side->tray, tray_before, asked.length) == 0;
}

/* Whether two rows of a length are the same from an entry on. */
static bool same_from(size_t entry, const uint32_t *one, const uint32_t *other, size_t length)
{
    return memcmp(one + entry, other + entry, (length - entry) * number_size) == 0;
}

static bool rows_kept(const side *side, size_t from)
{
    return same_from(from, side->counts, counts_before, asked.counts_n) && same_from(from, side->codes, codes_before, asked.codes_n);
}

const uint32_t *counts_now(void)
{
    return ours.counts;
}

const uint32_t *codes_now(void)
{
    return ours.codes;
}

static void print_row(const char *what, const uint32_t *before, const uint32_t *mine, const uint32_t *other, size_t number)
{
    printf("%s before, %zu:", what, number);
    for (size_t i = 0; i < number; i++)
        printf(" %" PRIu32, before[i]);
    printf("\n");
    for (size_t i = 0; i < number; i++)
        if (mine[i] != other[i])
            printf("%s %zu: second %" PRIu32 ", archive %" PRIu32 "\n", what, i, mine[i], other[i]);
}

/* Everything needed to see the call again without this program. */
static void differ(const char *what)
{
    printf("DIFFERENCE: %s, call %" PRIu64 "\n", what, calls);
    where();
    printf("length %zu each %zu m %zu s %zu e %zu\n", asked.length, asked.each, asked.m, asked.s, asked.e);
    print_row("counts", counts_before, ours.counts, theirs.counts, asked.counts_n);
    print_row("codes", codes_before, ours.codes, theirs.codes, asked.codes_n);
    printf("tray before, with a line for each image:\n");
    for (size_t i = 0; i < asked.length; i++)
        printf("%02X%s", tray_before[i], asked.each != 0 && (i + 1) % asked.each == 0 ? "\n" : " ");
    printf("\n");
    exit(1);
}

static void compare_lent(void)
{
    if (!side_whole(&ours) || !side_whole(&theirs))
        differ("a write outside what was lent");
    if (!tray_kept(&ours) || !tray_kept(&theirs))
        differ("tray touched");
    if (!same_from(0, ours.counts, theirs.counts, asked.counts_n))
        differ("counts");
    if (!same_from(0, ours.codes, theirs.codes, asked.codes_n))
        differ("codes");
}

/* The code of an entry, which is that of both makers' reads of its image alone, as is the count. */
static uint32_t entry_code(size_t entry)
{
    const uint8_t *image = tray_before + entry * asked.each;
    const uint32_t count = theirs.counts[entry], code = theirs.codes[entry];
    second_answer mine = second_read(image, asked.each, asked.m, asked.s, asked.e).answer;
    lyre_read_answer other = lyre_read(image, asked.each, asked.m, asked.s, asked.e);
    expect(count == mine.count && code == mine.code, "an entry is what the second maker reads of that image alone");
    expect(count == other.count && code == other.code, "an entry is what the archive reads of that image alone");
    expect(code < entry_codes && (code == 0 || count == 0), "a number that a read has, with no count unless it is 0");
    return code;
}

static void compare_entries(void)
{
    const size_t images = asked.length / asked.each;
    bool in_it[entry_codes] = {false};
    size_t codes_in_it = 0;
    for (size_t i = 0; i < images; i++) {
        const uint32_t code = entry_code(i);
        met[code] += 1;
        codes_in_it += !in_it[code];
        in_it[code] = true;
    }
    expect(codes_in_it <= in_one_tray, "1 and 2 are told of every image or of none");
    different[codes_in_it] += 1;
    expect(rows_kept(&theirs, images), "entries past the images stay as they were");
    rows_ending += (asked.counts_n == images) + (asked.codes_n == images);
    rows_going_on += (asked.counts_n > images) + (asked.codes_n > images);
}

static void count_refusal(unsigned why)
{
    for (int each = 0; each < reasons; each++) {
        if ((why >> each & 1) == 0)
            continue;
        refused[each][why == 1u << each ? alone : with_others] += 1;
        refused[each][before_1] += asked.each < 41 || asked.each > 4096;
    }
}

void call_tray(tray_call call, const uint8_t *tray, const uint32_t *counts, const uint32_t *codes, unsigned why)
{
    calls += 1;
    lend_both(call, tray, counts, codes);
    uint32_t mine = second_tray(ours.tray, call.length, call.each, call.m, call.s, call.e, ours.counts, call.counts_n, ours.codes,
                                call.codes_n);
    uint32_t other = lyre_tray(theirs.tray, call.length, call.each, call.m, call.s, call.e, theirs.counts, call.counts_n,
                               theirs.codes, call.codes_n);
    if (mine != other) {
        printf("second %" PRIu32 ", archive %" PRIu32 "\n", mine, other);
        differ("answer");
    }
    compare_lent();
    expect(mine == (why == 0 ? 0 : 12), "0, or 12 where there is a reason to refuse");
    if (why == 0) {
        compare_entries();
        return;
    }
    expect(rows_kept(&theirs, 0), "a refusal leaves both rows as they were");
    count_refusal(why);
}

/* What was met. A run of few cases is not asked for much. */
void print_met(void)
{
    printf("%-24s", "code of an entry");
    for (int code = 0; code < entry_codes; code++)
        printf("%9d", code);
    printf("\n%-24s", "");
    for (int code = 0; code < entry_codes; code++)
        print_times(true, met[code], cases / 10);
    printf("\n%-24s", "codes in one tray");
    for (int number = 1; number <= in_one_tray; number++)
        printf("%9d", number);
    printf("\n%-24s", "");
    for (int number = 1; number <= in_one_tray; number++)
        print_times(true, different[number], cases / 100);
    printf("\n%-24s", "rows end or go on");
    print_times(true, rows_ending, cases / 10);
    print_times(true, rows_going_on, cases / 10);
    printf("\n%-24s", "refused 12");
    for (int each = 0; each < ways; each++)
        printf("%9s", way_names[each]);
    printf("\n");
    for (int each = 0; each < reasons; each++) {
        printf("%-24s", reason_names[each]);
        for (int how = 0; how < ways; how++)
            print_times(true, refused[each][how], cases / 500);
        printf("\n");
    }
    end_if_seldom();
}
