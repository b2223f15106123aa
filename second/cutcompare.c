/* Compares the second maker's trials of document 02, P6, with those of the archive, call by call, as compare.c does with the plain
   doors. Use: cutcompare SEED COUNT [FIRST]; see run.c. */

#include "cutcompare.h"

#include <inttypes.h>
#include <stdio.h>
#include <string.h>

#include "../include/lyre.h"

const char program[] = "cutcompare";

void keep(kept *chip)
{
    chip->at = lent;
    memcpy(chip->image, ours.image, lent.n);
    memcpy(chip->lives, ours.lives, lent.lives_n * sizeof *chip->lives);
}

void go_back(const kept *chip)
{
    lend(chip->at, chip->image, chip->lives);
}

bool is_as(const kept *chip)
{
    return memcmp(chip->image, ours.image, lent.n) == 0 &&
           memcmp(chip->lives, ours.lives, lent.lives_n * sizeof *chip->lives) == 0;
}

bool same_answer(second_answer one, second_answer other)
{
    return one.code == other.code && one.count == other.count && one.lag == other.lag && one.place == other.place &&
           one.writes == other.writes && one.tried == other.tried;
}

/* Where a write can be torn. The first three are in a chip that has its mark. */
typedef enum { data_cell, spare, moved_pointer, first_address, first_pointer, mark_byte, kinds } kind;

static const char *const kind_names[kinds] = {
    "data cell at its pointer", "spare in a move", "pointer byte in a move",
    "first opening, address",   "first opening, pointer", "mark",
};

/* What a read gives after the cut: the count that was there, which is 0 in a first opening, the next, or any other. */
typedef enum { read_same, read_next, read_other, read_refused, reads } after;

static uint64_t torn_in_open[kinds], torn_in_step[kinds], torn_worn[kinds], then_read[kinds][reads];

/* Whether a pointer of the map names the cell. */
static bool is_pointed_at(size_t address)
{
    for (size_t first = lent.m + 2; first <= lent.m + 13; first += 11) {
        for (size_t low = first; low < first + 6; low += 2)
            if (cell(low) + 256 * (size_t)cell(low + 1) == address)
                return true;
        for (size_t high = first + 6; high < first + 11; high++)
            if (cell(high) == address)
                return true;
    }
    return false;
}

static kind kind_of(size_t address, bool was_marked)
{
    if (address == lent.m || address == lent.m + 1)
        return mark_byte;
    if (address > lent.m && address < lent.m + 24)
        return was_marked ? moved_pointer : first_pointer;
    if (!was_marked)
        return first_address;
    /* The map is as it was when the cell was asked for. */
    return is_pointed_at(address) ? data_cell : spare;
}

static after after_of(second_answer read, uint32_t before)
{
    if (read.code != 0)
        return read_refused;
    return read.count == before ? read_same : (int64_t)read.count - before == 1 ? read_next : read_other;
}

second_answer cut(door plain, size_t power, uint8_t torn)
{
    static uint32_t lives_before[largest];
    const door door = plain == door_open ? door_trial_open : door_trial_step;
    const places at = lent;
    second_answer mine;
    lyre_answer other;
    const second_answer read_before = second_read(ours.image, at.n, at.m, at.s, at.e).answer;
    memcpy(lives_before, ours.lives, at.lives_n * sizeof *lives_before);
    remember();
    snprintf(asked, sizeof asked, " power %zu torn %02X", power, torn);
    if (plain == door_open) {
        mine = second_trial_open(ours.image, at.n, ours.lives, at.lives_n, at.m, at.s, at.e, power, torn);
        other = lyre_trial_open(theirs.image, at.n, theirs.lives, at.lives_n, at.m, at.s, at.e, power, torn);
    } else {
        mine = second_trial_step(ours.image, at.n, ours.lives, at.lives_n, at.m, at.s, at.e, power, torn);
        other = lyre_trial_step(theirs.image, at.n, theirs.lives, at.lives_n, at.m, at.s, at.e, power, torn);
    }
    compare_answers(door, mine, ANSWER(other));
    compare_chips(door, mine.code);
    if (mine.code != 11)
        return mine;
    expect(mine.count == 0 && mine.lag == 0 && mine.writes == 0 && mine.tried == 0, "refusal 11 says where and no more");
    const bool was_marked = read_before.code != 3;
    const kind torn_at = kind_of(mine.place, was_marked);
    (plain == door_open ? torn_in_open : torn_in_step)[torn_at] += 1;
    torn_worn[torn_at] += lives_before[mine.place] == 0;
    then_read[torn_at][after_of(call(door_read), read_before.count)] += 1;
    return mine;
}

/* What was met. A run of few cases is not asked for much. */
void print_met(void)
{
    print_codes();
    printf("%-26s%9s%9s%9s   read then:%7s%9s%9s%9s\n", "torn", "open", "step", "worn", "same", "next", "another", "refused");
    for (int each = 0; each < kinds; each++) {
        bool in_step = each == data_cell || each == spare || each == moved_pointer;
        printf("%-26s", kind_names[each]);
        print_times(true, torn_in_open[each], cases / 500);
        print_times(in_step, torn_in_step[each], cases / 500);
        print_times(true, torn_worn[each], cases / 50000);
        printf("%20" PRIu64, then_read[each][0]);
        for (int found = 1; found < reads; found++)
            printf("%9" PRIu64, then_read[each][found]);
        printf("\n");
    }
    end_if_seldom();
}
