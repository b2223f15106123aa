/* Compares the second maker with the archive, call by call: the answer, every cell and every life, and the guards around what
   is lent. Use: compare SEED COUNT [FIRST]; see run.c. The calls of document 02, P6, are made by cutcompare.c. */

#include "compare.h"

#include <inttypes.h>
#include <stdio.h>
#include <stdlib.h>
#include <string.h>

#include "../include/lyre.h"

enum { codes_counted = 17 };

side ours, theirs;
places lent;
char asked[asked_room];
static uint8_t image_before[largest];
static uint32_t lives_before[largest];

static const char *const door_names[doors] = {"open", "read", "step", "map part", "trial open", "trial step"};
static uint64_t met[doors][codes_counted], reads_mended;

static void lend_side(side *side, size_t shift, const uint8_t *image, const uint32_t *lives)
{
    /* Images stand at any alignment, for bytes ask for none. */
    side->image = lend_bytes(side->room, shift, image, lent.n);
    side->lives = lend_bytes(side->lives_room, 0, lives, lent.lives_n * sizeof *lives);
}

void lend(places at, const uint8_t *image, const uint32_t *lives)
{
    lent = at;
    lend_side(&ours, 0, image, lives);
    lend_side(&theirs, (at.n + at.e) % shifts, image, lives);
}

static bool side_whole(const side *side)
{
    return guards_whole(side->image, lent.n) && guards_whole(side->lives, lent.lives_n * sizeof *side->lives);
}

uint8_t cell(size_t address)
{
    return ours.image[address];
}

uint32_t life(size_t address)
{
    return ours.lives[address];
}

void set_cell(size_t address, uint8_t byte)
{
    ours.image[address] = theirs.image[address] = byte;
}

void set_life(size_t address, uint32_t life)
{
    ours.lives[address] = theirs.lives[address] = life;
}

static void show(const char *who, second_answer answer)
{
    printf("%-7s code %" PRIu32 " count %" PRIu32 " lag %" PRId64 " place %" PRIu64 " writes %" PRIu64 " tried %" PRIu64 "\n",
           who, answer.code, answer.count, answer.lag, answer.place, answer.writes, answer.tried);
}

/* Everything needed to see the call again without this program. */
static void differ(const char *what, door door)
{
    printf("DIFFERENCE: %s at the door %s, call %" PRIu64 "\n", what, door_names[door], calls);
    where();
    printf("n %zu lives_n %zu m %zu s %zu e %zu%s\n", lent.n, lent.lives_n, lent.m, lent.s, lent.e,
           door == door_trial_open || door == door_trial_step ? asked : "");
    printf("cells before, life in brackets where a cell has one:\n");
    for (size_t i = 0; i < lent.n; i++) {
        printf("%s%02X", i % 16 == 0 ? "\n" : " ", image_before[i]);
        if (i < lent.lives_n)
            printf("(%" PRIu32 ")", lives_before[i]);
    }
    printf("\n");
    for (size_t i = 0; i < lent.n; i++)
        if (ours.image[i] != theirs.image[i])
            printf("cell %zu: before %02X, second %02X, archive %02X\n", i, image_before[i], ours.image[i], theirs.image[i]);
    for (size_t i = 0; i < lent.lives_n; i++)
        if (ours.lives[i] != theirs.lives[i])
            printf("life %zu: before %" PRIu32 ", second %" PRIu32 ", archive %" PRIu32 "\n", i, lives_before[i], ours.lives[i],
                   theirs.lives[i]);
    exit(1);
}

void remember(void)
{
    calls += 1;
    memcpy(image_before, ours.image, lent.n);
    memcpy(lives_before, ours.lives, lent.lives_n * sizeof *lives_before);
}

void compare_chips(door door, uint32_t code)
{
    met[door][code < codes_counted ? code : codes_counted - 1] += 1;
    if (!side_whole(&ours) || !side_whole(&theirs))
        differ("a write outside what was lent", door);
    if (memcmp(ours.image, theirs.image, lent.n) != 0)
        differ("cells", door);
    if (memcmp(ours.lives, theirs.lives, lent.lives_n * sizeof *ours.lives) != 0)
        differ("lives", door);
    bool untouched = door == door_read || door == door_map_part || (code != 0 && code != 8 && code != 9 && code != 11);
    if (untouched && (memcmp(image_before, theirs.image, lent.n) != 0 ||
                      memcmp(lives_before, theirs.lives, lent.lives_n * sizeof *lives_before) != 0))
        differ("cells or lives touched", door);
}

void compare_answers(door door, second_answer mine, second_answer other)
{
    if (mine.code == other.code && mine.count == other.count && mine.lag == other.lag && mine.place == other.place &&
        mine.writes == other.writes && mine.tried == other.tried)
        return;
    show("second", mine);
    show("archive", other);
    differ("answer", door);
}

second_read_answer call_read(void)
{
    remember();
    second_read_answer mine = second_read(ours.image, lent.n, lent.m, lent.s, lent.e);
    lyre_read_answer other = lyre_read(theirs.image, lent.n, lent.m, lent.s, lent.e);
    compare_answers(door_read, mine.answer, ANSWER(other));
    uint32_t mended = 0;
    for (int bit = 0; bit < 8; bit++) {
        mended += mine.bit[bit];
        if (mine.bit[bit] == other.bit[bit])
            continue;
        printf("bit %d: second %" PRIu32 ", archive %" PRIu32 "\n", bit, mine.bit[bit], other.bit[bit]);
        differ("counts of mended bits", door_read);
    }
    reads_mended += mended != 0;
    compare_chips(door_read, mine.answer.code);
    return mine;
}

second_answer call(door door)
{
    if (door == door_read)
        return call_read().answer;
    second_answer mine;
    lyre_answer other;
    remember();
    if (door == door_open) {
        mine = second_open(ours.image, lent.n, ours.lives, lent.lives_n, lent.m, lent.s, lent.e);
        other = lyre_open(theirs.image, lent.n, theirs.lives, lent.lives_n, lent.m, lent.s, lent.e);
    } else {
        mine = second_step(ours.image, lent.n, ours.lives, lent.lives_n, lent.m, lent.s, lent.e);
        other = lyre_step(theirs.image, lent.n, theirs.lives, lent.lives_n, lent.m, lent.s, lent.e);
    }
    compare_answers(door, mine, ANSWER(other));
    compare_chips(door, mine.code);
    return mine;
}

second_part call_map_part(uint32_t copy)
{
    remember();
    second_part mine = second_map_part(ours.image, lent.n, lent.m, lent.s, lent.e, copy);
    lyre_part other = lyre_map_part(theirs.image, lent.n, lent.m, lent.s, lent.e, copy);
    if (mine.code != other.code || mine.start != other.start || mine.length != other.length) {
        printf("copy %" PRIu32 "\n", copy);
        printf("second  code %" PRIu32 " start %" PRIu64 " length %" PRIu64 "\n", mine.code, mine.start, mine.length);
        printf("archive code %" PRIu32 " start %" PRIu64 " length %" PRIu64 "\n", other.code, other.start, other.length);
        differ("part", door_map_part);
    }
    compare_chips(door_map_part, mine.code);
    return mine;
}

static bool was_called(int door)
{
    uint64_t all = 0;
    for (int code = 0; code < codes_counted; code++)
        all += met[door][code];
    return all != 0;
}

void print_codes(void)
{
    printf("%-9s", "code");
    for (int each = 0; each < doors; each++)
        if (was_called(each))
            printf("%12s", door_names[each]);
    printf("\n");
    for (int code = 0; code < codes_counted; code++) {
        uint64_t all = 0;
        for (int each = 0; each < doors; each++)
            all += met[each][code];
        if (all == 0)
            continue;
        printf("%-9d", code);
        for (int each = 0; each < doors; each++)
            if (was_called(each))
                printf("%12" PRIu64, met[each][code]);
        printf("\n");
    }
    printf("reads with a mended cell: %" PRIu64 "\n", reads_mended);
}
