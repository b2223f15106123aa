/* Prints the table of instructions per call, the archive beside fast.c, on the same chips in one run. Use: bench STEPS, where
   STEPS is 4096 for the figures of record. Answers, cells and lives are compared on the way. Ends with 1 where the archive takes
   more than fast.c in one of the usual calls: a step, a read, an open of what was opened before, a tray. It also does where the
   archive's work on a clean chip is uneven, and where a tray takes it more than its own reads of the images, or of one image eight in
   a hundred more. */

#include <inttypes.h>
#include <stdio.h>
#include <stdlib.h>
#include <string.h>

#include "count.h"
#include "fast.h"

enum { largest = 4096 };

typedef struct {
    uint8_t image[largest];
    uint32_t lives[largest];
} chip;

static chip theirs, ours;
static const places setting_a = {129, 1, 25, 128};
static int status;

typedef struct {
    uint64_t archive, c;
} figures;

/* Calls of one kind: how many, what all of them took together, and what one took at the least and at the most. */
typedef struct {
    uint64_t number;
    figures sum, least, greatest;
} calls;

/* The fields of an answer fill it, so that its bytes may be compared. */
static void same(const void *one, const void *other, size_t size, uint32_t code)
{
    if (code == 0 && memcmp(one, other, size) == 0 && memcmp(&theirs, &ours, sizeof ours) == 0)
        return;
    printf("the archive and fast.c differ, or a call was refused: the archive's code is %" PRIu32 "\n", code);
    exit(1);
}

static figures write_both(writing_door *archive, writing_door *c, places at)
{
    lyre_answer one, other;
    figures figures;
    figures.archive = count_writing(archive, theirs.image, theirs.lives, at, &one);
    figures.c = count_writing(c, ours.image, ours.lives, at, &other);
    same(&one, &other, sizeof one, one.code);
    return figures;
}

static figures open_both(places at)
{
    return write_both(lyre_open, fast_open, at);
}

static figures step_both(places at)
{
    return write_both(lyre_step, fast_step, at);
}

static figures read_both(places at)
{
    lyre_read_answer one, other;
    figures figures;
    figures.archive = count_reading(lyre_read, theirs.image, at, &one);
    figures.c = count_reading(fast_read, ours.image, at, &other);
    same(&one, &other, sizeof one, one.code);
    return figures;
}

static void lay_blank(void)
{
    memset(theirs.image, 0xFF, sizeof theirs.image);
    for (size_t i = 0; i < largest; i++)
        theirs.lives[i] = 1000000;
    ours = theirs;
}

static uint64_t lesser(uint64_t one, uint64_t other)
{
    return one < other ? one : other;
}

static uint64_t greater(uint64_t one, uint64_t other)
{
    return one > other ? one : other;
}

static void add(calls *all, figures one)
{
    if (all->number++ == 0)
        all->least = all->greatest = one;
    all->sum = (figures){all->sum.archive + one.archive, all->sum.c + one.c};
    all->least = (figures){lesser(all->least.archive, one.archive), lesser(all->least.c, one.c)};
    all->greatest = (figures){greater(all->greatest.archive, one.archive), greater(all->greatest.c, one.c)};
}

static void row(const char *name, figures sum, uint64_t number)
{
    printf("%-52s %10.1f %10.1f %8.2f\n", name, (double)sum.archive / (double)number, (double)sum.c / (double)number,
           (double)sum.archive / (double)sum.c);
    fflush(stdout);
}

/* The archive may take so many hundredths of the other figure. Sums are compared, since a ratio printed as 1.00 may be above it. */
static void held_row(const char *name, figures sum, uint64_t number, uint64_t percent)
{
    row(name, sum, number);
    if (100 * sum.archive <= percent * sum.c)
        return;
    printf("bench: in this row the archive takes %" PRIu64 " instructions, and may take no more than %" PRIu64 "\n", sum.archive,
           percent * sum.c / 100);
    status = 1;
}

static void usual_row(const char *name, figures sum, uint64_t number)
{
    held_row(name, sum, number, 100);
}

/* What comes once in the life of a chip or of a cell. */
static void rare_row(const char *name, figures sum, uint64_t number)
{
    held_row(name, sum, number, 150);
}

/* A step that changes a Low nibble takes one instruction more than one that changes a High one: pointers of two bytes are read at
   a place of their own, and from there a jump leads on. */
enum { steps_apart = 1, reads_apart = 0 };

/* The mean, the least and the greatest of calls of one door on a clean chip; the last two may be so far apart. */
static void even_rows(const char *door, const char *which, const calls *all, uint64_t apart)
{
    char name[60];
    snprintf(name, sizeof name, "%s, setting A, mean %s", door, which);
    usual_row(name, all->sum, all->number);
    snprintf(name, sizeof name, "%s, setting A, least %s", door, which);
    row(name, all->least, 1);
    snprintf(name, sizeof name, "%s, setting A, greatest %s", door, which);
    row(name, all->greatest, 1);
    if (all->greatest.archive - all->least.archive <= apart)
        return;
    printf("bench: the archive's least and greatest of these calls may be %" PRIu64 " apart at most\n", apart);
    status = 1;
}

/* A chip that holds 2 to the power k, less 1: in its Gray word bit k - 1 alone is 1. */
static void lay_before_power(unsigned k)
{
    static const uint8_t codes_of_one_bit[] = {0x07, 0x19, 0x2A, 0x34};
    lay_blank();
    open_both(setting_a);
    if (k > 0) {
        unsigned nibble = (k - 1) / 4;
        size_t first = nibble < 3 ? 128 - nibble : 22 + nibble, second = nibble < 3 ? first - 3 : first + 5;
        theirs.image[first] = theirs.image[second] = codes_of_one_bit[(k - 1) % 4];
        ours = theirs;
    }
    if (lyre_read(theirs.image, setting_a.n, setting_a.m, setting_a.s, setting_a.e).count == (UINT32_C(1) << k) - 1)
        return;
    printf("the chip before the step to 2 to the power %u is not laid\n", k);
    exit(1);
}

/* The steps that change each bit of the Gray word for the first time, over all 32 bits. */
static void power_rows(void)
{
    calls stepped = {0};
    for (unsigned k = 0; k < 32; k++) {
        lay_before_power(k);
        add(&stepped, step_both(setting_a));
    }
    even_rows("step", "of steps to powers of 2", &stepped, steps_apart);
}

/* Cells 65 to 127 are worn, so that Low cells are 128 and those from 64 down: 128 and 64 are the same modulo 64. */
static void worn_row(void)
{
    calls stepped = {0};
    lay_blank();
    for (size_t i = 65; i <= 127; i++)
        theirs.lives[i] = ours.lives[i] = 0;
    open_both(setting_a);
    for (int done = 0; done < 16; done++)
        add(&stepped, step_both(setting_a));
    row("step, setting A, pointers alike modulo 64", stepped.sum, stepped.number);
}

/* Bit 0 of copy 1's nibble 0 is wrong, and bit 6 of copy 2's nibble 7. */
static void mended_row(void)
{
    lay_blank();
    open_both(setting_a);
    theirs.image[128] ^= 0x01, theirs.image[34] ^= 0x40;
    memcpy(ours.image, theirs.image, sizeof ours.image);
    row("read, setting A, two cells mended", read_both(setting_a), 1);
}

static void setting_a_rows(uint64_t steps)
{
    calls stepped = {0}, read = {0};
    lay_blank();
    figures opened = open_both(setting_a);
    figures again = open_both(setting_a);
    for (uint64_t done = 0; done < steps; done++) {
        add(&stepped, step_both(setting_a));
        add(&read, read_both(setting_a));
    }
    char which[40];
    snprintf(which, sizeof which, "of steps 1 to %" PRIu64, steps);
    even_rows("step", which, &stepped, steps_apart);
    snprintf(which, sizeof which, "after steps 1 to %" PRIu64, steps);
    even_rows("read", which, &read, reads_apart);
    power_rows();
    rare_row("open, setting A, blank image", opened, 1);
    usual_row("open, setting A, opened before", again, 1);
    lay_blank();
    open_both(setting_a);
    theirs.lives[128] = ours.lives[128] = 0;
    rare_row("step, setting A, one cell moved", step_both(setting_a), 1);
    worn_row();
    mended_row();
}

/* The mean of the first sixteen steps, which touch the cells of two nibbles. */
static void growth_row(size_t n, size_t e)
{
    places at = {n, 1, 25, e};
    calls stepped = {0};
    lay_blank();
    open_both(at);
    for (int done = 0; done < 16; done++)
        add(&stepped, step_both(at));
    char name[60];
    snprintf(name, sizeof name, "step, N %zu, area of %zu cells", n, e - 25 + 1);
    row(name, stepped.sum, stepped.number);
}

/* What a tray may take beside reading each of its images alone, in hundredths: of one image, and of several. */
enum { percent_of_one = 111, percent_of_several = 100 };

/* Image i has been stepped i times. */
static void lay_tray(uint8_t *tray, size_t images)
{
    lay_blank();
    open_both(setting_a);
    for (size_t i = 0; i < images; i++) {
        memcpy(tray + i * setting_a.n, theirs.image, setting_a.n);
        step_both(setting_a);
    }
}

/* The tray by the archive and by fast.c. */
static figures tray_both(const uint8_t *tray, size_t images)
{
    entries one = {{0}, {0}}, other = {{0}, {0}};
    uint32_t code, code_of_c;
    figures figures;
    figures.archive = count_tray(lyre_tray, tray, images * setting_a.n, setting_a, &one, &code);
    figures.c = count_tray(fast_tray, tray, images * setting_a.n, setting_a, &other, &code_of_c);
    same(&one, &other, sizeof one, code | code_of_c);
    return figures;
}

/* What the archive's reads of these images take, one by one. */
static uint64_t reads_alone(const uint8_t *tray, size_t images)
{
    lyre_read_answer answer;
    uint64_t sum = 0;
    for (size_t i = 0; i < images; i++)
        sum += count_reading(lyre_read, tray + i * setting_a.n, setting_a, &answer);
    return sum;
}

/* Two rows a tray: the archive beside C, and the archive's tray beside its own reads. */
static void tray_rows(void)
{
    static const size_t sizes[] = {1, 8, most_images};
    static uint8_t tray[most_images * 129];
    lay_tray(tray, most_images);
    printf("%-52s %10s %10s %8s\n", "instructions per image of a tray", "archive", "other", "ratio");
    for (size_t i = 0; i < sizeof sizes / sizeof *sizes; i++) {
        const size_t images = sizes[i];
        const figures taken = tray_both(tray, images);
        char name[60];
        snprintf(name, sizeof name, "tray of %zu, setting A, beside C -O2", images);
        usual_row(name, taken, images);
        snprintf(name, sizeof name, "tray of %zu, setting A, beside the archive's reads", images);
        held_row(name, (figures){taken.archive, reads_alone(tray, images)}, images, images == 1 ? percent_of_one : percent_of_several);
    }
}

int main(int count_of_words, char **words)
{
    static const size_t sizes[] = {41, 64, 129, 256, 512, 1024, 2048, 4096};
    uint64_t steps = count_of_words == 2 ? strtoull(words[1], NULL, 10) : 0;
    if (steps == 0) {
        fprintf(stderr, "use: bench STEPS\n");
        return 2;
    }
    count_begin();
    printf("%-52s %10s %10s %8s\n", "instructions per call", "archive", "C -O2", "ratio");
    setting_a_rows(steps);
    printf("growth with N, the area as large as it can be\n");
    for (size_t i = 0; i < sizeof sizes / sizeof *sizes; i++)
        growth_row(sizes[i], sizes[i] - 1);
    printf("growth with the area, N 4096\n");
    for (size_t i = 0; i < sizeof sizes / sizeof *sizes; i++)
        growth_row(4096, sizes[i] - 1);
    tray_rows();
    return status;
}
