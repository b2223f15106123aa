/* Prints the table of instructions per byte of Intel HEX text, the archive beside fasthex.c, on the same images and texts in one
   run. What they answer and fill is compared on the way. Ends with 1 where the archive takes more of fasthex.c's than it may in a row
   that is held. */

#include <inttypes.h>
#include <stdbool.h>
#include <stdio.h>
#include <stdlib.h>
#include <string.h>

#include "count.h"
#include "fasthex.h"

typedef enum { writing, reading, refusing } task;

/* What the archive may take of the C's, in hundredths, and nothing where a row is shown alone. Where cells are laid, Rattle's
   compiler clears them before they are filled. */
enum { shown = 0, held = 100, cleared = 103 };

/* The rows, and which of them are held. That a byte of a long text costs no more than one of a short text is seen from one N to
   the next. */
static const struct {
    task task;
    size_t n, each; /* bytes of the image, and of a record */
    unsigned percent;
} rows[] = {
    {writing, 64, 16, held},
    {writing, 129, 16, held},
    {writing, 256, 16, held},
    {writing, 1024, 16, held},
    {writing, 4096, 16, held},
    {reading, 64, 1, shown},
    {reading, 129, 1, shown},
    {reading, 256, 1, shown},
    {reading, 1024, 1, shown},
    {reading, 4096, 1, shown},
    {reading, 64, 16, shown},
    {reading, 129, 16, cleared},
    {reading, 256, 16, cleared},
    {reading, 1024, 16, cleared},
    {reading, 4096, 16, cleared},
    {reading, 64, 255, shown},
    {reading, 129, 255, cleared},
    {reading, 256, 255, cleared},
    {reading, 1024, 255, cleared},
    {reading, 4096, 255, cleared},
    {refusing, 4096, 16, held},
};

enum { largest_image = 4096, largest_text = 16 * largest_image };

/* What is written from and what is read, and what the two fill. */
static uint8_t image[largest_image], text[largest_text];
static size_t text_length;
static uint8_t theirs[largest_text], ours[largest_text];

typedef struct {
    uint64_t archive, c;
} figures;

/* Every byte is there equally often, since a digit's cost may be its own. */
static void lay_image(void)
{
    for (size_t i = 0; i < largest_image; i++)
        image[i] = (uint8_t)(37 * i + i / 256);
}

static void lay_line(unsigned type, size_t address, size_t count)
{
    unsigned sum = (unsigned)(count + address / 256 + address) + type;
    char *end = (char *)text + text_length;
    end += sprintf(end, ":%02zX%04zX%02X", count, address, type);
    for (size_t i = address; i < address + count; i++) {
        end += sprintf(end, "%02X", image[i]);
        sum += image[i];
    }
    end += sprintf(end, "%02X\n", -sum & 255);
    text_length = (size_t)(end - (char *)text);
}

static void lay_text(size_t n, size_t each)
{
    text_length = 0;
    for (size_t address = 0; address < n; address += each)
        lay_line(0, address, n - address < each ? n - address : each);
    lay_line(1, 0, 0);
}

static void expect(bool holds, lyre_hex answer)
{
    if (holds)
        return;
    printf("hexbench: not what was expected, code %" PRIu32 ", line %" PRIu64 ", length %" PRIu64 "\n", answer.code, answer.line,
           answer.length);
    exit(1);
}

/* Calls both doors, each with what it is to fill, and gives the answer, which has to be that of both. */
static figures call_both(hex_door *archive, hex_door *c, const uint8_t *from, size_t length, size_t room, lyre_hex *answer)
{
    lyre_hex other;
    figures taken;
    memset(theirs, 0, sizeof theirs);
    memset(ours, 0, sizeof ours);
    taken.archive = count_hex(archive, from, length, theirs, room, answer);
    taken.c = count_hex(c, from, length, ours, room, &other);
    expect(answer->code == other.code && answer->line == other.line && answer->length == other.length, *answer);
    expect(memcmp(theirs, ours, sizeof ours) == 0, *answer);
    return taken;
}

static figures write_both(size_t n)
{
    lyre_hex answer;
    figures taken = call_both(lyre_hex_write, fast_hex_write, image, n, sizeof ours, &answer);
    expect(answer.code == 0 && answer.length == text_length && memcmp(ours, text, text_length) == 0, answer);
    return taken;
}

static figures read_both(size_t n)
{
    lyre_hex answer;
    figures taken = call_both(lyre_hex_read, fast_hex_read, text, text_length, n, &answer);
    expect(answer.code == 0 && memcmp(ours, image, n) == 0, answer);
    return taken;
}

/* The checksum of the end record is wrong. */
static figures refuse_both(size_t n)
{
    lyre_hex answer;
    text[text_length - 2] = 'E';
    figures taken = call_both(lyre_hex_read, fast_hex_read, text, text_length, n, &answer);
    expect(answer.code == 2, answer);
    return taken;
}

/* Totals are compared, since a ratio printed as 1.00 may be above it. */
static bool print_row(const char *name, figures taken, unsigned percent)
{
    printf("%-44s %7zu %10.2f %10.2f %8.2f\n", name, text_length, (double)taken.archive / (double)text_length,
           (double)taken.c / (double)text_length, (double)taken.archive / (double)taken.c);
    fflush(stdout);
    if (percent == shown || 100 * taken.archive <= percent * taken.c)
        return true;
    printf("hexbench: in this row the archive takes %" PRIu64 " instructions, and may take no more than %" PRIu64 "\n",
           taken.archive, percent * taken.c / 100);
    return false;
}

int main(void)
{
    static figures (*const both[])(size_t n) = {write_both, read_both, refuse_both};
    static const char *const forms[] = {"write, N %zu, records of %zu", "read, N %zu, records of %zu",
                                        "read, N %zu, records of %zu, end refused"};
    int status = 0;
    count_begin();
    lay_image();
    printf("%-44s %7s %10s %10s %8s\n", "Intel HEX, instructions per byte of text", "bytes", "archive", "C -O2", "ratio");
    for (size_t i = 0; i < sizeof rows / sizeof *rows; i++) {
        char name[60];
        snprintf(name, sizeof name, forms[rows[i].task], rows[i].n, rows[i].each);
        lay_text(rows[i].n, rows[i].each);
        if (!print_row(name, both[rows[i].task](rows[i].n), rows[i].percent))
            status = 1;
    }
    return status;
}
