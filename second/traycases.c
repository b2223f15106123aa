/* Random trays. A case is a tray of random chips of one setting, two rows with anything in them, and a call. As often as not there is
   a reason to refuse it, or two, so that the answer is known; what the entries have to be is known from reading each image alone. */

#include "chips.h"
#include "traycompare.h"

#include <string.h>

static uint8_t tray[largest_tray];
static uint32_t counts_there[longest_row], codes_there[longest_row];

/* A tray without an image and images without a length have no other reasons but these two, and images of one byte leave no rest. */
static unsigned draw_reasons(size_t each)
{
    static const unsigned others[] = {a_rest, too_many, short_counts, short_codes};
    if (each == 0)
        return no_length | no_image;
    if (chance(50))
        return 0;
    if (chance(30))
        return chance(25) ? no_length | no_image : chance(50) ? no_length : no_image;
    unsigned why = others[below(4)];
    if (chance(35))
        why |= others[below(4)];
    return each == 1 ? why & ~(unsigned)a_rest : why;
}

static places draw_settings(void)
{
    places at = good;
    size_t kind = below(100);
    if (kind < 8)
        return spoil(good);
    if (kind < 17) /* every image is refused 1 */
        at.n = between(1, chance(60) ? 4 : 40);
    return at;
}

/* Too many by up to 64, or as many as a number of one byte or of two would take for 1 to 64. */
static size_t draw_too_many(size_t each)
{
    static const size_t more[] = {most_images, 256, 65536, 65536};
    size_t images = chance(30) ? most_images + 1 : more[below(4)] + between(1, most_images);
    return (images + 1) * each <= largest_tray ? images : most_images + 1;
}

/* Whole images; few as a rule, since many take long to be read. */
static size_t draw_images(unsigned why, size_t each)
{
    size_t kind = below(100);
    if (why & too_many)
        return draw_too_many(each);
    if (why & no_image || (why & a_rest && chance(15)))
        return 0;
    return kind < 20 ? 1 : kind < 70 ? between(2, 7) : kind < 85 ? between(8, 20) : kind < 95 ? between(63, 64) : between(21, 62);
}

/* Less than an image. */
static size_t draw_rest(size_t each)
{
    return chance(35) ? 1 : chance(50) ? each - 1 : between(1, each - 1);
}

/* For no image no row is too short; for more than the longest row has entries both are. */
static unsigned fit_rows(unsigned why, size_t images)
{
    const unsigned both = short_counts | short_codes;
    return images == 0 ? why & ~both : images > longest_row ? why | both : why;
}

static size_t draw_row_length(size_t images, bool too_short)
{
    if (too_short)
        return smaller(longest_row, chance(60) ? images - 1 : below(images));
    return smaller(longest_row, images + (chance(40) ? 0 : chance(40) ? 1 : between(2, chance(90) ? most_images : longest_row)));
}

static void fill_row(uint32_t *row, size_t number)
{
    bool with_little = chance(20);
    for (size_t i = 0; i < number; i++)
        row[i] = with_little ? (uint32_t)below(8) : (uint32_t)draw();
}

static void ask(tray_call call, unsigned why)
{
    fill_row(counts_there, call.counts_n);
    fill_row(codes_there, call.codes_n);
    call_tray(call, tray, counts_there, codes_there, why);
}

/* The first is the chip that was drawn. Where the tray is not to be read, few have to be different. */
static void lay_images(size_t images, size_t each, bool to_be_read)
{
    for (size_t i = 0; i < images; i++) {
        if (i > 0 && (to_be_read || i < 3))
            draw_cells();
        memcpy(tray + i * each, image, each);
    }
}

static void ask_of_chips(void)
{
    draw_chip();
    const places at = draw_settings();
    unsigned why = draw_reasons(at.n);
    const size_t images = draw_images(why, at.n);
    why = fit_rows(why, images);
    lay_images(images, at.n, why == 0);
    const size_t rest = why & a_rest ? draw_rest(at.n) : 0;
    memcpy(tray + images * at.n, image, rest);
    ask((tray_call){.length = images * at.n + rest, .each = why & no_length ? 0 : at.n, .m = at.m, .s = at.s, .e = at.e,
                    .counts_n = draw_row_length(images, why & short_counts), .codes_n = draw_row_length(images, why & short_codes)},
        why);
}

/* An image length near the type's top, or one that is that of the chip in 32 bits. */
static size_t draw_far(void)
{
    switch (below(3)) {
    case 0:
        return SIZE_MAX - below(3);
    case 1:
        return SIZE_MAX / 2 + below(3);
    default:
        return ((size_t)1 << between(32, 63)) + good.n;
    }
}

/* Rows are long enough for any number. */
static void ask_of_far(void)
{
    draw_chip();
    size_t images = between(2, most_images), each, length;
    if (chance(50)) { /* so many of these images have this length, but for what passes the type's top */
        each = SIZE_MAX / images + 1 + below(chance(50) ? 2 : 4096);
        length = images * each;
        memset(tray, 0xFF, length);
    } else {
        each = draw_far();
        length = below(4) * good.n;
        lay_images(length / good.n, good.n, false);
    }
    ask((tray_call){.length = length, .each = each, .m = good.m, .s = good.s, .e = good.e,
                    .counts_n = draw_row_length(most_images, false), .codes_n = draw_row_length(most_images, false)},
        length == 0 ? no_image : a_rest);
}

void random_case(void)
{
    if (chance(4))
        ask_of_far();
    else
        ask_of_chips();
}
