/* See hexlines.h. A line is kept as what it says and the damage done to it; only then is its text laid. */

#include "hexlines.h"

#include <string.h>

enum { most_data = 255, most_lines = 4120, longest_line = 1100 };

/* How a line is spoilt so that it is malformed. */
typedef enum {
    sound,
    /* in its bytes; the checksum is that of the bytes as they come to stand */
    count_off,
    byte_more,
    byte_less,
    many_bytes_more, /* 256 of them: their number is right in its lowest byte */
    /* in its characters */
    no_colon,
    other_first,
    other_character,
    character_more,
    digit_more,
    digit_less,
    cr_inside,
    cr_more,
    /* so that hardly anything else is left to be wrong */
    too_short,
    colon_alone,
    blank,
} form;

typedef struct {
    size_t address, count;
    uint8_t type;
    uint8_t data[most_data];
    uint8_t off; /* what is added to the right checksum */
    form form;
    unsigned damage; /* bit c is set where the line asks for refusal c */
} line;

made_text made;
static line lines[most_lines];
static size_t lines_n;
static bool left_out; /* an address, or the end record */
static bool cut;      /* the last line has no line end */

static bool asks(unsigned damage, uint32_t code)
{
    return (damage >> code & 1) != 0;
}

static unsigned asking(uint32_t code)
{
    return 1u << code;
}

/* Good lines */

void fill(uint8_t *bytes, size_t number)
{
    size_t kind = below(4);
    uint8_t same = (uint8_t)draw();
    for (size_t i = 0; i < number; i++)
        bytes[i] = kind == 0 ? same : kind == 1 && chance(80) ? 0xFF : (uint8_t)draw();
}

static size_t draw_n(void)
{
    static const size_t edges[] = {41, 42, 47, 48, 49, 64, 129, 255, 256, 257};
    size_t kind = below(100);
    if (kind < 35)
        return between(41, 60);
    if (kind < 75)
        return between(41, 300);
    if (kind < 85)
        return edges[below(10)];
    if (kind < 96)
        return between(300, 900);
    return kind < 98 ? 4096 : between(41, 4096);
}

static line data_line(size_t address, size_t count)
{
    line line = {.address = address, .count = count};
    for (size_t i = 0; i < count; i++)
        line.data[i] = address + i < made.n ? made.image[address + i] : (uint8_t)draw();
    return line;
}

static line end_line(void)
{
    return (line){.type = 1};
}

static void insert(size_t place, line line)
{
    memmove(&lines[place + 1], &lines[place], (lines_n - place) * sizeof line);
    lines[place] = line;
    lines_n += 1;
}

static void leave_out(size_t place)
{
    lines_n -= 1;
    memmove(&lines[place], &lines[place + 1], (lines_n - place) * sizeof *lines);
}

static void exchange(size_t one, size_t other)
{
    line kept = lines[one];
    lines[one] = lines[other];
    lines[other] = kept;
}

/* Rising as they are, falling or mixed. */
static void order_lines(void)
{
    size_t kind = below(100);
    if (kind < 40)
        return;
    for (size_t i = lines_n - 1; i > 0; i--)
        if (kind >= 55)
            exchange(i, below(i + 1));
        else if (i >= lines_n / 2)
            exchange(i, lines_n - 1 - i);
}

void draw_lines(void)
{
    static const size_t sizes[] = {1, 2, 8, 16, 17, 32, 100, 255, 255};
    made.n = draw_n();
    fill(made.image, made.n);
    size_t most = sizes[below(9)];
    bool all_alike = chance(50);
    lines_n = 0;
    left_out = cut = false;
    for (size_t address = 0; address < made.n;) {
        size_t count = smaller(all_alike ? most : between(1, most), made.n - address);
        insert(lines_n, data_line(address, count));
        address += count;
    }
    order_lines();
    insert(lines_n, end_line());
}

void strew_lines(void)
{
    lines_n = 0;
    cut = chance(5);
    for (size_t times = below(12); times > 0; times--) {
        size_t address = below(made.n), most = chance(70) ? 10 : 60;
        insert(lines_n, chance(94) ? data_line(address, between(1, most)) : end_line());
    }
    if (chance(60))
        insert(lines_n, end_line());
}

/* What is left out. This comes before lines are damaged, for those may rest on others that are there. */

/* Where the first good end record stands, or else behind the last line. Lines before it are judged for what they are. */
static size_t end_place(void)
{
    size_t place = 0;
    while (place < lines_n && (lines[place].type != 1 || lines[place].damage != 0))
        place++;
    return place;
}

static const size_t nowhere = SIZE_MAX;

/* Some undamaged line before `limit`. */
static size_t find_good(size_t limit)
{
    size_t first = limit == 0 ? 0 : below(limit);
    for (size_t i = 0; i < limit; i++)
        if (lines[(first + i) % limit].damage == 0)
            return (first + i) % limit;
    return nowhere;
}

static void shorten(line *line, bool in_front)
{
    line->count -= 1;
    if (in_front) {
        line->address += 1;
        memmove(line->data, line->data + 1, line->count);
    }
}

static void leave_something_out(void)
{
    size_t end = end_place(), place = find_good(end), kind = below(100);
    left_out = true;
    if (kind < 3)
        lines_n = 0;
    else if (kind < 40)
        leave_out(end);
    else if (kind < 70 || lines[place].count == 1)
        leave_out(place);
    else
        shorten(&lines[place], chance(50));
}

/* Damaged lines */

/* A line, and where it goes: in the place of another, or before it as one more. */
typedef struct {
    line line;
    size_t place;
    bool one_more;
} placed;

/* The undamaged data line before `limit` that gives the last address. */
static size_t find_last_address(size_t limit)
{
    for (size_t i = 0; i < limit; i++)
        if (lines[i].damage == 0 && lines[i].type == 0 && lines[i].address + lines[i].count == made.n)
            return i;
    return nowhere;
}

/* Past the image, by one or by far; up to the highest address and past it. */
static line line_past(void)
{
    size_t n = made.n;
    size_t count = between(1, chance(50) ? 4 : most_data);
    size_t inside = smaller(count - 1, n);
    switch (below(7)) {
    case 0:
        return data_line(n - 1, 2);
    case 1: /* one address is outside */
        return data_line(n - inside, inside + 1);
    case 2:
        return data_line(n, count);
    case 3:
        return data_line(0x10000 - count, count);
    case 4: /* it would come round to address 0 */
        return data_line(0xFFFF - below(count), count);
    case 5: /* often an address of the image but for its upper bits */
        return data_line(4096 + below(15 * 4096), count);
    default:
        return data_line(between(n, 0xFFFF), count);
    }
}

static placed draw_past(size_t end)
{
    size_t last = find_last_address(end);
    bool longer = last != nowhere && lines[last].count < most_data && chance(30);
    if (longer) /* the last record, by one byte */
        return (placed){data_line(lines[last].address, lines[last].count + 1), last, false};
    size_t place = between(0, end);
    return (placed){line_past(), place, true};
}

/* Has at least one address of an earlier line, and stays in the image. */
static line line_over(const line *earlier)
{
    size_t n = made.n;
    size_t shared = earlier->address + below(earlier->count);
    size_t first = shared, last = shared;
    switch (below(5)) {
    case 0:
        break;
    case 1: /* the same again */
        first = earlier->address;
        last = first + earlier->count - 1;
        break;
    case 2: /* ends in its first address */
        last = earlier->address;
        first = last - below(smaller(last, most_data - 1) + 1);
        break;
    case 3: /* starts in its last */
        first = earlier->address + earlier->count - 1;
        last = first + below(smaller(n - first, most_data));
        break;
    default:
        first = shared - below(smaller(shared, 20) + 1);
        last = shared + below(smaller(n - shared, 20));
    }
    line line = data_line(first, last - first + 1);
    if (chance(40))
        line.data[0] ^= (uint8_t)(1u << below(8));
    return line;
}

/* Starts in the line that gives the last address, and goes on past the image. */
static line line_over_and_past(const line *earlier)
{
    size_t n = made.n;
    size_t near = n - smaller(n, most_data - 1); /* no record reaches past the image from before this */
    size_t lowest = earlier->address > near ? earlier->address : near;
    size_t first = chance(40) ? n - 1 : between(lowest, n - 1);
    size_t least = n - first + 1;
    return data_line(first, chance(60) ? least : between(least, most_data));
}

/* Behind the earlier line, or it would be that one which is at fault. */
static placed draw_over(size_t end, size_t earlier, bool past)
{
    size_t place = between(earlier + 1, end);
    return (placed){past ? line_over_and_past(&lines[earlier]) : line_over(&lines[earlier]), place, true};
}

/* A good line, or a copy of it. */
static placed draw_any(size_t end)
{
    size_t place = between(0, end), from = find_good(smaller(end + 1, lines_n));
    if (from == nowhere)
        return (placed){data_line(below(made.n), 1), place, true};
    bool one_more = chance(50);
    return (placed){lines[from], one_more ? place : from, one_more};
}

static void draw_type(line *line, bool addresses_matter)
{
    static const uint8_t others[] = {6, 7, 16, 17, 128, 129, 254, 255};
    line->type = chance(75) ? (uint8_t)between(2, 5) : others[below(8)];
    if (addresses_matter || chance(50))
        return;
    line->address = chance(70) ? 0 : below(0x10000);
    line->count = chance(40) ? 0 : chance(50) ? 2 : 4;
}

/* Malformed by what it says: a data record with no data, an end record with data or with an address. */
static void draw_contradiction(line *line)
{
    static const size_t addresses[] = {1, 255, 256, 0x8000, 0xFFFF};
    line->type = chance(65);
    if (line->type == 0) {
        line->count = 0;
        return;
    }
    line->count = chance(50) ? 0 : between(1, 4);
    line->address = line->count > 0 && chance(70) ? 0 : addresses[below(5)];
}

static void draw_form(line *line, unsigned damage)
{
    bool fields_matter = asks(damage, 3) || asks(damage, 4) || asks(damage, 5);
    if (!fields_matter && chance(30))
        draw_contradiction(line);
    else if (chance(40)) /* there are many of these */
        line->form = chance(60) ? other_character : character_more;
    else if (damage == asking(1))
        line->form = (form)between(count_off, blank);
    else
        line->form = (form)between(count_off, chance(50) ? byte_more : cr_more);
}

static void spoil(line *line, unsigned damage)
{
    static const uint8_t offs[] = {1, 255, 128, 16, 240};
    if (asks(damage, 3))
        draw_type(line, asks(damage, 4) || asks(damage, 5));
    if (asks(damage, 2))
        line->off = chance(50) ? offs[below(5)] : (uint8_t)between(1, 255);
    if (asks(damage, 1))
        draw_form(line, damage);
    line->damage = damage;
}

/* Makes one line that asks for these refusals. */
static void damage_line(unsigned damage)
{
    size_t end = end_place();
    bool past = asks(damage, 4), over = asks(damage, 5);
    size_t earlier = past ? find_last_address(end) : find_good(end);
    if (over && earlier == nowhere)
        return;
    placed new = over ? draw_over(end, earlier, past) : past ? draw_past(end) : draw_any(end);
    spoil(&new.line, damage);
    if (new.one_more && end < lines_n && chance(6)) /* behind the end record, where anything is malformed */
        new.place = between(end + 1, lines_n);
    if (new.one_more)
        insert(new.place, new.line);
    else
        lines[new.place] = new.line;
}

/* Malformed by where a line stands, or how it ends. */
static void damage_order(void)
{
    size_t end = end_place();
    if (chance(40) || end == lines_n)
        cut = true;
    else if (chance(50)) /* another end record before it */
        insert(below(end + 1), end_line());
    else if (chance(60)) /* a good line behind it */
        insert(lines_n, chance(40) ? end_line() : data_line(below(made.n), 1));
    else
        insert(lines_n, (line){.form = chance(50) ? blank : colon_alone, .damage = asking(1)});
}

static void damage_for(uint32_t code)
{
    if (code == 1 && chance(30))
        damage_order();
    else
        damage_line(asking(code));
}

void draw_damage(void)
{
    uint32_t one = (uint32_t)between(1, 6), other = (uint32_t)between(1, 6);
    bool two = chance(80);
    if (one == 6 || (two && other == 6))
        leave_something_out();
    if (two && one < 6 && other < 6 && chance(40)) {
        damage_line(asking(one) | asking(other));
        return;
    }
    if (one < 6)
        damage_for(one);
    if (two && other < 6)
        damage_for(other);
    if (two && chance(6))
        damage_for((uint32_t)between(1, 5));
}

/* What a reader has to answer */

static unsigned damage_at(size_t place, bool ended)
{
    unsigned damage = lines[place].damage;
    if (ended || (cut && place == lines_n - 1))
        damage |= asking(1);
    return damage;
}

/* Of the lines from `place` on, and at the end. */
static unsigned damage_from(size_t place)
{
    unsigned damage = left_out ? asking(6) : 0;
    for (; place < lines_n; place++)
        damage |= damage_at(place, false);
    return damage;
}

static void count_pairs(uint32_t first, unsigned others, bool in_one_line)
{
    for (uint32_t code = 1; code <= 6; code++)
        if (asks(others, code))
            count_pair(first, code, in_one_line);
}

static uint32_t lowest(unsigned damage)
{
    uint32_t code = 0;
    while (!asks(damage, code))
        code++;
    return code;
}

second_hex planned_answer(bool size_good)
{
    if (!size_good) {
        count_pairs(7, damage_from(0), false);
        return (second_hex){.code = 7};
    }
    bool ended = false;
    for (size_t place = 0; place < lines_n; place++) {
        unsigned damage = damage_at(place, ended);
        if (damage != 0) {
            uint32_t code = lowest(damage);
            count_pairs(code, damage & ~asking(code), true);
            count_pairs(code, damage_from(place + 1), false);
            return (second_hex){.code = code, .line = place + 1};
        }
        ended = lines[place].type == 1;
    }
    if (left_out)
        return (second_hex){.code = 6, .line = lines_n};
    return (second_hex){.code = 0};
}

/* The text of the lines */

/* A text has small letters, and CRs, never, always or now and then. */
typedef enum { never, always, mixed, styles } style;

static style lower_case, with_cr;

static bool by(style style)
{
    return style == mixed ? chance(50) : style == always;
}

/* The line being laid. */
static uint8_t row[longest_line];
static size_t row_n;

static void add_digits(uint8_t byte)
{
    static const char lower[] = "0123456789abcdef", upper[] = "0123456789ABCDEF";
    row[row_n++] = (uint8_t)(by(lower_case) ? lower : upper)[byte / 16];
    row[row_n++] = (uint8_t)(by(lower_case) ? lower : upper)[byte % 16];
}

static void insert_character(size_t place, uint8_t character)
{
    memmove(row + place + 1, row + place, row_n - place);
    row[place] = character;
    row_n += 1;
}

static void leave_character_out(size_t place)
{
    row_n -= 1;
    memmove(row + place, row + place + 1, row_n - place);
}

/* Answers the number of bytes, which the checksum is still to follow. */
static size_t lay_bytes(const line *line, uint8_t *bytes)
{
    size_t size = 4 + line->count;
    bytes[0] = (uint8_t)line->count;
    bytes[1] = (uint8_t)(line->address >> 8);
    bytes[2] = (uint8_t)line->address;
    bytes[3] = line->type;
    memcpy(bytes + 4, line->data, line->count);
    if (line->form == count_off)
        bytes[0] = (uint8_t)(line->count + (chance(50) ? 1 : between(1, 255)));
    for (size_t more = line->form == byte_more ? 1 : line->form == many_bytes_more ? 256 : 0; more > 0; more--)
        bytes[size++] = (uint8_t)draw();
    if (line->form == byte_less)
        size -= 1;
    if (line->form == too_short)
        size = below(4);
    return size;
}

/* Neither a digit nor a line's end, and not a CR, which may belong to one. Most stand beside the digits. */
static uint8_t no_digit(void)
{
    static const uint8_t beside[] = {'/', ':', '@', 'G', '`', 'g'};
    static const uint8_t others[] = {' ', '\t', '\v', 0, 'x', 'Z', '-', '+', '.', 0x1A, 0x7F, 0x80, 0xB0, 0xC1, 0xE1, 0xFF};
    return chance(60) ? beside[below(sizeof beside)] : others[below(sizeof others)];
}

static void spoil_row(form form)
{
    static const uint8_t no_colons[] = {';', '.', '0', ' ', 'S', 0xBA}; /* the last is a colon but for its highest bit */
    size_t place;
    switch (form) {
    case no_colon:
        leave_character_out(0);
        break;
    case other_first:
        row[0] = no_colons[below(sizeof no_colons)];
        break;
    case other_character:
        place = between(1, row_n - 1);
        row[place] = no_digit();
        break;
    case character_more:
        place = chance(50) ? row_n : below(row_n);
        insert_character(place, chance(50) ? ' ' : no_digit());
        break;
    case digit_more:
        insert_character(between(1, row_n), '0');
        break;
    case digit_less:
        leave_character_out(between(1, row_n - 1));
        break;
    case cr_inside:
        insert_character(below(row_n), '\r');
        break;
    case cr_more:
        insert_character(row_n, '\r');
        break;
    case colon_alone:
        row_n = 1;
        break;
    case blank:
        row_n = 0;
        break;
    default:
        break;
    }
}

static void lay_line(const line *line)
{
    uint8_t bytes[4 + most_data + 256];
    size_t size = lay_bytes(line, bytes);
    uint8_t checksum = line->off;
    row_n = 0;
    row[row_n++] = ':';
    for (size_t i = 0; i < size; i++) {
        add_digits(bytes[i]);
        checksum = (uint8_t)(checksum - bytes[i]);
    }
    add_digits(checksum);
    spoil_row(line->form);
    if (by(with_cr) || line->form == cr_more)
        row[row_n++] = '\r';
    row[row_n++] = '\n';
    memcpy(made.text + made.length, row, row_n);
    made.length += row_n;
}

void lay_text(void)
{
    lower_case = (style)below(styles);
    with_cr = (style)below(styles);
    made.length = 0;
    for (size_t i = 0; i < lines_n; i++)
        lay_line(&lines[i]);
    /* Without its LF a blank line would be none. */
    if (cut && lines_n > 0 && row_n > 1)
        made.length -= 1;
}
