/* The second maker's Intel HEX reader and writer, written from document 02, P2, and meant to be read beside it. A text is made
   whole before any of it is handed out, and an image is filled only when all of a text was found good. Each line is decoded as a
   whole, then judged in the document's order, and nothing is done for speed. */

#include "hex.h"

#include <stdbool.h>
#include <string.h>

enum {
    largest = 4096,  /* bytes of an image */
    data_each = 16,  /* bytes in a record of the standard text */
    most_data = 255, /* bytes in any record */
    before_data = 4, /* count, two bytes of address, type */
    around_data = 5, /* and the checksum */
    most_bytes = around_data + most_data,
    most_text = 11276,
};

enum { type_data = 0, type_end = 1 };

static bool size_good(size_t n)
{
    return n >= 41 && n <= largest;
}

static second_hex refuse(uint32_t code, uint64_t line)
{
    return (second_hex){.code = code, .line = line};
}

/* Modulo 256: that of a whole record has to be 0. */
static uint8_t sum_of(const uint8_t *bytes, size_t size)
{
    uint8_t sum = 0;
    for (size_t i = 0; i < size; i++)
        sum = (uint8_t)(sum + bytes[i]);
    return sum;
}

/* Writing. The text is made here and counted; only then is it known whether there is room for it. */

typedef struct {
    uint8_t text[most_text];
    size_t length;
} page;

static void put_character(page *page, char character)
{
    page->text[page->length] = (uint8_t)character;
    page->length += 1;
}

static void put_byte(page *page, uint8_t byte)
{
    static const char digits[] = "0123456789ABCDEF";
    put_character(page, digits[byte / 16]);
    put_character(page, digits[byte % 16]);
}

static void put_record(page *page, uint8_t type, size_t address, const uint8_t *data, size_t count)
{
    uint8_t bytes[most_bytes] = {(uint8_t)count, (uint8_t)(address / 256), (uint8_t)(address % 256), type};
    for (size_t i = 0; i < count; i++)
        bytes[before_data + i] = data[i];
    bytes[before_data + count] = (uint8_t)(256 - sum_of(bytes, before_data + count));
    put_character(page, ':');
    for (size_t i = 0; i < around_data + count; i++)
        put_byte(page, bytes[i]);
    put_character(page, '\n');
}

second_hex second_hex_write(const uint8_t *image, size_t n, uint8_t *text, size_t room)
{
    if (!size_good(n))
        return refuse(7, 0);
    page page = {.length = 0};
    for (size_t address = 0; address < n; address += data_each) {
        size_t left = n - address;
        put_record(&page, type_data, address, image + address, left < data_each ? left : data_each);
    }
    put_record(&page, type_end, 0, NULL, 0);
    if (room < page.length)
        return refuse(8, 0);
    memcpy(text, page.text, page.length);
    return (second_hex){.length = page.length};
}

/* Reading: the lines of a text */

typedef struct {
    const uint8_t *start;
    size_t length; /* without the line end */
    bool has_end;
    size_t next; /* where in the text the next line would start */
} line;

static line line_at(const uint8_t *text, size_t length, size_t start)
{
    size_t stop = start;
    while (stop < length && text[stop] != '\n')
        stop++;
    line line = {.start = text + start, .length = stop - start, .has_end = stop < length};
    line.next = line.has_end ? stop + 1 : stop;
    /* One CR belongs to the line end; another before it is a character of the line. */
    if (line.has_end && line.length > 0 && line.start[line.length - 1] == '\r')
        line.length -= 1;
    return line;
}

static const int no_digit = -1;

static int digit_of(uint8_t character)
{
    if (character >= '0' && character <= '9')
        return character - '0';
    if (character >= 'A' && character <= 'F')
        return character - 'A' + 10;
    if (character >= 'a' && character <= 'f')
        return character - 'a' + 10;
    return no_digit;
}

/* What a line says: count, address (high byte first), type, data, checksum. */
typedef struct {
    uint8_t bytes[most_bytes];
    size_t size;
} record;

static size_t count_in(const record *record)
{
    return record->bytes[0];
}

static size_t address_in(const record *record)
{
    return 256 * (size_t)record->bytes[1] + record->bytes[2];
}

static uint8_t type_in(const record *record)
{
    return record->bytes[3];
}

/* False where the line is not a colon and pairs of digits behind it, or has more of them than any count allows. */
static bool decode(const line *line, record *record)
{
    if (line->length == 0 || line->start[0] != ':')
        return false;
    const uint8_t *digits = line->start + 1;
    size_t number = line->length - 1;
    for (size_t i = 0; i < number; i++)
        if (digit_of(digits[i]) == no_digit)
            return false;
    if (number % 2 != 0)
        return false;
    if (number / 2 > most_bytes)
        return false;
    record->size = number / 2;
    for (size_t i = 0; i < record->size; i++)
        record->bytes[i] = (uint8_t)(16 * digit_of(digits[2 * i]) + digit_of(digits[2 * i + 1]));
    return true;
}

/* What the lines so far have given. */
typedef struct {
    uint8_t bytes[largest];
    bool given[largest];
    size_t n;
    bool ended; /* by the end record */
} reading;

static bool well_formed(const reading *reading, const line *line, record *record)
{
    if (reading->ended)
        return false;
    if (!line->has_end)
        return false;
    if (!decode(line, record))
        return false;
    if (record->size < around_data)
        return false;
    if (record->size != count_in(record) + around_data)
        return false;
    if (type_in(record) == type_data && count_in(record) == 0)
        return false;
    if (type_in(record) == type_end && count_in(record) != 0)
        return false;
    return type_in(record) != type_end || address_in(record) == 0;
}

static bool out_of_range(const reading *reading, const record *record)
{
    return address_in(record) + count_in(record) > reading->n;
}

static bool given_before(const reading *reading, const record *record)
{
    for (size_t address = address_in(record); address < address_in(record) + count_in(record); address++)
        if (address < reading->n && reading->given[address])
            return true;
    return false;
}

/* The number of the line's refusal, or 0. */
static uint32_t judge(const reading *reading, const line *line, record *record)
{
    if (!well_formed(reading, line, record))
        return 1;
    if (sum_of(record->bytes, record->size) != 0)
        return 2;
    if (type_in(record) != type_data && type_in(record) != type_end)
        return 3;
    if (type_in(record) == type_end)
        return 0;
    if (out_of_range(reading, record))
        return 4;
    if (given_before(reading, record))
        return 5;
    return 0;
}

/* Of a record that was judged good. */
static void take(reading *reading, const record *record)
{
    if (type_in(record) == type_end) {
        reading->ended = true;
        return;
    }
    for (size_t i = 0; i < count_in(record); i++) {
        reading->bytes[address_in(record) + i] = record->bytes[before_data + i];
        reading->given[address_in(record) + i] = true;
    }
}

static bool whole(const reading *reading)
{
    for (size_t address = 0; address < reading->n; address++)
        if (!reading->given[address])
            return false;
    return reading->ended;
}

second_hex second_hex_read(const uint8_t *text, size_t length, uint8_t *image, size_t n)
{
    if (!size_good(n))
        return refuse(7, 0);
    reading reading = {.n = n};
    uint64_t number = 0;
    size_t start = 0;
    while (start < length) {
        line line = line_at(text, length, start);
        number += 1;
        record record = {.size = 0};
        uint32_t code = judge(&reading, &line, &record);
        if (code != 0)
            return refuse(code, number);
        take(&reading, &record);
        start = line.next;
    }
    if (!whole(&reading))
        return refuse(6, number);
    memcpy(image, reading.bytes, n);
    return (second_hex){.code = 0};
}
