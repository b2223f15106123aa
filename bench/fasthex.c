/* Intel HEX in plain C: digits are found in tables, a text is gone through once, and a loop serves each run of bytes. What is called of
   the C library has a small size known to the compiler, which makes a few instructions of it and no call: the archive calls nothing
   either, and a count would else be that of the machine's library. */

#include "fasthex.h"

#include <stdbool.h>
#include <string.h>

enum { smallest = 41, largest = 4096, data_each = 16, chunk = 16, no_digit = 256 };

/* Writing */

static uint8_t *put_byte(uint8_t *text, unsigned byte)
{
    static const char digits[] = "0123456789ABCDEF";
    text[0] = (uint8_t)digits[byte >> 4];
    text[1] = (uint8_t)digits[byte & 15];
    return text + 2;
}

static uint8_t *put_record(uint8_t *text, unsigned address, const uint8_t *data, unsigned count)
{
    unsigned sum = count + (address >> 8) + address;
    *text = ':';
    text = put_byte(text + 1, count);
    text = put_byte(text, address >> 8);
    text = put_byte(text, address & 255);
    text = put_byte(text, 0);
    for (unsigned i = 0; i < count; i++) {
        text = put_byte(text, data[i]);
        sum += data[i];
    }
    text = put_byte(text, -sum & 255);
    *text = '\n';
    return text + 1;
}

lyre_hex fast_hex_write(const uint8_t *image, size_t n, uint8_t *text, size_t room)
{
    if (n < smallest || n > largest)
        return (lyre_hex){.code = 7};
    size_t length = 2 * n + 12 * ((n + data_each - 1) / data_each + 1);
    if (room < length)
        return (lyre_hex){.code = 8};
    size_t address = 0;
    for (; address + data_each <= n; address += data_each)
        text = put_record(text, (unsigned)address, image + address, data_each);
    if (address < n)
        text = put_record(text, (unsigned)address, image + address, (unsigned)(n - address));
    memcpy(text, ":00000001FF\n", 12);
    return (lyre_hex){.length = length};
}

/* Reading */

#define none_4 no_digit, no_digit, no_digit, no_digit
#define none_16 none_4, none_4, none_4, none_4
#define letters no_digit, 10, 11, 12, 13, 14, 15, no_digit, none_4, none_4

static const uint16_t values[256] = {
    none_16, none_16, none_16, 0,       1,       2,       3,       4,       5,       6,       7,       8,       9, no_digit, no_digit,
    none_4,  letters, none_16, letters, none_16, none_16, none_16, none_16, none_16, none_16, none_16, none_16, none_16,
};

/* The byte of two digits; more than 255 where one is none. */
static unsigned byte_at(const uint8_t *text)
{
    return 16u * values[text[0]] + values[text[1]];
}

typedef struct {
    size_t n, filled;
    bool closed;
    bool taken[largest];
    uint8_t cells[largest];
} memory;

static void clear(memory *m, size_t n)
{
    m->n = n;
    m->filled = 0;
    m->closed = false;
    for (size_t i = 0; i < n; i += chunk)
        memset(m->taken + i, 0, chunk);
}

static void copy(uint8_t *to, const uint8_t *from, size_t n)
{
    size_t i = 0;
    for (; i + chunk <= n; i += chunk)
        memcpy(to + i, from + i, chunk);
    for (; i < n; i++)
        to[i] = from[i];
}

/* Reads a line: what it is at fault for, and where the next one begins. */
static uint32_t read_line(memory *m, const uint8_t **next, const uint8_t *end)
{
    const uint8_t *text = *next;
    if (m->closed || end - text < 12 || *text != ':')
        return 1;
    unsigned count = byte_at(text + 1), high = byte_at(text + 3), low = byte_at(text + 5), kind = byte_at(text + 7);
    if (count > 255 || high > 255 || low > 255 || kind > 255 || end - text < 12 + 2 * (ptrdiff_t)count)
        return 1;
    unsigned address = high << 8 | low, sum = count + high + low + kind;
    bool inside = address + count <= m->n, twice = false;
    text += 9;
    const uint8_t *stop = text + 2 * count;
    if (inside) {
        uint8_t *cell = m->cells + address;
        bool *taken = m->taken + address;
        for (; text < stop; text += 2) {
            unsigned byte = byte_at(text);
            if (byte > 255)
                return 1;
            sum += byte;
            *cell++ = (uint8_t)byte;
            twice |= *taken;
            *taken++ = true;
        }
    } else {
        for (; text < stop; text += 2) {
            unsigned byte = byte_at(text);
            if (byte > 255)
                return 1;
            sum += byte;
        }
    }
    unsigned check = byte_at(text);
    if (check > 255)
        return 1;
    text += 2;
    if (*text == '\r' && end - text > 1)
        text++;
    if (*text != '\n')
        return 1;
    if (kind == 0 ? count == 0 : kind == 1 && (count != 0 || address != 0))
        return 1;
    if ((sum + check) % 256 != 0)
        return 2;
    if (kind > 1)
        return 3;
    if (!inside)
        return 4;
    if (twice)
        return 5;
    m->closed = kind == 1;
    m->filled += count;
    *next = text + 1;
    return 0;
}

lyre_hex fast_hex_read(const uint8_t *text, size_t length, uint8_t *image, size_t n)
{
    if (n < smallest || n > largest)
        return (lyre_hex){.code = 7};
    memory m;
    clear(&m, n);
    const uint8_t *end = text + length;
    uint64_t line = 0;
    while (text < end) {
        line++;
        uint32_t code = read_line(&m, &text, end);
        if (code != 0)
            return (lyre_hex){.code = code, .line = line};
    }
    if (!m.closed || m.filled < n)
        return (lyre_hex){.code = 6, .line = line};
    copy(image, m.cells, n);
    return (lyre_hex){.code = 0};
}
