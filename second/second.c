/* The second maker's turn counter, written from documents 01 and 02 and AN1449, with the choices of docs/DECISIONS.md where they
   leave one, and meant to be read beside them. Each rule is spelled out where it is used, pointers are read anew from the map, and
   nothing is done for speed. Headings in brackets are those of document 01. */

#include "second.h"

#include <stdbool.h>

enum { nibbles = 8, low_nibbles = 3, all_pointers = 16, map_cells = 24, mark_cells = 2, copy_cells = 11 };

/* [Nibbles, bytes and Gray words] */

static const uint8_t codes[16] = {
    0x80, 0x07, 0x19, 0x61, 0x2A, 0x52, 0xB3, 0xCB, 0x34, 0x4C, 0xAD, 0xD5, 0x9E, 0xE6, 0xF8, 0x7F,
};

static const int lost = -1;

static int differing_bits(uint8_t one, uint8_t other)
{
    int number = 0;
    for (int bit = 0; bit < 8; bit++)
        number += ((one ^ other) >> bit) & 1;
    return number;
}

/* Document 02, P3: what a cell shows that was erased or has failed. */
static bool is_erased(uint8_t byte)
{
    return byte == 0x00 || byte == 0xFF;
}

/* Clean and mended bytes are told alike. Codes differ in four bits or more, so no byte is this near to two of them and
   refusal 10 is never met. */
static int read_byte(uint8_t byte)
{
    if (is_erased(byte))
        return lost;
    for (int d = 0; d < 16; d++)
        if (differing_bits(byte, codes[d]) <= 1)
            return d;
    return lost;
}

static uint32_t gray_of(uint32_t count)
{
    return count ^ (count >> 1);
}

/* Bit b of a count is the exclusive-or of the bits from b upward in its Gray word. */
static uint32_t count_of(uint32_t word)
{
    uint32_t count = 0;
    for (; word != 0; word >>= 1)
        count ^= word;
    return count;
}

/* [The chip as lent] */

typedef struct {
    uint8_t *image;
    uint32_t *lives;
    size_t m, s, e;
    uint64_t writes, tried;
    /* Document 02, P6: cell writes that there is power for, what the write after them leaves, and once it was asked for, where. */
    size_t power;
    uint8_t torn;
    bool cut;
    size_t cut_at;
} chip;

/* For a call that is on no trial: no call asks for so many writes. */
static const size_t power_without_end = SIZE_MAX;

/* Written without sums that could pass the type's top. */
static bool places_good(size_t n, size_t m, size_t s, size_t e)
{
    if (m < 1 || s < 1)
        return false;
    if (m > n - map_cells)
        return false;
    if (e >= n)
        return false;
    if (s > 246)
        return false;
    if (e < s || e - s + 1 < 16)
        return false;
    return m + map_cells <= s || e < m;
}

static void write_cell(chip *chip, size_t address, uint8_t byte)
{
    if (chip->lives[address] >= 1) {
        chip->image[address] = byte;
        chip->lives[address] -= 1;
    }
}

/* A put whose write is torn does not hold, whatever it leaves: nobody is there to read it back. */
static bool put(chip *chip, size_t address, uint8_t byte)
{
    if (chip->image[address] == byte)
        return true;
    if (chip->power == 0) {
        write_cell(chip, address, chip->torn);
        chip->cut = true;
        chip->cut_at = address;
        return false;
    }
    chip->power -= 1;
    chip->writes += 1;
    write_cell(chip, address, byte);
    return chip->image[address] == byte;
}

/* [The map]. Pointers are numbered 0 to 15: nibbles 0 to 7 of copy 1, then those of copy 2. */

static bool is_low(int pointer)
{
    return pointer % nibbles < low_nibbles;
}

/* Where in the image pointer number `pointer` has its first cell. */
static size_t cell_of(size_t m, int pointer)
{
    size_t copy = (size_t)(pointer / nibbles);
    size_t nibble = (size_t)(pointer % nibbles);
    size_t offset = is_low(pointer) ? 2 * nibble : low_nibbles + nibble;
    return m + mark_cells + copy_cells * copy + offset;
}

static size_t address_in_map(const uint8_t *image, size_t m, int pointer)
{
    size_t cell = cell_of(m, pointer);
    size_t address = image[cell];
    if (is_low(pointer))
        address += 256 * (size_t)image[cell + 1];
    return address;
}

static bool mark_there(const uint8_t *image, size_t m)
{
    return image[m] == 0xA5 && image[m + 1] == 0x5A;
}

/* A High pointer is one byte, so that it is at most 255 needs no test. */
static bool map_sound(const uint8_t *image, size_t m, size_t s, size_t e)
{
    for (int one = 0; one < all_pointers; one++) {
        size_t here = address_in_map(image, m, one);
        if (here < s || here > e)
            return false;
        for (int other = 0; other < all_pointers; other++) {
            size_t there = address_in_map(image, m, other);
            if (one != other && here == there)
                return false;
            if (!is_low(one) && is_low(other) && here > there)
                return false;
        }
    }
    return true;
}

/* The next address of a kind, from the first `known` pointers. */
static size_t next_address(const chip *chip, const size_t *addresses, int known, bool low)
{
    size_t next = low ? chip->e : chip->s;
    for (int pointer = 0; pointer < known; pointer++) {
        if (is_low(pointer) != low)
            continue;
        if (low && addresses[pointer] <= next)
            next = addresses[pointer] - 1;
        if (!low && addresses[pointer] >= next)
            next = addresses[pointer] + 1;
    }
    return next;
}

static bool may_be_tried(const chip *chip, const size_t *addresses, int known, bool low, size_t address)
{
    if (address < chip->s || address > chip->e)
        return false;
    if (!low && address > 255)
        return false;
    for (int pointer = 0; pointer < known; pointer++) {
        if (low && !is_low(pointer) && address <= addresses[pointer])
            return false;
        if (!low && is_low(pointer) && address >= addresses[pointer])
            return false;
    }
    return true;
}

/* Walks the spares of a kind until one takes the byte or the power is lost. The first is found once; from there the walk goes on, or
   a bad cell would be tried for ever. Going down it stops at s - 1, which is at least 0. */
static bool take_spare(chip *chip, const size_t *addresses, int known, bool low, uint8_t byte, size_t *taken)
{
    size_t address = next_address(chip, addresses, known, low);
    while (!chip->cut && may_be_tried(chip, addresses, known, low, address)) {
        chip->tried += 1;
        if (put(chip, address, byte)) {
            *taken = address;
            return true;
        }
        address = low ? address - 1 : address + 1;
    }
    return false;
}

/* [What comes back] */

static second_answer refuse(uint32_t code, uint64_t place)
{
    return (second_answer){.code = code, .place = place};
}

/* Work that ends before its end. Where the power was lost, that is why, and not what did not hold. */
static second_answer refuse_at_work(const chip *chip, uint32_t code, uint64_t place)
{
    if (chip->cut)
        return refuse(11, chip->cut_at);
    return (second_answer){.code = code, .place = place, .writes = chip->writes, .tried = chip->tried};
}

/* [Reading] */

static second_answer read_count(const uint8_t *image, size_t m)
{
    uint32_t word1 = 0, word2 = 0;
    for (int nibble = 0; nibble < nibbles; nibble++) {
        int in1 = read_byte(image[address_in_map(image, m, nibble)]);
        int in2 = read_byte(image[address_in_map(image, m, nibbles + nibble)]);
        if (in1 == lost && in2 == lost)
            return refuse(5, (uint64_t)nibble);
        if (in1 == lost)
            in1 = in2;
        if (in2 == lost)
            in2 = in1;
        word1 |= (uint32_t)in1 << (4 * nibble);
        word2 |= (uint32_t)in2 << (4 * nibble);
    }
    uint32_t count1 = count_of(word1), count2 = count_of(word2);
    int64_t lag = (int64_t)count1 - (int64_t)count2;
    if (lag != 0 && lag != 1)
        return (second_answer){.code = 6, .lag = lag};
    return (second_answer){.count = count1, .lag = lag};
}

/* Document 02, P1: of the sixteen cells each that is a code with one bit wrong, and not erased (P3), counts in that bit. */
static void count_mended(const uint8_t *image, size_t m, uint32_t *bit)
{
    for (int pointer = 0; pointer < all_pointers; pointer++) {
        uint8_t byte = image[address_in_map(image, m, pointer)];
        for (int d = 0; d < 16; d++)
            for (int wrong = 0; wrong < 8; wrong++)
                if ((byte ^ (1 << wrong)) == codes[d] && !is_erased(byte))
                    bit[wrong] += 1;
    }
}

/* [Storing, opening, stepping] */

/* Puts a pointer in the map, low byte first. */
static bool put_pointer(chip *chip, int pointer, size_t address, size_t *failed)
{
    size_t cell = cell_of(chip->m, pointer);
    *failed = cell;
    if (!put(chip, cell, (uint8_t)(address & 0xFF)))
        return false;
    *failed = cell + 1;
    return !is_low(pointer) || put(chip, cell + 1, (uint8_t)(address >> 8));
}

/* Answers code 0, or refusal 8, 9 or 11. */
static second_answer store(chip *chip, uint32_t count)
{
    for (int pointer = 0; pointer < all_pointers; pointer++) {
        uint8_t byte = codes[(gray_of(count) >> (4 * (pointer % nibbles))) & 15];
        if (put(chip, address_in_map(chip->image, chip->m, pointer), byte))
            continue;
        size_t addresses[all_pointers];
        for (int each = 0; each < all_pointers; each++)
            addresses[each] = address_in_map(chip->image, chip->m, each);
        size_t spare, failed;
        if (!take_spare(chip, addresses, all_pointers, is_low(pointer), byte, &spare))
            return refuse_at_work(chip, 8, (uint64_t)pointer);
        if (!put_pointer(chip, pointer, spare, &failed))
            return refuse_at_work(chip, 9, failed);
    }
    return refuse(0, 0);
}

/* The addresses taken so far stand in for the map, which is put only when all sixteen are found. */
static second_answer open_first(chip *chip)
{
    size_t addresses[all_pointers], failed;
    for (int pointer = 0; pointer < all_pointers; pointer++) {
        bool found = take_spare(chip, addresses, pointer, is_low(pointer), codes[0], &addresses[pointer]);
        chip->tried = 0; /* these count as none */
        if (!found)
            return refuse_at_work(chip, 8, (uint64_t)pointer);
    }
    for (int pointer = 0; pointer < all_pointers; pointer++)
        if (!put_pointer(chip, pointer, addresses[pointer], &failed))
            return refuse_at_work(chip, 9, failed);
    if (!put(chip, chip->m, 0xA5))
        return refuse_at_work(chip, 9, chip->m);
    if (!put(chip, chip->m + 1, 0x5A))
        return refuse_at_work(chip, 9, chip->m + 1);
    return (second_answer){.writes = chip->writes};
}

static second_answer open_chip(chip chip, size_t n, size_t lives_n)
{
    if (n < 41 || n > 4096 || lives_n != n)
        return refuse(1, 0);
    if (!places_good(n, chip.m, chip.s, chip.e))
        return refuse(2, 0);
    if (!mark_there(chip.image, chip.m))
        return open_first(&chip);
    if (!map_sound(chip.image, chip.m, chip.s, chip.e))
        return refuse(4, 0);
    second_answer answer = read_count(chip.image, chip.m);
    if (answer.code != 0)
        return answer;
    second_answer stored = store(&chip, answer.count);
    if (stored.code != 0)
        return stored;
    answer.writes = chip.writes;
    answer.tried = chip.tried;
    return answer;
}

static second_answer read_chip(const uint8_t *image, size_t n, size_t m, size_t s, size_t e)
{
    if (n < 41 || n > 4096)
        return refuse(1, 0);
    if (!places_good(n, m, s, e))
        return refuse(2, 0);
    if (!mark_there(image, m))
        return refuse(3, 0);
    if (!map_sound(image, m, s, e))
        return refuse(4, 0);
    return read_count(image, m);
}

second_read_answer second_read(const uint8_t *image, size_t n, size_t m, size_t s, size_t e)
{
    second_read_answer read = {.answer = read_chip(image, n, m, s, e)};
    if (read.answer.code == 0)
        count_mended(image, m, read.bit);
    return read;
}

static second_answer step_chip(chip chip, size_t n, size_t lives_n)
{
    if (n < 41 || n > 4096 || lives_n != n)
        return refuse(1, 0);
    second_answer answer = read_chip(chip.image, n, chip.m, chip.s, chip.e);
    if (answer.code != 0)
        return answer;
    if (answer.count == UINT32_MAX)
        return refuse(7, 0);
    /* What lags is settled first: a stop inside the second store then leaves lag 1 and never 2. */
    second_answer stored = store(&chip, answer.count);
    if (stored.code == 0)
        stored = store(&chip, answer.count + 1);
    if (stored.code != 0)
        return stored;
    answer.count += 1;
    answer.writes = chip.writes;
    answer.tried = chip.tried;
    return answer;
}

second_answer second_open(uint8_t *image, size_t n, uint32_t *lives, size_t lives_n, size_t m, size_t s, size_t e)
{
    chip chip = {.image = image, .lives = lives, .m = m, .s = s, .e = e, .power = power_without_end};
    return open_chip(chip, n, lives_n);
}

second_answer second_step(uint8_t *image, size_t n, uint32_t *lives, size_t lives_n, size_t m, size_t s, size_t e)
{
    chip chip = {.image = image, .lives = lives, .m = m, .s = s, .e = e, .power = power_without_end};
    return step_chip(chip, n, lives_n);
}

second_answer second_trial_open(uint8_t *image, size_t n, uint32_t *lives, size_t lives_n, size_t m, size_t s, size_t e,
                                size_t power, uint8_t torn)
{
    chip chip = {.image = image, .lives = lives, .m = m, .s = s, .e = e, .power = power, .torn = torn};
    return open_chip(chip, n, lives_n);
}

second_answer second_trial_step(uint8_t *image, size_t n, uint32_t *lives, size_t lives_n, size_t m, size_t s, size_t e,
                                size_t power, uint8_t torn)
{
    chip chip = {.image = image, .lives = lives, .m = m, .s = s, .e = e, .power = power, .torn = torn};
    return step_chip(chip, n, lives_n);
}

second_part second_map_part(const uint8_t *image, size_t n, size_t m, size_t s, size_t e, uint32_t copy)
{
    if (n < 41 || n > 4096)
        return (second_part){.code = 1};
    if (!places_good(n, m, s, e))
        return (second_part){.code = 2};
    if (!mark_there(image, m))
        return (second_part){.code = 3};
    if (!map_sound(image, m, s, e))
        return (second_part){.code = 4};
    if (copy != 1 && copy != 2)
        return (second_part){.code = 16};
    return (second_part){.start = m + mark_cells + (copy - 1) * copy_cells, .length = copy_cells};
}
