/* The turn counter in C written for speed. What is usual (a sound map, clean cells, equal copies, cells that take a write) goes
   straight through, with each pointer read from the map where it is needed; all else is left to functions kept out of that way.
   Loops over pointers are unrolled, so that their places in the map are constants. */

#include "fast.h"

#include <stdbool.h>
#include <string.h>

#define unusual(condition) __builtin_expect(!!(condition), 0)
#define aside __attribute__((noinline))

static const uint8_t codes[16] = {
    0x80, 0x07, 0x19, 0x61, 0x2A, 0x52, 0xB3, 0xCB, 0x34, 0x4C, 0xAD, 0xD5, 0x9E, 0xE6, 0xF8, 0x7F,
};

/* For each byte its nibble, with 10 hex added where it is mended; 20 hex where it is lost. */
static const uint8_t readings[256] = {
    0x20, 0x20, 0x20, 0x11, 0x20, 0x11, 0x11, 0x01, 0x20, 0x12, 0x14, 0x20, 0x19, 0x20, 0x20, 0x11,
    0x20, 0x12, 0x15, 0x20, 0x18, 0x20, 0x20, 0x11, 0x12, 0x02, 0x20, 0x12, 0x20, 0x12, 0x1C, 0x20,
    0x20, 0x13, 0x14, 0x20, 0x18, 0x20, 0x20, 0x11, 0x14, 0x20, 0x04, 0x14, 0x20, 0x1A, 0x14, 0x20,
    0x18, 0x20, 0x20, 0x16, 0x08, 0x18, 0x18, 0x20, 0x20, 0x12, 0x14, 0x20, 0x18, 0x20, 0x20, 0x1F,
    0x20, 0x13, 0x15, 0x20, 0x19, 0x20, 0x20, 0x11, 0x19, 0x20, 0x20, 0x17, 0x09, 0x19, 0x19, 0x20,
    0x15, 0x20, 0x05, 0x15, 0x20, 0x1B, 0x15, 0x20, 0x20, 0x12, 0x15, 0x20, 0x19, 0x20, 0x20, 0x1F,
    0x13, 0x03, 0x20, 0x13, 0x20, 0x13, 0x1D, 0x20, 0x20, 0x13, 0x14, 0x20, 0x19, 0x20, 0x20, 0x1F,
    0x20, 0x13, 0x15, 0x20, 0x18, 0x20, 0x20, 0x1F, 0x1E, 0x20, 0x20, 0x1F, 0x20, 0x1F, 0x1F, 0x0F,
    0x00, 0x10, 0x10, 0x20, 0x10, 0x20, 0x20, 0x11, 0x10, 0x20, 0x20, 0x17, 0x20, 0x1A, 0x1C, 0x20,
    0x10, 0x20, 0x20, 0x16, 0x20, 0x1B, 0x1C, 0x20, 0x20, 0x12, 0x1C, 0x20, 0x1C, 0x20, 0x0C, 0x1C,
    0x10, 0x20, 0x20, 0x16, 0x20, 0x1A, 0x1D, 0x20, 0x20, 0x1A, 0x14, 0x20, 0x1A, 0x0A, 0x20, 0x1A,
    0x20, 0x16, 0x16, 0x06, 0x18, 0x20, 0x20, 0x16, 0x1E, 0x20, 0x20, 0x16, 0x20, 0x1A, 0x1C, 0x20,
    0x10, 0x20, 0x20, 0x17, 0x20, 0x1B, 0x1D, 0x20, 0x20, 0x17, 0x17, 0x07, 0x19, 0x20, 0x20, 0x17,
    0x20, 0x1B, 0x15, 0x20, 0x1B, 0x0B, 0x20, 0x1B, 0x1E, 0x20, 0x20, 0x17, 0x20, 0x1B, 0x1C, 0x20,
    0x20, 0x13, 0x1D, 0x20, 0x1D, 0x20, 0x0D, 0x1D, 0x1E, 0x20, 0x20, 0x17, 0x20, 0x1A, 0x1D, 0x20,
    0x1E, 0x20, 0x20, 0x16, 0x20, 0x1B, 0x1D, 0x20, 0x0E, 0x1E, 0x1E, 0x20, 0x1E, 0x20, 0x20, 0x20,
};

enum { not_clean = 0x30, lost = 0x20 };

/* For each byte the number, from 1, of the bit in which it is mended; else 0. */
static const uint8_t wrong_bits[256] = {
    0, 0, 0, 3, 0, 2, 1, 0, 0, 5, 6, 0, 7, 0, 0, 4, 0, 4, 7, 0, 6, 0, 0, 5, 1, 0, 0, 2, 0, 3, 8, 0,
    0, 7, 4, 0, 5, 0, 0, 6, 2, 0, 0, 1, 0, 8, 3, 0, 3, 0, 0, 8, 0, 1, 2, 0, 0, 6, 5, 0, 4, 0, 0, 7,
    0, 6, 5, 0, 4, 0, 0, 7, 3, 0, 0, 8, 0, 1, 2, 0, 2, 0, 0, 1, 0, 8, 3, 0, 0, 7, 4, 0, 5, 0, 0, 6,
    1, 0, 0, 2, 0, 3, 8, 0, 0, 4, 7, 0, 6, 0, 0, 5, 0, 5, 6, 0, 7, 0, 0, 4, 8, 0, 0, 3, 0, 2, 1, 0,
    0, 1, 2, 0, 3, 0, 0, 8, 4, 0, 0, 7, 0, 6, 5, 0, 5, 0, 0, 6, 0, 7, 4, 0, 0, 8, 3, 0, 2, 0, 0, 1,
    6, 0, 0, 5, 0, 4, 7, 0, 0, 3, 8, 0, 1, 0, 0, 2, 0, 2, 1, 0, 8, 0, 0, 3, 7, 0, 0, 4, 0, 5, 6, 0,
    7, 0, 0, 4, 0, 5, 6, 0, 0, 2, 1, 0, 8, 0, 0, 3, 0, 3, 8, 0, 1, 0, 0, 2, 6, 0, 0, 5, 0, 4, 7, 0,
    0, 8, 3, 0, 2, 0, 0, 1, 5, 0, 0, 6, 0, 7, 4, 0, 4, 0, 0, 7, 0, 6, 5, 0, 0, 1, 2, 0, 3, 0, 0, 0,
};

/* The highest High and the lowest Low pointer; the spares lie between them. */
typedef struct {
    uint32_t highest, lowest;
} ends;

typedef struct {
    uint8_t *image;
    uint32_t *lives;
    size_t m;
    ends ends;
    uint64_t writes, tried, place;
} work;

static inline lyre_answer refuse(uint32_t code)
{
    return (lyre_answer){.code = code};
}

/* The map */

static inline size_t offset_of(unsigned copy, unsigned nibble)
{
    return 2 + 11 * copy + (nibble < 3 ? 2 * nibble : 3 + nibble);
}

static inline uint32_t pointer_of(const uint8_t *map, unsigned copy, unsigned nibble)
{
    const uint8_t *cell = map + offset_of(copy, nibble);
    return nibble < 3 ? cell[0] | (uint32_t)cell[1] << 8 : cell[0];
}

static inline bool places_good(size_t n, size_t m, size_t s, size_t e)
{
    return m - 1 < n - 24 && s - 1 < 246 && e < n && e >= s + 15 && (m + 24 <= s || e < m);
}

/* Whether all pointers differ, for kinds that are spread over more than 64 cells. */
static aside bool spread_differ(const uint8_t *map)
{
    uint64_t seen[64] = {0};
    for (unsigned i = 0; i < 16; i++) {
        uint32_t pointer = pointer_of(map, i / 8, i % 8);
        uint64_t bit = UINT64_C(1) << pointer % 64;
        if (seen[pointer / 64] & bit)
            return false;
        seen[pointer / 64] |= bit;
    }
    return true;
}

/* With the extremes in order, every pointer is in the area and each High one below each Low one. Pointers of a kind that lie
   within 64 cells differ when they differ modulo 64, so a word of bits tells. */
static inline bool sound(const uint8_t *map, size_t s, size_t e, ends *ends)
{
    uint32_t first_high = 255, last_high = 0, first_low = 65535, last_low = 0;
    uint64_t high = 0, low = 0;
#pragma GCC unroll 16
    for (unsigned i = 0; i < 16; i++) {
        uint32_t pointer = pointer_of(map, i / 8, i % 8);
        uint64_t bit = UINT64_C(1) << pointer % 64;
        if (i % 8 < 3) {
            first_low = pointer < first_low ? pointer : first_low;
            last_low = pointer > last_low ? pointer : last_low;
            low |= bit;
        } else {
            first_high = pointer < first_high ? pointer : first_high;
            last_high = pointer > last_high ? pointer : last_high;
            high |= bit;
        }
    }
    ends->highest = last_high;
    ends->lowest = first_low;
    if (unusual(first_high < s || last_high >= first_low || last_low > e))
        return false;
    if (unusual(last_high - first_high >= 64 || last_low - first_low >= 64))
        return spread_differ(map);
    return __builtin_popcountll(high) + __builtin_popcountll(low) == 16;
}

/* 0, or refusal 2, 3 or 4. */
static inline uint32_t check(const uint8_t *image, size_t n, size_t m, size_t s, size_t e, ends *ends)
{
    if (unusual(!places_good(n, m, s, e)))
        return 2;
    if (unusual((image[m] | image[m + 1] << 8) != 0x5AA5))
        return 3;
    return unusual(!sound(image + m, s, e, ends)) ? 4 : 0;
}

/* Reading */

static inline uint32_t count_of(uint32_t word)
{
    word ^= word >> 1;
    word ^= word >> 2;
    word ^= word >> 4;
    word ^= word >> 8;
    return word ^ word >> 16;
}

/* Where there are counts, each cell adds to that of its wrong bit, from 1, and to the first where it has none. */
static inline lyre_answer weigh(const uint8_t *image, const uint8_t *map, uint32_t *counts)
{
    uint32_t word1 = 0, word2 = 0;
    for (unsigned nibble = 0; nibble < 8; nibble++) {
        uint8_t in1 = image[pointer_of(map, 0, nibble)], in2 = image[pointer_of(map, 1, nibble)];
        uint32_t one = readings[in1], other = readings[in2];
        if (counts != NULL) {
            counts[wrong_bits[in1]]++;
            counts[wrong_bits[in2]]++;
        }
        if (one == lost) {
            if (other == lost)
                return (lyre_answer){.code = 5, .place = nibble};
            one = other;
        }
        if (other == lost)
            other = one;
        word1 |= (one & 15) << 4 * nibble;
        word2 |= (other & 15) << 4 * nibble;
    }
    int64_t lag = (int64_t)count_of(word1) - (int64_t)count_of(word2);
    if (lag != 0 && lag != 1)
        return (lyre_answer){.code = 6, .lag = lag};
    return (lyre_answer){.count = count_of(word1), .lag = lag};
}

static aside lyre_answer read_damaged(const uint8_t *image, const uint8_t *map)
{
    return weigh(image, map, NULL);
}

static aside lyre_read_answer read_mended(const uint8_t *image, const uint8_t *map)
{
    uint32_t counts[9] = {0};
    lyre_answer found = weigh(image, map, counts);
    lyre_read_answer answer = {.code = found.code, .count = found.count, .lag = found.lag, .place = found.place};
    if (found.code == 0)
        memcpy(answer.bit, counts + 1, sizeof answer.bit);
    return answer;
}

/* True, with the count, when every cell is clean and the copies are equal: then storing that count would write nothing. */
static inline bool read_settled(const uint8_t *image, const uint8_t *map, uint32_t *count)
{
    uint32_t word = 0, seen = 0, different = 0;
#pragma GCC unroll 8
    for (unsigned nibble = 0; nibble < 8; nibble++) {
        uint32_t one = image[pointer_of(map, 0, nibble)], reading = readings[one];
        different |= one ^ image[pointer_of(map, 1, nibble)];
        seen |= reading;
        word |= reading << 4 * nibble;
    }
    *count = count_of(word);
    return !(different | (seen & not_clean));
}

/* Writing */

static inline bool put(work *work, size_t at, uint8_t byte)
{
    if (work->image[at] == byte)
        return true;
    work->writes++;
    if (work->lives[at] == 0)
        return false;
    work->lives[at]--;
    work->image[at] = byte;
    return true;
}

/* The address of the spare that took the byte, now an end of its kind; 0 when none did. */
static inline uint32_t take_spare(work *work, bool low, uint8_t byte)
{
    uint32_t spare;
    if (low) {
        for (spare = work->ends.lowest - 1; spare > work->ends.highest; spare--) {
            work->tried++;
            if (put(work, spare, byte))
                return work->ends.lowest = spare;
        }
    } else {
        uint32_t limit = work->ends.lowest < 256 ? work->ends.lowest : 256;
        for (spare = work->ends.highest + 1; spare < limit; spare++) {
            work->tried++;
            if (put(work, spare, byte))
                return work->ends.highest = spare;
        }
    }
    return 0;
}

static inline uint32_t put_pointer(work *work, unsigned copy, unsigned nibble, uint32_t address)
{
    work->place = work->m + offset_of(copy, nibble);
    if (!put(work, work->place, (uint8_t)address))
        return 9;
    if (nibble >= 3)
        return 0;
    work->place++;
    return put(work, work->place, (uint8_t)(address >> 8)) ? 0 : 9;
}

/* 0, or refusal 8 or 9 with its place in the work. */
static inline uint32_t put_nibble(work *work, unsigned copy, unsigned nibble, uint32_t word)
{
    uint8_t byte = codes[word >> 4 * nibble & 15];
    if (put(work, pointer_of(work->image + work->m, copy, nibble), byte))
        return 0;
    uint32_t spare = take_spare(work, nibble < 3, byte);
    if (spare == 0) {
        work->place = nibble + 8 * copy;
        return 8;
    }
    return put_pointer(work, copy, nibble, spare);
}

static aside uint32_t store(work *work, uint32_t count)
{
    uint32_t code = 0;
    for (unsigned i = 0; i < 16 && code == 0; i++)
        code = put_nibble(work, i / 8, i % 8, count ^ count >> 1);
    return code;
}

static inline lyre_answer answer_of(const work *work, uint32_t code, uint32_t count, int64_t lag)
{
    if (code != 0)
        return (lyre_answer){.code = code, .place = work->place, .writes = work->writes, .tried = work->tried};
    return (lyre_answer){.count = count, .lag = lag, .writes = work->writes, .tried = work->tried};
}

static inline lyre_answer open_first(uint8_t *image, uint32_t *lives, size_t m, size_t s, size_t e)
{
    work work = {.image = image, .lives = lives, .m = m, .ends = {(uint32_t)s - 1, (uint32_t)e + 1}};
    uint8_t map[24] = {0xA5, 0x5A};
    for (unsigned copy = 0; copy < 2; copy++) {
#pragma GCC unroll 8
        for (unsigned nibble = 0; nibble < 8; nibble++) {
            uint32_t taken = take_spare(&work, nibble < 3, 0x80);
            if (unusual(taken == 0))
                return (lyre_answer){.code = 8, .place = nibble + 8 * copy, .writes = work.writes};
            map[offset_of(copy, nibble)] = (uint8_t)taken;
            if (nibble < 3)
                map[offset_of(copy, nibble) + 1] = (uint8_t)(taken >> 8);
        }
    }
    for (size_t i = 2; i < 24; i++)
        if (unusual(!put(&work, m + i, map[i])))
            return (lyre_answer){.code = 9, .place = m + i, .writes = work.writes};
    for (size_t i = 0; i < 2; i++)
        if (unusual(!put(&work, m + i, map[i])))
            return (lyre_answer){.code = 9, .place = m + i, .writes = work.writes};
    return (lyre_answer){.writes = work.writes};
}

static aside lyre_answer open_damaged(work work)
{
    lyre_answer read = read_damaged(work.image, work.image + work.m);
    if (read.code != 0)
        return read;
    return answer_of(&work, store(&work, read.count), read.count, read.lag);
}

static aside lyre_answer step_damaged(work work)
{
    lyre_answer read = read_damaged(work.image, work.image + work.m);
    if (read.code != 0)
        return read;
    if (read.count == UINT32_MAX)
        return refuse(7);
    uint32_t code = store(&work, read.count);
    if (code == 0)
        code = store(&work, read.count + 1);
    return answer_of(&work, code, read.count + 1, read.lag);
}

/* One of the two cells is worn; the other nibbles are as they should be. */
static aside lyre_answer step_moving(work work, uint32_t next, unsigned nibble)
{
    uint32_t word = next ^ next >> 1, code = put_nibble(&work, 0, nibble, word);
    if (code == 0)
        code = put_nibble(&work, 1, nibble, word);
    return answer_of(&work, code, next, 0);
}

/* The doors */

lyre_answer fast_open(uint8_t *image, size_t n, uint32_t *lives, size_t lives_n, size_t m, size_t s, size_t e)
{
    ends ends;
    uint32_t count;
    if (unusual(n - 41 > 4096 - 41 || lives_n != n))
        return refuse(1);
    uint32_t code = check(image, n, m, s, e, &ends);
    if (code == 3)
        return open_first(image, lives, m, s, e);
    if (unusual(code != 0))
        return refuse(code);
    if (unusual(!read_settled(image, image + m, &count)))
        return open_damaged((work){.image = image, .lives = lives, .m = m, .ends = ends});
    return (lyre_answer){.count = count};
}

lyre_read_answer fast_read(const uint8_t *image, size_t n, size_t m, size_t s, size_t e)
{
    ends ends;
    uint32_t count;
    if (unusual(n - 41 > 4096 - 41))
        return (lyre_read_answer){.code = 1};
    uint32_t code = check(image, n, m, s, e, &ends);
    if (unusual(code != 0))
        return (lyre_read_answer){.code = code};
    if (unusual(!read_settled(image, image + m, &count)))
        return read_mended(image, image + m);
    return (lyre_read_answer){.count = count};
}

lyre_answer fast_step(uint8_t *image, size_t n, uint32_t *lives, size_t lives_n, size_t m, size_t s, size_t e)
{
    ends ends;
    uint32_t count;
    if (unusual(n - 41 > 4096 - 41 || lives_n != n))
        return refuse(1);
    uint32_t code = check(image, n, m, s, e, &ends);
    if (unusual(code != 0))
        return refuse(code);
    if (unusual(!read_settled(image, image + m, &count)))
        return step_damaged((work){.image = image, .lives = lives, .m = m, .ends = ends});
    if (unusual(count == UINT32_MAX))
        return refuse(7);
    /* One bit of the Gray word changes, so one cell in each copy. */
    uint32_t next = count + 1;
    unsigned nibble = (unsigned)__builtin_ctz(next) / 4;
    uint8_t byte = codes[(next ^ next >> 1) >> 4 * nibble & 15];
    size_t one = pointer_of(image + m, 0, nibble), other = pointer_of(image + m, 1, nibble);
    if (unusual(lives[one] == 0 || lives[other] == 0))
        return step_moving((work){.image = image, .lives = lives, .m = m, .ends = ends}, next, nibble);
    lives[one]--;
    lives[other]--;
    image[one] = image[other] = byte;
    return (lyre_answer){.count = next, .writes = 2};
}

lyre_part fast_map_part(const uint8_t *image, size_t n, size_t m, size_t s, size_t e, uint32_t copy)
{
    ends ends;
    uint32_t code = n - 41 > 4096 - 41 ? 1 : check(image, n, m, s, e, &ends);
    if (code == 0 && copy - 1 > 1)
        code = 16;
    return code != 0 ? (lyre_part){.code = code} : (lyre_part){.start = m + 2 + 11 * (copy - 1), .length = 11};
}

uint32_t fast_tray(const uint8_t *tray, size_t length, size_t each, size_t m, size_t s, size_t e, uint32_t *counts, size_t counts_n,
                   uint32_t *codes, size_t codes_n)
{
    if (unusual(each == 0 || length % each != 0))
        return 12;
    size_t images = length / each;
    if (unusual(images - 1 > 63 || counts_n < images || codes_n < images))
        return 12;
    for (size_t i = 0; i < images; i++, tray += each) {
        lyre_read_answer answer = fast_read(tray, each, m, s, e);
        counts[i] = answer.count;
        codes[i] = answer.code;
    }
    return 0;
}
