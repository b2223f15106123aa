/* Random chips, made to be near the edges of document 01: sound maps with few spares, damaged maps, worn cells, copies that lag or are
   lost, counts near a carry or the end, and settings one off a limit. */

#include "chips.h"

places good;
uint8_t image[largest];
uint32_t lives[largest];
static size_t pointers[16];

const uint8_t codes[16] = {
    0x80, 0x07, 0x19, 0x61, 0x2A, 0x52, 0xB3, 0xCB, 0x34, 0x4C, 0xAD, 0xD5, 0x9E, 0xE6, 0xF8, 0x7F,
};

static bool low(size_t pointer)
{
    return pointer % 8 < 3;
}

static void draw_good_places(void)
{
    static const size_t edges[] = {41, 42, 64, 129, 255, 256, 257, 272, 280};
    size_t kind = below(100);
    size_t n = kind < 58 ? between(41, 300) : kind < 72 ? between(41, 60) : kind < 86 ? edges[below(9)] : between(270, 800);
    if (chance(1))
        n = chance(50) ? 4096 : between(4000, 4096);
    good.n = good.lives_n = n;
    bool map_first = chance(70);
    if (map_first) {
        good.m = chance(60) ? 1 : between(1, smaller(n - 40, 222));
        good.s = chance(60) ? good.m + 24 : between(good.m + 24, smaller(246, n - 16));
    } else {
        good.s = chance(50) ? 1 : between(1, smaller(246, n - 40));
    }
    size_t last = map_first ? n - 1 : n - 25;
    good.e = chance(40) ? last : chance(50) ? smaller(last, good.s + between(15, 30)) : between(good.s + 15, last);
    if (!map_first)
        good.m = chance(50) ? good.e + 1 : between(good.e + 1, n - 24);
}

/* `wanted` different addresses from lowest to highest, in any order. */
static void draw_addresses(size_t lowest, size_t highest, size_t wanted, size_t *chosen)
{
    size_t have = 0;
    for (size_t address = lowest; have < wanted; address++)
        if (below(highest - address + 1) < wanted - have)
            chosen[have++] = address;
    for (size_t i = wanted - 1; i > 0; i--) {
        size_t other = below(i + 1), kept = chosen[i];
        chosen[i] = chosen[other];
        chosen[other] = kept;
    }
}

/* As a first opening lays it. */
static void lay_pointers(size_t *highs, size_t *lows)
{
    for (size_t i = 0; i < 10; i++)
        highs[i] = good.s + i;
    for (size_t i = 0; i < 6; i++)
        lows[i] = good.e - i;
}

/* Close together or far apart, with few spares between the kinds or many. */
static void strew_pointers(size_t *highs, size_t *lows)
{
    size_t last_border = smaller(255, good.e - 6); /* the last cell that can be High */
    size_t border = chance(25) ? last_border : between(good.s + 9, last_border);
    size_t first_high = chance(50) ? border - 9 : between(good.s, border - 9);
    size_t first_low = chance(30) ? border + 1 : chance(40) ? good.e - 5 : between(border + 1, good.e - 5);
    size_t page = 256 * between(1, 1 + good.e / 256);
    if (chance(50) && page > border && page <= good.e - 5) /* the next move changes both bytes of a pointer */
        first_low = page;
    if (chance(15))
        first_high = good.s;
    if (chance(15))
        first_low = border + 1;
    draw_addresses(first_high, chance(15) ? border : smaller(border, first_high + between(9, 40)), 10, highs);
    draw_addresses(first_low, chance(15) ? good.e : smaller(good.e, first_low + between(5, 20)), 6, lows);
}

static void draw_sound_map(void)
{
    size_t highs[10], lows[6];
    if (chance(35))
        lay_pointers(highs, lows);
    else
        strew_pointers(highs, lows);
    for (size_t i = 0; i < 16; i++)
        pointers[i] = low(i) ? lows[i / 8 * 3 + i % 8] : highs[i / 8 * 5 + i % 8 - 3];
}

static size_t map_cell(size_t pointer)
{
    size_t nibble = pointer % 8;
    return good.m + 2 + 11 * (pointer / 8) + (low(pointer) ? 2 * nibble : 3 + nibble);
}

static void write_pointer(size_t pointer, size_t address)
{
    image[map_cell(pointer)] = (uint8_t)address;
    if (low(pointer))
        image[map_cell(pointer) + 1] = (uint8_t)(address >> 8);
}

static uint32_t draw_count(void)
{
    switch (below(6)) {
    case 0:
        return (uint32_t)below(20);
    case 1:
        return UINT32_MAX - (uint32_t)below(4);
    case 2: /* a carry into some nibble */
        return (UINT32_C(1) << between(4, 31)) - 2 + (uint32_t)below(4);
    case 3:
        return (uint32_t)below(5000);
    default:
        return (uint32_t)draw();
    }
}

/* Copy 2's count for copy 1's; the differences may pass the type's top, as copies in a ruined chip may. */
static uint32_t draw_second_count(uint32_t count)
{
    size_t kind = below(100);
    if (kind < 60)
        return count;
    if (kind < 80)
        return count - 1;
    if (kind < 92)
        return count + 2 - (uint32_t)below(5);
    return draw_count();
}

static void write_count(size_t copy, uint32_t count)
{
    uint32_t word = count ^ (count >> 1);
    for (size_t nibble = 0; nibble < 8; nibble++)
        image[pointers[8 * copy + nibble]] = codes[(word >> (4 * nibble)) & 15];
}

static uint8_t lost_byte(void)
{
    static const uint8_t some[] = {0x00, 0xFF, 0x01, 0x02};
    return chance(50) ? some[below(4)] : (uint8_t)(codes[below(16)] ^ (3u << below(7)));
}

/* A nibble out of both copies; now and then one of them can still be mended. */
static void lose_nibble(size_t nibble)
{
    image[pointers[nibble]] = lost_byte();
    image[pointers[8 + nibble]] = chance(70) ? lost_byte() : codes[below(16)] ^ 1;
}

static void damage_data(void)
{
    for (size_t times = between(1, 4); times > 0; times--) {
        size_t pointer = below(16);
        switch (below(6)) {
        case 0:
        case 1:
            image[pointers[pointer]] ^= (uint8_t)(1u << below(8));
            break;
        case 2:
        case 3:
            image[pointers[pointer]] = lost_byte();
            break;
        case 4:
            image[pointers[pointer]] = (uint8_t)draw();
            break;
        default:
            lose_nibble(pointer % 8);
            if (chance(40))
                lose_nibble(below(8));
        }
    }
}

/* A weak data line: one bit is wrong in many cells. */
static void weaken_line(void)
{
    uint8_t bit = (uint8_t)(1u << below(8));
    for (size_t pointer = 0; pointer < 16; pointer++)
        if (chance(50))
            image[pointers[pointer]] ^= bit;
}

static void damage_map(void)
{
    size_t pointer = below(16), other = below(16);
    switch (below(6)) {
    case 0: /* out of the area, by one or by far */
        write_pointer(pointer, chance(50) ? good.s - 1 : chance(60) ? good.e + 1 : (size_t)draw());
        break;
    case 1: /* equal pointers, of one kind or of two */
        write_pointer(pointer, pointers[other]);
        break;
    case 2: { /* a Low one below the highest High one */
        size_t lowest = good.e;
        for (size_t i = 0; i < 16; i++)
            if (low(i))
                lowest = smaller(lowest, pointers[i]);
        write_pointer(3 + below(5), lowest + below(3));
        break;
    }
    case 3: { /* and the other way */
        size_t highest = good.s;
        for (size_t i = 0; i < 16; i++)
            if (!low(i) && pointers[i] > highest)
                highest = pointers[i];
        write_pointer(8 + below(3), highest - below(3));
        break;
    }
    case 4:
        image[good.m + 2 + below(22)] ^= (uint8_t)(1u << below(8));
        break;
    default: /* still in the area, as likely sound as not */
        write_pointer(pointer, between(good.s, good.e));
    }
}

static void damage_mark(void)
{
    switch (below(4)) {
    case 0:
        image[good.m] ^= (uint8_t)(1u << below(8));
        break;
    case 1:
        image[good.m + 1] ^= (uint8_t)(1u << below(8));
        break;
    case 2:
        image[good.m] = 0x5A;
        image[good.m + 1] = 0xA5;
        break;
    default:
        image[good.m] = image[good.m + 1] = 0xFF;
    }
}

/* Spares may already read what will be put in them. */
static void fill(void)
{
    size_t kind = below(8);
    uint8_t same = codes[below(16)];
    for (size_t i = 0; i < good.n; i++)
        image[i] = kind < 4    ? 0xFF
                   : kind == 4 ? same
                   : kind == 5 ? codes[below(16)]
                   : kind == 6 ? codes[below(4)]
                               : (uint8_t)draw();
}

static void draw_lives(void)
{
    size_t kind = below(8);
    for (size_t i = 0; i < good.n; i++)
        lives[i] = kind == 0   ? (uint32_t)below(3)
                   : kind == 1 ? (uint32_t)below(6)
                   : kind == 2 ? (uint32_t)draw()
                               : 1000 + (uint32_t)below(2);
    if (kind == 3) /* the map lasts, the area is nearly spent */
        for (size_t i = good.s; i <= good.e; i++)
            lives[i] = chance(25);
    if (kind == 4)
        for (size_t i = good.s; i <= good.e; i++)
            lives[i] = 0;
    if (chance(60)) /* cells that hold a nibble */
        for (size_t times = between(1, 5); times > 0; times--)
            lives[pointers[chance(50) ? 8 * below(2) + below(2) : below(16)]] = (uint32_t)below(3);
    if (chance(40)) /* cells that might */
        for (size_t times = between(1, 8); times > 0; times--)
            lives[between(good.s, good.e)] = (uint32_t)below(3);
    if (chance(25)) /* cells of the map */
        for (size_t times = between(1, 6); times > 0; times--)
            lives[good.m + below(24)] = (uint32_t)below(2);
}

void draw_cells(void)
{
    draw_sound_map();
    fill();
    if (chance(80)) {
        image[good.m] = 0xA5;
        image[good.m + 1] = 0x5A;
        for (size_t i = 0; i < 16; i++)
            write_pointer(i, pointers[i]);
        uint32_t count = draw_count();
        write_count(0, count);
        write_count(1, draw_second_count(count));
        if (chance(35))
            damage_data();
        if (chance(6))
            weaken_line();
        if (chance(12))
            damage_map();
        if (chance(8))
            damage_mark();
    }
}

void draw_chip(void)
{
    draw_good_places();
    draw_cells();
    draw_lives();
}

/* Settings one off a limit, at a limit, or near the type's top; cells and lives of another length. */
places spoil(places at)
{
    const size_t top = SIZE_MAX;
    const size_t far[] = {top, top - 1, top - 14, top - 15, top - 22, top - 23, top - 24, top / 2 + 1, (size_t)1 << 32};
    const size_t wrong_n[] = {0, 1, 24, 39, 40, 41, 42, 4095, 4096, 4097, 4150};
    const size_t wrong_m[] = {0, 1, at.n - 24, at.n - 23, at.s - 24, at.s - 23, at.e, at.e + 1, at.s, (at.m + 1) ^ 1};
    const size_t wrong_s[] = {0, 1, 246, 247, at.e - 15, at.e - 14, at.e + 1, at.m + 23, at.m + 24, at.m};
    const size_t wrong_e[] = {0, at.n - 1, at.n, at.s + 14, at.s + 15, at.s - 1, at.m, at.m - 1, at.m + 23, at.m + 24};
    const size_t wrong_lives[] = {0, at.n - 1, at.n + 1, smaller(2 * at.n, largest), at.n / 2};
    for (size_t times = chance(80) ? 1 : 2; times > 0; times--)
        switch (below(5)) {
        case 0:
            at.n = wrong_n[below(11)];
            at.lives_n = chance(90) ? at.n : good.n;
            break;
        case 1:
            at.m = chance(30) ? far[below(9)] + (chance(50) ? at.m : 0) : wrong_m[below(10)];
            break;
        case 2:
            if (at.e >= 262 && chance(40)) /* far enough for 246 and 247 to be told apart */
                at.s = 246 + below(2);
            else
                at.s = chance(30) ? far[below(9)] + (chance(50) ? at.s : 0) : wrong_s[below(10)];
            break;
        case 3:
            at.e = chance(30) ? far[below(9)] + (chance(50) ? at.e : 0) : wrong_e[below(10)];
            break;
        default:
            at.lives_n = wrong_lives[below(5)];
        }
    for (size_t i = good.n; i < at.n; i++)
        image[i] = 0xFF;
    for (size_t i = good.n; i < at.lives_n; i++)
        lives[i] = 5;
    return at;
}

/* Between two calls a cell may spoil or wear out. The pointers may have moved since, which only makes for other cells. */
void disturb(void)
{
    size_t address = chance(70) ? pointers[below(16)] : below(good.n);
    if (chance(50))
        set_cell(address, chance(70) ? cell(address) ^ (uint8_t)(1u << below(8)) : lost_byte());
    else
        set_life(address, (uint32_t)below(3));
}
