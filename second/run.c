/* Runs a comparing program: PROGRAM SEED COUNT [FIRST]. With FIRST the worked cases are left out and COUNT random cases from number
   FIRST on are run, which repeats a reported one. */

#include "run.h"

#include <inttypes.h>
#include <stdio.h>
#include <stdlib.h>
#include <string.h>

uint64_t cases, calls;
static uint64_t seed, case_number;
static bool in_worked = true;

/* splitmix64 */
static uint64_t state;

uint64_t draw(void)
{
    uint64_t x = state += 0x9E3779B97F4A7C15;
    x = (x ^ (x >> 30)) * 0xBF58476D1CE4E5B9;
    x = (x ^ (x >> 27)) * 0x94D049BB133111EB;
    return x ^ (x >> 31);
}

/* So that a case is given by its seed and number alone. */
static void start_draws(void)
{
    state = seed;
    state = draw() ^ case_number;
    state = draw();
}

size_t below(size_t limit)
{
    return (size_t)(draw() % limit);
}

size_t between(size_t lowest, size_t highest)
{
    return lowest + below(highest - lowest + 1);
}

bool chance(unsigned percent)
{
    return below(100) < percent;
}

size_t smaller(size_t one, size_t other)
{
    return one < other ? one : other;
}

static const uint8_t guard_byte = 0xC3;

void *lend_bytes(void *room, size_t shift, const void *bytes, size_t number)
{
    uint8_t *lent = (uint8_t *)room + guard + shift;
    memset(lent - guard, guard_byte, guard);
    memcpy(lent, bytes, number);
    memset(lent + number, guard_byte, guard);
    return lent;
}

/* The first byte is right, and each of the others is as the one before it. */
static bool guard_whole(const uint8_t *bytes)
{
    return bytes[0] == guard_byte && memcmp(bytes, bytes + 1, guard - 1) == 0;
}

bool guards_whole(const void *lent, size_t number)
{
    return guard_whole((const uint8_t *)lent - guard) && guard_whole((const uint8_t *)lent + number);
}

void begin(uint64_t number)
{
    case_number = number;
}

void where(void)
{
    if (in_worked)
        printf("worked case %" PRIu64 "\n", case_number);
    else
        printf("random case: seed %" PRIu64 " number %" PRIu64 " (again: %s %" PRIu64 " 1 %" PRIu64 ")\n", seed, case_number,
               program, seed, case_number);
}

void expect(bool holds, const char *what)
{
    if (holds)
        return;
    printf("NOT AS THE DOCUMENT SAYS: %s\n", what);
    where();
    exit(1);
}

static bool too_seldom;

void print_times(bool possible, uint64_t times, uint64_t least)
{
    if (!possible) {
        printf("%9s", "-");
        return;
    }
    printf("%c%8" PRIu64, times < least ? '!' : ' ', times);
    too_seldom |= times < least;
}

void end_if_seldom(void)
{
    if (!too_seldom)
        return;
    printf("HARDLY MET: what is marked !\n");
    exit(1);
}

int main(int count_of_words, char **words)
{
    if (count_of_words != 3 && count_of_words != 4) {
        fprintf(stderr, "use: %s SEED COUNT [FIRST]\n", program);
        return 2;
    }
    seed = strtoull(words[1], NULL, 10);
    uint64_t count = strtoull(words[2], NULL, 10);
    uint64_t first = count_of_words == 4 ? strtoull(words[3], NULL, 10) : 0;
    if (count_of_words == 3)
        worked_cases();
    in_worked = false;
    for (; cases < count; cases++) {
        case_number = first + cases;
        start_draws();
        random_case();
    }
    print_met();
    printf("seed %" PRIu64 ": %" PRIu64 " random cases%s, %" PRIu64 " calls, no difference\n", seed, cases,
           count_of_words == 3 ? " and the worked ones" : "", calls);
    return 0;
}
