/* Random cases. A case is a random chip and a run of calls on it. */

#include "chips.h"

const char program[] = "compare";

static uint32_t draw_copy(void)
{
    static const uint32_t others[] = {0, 3, 4, 257, UINT32_MAX, UINT32_C(0x80000001), UINT32_C(0x10002)};
    return chance(80) ? 1 + (uint32_t)below(2) : others[below(7)];
}

static void any_calls(bool whole)
{
    for (size_t times = between(1, 6); times > 0; times--) {
        size_t kind = below(100);
        if (kind < 15)
            call_map_part(draw_copy());
        else
            call(kind < 40 ? door_open : kind < 60 ? door_read : door_step);
        if (whole && chance(15))
            disturb();
    }
}

/* A small chip from its first opening to the refusal that ends its life, and a little beyond. */
static void whole_life(void)
{
    uint32_t most = (uint32_t)between(1, 4);
    for (size_t i = 0; i < good.n; i++) {
        image[i] = 0xFF;
        lives[i] = 1 + (uint32_t)below(most);
    }
    for (size_t i = 0; i < 24; i++)
        lives[good.m + i] += chance(50) ? 40 : (uint32_t)below(8);
    good.e = smaller(good.e, good.s + between(15, 40));
    lend(good, image, lives);
    if (call(door_open).code == 0)
        for (size_t times = 0; times < 200 && call(door_step).code == 0; times++)
            if (chance(5))
                call(door_read);
    any_calls(false);
}

void random_case(void)
{
    draw_chip();
    if (chance(4)) {
        whole_life();
    } else if (chance(18)) {
        lend(spoil(good), image, lives);
        any_calls(false);
    } else {
        lend(good, image, lives);
        any_calls(true);
    }
}

void print_met(void)
{
    print_codes();
}
