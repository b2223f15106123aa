/* Random cuts. A case is a random chip, with opens and steps on it that lose their power in some write, and what comes after them. */

#include "chips.h"
#include "cutcompare.h"

#include <string.h>

static kept before, done;

/* What the call itself would have left in place of the torn byte: the trial with power for one write more has written it. */
static uint8_t own_byte(door plain, size_t power)
{
    static kept chip;
    second_answer (*const trial)(uint8_t *, size_t, uint32_t *, size_t, size_t, size_t, size_t, size_t, uint8_t) =
        plain == door_open ? second_trial_open : second_trial_step;
    const places at = before.at;
    chip = before;
    second_answer answer = trial(chip.image, at.n, chip.lives, at.lives_n, at.m, at.s, at.e, power, 0);
    if (answer.code != 11)
        return 0;
    chip = before;
    trial(chip.image, at.n, chip.lives, at.lives_n, at.m, at.s, at.e, power + 1, 0);
    return chip.image[answer.place];
}

static uint8_t draw_torn(door plain, size_t power)
{
    switch (below(6)) {
    case 0:
        return own_byte(plain, power);
    case 1:
        return codes[below(16)];
    case 2:
        return codes[below(16)] ^ (uint8_t)(1u << below(8));
    case 3:
        return chance(50) ? 0x00 : 0xFF;
    default:
        return (uint8_t)draw();
    }
}

/* As a rule too little for all of the call's writes. */
static size_t draw_power(uint64_t writes)
{
    size_t kind = below(100);
    if (kind < 80)
        return below(writes + 1);
    if (kind < 90)
        return writes - (writes > 0);
    return kind < 95 ? writes + below(3) : chance(50) ? (size_t)draw() : SIZE_MAX - below(2);
}

/* Whether a step would ask for nothing but the next count: both copies hold every code of their count. */
static bool is_settled(void)
{
    static kept chip;
    keep(&chip);
    const places at = lent;
    second_answer answer = second_read(chip.image, at.n, at.m, at.s, at.e).answer;
    return answer.code == 0 && at.lives_n == at.n && answer.lag == 0 &&
           second_open(chip.image, at.n, chip.lives, at.n, at.m, at.s, at.e).writes == 0;
}

/* The plain call tells how many writes there are. With power for them the trial has to be that call, and with less it is cut. */
static void any_cut(door plain)
{
    const bool settled = is_settled();
    keep(&before);
    const second_answer was = second_read(before.image, lent.n, lent.m, lent.s, lent.e).answer;
    const second_answer whole = call(plain);
    keep(&done);
    go_back(&before);
    const size_t power = draw_power(whole.writes);
    const second_answer answer = cut(plain, power, draw_torn(plain, power));
    if (power >= whole.writes) {
        expect(same_answer(answer, whole) && is_as(&done), "with power for every write it is the plain call");
        return;
    }
    expect(answer.code == 11, "with less power it is cut");
    if (plain == door_step && settled) {
        const second_answer read = call(door_read);
        expect(read.code != 0 || read.count == was.count || read.count == was.count + 1,
               "a settled chip reads the count before the step, the next, or is refused");
    }
}

void random_case(void)
{
    draw_chip();
    lend(chance(6) ? spoil(good) : good, image, lives);
    for (size_t times = between(1, 3); times > 0; times--) {
        any_cut(chance(50) ? door_open : door_step);
        if (chance(80))
            call(chance(70) ? door_open : door_step);
        if (chance(30))
            call(door_read);
        if (chance(15) && lent.n == good.n && lent.lives_n == good.n)
            disturb();
    }
}
