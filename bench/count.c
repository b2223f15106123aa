#define _GNU_SOURCE /* for the registers that a signal handler is shown */

#include "count.h"

#include <signal.h>
#include <stdlib.h>
#include <string.h>
#include <ucontext.h>

static volatile uint64_t instructions;
static uint64_t last_place, around_writing, around_reading, around_hex, around_tray;

/* A repeated string instruction traps once a round at one and the same place, and counts as one instruction. */
static void on_trap(int number, siginfo_t *information, void *context)
{
    (void)number, (void)information;
    uint64_t place = (uint64_t)((ucontext_t *)context)->uc_mcontext.gregs[REG_RIP];
    instructions += place != last_place;
    last_place = place;
}

#define trap_on() __asm__ volatile("pushfq\n\torq $0x100, (%%rsp)\n\tpopfq" ::: "memory", "cc")
#define trap_off() __asm__ volatile("pushfq\n\tandq $~0x100, (%%rsp)\n\tpopfq" ::: "memory", "cc")

/* A door of one instruction, which does for every kind. */
__asm__(".text\n.globl door_that_returns\ndoor_that_returns:\n\tret\n");
writing_door door_that_returns;

static __attribute__((noinline)) uint64_t writing(writing_door *door, uint8_t *image, uint32_t *lives, places at,
                                                  lyre_answer *answer)
{
    instructions = 0;
    trap_on();
    *answer = door(image, at.n, lives, at.n, at.m, at.s, at.e);
    trap_off();
    return instructions;
}

static __attribute__((noinline)) uint64_t reading(reading_door *door, const uint8_t *image, places at, lyre_read_answer *answer)
{
    instructions = 0;
    trap_on();
    *answer = door(image, at.n, at.m, at.s, at.e);
    trap_off();
    return instructions;
}

static __attribute__((noinline)) uint64_t hex(hex_door *door, const uint8_t *from, size_t length, uint8_t *into, size_t room,
                                              lyre_hex *answer)
{
    instructions = 0;
    trap_on();
    *answer = door(from, length, into, room);
    trap_off();
    return instructions;
}

static __attribute__((noinline)) uint64_t tray_reading(tray_door *door, const uint8_t *tray, size_t length, places at, entries *rows,
                                                       uint32_t *answer)
{
    instructions = 0;
    trap_on();
    *answer = door(tray, length, at.n, at.m, at.s, at.e, rows->counts, most_images, rows->codes, most_images);
    trap_off();
    return instructions;
}

void count_begin(void)
{
    struct sigaction action;
    memset(&action, 0, sizeof action);
    action.sa_sigaction = on_trap;
    action.sa_flags = SA_SIGINFO;
    if (sigaction(SIGTRAP, &action, NULL) != 0)
        exit(2);
    uint8_t image[1];
    uint32_t lives[1];
    lyre_answer answer;
    lyre_read_answer read_answer;
    lyre_hex hex_answer;
    entries rows;
    uint32_t tray_answer;
    around_writing = writing(door_that_returns, image, lives, (places){0}, &answer) - 1;
    around_reading = reading((reading_door *)(void *)door_that_returns, image, (places){0}, &read_answer) - 1;
    around_hex = hex((hex_door *)(void *)door_that_returns, image, 0, image, 0, &hex_answer) - 1;
    around_tray = tray_reading((tray_door *)(void *)door_that_returns, image, 0, (places){0}, &rows, &tray_answer) - 1;
}

uint64_t count_writing(writing_door *door, uint8_t *image, uint32_t *lives, places at, lyre_answer *answer)
{
    return writing(door, image, lives, at, answer) - around_writing;
}

uint64_t count_reading(reading_door *door, const uint8_t *image, places at, lyre_read_answer *answer)
{
    return reading(door, image, at, answer) - around_reading;
}

uint64_t count_hex(hex_door *door, const uint8_t *from, size_t length, uint8_t *into, size_t room, lyre_hex *answer)
{
    return hex(door, from, length, into, room, answer) - around_hex;
}

uint64_t count_tray(tray_door *door, const uint8_t *tray, size_t length, places at, entries *rows, uint32_t *answer)
{
    return tray_reading(door, tray, length, at, rows, answer) - around_tray;
}
