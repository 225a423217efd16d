/*
 * The night of twenty past two: a Start message of four in the afternoon, and what the starter box
 * makes of it, on the proved chip and on an emulator that loses timer overflows.
 *
 * Exit status 0 exactly if all came out as the story has it.
 */
#include "emulators.h"
#include "night.h"
#include "overflows.h"

#include <stdio.h>
#include <stdlib.h>

static bool all_so = true;

static void expect(bool so, const char *what)
{
    if (!so) {
        fprintf(stderr, "demo: not so: %s\n", what);
        all_so = false;
    }
}

static void heading(const char *chip)
{
    printf("\n%-60s  counted  relay\n", chip);
}

static void show_proved_chip(void)
{
    heading("The proved chip");
    struct night night = night_show(proved_chip, CONTACT_CLOSES);

    expect(night.dropped == DROPPED, "the proved chip drops the message after ten minutes");
    expect(night.started == NEVER && !night.relay_on, "the proved chip leaves the blower off");
}

static void show_wrong_copy(void)
{
    heading("A wrong emulator: sees overflows in a step's last cycle only");
    struct night night = night_show(wrong_copy, CONTACT_CLOSES);

    expect(night.dropped == NEVER, "the wrong copy never drops the message");
    expect(night.started == CONTACT_CLOSES && night.relay_on,
           "the wrong copy starts the blower when the contact closes");
}

static void show_overflows(void)
{
    struct overflows seen = overflows_while_held();

    printf("\nWhy: in ten minutes the timer overflows %u times, %u times in the first cycle\n"
           "of a jump. On the proved chip the call to location 7 is complete %u cycles later.\n",
           seen.all, seen.in_first_cycle, seen.longest);
    expect(seen.all == 20 && seen.in_first_cycle == 20, "all overflows are in the first cycle");
    expect(seen.called == 20 && seen.longest == 3, "each call is complete three cycles later");
}

static void show_early_contact(void)
{
    struct night night = night_play(proved_chip, MESSAGE + 5);

    printf("If the contact closes at 16:05, the proved chip starts the blower at %02d:%02d.\n",
           night.started / 60 % 24, night.started % 60);
    expect(night.started == MESSAGE + 5 && night.relay_on, "a message held for less is obeyed");
}

static void show_second_emulator(void)
{
    int alike = night_alike(proved_chip, second_emulator);

    printf("The independent second emulator: same state and RAM after %d of %d minutes.\n", alike,
           NIGHT_MINUTES);
    expect(alike == NIGHT_MINUTES, "the second emulator agrees after every minute");
}

int main(void)
{
    printf("The night of twenty past two, with a crystal of %d,%03d Hz instead of 6 MHz.\n",
           CRYSTAL_HZ / 1000, CRYSTAL_HZ % 1000);
    show_proved_chip();
    show_wrong_copy();
    show_overflows();
    show_early_contact();
    show_second_emulator();
    return all_so ? EXIT_SUCCESS : EXIT_FAILURE;
}
