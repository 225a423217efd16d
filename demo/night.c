/*
 * The night, played on one emulator or on two side by side.
 */
#include "night.h"

#include <stdio.h>
#include <string.h>
#include <unistd.h>

/* What goes into the box in a minute, and what can be seen of it at the minute's end. */
struct minute {
    bool message;
    bool contact_closed;
    bool held;
    bool relay_on;
    unsigned counted;
};

static uint32_t pins_at(int time, int contact_closes)
{
    return box_pins(time == MESSAGE, time >= contact_closes);
}

static struct minute play_minute(struct box *box, emulator *run, int time, int contact_closes)
{
    box_minute(box, run, pins_at(time, contact_closes));
    return (struct minute){
        .message = time == MESSAGE,
        .contact_closed = time >= contact_closes,
        .held = box_holds_message(box),
        .relay_on = box_relay_on(box),
        .counted = box_minutes(box),
    };
}

/* The words for a minute: what came from outside, and what the box made of it. */

static const char *cause(const struct minute *before, const struct minute *now, int time)
{
    if (time == SWITCHED_ON)
        return "the box is switched on; ";
    if (now->message && !before->message)
        return "the Start message arrives; ";
    if (now->contact_closed && !before->contact_closed)
        return "the contact closes; ";
    return "";
}

static const char *effect(const struct minute *before, const struct minute *now)
{
    if (now->relay_on && !before->relay_on)
        return "the blower starts";
    if (now->held && !before->held)
        return "the contact is open: held";
    if (now->held)
        return "the message is still held";
    if (before->held)
        return "the message is dropped";
    return "no message is held";
}

static bool eventful(const struct minute *before, const struct minute *now, int time)
{
    return *cause(before, now, time) != '\0' || now->held != before->held ||
           now->relay_on != before->relay_on;
}

/* Times at which a look is taken at the box even if nothing happens. */
static bool look(int time)
{
    return time == MESSAGE + 5 || time == DROPPED || time == 24 * 60;
}

static void say(const struct minute *before, const struct minute *now, int time)
{
    char words[64];

    snprintf(words, sizeof words, "%s%s", cause(before, now, time), effect(before, now));
    printf("  %02d:%02d  %-52s %3u min  %s\n", time / 60 % 24, time % 60, words, now->counted,
           now->relay_on ? "ON" : "off");
}

/* A clock for the person who waits, and for no file. */

static void show_clock(int time)
{
    if (time % 10 == 0 && isatty(STDERR_FILENO))
        fprintf(stderr, "\r%02d:%02d", time / 60 % 24, time % 60);
}

static void clear_clock(void)
{
    if (isatty(STDERR_FILENO))
        fprintf(stderr, "\r     \r");
}

static struct night play(emulator *run, int contact_closes, bool show)
{
    struct night night = {.dropped = NEVER, .started = NEVER};
    struct minute before = {0};
    struct box box;

    box_power_up(&box);
    for (int time = SWITCHED_ON; time < contact_closes + AFTERWARDS; time++) {
        struct minute now = play_minute(&box, run, time, contact_closes);

        if (show && (eventful(&before, &now, time) || look(time)))
            say(&before, &now, time);
        if (before.held && !now.held && !now.relay_on)
            night.dropped = time;
        if (!before.relay_on && now.relay_on)
            night.started = time;
        before = now;
        show_clock(time);
    }
    clear_clock();
    night.relay_on = before.relay_on;
    return night;
}

struct night night_play(emulator *run, int contact_closes)
{
    return play(run, contact_closes, false);
}

struct night night_show(emulator *run, int contact_closes)
{
    return play(run, contact_closes, true);
}

static bool alike(const struct box *one, const struct box *other)
{
    return memcmp(one->state, other->state, sizeof one->state) == 0 &&
           memcmp(one->ram, other->ram, sizeof one->ram) == 0 && one->left == other->left;
}

int night_alike(emulator *one, emulator *other)
{
    struct box box_one;
    struct box box_other;
    int minutes = 0;

    box_power_up(&box_one);
    box_power_up(&box_other);
    for (int time = SWITCHED_ON; time < CONTACT_CLOSES + AFTERWARDS; time++) {
        box_minute(&box_one, one, pins_at(time, CONTACT_CLOSES));
        box_minute(&box_other, other, pins_at(time, CONTACT_CLOSES));
        minutes += alike(&box_one, &box_other);
        show_clock(time);
    }
    clear_clock();
    return minutes;
}
