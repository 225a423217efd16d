/*
 * The afternoon, evening and night of the story, minute by minute.
 */
#ifndef NIGHT_H
#define NIGHT_H

#include "box.h"

/* Minutes since midnight; after the next midnight they count on. */
enum {
    SWITCHED_ON = 15 * 60 + 55,
    MESSAGE = 16 * 60,
    DROPPED = MESSAGE + 10,
    CONTACT_CLOSES = (24 + 2) * 60 + 20,
    NEVER = -1
};

/* It is played for another ten minutes once the contact has closed. */
enum { AFTERWARDS = 10, NIGHT_MINUTES = CONTACT_CLOSES + AFTERWARDS - SWITCHED_ON };

struct night {
    int dropped;   /* when the box dropped the message */
    int started;   /* when it started the blower */
    bool relay_on; /* at the end */
};

/* Plays the night; the motor's thermal contact is open until `contact_closes`. */
struct night night_play(emulator *run, int contact_closes);

/* The same, with a line on standard output whenever something happens. */
struct night night_show(emulator *run, int contact_closes);

/* After how many of the NIGHT_MINUTES two emulators have the same state, RAM and samples left. */
int night_alike(emulator *one, emulator *other);

#endif
