/*
 * The emulators that the box can be run on.
 */
#ifndef EMULATORS_H
#define EMULATORS_H

#include "box.h"

/* The proved chip, from libmcs48_c.a. */
emulator proved_chip;

/* The independent second emulator of tests/second. */
emulator second_emulator;

/*
 * A wrong copy of the second emulator, made by demo/run: in a step of two cycles it looks for an
 * overflow after the second cycle only.
 */
emulator wrong_copy;

#endif
