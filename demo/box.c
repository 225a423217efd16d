/*
 * The starter box: switched on, run for a minute, looked at.
 */
#include "box.h"

#include <stdio.h>
#include <stdlib.h>
#include <string.h>

/* The bytes that follow are the code column of box.asm; the rest of the ROM is 0. */
const uint8_t box_rom[ROM_SIZE] = {
#include "box_bytes.inc"
};

/* Places in the state, in a sample and in RAM. */
enum { STATE_F1 = 4, STATE_P1 = 16 };
enum { P1_RELAY_OFF = 0x01 };
enum { R7_MINUTES = 7 };
#define PINS_HIGH UINT32_C(0x0FFFFFFF)
#define PIN_T0 (UINT32_C(1) << 25)
#define PIN_T1 (UINT32_C(1) << 26)

void box_power_up(struct box *box)
{
    memset(box, 0, sizeof *box);
    mcs48_power_up(box->state, sizeof box->state);
}

uint32_t box_pins(bool message, bool contact_closed)
{
    uint32_t pins = PINS_HIGH & ~PIN_T0 & ~PIN_T1;

    if (message)
        pins |= PIN_T0;
    if (contact_closed)
        pins |= PIN_T1;
    return pins;
}

void box_accept(unsigned number)
{
    if (number != 0) {
        fprintf(stderr, "demo: the box was refused, number %u\n", number);
        exit(EXIT_FAILURE);
    }
}

void box_minute(struct box *box, emulator *run, uint32_t pins)
{
    size_t count = box->left + CYCLES_A_MINUTE;

    for (size_t i = box->left; i < count; i++)
        box->samples[i] = pins;
    size_t used = run(box, count);
    /* A step needs two samples: one alone at the end waits for the next minute. */
    box->left = count - used;
    if (box->left > 0)
        box->samples[0] = box->samples[used];
}

bool box_relay_on(const struct box *box)
{
    return (box->state[STATE_P1] & P1_RELAY_OFF) == 0;
}

bool box_holds_message(const struct box *box)
{
    return box->state[STATE_F1] == 1;
}

unsigned box_minutes(const struct box *box)
{
    return box->ram[R7_MINUTES];
}
