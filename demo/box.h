/*
 * The starter box: an 8049 with the ROM of box.asm, its wiring and its clock.
 */
#ifndef BOX_H
#define BOX_H

#include "mcs48.h"

#include <stdbool.h>
#include <stddef.h>
#include <stdint.h>

enum { ROM_SIZE = 2048, RAM_SIZE = 128 };

extern const uint8_t box_rom[ROM_SIZE];

/* A machine cycle is 15 periods of the crystal. */
enum { CRYSTAL_HZ = 4096, CYCLES_A_MINUTE = CRYSTAL_HZ * 60 / 15 };

struct box {
    uint8_t state[MCS48_STATE_BYTES];
    uint8_t ram[RAM_SIZE];
    /* The levels of the pins in each cycle of a minute, after the `left` of the minute before. */
    uint32_t samples[1 + CYCLES_A_MINUTE];
    size_t left; /* 0 or 1 */
};

/* An emulator runs the box over the first `count` of its samples and returns how many it used. */
typedef size_t emulator(struct box *box, size_t count);

/* As switched on, with its RAM all 0. */
void box_power_up(struct box *box);

/* The levels of all pins. What the box doesn't use is high, Stop is not pressed. */
uint32_t box_pins(bool message, bool contact_closed);

/* Ends the program unless the number is 0: the ROM and the pins give no reason for a refusal. */
void box_accept(unsigned number);

/* One minute with the same levels in every cycle. */
void box_minute(struct box *box, emulator *run, uint32_t pins);

bool box_relay_on(const struct box *box);
bool box_holds_message(const struct box *box);
unsigned box_minutes(const struct box *box);

#endif
