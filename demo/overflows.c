/*
 * The timer's overflows, seen in the state between two steps.
 */
#include "overflows.h"
#include "box.h"

enum { STATE_PC_LOW = 1, STATE_PC_HIGH = 2, STATE_T = 6, STATE_DIVIDER = 7, STATE_IN_SERVICE = 13 };
enum { TIMER_VECTOR = 7 };

/* One step, with the same levels in both of its cycles; returns how many it took. */
static unsigned step(struct box *box, uint32_t pins)
{
    uint64_t answer = mcs48_step(MCS48_INTEL, box_rom, sizeof box_rom, NULL, 0, box->ram,
                                 sizeof box->ram, box->state, sizeof box->state, pins, pins);

    box_accept(mcs48_number(answer));
    return mcs48_cycles(answer);
}

static bool at_timer_vector(const struct box *box)
{
    return box->state[STATE_IN_SERVICE] == 1 && box->state[STATE_PC_LOW] == TIMER_VECTOR &&
           box->state[STATE_PC_HIGH] == 0;
}

/* After an overflow in a step of so many cycles: takes the next step, and returns its cycles. */
static unsigned follow(struct overflows *seen, struct box *box, uint32_t pins, unsigned cycles)
{
    /* The overflow left the divider at 0; what it holds now are the cycles since. */
    unsigned since = box->state[STATE_DIVIDER];
    unsigned next = step(box, pins);

    seen->all++;
    seen->in_first_cycle += cycles == 2 && since == 1;
    seen->called += at_timer_vector(box);
    if (since + next > seen->longest)
        seen->longest = since + next;
    return next;
}

struct overflows overflows_while_held(void)
{
    struct overflows seen = {0};
    struct box box;

    box_power_up(&box);
    /* The message comes in the first of eleven minutes. The timer runs only while it is held. */
    for (unsigned spent = 0; spent < 11 * CYCLES_A_MINUTE;) {
        uint32_t pins = box_pins(spent < CYCLES_A_MINUTE, false);
        uint8_t t = box.state[STATE_T];
        unsigned cycles = step(&box, pins);

        spent += cycles;
        if (t == 0xFF && box.state[STATE_T] == 0)
            spent += follow(&seen, &box, pins, cycles);
    }
    return seen;
}
