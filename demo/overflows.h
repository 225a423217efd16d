/*
 * The timer's overflows while a message is held, step by step on the proved chip.
 */
#ifndef OVERFLOWS_H
#define OVERFLOWS_H

struct overflows {
    unsigned all;
    unsigned in_first_cycle; /* of a step of two cycles, where the wrong copy doesn't look */
    unsigned called;         /* the very next step was the call to location 7 */
    unsigned longest;        /* machine cycles from an overflow until its call was complete */
};

struct overflows overflows_while_held(void);

#endif
