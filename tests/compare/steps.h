/*
 * The step under way, which the files of the driver steps share.
 */
#ifndef STEPS_H
#define STEPS_H

#include "chips.h"

struct step {
    struct chip chip;
    uint32_t first;
    uint32_t second;
};

extern struct step step;
extern struct lent_chip lent;

/* A random step; the programs stay for 64 tries, since whole ones cost more than a step. */
void random_step(uint32_t set, uint64_t tries);

/* No reset, no external interrupt, no release, no bit 29 to 31; EA only with a second program. */
void quiet_pins(void);

uint32_t with_pin(uint32_t sample, uint32_t pin, bool high);

/* Puts a code where PC points, in the memory that answers there, if one does; after EA is set. */
void put_code(uint8_t code);
void put_operand(uint8_t operand);

/* A halted or stopped machine runs, one just released stays so. */
void wake(void);

/* Gives the step to both emulators and compares all that they answer and leave. */
struct second_outcome check_step(void);

/* Does the byte at an address come from outside, if it comes? */
bool is_outside(uint16_t address);

/* The code that is fetched at PC; 0 if none is there, though an emulator claims so. */
uint8_t code_of_step(void);

/* By item 7, how many bytes of the instruction at PC come from outside, if it is carried out. */
unsigned bytes_from_outside(void);

/* Has the step come as far as its code? */
bool reached(struct second_outcome outcome);

/* By document 01, does the code at PC jump on a condition that holds? */
bool jump_taken(void);

void edge_cases(uint32_t set);
void accumulator_cases(void);
void halt_cases(void);
void outside_cases(uint32_t set);
void refusal_cases(void);

#endif
