/*
 * What the benchmark and the count of instructions run: one ROM, and the pins of each cycle.
 */
#ifndef ROM_H
#define ROM_H

#include <stdint.h>

enum { SAMPLES = 200000, RAM = 128, PROGRAM = 2048 };

extern uint8_t program[PROGRAM];
extern uint32_t samples[SAMPLES];

void fill_program(void);

/* Every pin by chance, and the same each time; RESET and INT always high. */
void fill_samples(void);

#endif
