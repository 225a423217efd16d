/*
 * The run under way, which the files of the driver runs share.
 */
#ifndef RUNS_H
#define RUNS_H

#include "chips.h"

enum { SAMPLES_MOST = 999 };

struct result {
    uint64_t number;
    uint64_t samples;
    uint64_t cycles;
};

extern struct chip chip;
extern uint32_t samples[SAMPLES_MOST];
extern size_t samples_len;
extern struct lent_chip lent;
extern struct result second; /* what second_run has answered */

/* A chip at random, with a program of any bytes. */
void random_chip(uint32_t set);

/* Samples with INT and RESET high, EA as said; T1 and the ports at random. */
void plain_samples(bool ea, size_t len);

/* Puts a pin low in so many of the samples. */
void set_low(uint32_t pin, size_t from, size_t len);

/* Gives the run to both emulators and compares all that they answer and leave. */
void check_run(void);

/* The same, and then the run in pieces or step by step; lent has what is left in the end. */
void check_somehow(void);

/* By the document: the totals of the run, and what is left in the end. */
void expect_totals(uint64_t number, uint64_t used, uint64_t waits);
void expect_byte(enum state_byte byte, uint8_t expected);
void expect_pc(uint16_t expected);

void halt_cases(void);
void outside_cases(void);
void rotate_cases(void);

#endif
