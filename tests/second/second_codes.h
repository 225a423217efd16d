/*
 * Second emulator of the MCS-48: what its files share and its callers don't see.
 *
 * Written from document 01 (the scope), items 2 and 3 of document 02 and our readings of
 * them alone, without a look at the Rattle sources.
 */
#ifndef SECOND_CODES_H
#define SECOND_CODES_H

#include "second.h"

#include <stdbool.h>

enum {
    PC_BANK = 0x800,    /* bit 11, which doesn't count */
    PC_COUNTED = 0x7FF, /* the bits that do */
    PC_PAGE = 0xF00,
    PROGRAM_MAX = 4096
};

struct second_code {
    enum second_operation operation;
    uint8_t length; /* 0: undefined */
    uint8_t cycles;
    bool nec_only; /* undefined for Intel */
};

extern const struct second_code second_codes[256];

static inline bool second_set_known(uint32_t set)
{
    return set == SECOND_INTEL || set == SECOND_NEC;
}

static inline bool second_defined(uint32_t set, const struct second_code *entry)
{
    return entry->length != 0 && (set == SECOND_NEC || !entry->nec_only);
}

/* The address after pc: the low 11 bits count and wrap, bit 11 stays. (second_step.c) */
uint16_t second_next_pc(uint16_t pc);

/* Where the conditional jump at an address goes if it is taken. (second_step.c) */
uint16_t second_conditional_target(uint16_t at, uint8_t operand);

#endif
