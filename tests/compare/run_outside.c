/*
 * Runs over two memories (02, item 7): on past the program's end, back and forth by jumps, and by
 * EA from step to step. Beside the comparison, each run is held against what the document says.
 */
#include "runs.h"

#include <string.h>

enum {
    NOP = 0x00,
    INC_A = 0x17,
    DEC_A = 0x07,
    ADD_A_DATA = 0x03,
    MOV_A_DATA = 0x23,
    SEL_MB1 = 0xF5,
    CALL = 0x14,
    RET = 0x83
};

/* A machine that runs, and no call comes. */
static void plain_chip(uint32_t set)
{
    random_chip(set);
    chip.outside_len = OUTSIDE;
    chip.state[BYTE_MODE] = SECOND_MODE_RUNS;
    chip.state[BYTE_EXTERNAL_ENABLED] = 0;
    chip.state[BYTE_TIMER_ENABLED] = 0;
}

/* EA at random in some of the samples. */
static void toggle_ea(uint32_t times)
{
    for (size_t i = 0; i < samples_len; i++) {
        if (one_in(times))
            samples[i] |= SECOND_PIN_EA;
    }
}

static bool is_outside(size_t sample, uint16_t pc)
{
    return (samples[sample] & SECOND_PIN_EA) || pc >= chip.program_len;
}

/* Near where a program or a bank ends, and anywhere. */
static uint16_t random_start(void)
{
    static const uint16_t ends[] = {0x400, 0x7FF, 0x800, 0xFFF};

    return (uint16_t)((one_in(4) ? below(4096) : ends[below(LENGTH(ends))] - below(32)) & 0xFFE);
}

/* INC A inside and DEC A outside: a step of one cycle goes by its own sample. */
static void one_cycle_case(uint32_t set, size_t program_len, uint32_t ea_times)
{
    begin_case("%s, INC A in %zu and DEC A outside, EA one in %u", set_name(set), program_len,
               (unsigned)ea_times);
    for (unsigned i = 0; i < 200 && agrees(); i++) {
        plain_chip(set);
        chip.program_len = program_len;
        memset(chip.program, INC_A, program_len);
        memset(chip.outside, DEC_A, OUTSIDE);
        set_pc(&chip, random_start());
        plain_samples(false, 2 + below(98));
        toggle_ea(ea_times);

        uint8_t a = chip.state[BYTE_A];
        uint16_t pc = pc_of(&chip);
        for (size_t at = 0; at + 1 < samples_len; at++, pc = next_pc(pc))
            a = (uint8_t)(is_outside(at, pc) ? a - 1 : a + 1);
        check_somehow();
        expect_totals(0, samples_len - 1, 0);
        expect_byte(BYTE_A, a);
        expect_pc(pc);
    }
    end_case();
}

/*
 * ADD A,#01H inside and ADD A,#10H outside, from even addresses: both bytes go by the first of the
 * step's two samples, and by the address of each.
 */
static void two_cycle_case(uint32_t set, size_t program_len, uint32_t ea_times)
{
    begin_case("%s, ADD A,# in %zu and outside, EA one in %u", set_name(set), program_len,
               (unsigned)ea_times);
    for (unsigned i = 0; i < 200 && agrees(); i++) {
        plain_chip(set);
        chip.program_len = program_len;
        memset(chip.program, ADD_A_DATA, program_len);
        memset(chip.outside, ADD_A_DATA, OUTSIDE);
        for (size_t at = 1; at < OUTSIDE; at += 2) {
            chip.program[at] = 0x01;
            chip.outside[at] = 0x10;
        }
        set_pc(&chip, random_start());
        plain_samples(false, 2 + below(98));
        toggle_ea(ea_times);

        uint8_t a = chip.state[BYTE_A];
        uint16_t pc = pc_of(&chip);
        size_t at = 0;
        for (; at + 1 < samples_len; at += 2, pc = next_pc(next_pc(pc)))
            a = (uint8_t)(a + (is_outside(at, next_pc(pc)) ? 0x10 : 0x01));
        check_somehow();
        expect_totals(0, at, 0);
        expect_byte(BYTE_A, a);
        expect_pc(pc);
    }
    end_case();
}

/* A code whose first byte is the last inside and whose second is the first outside: 1,024 only. */
static void split_case(uint32_t set)
{
    begin_case("%s, MOV A,# across the end", set_name(set));
    for (unsigned i = 0; i < 256 && agrees(); i++) {
        bool back = i & 1; /* at 7FF, where the second byte is the first inside */

        plain_chip(set);
        chip.program_len = 1024;
        *(back ? &chip.outside[0x7FF] : &chip.program[0x3FF]) = MOV_A_DATA;
        *(back ? &chip.program[0x001] : &chip.outside[0x401]) = NOP;
        set_pc(&chip, back ? 0x7FF : 0x3FF);
        plain_samples(false, 4);
        uint8_t a = back ? chip.program[0x000] : chip.outside[0x400];
        check_somehow();
        expect_totals(0, 3, 0);
        expect_byte(BYTE_A, a);
        expect_pc(back ? 0x002 : 0x402);
    }
    end_case();
}

/* SEL MB1 and CALL to what is outside, MOV A,# and RET there, NOP after it; all outside with EA. */
static void call_case(uint32_t set, bool ea)
{
    begin_case("%s, a routine outside, EA %s", set_name(set), ea ? "high" : "low");
    for (unsigned i = 0; i < 256 && agrees(); i++) {
        uint16_t at = (uint16_t)(0x10 + below(0x3E0));
        uint16_t routine = (uint16_t)(0x800 | below(0x7F0));
        uint8_t data = (uint8_t)random_word();

        plain_chip(set);
        chip.program_len = program_sizes[below(2)];
        chip.state[BYTE_IN_SERVICE] = 0;
        uint8_t *caller = (ea ? chip.outside : chip.program) + at;
        caller[0] = SEL_MB1;
        caller[1] = (uint8_t)(CALL | (routine >> 8 & 7) << 5);
        caller[2] = (uint8_t)routine;
        caller[3] = NOP;
        chip.outside[routine] = MOV_A_DATA;
        chip.outside[routine + 1] = data;
        chip.outside[routine + 2] = RET;
        set_pc(&chip, at);
        plain_samples(ea, 9);
        check_somehow();
        expect_totals(0, 8, 0);
        expect_byte(BYTE_A, data);
        expect_pc((uint16_t)(at + 4));
    }
    end_case();
}

/* No second program: 5 at the first step with EA high, or past the end; what was done stands. */
static void nothing_outside_case(uint32_t set, bool by_ea)
{
    begin_case("%s, no second program, %s", set_name(set), by_ea ? "EA high" : "past the end");
    for (unsigned i = 0; i < 256 && agrees(); i++) {
        uint32_t steps = below(20);
        uint16_t end = by_ea ? (uint16_t)(0x100 + below(0x200)) : 0x400;

        plain_chip(set);
        chip.program_len = by_ea ? program_sizes[below(3)] : 1024;
        chip.outside_len = 0;
        memset(chip.program, INC_A, chip.program_len);
        set_pc(&chip, (uint16_t)(end - steps));
        plain_samples(false, steps + 2 + below(20));
        if (by_ea)
            samples[steps] |= SECOND_PIN_EA;
        check_somehow();
        expect_totals(SECOND_PAST_END, steps, 0);
        expect_byte(BYTE_A, (uint8_t)(chip.state[BYTE_A] + steps));
        expect_pc(end);
    }
    end_case();
}

void outside_cases(void)
{
    static const uint32_t ea_times[] = {1, 2, 16};

    for (size_t s = 0; s < LENGTH(sets); s++) {
        for (size_t i = 0; i < LENGTH(program_sizes); i++) {
            for (size_t j = 0; j < LENGTH(ea_times); j++) {
                one_cycle_case(sets[s], program_sizes[i], ea_times[j]);
                two_cycle_case(sets[s], program_sizes[i], ea_times[j]);
            }
        }
        split_case(sets[s]);
        call_case(sets[s], false);
        call_case(sets[s], true);
        nothing_outside_case(sets[s], false);
        nothing_outside_case(sets[s], true);
    }
}
