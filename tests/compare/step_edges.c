/*
 * Steps at the edges: places where something wraps, overflows or takes precedence, each with
 * every code or every value that matters there.
 */
#include "steps.h"

/* Every code, from every size of program and RAM, with and without a second program and EA. */
static void pc_case(uint32_t set, uint16_t pc)
{
    begin_case("%s, PC %03X", set_name(set), pc);
    for (unsigned i = 0; i < 256 * 36 && agrees(); i++) {
        random_step(set, i);
        quiet_pins();
        wake();
        step.chip.program_len = program_sizes[i / 256 % 3];
        step.chip.ram_len = ram_sizes[i / 256 / 3 % 3];
        step.chip.outside_len = i / 256 / 9 & 1 ? OUTSIDE : 0;
        step.first = with_pin(step.first, SECOND_PIN_EA, i / 256 / 18);
        step.chip.state[BYTE_REQUEST] = 0;
        set_pc(&step.chip, pc);
        put_code((uint8_t)i);
        check_step();
    }
    end_case();
}

static void pc_cases(uint32_t set)
{
    static const uint16_t edges[] = {0x000, 0x0FE, 0x0FF, 0x100, 0x3FE, 0x3FF, 0x400, 0x7FE,
                                     0x7FF, 0x800, 0xAFF, 0xBFE, 0xBFF, 0xC00, 0xFFE, 0xFFF};

    for (size_t i = 0; i < LENGTH(edges); i++)
        pc_case(set, edges[i]);
}

/* Codes that jump within a page or read a table in one, where two pages meet (02, item 3). */

enum { PAGE_STEPS = 16 * 3 * 9 }; /* pages, places in a page, pairings of sizes */

/* JZ, JNZ and DJNZ would hardly ever go one of their two ways. */
static void even_odds(uint8_t code)
{
    if (one_in(2))
        return;
    if (code == 0x96 || code == 0xC6)
        step.chip.state[BYTE_A] = 0;
    if ((code & 0xF8) == 0xE8)
        *register_of(&step.chip, code & 7) = 1;
}

/* PAGE_STEPS tries take each page, place and pairing once, every other time in one memory. */
static void page_step(uint32_t set, uint64_t tries, uint8_t code)
{
    static const uint8_t places[] = {0xFE, 0xFF, 0x00};

    random_step(set, tries);
    set_pc(&step.chip, (uint16_t)(tries % 16 << 8 | places[tries / 16 % 3]));
    step.chip.program_len = program_sizes[tries / 48 % 3];
    step.chip.ram_len = ram_sizes[tries / 144 % 3];
    if (tries / PAGE_STEPS % 2) {
        step.chip.outside_len = 0;
        step.first &= ~SECOND_PIN_EA;
    }
    put_code(code);
    put_operand((uint8_t)random_word());
    even_odds(code);
}

/* What the steps at the last byte of a page have met. */
struct page_ends {
    uint64_t reached;
    uint64_t taken;
    uint64_t past_end; /* number 5 at 3FF of 1,024, for another byte than the first */
};

static void note_page_end(struct page_ends *met, struct second_outcome outcome)
{
    uint16_t pc = pc_of(&step.chip);

    if ((pc & 0xFF) != 0xFF)
        return;
    met->reached += reached(outcome);
    met->taken += reached(outcome) && jump_taken();
    met->past_end += outcome.number == SECOND_PAST_END && pc == 0x3FF && !is_outside(pc) &&
                     step.chip.program_len == 1024;
}

/*
 * At 3FF of 1,024 a conditional jump's second byte is past the end, and so is MOVP's table byte;
 * JMPP and MOVP3 read page 3. There is not always a second program to have them.
 */
static void check_page_ends(const struct page_ends *met, uint8_t code)
{
    bool jump = is_conditional_jump(code);
    bool has_past_end = jump || code == 0xA3;
    uint64_t few = met->reached / 8;

    if (jump && (met->taken <= few || met->reached - met->taken <= few))
        differ("seldom taken, or seldom not");
    if (has_past_end != (met->past_end > 0))
        differ("5 at 3FF of 1,024 is %s given", has_past_end ? "never" : "once");
}

static void page_case(uint32_t set, uint8_t code)
{
    struct page_ends met = {0};

    begin_case("%s, code %02X at the edges of pages", set_name(set), code);
    for (uint64_t i = 0; (i < 4 * PAGE_STEPS || met.reached < count()) && agrees(); i++) {
        page_step(set, i, code);
        note_page_end(&met, check_step());
        if (i > 100 * (met.reached + 10))
            differ("too few steps come as far as the code");
    }
    check_page_ends(&met, code);
    end_case();
}

static void page_cases(uint32_t set)
{
    for (unsigned code = 0; code < 256; code++) {
        if (is_conditional_jump((uint8_t)code))
            page_case(set, (uint8_t)code);
    }
    page_case(set, 0xA3); /* MOVP */
    page_case(set, 0xB3); /* JMPP */
    page_case(set, 0xE3); /* MOVP3 */
}

/* A step whose code every program has at PC, and that nothing forestalls but a timer request. */
static void plain_step(uint32_t set, uint64_t tries)
{
    random_step(set, tries);
    quiet_pins();
    step.chip.state[BYTE_MODE] = SECOND_MODE_RUNS;
    set_pc(&step.chip, pc_of(&step.chip) % 1024);
    put_code((uint8_t)tries);
}

/* Every code under all settings of the flags that decide about a timer request. */
static void timer_case(uint32_t set, uint8_t divider)
{
    uint8_t *state = step.chip.state;

    begin_case("%s, timer at FF, divider %u", set_name(set), divider);
    for (unsigned i = 0; i < 256 * 32 && agrees(); i++) {
        plain_step(set, i);
        state[BYTE_T] = 0xFF;
        state[BYTE_COUNTING] = SECOND_TIMER;
        state[BYTE_DIVIDER] = divider;
        state[BYTE_TF] = i >> 8 & 1;
        state[BYTE_REQUEST] = i >> 9 & 1;
        state[BYTE_TIMER_ENABLED] = i >> 10 & 1;
        state[BYTE_IN_SERVICE] = i >> 11 & 1;
        state[BYTE_EXTERNAL_ENABLED] = i >> 12 & 1;
        check_step();
    }
    end_case();
}

/* Every code under all levels of T1 before, in the first and in the second cycle. */
static void counter_case(uint32_t set, uint8_t t)
{
    uint8_t *state = step.chip.state;

    begin_case("%s, counter at %02X", set_name(set), t);
    for (unsigned i = 0; i < 256 * 16 && agrees(); i++) {
        plain_step(set, i);
        state[BYTE_T] = t;
        state[BYTE_COUNTING] = SECOND_COUNTER;
        state[BYTE_REQUEST] = 0;
        state[BYTE_LAST_T1] = i >> 8 & 1;
        step.first = with_pin(step.first, SECOND_PIN_T1, i >> 9 & 1);
        step.second = with_pin(step.second, SECOND_PIN_T1, i >> 10 & 1);
        state[BYTE_TIMER_ENABLED] = i >> 11 & 1;
        check_step();
    }
    end_case();
}

/* All settings of what decides between reset, the wait, the two calls and the instruction. */
static void precedence_case(uint32_t set)
{
    uint8_t *state = step.chip.state;

    begin_case("%s, reset and interrupts", set_name(set));
    for (unsigned i = 0; i < 128 * 64 && agrees(); i++) {
        random_step(set, i);
        quiet_pins();
        step.first = with_pin(step.first, SECOND_PIN_INT, i & 1);
        step.first = with_pin(step.first, SECOND_PIN_RESET, i >> 1 & 1);
        state[BYTE_EXTERNAL_ENABLED] = i >> 2 & 1;
        state[BYTE_TIMER_ENABLED] = i >> 3 & 1;
        state[BYTE_REQUEST] = i >> 4 & 1;
        state[BYTE_IN_SERVICE] = i >> 5 & 1;
        state[BYTE_DBF] = i >> 6 & 1;
        state[BYTE_MODE] = set == SECOND_NEC ? i >> 7 & 3 : SECOND_MODE_RUNS;
        check_step();
    }
    end_case();
}

/* CALL, RET and RETR, and by chance interrupt calls. */
static void stack_case(uint32_t set, unsigned sp)
{
    static const uint8_t codes[] = {0x14, 0x34, 0x54, 0x74, 0x94, 0xB4, 0xD4, 0xF4, 0x83, 0x93};
    uint8_t *psw = &step.chip.state[BYTE_PSW];

    begin_case("%s, stack at SP %u", set_name(set), sp);
    for (unsigned i = 0; i < 1000 && agrees(); i++) {
        random_step(set, i);
        *psw = (uint8_t)((*psw & 0xF8) | sp);
        put_code(codes[below(LENGTH(codes))]);
        check_step();
    }
    end_case();
}

/* An instruction of the accumulator: every A, operand, C and AC. */
static void accumulator_case(uint32_t set, uint8_t code, unsigned operands)
{
    uint8_t *state = step.chip.state;

    begin_case("%s, code %02X, every A, operand, C and AC", set_name(set), code);
    random_step(set, 0);
    quiet_pins();
    wake();
    state[BYTE_REQUEST] = 0;
    set_pc(&step.chip, 0x200);
    put_code(code);
    for (unsigned i = 0; i < 1024 * operands && agrees(); i++) {
        step.chip.kept = i > 0;
        state[BYTE_A] = (uint8_t)i;
        state[BYTE_PSW] = (uint8_t)((state[BYTE_PSW] & 0x3F) | (i >> 8 & 3) << 6);
        put_operand((uint8_t)(i >> 10));
        if (check_step().number != SECOND_ACCEPTED)
            differ("refused");
    }
    end_case();
}

/* NEC's sums are tried with the other codes: all of them twice would take too long. */
void accumulator_cases(void)
{
    /* DEC, INC, CLR, CPL, SWAP, DA, RRC, RR, RL, RLC */
    static const uint8_t alone[] = {0x07, 0x17, 0x27, 0x37, 0x47, 0x57, 0x67, 0x77, 0xE7, 0xF7};

    accumulator_case(SECOND_INTEL, 0x03, 256); /* ADD A,#data */
    accumulator_case(SECOND_INTEL, 0x13, 256); /* ADDC A,#data */
    for (size_t i = 0; i < LENGTH(alone); i++) {
        accumulator_case(SECOND_INTEL, alone[i], 1);
        accumulator_case(SECOND_NEC, alone[i], 1);
    }
}

void edge_cases(uint32_t set)
{
    pc_cases(set);
    page_cases(set);
    timer_case(set, 31);
    timer_case(set, 30);
    timer_case(set, 29);
    counter_case(set, 0xFF);
    counter_case(set, 0xFE);
    precedence_case(set);
    for (unsigned sp = 0; sp < 8; sp++)
        stack_case(set, sp);
}
