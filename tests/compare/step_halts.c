/*
 * Steps of machines that halt, stop, wait and are released (02, item 2): all settings of what
 * matters there, and what the document says of each beside what the second emulator answers.
 */
#include "steps.h"

#include <string.h>

static bool is_int_low(void)
{
    return !(step.first & SECOND_PIN_INT);
}

/* A step of a NEC machine in a mode, without a reset or one of bits 29 to 31. */
static void step_in(uint8_t mode, uint64_t tries)
{
    random_step(SECOND_NEC, tries);
    quiet_pins();
    step.chip.state[BYTE_MODE] = mode;
}

/* Every setting of INT, of T1 and of what decides about calls takes 256 tries, eight bits. */
static void set_bits(uint64_t tries)
{
    uint8_t *state = step.chip.state;

    step.first = with_pin(step.first, SECOND_PIN_INT, tries & 1);
    step.second = with_pin(step.second, SECOND_PIN_INT, tries >> 1 & 1);
    step.first = with_pin(step.first, SECOND_PIN_T1, tries >> 2 & 1);
    state[BYTE_LAST_T1] = tries >> 3 & 1;
    state[BYTE_EXTERNAL_ENABLED] = tries >> 4 & 1;
    state[BYTE_TIMER_ENABLED] = tries >> 5 & 1;
    state[BYTE_REQUEST] = tries >> 6 & 1;
    state[BYTE_IN_SERVICE] = tries >> 7 & 1;
}

/* The counter about to overflow, in all three of its settings. */
static void set_counter(unsigned counting)
{
    uint8_t *state = step.chip.state;

    state[BYTE_COUNTING] = (uint8_t)counting;
    state[BYTE_T] = 0xFF;
    state[BYTE_DIVIDER] = 31;
}

enum { SETTINGS = 256 * 3, TIMES = 4 };

/* A halted or stopped machine: nothing is counted, T1 isn't remembered, INT low releases it. */
static void wait_case(uint8_t mode)
{
    begin_case("waits in mode %u", mode);
    for (unsigned i = 0; i < SETTINGS * TIMES && agrees(); i++) {
        uint8_t expected[STATE_BYTES];

        step_in(mode, i);
        set_bits(i);
        set_counter(i / 256 % 3);
        memcpy(expected, step.chip.state, sizeof expected);
        if (is_int_low())
            expected[BYTE_MODE] = SECOND_MODE_RELEASED;

        struct second_outcome outcome = check_step();
        if (outcome.number != 0 || outcome.cycles != 0 || outcome.samples != 1)
            differ("not one sample and no cycle");
        if (memcmp(lent.state.at, expected, sizeof expected) != 0)
            differ("more than the mode is another, or that is wrong");
    }
    end_case();
}

/* RESET low goes first: it leaves what it would leave of a machine that runs, RAM and all. */
static void reset_case(uint8_t mode)
{
    begin_case("resets in mode %u", mode);
    for (unsigned i = 0; i < SETTINGS && agrees(); i++) {
        uint8_t expected[STATE_BYTES];

        step_in(SECOND_MODE_RUNS, i);
        set_bits(i);
        set_counter(i / 256 % 3);
        step.first &= ~SECOND_PIN_RESET;
        check_step();
        memcpy(expected, lent.state.at, sizeof expected);

        step.chip.state[BYTE_MODE] = mode;
        struct second_outcome outcome = check_step();
        if (outcome.number != 0 || outcome.cycles != 1 || outcome.samples != 1)
            differ("not one sample and one cycle");
        if (memcmp(lent.state.at, expected, sizeof expected) != 0)
            differ("not as from a machine that runs");
    }
    end_case();
}

/* HALT and STOP. */

/* In the step's own cycle, by document 01. */
static bool overflows(void)
{
    const uint8_t *state = step.chip.state;
    bool fall = state[BYTE_LAST_T1] && !(step.first & SECOND_PIN_T1);

    return state[BYTE_COUNTING] == SECOND_TIMER || (state[BYTE_COUNTING] == SECOND_COUNTER && fall);
}

/* What HALT or STOP, carried out, leaves: its own cycle is counted, and T1 remembered. */
static void entered(uint8_t expected[STATE_BYTES], uint8_t mode)
{
    memcpy(expected, step.chip.state, STATE_BYTES);
    expected[BYTE_PC_LOW]++; /* not at the end of a page */
    expected[BYTE_MODE] = is_int_low() ? SECOND_MODE_RUNS : mode;
    expected[BYTE_LAST_T1] = (step.first & SECOND_PIN_T1) != 0;
    if (step.chip.state[BYTE_COUNTING] == SECOND_TIMER)
        expected[BYTE_DIVIDER] = 0;
    if (overflows()) {
        expected[BYTE_T] = 0;
        expected[BYTE_TF] = 1;
        expected[BYTE_REQUEST] |= step.chip.state[BYTE_TIMER_ENABLED];
    }
}

static void enter_case(uint8_t code, uint8_t mode)
{
    uint64_t times = 0;

    begin_case("code %02X, T about to overflow", code);
    for (unsigned i = 0; i < 2 * SETTINGS * TIMES && agrees(); i++) {
        uint8_t expected[STATE_BYTES];

        step_in(i / SETTINGS % 2 ? SECOND_MODE_RELEASED : SECOND_MODE_RUNS, i);
        set_bits(i);
        set_counter(i / 256 % 3);
        set_pc(&step.chip, (uint16_t)(below(4) << 8 | below(255)));
        put_code(code);
        entered(expected, mode);

        struct second_outcome outcome = check_step();
        if (!reached(outcome)) /* a call came first */
            continue;
        times++;
        if (outcome.cycles != 1 || outcome.samples != 1)
            differ("not one sample and one cycle");
        if (memcmp(lent.state.at, expected, sizeof expected) != 0)
            differ("not as the document has it");
    }
    if (times < SETTINGS * TIMES)
        differ("too few come as far as the code");
    end_case();
}

/* A machine just released. */

/*
 * Both calls would come: the instruction does. Carried out, it ends the release, HALT and STOP
 * too, since INT is low; refused, it leaves it.
 */
static void released_case(void)
{
    uint8_t *state = step.chip.state;

    begin_case("every code just released");
    for (unsigned i = 0; i < 256 * 16 && agrees(); i++) {
        step_in(SECOND_MODE_RELEASED, i);
        step.first &= ~SECOND_PIN_INT;
        state[BYTE_EXTERNAL_ENABLED] = i >> 8 & 1;
        state[BYTE_TIMER_ENABLED] = i >> 9 & 1;
        state[BYTE_REQUEST] = i >> 10 & 1;
        state[BYTE_IN_SERVICE] = 0;
        put_code((uint8_t)i);

        struct second_outcome outcome = check_step();
        bool accepted = outcome.number == SECOND_ACCEPTED;
        if (lent.state.at[BYTE_IN_SERVICE] != 0)
            differ("a call right after the release");
        if (lent.state.at[BYTE_MODE] != (accepted ? SECOND_MODE_RUNS : SECOND_MODE_RELEASED))
            differ("%s, and the mode is wrong", accepted ? "carried out" : "refused");
    }
    end_case();
}

static void undefined_code(void)
{
    uint8_t code;

    do {
        code = (uint8_t)random_word();
    } while (is_defined(SECOND_NEC, code));
    set_pc(&step.chip, pc_of(&step.chip) % 1024);
    put_code(code);
}

/*
 * With no second program: of the first byte, by chance because EA is high, or of the second of
 * MOV A,#data at 3FF of 1,024.
 */
static void past_end(void)
{
    step.chip.outside_len = 0;
    step.first = with_pin(step.first, SECOND_PIN_EA, one_in(4));
    step.chip.program_len = program_sizes[below(2)];
    set_pc(&step.chip, (uint16_t)(2048 + below(2048)));
    if (one_in(2)) {
        step.chip.program_len = 1024;
        set_pc(&step.chip, 0x3FF);
        put_code(0x23);
    }
}

static void sample_bit(void)
{
    uint32_t *sample = one_in(2) ? &step.first : &step.second;

    *sample |= UINT32_C(1) << (29 + below(3));
}

/* INT may be low and a request stored: a call, which fetches nothing, would not get 4 or 5. */
static void released_refused_case(uint8_t number, void (*spoil)(void))
{
    begin_case("just released, refused by %u", number);
    for (uint64_t i = 0; i < count() / 10 && agrees(); i++) {
        step_in(SECOND_MODE_RELEASED, i);
        step.first = with_pin(step.first, SECOND_PIN_INT, one_in(2));
        spoil();
        if (check_step().number != number)
            differ("not %u", number);
        if (lent.state.at[BYTE_MODE] != SECOND_MODE_RELEASED)
            differ("no longer just released");
    }
    end_case();
}

void halt_cases(void)
{
    wait_case(SECOND_MODE_HALTED);
    wait_case(SECOND_MODE_STOPPED);
    reset_case(SECOND_MODE_HALTED);
    reset_case(SECOND_MODE_STOPPED);
    reset_case(SECOND_MODE_RELEASED);
    enter_case(0x01, SECOND_MODE_HALTED);
    enter_case(0x82, SECOND_MODE_STOPPED);
    released_case();
    released_refused_case(SECOND_UNDEFINED_CODE, undefined_code);
    released_refused_case(SECOND_PAST_END, past_end);
    released_refused_case(SECOND_SAMPLE_BITS, sample_bit);
}
