/*
 * Runs over HALT and STOP (02, item 2): waits, releases, what is counted and what is called
 * after them. Beside the comparison, each run is held against what the document says of it.
 */
#include "runs.h"

#include <string.h>

enum { HALT = 0x01, STOP = 0x82, NOP = 0x00, MOV_A_DATA = 0x23, UNDEFINED = 0x66 };
enum { EXTERNAL_VECTOR = 3, TIMER_VECTOR = 7 };

static uint8_t mode_of(uint8_t code)
{
    return code == HALT ? SECOND_MODE_HALTED : SECOND_MODE_STOPPED;
}

/* By chance all is outside: EA is high in every sample. */
static bool ea;

static uint8_t *memory(void)
{
    return ea ? chip.outside : chip.program;
}

/*
 * A machine that runs, with NOPs from PC on; no call is allowed or wanted, nothing is counted.
 * What follows PC is in every program, and in one page with it.
 */
static void plain_chip(void)
{
    random_chip(SECOND_NEC);
    ea = chip.outside_len != 0 && one_in(2);
    set_pc(&chip, (uint16_t)(below(4) << 8 | (0x10 + below(0xE0))));
    memset(memory() + pc_of(&chip), NOP, 16);
    chip.state[BYTE_MODE] = SECOND_MODE_RUNS;
    chip.state[BYTE_COUNTING] = SECOND_STOPPED;
    chip.state[BYTE_REQUEST] = 0;
    chip.state[BYTE_EXTERNAL_ENABLED] = 0;
    chip.state[BYTE_TIMER_ENABLED] = 0;
    chip.state[BYTE_IN_SERVICE] = 0;
}

static void put_program(size_t i, uint8_t byte)
{
    memory()[pc_of(&chip) + i] = byte;
}

static void set_t1(size_t i, bool high)
{
    samples[i] = high ? samples[i] | SECOND_PIN_T1 : samples[i] & ~SECOND_PIN_T1;
}

/* A run wholly of waits leaves all as it was. */
static void wait_case(uint8_t mode)
{
    begin_case("nothing but waits in mode %u", mode);
    for (uint32_t len = 2; len < 100 && agrees(); len++) {
        random_chip(SECOND_NEC);
        chip.state[BYTE_MODE] = mode;
        plain_samples(ea, len);
        check_somehow();
        expect_totals(0, len - 1, len - 1);
        if (memcmp(lent.state.at, chip.state, STATE_BYTES) != 0)
            differ("the state is another");
        if (memcmp(lent.ram.at, chip.ram, chip.ram_len) != 0)
            differ("the RAM is another");
    }
    end_case();
}

/*
 * A halt and what ends it: HALT or STOP, so many waits, a pulse of INT, one instruction, and the
 * step after that, which is the first that may be a call. INT must be low then too: with an
 * instruction of one cycle for three samples, with one of two for four.
 */
struct halt {
    uint8_t code;
    unsigned waits;   /* before the one that sees INT low */
    unsigned pulse;   /* samples with INT low */
    unsigned cycles;  /* of the instruction after it */
    uint8_t overflow; /* in the cycle of HALT itself: of the timer, of the counter or none */
    bool external_enabled;
    bool timer_enabled;
};

static void set_up(const struct halt *halt)
{
    plain_chip();
    put_program(0, halt->code);
    if (halt->cycles == 2)
        put_program(1, MOV_A_DATA);
    chip.state[BYTE_COUNTING] = halt->overflow;
    chip.state[BYTE_T] = 0xFF;
    chip.state[BYTE_DIVIDER] = 31;
    chip.state[BYTE_LAST_T1] = 1;
    chip.state[BYTE_EXTERNAL_ENABLED] = halt->external_enabled;
    chip.state[BYTE_TIMER_ENABLED] = halt->timer_enabled;

    plain_samples(ea, 1 + halt->waits + 1 + halt->cycles + 2);
    set_low(SECOND_PIN_INT, 1 + halt->waits, halt->pulse);
    /* One fall that the counter counts, and no other. */
    set_t1(0, false);
    for (size_t i = 1 + halt->waits + 1; i < samples_len; i++)
        set_t1(i, false);
}

/* The vector of the call that comes, or 0. */
static uint16_t call_after(const struct halt *halt)
{
    if (halt->external_enabled && halt->pulse > 1 + halt->cycles)
        return EXTERNAL_VECTOR;
    if (halt->timer_enabled && halt->overflow != SECOND_STOPPED)
        return TIMER_VECTOR;
    return 0;
}

static void expect_stack(uint16_t address)
{
    size_t at = 8 + 2 * (chip.state[BYTE_PSW] & 7u);
    uint8_t psw = chip.state[BYTE_PSW] & 0xF0;

    if (lent.ram.at[at] != (uint8_t)address || lent.ram.at[at + 1] != (psw | address >> 8))
        differ("%03X is not on the stack", address);
}

/* Nothing was counted in the waits. */
static void expect_counted(const struct halt *halt, unsigned cycles)
{
    bool overflow = halt->overflow != SECOND_STOPPED;

    expect_byte(BYTE_T, overflow ? 0x00 : 0xFF);
    expect_byte(BYTE_DIVIDER, halt->overflow == SECOND_TIMER ? (uint8_t)(cycles - 1) : 31);
    if (overflow)
        expect_byte(BYTE_TF, 1);
}

static void check_halt(const struct halt *halt)
{
    set_up(halt);
    check_somehow();

    uint16_t call = call_after(halt);
    uint16_t next = (uint16_t)(pc_of(&chip) + 1 + halt->cycles); /* as many bytes as cycles */
    bool request = halt->timer_enabled && halt->overflow != SECOND_STOPPED;
    unsigned cycles = 1 + halt->cycles + (call ? 2 : 1);

    expect_totals(0, cycles + halt->waits + 1, halt->waits + 1);
    expect_pc(call ? call : next + 1);
    expect_byte(BYTE_MODE, SECOND_MODE_RUNS);
    expect_byte(BYTE_IN_SERVICE, call != 0);
    expect_byte(BYTE_REQUEST, request && call != TIMER_VECTOR);
    if (call)
        expect_stack(next);
    expect_counted(halt, cycles);
}

/* 240 settings, each four times. */
static void release_case(uint8_t code, uint8_t overflow)
{
    static const char *const names[] = {"no overflow", "timer overflow", "counter overflow"};

    begin_case("releases from code %02X, %s in its cycle", code, names[overflow]);
    for (unsigned i = 0; i < 4 * 240 && agrees(); i++) {
        const struct halt halt = {
            .code = code,
            .waits = i % 5,
            .pulse = 1 + i / 5 % 6,
            .cycles = 1 + (i / 30 & 1),
            .overflow = overflow,
            .external_enabled = i / 60 & 1,
            .timer_enabled = i / 120 & 1,
        };
        check_halt(&halt);
    }
    end_case();
}

/* HALT again, right after the release: entered if INT is high by then, otherwise not. */
static void again_case(uint8_t code)
{
    begin_case("code %02X right after a release", code);
    for (unsigned i = 0; i < 64 && agrees(); i++) {
        unsigned pulse = 1 + (i & 1);

        plain_chip();
        put_program(0, one_in(2) ? HALT : STOP);
        put_program(1, code);
        plain_samples(ea, 4);
        set_low(SECOND_PIN_INT, 1, pulse);
        check_somehow();
        expect_totals(0, 3, 1);
        expect_byte(BYTE_MODE, pulse == 1 ? mode_of(code) : SECOND_MODE_RUNS);
    }
    end_case();
}

/* With INT low in the first sample it isn't entered, in service or with INT disabled. */
static void not_entered_case(uint8_t code)
{
    begin_case("code %02X with INT low", code);
    for (unsigned i = 0; i < 64 && agrees(); i++) {
        plain_chip();
        put_program(0, code);
        chip.state[BYTE_IN_SERVICE] = i & 1;
        chip.state[BYTE_EXTERNAL_ENABLED] = i & 1;
        if (i & 2)
            chip.state[BYTE_MODE] = SECOND_MODE_RELEASED;
        plain_samples(ea, 4);
        set_low(SECOND_PIN_INT, 0, 1 + (i >> 2 & 3));
        check_somehow();
        expect_totals(0, 3, 0);
        expect_pc((uint16_t)(pc_of(&chip) + 3));
        expect_byte(BYTE_MODE, SECOND_MODE_RUNS);
    }
    end_case();
}

/*
 * Falls of T1 across a halt: the level in HALT's own cycle and the one in the next machine cycle
 * count, whatever T1 does while it waits.
 */
static void fall_case(uint8_t code)
{
    begin_case("falls of T1 across code %02X", code);
    for (unsigned i = 0; i < 8 * 3 * 16 && agrees(); i++) {
        bool before = i & 1;
        bool at_halt = i >> 1 & 1;
        bool after = i >> 2 & 1;
        unsigned waits = 1 + i / 8 % 3; /* with the one that releases it */
        uint8_t t = (uint8_t)random_word();

        plain_chip();
        put_program(0, code);
        chip.state[BYTE_COUNTING] = SECOND_COUNTER;
        chip.state[BYTE_T] = t;
        chip.state[BYTE_LAST_T1] = before;
        plain_samples(ea, 1 + waits + 2);
        set_low(SECOND_PIN_INT, waits, 1);
        set_t1(0, at_halt);
        for (unsigned wait = 0; wait < waits; wait++)
            set_t1(1 + wait, i / 24 >> wait & 1);
        set_t1(1 + waits, after);
        check_somehow();
        expect_totals(0, 2 + waits, waits);
        expect_byte(BYTE_T, (uint8_t)(t + (before && !at_halt) + (at_halt && !after)));
        expect_byte(BYTE_LAST_T1, after);
    }
    end_case();
}

/* Resets. */

/* Out of a wait, or right after a release; the NOP at 000 comes next. */
static void reset_case(uint8_t code, bool released)
{
    begin_case("reset %s code %02X", released ? "after a release from" : "out of", code);
    for (unsigned i = 0; i < 64 && agrees(); i++) {
        unsigned waits = 1 + i % 4;

        plain_chip();
        put_program(0, code);
        memory()[0] = NOP;
        plain_samples(ea, 1 + waits + 3);
        set_low(SECOND_PIN_INT, waits, released);
        set_low(SECOND_PIN_RESET, 1 + waits, 1);
        if (one_in(2)) /* RESET goes first */
            set_low(SECOND_PIN_INT, 1 + waits, 1);
        check_somehow();
        expect_totals(0, waits + 3, waits);
        expect_pc(1);
        expect_byte(BYTE_MODE, SECOND_MODE_RUNS);
    }
    end_case();
}

/* Refused right after a release: it is still just released, and so an instruction comes first. */

static void refuse_code(void)
{
    put_program(1, UNDEFINED);
}

static void refuse_second_byte(void)
{
    ea = false;
    set_low(SECOND_PIN_EA, 0, samples_len);
    chip.program_len = 1024;
    chip.outside_len = 0;
    set_pc(&chip, 0x3FE);
    put_program(1, MOV_A_DATA);
}

static void refuse_sample(void)
{
    samples[3] |= UINT32_C(1) << (29 + below(3));
}

static void go_on(void)
{
    memcpy(chip.state, lent.state.at, STATE_BYTES);
    memcpy(chip.ram, lent.ram.at, chip.ram_len);
    put_program(0, NOP);
    plain_samples(ea, 3);
    set_low(SECOND_PIN_INT, 0, 3);
}

static void refused_case(uint8_t number, void (*refuse)(void))
{
    begin_case("refused by %u right after a release", number);
    for (unsigned i = 0; i < 64 && agrees(); i++) {
        uint8_t code = one_in(2) ? HALT : STOP;

        plain_chip();
        chip.state[BYTE_EXTERNAL_ENABLED] = 1;
        plain_samples(ea, 4);
        set_low(SECOND_PIN_INT, 1, 3);
        refuse();
        put_program(0, code);
        check_somehow();
        expect_totals(number, 2, 1);
        expect_byte(BYTE_MODE, SECOND_MODE_RELEASED);
        expect_pc((uint16_t)(pc_of(&chip) + 1));

        go_on();
        check_somehow();
        expect_totals(0, 3, 0);
        expect_pc(EXTERNAL_VECTOR);
        expect_stack((uint16_t)(pc_of(&chip) + 1));
        expect_byte(BYTE_MODE, SECOND_MODE_RUNS);
    }
    end_case();
}

void halt_cases(void)
{
    static const uint8_t codes[] = {HALT, STOP};

    for (size_t i = 0; i < LENGTH(codes); i++) {
        wait_case(mode_of(codes[i]));
        release_case(codes[i], SECOND_STOPPED);
        release_case(codes[i], SECOND_TIMER);
        release_case(codes[i], SECOND_COUNTER);
        again_case(codes[i]);
        not_entered_case(codes[i]);
        fall_case(codes[i]);
        reset_case(codes[i], false);
        reset_case(codes[i], true);
    }
    refused_case(SECOND_UNDEFINED_CODE, refuse_code);
    refused_case(SECOND_PAST_END, refuse_second_byte);
    refused_case(SECOND_SAMPLE_BITS, refuse_sample);
}
