/*
 * Steps that are refused for what they are lent. Resets, interrupts, bits 29 to 31 and a
 * second reason come with them by chance, which shows the order of the numbers.
 */
#include "steps.h"

#include "mcs48.h"

static void refusable_step(uint64_t tries)
{
    random_step(sets[below(LENGTH(sets))], tries);
    if (one_in(4))
        step.second |= SECOND_PIN_NONE;
}

/* States. */

static uint8_t above(uint8_t limit)
{
    return (uint8_t)(limit + 1 + below(255u - limit));
}

/* Puts a field outside its size. */
static void spoil(enum state_byte field)
{
    uint8_t *byte = &step.chip.state[field];

    switch (field) {
    case BYTE_PC_HIGH:
        *byte = above(15);
        break;
    case BYTE_PSW:
        *byte &= 0xF7;
        break;
    case BYTE_DIVIDER:
        *byte = above(31);
        break;
    case BYTE_COUNTING:
        *byte = above(2);
        break;
    case BYTE_MODE:
        *byte = above(step.chip.set == SECOND_NEC ? 3 : 0);
        break;
    default:
        *byte = above(field < BYTE_RESERVED ? 1 : 0);
        break;
    }
}

/* A, PC low, T and the latches hold any byte. */
static bool has_limit(enum state_byte field)
{
    return field != BYTE_A && field != BYTE_PC_LOW && field != BYTE_T && field != BYTE_P1 &&
           field != BYTE_P2 && field != BYTE_BUS;
}

static void spoiled_case(enum state_byte field)
{
    begin_case("state with %s outside its size", state_byte_names[field]);
    for (uint64_t i = 0; i < count() / 10 && agrees(); i++) {
        refusable_step(i);
        spoil(field);
        if (check_step().number != SECOND_STATE_SIZES)
            differ("not 3");
    }
    end_case();
}

/* Halted, stopped or just released, which only NEC's machines can be. */
static void intel_mode_case(uint8_t mode)
{
    begin_case("Intel with mode %u", mode);
    for (uint64_t i = 0; i < count() / 10 && agrees(); i++) {
        refusable_step(i);
        step.chip.set = SECOND_INTEL;
        step.chip.state[BYTE_MODE] = mode;
        if (check_step().number != SECOND_STATE_SIZES)
            differ("not 3");
    }
    end_case();
}

static void any_state_case(void)
{
    begin_case("states with up to three bytes of any kind");
    for (uint64_t i = 0; i < count() && agrees(); i++) {
        refusable_step(i);
        for (unsigned n = below(4); n > 0; n--)
            step.chip.state[below(STATE_BYTES)] = (uint8_t)random_word();
        check_step();
    }
    end_case();
}

static void state_length_case(size_t len)
{
    begin_case("state of %zu bytes", len);
    for (uint64_t i = 0; i < count() / 10 && agrees(); i++) {
        refusable_step(i);
        step.chip.state_len = len;
        if (check_step().number != SECOND_STATE_SIZES)
            differ("not 3");
    }
    end_case();
}

static void state_cases(void)
{
    static const size_t lengths[] = {0, 1, 8, 16, 19, 20, 23, 25, 32, 48, STATE_ROOM};

    for (enum state_byte field = 0; field < STATE_BYTES; field++) {
        if (has_limit(field))
            spoiled_case(field);
    }
    for (uint8_t mode = SECOND_MODE_HALTED; mode <= SECOND_MODE_RELEASED; mode++)
        intel_mode_case(mode);
    any_state_case();
    for (size_t i = 0; i < LENGTH(lengths); i++)
        state_length_case(lengths[i]);
}

/* Lengths. The allowed ones are among these: so all others are held against them. */

static const size_t lengths[] = {
    0,    1,    2,    31,   63,   64,   65,   127,  128,  129,           192,
    255,  256,  257,  512,  1000, 1023, 1024, 1025, 1536, 2047,          2048,
    2049, 3072, 4095, 4096, 4097, 8192, 65535, 65536, 0x10000 + 64, 0x10000 + 256,
};

static void program_length_case(size_t len)
{
    begin_case("program of %zu bytes", len);
    for (uint64_t i = 0; i < count() / 10 && agrees(); i++) {
        refusable_step(i);
        step.chip.program_len = len;
        if (one_in(4))
            spoil(BYTE_DIVIDER);
        if (one_in(4))
            step.chip.ram_len = lengths[below(LENGTH(lengths))];
        if (one_in(4))
            step.chip.outside_len = lengths[below(LENGTH(lengths))];
        check_step();
    }
    end_case();
}

/* 1 for another than 0 and 4,096, before 2, 3 and 6; the first program's length is good. */
static void outside_length_case(size_t len)
{
    begin_case("second program of %zu bytes", len);
    for (uint64_t i = 0; i < count() / 10 && agrees(); i++) {
        refusable_step(i);
        step.chip.outside_len = len;
        if (one_in(4))
            spoil(BYTE_F1);
        if (one_in(4))
            step.chip.state_len = below(STATE_ROOM + 1);
        if (one_in(4))
            step.chip.ram_len = lengths[below(LENGTH(lengths))];
        bool refused = check_step().number == SECOND_PROGRAM_LENGTH;
        if (refused != (len != 0 && len != OUTSIDE))
            differ("%s", refused ? "1" : "not 1");
    }
    end_case();
}

static void ram_length_case(size_t len)
{
    begin_case("RAM of %zu bytes", len);
    for (uint64_t i = 0; i < count() / 10 && agrees(); i++) {
        refusable_step(i);
        step.chip.ram_len = len;
        if (one_in(4))
            spoil(BYTE_PSW);
        check_step();
    }
    end_case();
}

/* A set that is neither Intel nor NEC, before every other reason. */
static void unknown_set_case(void)
{
    begin_case("sets that are neither");
    for (uint64_t i = 0; i < count() && agrees(); i++) {
        refusable_step(i);
        step.chip.set = unknown_set();
        if (one_in(4))
            step.chip.program_len = lengths[below(LENGTH(lengths))];
        if (one_in(4))
            step.chip.outside_len = lengths[below(LENGTH(lengths))];
        if (one_in(4))
            step.chip.ram_len = lengths[below(LENGTH(lengths))];
        if (one_in(4))
            spoil(BYTE_TF);
        if (one_in(4))
            step.chip.state_len = below(STATE_ROOM + 1);
        if (check_step().number != SECOND_SET_UNKNOWN)
            differ("not 25");
    }
    end_case();
}

/* A step of which all is good but the length of what is `far`. */
struct far_step {
    const uint8_t *program;
    size_t program_len;
    const uint8_t *outside;
    size_t outside_len;
    uint8_t *ram;
    size_t ram_len;
};

static void check_far(struct far_step far, uint64_t number, const char *name)
{
    uint64_t answer = mcs48_step(step.chip.set, far.program, far.program_len, far.outside,
                                 far.outside_len, far.ram, far.ram_len, lent.state.at,
                                 step.chip.state_len, step.first, step.second);

    if (answer != number)
        differ("a %s of 4 GiB and more is not refused", name);
}

/* Lengths that are good in their low 32 bits. To write to such a program or RAM is a fault. */
static void huge_case(uint32_t set)
{
    const size_t huge = (size_t)1 << 32;
    const uint8_t *far = zeros(huge + 4096);
    const struct chip *chip = &step.chip;

    begin_case("%s, lengths above 32 bits", set_name(set));
    random_step(set, 0);
    quiet_pins();
    lend_chip(&lent, chip);
    const struct far_step good = {lent.program.at,   chip->program_len, lent.outside_at,
                                  chip->outside_len, lent.ram.at,       chip->ram_len};
    for (size_t i = 0; i < 3; i++) {
        struct far_step program = good;
        struct far_step outside = good;
        struct far_step ram = good;

        program.program = outside.outside = far;
        ram.ram = (uint8_t *)(uintptr_t)far;
        program.program_len = huge + program_sizes[i];
        outside.outside_len = huge + (i == 0 ? 0 : program_sizes[i]);
        ram.ram_len = huge + ram_sizes[i];
        check_far(program, SECOND_PROGRAM_LENGTH, "program");
        check_far(outside, SECOND_PROGRAM_LENGTH, "second program");
        check_far(ram, SECOND_RAM_LENGTH, "RAM");
    }
    compare_chips(&lent, chip);
    end_case();
}

void refusal_cases(void)
{
    state_cases();
    for (size_t i = 0; i < LENGTH(lengths); i++)
        program_length_case(lengths[i]);
    program_length_case(0x10000 + 1024);
    program_length_case(0x10000 + 4096);
    for (size_t i = 0; i < LENGTH(lengths); i++)
        outside_length_case(lengths[i]);
    outside_length_case(0x10000 + 4096);
    for (size_t i = 0; i < LENGTH(lengths); i++)
        ram_length_case(lengths[i]);
    unknown_set_case();
    huge_case(SECOND_INTEL);
    huge_case(SECOND_NEC);
}
