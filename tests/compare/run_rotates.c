/*
 * Strings of rotates, and the strings that may stand instead of them: the table of
 * docs/ROTATES.md, for every value of A and C, in chips that are random otherwise, inside or all
 * outside with EA high. Neither a reset nor an interrupt call comes between.
 */
#include "runs.h"

#include <string.h>

enum { RL = 0xE7, RLC = 0xF7, RR = 0x77, RRC = 0x67, SWAP = 0x47, NOP = 0x00, STRING_MOST = 9 };

struct law {
    const char *name;
    size_t len; /* bytes, and cycles */
    uint8_t string[STRING_MOST];
    size_t instead_len;
    uint8_t instead[STRING_MOST]; /* NOP after it */
};

static const struct law laws[] = {
    {"four RL, or SWAP", 4, {RL, RL, RL, RL}, 1, {SWAP}},
    {"eight RL, or nothing", 8, {RL, RL, RL, RL, RL, RL, RL, RL}, 0, {NOP}},
    {"two SWAP, or nothing", 2, {SWAP, SWAP}, 0, {NOP}},
    {"RL and RR, or nothing", 2, {RL, RR}, 0, {NOP}},
    {"RR and RL, or nothing", 2, {RR, RL}, 0, {NOP}},
    {"RLC and RRC, or nothing", 2, {RLC, RRC}, 0, {NOP}},
    {"RRC and RLC, or nothing", 2, {RRC, RLC}, 0, {NOP}},
    {"nine RLC, or nothing", 9, {RLC, RLC, RLC, RLC, RLC, RLC, RLC, RLC, RLC}, 0, {NOP}},
    {"nine RRC, or nothing", 9, {RRC, RRC, RRC, RRC, RRC, RRC, RRC, RRC, RRC}, 0, {NOP}}};

static bool ea;

/* Where byte i of a string from PC on stands. */
static uint16_t place(size_t i)
{
    return (uint16_t)((pc_of(&chip) & 0x800) | ((pc_of(&chip) + i) & 0x7FF));
}

static void random_pc(void)
{
    do {
        set_pc(&chip, (uint16_t)below((uint32_t)chip.program_len));
    } while (place(STRING_MOST - 1) >= chip.program_len);
}

static void no_interrupt_calls(void)
{
    if (one_in(2)) {
        chip.state[BYTE_IN_SERVICE] = 1;
    } else {
        chip.state[BYTE_EXTERNAL_ENABLED] = 0;
        chip.state[BYTE_TIMER_ENABLED] = 0;
    }
}

static void random_start(unsigned a, unsigned c)
{
    random_chip(sets[below(LENGTH(sets))]);
    chip.state[BYTE_MODE] = SECOND_MODE_RUNS;
    random_pc();
    ea = chip.outside_len != 0 && one_in(2);
    no_interrupt_calls();
    chip.state[BYTE_A] = (uint8_t)a;
    chip.state[BYTE_PSW] = (uint8_t)((chip.state[BYTE_PSW] & 0x7F) | c << 7);
    plain_samples(ea, STRING_MOST + 1);
}

/* What a string has left. */
struct left {
    uint8_t state[STATE_BYTES];
    uint8_t ram[256];
};

/* Runs over len bytes from PC on. Each step takes one sample, and looks at a second. */
static struct left run_string(const uint8_t *bytes, size_t len)
{
    struct left left = {0};

    for (size_t i = 0; i < len; i++)
        (ea ? chip.outside : chip.program)[place(i)] = bytes[i];
    samples_len = len + 1;
    check_run();
    if (second.number != 0 || second.cycles != len)
        differ("not as many cycles as bytes");
    memcpy(left.state, lent.state.at, sizeof left.state);
    memcpy(left.ram, lent.ram.at, chip.ram_len);
    return left;
}

/* Without the filling, PC and the counter. */
static bool may_differ(size_t byte)
{
    static const enum state_byte these[] = {BYTE_PC_LOW, BYTE_PC_HIGH, BYTE_T,      BYTE_DIVIDER,
                                            BYTE_TF,     BYTE_REQUEST, BYTE_LAST_T1};

    for (size_t i = 0; i < LENGTH(these); i++) {
        if (byte == these[i])
            return true;
    }
    return false;
}

static void check_law(const struct law *law)
{
    struct left string = run_string(law->string, law->len);
    struct left filled = run_string(law->instead, law->len);

    if (memcmp(&string, &filled, sizeof string) != 0)
        differ("filled up with NOP it leaves something else");

    struct left instead = run_string(law->instead, law->instead_len);

    for (size_t i = 0; i < STATE_BYTES; i++) {
        if (string.state[i] != instead.state[i] && !may_differ(i))
            differ("%s differs", state_byte_names[i]);
    }
    if (memcmp(string.ram, instead.ram, sizeof string.ram) != 0)
        differ("the RAM differs");
}

void rotate_cases(void)
{
    for (size_t i = 0; i < LENGTH(laws); i++) {
        begin_case("%s", laws[i].name);
        for (unsigned value = 0; value < 512 && agrees(); value++) {
            random_start(value & 0xFF, value >> 8);
            check_law(&laws[i]);
        }
        end_case();
    }
}
