/*
 * Chips for the drivers of step and run: random ones, in which the edges come up far more
 * often than by chance, and the comparison of what a call leaves of them.
 */
#include "chips.h"

#include <stdio.h>
#include <string.h>

const size_t program_sizes[3] = {1024, 2048, 4096};
const size_t ram_sizes[3] = {64, 128, 256};

/* Document 01's list, so that neither emulator decides which codes are tried. */
bool is_defined(uint32_t set, uint8_t code)
{
    static const uint8_t undefined[] = {
        0x01, 0x06, 0x0B, 0x22, 0x33, 0x38, 0x3B, 0x63, 0x66, 0x73, 0x82, 0x87, 0x8B,
        0x9B, 0xA2, 0xA6, 0xB7, 0xC0, 0xC1, 0xC2, 0xC3, 0xD6, 0xE0, 0xE1, 0xE2, 0xF3,
    };

    if (set == SECOND_NEC && (code == 0x01 || code == 0x82)) /* HALT, STOP */
        return true;
    return memchr(undefined, code, sizeof undefined) == NULL;
}

/* The data sheets' codes: a row for each high digit, a bit for each low one. */
bool is_two_bytes(uint8_t code)
{
    static const uint16_t rows[16] = {0x0018, 0x005C, 0x0058, 0x0054, 0x0058, 0x005C,
                                      0x0010, 0x0054, 0x0750, 0x0754, 0x0010, 0xFF57,
                                      0x0050, 0x001C, 0xFF50, 0x0054};

    return rows[code >> 4] >> (code & 0xF) & 1;
}

/* Random chips. */

void random_programs(struct chip *chip)
{
    chip->program_len = program_sizes[below(3)];
    chip->outside_len = one_in(4) ? 0 : OUTSIDE;
    random_bytes(chip->program, 4096);
    random_bytes(chip->outside, OUTSIDE);
    chip->kept = false;
}

void random_sizes(struct chip *chip)
{
    chip->ram_len = ram_sizes[below(3)];
    chip->state_len = STATE_BYTES;
}

/* Half of the time one at which something carries, wraps, is zero or leaves a small RAM. */
static uint8_t random_byte(void)
{
    static const uint8_t edges[] = {0x00, 0x01, 0x0F, 0x10, 0x3F, 0x40, 0x7F,
                                    0x80, 0x99, 0x9A, 0xA0, 0xF0, 0xFE, 0xFF};

    return one_in(2) ? edges[below(LENGTH(edges))] : (uint8_t)random_word();
}

void random_ram(struct chip *chip)
{
    random_bytes(chip->ram, 256);
    for (int i = 0; i < 4; i++) { /* a few registers of each bank */
        chip->ram[below(8)] = random_byte();
        chip->ram[24 + below(8)] = random_byte();
    }
}

/* Mostly where there is a byte: inside the program, or also outside if there is a second. */
static uint16_t random_pc(const struct chip *chip)
{
    static const uint16_t edges[] = {0x000, 0x0FE, 0x0FF, 0x3FE, 0x3FF, 0x400,
                                     0x7FE, 0x7FF, 0x800, 0xBFF, 0xFFE, 0xFFF};
    uint16_t pc = (uint16_t)below(4096);

    if (one_in(2))
        pc = edges[below(LENGTH(edges))];
    if (chip->outside_len != 0 ? one_in(2) : !one_in(16))
        pc = (uint16_t)(pc % chip->program_len);
    return pc;
}

static uint8_t random_divider(void)
{
    return (uint8_t)(one_in(3) ? below(32) : 30 + below(2));
}

static uint8_t random_counting(void)
{
    return one_in(2) ? SECOND_TIMER : one_in(2) ? SECOND_COUNTER : SECOND_STOPPED;
}

/* Half of the machines run; of the others half were just released, and come to an instruction. */
static uint8_t random_mode(uint32_t set)
{
    if (set == SECOND_INTEL || one_in(2))
        return SECOND_MODE_RUNS;
    return one_in(2) ? SECOND_MODE_RELEASED : one_in(2) ? SECOND_MODE_HALTED : SECOND_MODE_STOPPED;
}

static uint8_t random_sp(void)
{
    return (uint8_t)(one_in(2) ? below(8) : one_in(2) ? 0 : 7);
}

void random_state(struct chip *chip)
{
    uint8_t *state = chip->state;

    random_bytes(state, STATE_BYTES);
    for (size_t i = BYTE_F1; i <= BYTE_BUS_DRIVEN; i++) {
        if (i < BYTE_P1 || i > BYTE_BUS)
            state[i] &= 1;
    }
    state[BYTE_A] = random_byte();
    set_pc(chip, random_pc(chip));
    state[BYTE_PSW] = (uint8_t)((state[BYTE_PSW] & 0xF0) | 0x08 | random_sp());
    state[BYTE_T] = one_in(2) ? 0xFF : random_byte();
    state[BYTE_DIVIDER] = random_divider();
    state[BYTE_COUNTING] = random_counting();
    state[BYTE_MODE] = random_mode(chip->set);
    memset(state + BYTE_RESERVED, 0, STATE_BYTES - BYTE_RESERVED);
}

uint32_t random_sample(void)
{
    uint32_t sample = random_word() & ~SECOND_PIN_NONE;

    if (!one_in(16))
        sample |= SECOND_PIN_RESET;
    if (one_in(64))
        sample |= UINT32_C(1) << (29 + below(3));
    return sample;
}

/* PC and what stands there. */

uint16_t pc_of(const struct chip *chip)
{
    return (uint16_t)(chip->state[BYTE_PC_LOW] | chip->state[BYTE_PC_HIGH] << 8);
}

void set_pc(struct chip *chip, uint16_t pc)
{
    chip->state[BYTE_PC_LOW] = (uint8_t)pc;
    chip->state[BYTE_PC_HIGH] = (uint8_t)(pc >> 8);
}

uint8_t *register_of(struct chip *chip, unsigned r)
{
    return &chip->ram[(chip->state[BYTE_PSW] & 0x10 ? 24 : 0) + r];
}

uint16_t next_pc(uint16_t pc)
{
    return (uint16_t)((pc & 0x800) | ((pc + 1) & 0x7FF));
}

uint8_t *fetched(struct chip *chip, bool ea, uint16_t address)
{
    if (!ea && address < chip->program_len)
        return &chip->program[address];
    return address < chip->outside_len ? &chip->outside[address] : NULL;
}

/* Both emulators. */

void new_rooms(struct lent_chip *lent)
{
    lent->program = new_room(PROGRAM_ROOM);
    lent->outside = new_room(PROGRAM_ROOM);
    lent->ram = new_room(RAM_ROOM);
    lent->state = new_room(STATE_ROOM);
}

void lend_chip(struct lent_chip *lent, const struct chip *chip)
{
    if (!chip->kept || lent->program.len != chip->program_len)
        lend(&lent->program, chip->program, chip->program_len);
    if (!chip->kept || lent->outside.len != chip->outside_len)
        lend(&lent->outside, chip->outside, chip->outside_len);
    lent->outside_at = chip->outside_len == 0 && one_in(2) ? NULL : lent->outside.at;
    lend(&lent->ram, chip->ram, chip->ram_len);
    lend(&lent->state, chip->state, chip->state_len);
    lent->second_state = state_of_bytes(chip->state, chip->state_len);
    memcpy(lent->second_ram, chip->ram, chip->ram_len);
}

void put_byte(struct lent_chip *lent, struct chip *chip, bool ea, uint16_t address, uint8_t byte)
{
    uint8_t *at = fetched(chip, ea, address);
    struct lent *program = !ea && address < chip->program_len ? &lent->program : &lent->outside;

    if (at == NULL)
        return;
    *at = byte;
    if (address < program->len)
        program->at[address] = byte;
}

/* The bytes that the second emulator's state stands for. */
static void second_bytes(const struct lent_chip *lent, const struct chip *before, uint8_t *bytes)
{
    if (known_to_second(before->state, before->state_len))
        bytes_of_state(bytes, &lent->second_state);
    else
        memcpy(bytes, before->state, before->state_len);
}

void compare_chips(struct lent_chip *lent, const struct chip *before)
{
    uint8_t state[STATE_ROOM];

    second_bytes(lent, before, state);
    came_back(&lent->state, "the state", state);
    came_back(&lent->ram, "the RAM", lent->second_ram);
    if (before->kept && lent->calls++ % 8 != 0)
        return;
    came_back(&lent->program, "the program", before->program);
    came_back(&lent->outside, "the second program", before->outside);
}

static void show_bytes(const uint8_t *program, size_t program_len, size_t from, size_t len)
{
    if (from >= program_len)
        printf(" none");
    for (size_t i = from; i < from + len && i < program_len; i++)
        printf(" %02X", program[i]);
}

static void show_programs(const struct chip *chip, const char *label, size_t from, size_t len)
{
    printf("  %s, %03zX:", label, from);
    show_bytes(chip->program, chip->program_len, from, len);
    printf("%s outside", len > 1 ? "\n   " : ",");
    show_bytes(chip->outside, chip->outside_len, from, len);
    printf("\n");
}

/* Of both programs, all that one step can read. */
void show_before(const struct chip *chip)
{
    uint16_t pc = pc_of(chip);
    uint16_t next = next_pc(pc);
    uint8_t a = chip->state[BYTE_A];

    printf("  %s (%08X), program of %zu bytes, second program of %zu\n", set_name(chip->set),
           (unsigned)chip->set, chip->program_len, chip->outside_len);
    show_programs(chip, "around PC", pc & 0xFFF0u, 32);
    show_programs(chip, "at PC", pc, 1);
    show_programs(chip, "at the next PC", next, 1);
    show_programs(chip, "table byte in PC's page", (pc & 0xF00u) | a, 1);
    show_programs(chip, "table byte in the next PC's page", (next & 0xF00u) | a, 1);
    show_programs(chip, "table byte in page 3", (pc & 0x800u) | 0x300u | a, 1);
    print_state("state before", chip->state, chip->state_len);
    print_bytes("RAM before", chip->ram, chip->ram_len);
}

void show_after(const struct lent_chip *lent, const struct chip *before)
{
    uint8_t state[STATE_ROOM];

    second_bytes(lent, before, state);
    print_state("proved, after", lent->state.at, before->state_len);
    print_state("second, after", state, before->state_len);
    print_unlike("RAM cell", lent->ram.at, lent->second_ram, before->ram_len);
}
