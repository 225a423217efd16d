/*
 * Steps over two memories (02, item 7): where the program ends and the second goes on, with EA
 * low and high, and what the document says of each beside what the second emulator answers.
 */
#include "steps.h"

#include "mcs48.h"

#include <string.h>

enum { MOVP = 0xA3, JMPP = 0xB3, MOVP3 = 0xE3 };

/* What a step fetches, by documents 01 and 02. */

static bool has_table(uint8_t code)
{
    return code == MOVP || code == JMPP || code == MOVP3;
}

static uint16_t table_place(uint8_t code)
{
    uint16_t pc = pc_of(&step.chip);
    uint16_t page = (uint16_t)(code == MOVP   ? next_pc(pc) & 0xF00
                               : code == JMPP ? pc & 0xF00
                                              : (pc & 0x800) | 0x300);

    return page | step.chip.state[BYTE_A];
}

/* Of the second byte, or of the byte from a table: no code has both. */
static uint16_t second_place(uint8_t code)
{
    return has_table(code) ? table_place(code) : next_pc(pc_of(&step.chip));
}

static bool fetches_twice(uint8_t code)
{
    return is_two_bytes(code) || has_table(code);
}

unsigned bytes_from_outside(void)
{
    uint8_t code = code_of_step();
    bool second = fetches_twice(code) && is_outside(second_place(code));

    return second + (unsigned)is_outside(pc_of(&step.chip));
}

static bool is_there(uint16_t address)
{
    return fetched(&step.chip, step.first & SECOND_PIN_EA, address) != NULL;
}

/* The number of a step that comes to its instruction. */
static uint8_t number_of_fetches(void)
{
    if (!is_there(pc_of(&step.chip)))
        return SECOND_PAST_END;
    uint8_t code = code_of_step();
    if (!is_defined(step.chip.set, code))
        return SECOND_UNDEFINED_CODE;
    if (fetches_twice(code) && !is_there(second_place(code)))
        return SECOND_PAST_END;
    return SECOND_ACCEPTED;
}

/* A step that comes to its instruction. */
static void instruction_step(uint32_t set, uint64_t tries)
{
    random_step(set, tries);
    quiet_pins();
    wake();
    step.chip.state[BYTE_REQUEST] = 0;
}

/* All settings of what decides about memories but the program's length: three bits. */
static void set_memories(unsigned bits)
{
    step.chip.outside_len = bits & 1 ? OUTSIDE : 0;
    step.first = with_pin(step.first, SECOND_PIN_EA, bits >> 1 & 1);
    step.second = with_pin(step.second, SECOND_PIN_EA, bits >> 2 & 1);
}

static struct second_outcome check_fetches(void)
{
    struct second_outcome outcome = check_step();

    if (outcome.number != number_of_fetches())
        differ("not %u", number_of_fetches());
    return outcome;
}

/* Every code where a program ends, where a bank does, and before and after. */

enum { TIMES = 4 };

static void crossing_case(uint32_t set, size_t program_len, uint16_t pc)
{
    begin_case("%s, every code at %03X of %zu and a second program", set_name(set), pc,
               program_len);
    for (unsigned i = 0; i < 256 * 8 * TIMES && agrees(); i++) {
        instruction_step(set, i);
        step.chip.program_len = program_len;
        set_memories(i / 256);
        set_pc(&step.chip, pc);
        put_code((uint8_t)i);
        check_fetches();
    }
    end_case();
}

static void crossing_cases(uint32_t set)
{
    static const uint16_t places[] = {0x000, 0x3FE, 0x3FF, 0x400, 0x7FE,
                                      0x7FF, 0x800, 0xBFF, 0xFFE, 0xFFF};

    for (size_t i = 0; i < LENGTH(program_sizes); i++) {
        for (size_t j = 0; j < LENGTH(places); j++)
            crossing_case(set, program_sizes[i], places[j]);
    }
}

/*
 * Codes of two bytes that stand in both memories: at 3FF of 1,024 the second byte is at 400,
 * outside, and at 7FF it is at 000, inside.
 */
static void both_case(uint32_t set, uint8_t code)
{
    begin_case("%s, code %02X in both memories", set_name(set), code);
    for (uint64_t i = 0; i < 2 * (count() / 20) && agrees(); i++) {
        instruction_step(set, i);
        step.chip.program_len = 1024;
        step.chip.outside_len = OUTSIDE;
        step.first &= ~SECOND_PIN_EA;
        set_pc(&step.chip, i & 1 ? 0x3FF : 0x7FF);
        put_code(code);
        if (check_fetches().outside != 1)
            differ("not one byte from outside");
    }
    end_case();
}

/* Tables. */

/* [first byte outside][table byte outside] */
struct tables_met {
    uint64_t at[2][2];
};

static void check_table(struct tables_met *met, uint8_t code)
{
    uint16_t place = table_place(code);
    const uint8_t *byte = fetched(&step.chip, step.first & SECOND_PIN_EA, place);
    struct second_outcome outcome = check_fetches();

    if (outcome.number != SECOND_ACCEPTED)
        return;
    met->at[is_outside(pc_of(&step.chip))][is_outside(place)]++;
    if (lent.state.at[code == JMPP ? BYTE_PC_LOW : BYTE_A] != *byte)
        differ("not the byte at %03X", place);
}

/*
 * JMPP's page is in one memory. MOVP at 3FF of 1,024 takes its byte from outside, at 7FF from
 * inside; MOVP3 from 400 to 7FF of 1,024 takes it from inside, and never crosses the other way.
 */
static void check_tables_met(const struct tables_met *met, uint8_t code)
{
    if (met->at[0][0] == 0 || met->at[1][1] == 0)
        differ("never in one memory");
    if ((met->at[0][1] != 0) != (code == MOVP))
        differ("from inside to outside %s", code == MOVP ? "never" : "once");
    if ((met->at[1][0] != 0) != (code != JMPP))
        differ("from outside to inside %s", code == JMPP ? "once" : "never");
}

/* Every page, its edges, every size and setting, any A. */
static void table_case(uint32_t set, uint8_t code)
{
    static const uint8_t edges[] = {0xFE, 0xFF, 0x00};
    struct tables_met met = {0};

    begin_case("%s, code %02X and tables in two memories", set_name(set), code);
    for (unsigned i = 0; i < 16 * 4 * 3 * 8 * 8 && agrees(); i++) {
        unsigned place = i / 16 % 4;

        instruction_step(set, i);
        step.chip.program_len = program_sizes[i / 64 % 3];
        set_memories(i / 192 % 8);
        set_pc(&step.chip, (uint16_t)(i % 16 << 8 | (place < 3 ? edges[place] : below(256))));
        step.chip.state[BYTE_A] = (uint8_t)random_word();
        put_code(code);
        check_table(&met, code);
    }
    check_tables_met(&met, code);
    end_case();
}

/* No memory to answer: 5, though the program has the byte. */
static void nothing_outside_case(uint32_t set)
{
    begin_case("%s, EA high and no second program", set_name(set));
    for (unsigned i = 0; i < 256 * 3 * TIMES && agrees(); i++) {
        instruction_step(set, i);
        step.chip.program_len = program_sizes[i / 256 % 3];
        set_pc(&step.chip, (uint16_t)below((uint32_t)step.chip.program_len));
        put_code((uint8_t)i);
        step.chip.outside_len = 0;
        step.first |= SECOND_PIN_EA;
        if (check_step().number != SECOND_PAST_END)
            differ("not 5");
    }
    end_case();
}

/* Steps that fetch nothing: a reset, a wait, a call. */

static void reset_step(void)
{
    step.first &= ~SECOND_PIN_RESET;
}

static void wait_step(void)
{
    step.chip.set = SECOND_NEC;
    step.chip.state[BYTE_MODE] = one_in(2) ? SECOND_MODE_HALTED : SECOND_MODE_STOPPED;
}

static void external_step(void)
{
    step.chip.state[BYTE_MODE] = SECOND_MODE_RUNS;
    step.chip.state[BYTE_IN_SERVICE] = 0;
    step.chip.state[BYTE_EXTERNAL_ENABLED] = 1;
    step.first &= ~SECOND_PIN_INT;
}

static void timer_step(void)
{
    step.chip.state[BYTE_MODE] = SECOND_MODE_RUNS;
    step.chip.state[BYTE_IN_SERVICE] = 0;
    step.chip.state[BYTE_TIMER_ENABLED] = 1;
    step.chip.state[BYTE_REQUEST] = 1;
}

static void unfetched_case(uint32_t set, const char *name, void (*make)(void))
{
    begin_case("%s, %s fetches nothing", set_name(set), name);
    for (unsigned i = 0; i < 8 * 100 && agrees(); i++) {
        instruction_step(set, i);
        make();
        set_memories(i);
        struct second_outcome outcome = check_step();
        if (outcome.number != SECOND_ACCEPTED || outcome.outside != 0)
            differ("refused, or with a byte from outside");
    }
    end_case();
}

/* Bits 28 to 31 of both samples: all settings. Only 29 to 31 are refused, in either. */
static void bits_case(uint32_t set)
{
    begin_case("%s, bits 28 to 31 of both samples", set_name(set));
    for (unsigned i = 0; i < 256 * 16 && agrees(); i++) {
        uint32_t first = i & 15;
        uint32_t second = i >> 4 & 15;

        random_step(set, i);
        step.first = (step.first & SECOND_PIN_IDLE) | first << 28;
        step.second = (step.second & SECOND_PIN_IDLE) | second << 28;
        bool refused = check_step().number == SECOND_SAMPLE_BITS;
        if (refused != ((first | second) >= 2))
            differ("%s", refused ? "6" : "not 6");
    }
    end_case();
}

/* What makes no difference. */

/* What a step has left and answered, but for the bytes from outside. */
struct left {
    uint8_t state[STATE_BYTES];
    uint8_t ram[256];
    struct second_outcome outcome;
};

static struct left left_by_step(void)
{
    struct left left = {.outcome = check_step()};

    memcpy(left.state, lent.state.at, sizeof left.state);
    memcpy(left.ram, lent.ram.at, step.chip.ram_len);
    left.outcome.outside = 0;
    return left;
}

/* EA in the second sample. */
static void other_second_sample(void)
{
    step.second ^= SECOND_PIN_EA;
}

/* The first program's bytes and length, of a part that has EA held high. */
static void other_inside(void)
{
    random_bytes(step.chip.program, OUTSIDE);
    step.chip.program_len = program_sizes[below(3)];
}

/* The second program, if every byte is inside. */
static void other_outside(void)
{
    step.chip.outside_len = step.chip.outside_len == 0 ? OUTSIDE : 0;
}

/* Both memories, or one program that has the bytes of both. */
static void joined(void)
{
    size_t len = step.chip.program_len;

    memcpy(step.chip.program + len, step.chip.outside + len, OUTSIDE - len);
    step.chip.program_len = OUTSIDE;
    step.chip.outside_len = 0;
}

static void ea_high(void)
{
    step.chip.outside_len = OUTSIDE;
    step.first |= SECOND_PIN_EA;
}

static void all_inside(void)
{
    step.chip.program_len = OUTSIDE;
    step.first &= ~SECOND_PIN_EA;
}

static void ea_low(void)
{
    step.chip.outside_len = OUTSIDE;
    step.first &= ~SECOND_PIN_EA;
}

static void as_it_is(void)
{
}

struct indifference {
    const char *name;
    void (*make)(void);
    void (*change)(void);
};

static void indifferent_case(uint32_t set, const struct indifference *that)
{
    begin_case("%s, no difference: %s", set_name(set), that->name);
    for (unsigned i = 0; i < 256 * 16 && agrees(); i++) {
        random_step(set, 0); /* with programs of its own, since they may be changed */
        that->make();
        put_code((uint8_t)i);
        struct left before = left_by_step();
        that->change();
        struct left after = left_by_step();
        if (memcmp(&before, &after, sizeof before) != 0)
            differ("it makes one");
    }
    end_case();
}

static void indifferent_cases(uint32_t set)
{
    static const struct indifference all[] = {
        {"EA in the second sample", as_it_is, other_second_sample},
        {"the program with EA high", ea_high, other_inside},
        {"a second program, all being inside", all_inside, other_outside},
        {"two memories or one", ea_low, joined},
    };

    for (size_t i = 0; i < LENGTH(all); i++)
        indifferent_case(set, &all[i]);
}

void outside_cases(uint32_t set)
{
    crossing_cases(set);
    for (unsigned code = 0; code < 256; code++) {
        if (is_two_bytes((uint8_t)code))
            both_case(set, (uint8_t)code);
    }
    table_case(set, MOVP);
    table_case(set, JMPP);
    table_case(set, MOVP3);
    nothing_outside_case(set);
    unfetched_case(set, "a reset", reset_step);
    unfetched_case(set, "an external call", external_step);
    unfetched_case(set, "a timer call", timer_step);
    if (set == SECOND_NEC)
        unfetched_case(set, "a wait", wait_step);
    bits_case(set);
    indifferent_cases(set);
}
