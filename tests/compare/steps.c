/*
 * Steps: mcs48_step against second_step, call by call. Compared are the packed answer and what
 * the header's functions take out of it, the 24 bytes of the state, all of RAM, and that a
 * refused call has touched nothing.
 *
 * --count N: how often each code of each set is carried out from inside and from outside, and each
 * that depends on a page as often again at the end of one. A tenth of it is tried of each refusal.
 */
#include "steps.h"

#include "mcs48.h"

#include <stdio.h>
#include <string.h>

struct step step;
struct lent_chip lent;

static uint64_t proved_answer;
static uint64_t second_answer;

static void show_answer(const char *label, uint64_t answer)
{
    printf("  %s: number %u, cycles %u, samples %u, event %u, address %02X, data %02X, "
           "bytes from outside %u, all %016llX\n",
           label, (unsigned)(answer & 0xFF), (unsigned)(answer >> 8 & 0xFF),
           (unsigned)(answer >> 48 & 0xFF), (unsigned)(answer >> 16 & 0xFF),
           (unsigned)(answer >> 24 & 0xFF), (unsigned)(answer >> 32 & 0xFF),
           (unsigned)(answer >> 40 & 0xFF), (unsigned long long)answer);
}

static void show(void)
{
    show_before(&step.chip);
    printf("  samples %08X %08X\n", (unsigned)step.first, (unsigned)step.second);
    show_answer("proved", proved_answer);
    show_answer("second", second_answer);
    show_after(&lent, &step.chip);
}

/* What all the steps together have met, so that no edge is missed without notice. */

enum met {
    RESET_SEEN,
    EXTERNAL_CALL,
    TIMER_CALL,
    EXTERNAL_BEFORE_TIMER,
    OVERFLOW_IN_FIRST,
    OVERFLOW_IN_SECOND,
    FALL_OF_T1,
    JUMP_OUT,
    TABLE_PAST_END,
    NUMBER_1,
    NUMBER_6 = NUMBER_1 + 5,
    NUMBER_25,
    MOVX_READ,
    ANLD = MOVX_READ + 5,
    RESET_HALTED,
    RESET_STOPPED,
    RESET_RELEASED,
    HALTED,
    STOPPED,
    RELEASED_FROM_HALT,
    RELEASED_FROM_STOP,
    EXTERNAL_HELD_BACK,
    TIMER_HELD_BACK,
    HALT_ENTERED,
    STOP_ENTERED,
    HALT_NOT_ENTERED,
    STOP_NOT_ENTERED,
    RELEASED_NUMBER_4,
    RELEASED_NUMBER_6 = RELEASED_NUMBER_4 + 2,
    ONE_BYTE_FROM_OUTSIDE,
    TWO_BYTES_FROM_OUTSIDE,
    NONE_WITH_EA,
    NUMBER_4_FROM_OUTSIDE,
    NUMBER_5_WITH_EA,
    MEETINGS
};

static const char *const meeting_names[MEETINGS] = {
    "reset",
    "external call",
    "timer call",
    "external before timer",
    "overflow in the first of two cycles",
    "in the second",
    "fall of T1 between them",
    "jump out of the page of its first byte",
    "table byte past the end",
    "number 1",
    "2",
    "3",
    "4",
    "5",
    "6",
    "25",
    "MOVX read",
    "MOVX write",
    "MOVD A,Pp",
    "MOVD Pp,A",
    "ORLD",
    "ANLD",
    "reset of a halted machine",
    "of a stopped one",
    "of one just released",
    "wait of a halted machine",
    "of a stopped one",
    "release from a halt",
    "from a stop",
    "external call held back by a release",
    "timer call held back",
    "HALT entered",
    "STOP entered",
    "HALT not entered",
    "STOP not entered",
    "just released, number 4",
    "5",
    "6",
    "one byte from outside",
    "two",
    "none, though EA is high",
    "number 4 from outside",
    "number 5 with EA high for a byte that is inside",
};

static uint64_t meetings[MEETINGS];

/* What a step does by document 01, and by 02's item 2, unless it is refused. */
enum act { RESET, WAIT, EXTERNAL, TIMER, INSTRUCTION };

static bool is_high(uint32_t pin)
{
    return (step.first & pin) != 0;
}

/* Which of the two calls would come if none were in service and it were not just released. */
static enum act call_of_step(void)
{
    const uint8_t *state = step.chip.state;

    if (state[BYTE_EXTERNAL_ENABLED] && !is_high(SECOND_PIN_INT))
        return EXTERNAL;
    return state[BYTE_TIMER_ENABLED] && state[BYTE_REQUEST] ? TIMER : INSTRUCTION;
}

static enum act act_of_step(void)
{
    const uint8_t *state = step.chip.state;

    if (!is_high(SECOND_PIN_RESET))
        return RESET;
    if (state[BYTE_MODE] == SECOND_MODE_HALTED || state[BYTE_MODE] == SECOND_MODE_STOPPED)
        return WAIT;
    if (state[BYTE_IN_SERVICE] || state[BYTE_MODE] == SECOND_MODE_RELEASED)
        return INSTRUCTION;
    return call_of_step();
}

static void note_act(enum act act)
{
    const uint8_t *state = step.chip.state;

    meetings[RESET_SEEN] += act == RESET;
    meetings[EXTERNAL_CALL] += act == EXTERNAL;
    meetings[TIMER_CALL] += act == TIMER;
    meetings[EXTERNAL_BEFORE_TIMER] +=
        act == EXTERNAL && state[BYTE_TIMER_ENABLED] && state[BYTE_REQUEST];
}

/* No instruction of two cycles sets the timer, so what it was before decides. */
static void note_overflow(void)
{
    const uint8_t *state = step.chip.state;
    bool timer = state[BYTE_COUNTING] == SECOND_TIMER;
    bool counter = state[BYTE_COUNTING] == SECOND_COUNTER;

    if (state[BYTE_T] != 0xFF)
        return;
    meetings[OVERFLOW_IN_FIRST] += timer && state[BYTE_DIVIDER] == 31;
    meetings[OVERFLOW_IN_SECOND] += timer && state[BYTE_DIVIDER] == 30;
    meetings[FALL_OF_T1] +=
        counter && (step.first & SECOND_PIN_T1) && !(step.second & SECOND_PIN_T1);
}

/* Where the byte at an address is, if it is anywhere. */
static uint8_t *byte_of_step(uint16_t address)
{
    return fetched(&step.chip, is_high(SECOND_PIN_EA), address);
}

uint8_t code_of_step(void)
{
    const uint8_t *code = byte_of_step(pc_of(&step.chip));

    return code == NULL ? 0 : *code;
}

static void note_mode(enum act act)
{
    uint8_t mode = step.chip.state[BYTE_MODE];
    bool halted = mode == SECOND_MODE_HALTED;
    bool released = mode == SECOND_MODE_RELEASED;
    bool low = !is_high(SECOND_PIN_INT);
    bool held_back = act == INSTRUCTION && released && !step.chip.state[BYTE_IN_SERVICE];

    if (act == RESET && mode != SECOND_MODE_RUNS)
        meetings[halted ? RESET_HALTED : released ? RESET_RELEASED : RESET_STOPPED]++;
    if (act == WAIT && low)
        meetings[halted ? RELEASED_FROM_HALT : RELEASED_FROM_STOP]++;
    if (act == WAIT && !low)
        meetings[halted ? HALTED : STOPPED]++;
    meetings[EXTERNAL_HELD_BACK] += held_back && call_of_step() == EXTERNAL;
    meetings[TIMER_HELD_BACK] += held_back && call_of_step() == TIMER;
}

/* An accepted instruction. */
static void note_halt(void)
{
    bool low = !is_high(SECOND_PIN_INT);

    if (code_of_step() == 0x01)
        meetings[low ? HALT_NOT_ENTERED : HALT_ENTERED]++;
    if (code_of_step() == 0x82)
        meetings[low ? STOP_NOT_ENTERED : STOP_ENTERED]++;
}

bool jump_taken(void)
{
    const uint8_t *state = step.chip.state;
    uint8_t code = code_of_step();

    if ((code & 0x1F) == 0x12) /* JBb */
        return state[BYTE_A] >> (code >> 5) & 1;
    if ((code & 0xF8) == 0xE8) /* DJNZ */
        return *register_of(&step.chip, code & 7) != 1;
    switch (code) {
    case 0x16: /* JTF */
        return state[BYTE_TF];
    case 0x26: /* JNT0 */
        return !is_high(SECOND_PIN_T0);
    case 0x36: /* JT0 */
        return is_high(SECOND_PIN_T0);
    case 0x46: /* JNT1 */
        return !is_high(SECOND_PIN_T1);
    case 0x56: /* JT1 */
        return is_high(SECOND_PIN_T1);
    case 0x76: /* JF1 */
        return state[BYTE_F1];
    case 0x86: /* JNI */
        return !is_high(SECOND_PIN_INT);
    case 0x96: /* JNZ */
        return state[BYTE_A] != 0;
    case 0xB6: /* JF0 */
        return state[BYTE_PSW] & 0x20;
    case 0xC6: /* JZ */
        return state[BYTE_A] == 0;
    case 0xE6: /* JNC */
        return !(state[BYTE_PSW] & 0x80);
    case 0xF6: /* JC */
        return state[BYTE_PSW] & 0x80;
    default:
        return false;
    }
}

static void note_jump(void)
{
    bool other_page = lent.second_state.pc >> 8 != pc_of(&step.chip) >> 8;

    meetings[JUMP_OUT] += jump_taken() && other_page;
}

/* MOVP has no second byte: where it stands in the program, 5 is for its table byte. */
static void note_past_end(void)
{
    uint16_t pc = pc_of(&step.chip);

    meetings[TABLE_PAST_END] += byte_of_step(pc) != NULL && code_of_step() == 0xA3;
    meetings[NUMBER_5_WITH_EA] += is_high(SECOND_PIN_EA) && pc < step.chip.program_len;
}

static void note_refusal(uint8_t number)
{
    bool released = step.chip.state[BYTE_MODE] == SECOND_MODE_RELEASED;

    if (number <= SECOND_SAMPLE_BITS)
        meetings[NUMBER_1 + number - 1]++;
    meetings[NUMBER_25] += number == SECOND_SET_UNKNOWN;
    meetings[NUMBER_4_FROM_OUTSIDE] +=
        number == SECOND_UNDEFINED_CODE && is_outside(pc_of(&step.chip));
    if (released && number >= SECOND_UNDEFINED_CODE && number <= SECOND_SAMPLE_BITS)
        meetings[RELEASED_NUMBER_4 + number - SECOND_UNDEFINED_CODE]++;
    if (number == SECOND_PAST_END)
        note_past_end();
}

static void note(struct second_outcome outcome)
{
    if (outcome.number != 0) {
        note_refusal(outcome.number);
        return;
    }
    note_act(act_of_step());
    note_mode(act_of_step());
    if (act_of_step() == INSTRUCTION) {
        note_jump();
        note_halt();
    }
    meetings[ONE_BYTE_FROM_OUTSIDE] += outcome.outside == 1;
    meetings[TWO_BYTES_FROM_OUTSIDE] += outcome.outside == 2;
    meetings[NONE_WITH_EA] += outcome.outside == 0 && is_high(SECOND_PIN_EA);
    if (outcome.cycles == 2)
        note_overflow();
    if (outcome.event != 0 && outcome.event <= SECOND_ANLD)
        meetings[MOVX_READ + outcome.event - 1]++;
}

static void meeting_case(void)
{
    begin_case("what the steps have met");
    printf("steps: met");
    for (int i = 0; i < MEETINGS; i++)
        printf("%s %s %llu", i == 0 ? "" : ",", meeting_names[i], (unsigned long long)meetings[i]);
    printf("\n");
    for (int i = 0; i < MEETINGS; i++) {
        if (meetings[i] == 0)
            differ("%s: never", meeting_names[i]);
    }
    end_case();
}

/* One step of both. */

void random_step(uint32_t set, uint64_t tries)
{
    static size_t program_len; /* of the programs that stay, whatever a case has lent of them */
    static size_t outside_len;

    step.chip.kept = tries % 64 != 0;
    if (!step.chip.kept) {
        random_programs(&step.chip);
        program_len = step.chip.program_len;
        outside_len = step.chip.outside_len;
    }
    step.chip.set = set;
    step.chip.program_len = program_len;
    step.chip.outside_len = outside_len;
    random_sizes(&step.chip);
    random_state(&step.chip);
    random_ram(&step.chip);
    step.first = random_sample();
    step.second = random_sample();
    if (step.chip.outside_len == 0 && !one_in(16)) /* or else few would come to an instruction */
        step.first &= ~SECOND_PIN_EA;
}

void quiet_pins(void)
{
    step.first = (step.first & ~SECOND_PIN_NONE) | SECOND_PIN_RESET | SECOND_PIN_INT;
    step.second = (step.second & ~SECOND_PIN_NONE) | SECOND_PIN_RESET | SECOND_PIN_INT;
    if (step.chip.outside_len == 0)
        step.first &= ~SECOND_PIN_EA;
}

static void put(uint16_t address, uint8_t byte)
{
    put_byte(&lent, &step.chip, is_high(SECOND_PIN_EA), address, byte);
}

void put_code(uint8_t code)
{
    put(pc_of(&step.chip), code);
}

void put_operand(uint8_t operand)
{
    put(next_pc(pc_of(&step.chip)), operand);
}

bool is_outside(uint16_t address)
{
    return is_high(SECOND_PIN_EA) || address >= step.chip.program_len;
}

uint32_t with_pin(uint32_t sample, uint32_t pin, bool high)
{
    return high ? sample | pin : sample & ~pin;
}

void wake(void)
{
    uint8_t *mode = &step.chip.state[BYTE_MODE];

    if (*mode != SECOND_MODE_RELEASED)
        *mode = SECOND_MODE_RUNS;
}

static uint64_t packed(struct second_outcome outcome)
{
    return outcome.number | (uint64_t)outcome.cycles << 8 | (uint64_t)outcome.event << 16 |
           (uint64_t)outcome.address << 24 | (uint64_t)outcome.data << 32 |
           (uint64_t)outcome.outside << 40 | (uint64_t)outcome.samples << 48;
}

/* By the header's functions. */
static bool is_taken_apart(uint64_t answer, struct second_outcome outcome)
{
    return mcs48_number(answer) == outcome.number && mcs48_cycles(answer) == outcome.cycles &&
           mcs48_event(answer) == outcome.event && mcs48_event_address(answer) == outcome.address &&
           mcs48_event_data(answer) == outcome.data && mcs48_outside(answer) == outcome.outside &&
           mcs48_samples(answer) == outcome.samples;
}

/* Against what was lent, not against the second emulator, which could err the same way. */
static void refused_touches_nothing(void)
{
    if (memcmp(lent.state.at, step.chip.state, step.chip.state_len) != 0)
        differ("refused, and the state is another");
    if (memcmp(lent.ram.at, step.chip.ram, step.chip.ram_len) != 0)
        differ("refused, and the RAM is another");
}

/* By the document: a reset, a wait, a call and a refused step have fetched nothing. */
static void check_outside(struct second_outcome outcome)
{
    bool fetches = outcome.number == SECOND_ACCEPTED && act_of_step() == INSTRUCTION;

    if (outcome.outside != (fetches ? bytes_from_outside() : 0))
        differ("not so many bytes from outside");
}

struct second_outcome check_step(void)
{
    const struct chip *chip = &step.chip;

    lend_chip(&lent, chip);
    proved_answer = second_answer = 0;
    proved_answer = mcs48_step(chip->set, lent.program.at, chip->program_len, lent.outside_at,
                               chip->outside_len, lent.ram.at, chip->ram_len, lent.state.at,
                               chip->state_len, step.first, step.second);
    struct second_outcome outcome =
        second_step(chip->set, chip->program, chip->program_len, chip->outside, chip->outside_len,
                    lent.second_ram, chip->ram_len, &lent.second_state, step.first, step.second);
    second_answer = packed(outcome);

    if (proved_answer != second_answer)
        differ("the answer differs");
    if (!is_taken_apart(proved_answer, outcome))
        differ("the header's functions take the answer apart differently");
    if ((proved_answer & 0xFF) != 0)
        refused_touches_nothing();
    compare_chips(&lent, chip);
    check_outside(outcome);
    note(outcome);
    return outcome;
}

/* Codes. */

bool reached(struct second_outcome outcome)
{
    return act_of_step() == INSTRUCTION &&
           (outcome.number == SECOND_ACCEPTED || outcome.number == SECOND_UNDEFINED_CODE);
}

/* By the document's list, which neither emulator has been asked for. */
static void check_defined(struct second_outcome outcome, uint8_t code)
{
    if ((outcome.number == SECOND_ACCEPTED) != is_defined(step.chip.set, code))
        differ("%s", is_defined(step.chip.set, code) ? "refused by 4" : "accepted");
}

static void code_case(uint32_t set, uint8_t code)
{
    uint64_t inside = 0;
    uint64_t outside = 0;

    begin_case("%s, %s code %02X", set_name(set), is_defined(set, code) ? "defined" : "undefined",
               code);
    for (uint64_t tries = 0; (inside < count() || outside < count()) && agrees(); tries++) {
        random_step(set, tries);
        put_code(code);
        struct second_outcome outcome = check_step();
        if (reached(outcome)) {
            check_defined(outcome, code);
            inside += !is_outside(pc_of(&step.chip));
            outside += is_outside(pc_of(&step.chip));
        }
        if (tries > 100 * (inside + 10) || tries > 100 * (outside + 10))
            differ("too few steps come as far as the code");
    }
    end_case();
}

int main(int argc, char **argv)
{
    static const struct driver driver = {"steps", 10000, show};

    start(&driver, argc, argv);
    new_rooms(&lent);
    for (size_t i = 0; i < LENGTH(sets); i++) {
        for (unsigned code = 0; code < 256; code++)
            code_case(sets[i], (uint8_t)code);
        edge_cases(sets[i]);
        outside_cases(sets[i]);
    }
    accumulator_cases();
    halt_cases();
    refusal_cases();
    meeting_case();
    return finish();
}
