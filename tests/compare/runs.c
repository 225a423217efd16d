/*
 * Runs: mcs48_run against second_run over random programs and lists of samples. Compared are
 * the number, the totals, the state and RAM; and a run with the same run cut in pieces, and
 * with its steps one at a time. In run_halts.c, runs over HALT and STOP; in run_outside.c, runs
 * over two memories; in run_rotates.c, strings that may stand for each other.
 *
 * --count N: runs in each case.
 */
#include "runs.h"

#include "mcs48.h"

#include <stdio.h>
#include <string.h>

enum { TOTALS_MOST = 3, PIECES_SHOWN = 64 };

/* The run under way. */

struct chip chip;
uint32_t samples[SAMPLES_MOST];
size_t samples_len;
static uint64_t totals[TOTALS_MOST]; /* before the run */
static size_t totals_len;

struct lent_chip lent;
static struct lent lent_samples;
static struct lent lent_totals;

static struct result proved;
struct result second;
static uint8_t mode_after;          /* second_run */
static size_t pieces[PIECES_SHOWN]; /* the lengths of the lists of a run that is cut */
static size_t pieces_len;

static void show_result(const char *label, struct result result)
{
    printf("  %s: number %llu, samples %llu, cycles %llu\n", label,
           (unsigned long long)result.number, (unsigned long long)result.samples,
           (unsigned long long)result.cycles);
}

static void show(void)
{
    show_before(&chip);
    printf("  %zu samples:", samples_len);
    for (size_t i = 0; i < samples_len; i++)
        printf("%s%08X", i % 10 == 0 ? "\n    " : " ", (unsigned)samples[i]);
    printf("\n  totals of %zu elements\n", totals_len);
    if (pieces_len > 0)
        printf("  cut in lists of");
    for (size_t i = 0; i < pieces_len; i++)
        printf(" %zu", pieces[i]);
    printf("\n");
    show_result("proved", proved);
    show_result("second", second);
    show_after(&lent, &chip);
}

/* One run of both. */

/* Where there is room for both totals, and nowhere else, they are written. */
static void check_totals(void)
{
    uint64_t expected[TOTALS_MOST];

    memcpy(expected, totals, sizeof expected);
    if (totals_len >= 2) {
        expected[0] = second.samples;
        expected[1] = second.cycles;
    }
    came_back(&lent_totals, "the list of totals", expected);
}

void check_run(void)
{
    pieces_len = 0;
    totals_len = below(TOTALS_MOST + 1);
    random_bytes((uint8_t *)totals, sizeof totals);
    lend_chip(&lent, &chip);
    const uint32_t *list = lend(&lent_samples, samples, samples_len * sizeof *samples);
    uint64_t *sums = lend(&lent_totals, totals, totals_len * sizeof *totals);

    proved = second = (struct result){0};
    proved.number = mcs48_run(chip.set, lent.program.at, chip.program_len, lent.outside_at,
                              chip.outside_len, lent.ram.at, chip.ram_len, lent.state.at,
                              chip.state_len, list, samples_len, sums, totals_len);
    if (totals_len >= 2) {
        proved.samples = sums[0];
        proved.cycles = sums[1];
    }
    struct second_totals answer =
        second_run(chip.set, chip.program, chip.program_len, chip.outside, chip.outside_len,
                   lent.second_ram, chip.ram_len, &lent.second_state, samples, samples_len);
    second = (struct result){answer.number, answer.samples, answer.cycles};
    mode_after = lent.second_state.mode;

    if (proved.number != second.number)
        differ("the number differs");
    check_totals();
    came_back(&lent_samples, "the list of samples", samples);
    compare_chips(&lent, &chip);
}

/* The same run in parts, by the proved emulator alone. */

static struct chip part; /* the chip after the parts done so far */

static void begin_parts(void)
{
    memcpy(part.program, chip.program, chip.program_len);
    memcpy(part.outside, chip.outside, chip.outside_len);
    memcpy(part.ram, chip.ram, chip.ram_len);
    memcpy(part.state, chip.state, chip.state_len);
    part.set = chip.set;
    part.program_len = chip.program_len;
    part.outside_len = chip.outside_len;
    part.kept = false;
    part.ram_len = chip.ram_len;
    part.state_len = chip.state_len;
    proved = (struct result){0};
}

static void take_back(void)
{
    memcpy(part.ram, lent.ram.at, part.ram_len);
    memcpy(part.state, lent.state.at, part.state_len);
    part.kept = true;
}

static void run_part(size_t len)
{
    uint64_t sums[2] = {0, 0};

    lend_chip(&lent, &part);
    const uint32_t *list = lend(&lent_samples, samples + proved.samples, len * sizeof *samples);
    proved.number =
        mcs48_run(part.set, lent.program.at, part.program_len, lent.outside_at, part.outside_len,
                  lent.ram.at, part.ram_len, lent.state.at, part.state_len, list, len, sums, 2);
    proved.samples += sums[0];
    proved.cycles += sums[1];
    take_back();
}

static void step_part(void)
{
    const uint32_t *pair = samples + proved.samples;

    lend_chip(&lent, &part);
    uint64_t answer =
        mcs48_step(part.set, lent.program.at, part.program_len, lent.outside_at, part.outside_len,
                   lent.ram.at, part.ram_len, lent.state.at, part.state_len, pair[0], pair[1]);
    proved.number = mcs48_number(answer);
    proved.samples += mcs48_samples(answer);
    proved.cycles += mcs48_cycles(answer);
    take_back();
}

/* Are the parts together what second_run has left? */
static void compare_parts(const struct second_state *state, const uint8_t *ram)
{
    uint8_t bytes[STATE_BYTES];

    bytes_of_state(bytes, state);
    if (memcmp(part.state, bytes, sizeof bytes) != 0)
        differ("the state after the parts differs");
    if (memcmp(part.ram, ram, part.ram_len) != 0)
        differ("the RAM after the parts differs");
    if (proved.number != second.number || proved.samples != second.samples ||
        proved.cycles != second.cycles)
        differ("the parts don't add up to the run");
    came_back(&lent.program, "the program", chip.program);
    came_back(&lent.outside, "the second program", chip.outside);
}

static void cut_run(void)
{
    size_t left;
    size_t len;

    do {
        left = samples_len - proved.samples;
        len = one_in(8) ? left : below((uint32_t)left + 1);
        if (pieces_len < PIECES_SHOWN)
            pieces[pieces_len++] = len;
        run_part(len);
    } while (proved.number == 0 && len < left);
}

static void step_run(void)
{
    while (proved.number == 0 && samples_len - proved.samples >= 2)
        step_part();
}

static void check_parts(void (*in_parts)(void))
{
    check_run();
    struct second_state state = lent.second_state;
    uint8_t ram[256];
    memcpy(ram, lent.second_ram, chip.ram_len);

    begin_parts();
    in_parts();
    compare_parts(&state, ram);
}

static void check_pieces(void)
{
    check_parts(cut_run);
}

static void check_steps(void)
{
    check_parts(step_run);
}

void check_somehow(void)
{
    static void (*const manners[])(void) = {check_run, check_pieces, check_steps};

    manners[below(LENGTH(manners))]();
}

/* Random runs. */

static uint8_t defined_code(void)
{
    uint8_t code;

    do {
        code = (uint8_t)random_word();
    } while (!is_defined(chip.set, code));
    return code;
}

/* A code after which memory up to that address is hardly left by a jump. */
static uint8_t staying_code(size_t end)
{
    uint8_t code = defined_code();

    if ((code & 0x0F) == 0x04 && end == 1024)
        code &= 0x7F; /* JMP and CALL to the lower four pages */
    if (code == 0xF5 && end < 4096)
        code = 0xE5; /* SEL MB0 for SEL MB1 */
    if (chip.set == SECOND_NEC && one_in(16))
        code = one_in(2) ? 0x01 : 0x82; /* HALT, STOP */
    return code;
}

static void enduring_codes(uint8_t *program, size_t len, size_t end)
{
    for (size_t i = 0; i < len; i++)
        program[i] = staying_code(end);
}

/* Programs of defined codes, and a stack that leads back into them: they run for long. */
static void enduring_program(void)
{
    size_t end = chip.outside_len != 0 ? chip.outside_len : chip.program_len;

    enduring_codes(chip.program, chip.program_len, end);
    enduring_codes(chip.outside, chip.outside_len, end);
    for (size_t i = 9; i < 24; i += 2)
        chip.ram[i] = (uint8_t)((chip.ram[i] & 0xF0) | below((uint32_t)end / 256));
    set_pc(&chip, pc_of(&chip) % (uint16_t)end);
    if (end < 4096)
        chip.state[BYTE_DBF] = 0;
}

/* EA high in none, all, half or few of the samples; without a second program it ends the run. */
static void random_ea(void)
{
    uint32_t rate = chip.outside_len == 0 ? 1u << (6 + below(5)) : 1u << below(6);

    if (one_in(chip.outside_len == 0 ? 2 : 4))
        return;
    for (size_t i = 0; i < samples_len; i++) {
        if (one_in(rate))
            samples[i] |= SECOND_PIN_EA;
    }
}

/* Each list has its own mood: how often RESET, INT and EA act, and whether a bit is set. */
static void random_samples(size_t len)
{
    uint32_t reset = 1u << below(16);
    uint32_t request = 1u << below(10);

    samples_len = len;
    for (size_t i = 0; i < len; i++) {
        samples[i] = random_word() & SECOND_PIN_IDLE;
        samples[i] |= SECOND_PIN_INT | SECOND_PIN_RESET;
        if (one_in(request))
            samples[i] &= ~SECOND_PIN_INT;
        if (reset > 8 && one_in(reset))
            samples[i] &= ~SECOND_PIN_RESET;
    }
    random_ea();
    if (len > 0 && one_in(4)) {
        size_t at = one_in(4) ? len - 1 : below((uint32_t)len);
        samples[at] |= UINT32_C(1) << (29 + below(3));
    }
}

void random_chip(uint32_t set)
{
    chip.set = set;
    random_programs(&chip);
    random_sizes(&chip);
    random_state(&chip);
    random_ram(&chip);
}

void plain_samples(bool ea, size_t len)
{
    samples_len = len;
    for (size_t i = 0; i < len; i++) {
        samples[i] = (random_word() & SECOND_PIN_IDLE) | SECOND_PIN_INT | SECOND_PIN_RESET;
        if (ea)
            samples[i] |= SECOND_PIN_EA;
    }
}

void set_low(uint32_t pin, size_t from, size_t len)
{
    for (size_t i = from; i < from + len && i < samples_len; i++)
        samples[i] &= ~pin;
}

/* What the document says that a run leaves. */

void expect_totals(uint64_t number, uint64_t used, uint64_t waits)
{
    if (second.number != number)
        differ("not the number %u", (unsigned)number);
    if (second.samples != used || second.cycles != used - waits)
        differ("not %u samples with %u waits", (unsigned)used, (unsigned)waits);
}

void expect_byte(enum state_byte byte, uint8_t expected)
{
    if (lent.state.at[byte] != expected)
        differ("%s is not %02X", state_byte_names[byte], expected);
}

void expect_pc(uint16_t expected)
{
    expect_byte(BYTE_PC_LOW, (uint8_t)expected);
    expect_byte(BYTE_PC_HIGH, (uint8_t)(expected >> 8));
}

static void random_run(uint32_t set, bool enduring, size_t len)
{
    random_chip(set);
    if (enduring)
        enduring_program();
    random_samples(len);
}

/* What all the runs together have met. */

enum met {
    RAN_OUT,
    ALL_USED,
    ONE_LEFT,
    NUMBER_4,
    NUMBER_5,
    NUMBER_6,
    STOOD,
    WAITED,
    ONLY_WAITED,
    LEFT_HALTED,
    LEFT_STOPPED,
    LEFT_RELEASED,
    RELEASED_4,
    RELEASED_5,
    RELEASED_6,
    MEETINGS
};

static const char *const meeting_names[MEETINGS] = {
    "samples ran out",
    "none left",
    "one left",
    "4",
    "5",
    "6",
    "steps that stood before a refusal",
    "waits",
    "nothing but waits",
    "left halted",
    "left stopped",
    "left just released",
    "just released, refused by 4",
    "by 5",
    "by 6",
};

static uint64_t meetings[MEETINGS];
static uint64_t longest;

static void note_modes(void)
{
    bool released = mode_after == SECOND_MODE_RELEASED;

    meetings[WAITED] += second.samples > second.cycles;
    meetings[ONLY_WAITED] += second.samples > 0 && second.cycles == 0;
    meetings[LEFT_HALTED] += mode_after == SECOND_MODE_HALTED;
    meetings[LEFT_STOPPED] += mode_after == SECOND_MODE_STOPPED;
    meetings[LEFT_RELEASED] += released;
    if (released && second.number >= 4 && second.number <= 6)
        meetings[RELEASED_4 + second.number - 4]++;
}

static void note(void)
{
    uint64_t left = samples_len - second.samples;

    meetings[RAN_OUT] += second.number == 0;
    meetings[ALL_USED] += second.number == 0 && second.samples > 0 && left == 0;
    meetings[ONE_LEFT] += second.number == 0 && second.samples > 0 && left == 1;
    if (second.number >= 4 && second.number <= 6)
        meetings[NUMBER_4 + second.number - 4]++;
    meetings[STOOD] += second.number != 0 && second.samples > 0;
    longest = second.samples > longest ? second.samples : longest;
    note_modes();
}

/* Cases. */

struct manner {
    const char *name;
    void (*check)(void);
};

static void run_case(uint32_t set, const struct manner *manner, bool enduring, uint32_t least,
                     uint32_t most)
{
    begin_case("%s, %s, %s, %u to %u samples", set_name(set), manner->name,
               enduring ? "defined codes" : "any bytes", (unsigned)least, (unsigned)most);
    for (uint64_t i = 0; i < count() && agrees(); i++) {
        random_run(set, enduring, least + below(most - least + 1));
        manner->check();
        note();
    }
    end_case();
}

static void run_cases(uint32_t set)
{
    static const struct manner manners[] = {
        {"whole runs", check_run}, {"runs in pieces", check_pieces}, {"single steps", check_steps}};
    static const uint32_t lengths[][2] = {{0, 0}, {1, 1},   {2, 2},    {3, 3},
                                          {4, 9}, {10, 99}, {100, SAMPLES_MOST}};

    for (size_t i = 0; i < LENGTH(manners); i++) {
        for (size_t j = 0; j < LENGTH(lengths); j++) {
            run_case(set, &manners[i], false, lengths[j][0], lengths[j][1]);
            run_case(set, &manners[i], true, lengths[j][0], lengths[j][1]);
        }
    }
}

/* Refused before the first step, also without a sample. */

static void bad_program_length(void)
{
    static const size_t lengths[] = {0, 1, 64, 1000, 1023, 1025, 4095, 4097, 0x10000 + 1024};

    chip.program_len = lengths[below(LENGTH(lengths))];
}

static void bad_outside_length(void)
{
    static const size_t lengths[] = {1, 1023, 1024, 2048, 4095, 4097, 0x10000, 0x10000 + 4096};

    chip.outside_len = lengths[below(LENGTH(lengths))];
}

static void bad_ram_length(void)
{
    static const size_t lengths[] = {0, 1, 63, 65, 127, 255, 257, 1024, 0x10000 + 64};

    chip.ram_len = lengths[below(LENGTH(lengths))];
}

static void bad_state(void)
{
    static const enum state_byte limited[] = {BYTE_PC_HIGH,    BYTE_F1,   BYTE_DIVIDER,
                                              BYTE_COUNTING,   BYTE_TF,   BYTE_LAST_T1,
                                              BYTE_BUS_DRIVEN, BYTE_MODE, BYTE_RESERVED};

    if (one_in(4))
        chip.state[BYTE_PSW] &= 0xF7;
    else
        chip.state[limited[below(LENGTH(limited))]] = (uint8_t)(32 + below(224));
}

/* Halted, stopped or just released. */
static void bad_mode_of_intel(void)
{
    chip.set = SECOND_INTEL;
    chip.state[BYTE_MODE] = (uint8_t)(1 + below(3));
}

static void bad_set(void)
{
    chip.set = unknown_set();
}

static void bad_state_length(void)
{
    static const size_t lengths[] = {0, 1, 20, 23, 25, 64};

    chip.state_len = lengths[below(LENGTH(lengths))];
}

static void bad_in_two_ways(void)
{
    static void (*const ways[])(void) = {bad_program_length, bad_outside_length, bad_ram_length,
                                         bad_state,          bad_state_length,   bad_mode_of_intel};

    ways[below(LENGTH(ways))]();
    ways[below(LENGTH(ways))]();
}

/* 1 goes before 2 and 3. */
static void bad_outside_and_more(void)
{
    bad_in_two_ways();
    bad_outside_length();
}

/* 25 goes before all others. */
static void bad_in_many_ways(void)
{
    bad_in_two_ways();
    bad_set();
}

static void refused_case(const char *name, void (*spoil)(void), uint8_t least, uint8_t most)
{
    begin_case("%s", name);
    for (uint64_t i = 0; i < count() && agrees(); i++) {
        random_run(sets[below(LENGTH(sets))], one_in(2),
                   one_in(2) ? below(3) : below(SAMPLES_MOST));
        spoil();
        check_run();
        if (second.number < least || second.number > most)
            differ("not that number");
        if (second.samples != 0 || second.cycles != 0)
            differ("not refused before the first step");
    }
    end_case();
}

static void refused_cases(void)
{
    refused_case("program length not allowed", bad_program_length, 1, 1);
    refused_case("second program's length not allowed", bad_outside_length, 1, 1);
    refused_case("RAM length not allowed", bad_ram_length, 2, 2);
    refused_case("state outside its sizes", bad_state, 3, 3);
    refused_case("state length not allowed", bad_state_length, 3, 3);
    refused_case("Intel, and it doesn't run", bad_mode_of_intel, 3, 3);
    refused_case("two of these", bad_in_two_ways, 1, 3);
    refused_case("second program's length and two of these", bad_outside_and_more, 1, 1);
    refused_case("set neither Intel nor NEC", bad_set, 25, 25);
    refused_case("such a set and two of these", bad_in_many_ways, 25, 25);
}

static void meeting_case(void)
{
    begin_case("what the runs have met");
    printf("runs: met");
    for (int i = 0; i < MEETINGS; i++) {
        printf(" %s %llu,", meeting_names[i], (unsigned long long)meetings[i]);
        if (meetings[i] == 0)
            differ("%s: never", meeting_names[i]);
    }
    printf(" longest %llu samples\n", (unsigned long long)longest);
    end_case();
}

int main(int argc, char **argv)
{
    static const struct driver driver = {"runs", 1000, show};

    start(&driver, argc, argv);
    new_rooms(&lent);
    lent_samples = new_room(sizeof samples);
    lent_totals = new_room(sizeof totals);
    run_cases(SECOND_INTEL);
    run_cases(SECOND_NEC);
    refused_cases();
    halt_cases();
    outside_cases();
    rotate_cases();
    meeting_case();
    return finish();
}
