/*
 * Tests of the second emulator: the sixteen bench cases of document 01, then the
 * sentences of document 01, of items 2, 3 and 7 of document 02 and of our readings that
 * are easily misread.
 *
 * Written from document 01 (the scope), items 2, 3 and 7 of document 02 and our readings
 * of them alone, without a look at the Rattle sources; codes and spellings after data
 * sheets 001 and 002, those of HALT and STOP after 000.
 *
 * A failed test prints what was expected and got. The last line is `N passed, M failed`,
 * and the exit status is 0 exactly if M is 0.
 */
#include "second.h"

#include <stdbool.h>
#include <stdio.h>
#include <string.h>

#define IDLE SECOND_PIN_IDLE
#define INT_LOW (IDLE & ~SECOND_PIN_INT)
#define T0_LOW (IDLE & ~SECOND_PIN_T0)
#define T1_LOW (IDLE & ~SECOND_PIN_T1)
#define RESET_LOW (IDLE & ~SECOND_PIN_RESET)
#define EA_HIGH (IDLE | SECOND_PIN_EA)

enum { C = 0x80, AC = 0x40, F0 = 0x20, BS = 0x10, ONE = 0x08 }; /* PSW */

static unsigned long passed;
static unsigned long failed;

static void check(const char *name, unsigned long expected, unsigned long got)
{
    if (expected == got) {
        passed++;
        return;
    }
    failed++;
    printf("%s: expected %lX, got %lX (hex)\n", name, expected, got);
}

static void check_text(const char *name, const char *expected, const uint8_t *got, size_t got_len)
{
    if (strlen(expected) == got_len && memcmp(expected, got, got_len) == 0) {
        passed++;
        return;
    }
    failed++;
    printf("%s: expected [%s], got [%.*s]\n", name, expected, (int)got_len, (const char *)got);
}

static void check_bytes(const char *name, const uint8_t *expected, const uint8_t *got, size_t len)
{
    if (memcmp(expected, got, len) == 0) {
        passed++;
        return;
    }
    failed++;
    for (size_t i = 0; i < len; i++) {
        if (expected[i] != got[i])
            printf("%s: byte %zu: expected %02X, got %02X (hex)\n", name, i, expected[i], got[i]);
    }
}

enum { FIELDS = 20 };

static const char *const field_names[FIELDS] = {
    "A",
    "PC",
    "PSW",
    "F1",
    "DBF",
    "T",
    "divider",
    "counting",
    "TF",
    "request",
    "external enable",
    "timer enable",
    "in service",
    "last T1",
    "T0 clock",
    "P1",
    "P2",
    "BUS",
    "BUS driven",
    "mode",
};

static void state_fields(const struct second_state *s, unsigned values[FIELDS])
{
    const unsigned fields[FIELDS] = {
        s->a,
        s->pc,
        s->psw,
        s->f1,
        s->dbf,
        s->t,
        s->divider,
        s->counting,
        s->tf,
        s->request,
        s->external_enabled,
        s->timer_enabled,
        s->in_service,
        s->last_t1,
        s->t0_clock,
        s->p1,
        s->p2,
        s->bus,
        s->bus_driven,
        s->mode,
    };

    memcpy(values, fields, sizeof fields);
}

static void check_state(const char *name, const struct second_state *expected,
                        const struct second_state *got)
{
    unsigned want[FIELDS];
    unsigned have[FIELDS];

    state_fields(expected, want);
    state_fields(got, have);
    if (memcmp(want, have, sizeof want) == 0) {
        passed++;
        return;
    }
    failed++;
    for (int i = 0; i < FIELDS; i++) {
        if (want[i] != have[i])
            printf("%s: %s: expected %X, got %X (hex)\n", name, field_names[i], want[i], have[i]);
    }
}

static void check_outcome(const char *name, struct second_outcome expected,
                          struct second_outcome got)
{
    if (expected.number == got.number && expected.cycles == got.cycles &&
        expected.samples == got.samples && expected.event == got.event &&
        expected.address == got.address && expected.data == got.data &&
        expected.outside == got.outside) {
        passed++;
        return;
    }
    failed++;
    printf("%s: outcome: expected number %u cycles %u samples %u event %u address %02X data %02X "
           "outside %u, "
           "got number %u cycles %u samples %u event %u address %02X data %02X outside %u\n",
           name, expected.number, expected.cycles, expected.samples, expected.event,
           expected.address, expected.data, expected.outside, got.number, got.cycles, got.samples,
           got.event, got.address, got.data, got.outside);
}

/*
 * A machine on the bench. A test sets it up, calls expect, writes down what shall differ
 * in `want`, and steps: so each test also checks all that shall stay as it was.
 */
struct bench {
    uint32_t set;
    uint8_t program[4096];
    size_t program_len;
    uint8_t outside[4096];
    size_t outside_len;
    uint8_t ram[256];
    uint8_t want_ram[256];
    size_t ram_len;
    struct second_state s;
    struct second_state want;
    struct second_outcome want_outcome;
    uint32_t first;
    uint32_t second;
};

/*
 * Intel, 4,096 NOPs, no second program, 256 zeros, the state after power-up but for a high
 * T1, idle pins.
 */
static void fresh(struct bench *b)
{
    memset(b, 0, sizeof *b);
    b->set = SECOND_INTEL;
    b->program_len = 4096;
    b->ram_len = 256;
    second_power_up(&b->s);
    b->s.last_t1 = 1;
    b->first = IDLE;
    b->second = IDLE;
}

static void put2(struct bench *b, size_t at, uint8_t code, uint8_t operand)
{
    b->program[at] = code;
    b->program[at + 1] = operand;
}

/* A fresh bench with an instruction at PC. */
static void fresh_with(struct bench *b, uint16_t pc, uint8_t code, uint8_t operand)
{
    fresh(b);
    put2(b, pc, code, operand);
    b->s.pc = pc;
}

/* A NEC bench with an instruction at PC 210, in some mode. */
static void fresh_nec(struct bench *b, uint8_t code, uint8_t mode)
{
    fresh_with(b, 0x210, code, 0x5A);
    b->set = SECOND_NEC;
    b->s.mode = mode;
}

/* A step that uses one sample for each of its cycles. */
static void expect(struct bench *b, uint16_t pc, uint8_t cycles)
{
    b->want = b->s;
    b->want.pc = pc;
    memcpy(b->want_ram, b->ram, sizeof b->ram);
    b->want_outcome = (struct second_outcome){.cycles = cycles, .samples = cycles};
}

/* The wait of a halted or stopped machine. */
static void expect_wait(struct bench *b, uint8_t mode)
{
    expect(b, b->s.pc, 0);
    b->want.mode = mode;
    b->want_outcome.samples = 1;
}

static void expect_event(struct bench *b, uint8_t event, uint8_t address, uint8_t data)
{
    b->want_outcome.event = event;
    b->want_outcome.address = address;
    b->want_outcome.data = data;
}

/* A step of which only the change of state is wanted. A second program not lent is null. */
static struct second_outcome just_step(struct bench *b)
{
    return second_step(b->set, b->program, b->program_len, b->outside_len ? b->outside : NULL,
                       b->outside_len, b->ram, b->ram_len, &b->s, b->first, b->second);
}

static void step(struct bench *b, const char *name)
{
    struct second_outcome outcome = just_step(b);

    check_outcome(name, b->want_outcome, outcome);
    check_state(name, &b->want, &b->s);
    check_bytes(name, b->want_ram, b->ram, sizeof b->ram);
}

/* A step that is refused and changes nothing. */
static void step_refused(struct bench *b, const char *name, uint8_t number)
{
    expect(b, b->s.pc, 0);
    b->want_outcome.number = number;
    step(b, name);
}

static struct second_totals run(struct bench *b, const uint32_t *samples, size_t samples_len)
{
    return second_run(b->set, b->program, b->program_len, b->outside_len ? b->outside : NULL,
                      b->outside_len, b->ram, b->ram_len, &b->s, samples, samples_len);
}

static struct second_totals run_idle(struct bench *b, size_t samples_len)
{
    static uint32_t samples[4096];

    for (size_t i = 0; i < samples_len; i++)
        samples[i] = IDLE;
    return run(b, samples, samples_len);
}

/* The codes, written down a second time from document 01 and the data sheets. */

static const uint8_t undefined_codes[26] = {
    0x01, 0x06, 0x0B, 0x22, 0x33, 0x38, 0x3B, 0x63, 0x66, 0x73, 0x82, 0x87, 0x8B,
    0x9B, 0xA2, 0xA6, 0xB7, 0xC0, 0xC1, 0xC2, 0xC3, 0xD6, 0xE0, 0xE1, 0xE2, 0xF3,
};

static bool is_undefined(uint32_t set, unsigned code)
{
    if (set == SECOND_NEC && (code == 0x01 || code == 0x82)) /* HALT, STOP */
        return false;
    return memchr(undefined_codes, (int)code, sizeof undefined_codes) != NULL;
}

static bool is_two_bytes(unsigned code)
{
    unsigned low = code & 0x0F;

    if (is_undefined(SECOND_INTEL, code)) /* HALT and STOP have one byte */
        return false;
    if (low == 0x4) /* JMP, CALL */
        return true;
    if (low == 0x2) /* JBb */
        return code & 0x10;
    if (low == 0x3) /* immediate, but for RET, RETR, MOVP, JMPP, MOVP3 */
        return code != 0x83 && code != 0x93 && code != 0xA3 && code != 0xB3 && code != 0xE3;
    if (low == 0x6) /* conditional jumps */
        return true;
    if (code == 0xB0 || code == 0xB1 || (code >= 0xB8 && code <= 0xBF)) /* MOV @R and R,# */
        return true;
    if (code >= 0xE8 && code <= 0xEF) /* DJNZ */
        return true;
    return (code >= 0x88 && code <= 0x8A) || (code >= 0x98 && code <= 0x9A); /* ORL, ANL */
}

static bool is_two_cycles(unsigned code)
{
    unsigned low = code & 0x0F;

    if (is_two_bytes(code))
        return true;
    if (is_undefined(SECOND_INTEL, code)) /* HALT and STOP take one cycle */
        return false;
    /* RET, RETR, JMPP, MOVP, MOVP3 */
    if (code == 0x83 || code == 0x93 || code == 0xB3 || code == 0xA3 || code == 0xE3)
        return true;
    if ((code & 0xEE) == 0x80) /* MOVX */
        return true;
    if (code == 0x02 || code == 0x08 || code == 0x09 || code == 0x0A) /* OUTL BUS, INS, IN */
        return true;
    if (code == 0x39 || code == 0x3A) /* OUTL */
        return true;
    /* MOVD, ORLD, ANLD */
    return low >= 0xC && (code < 0x10 || code >> 4 == 0x3 || code >> 4 == 0x8 || code >> 4 == 0x9);
}

static void bench_cases(void)
{
    struct bench b;

    fresh_with(&b, 0, 0x03, 0xA6);
    b.s.a = 0x5A;
    expect(&b, 2, 2);
    b.want.a = 0x00;
    b.want.psw = ONE | C | AC;
    step(&b, "case 1: ADD");

    fresh_with(&b, 0, 0x13, 0x00);
    b.s.a = 0x0F;
    b.s.psw = ONE | C;
    expect(&b, 2, 2);
    b.want.a = 0x10;
    b.want.psw = ONE | AC;
    step(&b, "case 2: ADDC");

    fresh_with(&b, 0, 0x57, 0);
    b.s.a = 0x9B;
    expect(&b, 1, 1);
    b.want.a = 0x01;
    b.want.psw = ONE | C;
    step(&b, "case 3: DA");

    fresh_with(&b, 0, 0x57, 0);
    b.s.a = 0xFA;
    expect(&b, 1, 1);
    b.want.a = 0x60;
    b.want.psw = ONE | C;
    step(&b, "case 4: DA");

    fresh_with(&b, 0, 0xF7, 0);
    b.s.a = 0x80;
    expect(&b, 1, 1);
    b.want.a = 0x00;
    b.want.psw = ONE | C;
    step(&b, "case 5: RLC");

    fresh_with(&b, 0x100, 0x74, 0x00);
    b.s.psw = ONE | 7;
    expect(&b, 0x300, 2);
    b.want.psw = ONE;
    b.want_ram[22] = 0x02;
    b.want_ram[23] = 0x01;
    step(&b, "case 6: CALL");

    fresh_with(&b, 0x7FF, 0x00, 0);
    expect(&b, 0x000, 1);
    step(&b, "case 7: NOP at 7FF");

    fresh(&b);
    b.s.pc = 0xFFF;
    expect(&b, 0x800, 1);
    step(&b, "case 8: NOP at FFF");

    fresh_with(&b, 0, 0x66, 0);
    step_refused(&b, "case 9: code 66", 4);

    fresh_with(&b, 0, 0x55, 0);
    b.s.t = 0xFF;
    for (int i = 0; i < 32; i++)
        just_step(&b);
    check("case 10: T after 31 NOPs", 0xFF, b.s.t);
    check("case 10: TF after 31 NOPs", 0, b.s.tf);
    just_step(&b);
    check("case 10: T after 32 NOPs", 0x00, b.s.t);
    check("case 10: TF after 32 NOPs", 1, b.s.tf);

    fresh_with(&b, 0, 0xC7, 0);
    expect(&b, 1, 1);
    b.want.a = 0x08;
    step(&b, "case 11: MOV A,PSW");

    fresh_with(&b, 0, 0x31, 0);
    b.s.a = 0x12;
    b.ram[1] = 0x40;
    b.ram[0x40] = 0x34;
    expect(&b, 1, 1);
    b.want.a = 0x14;
    b.want_ram[0x40] = 0x32;
    step(&b, "case 12: XCHD");

    fresh_with(&b, 0, 0x09, 0);
    b.s.p1 = 0xF0;
    b.second = (IDLE & ~UINT32_C(0xFF00)) | 0x3C00;
    expect(&b, 1, 2);
    b.want.a = 0x30;
    step(&b, "case 13: IN A,P1");

    fresh_with(&b, 0, 0x24, 0x23);
    b.s.dbf = 1;
    expect(&b, 0x923, 2);
    step(&b, "case 14: JMP, DBF 1");
    b.s.pc = 0;
    b.s.in_service = 1;
    expect(&b, 0x123, 2);
    step(&b, "case 14: JMP in service");

    fresh(&b);
    b.program_len = 1000;
    step_refused(&b, "case 15: 1,000 bytes", 1);

    fresh_with(&b, 0x3FF, 0x03, 0x00);
    b.program_len = 1024;
    step_refused(&b, "case 16: 03 at 3FF", 5);
}

static void power_up(void)
{
    struct second_state s;
    const struct second_state want = {.psw = 0x08, .p1 = 0xFF, .p2 = 0xFF, .bus = 0xFF};

    memset(&s, 0xA5, sizeof s);
    second_power_up(&s);
    check_state("power-up", &want, &s);
}

static void refusals(void)
{
    static const size_t bad_programs[] = {0, 1, 64, 1000, 1023, 1025, 2047, 3072, 4095};
    static const size_t bad_rams[] = {0, 1, 63, 65, 127, 129, 192, 255, 257, 512, 1024};
    static const uint32_t bad_sets[] = {2, 3, 0x100, 0x101, 0x10001, 0x80000000, UINT32_MAX};
    static const size_t programs[] = {1024, 2048, 4096};
    static const size_t rams[] = {64, 128, 256};
    struct bench b;

    for (size_t i = 0; i < sizeof bad_programs / sizeof *bad_programs; i++) {
        fresh(&b);
        b.program_len = bad_programs[i];
        step_refused(&b, "1: program length", 1);
    }
    fresh(&b);
    b.program_len = 4097; /* only the length is looked at */
    step_refused(&b, "1: program length 4,097", 1);
    for (size_t i = 0; i < sizeof bad_rams / sizeof *bad_rams; i++) {
        fresh(&b);
        b.ram_len = bad_rams[i];
        step_refused(&b, "2: RAM length", 2);
    }
    for (size_t i = 0; i < 9; i++) {
        fresh(&b);
        b.program_len = programs[i / 3];
        b.ram_len = rams[i % 3];
        expect(&b, 1, 1);
        step(&b, "any pairing of program and RAM");
    }

    for (int i = 0; i < 13; i++) {
        fresh(&b);
        uint8_t *const flags[] = {&b.s.f1,
                                  &b.s.dbf,
                                  &b.s.tf,
                                  &b.s.request,
                                  &b.s.external_enabled,
                                  &b.s.timer_enabled,
                                  &b.s.in_service,
                                  &b.s.last_t1,
                                  &b.s.t0_clock,
                                  &b.s.bus_driven};
        if (i < 10)
            *flags[i] = 2;
        else if (i == 10)
            b.s.counting = 3;
        else if (i == 11)
            b.s.divider = 32;
        else
            b.s.pc = 4096;
        step_refused(&b, "3: outside its sizes", 3);
    }
    for (unsigned mode = 1; mode < 256; mode++) {
        fresh(&b);
        b.s.mode = (uint8_t)mode;
        step_refused(&b, "3: for Intel any mode but running", 3);
        if (mode > 3) {
            b.set = SECOND_NEC;
            step_refused(&b, "3: for NEC a mode above 3", 3);
        }
    }
    fresh(&b);
    b.s.psw = 0xF7;
    step_refused(&b, "3: PSW bit 3", 3);
    fresh(&b);
    b.s.f1 = 0xFF;
    step_refused(&b, "3: F1 is FF", 3);

    for (int bit = 29; bit < 32; bit++) {
        fresh(&b);
        b.first |= UINT32_C(1) << bit;
        step_refused(&b, "6: first sample", 6);
        fresh(&b);
        b.second |= UINT32_C(1) << bit;
        step_refused(&b, "6: second sample, though NOP takes one cycle", 6);
    }

    /* The order 25, 1, 2, 3, 6, then 5 and 4: all at once, then mended one by one. */
    fresh_with(&b, 0x400, 0x66, 0);
    b.set = 2;
    b.program_len = 1000;
    b.outside_len = 1024;
    b.ram_len = 100;
    b.s.tf = 2;
    b.second |= UINT32_C(1) << 31;
    step_refused(&b, "order: 25 first", 25);
    b.set = SECOND_NEC;
    step_refused(&b, "order: then 1", 1);
    b.program_len = 1024;
    step_refused(&b, "order: then 1 for the second program", 1);
    b.outside_len = 0;
    step_refused(&b, "order: then 2", 2);
    b.ram_len = 64;
    step_refused(&b, "order: then 3", 3);
    b.s.tf = 1;
    step_refused(&b, "order: then 6", 6);
    b.second = IDLE;
    step_refused(&b, "order: then 5", 5);
    b.program_len = 2048;
    step_refused(&b, "order: then 4", 4);

    for (size_t i = 0; i < sizeof bad_sets / sizeof *bad_sets; i++) {
        fresh(&b);
        b.set = bad_sets[i];
        step_refused(&b, "25: set neither Intel nor NEC", 25);
    }

    fresh(&b);
    b.first = RESET_LOW | UINT32_C(1) << 29;
    step_refused(&b, "6 before reset", 6);

    fresh(&b);
    b.program_len = 2048;
    b.s.pc = 0x800;
    step_refused(&b, "5: PC at the end", 5);
    b.s.pc = 0xFFF;
    step_refused(&b, "5: PC past the end", 5);
    b.first = RESET_LOW;
    expect(&b, 0, 1);
    step(&b, "reset before 5");
    b.s.pc = 0xFFF;
    b.s.external_enabled = 1;
    b.first = INT_LOW;
    expect(&b, 3, 2);
    b.want.in_service = 1;
    b.want.psw = ONE | 1;
    b.want_ram[8] = 0xFF;
    b.want_ram[9] = 0x0F;
    step(&b, "interrupt call before 5");

    fresh_with(&b, 0x3FF, 0x01, 0);
    b.program_len = 1024;
    step_refused(&b, "4: undefined code at 3FF of 1,024", 4);
    fresh_with(&b, 0x3FF, 0x23, 0x77);
    expect(&b, 0x401, 2);
    b.want.a = 0x77;
    step(&b, "second byte at 400 of 4,096");
    fresh(&b);
    b.program[0x7FF] = 0x23;
    b.program[0x000] = 0x11;
    b.program[0x800] = 0x99;
    b.s.pc = 0x7FF;
    expect(&b, 0x001, 2);
    b.want.a = 0x11;
    step(&b, "second byte of 7FF at 000");
    fresh(&b);
    b.program[0xFFF] = 0x23;
    b.program[0x000] = 0x11;
    b.program[0x800] = 0x99;
    b.s.pc = 0xFFF;
    expect(&b, 0x801, 2);
    b.want.a = 0x99;
    step(&b, "second byte of FFF at 800");
}

/* Each of the 256 codes: refused or not, its length, its cycles, and that they are counted. */
static void codes(uint32_t set, unsigned undefined, unsigned one_byte)
{
    unsigned counts[3] = {0, 0, 0}; /* undefined, one byte, two bytes */
    unsigned two_cycles = 0;
    struct bench b;

    for (unsigned code = 0; code < 256; code++) {
        uint8_t bytes[2] = {(uint8_t)code, 0x5A};
        struct second_reading reading = second_read(set, bytes, 2, 0);
        uint8_t number = is_undefined(set, code) ? 4 : 0;
        uint8_t length = is_undefined(set, code) ? 0 : is_two_bytes(code) ? 2 : 1;
        uint8_t cycles = is_undefined(set, code) ? 0 : is_two_cycles(code) ? 2 : 1;

        check("codes: reader's number", number, reading.number);
        check("codes: length", length, reading.length);
        counts[length]++;
        two_cycles += cycles == 2;

        fresh_with(&b, 0x210, (uint8_t)code, 0x5A);
        b.set = set;
        struct second_outcome outcome = just_step(&b);
        check("codes: step's number", number, outcome.number);
        check("codes: step's cycles", cycles, outcome.cycles);
        check("codes: step's samples", cycles, outcome.samples);

        fresh_with(&b, 0x210, (uint8_t)code, 0x5A);
        b.set = set;
        b.s.counting = SECOND_TIMER;
        just_step(&b);
        if (code != 0x55 && code != 0x45 && code != 0x65)
            check("codes: cycles counted", cycles, b.s.divider);
    }
    check("codes: undefined", undefined, counts[0]);
    check("codes: of one byte", one_byte, counts[1]);
    check("codes: 66 of two bytes", 66, counts[2]);
    check("codes: 97 of two cycles", 97, two_cycles);
}

static void resets(void)
{
    struct bench b;

    fresh_with(&b, 0x123, 0x23, 0x45);
    b.s = (struct second_state){
        .a = 0x5A,
        .pc = 0x923,
        .psw = 0xFF,
        .f1 = 1,
        .dbf = 1,
        .t = 0xFF,
        .divider = 31,
        .counting = SECOND_TIMER,
        .tf = 1,
        .request = 1,
        .external_enabled = 1,
        .timer_enabled = 1,
        .in_service = 1,
        .last_t1 = 1,
        .t0_clock = 1,
        .p1 = 0x12,
        .p2 = 0x34,
        .bus = 0x56,
        .bus_driven = 1,
    };
    memset(b.ram, 0xC3, sizeof b.ram);
    b.first = 0;
    b.want = (struct second_state){
        .a = 0x5A,
        .psw = ONE | C | AC,
        .t = 0xFF,
        .divider = 31,
        .p1 = 0xFF,
        .p2 = 0xFF,
        .bus = 0x56,
    };
    memcpy(b.want_ram, b.ram, sizeof b.ram);
    b.want_outcome = (struct second_outcome){.cycles = 1, .samples = 1};
    step(&b, "reset: what it clears and keeps, an interrupt waiting");

    fresh(&b);
    b.s.counting = SECOND_COUNTER;
    b.s.t = 0xFF;
    b.first = RESET_LOW & T1_LOW;
    expect(&b, 0, 1);
    b.want.counting = SECOND_STOPPED;
    b.want.last_t1 = 0;
    step(&b, "reset: a fall of T1 isn't counted but T1 is remembered");

    fresh(&b);
    b.s.last_t1 = 0;
    b.first = RESET_LOW;
    b.second = RESET_LOW & T1_LOW;
    expect(&b, 0, 1);
    b.want.last_t1 = 1;
    step(&b, "reset: T1 from the first sample");

    fresh_with(&b, 0, 0x23, 0x45);
    b.second = RESET_LOW;
    expect(&b, 2, 2);
    b.want.a = 0x45;
    step(&b, "RESET low in the second cycle only isn't seen");
}

static void interrupts(void)
{
    struct bench b;

    fresh(&b);
    b.s.pc = 0xABC;
    b.s.psw = 0xF8 | 7;
    b.s.dbf = 1;
    b.s.external_enabled = 1;
    b.s.timer_enabled = 1;
    b.s.request = 1;
    b.first = INT_LOW;
    expect(&b, 0x003, 2);
    b.want.psw = 0xF8;
    b.want.in_service = 1;
    b.want_ram[22] = 0xBC;
    b.want_ram[23] = 0xFA;
    step(&b, "external call: first, request and DBF stay");

    fresh(&b);
    b.s.pc = 0xABC;
    b.s.dbf = 1;
    b.s.external_enabled = 1;
    b.s.timer_enabled = 1;
    b.s.request = 1;
    b.second = INT_LOW;
    expect(&b, 0x007, 2);
    b.want.psw = ONE | 1;
    b.want.in_service = 1;
    b.want.request = 0;
    b.want_ram[8] = 0xBC;
    b.want_ram[9] = 0x0A;
    step(&b, "timer call: clears the request; INT low in the second cycle isn't seen");

    fresh(&b);
    b.first = INT_LOW;
    b.s.request = 1;
    expect(&b, 1, 1);
    step(&b, "no call: neither enabled; a request stays stored");

    fresh(&b);
    b.s.external_enabled = 1;
    b.s.timer_enabled = 1;
    b.s.request = 1;
    b.s.in_service = 1;
    b.first = INT_LOW;
    expect(&b, 1, 1);
    step(&b, "no call: in service");

    fresh_with(&b, 0, 0x25, 0);
    b.s.request = 1;
    expect(&b, 1, 1);
    b.want.timer_enabled = 1;
    step(&b, "EN TCNTI keeps an old request");
    expect(&b, 7, 2);
    b.want.request = 0;
    b.want.in_service = 1;
    b.want.psw = ONE | 1;
    b.want_ram[8] = 0x01;
    step(&b, "EN TCNTI: the very next step calls");

    fresh_with(&b, 0, 0x05, 0);
    b.first = INT_LOW;
    expect(&b, 1, 1);
    b.want.external_enabled = 1;
    step(&b, "EN I");
    expect(&b, 3, 2);
    b.want.in_service = 1;
    b.want.psw = ONE | 1;
    b.want_ram[8] = 0x01;
    step(&b, "EN I: the very next step calls");
    b.program[3] = 0x93;
    expect(&b, 1, 2);
    b.want.in_service = 0;
    b.want.psw = ONE;
    step(&b, "RETR ends service");
    expect(&b, 3, 2);
    b.want.in_service = 1;
    b.want.psw = ONE | 1;
    step(&b, "RETR: the very next step calls");
    b.program[3] = 0x83;
    expect(&b, 1, 2);
    b.want.psw = ONE;
    step(&b, "RET leaves in service");

    fresh_with(&b, 0, 0x15, 0);
    b.s.external_enabled = 1;
    b.s.in_service = 1;
    expect(&b, 1, 1);
    b.want.external_enabled = 0;
    step(&b, "DIS I");

    /* The call's own two cycles are counted and may store the next request. */
    for (uint8_t divider = 29; divider < 32; divider++) {
        fresh(&b);
        b.s.timer_enabled = 1;
        b.s.request = 1;
        b.s.counting = SECOND_TIMER;
        b.s.divider = divider;
        b.s.t = 0xFF;
        expect(&b, 7, 2);
        b.want.in_service = 1;
        b.want.psw = ONE | 1;
        b.want.divider = (divider + 2) & 31;
        b.want.t = divider == 29 ? 0xFF : 0x00;
        b.want.tf = divider != 29;
        b.want.request = divider != 29;
        step(&b, "timer call: its cycles are counted");
    }
}

/* HALT and STOP (02, item 2). */

static const struct {
    uint8_t code;
    uint8_t mode;
} halts[2] = {{0x01, SECOND_MODE_HALTED}, {0x82, SECOND_MODE_STOPPED}};

static void entering(void)
{
    struct bench b;

    for (size_t k = 0; k < 2; k++) {
        fresh_nec(&b, halts[k].code, SECOND_MODE_RUNS);
        b.second = INT_LOW;
        expect(&b, 0x211, 1);
        b.want.mode = halts[k].mode;
        step(&b, "entered; INT low in the second sample isn't seen");

        fresh_nec(&b, halts[k].code, SECOND_MODE_RUNS);
        b.first = INT_LOW;
        expect(&b, 0x211, 1);
        step(&b, "not entered with INT low in the first sample");
        fresh_nec(&b, halts[k].code, SECOND_MODE_RUNS);
        b.first = INT_LOW;
        b.s.external_enabled = 1;
        b.s.in_service = 1;
        expect(&b, 0x211, 1);
        step(&b, "not entered with INT low, in service");

        fresh_nec(&b, halts[k].code, SECOND_MODE_RUNS);
        b.first = INT_LOW;
        b.s.external_enabled = 1;
        expect(&b, 0x003, 2);
        b.want.in_service = 1;
        b.want.psw = ONE | 1;
        b.want_ram[8] = 0x10;
        b.want_ram[9] = 0x02;
        step(&b, "the external call comes before HALT and STOP");
        fresh_nec(&b, halts[k].code, SECOND_MODE_RUNS);
        b.s.timer_enabled = 1;
        b.s.request = 1;
        expect(&b, 0x007, 2);
        b.want.in_service = 1;
        b.want.request = 0;
        b.want.psw = ONE | 1;
        b.want_ram[8] = 0x10;
        b.want_ram[9] = 0x02;
        step(&b, "the timer call comes before HALT and STOP");

        fresh_nec(&b, halts[k].code, SECOND_MODE_RELEASED);
        expect(&b, 0x211, 1);
        b.want.mode = halts[k].mode;
        step(&b, "entered right after a release");
        fresh_nec(&b, halts[k].code, SECOND_MODE_RELEASED);
        b.first = INT_LOW;
        expect(&b, 0x211, 1);
        b.want.mode = SECOND_MODE_RUNS;
        step(&b, "not entered right after a release, INT still low: it runs");

        /* Its own cycle is counted. */
        for (uint8_t enabled = 0; enabled < 2; enabled++) {
            fresh_nec(&b, halts[k].code, SECOND_MODE_RUNS);
            b.s.counting = SECOND_TIMER;
            b.s.divider = 31;
            b.s.t = 0xFF;
            b.s.timer_enabled = enabled;
            expect(&b, 0x211, 1);
            b.want.mode = halts[k].mode;
            b.want.divider = 0;
            b.want.t = 0x00;
            b.want.tf = 1;
            b.want.request = enabled;
            step(&b, "timer overflow in its own cycle");

            fresh_nec(&b, halts[k].code, SECOND_MODE_RUNS);
            b.s.counting = SECOND_COUNTER;
            b.s.t = 0xFF;
            b.s.timer_enabled = enabled;
            b.first = T1_LOW;
            expect(&b, 0x211, 1);
            b.want.mode = halts[k].mode;
            b.want.t = 0x00;
            b.want.tf = 1;
            b.want.request = enabled;
            b.want.last_t1 = 0;
            step(&b, "counter overflow in its own cycle");
        }

        fresh_with(&b, 0x7FF, halts[k].code, 0);
        b.set = SECOND_NEC;
        expect(&b, 0x000, 1);
        b.want.mode = halts[k].mode;
        step(&b, "HALT and STOP at 7FF");

        fresh_with(&b, 0x210, halts[k].code, 0);
        step_refused(&b, "HALT and STOP for Intel", 4);
    }
}

static void waiting(void)
{
    struct bench b;

    for (size_t k = 0; k < 2; k++) {
        /* Whatever is at PC, and past the program's end too. */
        fresh_nec(&b, 0x66, halts[k].mode);
        b.second = RESET_LOW & INT_LOW;
        expect_wait(&b, halts[k].mode);
        step(&b, "a wait looks at the first sample");
        b.program_len = 1024;
        b.s.pc = 0xFFF;
        expect_wait(&b, halts[k].mode);
        step(&b, "a wait fetches nothing");

        fresh_nec(&b, 0x00, halts[k].mode);
        b.s.counting = SECOND_TIMER;
        b.s.divider = 31;
        b.s.t = 0xFF;
        b.s.timer_enabled = 1;
        expect_wait(&b, halts[k].mode);
        step(&b, "the timer stands in a wait");
        fresh_nec(&b, 0x00, halts[k].mode);
        b.s.counting = SECOND_COUNTER;
        b.s.t = 0xFF;
        b.first = T1_LOW;
        expect_wait(&b, halts[k].mode);
        step(&b, "a fall of T1 isn't counted in a wait, and T1 not remembered");

        fresh_nec(&b, 0x00, halts[k].mode);
        b.s.external_enabled = 1;
        b.s.timer_enabled = 1;
        b.s.request = 1;
        expect_wait(&b, halts[k].mode);
        step(&b, "a request waits too");
        b.first = INT_LOW;
        expect_wait(&b, SECOND_MODE_RELEASED);
        step(&b, "INT low releases, and that is all, with a call allowed and a request stored");
        fresh_nec(&b, 0x00, halts[k].mode);
        b.s.in_service = 1;
        b.first = INT_LOW & T1_LOW;
        b.s.counting = SECOND_COUNTER;
        expect_wait(&b, SECOND_MODE_RELEASED);
        step(&b, "INT low releases, interrupts disabled or one in service");

        fresh_nec(&b, 0x00, halts[k].mode);
        b.s.a = 0x5A;
        b.s.tf = 1;
        b.s.request = 1;
        b.s.counting = SECOND_TIMER;
        b.s.p1 = 0x12;
        b.first = RESET_LOW & INT_LOW & T1_LOW;
        expect(&b, 0, 1);
        b.want.mode = SECOND_MODE_RUNS;
        b.want.tf = 0;
        b.want.request = 0;
        b.want.counting = SECOND_STOPPED;
        b.want.p1 = 0xFF;
        b.want.last_t1 = 0;
        step(&b, "RESET low goes before INT low: a reset step, and it runs");

        for (int bit = 29; bit < 32; bit++) {
            fresh_nec(&b, 0x00, halts[k].mode);
            b.first |= UINT32_C(1) << bit;
            step_refused(&b, "6 in a wait: first sample", 6);
            fresh_nec(&b, 0x00, halts[k].mode);
            b.second |= UINT32_C(1) << bit;
            step_refused(&b, "6 in a wait: second sample, though it uses one", 6);
        }
        fresh_nec(&b, 0x00, halts[k].mode);
        b.first = RESET_LOW | UINT32_C(1) << 29;
        step_refused(&b, "6 in a wait before reset", 6);
    }
}

static void releasing(void)
{
    struct bench b;

    fresh_nec(&b, 0x23, SECOND_MODE_RELEASED);
    b.s.external_enabled = 1;
    b.s.timer_enabled = 1;
    b.s.request = 1;
    b.first = INT_LOW;
    b.second = INT_LOW;
    expect(&b, 0x212, 2);
    b.want.a = 0x5A;
    b.want.mode = SECOND_MODE_RUNS;
    step(&b, "one instruction runs before a call");
    expect(&b, 0x003, 2);
    b.want.in_service = 1;
    b.want.psw = ONE | 1;
    b.want_ram[8] = 0x12;
    b.want_ram[9] = 0x02;
    step(&b, "then the external call");

    fresh_nec(&b, 0x23, SECOND_MODE_RELEASED);
    b.s.timer_enabled = 1;
    b.s.request = 1;
    expect(&b, 0x212, 2);
    b.want.a = 0x5A;
    b.want.mode = SECOND_MODE_RUNS;
    step(&b, "one instruction runs before a timer call");
    expect(&b, 0x007, 2);
    b.want.in_service = 1;
    b.want.request = 0;
    b.want.psw = ONE | 1;
    b.want_ram[8] = 0x12;
    b.want_ram[9] = 0x02;
    step(&b, "then the timer call");

    fresh_nec(&b, 0x00, SECOND_MODE_RELEASED);
    b.s.counting = SECOND_COUNTER;
    b.s.t = 0xFF;
    b.first = T1_LOW;
    expect(&b, 0x211, 1);
    b.want.mode = SECOND_MODE_RUNS;
    b.want.t = 0x00;
    b.want.tf = 1;
    b.want.last_t1 = 0;
    step(&b, "a fall of T1 since the cycle before the halt counts");

    /* A refused step leaves "released". */
    fresh_nec(&b, 0x66, SECOND_MODE_RELEASED);
    b.s.external_enabled = 1;
    b.first = INT_LOW;
    step_refused(&b, "released: 4", 4);
    b.s.pc = 0x400;
    b.program_len = 1024;
    step_refused(&b, "released: 5", 5);
    b.s.pc = 0x3FF;
    b.program[0x3FF] = 0x23;
    step_refused(&b, "released: 5 for the second byte", 5);
    b.program[0x3FF] = 0xA3;
    step_refused(&b, "released: 5 for the table byte", 5);
    b.second |= UINT32_C(1) << 30;
    step_refused(&b, "released: 6", 6);

    fresh_nec(&b, 0x23, SECOND_MODE_RELEASED);
    b.first = RESET_LOW & INT_LOW;
    expect(&b, 0, 1);
    b.want.mode = SECOND_MODE_RUNS;
    step(&b, "released: a reset, and it runs");
}

/* Samples that all have INT and RESET high but for those that a test puts low. */
static void idle_samples(uint32_t *samples, size_t len)
{
    for (size_t i = 0; i < len; i++)
        samples[i] = IDLE;
}

/* HALT at 210, a NOP after it, the external interrupt enabled, and INT low from sample 3 on. */
static struct second_totals halted_run(struct bench *b, size_t low, size_t samples_len)
{
    uint32_t samples[16];

    fresh_nec(b, 0x01, SECOND_MODE_RUNS);
    b->program[0x211] = 0x00;
    b->s.external_enabled = 1;
    idle_samples(samples, 16);
    for (size_t i = 3; i < 3 + low; i++)
        samples[i] = INT_LOW;
    return run(b, samples, samples_len);
}

static void halted_runs(void)
{
    struct bench b;
    struct second_totals totals;
    uint32_t samples[8];

    for (size_t k = 0; k < 2; k++) {
        fresh_nec(&b, 0x66, halts[k].mode);
        b.want = b.s;
        totals = run_idle(&b, 8);
        check("a run of waits: number", 0, totals.number);
        check("a run of waits: samples", 7, totals.samples);
        check("a run of waits: cycles", 0, (unsigned long)totals.cycles);
        check_state("a run of waits: state", &b.want, &b.s);
    }

    /* HALT 1, waits 2, release 1, NOP 1, call 2: seven samples, four of them cycles. */
    totals = halted_run(&b, 3, 7);
    check("three samples of INT low: number", 0, totals.number);
    check("three samples of INT low: samples", 7, totals.samples);
    check("three samples of INT low: cycles", 4, (unsigned long)totals.cycles);
    check("three samples of INT low: called", 0x003, b.s.pc);
    check("three samples of INT low: pushed", 0x12, b.ram[8]);
    totals = halted_run(&b, 2, 7);
    check("two samples of INT low: samples", 6, totals.samples);
    check("two samples of INT low: cycles", 3, (unsigned long)totals.cycles);
    check("two samples of INT low: not called", 0x213, b.s.pc);
    totals = halted_run(&b, 1, 7);
    check("one sample of INT low: released all the same", 0x213, b.s.pc);
    totals = halted_run(&b, 0, 7);
    check("INT stays high: samples", 6, totals.samples);
    check("INT stays high: cycles", 1, (unsigned long)totals.cycles);
    check("INT stays high: PC", 0x211, b.s.pc);
    check("INT stays high: mode", SECOND_MODE_HALTED, b.s.mode);
    totals = halted_run(&b, 1, 5);
    check("a run that ends with the release: samples", 4, totals.samples);
    check("a run that ends with the release: cycles", 1, (unsigned long)totals.cycles);
    check("a run that ends with the release: mode", SECOND_MODE_RELEASED, b.s.mode);

    /* Refused after the release: what was done stands, and it is still released. */
    fresh_nec(&b, 0x82, SECOND_MODE_RUNS);
    b.program[0x211] = 0x66;
    idle_samples(samples, 8);
    samples[1] = INT_LOW;
    totals = run(&b, samples, 8);
    check("refused after a release: number", 4, totals.number);
    check("refused after a release: samples", 2, totals.samples);
    check("refused after a release: cycles", 1, (unsigned long)totals.cycles);
    check("refused after a release: mode", SECOND_MODE_RELEASED, b.s.mode);

    /* A request stored in HALT's own cycle: called after the release and one instruction. */
    fresh_nec(&b, 0x01, SECOND_MODE_RUNS);
    b.program[0x211] = 0x00;
    b.s.counting = SECOND_TIMER;
    b.s.divider = 31;
    b.s.t = 0xFF;
    b.s.timer_enabled = 1;
    idle_samples(samples, 8);
    samples[4] = INT_LOW;
    totals = run(&b, samples, 8);
    check("a request through a halt: samples", 8, totals.samples);
    check("a request through a halt: cycles", 4, (unsigned long)totals.cycles);
    check("a request through a halt: called", 0x007, b.s.pc);
    check("a request through a halt: pushed", 0x12, b.ram[8]);
    check("a request through a halt: T", 0x00, b.s.t);
    check("a request through a halt: three cycles after it", 3, b.s.divider);

    fresh_nec(&b, 0x01, SECOND_MODE_RUNS);
    idle_samples(samples, 8);
    samples[3] = RESET_LOW & INT_LOW;
    totals = run(&b, samples, 8);
    check("reset out of a halt: samples", 7, totals.samples);
    check("reset out of a halt: cycles", 5, (unsigned long)totals.cycles);
    check("reset out of a halt: PC", 3, b.s.pc);
}

static void counting(void)
{
    struct bench b;

    /* An overflow in either cycle of a two-cycle step sets TF and stores the request. */
    for (unsigned divider = 29; divider < 32; divider++) {
        for (uint8_t enabled = 0; enabled < 2; enabled++) {
            fresh_with(&b, 0, 0x23, 0x00);
            b.s.counting = SECOND_TIMER;
            b.s.divider = (uint8_t)divider;
            b.s.t = 0xFF;
            b.s.timer_enabled = enabled;
            expect(&b, 2, 2);
            b.want.divider = (divider + 2) & 31;
            b.want.t = divider == 29 ? 0xFF : 0x00;
            b.want.tf = divider != 29;
            b.want.request = divider != 29 && enabled;
            step(&b, "timer: overflow in either of two cycles");
        }
    }
    fresh(&b);
    b.s.counting = SECOND_TIMER;
    b.s.divider = 31;
    b.s.t = 0x41;
    b.s.timer_enabled = 1;
    expect(&b, 1, 1);
    b.want.divider = 0;
    b.want.t = 0x42;
    step(&b, "timer: no overflow, no TF");
    fresh(&b);
    b.s.counting = SECOND_TIMER;
    b.s.divider = 31;
    b.s.t = 0xFF;
    b.s.timer_enabled = 0;
    b.s.request = 1;
    expect(&b, 1, 1);
    b.want.divider = 0;
    b.want.t = 0x00;
    b.want.tf = 1;
    step(&b, "timer: an old request stays when an overflow stores none");
    fresh(&b);
    b.s.divider = 31;
    b.s.t = 0xFF;
    b.first = T1_LOW;
    expect(&b, 1, 1);
    b.want.last_t1 = 0;
    step(&b, "standing: nothing counts, T1 is remembered");

    /* Falls of T1: levels before, in the first cycle and in the second. */
    for (unsigned levels = 0; levels < 8; levels++) {
        bool before = levels & 4;
        bool first = levels & 2;
        bool second = levels & 1;

        for (uint8_t cycles = 1; cycles <= 2; cycles++) {
            unsigned falls = before && !first;
            if (cycles == 2)
                falls += first && !second;
            fresh_with(&b, 0, cycles == 2 ? 0x23 : 0x27, 0x00);
            b.s.counting = SECOND_COUNTER;
            b.s.divider = 31;
            b.s.t = 0xFF;
            b.s.timer_enabled = 1;
            b.s.last_t1 = before;
            b.first = first ? IDLE : T1_LOW;
            b.second = second ? IDLE : T1_LOW;
            expect(&b, cycles, cycles);
            b.want.t = (uint8_t)(0xFF + falls);
            b.want.tf = falls > 0;
            b.want.request = falls > 0;
            b.want.last_t1 = cycles == 2 ? second : first;
            step(&b, "counter: falls of T1");
        }
    }
    fresh(&b);
    b.s.counting = SECOND_COUNTER;
    b.s.external_enabled = 1;
    b.first = INT_LOW;
    b.second = T1_LOW;
    expect(&b, 3, 2);
    b.want.t = 1;
    b.want.last_t1 = 0;
    b.want.in_service = 1;
    b.want.psw = ONE | 1;
    step(&b, "counter: a fall in an interrupt call's second cycle");

    /* The effects come first, then the cycle is counted. */
    fresh_with(&b, 0, 0x42, 0);
    b.s.counting = SECOND_TIMER;
    b.s.divider = 31;
    b.s.t = 0x10;
    expect(&b, 1, 1);
    b.want.a = 0x10;
    b.want.t = 0x11;
    b.want.divider = 0;
    step(&b, "MOV A,T reads T before its own cycle");

    fresh_with(&b, 0, 0x62, 0);
    b.s.a = 0x20;
    b.s.counting = SECOND_TIMER;
    b.s.divider = 31;
    b.s.t = 0xFF;
    expect(&b, 1, 1);
    b.want.t = 0x21;
    b.want.divider = 0;
    step(&b, "MOV T,A leaves A + 1 with the divider at 31");
    fresh_with(&b, 0, 0x62, 0);
    b.s.a = 0xFF;
    b.s.counting = SECOND_TIMER;
    b.s.divider = 31;
    b.s.timer_enabled = 1;
    expect(&b, 1, 1);
    b.want.t = 0x00;
    b.want.divider = 0;
    b.want.tf = 1;
    b.want.request = 1;
    step(&b, "MOV T,A overflows from FF");
    fresh_with(&b, 0, 0x62, 0);
    b.s.a = 0x20;
    b.s.divider = 17;
    expect(&b, 1, 1);
    b.want.t = 0x20;
    step(&b, "MOV T,A leaves the divider");

    fresh_with(&b, 0, 0x65, 0);
    b.s.counting = SECOND_TIMER;
    b.s.divider = 31;
    b.s.t = 0xFF;
    expect(&b, 1, 1);
    b.want.counting = SECOND_STOPPED;
    step(&b, "STOP TCNT's own cycle isn't counted");
    fresh_with(&b, 0, 0x65, 0);
    b.s.counting = SECOND_COUNTER;
    b.first = T1_LOW;
    expect(&b, 1, 1);
    b.want.counting = SECOND_STOPPED;
    b.want.last_t1 = 0;
    step(&b, "STOP TCNT: a fall in its own cycle isn't counted");

    fresh_with(&b, 0, 0x25, 0);
    b.s.counting = SECOND_TIMER;
    b.s.divider = 31;
    b.s.t = 0xFF;
    expect(&b, 1, 1);
    b.want.timer_enabled = 1;
    b.want.t = 0x00;
    b.want.divider = 0;
    b.want.tf = 1;
    b.want.request = 1;
    step(&b, "EN TCNTI: an overflow in its own cycle stores a request");

    fresh_with(&b, 0, 0x35, 0);
    b.s.in_service = 1;
    b.s.counting = SECOND_TIMER;
    b.s.divider = 31;
    b.s.t = 0xFF;
    b.s.timer_enabled = 1;
    b.s.request = 1;
    expect(&b, 1, 1);
    b.want.timer_enabled = 0;
    b.want.request = 0;
    b.want.t = 0x00;
    b.want.divider = 0;
    b.want.tf = 1;
    step(&b, "DIS TCNTI drops a request; an overflow in its own cycle stores none");

    for (uint8_t tf = 0; tf < 2; tf++) {
        fresh_with(&b, 0x2FE, 0x16, 0x55);
        b.s.tf = tf;
        expect(&b, tf ? 0x255 : 0x300, 2);
        b.want.tf = 0;
        step(&b, "JTF jumps if TF is set and clears it");
        for (uint8_t divider = 30; divider < 32; divider++) {
            fresh_with(&b, 0x2FE, 0x16, 0x55);
            b.s.tf = tf;
            b.s.counting = SECOND_TIMER;
            b.s.divider = divider;
            b.s.t = 0xFF;
            expect(&b, tf ? 0x255 : 0x300, 2);
            b.want.tf = 1;
            b.want.t = 0x00;
            b.want.divider = (divider + 2) & 31;
            step(&b, "JTF: an overflow in either of its cycles sets TF again");
        }
    }

    /* STRT T and STRT CNT: their own cycle isn't counted, even if the counter ran. */
    for (uint8_t was = SECOND_STOPPED; was <= SECOND_COUNTER; was++) {
        fresh_with(&b, 0, 0x55, 0);
        b.s.counting = was;
        b.s.divider = 31;
        b.s.t = 0xFF;
        b.first = T1_LOW;
        expect(&b, 1, 1);
        b.want.counting = SECOND_TIMER;
        b.want.divider = 0;
        b.want.last_t1 = 0;
        step(&b, "STRT T: zeroes the divider, not T; remembers T1");

        fresh_with(&b, 0, 0x45, 0);
        b.s.counting = was;
        b.s.divider = 31;
        b.s.t = 0xFF;
        b.first = T1_LOW;
        expect(&b, 1, 1);
        b.want.counting = SECOND_COUNTER;
        b.want.last_t1 = 0;
        step(&b, "STRT CNT: leaves the divider and T; remembers T1");
    }
    fresh_with(&b, 0, 0x45, 0);
    b.s.last_t1 = 0;
    just_step(&b);
    b.first = T1_LOW;
    just_step(&b);
    check("STRT CNT with T1 high, then a fall", 1, b.s.t);
    fresh_with(&b, 0, 0x45, 0);
    b.first = T1_LOW;
    just_step(&b);
    just_step(&b);
    check("STRT CNT with T1 low: no fall after", 0, b.s.t);

    /* T follows the cycles spent, not the steps: a loop of two JMPs. */
    fresh(&b);
    b.program[0] = 0x55;
    put2(&b, 1, 0x04, 0x03);
    put2(&b, 3, 0x04, 0x01);
    struct second_totals totals = run_idle(&b, 1002);
    check("timer: cycles", 1001, (unsigned long)totals.cycles);
    check("timer: T is cycles / 32", 1000 / 32, b.s.t);
    check("timer: divider is the rest", 1000 % 32, b.s.divider);
}

static void jumps(void)
{
    static const struct {
        uint8_t code;
        uint8_t a;
        uint8_t psw;
        uint8_t f1;
        uint32_t first;
        uint32_t second;
        bool taken;
    } rows[] = {
        {0xF6, 0, ONE | C, 0, IDLE, IDLE, true},    /* JC */
        {0xF6, 0, 0xFF - C, 0, IDLE, IDLE, false},  /* JC */
        {0xE6, 0, ONE | C, 0, IDLE, IDLE, false},   /* JNC */
        {0xE6, 0, 0xFF - C, 0, IDLE, IDLE, true},   /* JNC */
        {0xC6, 0, ONE, 0, IDLE, IDLE, true},        /* JZ */
        {0xC6, 0x10, ONE, 0, IDLE, IDLE, false},    /* JZ */
        {0x96, 0, ONE, 0, IDLE, IDLE, false},       /* JNZ */
        {0x96, 0x10, ONE, 0, IDLE, IDLE, true},     /* JNZ */
        {0x36, 0, ONE, 0, IDLE, T0_LOW, true},      /* JT0 */
        {0x36, 0, ONE, 0, T0_LOW, IDLE, false},     /* JT0 */
        {0x26, 0, ONE, 0, IDLE, T0_LOW, false},     /* JNT0 */
        {0x26, 0, ONE, 0, T0_LOW, IDLE, true},      /* JNT0 */
        {0x56, 0, ONE, 0, IDLE, IDLE, true},        /* JT1 */
        {0x56, 0, ONE, 0, T1_LOW, IDLE, false},     /* JT1 */
        {0x46, 0, ONE, 0, IDLE, IDLE, false},       /* JNT1 */
        {0x46, 0, ONE, 0, T1_LOW, IDLE, true},      /* JNT1 */
        {0xB6, 0, ONE | F0, 0, IDLE, IDLE, true},   /* JF0 */
        {0xB6, 0, 0xFF - F0, 1, IDLE, IDLE, false}, /* JF0 */
        {0x76, 0, ONE, 1, IDLE, IDLE, true},        /* JF1 */
        {0x76, 0, ONE | F0, 0, IDLE, IDLE, false},  /* JF1 */
        {0x86, 0, ONE, 0, INT_LOW, IDLE, true},     /* JNI */
        {0x86, 0, ONE, 0, IDLE, INT_LOW, false},    /* JNI */
        {0x12, 0x01, ONE, 0, IDLE, IDLE, true},     /* JB0 */
        {0x12, 0xFE, ONE, 0, IDLE, IDLE, false},    /* JB0 */
        {0x32, 0x02, ONE, 0, IDLE, IDLE, true},     /* JB1 */
        {0x52, 0x04, ONE, 0, IDLE, IDLE, true},     /* JB2 */
        {0x72, 0x08, ONE, 0, IDLE, IDLE, true},     /* JB3 */
        {0x92, 0x10, ONE, 0, IDLE, IDLE, true},     /* JB4 */
        {0xB2, 0x20, ONE, 0, IDLE, IDLE, true},     /* JB5 */
        {0xD2, 0x40, ONE, 0, IDLE, IDLE, true},     /* JB6 */
        {0xF2, 0x80, ONE, 0, IDLE, IDLE, true},     /* JB7 */
        {0xF2, 0x7F, ONE, 0, IDLE, IDLE, false},    /* JB7 */
    };
    static const struct {
        uint16_t at;
        uint16_t taken;
        uint16_t next;
    } places[] = {
        {0x010, 0x0A7, 0x012}, {0x0FE, 0x0A7, 0x100}, {0x0FF, 0x1A7, 0x101}, {0x100, 0x1A7, 0x102},
        {0x1FE, 0x1A7, 0x200}, {0x1FF, 0x2A7, 0x201}, {0x200, 0x2A7, 0x202}, {0x3FE, 0x3A7, 0x400},
        {0x3FF, 0x4A7, 0x401}, {0x400, 0x4A7, 0x402}, {0x7FE, 0x7A7, 0x000}, {0x7FF, 0x0A7, 0x001},
        {0x800, 0x8A7, 0x802}, {0x8FE, 0x8A7, 0x900}, {0x8FF, 0x9A7, 0x901}, {0xBFF, 0xCA7, 0xC01},
        {0xFFE, 0xFA7, 0x800}, {0xFFF, 0x8A7, 0x801},
    };
    struct bench b;

    /* In service, DBF 0 and the T0 clock on: none of them matters to a conditional jump. */
    for (size_t i = 0; i < sizeof rows / sizeof *rows; i++) {
        for (size_t k = 0; k < sizeof places / sizeof *places; k++) {
            uint16_t at = places[k].at;
            fresh(&b);
            b.program[at] = rows[i].code;
            b.program[(at & 0x800) | ((at + 1) & 0x7FF)] = 0xA7;
            b.s.pc = at;
            b.s.a = rows[i].a;
            b.s.psw = rows[i].psw;
            b.s.f1 = rows[i].f1;
            b.s.in_service = 1;
            b.s.t0_clock = 1;
            b.first = rows[i].first;
            b.second = rows[i].second;
            expect(&b, rows[i].taken ? places[k].taken : places[k].next, 2);
            step(&b, "conditional jump: the page of its second byte");
        }
    }
    for (size_t k = 0; k < sizeof places / sizeof *places; k++) {
        uint16_t at = places[k].at;
        for (unsigned r = 0; r < 8; r++) {
            for (unsigned bank = 0; bank < 2; bank++) {
                for (unsigned value = 0; value < 3; value++) {
                    fresh(&b);
                    b.program[at] = (uint8_t)(0xE8 + r);
                    b.program[(at & 0x800) | ((at + 1) & 0x7FF)] = 0xA7;
                    b.s.pc = at;
                    b.s.psw = bank ? ONE | BS : ONE;
                    b.ram[24 * bank + r] = (uint8_t)value;
                    expect(&b, value == 1 ? places[k].next : places[k].taken, 2);
                    b.want_ram[24 * bank + r] = (uint8_t)(value - 1);
                    step(&b, "DJNZ subtracts and jumps if not 0");
                }
            }
        }
        for (uint8_t tf = 0; tf < 2; tf++) {
            fresh(&b);
            b.program[at] = 0x16;
            b.program[(at & 0x800) | ((at + 1) & 0x7FF)] = 0xA7;
            b.s.pc = at;
            b.s.tf = tf;
            expect(&b, tf ? places[k].taken : places[k].next, 2);
            b.want.tf = 0;
            step(&b, "JTF: the page of its second byte");
        }
    }

    fresh_with(&b, 0x910, 0x76, 0x20);
    b.s.dbf = 0;
    b.s.f1 = 1;
    expect(&b, 0x920, 2);
    step(&b, "a conditional jump keeps bit 11 whatever DBF");

    for (unsigned page = 0; page < 8; page++) {
        fresh_with(&b, 0x800, (uint8_t)(page << 5 | 0x04), 0xCD);
        expect(&b, (uint16_t)(page << 8 | 0xCD), 2);
        step(&b, "JMP from the upper bank, DBF 0");
        fresh_with(&b, 0x100, (uint8_t)(page << 5 | 0x14), 0xCD);
        b.s.dbf = 1;
        expect(&b, (uint16_t)(0x800 | page << 8 | 0xCD), 2);
        b.want.psw = ONE | 1;
        b.want_ram[8] = 0x02;
        b.want_ram[9] = 0x01;
        step(&b, "CALL with DBF 1");
    }
    fresh_with(&b, 0x900, 0x14, 0xCD);
    b.s.dbf = 1;
    b.s.in_service = 1;
    expect(&b, 0x0CD, 2);
    b.want.psw = ONE | 1;
    b.want_ram[8] = 0x02;
    b.want_ram[9] = 0x09;
    step(&b, "CALL in service goes to bank 0 and pushes all 12 bits");

    fresh_with(&b, 0x7FE, 0xF5, 0);
    expect(&b, 0x7FF, 1);
    b.want.dbf = 1;
    step(&b, "SEL MB1 leaves PC");
    expect(&b, 0x000, 1);
    step(&b, "DBF 1: NOP at 7FF still wraps to 000");
    fresh_with(&b, 0x9FE, 0xE5, 0);
    b.s.dbf = 1;
    expect(&b, 0x9FF, 1);
    b.want.dbf = 0;
    step(&b, "SEL MB0 leaves PC");
}

/* A fresh bench with a code at PC in a program whose pages are full of 50, 51 .. 5F. */
static void fresh_pages(struct bench *b, uint16_t pc, uint8_t code, uint8_t a)
{
    fresh(b);
    for (unsigned i = 0; i < 4096; i++)
        b->program[i] = (uint8_t)(i >> 8 | 0x50);
    b->program[pc] = code;
    b->s.pc = pc;
    b->s.a = a;
}

static void tables(void)
{
    static const struct {
        uint16_t at;
        uint16_t next;
        uint8_t movp;  /* the byte that MOVP reads */
        uint8_t movp3; /* and MOVP3 */
        uint16_t jmpp; /* where JMPP goes */
    } rows[] = {
        {0x0FE, 0x0FF, 0x50, 0x53, 0x050}, {0x0FF, 0x100, 0x51, 0x53, 0x050},
        {0x100, 0x101, 0x51, 0x53, 0x151}, {0x1FE, 0x1FF, 0x51, 0x53, 0x151},
        {0x1FF, 0x200, 0x52, 0x53, 0x151}, {0x200, 0x201, 0x52, 0x53, 0x252},
        {0x2FF, 0x300, 0x53, 0x53, 0x252}, {0x3FE, 0x3FF, 0x53, 0x53, 0x353},
        {0x3FF, 0x400, 0x54, 0x53, 0x353}, {0x400, 0x401, 0x54, 0x53, 0x454},
        {0x7FE, 0x7FF, 0x57, 0x53, 0x757}, {0x7FF, 0x000, 0x50, 0x53, 0x757},
        {0x800, 0x801, 0x58, 0x5B, 0x858}, {0x8FF, 0x900, 0x59, 0x5B, 0x858},
        {0xBFF, 0xC00, 0x5C, 0x5B, 0xB5B}, {0xFFE, 0xFFF, 0x5F, 0x5B, 0xF5F},
        {0xFFF, 0x800, 0x58, 0x5B, 0xF5F},
    };
    struct bench b;

    for (size_t i = 0; i < sizeof rows / sizeof *rows; i++) {
        fresh_pages(&b, rows[i].at, 0xA3, 0x42);
        expect(&b, rows[i].next, 2);
        b.want.a = rows[i].movp;
        step(&b, "MOVP: the page of the instruction that follows it");

        fresh_pages(&b, rows[i].at, 0xE3, 0x42);
        expect(&b, rows[i].next, 2);
        b.want.a = rows[i].movp3;
        step(&b, "MOVP3: page 3 of its bank");

        fresh_pages(&b, rows[i].at, 0xB3, 0x42);
        expect(&b, rows[i].jmpp, 2);
        step(&b, "JMPP: table byte and target in the page of its first byte");
    }

    fresh_pages(&b, 0x1FF, 0xB3, 0xFF);
    expect(&b, 0x1B3, 2);
    step(&b, "JMPP at 1FF with A FF reads its own code");
    fresh_pages(&b, 0x1FF, 0xA3, 0xFF);
    expect(&b, 0x200, 2);
    b.want.a = 0x52;
    step(&b, "MOVP at 1FF with A FF reads 2FF");
    fresh_pages(&b, 0x1FE, 0xA3, 0xFE);
    expect(&b, 0x1FF, 2);
    b.want.a = 0xA3;
    step(&b, "MOVP at 1FE with A FE reads its own code");
}

/* Pages' edges in programs that end there. */
static void short_programs(void)
{
    static const uint8_t every_a[] = {0x00, 0x42, 0xFF};
    struct bench b;

    for (size_t i = 0; i < sizeof every_a; i++) {
        fresh_pages(&b, 0x3FF, 0xA3, every_a[i]);
        b.program_len = 1024;
        b.s.psw = 0xFD;
        b.s.counting = SECOND_TIMER;
        b.s.divider = 31;
        memset(b.ram, 0xC3, sizeof b.ram);
        b.first = T1_LOW;
        step_refused(&b, "MOVP at 3FF of 1,024", 5);

        b.program_len = 2048;
        b.s.counting = SECOND_STOPPED;
        b.first = IDLE;
        expect(&b, 0x400, 2);
        b.want.a = 0x54;
        step(&b, "MOVP at 3FF of 2,048 reads page 4");
    }

    fresh_pages(&b, 0x3FE, 0xA3, 0x42);
    b.program_len = 1024;
    expect(&b, 0x3FF, 2);
    b.want.a = 0x53;
    step(&b, "MOVP at 3FE of 1,024 reads page 3");
    fresh_pages(&b, 0x3FF, 0xE3, 0x42);
    b.program_len = 1024;
    expect(&b, 0x400, 2);
    b.want.a = 0x53;
    step(&b, "MOVP3 at 3FF of 1,024 reads page 3");
    fresh_pages(&b, 0x3FF, 0xB3, 0x42);
    b.program_len = 1024;
    expect(&b, 0x353, 2);
    step(&b, "JMPP at 3FF of 1,024 stays in page 3");
    fresh_pages(&b, 0x7FF, 0xA3, 0x42);
    b.program_len = 2048;
    expect(&b, 0x000, 2);
    b.want.a = 0x50;
    step(&b, "MOVP at 7FF of 2,048 reads page 0");

    for (unsigned taken = 0; taken < 2; taken++) {
        uint8_t a = taken ? 0x00 : 0x42;

        fresh_pages(&b, 0x3FF, 0xC6, a);
        b.program_len = 1024;
        step_refused(&b, "JZ at 3FF of 1,024 lacks its second byte", 5);
        b.program_len = 2048;
        expect(&b, taken ? 0x454 : 0x401, 2);
        step(&b, "JZ at 3FF of 2,048");
        fresh_pages(&b, 0x3FE, 0xC6, a);
        b.program_len = 1024;
        expect(&b, taken ? 0x353 : 0x400, 2);
        step(&b, "JZ at 3FE of 1,024");
        fresh_pages(&b, 0x7FF, 0xC6, a);
        b.program_len = 2048;
        expect(&b, taken ? 0x050 : 0x001, 2);
        step(&b, "JZ at 7FF of 2,048");
    }
}

/* The second program (02, item 7). */

/*
 * A bench with a second program. Inside the pages are full of 50, 51 .. 5F, outside of C0,
 * C1 .. CF, and an instruction is at PC in the memory that answers there.
 */
static void fresh_outside(struct bench *b, size_t program_len, uint32_t first, uint16_t pc,
                          uint8_t code)
{
    fresh_pages(b, 0, 0x50, 0x42);
    b->program_len = program_len;
    b->outside_len = 4096;
    for (unsigned i = 0; i < 4096; i++)
        b->outside[i] = (uint8_t)(i >> 8 | 0xC0);
    b->first = first;
    b->s.pc = pc;
    if (first & SECOND_PIN_EA || pc >= program_len)
        b->outside[pc] = code;
    else
        b->program[pc] = code;
}

/* A step of so many bytes from outside. */
static void expect_outside(struct bench *b, uint16_t pc, uint8_t cycles, uint8_t outside)
{
    expect(b, pc, cycles);
    b->want_outcome.outside = outside;
}

/* What MOV A,#data finds, and how many of its two bytes came from outside. */
static void outside_operands(void)
{
    static const struct {
        size_t program_len;
        uint32_t first;
        uint16_t at;
        uint16_t next;
        uint8_t a;
        uint8_t outside;
    } rows[] = {
        {1024, IDLE, 0x000, 0x002, 0x50, 0},    {1024, IDLE, 0x3FE, 0x400, 0x53, 0},
        {1024, IDLE, 0x3FF, 0x401, 0xC4, 1},    {1024, IDLE, 0x400, 0x402, 0xC4, 2},
        {1024, IDLE, 0x7FE, 0x000, 0xC7, 2},    {1024, IDLE, 0x7FF, 0x001, 0x50, 1},
        {1024, IDLE, 0x800, 0x802, 0xC8, 2},    {1024, IDLE, 0xBFF, 0xC01, 0xCC, 2},
        {1024, IDLE, 0xFFF, 0x801, 0xC8, 2},    {2048, IDLE, 0x3FF, 0x401, 0x54, 0},
        {2048, IDLE, 0x400, 0x402, 0x54, 0},    {2048, IDLE, 0x7FE, 0x000, 0x57, 0},
        {2048, IDLE, 0x7FF, 0x001, 0x50, 0},    {2048, IDLE, 0x800, 0x802, 0xC8, 2},
        {2048, IDLE, 0xFFF, 0x801, 0xC8, 2},    {4096, IDLE, 0x3FF, 0x401, 0x54, 0},
        {4096, IDLE, 0x7FF, 0x001, 0x50, 0},    {4096, IDLE, 0x800, 0x802, 0x58, 0},
        {4096, IDLE, 0xFFF, 0x801, 0x58, 0},    {1024, EA_HIGH, 0x000, 0x002, 0xC0, 2},
        {1024, EA_HIGH, 0x3FF, 0x401, 0xC4, 2}, {1024, EA_HIGH, 0x7FF, 0x001, 0xC0, 2},
        {2048, EA_HIGH, 0x3FF, 0x401, 0xC4, 2}, {2048, EA_HIGH, 0x7FF, 0x001, 0xC0, 2},
        {2048, EA_HIGH, 0x800, 0x802, 0xC8, 2}, {4096, EA_HIGH, 0x000, 0x002, 0xC0, 2},
        {4096, EA_HIGH, 0x7FF, 0x001, 0xC0, 2}, {4096, EA_HIGH, 0xFFF, 0x801, 0xC8, 2},
    };
    struct bench b;

    for (size_t i = 0; i < sizeof rows / sizeof *rows; i++) {
        fresh_outside(&b, rows[i].program_len, rows[i].first, rows[i].at, 0x23);
        expect_outside(&b, rows[i].next, 2, rows[i].outside);
        b.want.a = rows[i].a;
        step(&b, "MOV A,#data from two memories");

        /* NOP has one byte, and looks for no other. */
        fresh_outside(&b, rows[i].program_len, rows[i].first, rows[i].at, 0x00);
        bool outside = rows[i].first & SECOND_PIN_EA || rows[i].at >= rows[i].program_len;
        expect_outside(&b, (uint16_t)((rows[i].at & 0x800) | ((rows[i].at + 1) & 0x7FF)), 1,
                       outside);
        step(&b, "NOP from two memories");
    }
}

/* Table bytes go by their own address, and count. */
static void outside_tables(void)
{
    static const struct {
        size_t program_len;
        uint32_t first;
        uint16_t at;
        uint16_t next;
        uint8_t movp;
        uint8_t movp_outside;
        uint8_t movp3;
        uint8_t movp3_outside;
        uint16_t jmpp;
        uint8_t jmpp_outside;
    } rows[] = {
        {1024, IDLE, 0x210, 0x211, 0x52, 0, 0x53, 0, 0x252, 0},
        {1024, IDLE, 0x3FF, 0x400, 0xC4, 1, 0x53, 0, 0x353, 0},
        {1024, IDLE, 0x400, 0x401, 0xC4, 2, 0x53, 1, 0x4C4, 2},
        {1024, IDLE, 0x7FF, 0x000, 0x50, 1, 0x53, 1, 0x7C7, 2},
        {1024, IDLE, 0x810, 0x811, 0xC8, 2, 0xCB, 2, 0x8C8, 2},
        {1024, IDLE, 0xFFF, 0x800, 0xC8, 2, 0xCB, 2, 0xFCF, 2},
        {2048, IDLE, 0x3FF, 0x400, 0x54, 0, 0x53, 0, 0x353, 0},
        {2048, IDLE, 0x7FF, 0x000, 0x50, 0, 0x53, 0, 0x757, 0},
        {2048, IDLE, 0x800, 0x801, 0xC8, 2, 0xCB, 2, 0x8C8, 2},
        {4096, IDLE, 0xFFF, 0x800, 0x58, 0, 0x5B, 0, 0xF5F, 0},
        {1024, EA_HIGH, 0x210, 0x211, 0xC2, 2, 0xC3, 2, 0x2C2, 2},
        {2048, EA_HIGH, 0x3FF, 0x400, 0xC4, 2, 0xC3, 2, 0x3C3, 2},
        {4096, EA_HIGH, 0xFFF, 0x800, 0xC8, 2, 0xCB, 2, 0xFCF, 2},
    };
    struct bench b;

    for (size_t i = 0; i < sizeof rows / sizeof *rows; i++) {
        fresh_outside(&b, rows[i].program_len, rows[i].first, rows[i].at, 0xA3);
        expect_outside(&b, rows[i].next, 2, rows[i].movp_outside);
        b.want.a = rows[i].movp;
        step(&b, "MOVP from two memories");
        fresh_outside(&b, rows[i].program_len, rows[i].first, rows[i].at, 0xE3);
        expect_outside(&b, rows[i].next, 2, rows[i].movp3_outside);
        b.want.a = rows[i].movp3;
        step(&b, "MOVP3 from two memories");
        fresh_outside(&b, rows[i].program_len, rows[i].first, rows[i].at, 0xB3);
        expect_outside(&b, rows[i].jmpp, 2, rows[i].jmpp_outside);
        step(&b, "JMPP from two memories");
    }
}

/* EA is that of the step's first sample, in every one of its bytes. */
static void outside_samples(void)
{
    static const uint8_t codes[] = {0x23, 0xA3, 0xE3};
    struct bench b;

    for (size_t i = 0; i < sizeof codes; i++) {
        fresh_outside(&b, 4096, IDLE, 0x210, codes[i]);
        b.second = EA_HIGH;
        expect_outside(&b, codes[i] == 0x23 ? 0x212 : 0x211, 2, 0);
        b.want.a = codes[i] == 0xE3 ? 0x53 : 0x52;
        step(&b, "EA high in the second sample only");
        fresh_outside(&b, 4096, EA_HIGH, 0x210, codes[i]);
        expect_outside(&b, codes[i] == 0x23 ? 0x212 : 0x211, 2, 2);
        b.want.a = codes[i] == 0xE3 ? 0xC3 : 0xC2;
        step(&b, "EA high in the first sample only");
    }

    fresh(&b);
    b.second = EA_HIGH;
    expect(&b, 1, 1);
    step(&b, "EA high in the second sample, and no second program");
    for (int bit = 29; bit < 32; bit++) {
        for (int high = 0; high < 4; high++) {
            fresh_outside(&b, 1024, high & 1 ? EA_HIGH : IDLE, 0x210, 0x00);
            b.second = high & 2 ? EA_HIGH : IDLE;
            *(high & 1 ? &b.first : &b.second) |= UINT32_C(1) << bit;
            step_refused(&b, "6 whatever EA is", 6);
        }
    }
}

/* 5 exactly if the memory that must answer lacks the byte. */
static void outside_past_end(void)
{
    static const size_t programs[] = {1024, 2048, 4096};
    struct bench b;

    for (size_t i = 0; i < 3; i++) {
        fresh_with(&b, 0x210, 0x23, 0x5A);
        b.program_len = programs[i];
        b.first = EA_HIGH;
        step_refused(&b, "5: EA high and no second program, though the byte is inside", 5);
        b.s.pc = 0xFFF;
        step_refused(&b, "5: EA high and no second program, at FFF", 5);
        b.s.pc = 0x210;
        b.program[0x210] = 0x66;
        step_refused(&b, "5 before 4: EA high and no second program", 5);
        b.outside_len = 4096;
        b.outside[0x210] = 0x66;
        step_refused(&b, "4: undefined code outside", 4);
        b.outside[0x210] = 0x23;
        expect_outside(&b, 0x212, 2, 2);
        step(&b, "its second byte outside, too");
    }

    fresh_outside(&b, 1024, IDLE, 0x3FF, 0x23);
    b.outside_len = 0;
    step_refused(&b, "5: second byte at 400 of 1,024 with no second program", 5);
    b.program[0x3FF] = 0xA3;
    step_refused(&b, "5: table byte of MOVP at 3FF of 1,024 with no second program", 5);
    b.program[0x3FF] = 0xE3;
    expect_outside(&b, 0x400, 2, 0);
    b.want.a = 0x53;
    step(&b, "MOVP3 at 3FF of 1,024 needs none");
    step_refused(&b, "5: first byte at 400 of 1,024 with no second program", 5);
}

/* Steps that fetch nothing report no byte, with every fetch outside. */
static void outside_unfetched(void)
{
    struct bench b;

    fresh_outside(&b, 1024, EA_HIGH, 0xFFF, 0x23);
    b.first &= ~SECOND_PIN_RESET;
    expect(&b, 0, 1);
    step(&b, "a reset fetches nothing from outside");

    for (unsigned timer = 0; timer < 2; timer++) {
        fresh_outside(&b, 1024, timer ? EA_HIGH : EA_HIGH & ~SECOND_PIN_INT, 0xFFF, 0x23);
        b.s.external_enabled = !timer;
        b.s.timer_enabled = (uint8_t)timer;
        b.s.request = (uint8_t)timer;
        expect(&b, timer ? 7 : 3, 2);
        b.want.in_service = 1;
        b.want.request = 0;
        b.want.psw = ONE | 1;
        b.want_ram[8] = 0xFF;
        b.want_ram[9] = 0x0F;
        step(&b, "a call fetches nothing from outside");
    }
    for (uint8_t mode = SECOND_MODE_HALTED; mode <= SECOND_MODE_STOPPED; mode++) {
        fresh_outside(&b, 1024, EA_HIGH, 0xFFF, 0x23);
        b.set = SECOND_NEC;
        b.s.mode = mode;
        expect_wait(&b, mode);
        step(&b, "a wait fetches nothing from outside");
        b.outside_len = 0;
        step(&b, "a wait needs no second program");
    }
    fresh_outside(&b, 1024, EA_HIGH, 0x210, 0x01);
    b.set = SECOND_NEC;
    expect_outside(&b, 0x211, 1, 1);
    b.want.mode = SECOND_MODE_HALTED;
    step(&b, "HALT from outside");

    fresh_outside(&b, 1024, EA_HIGH, 0x210, 0x66);
    step_refused(&b, "4 reports no byte, though one came from outside", 4);
    fresh_outside(&b, 1024, IDLE, 0x7FF, 0x01);
    step_refused(&b, "4 past the internal end", 4);
}

static void outside_lengths(void)
{
    static const size_t refused[] = {1, 2, 64, 1000, 1023, 1024, 1025, 2048, 4095, 4097, 8192};
    struct bench b;

    for (size_t i = 0; i < sizeof refused / sizeof *refused; i++) {
        fresh_outside(&b, 1024, IDLE, 0x210, 0x00);
        b.outside_len = refused[i]; /* only the length is looked at */
        step_refused(&b, "1: length of the second program", 1);
        b.first = RESET_LOW;
        step_refused(&b, "1 before reset", 1);
        b.ram_len = 100;
        b.s.tf = 2;
        b.second |= UINT32_C(1) << 30;
        step_refused(&b, "1: before 2, 3 and 6", 1);
        b.program_len = 1000;
        step_refused(&b, "1: both lengths", 1);
        b.set = 2;
        step_refused(&b, "1: after 25", 25);
    }
    fresh_outside(&b, 1000, IDLE, 0x210, 0x00);
    step_refused(&b, "1: the first program's length, a second lent", 1);
}

/* INC A inside and DEC A outside: what a run leaves in A is its EA. */
static void outside_runs(void)
{
    struct bench b;
    uint32_t samples[8] = {IDLE, EA_HIGH, IDLE, IDLE, EA_HIGH, IDLE, IDLE, EA_HIGH};
    struct second_totals totals;

    fresh_outside(&b, 1024, IDLE, 0x210, 0x17);
    memset(b.program, 0x17, sizeof b.program);
    memset(b.outside, 0x07, sizeof b.outside);
    totals = run(&b, samples, 8);
    check("EA in a run: number", 0, totals.number);
    check("EA in a run: samples", 7, totals.samples);
    check("EA in a run: five INC A and two DEC A", 0x42 + 3, b.s.a);

    b.s.pc = 0x3FE;
    totals = run(&b, samples, 8);
    check("across 3FF: number", 0, totals.number);
    check("across 3FF: PC", 0x405, b.s.pc);
    check("across 3FF: one INC A and six DEC A", 0x42 + 3 - 5, b.s.a);

    b.outside_len = 0;
    b.s.pc = 0x3FE;
    samples[1] = IDLE;
    totals = run(&b, samples, 8);
    check("across 3FF, no second program: number", 5, totals.number);
    check("across 3FF, no second program: samples", 2, totals.samples);
    check("across 3FF, no second program: PC", 0x400, b.s.pc);
    b.s.pc = 0x210;
    totals = run(&b, samples, 8);
    check("EA high, no second program: number", 5, totals.number);
    check("EA high, no second program: samples", 4, totals.samples);
}

static void second_program(void)
{
    outside_operands();
    outside_tables();
    outside_samples();
    outside_past_end();
    outside_unfetched();
    outside_lengths();
    outside_runs();
}

static void stack(void)
{
    static const struct {
        uint16_t at;
        uint16_t pushed;
    } rows[] = {
        {0x000, 0x002}, {0x0FE, 0x100}, {0x7FD, 0x7FF}, {0x7FE, 0x000},
        {0x7FF, 0x001}, {0x800, 0x802}, {0xFFE, 0x800}, {0xFFF, 0x801},
    };
    struct bench b;

    for (size_t i = 0; i < sizeof rows / sizeof *rows; i++) {
        for (uint8_t sp = 0; sp < 8; sp++) {
            uint16_t at = rows[i].at;
            fresh(&b);
            b.ram_len = 64;
            b.program[at] = 0x54;
            b.program[(at & 0x800) | ((at + 1) & 0x7FF)] = 0x34;
            b.s.pc = at;
            b.s.psw = (uint8_t)(0xA8 | sp);
            expect(&b, 0x234, 2);
            b.want.psw = (uint8_t)(0xA8 | ((sp + 1) & 7));
            b.want_ram[8 + 2 * sp] = (uint8_t)rows[i].pushed;
            b.want_ram[9 + 2 * sp] = (uint8_t)(0xA0 | rows[i].pushed >> 8);
            step(&b, "CALL pushes the next PC and PSW 4 to 7 as they were");
        }
    }
    for (uint8_t sp = 0; sp < 8; sp++) {
        uint8_t below = (sp + 7) & 7;
        for (uint8_t service = 0; service < 2; service++) {
            fresh_with(&b, 0x123, 0x83, 0);
            b.s.psw = (uint8_t)(0x58 | sp);
            b.s.in_service = service;
            b.ram[8 + 2 * below] = 0xEF;
            b.ram[9 + 2 * below] = 0xAC;
            expect(&b, 0xCEF, 2);
            b.want.psw = (uint8_t)(0x58 | below);
            step(&b, "RET restores 12 bits of PC, no flag, leaves service");

            fresh_with(&b, 0x123, 0x93, 0);
            b.s.psw = (uint8_t)(0x58 | sp);
            b.s.in_service = service;
            b.ram[8 + 2 * below] = 0xEF;
            b.ram[9 + 2 * below] = 0xAC;
            expect(&b, 0xCEF, 2);
            b.want.psw = (uint8_t)(0xA8 | below);
            b.want.in_service = 0;
            step(&b, "RETR restores PC and PSW 4 to 7, ends service");
        }
    }
}

/* The three forms of each operation on A, with a register, a cell and data. */
static void accumulator(void)
{
    static const struct {
        const char *name;
        uint8_t code_r; /* R0's */
        uint8_t code_at;
        uint8_t code_data;
        uint8_t a;
        uint8_t value;
        uint8_t psw;
        uint8_t want_a;
        uint8_t want_psw;
    } rows[] = {
        {"ADD", 0x68, 0x60, 0x03, 0x5A, 0xA6, ONE, 0x00, ONE | C | AC},
        {"ADD: carry in ignored", 0x68, 0x60, 0x03, 0x01, 0x02, 0xF8, 0x03, ONE | F0 | BS},
        {"ADD: AC alone", 0x68, 0x60, 0x03, 0x08, 0x08, ONE, 0x10, ONE | AC},
        {"ADD: C alone", 0x68, 0x60, 0x03, 0x80, 0x81, ONE, 0x01, ONE | C},
        {"ADDC", 0x78, 0x70, 0x13, 0xFF, 0x00, ONE | C, 0x00, ONE | C | AC},
        {"ADDC: AC through the carry", 0x78, 0x70, 0x13, 0x0F, 0x00, ONE | C, 0x10, ONE | AC},
        {"ADDC: FF + FF + 1", 0x78, 0x70, 0x13, 0xFF, 0xFF, ONE | C, 0xFF, ONE | C | AC},
        {"ADDC: no carry in", 0x78, 0x70, 0x13, 0xFF, 0x00, ONE | AC, 0xFF, ONE},
        {"ANL", 0x58, 0x50, 0x53, 0xCC, 0xAA, 0xE8, 0x88, 0xE8},
        {"ORL", 0x48, 0x40, 0x43, 0xCC, 0xAA, 0x38, 0xEE, 0x38},
        {"XRL", 0xD8, 0xD0, 0xD3, 0xCC, 0xAA, 0x58, 0x66, 0x58},
        {"MOV", 0xF8, 0xF0, 0x23, 0xCC, 0xAA, 0xF8, 0xAA, 0xF8},
    };
    struct bench b;

    for (size_t i = 0; i < sizeof rows / sizeof *rows; i++) {
        unsigned bank = rows[i].psw & BS ? 24 : 0;
        for (unsigned r = 0; r < 8; r++) {
            fresh_with(&b, 0, (uint8_t)(rows[i].code_r + r), 0x77);
            memset(b.ram, 0x77, sizeof b.ram);
            b.s.a = rows[i].a;
            b.s.psw = rows[i].psw;
            b.ram[bank + r] = rows[i].value;
            expect(&b, 1, 1);
            b.want.a = rows[i].want_a;
            b.want.psw = rows[i].want_psw;
            step(&b, rows[i].name);
        }
        for (unsigned r = 0; r < 2; r++) {
            for (size_t ram_len = 64; ram_len <= 256; ram_len *= 2) {
                fresh_with(&b, 0, (uint8_t)(rows[i].code_at + r), 0x77);
                memset(b.ram, 0x77, sizeof b.ram);
                b.ram_len = ram_len;
                b.s.a = rows[i].a;
                b.s.psw = rows[i].psw;
                b.ram[bank + r] = 0xF3;
                b.ram[0xF3 % ram_len] = rows[i].value;
                expect(&b, 1, 1);
                b.want.a = rows[i].want_a;
                b.want.psw = rows[i].want_psw;
                step(&b, rows[i].name);
            }
        }
        fresh_with(&b, 0, rows[i].code_data, rows[i].value);
        memset(b.ram, 0x77, sizeof b.ram);
        b.s.a = rows[i].a;
        b.s.psw = rows[i].psw;
        expect(&b, 2, 2);
        b.want.a = rows[i].want_a;
        b.want.psw = rows[i].want_psw;
        step(&b, rows[i].name);
    }

    static const struct {
        const char *name;
        uint8_t code;
        uint8_t a;
        uint8_t psw;
        uint8_t want_a;
        uint8_t want_psw;
    } singles[] = {
        {"INC A wraps, no flag", 0x17, 0xFF, ONE, 0x00, ONE},
        {"INC A keeps flags", 0x17, 0x0F, 0xFF, 0x10, 0xFF},
        {"DEC A wraps, no flag", 0x07, 0x00, ONE, 0xFF, ONE},
        {"CLR A", 0x27, 0x5A, 0xF8, 0x00, 0xF8},
        {"CPL A", 0x37, 0x5A, 0xF8, 0xA5, 0xF8},
        {"SWAP A", 0x47, 0x5A, 0xF8, 0xA5, 0xF8},
        {"RL A", 0xE7, 0x81, ONE, 0x03, ONE},
        {"RLC A with C 1", 0xF7, 0x01, 0xF8, 0x03, 0x78},
        {"RLC A with C 0", 0xF7, 0x81, ONE, 0x02, ONE | C},
        {"RR A", 0x77, 0x81, ONE, 0xC0, ONE},
        {"RRC A with C 1", 0x67, 0x80, 0xF8, 0xC0, 0x78},
        {"RRC A with C 0", 0x67, 0x81, ONE, 0x40, ONE | C},
        {"CLR C", 0x97, 0x5A, 0xFF, 0x5A, 0x7F},
        {"CPL C", 0xA7, 0x5A, 0xFF, 0x5A, 0x7F},
        {"CPL C again", 0xA7, 0x5A, 0x7F, 0x5A, 0xFF},
        {"CLR F0", 0x85, 0x5A, 0xFF, 0x5A, 0xDF},
        {"CPL F0", 0x95, 0x5A, 0xFF, 0x5A, 0xDF},
        {"CPL F0 again", 0x95, 0x5A, 0xDF, 0x5A, 0xFF},
        {"SEL RB0", 0xC5, 0x5A, 0xFF, 0x5A, 0xEF},
        {"SEL RB1", 0xD5, 0x5A, 0x08, 0x5A, 0x18},
        {"MOV A,PSW", 0xC7, 0x5A, 0xAD, 0xAD, 0xAD},
        {"MOV PSW,A: bit 3 stays 1", 0xD7, 0xA5, 0x5A, 0xA5, 0xAD},
        {"DA: nothing to do", 0x57, 0x99, ONE, 0x99, ONE},
        {"DA: AC alone, and AC stays", 0x57, 0x12, ONE | AC, 0x18, ONE | AC},
        {"DA: C alone, and C stays", 0x57, 0x12, ONE | C, 0x72, ONE | C},
        {"DA: low digit", 0x57, 0x1A, ONE, 0x20, ONE},
        {"DA: first correction reaches A0", 0x57, 0x9A, ONE, 0x00, ONE | C},
        {"DA: its carry reaches the second test", 0x57, 0xFA, ONE, 0x60, ONE | C},
        {"DA: FF with AC and C", 0x57, 0xFF, 0xF8, 0x65, 0xF8},
        {"NOP", 0x00, 0x5A, 0xFF, 0x5A, 0xFF},
    };
    for (size_t i = 0; i < sizeof singles / sizeof *singles; i++) {
        fresh_with(&b, 0, singles[i].code, 0);
        b.s.a = singles[i].a;
        b.s.psw = singles[i].psw;
        expect(&b, 1, 1);
        b.want.a = singles[i].want_a;
        b.want.psw = singles[i].want_psw;
        step(&b, singles[i].name);
    }

    /* ADDC and DA add decimal digits: both carries, for all pairs of two digits. */
    for (unsigned x = 0; x < 100; x++) {
        for (unsigned y = 0; y < 100; y++) {
            for (unsigned carry = 0; carry < 2; carry++) {
                unsigned sum = x + y + carry;
                fresh_with(&b, 0, 0x13, (uint8_t)(y / 10 << 4 | y % 10));
                b.program[2] = 0x57;
                b.s.a = (uint8_t)(x / 10 << 4 | x % 10);
                b.s.psw = carry ? ONE | C : ONE;
                just_step(&b);
                just_step(&b);
                check("decimal sum", sum % 100 / 10 << 4 | sum % 10, b.s.a);
                check("decimal carry", sum >= 100, b.s.psw >> 7);
            }
        }
    }
}

static void memory(void)
{
    struct bench b;

    for (unsigned bank = 0; bank < 2; bank++) {
        uint8_t psw = bank ? ONE | BS : ONE;
        for (unsigned r = 0; r < 8; r++) {
            unsigned at = 24 * bank + r;

            fresh_with(&b, 0, (uint8_t)(0x18 + r), 0);
            b.s.psw = psw;
            b.ram[at] = 0xFF;
            expect(&b, 1, 1);
            b.want_ram[at] = 0x00;
            step(&b, "INC Rr wraps, no flag");

            fresh_with(&b, 0, (uint8_t)(0xC8 + r), 0);
            b.s.psw = psw;
            expect(&b, 1, 1);
            b.want_ram[at] = 0xFF;
            step(&b, "DEC Rr wraps, no flag");

            fresh_with(&b, 0, (uint8_t)(0xA8 + r), 0);
            b.s.psw = psw;
            b.s.a = 0x5A;
            expect(&b, 1, 1);
            b.want_ram[at] = 0x5A;
            step(&b, "MOV Rr,A");

            fresh_with(&b, 0, (uint8_t)(0xB8 + r), 0x5A);
            b.s.psw = psw;
            expect(&b, 2, 2);
            b.want_ram[at] = 0x5A;
            step(&b, "MOV Rr,#");

            fresh_with(&b, 0, (uint8_t)(0x28 + r), 0);
            b.s.psw = psw;
            b.s.a = 0x12;
            b.ram[at] = 0x34;
            expect(&b, 1, 1);
            b.want.a = 0x34;
            b.want_ram[at] = 0x12;
            step(&b, "XCH A,Rr");
        }
        for (unsigned r = 0; r < 2; r++) {
            for (size_t ram_len = 64; ram_len <= 256; ram_len *= 2) {
                size_t at = 0xEA % ram_len;

                fresh_with(&b, 0, (uint8_t)(0x10 + r), 0);
                b.ram_len = ram_len;
                b.s.psw = psw;
                b.ram[24 * bank + r] = 0xEA;
                b.ram[at] = 0xFF;
                expect(&b, 1, 1);
                b.want_ram[at] = 0x00;
                step(&b, "INC @Rr");

                b.program[1] = (uint8_t)(0xA0 + r);
                b.s.a = 0x5A;
                expect(&b, 2, 1);
                b.want_ram[at] = 0x5A;
                step(&b, "MOV @Rr,A");

                put2(&b, 2, (uint8_t)(0xB0 + r), 0x34);
                expect(&b, 4, 2);
                b.want_ram[at] = 0x34;
                step(&b, "MOV @Rr,#");

                b.program[4] = (uint8_t)(0x20 + r);
                expect(&b, 5, 1);
                b.want.a = 0x34;
                b.want_ram[at] = 0x5A;
                step(&b, "XCH A,@Rr");

                b.program[5] = (uint8_t)(0x30 + r);
                expect(&b, 6, 1);
                b.want.a = 0x3A;
                b.want_ram[at] = 0x54;
                step(&b, "XCHD A,@Rr");
            }
        }
    }

    fresh_with(&b, 0, 0xB0, 0x34);
    expect(&b, 2, 2);
    b.want_ram[0] = 0x34;
    step(&b, "MOV @R0,# may write R0 itself");

    static const struct {
        const char *name;
        uint8_t code;
        uint8_t before;
        uint8_t after;
    } flags[] = {
        {"CLR F1", 0xA5, 1, 0},
        {"CPL F1", 0xB5, 1, 0},
        {"CPL F1 again", 0xB5, 0, 1},
    };
    for (size_t i = 0; i < sizeof flags / sizeof *flags; i++) {
        fresh_with(&b, 0, flags[i].code, 0);
        b.s.f1 = flags[i].before;
        expect(&b, 1, 1);
        b.want.f1 = flags[i].after;
        step(&b, flags[i].name);
    }
    fresh_with(&b, 0, 0x75, 0);
    expect(&b, 1, 1);
    b.want.t0_clock = 1;
    step(&b, "ENT0 CLK");
}

static void ports(void)
{
    /* Ports and BUS low in the first cycle; P2 5A, P1 3C, BUS C6 in the second. */
    const uint32_t first = IDLE & ~UINT32_C(0xFFFFFF);
    const uint32_t second = first | 0x5A3CC6;
    struct bench b;

    for (unsigned port = 1; port <= 2; port++) {
        uint8_t pins = port == 1 ? 0x3C : 0x5A;
        for (unsigned k = 0; k < 4; k++) {
            static const uint8_t bases[] = {0x08, 0x38, 0x98, 0x88};
            static const char *const names[] = {
                "IN reads latch AND pins of the second cycle",
                "OUTL Pp,A",
                "ANL on a port changes the latch, whatever its pins",
                "ORL on a port changes the latch, whatever its pins",
            };
            fresh_with(&b, 0, (uint8_t)(bases[k] + port), 0x99);
            b.s.a = 0x42;
            b.s.p1 = 0xF1;
            b.s.p2 = 0xF1;
            b.s.bus = 0xF1;
            b.first = first;
            b.second = second;
            expect(&b, k < 2 ? 1 : 2, 2);
            uint8_t *latch = port == 1 ? &b.want.p1 : &b.want.p2;
            if (k == 0)
                b.want.a = 0xF1 & pins;
            else if (k == 1)
                *latch = 0x42;
            else if (k == 2)
                *latch = 0xF1 & 0x99;
            else
                *latch = 0xF1 | 0x99;
            step(&b, names[k]);
        }
    }
    for (uint8_t driven = 0; driven < 2; driven++) {
        fresh_with(&b, 0, 0x08, 0);
        b.s.bus = 0x0F;
        b.s.bus_driven = driven;
        b.first = first;
        b.second = second;
        expect(&b, 1, 2);
        b.want.a = 0xC6;
        step(&b, "INS reads the pins, driven or not");

        fresh_with(&b, 0, 0x02, 0);
        b.s.a = 0x42;
        b.s.bus_driven = driven;
        expect(&b, 1, 2);
        b.want.bus = 0x42;
        b.want.bus_driven = 1;
        step(&b, "OUTL BUS drives it");

        fresh_with(&b, 0, 0x98, 0x99);
        b.s.bus = 0xF1;
        b.s.bus_driven = driven;
        b.second = second;
        expect(&b, 2, 2);
        b.want.bus = 0x91;
        b.want.bus_driven = 1;
        step(&b, "ANL BUS works on the latch and drives it");

        fresh_with(&b, 0, 0x88, 0x99);
        b.s.bus = 0xF1;
        b.s.bus_driven = driven;
        b.second = second;
        expect(&b, 2, 2);
        b.want.bus = 0xF9;
        b.want.bus_driven = 1;
        step(&b, "ORL BUS works on the latch and drives it");
    }

    for (unsigned r = 0; r < 2; r++) {
        for (unsigned bank = 0; bank < 2; bank++) {
            fresh_with(&b, 0, (uint8_t)(0x80 + r), 0);
            b.ram_len = 64;
            b.s.psw = bank ? ONE | BS : ONE;
            b.s.a = 0x42;
            b.s.bus = 0x0F;
            b.ram[24 * bank + r] = 0xEA;
            b.first = first;
            b.second = second;
            expect(&b, 1, 2);
            b.want.a = 0xC6;
            expect_event(&b, SECOND_MOVX_READ, 0xEA, 0);
            step(&b, "MOVX A,@Rr: whole address, no data, BUS of the second cycle");

            fresh_with(&b, 0, (uint8_t)(0x90 + r), 0);
            b.ram_len = 64;
            b.s.psw = bank ? ONE | BS : ONE;
            b.s.a = 0x42;
            b.s.bus = 0x0F;
            b.ram[24 * bank + r] = 0xEA;
            expect(&b, 1, 2);
            expect_event(&b, SECOND_MOVX_WRITE, 0xEA, 0x42);
            step(&b, "MOVX @Rr,A: latch and drive flag stay");
        }
    }
    for (uint8_t port = 4; port <= 7; port++) {
        static const struct {
            uint8_t base;
            uint8_t event;
        } kinds[] = {
            {0x08, SECOND_MOVD_READ},
            {0x38, SECOND_MOVD_WRITE},
            {0x88, SECOND_ORLD},
            {0x98, SECOND_ANLD},
        };
        for (size_t k = 0; k < 4; k++) {
            fresh_with(&b, 0, (uint8_t)(kinds[k].base + port), 0);
            b.s.a = 0xE7;
            b.s.p2 = 0x00;
            b.first = first;
            b.second = second;
            expect(&b, 1, 2);
            if (k == 0)
                b.want.a = 0x0A;
            expect_event(&b, kinds[k].event, port, 0x07);
            step(&b, "MOVD, ORLD, ANLD: A's old low digit; P2 pins, not latch");
        }
    }
}

static void runs(void)
{
    struct bench b;
    uint32_t samples[8];
    struct second_totals totals;

    for (size_t i = 0; i < 8; i++)
        samples[i] = IDLE;

    for (size_t len = 0; len < 2; len++) {
        fresh_with(&b, 0, 0x66, 0);
        b.want = b.s;
        b.set = 2;
        b.program_len = 1000;
        b.outside_len = 1000;
        b.ram_len = 100;
        totals = run(&b, len ? samples : NULL, len);
        check("short run: 25", 25, totals.number);
        check("short run: 25, samples", 0, totals.samples);
        check("short run: 25, cycles", 0, (unsigned long)totals.cycles);
        b.set = SECOND_INTEL;
        totals = run(&b, samples, len);
        check("short run: 1", 1, totals.number);
        b.program_len = 1024;
        totals = run(&b, samples, len);
        check("short run: 1 for the second program", 1, totals.number);
        b.outside_len = 4096;
        totals = run(&b, samples, len);
        check("short run: 2", 2, totals.number);
        b.ram_len = 64;
        b.s.tf = b.want.tf = 2;
        totals = run(&b, samples, len);
        check("short run: 3", 3, totals.number);
        b.s.tf = b.want.tf = 0;
        b.s.mode = b.want.mode = SECOND_MODE_HALTED;
        totals = run(&b, samples, len);
        check("short run: 3 for a halted Intel", 3, totals.number);
        b.set = SECOND_NEC;
        totals = run(&b, samples, len);
        check("short run: not so for NEC", 0, totals.number);
        b.set = SECOND_INTEL;
        b.s.mode = b.want.mode = SECOND_MODE_RUNS;
        samples[0] = UINT32_MAX;
        totals = run(&b, samples, len);
        samples[0] = IDLE;
        check("short run: number", 0, totals.number);
        check("short run: samples", 0, totals.samples);
        check("short run: cycles", 0, (unsigned long)totals.cycles);
        check_state("short run: state", &b.want, &b.s);
    }

    fresh(&b);
    totals = run(&b, samples, 8);
    check("run of NOPs: number", 0, totals.number);
    check("run of NOPs: a last single sample isn't used", 7, totals.samples);
    check("run of NOPs: cycles", 7, (unsigned long)totals.cycles);
    check("run of NOPs: PC", 7, b.s.pc);

    fresh(&b);
    samples[7] = UINT32_MAX;
    totals = run(&b, samples, 8);
    check("run: 6 through a one-cycle step's second sample", 6, totals.number);
    check("run: samples before the 6", 6, totals.samples);
    check("run: PC before the 6", 6, b.s.pc);
    fresh_with(&b, 0, 0x04, 0x00);
    totals = run(&b, samples, 7);
    check("run: a last single sample isn't looked at: number", 0, totals.number);
    check("run: a last single sample isn't looked at: samples", 6, totals.samples);
    samples[7] = IDLE;

    fresh(&b);
    b.program[3] = 0x66;
    put2(&b, 1, 0x23, 0x5A);
    totals = run(&b, samples, 8);
    check("run refused: number", 4, totals.number);
    check("run refused: samples", 3, totals.samples);
    check("run refused: cycles", 3, (unsigned long)totals.cycles);
    check("run refused: the steps before stand", 0x5A, b.s.a);
    check("run refused: PC", 3, b.s.pc);

    fresh_with(&b, 0x123, 0x66, 0);
    totals = run(&b, samples, 8);
    check("run refused at once: number", 4, totals.number);
    check("run refused at once: samples", 0, totals.samples);
    check("run refused at once: cycles", 0, (unsigned long)totals.cycles);

    /* A one-cycle step's second sample is the next step's first. */
    fresh(&b);
    b.s.external_enabled = 1;
    samples[1] = INT_LOW;
    totals = run(&b, samples, 3);
    check("run: pairs overlap: samples", 3, totals.samples);
    check("run: pairs overlap: PC", 3, b.s.pc);
    check("run: pairs overlap: pushed", 1, b.ram[8]);
    samples[1] = IDLE;

    memset(samples, 0, sizeof samples);
    fresh_with(&b, 0x123, 0x66, 0);
    totals = run(&b, samples, 8);
    check("run of zeros is all resets: number", 0, totals.number);
    check("run of zeros is all resets: samples", 7, totals.samples);
    check("run of zeros is all resets: PC", 0, b.s.pc);
}

static void reader(void)
{
    static uint8_t program[4097];
    struct second_reading r;

    r = second_read(SECOND_INTEL, NULL, 0, 0);
    check("reader: empty program", 5, r.number);
    r = second_read(2, program, 4097, 5000);
    check("reader: 25 before 1", 25, r.number);
    r = second_read(SECOND_INTEL, program, 4097, 5000);
    check("reader: 1 before 5", 1, r.number);
    r = second_read(SECOND_INTEL, program, 4096, 4096);
    check("reader: address at the end", 5, r.number);
    r = second_read(SECOND_INTEL, program, 4096, SIZE_MAX);
    check("reader: greatest address", 5, r.number);
    program[9] = 0x66;
    r = second_read(SECOND_INTEL, program, 10, 9);
    check("reader: 4 before the second 5", 4, r.number);
    check("reader: refused: length", 0, r.length);
    check("reader: refused: byte", 0, r.bytes[0]);
    program[9] = 0x23;
    r = second_read(SECOND_INTEL, program, 10, 9);
    check("reader: no second byte", 5, r.number);
    check("reader: refused: length", 0, r.length);
    check("reader: refused: byte", 0, r.bytes[0]);

    program[0x7FF] = 0x23;
    program[0x000] = 0x11;
    program[0x800] = 0x99;
    program[0xFFF] = 0xE4;
    r = second_read(SECOND_INTEL, program, 4096, 0x7FF);
    check("reader: wraps at 7FF", 0x11, r.instruction.data);
    r = second_read(SECOND_INTEL, program, 2048, 0x7FF);
    check("reader: wraps at 7FF of 2,048", 0x11, r.instruction.data);
    r = second_read(SECOND_INTEL, program, 4096, 0xFFF);
    check("reader: wraps at FFF", 0x799, r.instruction.address);

    program[0x100] = 0x01;
    program[0x101] = 0x82;
    r = second_read(SECOND_NEC, program, 0x101, 0x100);
    check("reader: HALT", SECOND_HALT, r.instruction.operation);
    check("reader: HALT, length", 1, r.length);
    check("reader: HALT, first byte", 0x01, r.bytes[0]);
    r = second_read(SECOND_NEC, program, 0x102, 0x101);
    check("reader: STOP", SECOND_STOP, r.instruction.operation);
    check("reader: STOP, length", 1, r.length);
    check("reader: STOP, first byte", 0x82, r.bytes[0]);
    r = second_read(SECOND_INTEL, program, 4096, 0x100);
    check("reader: HALT for Intel", 4, r.number);
    r = second_read(SECOND_INTEL, program, 4096, 0x101);
    check("reader: STOP for Intel", 4, r.number);

    static const struct {
        uint8_t code;
        struct second_instruction i;
    } rows[] = {
        {0x00, {SECOND_NOP, 0, 0, 0, 0, 0}},
        {0x6B, {SECOND_ADD_A_R, 3, 0, 0, 0, 0}},
        {0x61, {SECOND_ADD_A_AT_R, 1, 0, 0, 0, 0}},
        {0x03, {SECOND_ADD_A_DATA, 0, 0, 0, 0xA5, 0}},
        {0xBF, {SECOND_MOV_R_DATA, 7, 0, 0, 0xA5, 0}},
        {0xB1, {SECOND_MOV_AT_R_DATA, 1, 0, 0, 0xA5, 0}},
        {0x81, {SECOND_MOVX_A_AT_R, 1, 0, 0, 0, 0}},
        {0x08, {SECOND_INS_A_BUS, 0, 0, 0, 0, 0}},
        {0x09, {SECOND_IN_A_P, 0, 1, 0, 0, 0}},
        {0x3A, {SECOND_OUTL_P_A, 0, 2, 0, 0, 0}},
        {0x99, {SECOND_ANL_P_DATA, 0, 1, 0, 0xA5, 0}},
        {0x98, {SECOND_ANL_BUS_DATA, 0, 0, 0, 0xA5, 0}},
        {0x0C, {SECOND_MOVD_A_P, 0, 4, 0, 0, 0}},
        {0x3F, {SECOND_MOVD_P_A, 0, 7, 0, 0, 0}},
        {0x8D, {SECOND_ORLD_P_A, 0, 5, 0, 0, 0}},
        {0x9E, {SECOND_ANLD_P_A, 0, 6, 0, 0, 0}},
        {0x12, {SECOND_JB, 0, 0, 0, 0, 0xA5}},
        {0xF2, {SECOND_JB, 0, 0, 7, 0, 0xA5}},
        {0xEC, {SECOND_DJNZ_R, 4, 0, 0, 0, 0xA5}},
        {0xC6, {SECOND_JZ, 0, 0, 0, 0, 0xA5}},
        {0x04, {SECOND_JMP, 0, 0, 0, 0, 0x0A5}},
        {0xE4, {SECOND_JMP, 0, 0, 0, 0, 0x7A5}},
        {0x74, {SECOND_CALL, 0, 0, 0, 0, 0x3A5}},
    };
    for (size_t k = 0; k < sizeof rows / sizeof *rows; k++) {
        /* In the upper bank, where a conditional jump still holds only 8 bits. */
        program[0xC00] = rows[k].code;
        program[0xC01] = 0xA5;
        r = second_read(SECOND_INTEL, program, 4096, 0xC00);
        check("reader: operation", rows[k].i.operation, r.instruction.operation);
        check("reader: register", rows[k].i.reg, r.instruction.reg);
        check("reader: port", rows[k].i.port, r.instruction.port);
        check("reader: bit", rows[k].i.bit, r.instruction.bit);
        check("reader: data", rows[k].i.data, r.instruction.data);
        check("reader: address", rows[k].i.address, r.instruction.address);
        check("reader: first byte", rows[k].code, r.bytes[0]);
        check("reader: second byte", r.length == 2 ? 0xA5 : 0, r.bytes[1]);
    }
}

/* What is read is written as it was. */
static void rewriter(uint32_t set, unsigned instructions)
{
    bool used[SECOND_OPERATIONS] = {false};
    unsigned operations = 0;

    for (unsigned code = 0; code < 256; code++) {
        for (unsigned operand = 0; operand < 256; operand++) {
            uint8_t bytes[2] = {(uint8_t)code, (uint8_t)operand};
            struct second_reading r = second_read(set, bytes, 2, 0);
            if (r.number != 0)
                continue;
            struct second_written w = second_write(set, &r.instruction);
            check("writer: number", 0, w.number);
            check("writer: length", r.length, w.length);
            check("writer: first byte", code, w.bytes[0]);
            check("writer: second byte", r.length == 2 ? operand : 0, w.bytes[1]);
            used[r.instruction.operation] = true;
        }
    }
    for (int i = 0; i < SECOND_OPERATIONS; i++)
        operations += used[i];
    check("writer: instructions", instructions, operations);
}

static void writer(void)
{
    static const struct {
        struct second_instruction i;
        bool fits;
    } rows[] = {
        {{SECOND_ADD_A_R, 7, 99, 99, 999, 9999}, true}, /* operands that it hasn't */
        {{SECOND_ADD_A_R, 8, 0, 0, 0, 0}, false},
        {{SECOND_INC_R, 0xFFFF, 0, 0, 0, 0}, false},
        {{SECOND_MOV_R_DATA, 7, 0, 0, 0xFF, 0}, true},
        {{SECOND_MOV_R_DATA, 8, 0, 0, 0xFF, 0}, false},
        {{SECOND_MOV_R_DATA, 7, 0, 0, 0x100, 0}, false},
        {{SECOND_ADD_A_AT_R, 1, 0, 0, 0, 0}, true},
        {{SECOND_ADD_A_AT_R, 2, 0, 0, 0, 0}, false},
        {{SECOND_MOV_AT_R_DATA, 2, 0, 0, 0, 0}, false},
        {{SECOND_MOV_AT_R_DATA, 1, 0, 0, 0x100, 0}, false},
        {{SECOND_XCHD_A_AT_R, 2, 0, 0, 0, 0}, false},
        {{SECOND_MOVX_A_AT_R, 2, 0, 0, 0, 0}, false},
        {{SECOND_MOVX_AT_R_A, 2, 0, 0, 0, 0}, false},
        {{SECOND_MOVX_AT_R_A, 1, 0, 0, 0, 0}, true},
        {{SECOND_IN_A_P, 0, 0, 0, 0, 0}, false},
        {{SECOND_IN_A_P, 0, 1, 0, 0, 0}, true},
        {{SECOND_IN_A_P, 0, 2, 0, 0, 0}, true},
        {{SECOND_IN_A_P, 0, 3, 0, 0, 0}, false},
        {{SECOND_OUTL_P_A, 0, 0, 0, 0, 0}, false},
        {{SECOND_OUTL_P_A, 0, 4, 0, 0, 0}, false},
        {{SECOND_ANL_P_DATA, 0, 0, 0, 0, 0}, false},
        {{SECOND_ANL_P_DATA, 0, 3, 0, 0, 0}, false},
        {{SECOND_ANL_P_DATA, 0, 1, 0, 0x100, 0}, false},
        {{SECOND_ORL_P_DATA, 0, 0, 0, 0, 0}, false},
        {{SECOND_ORL_P_DATA, 0, 3, 0, 0, 0}, false},
        {{SECOND_ORL_BUS_DATA, 0, 0, 0, 0xFF, 0}, true},
        {{SECOND_ORL_BUS_DATA, 0, 0, 0, 0x100, 0}, false},
        {{SECOND_MOVD_A_P, 0, 3, 0, 0, 0}, false},
        {{SECOND_MOVD_A_P, 0, 4, 0, 0, 0}, true},
        {{SECOND_MOVD_A_P, 0, 7, 0, 0, 0}, true},
        {{SECOND_MOVD_A_P, 0, 8, 0, 0, 0}, false},
        {{SECOND_MOVD_P_A, 0, 0, 0, 0, 0}, false},
        {{SECOND_ORLD_P_A, 0, 8, 0, 0, 0}, false},
        {{SECOND_ANLD_P_A, 0, 3, 0, 0, 0}, false},
        {{SECOND_JB, 0, 0, 7, 0, 0xFF}, true},
        {{SECOND_JB, 0, 0, 8, 0, 0xFF}, false},
        {{SECOND_JB, 0, 0, 7, 0, 0x100}, false},
        {{SECOND_DJNZ_R, 8, 0, 0, 0, 0}, false},
        {{SECOND_DJNZ_R, 7, 0, 0, 0, 0x100}, false},
        {{SECOND_JTF, 0, 0, 0, 0, 0x100}, false},
        {{SECOND_JMP, 0, 0, 0, 0, 0x7FF}, true},
        {{SECOND_JMP, 0, 0, 0, 0, 0x800}, false},
        {{SECOND_CALL, 0, 0, 0, 0, 0x7FF}, true},
        {{SECOND_CALL, 0, 0, 0, 0, 0x800}, false},
        {{SECOND_MOV_A_DATA, 0, 0, 0, 0x100, 0}, false},
    };
    for (size_t k = 0; k < sizeof rows / sizeof *rows; k++) {
        struct second_written w = second_write(SECOND_INTEL, &rows[k].i);
        check("writer: operand fits or 23", rows[k].fits ? 0 : 23, w.number);
        if (!rows[k].fits) {
            check("writer: 23 and no length", 0, w.length);
            check("writer: 23 and no first byte", 0, w.bytes[0]);
            check("writer: 23 and no second byte", 0, w.bytes[1]);
        }
    }
    struct second_instruction none = {(enum second_operation)SECOND_OPERATIONS, 0, 0, 0, 0, 0};
    check("writer: none of the 98 operations", 23, second_write(SECOND_INTEL, &none).number);
    check("writer: none of the 98 operations", 23, second_write(SECOND_NEC, &none).number);
    check("writer: 25 first", 25, second_write(2, &none).number);
    struct second_instruction call = {SECOND_CALL, 0, 0, 0, 0, 0x7A5};
    struct second_written w = second_write(SECOND_INTEL, &call);
    check("writer: CALL 7A5, first byte", 0xF4, w.bytes[0]);
    check("writer: CALL 7A5, second byte", 0xA5, w.bytes[1]);

    /* Operands that an operation doesn't have are not looked at. */
    static const struct second_instruction nec[] = {{SECOND_HALT, 8, 8, 8, 0x100, 0x800},
                                                    {SECOND_STOP, 8, 8, 8, 0x100, 0x800}};
    for (size_t k = 0; k < 2; k++) {
        w = second_write(SECOND_NEC, &nec[k]);
        check("writer: HALT and STOP for NEC: number", 0, w.number);
        check("writer: HALT and STOP for NEC: length", 1, w.length);
        check("writer: HALT and STOP for NEC: code", k == 0 ? 0x01 : 0x82, w.bytes[0]);
        check("writer: HALT and STOP for NEC: second byte", 0, w.bytes[1]);
        w = second_write(SECOND_INTEL, &nec[k]);
        check("writer: HALT and STOP for Intel: number", 4, w.number);
        check("writer: HALT and STOP for Intel: length", 0, w.length);
        check("writer: HALT and STOP for Intel: code", 0, w.bytes[0]);
    }
}

/* The text of each code at B10 with the second byte A5. */
/* clang-format off */
static const char *const spellings[256] = {
    /* 00 */
    "NOP", "DB 01H", "OUTL BUS,A", "ADD A,#0A5H",
    "JMP 0A5H", "EN I", "DB 06H", "DEC A",
    "INS A,BUS", "IN A,P1", "IN A,P2", "DB 0BH",
    "MOVD A,P4", "MOVD A,P5", "MOVD A,P6", "MOVD A,P7",
    /* 10 */
    "INC @R0", "INC @R1", "JB0 0BA5H", "ADDC A,#0A5H",
    "CALL 0A5H", "DIS I", "JTF 0BA5H", "INC A",
    "INC R0", "INC R1", "INC R2", "INC R3",
    "INC R4", "INC R5", "INC R6", "INC R7",
    /* 20 */
    "XCH A,@R0", "XCH A,@R1", "DB 22H", "MOV A,#0A5H",
    "JMP 1A5H", "EN TCNTI", "JNT0 0BA5H", "CLR A",
    "XCH A,R0", "XCH A,R1", "XCH A,R2", "XCH A,R3",
    "XCH A,R4", "XCH A,R5", "XCH A,R6", "XCH A,R7",
    /* 30 */
    "XCHD A,@R0", "XCHD A,@R1", "JB1 0BA5H", "DB 33H",
    "CALL 1A5H", "DIS TCNTI", "JT0 0BA5H", "CPL A",
    "DB 38H", "OUTL P1,A", "OUTL P2,A", "DB 3BH",
    "MOVD P4,A", "MOVD P5,A", "MOVD P6,A", "MOVD P7,A",
    /* 40 */
    "ORL A,@R0", "ORL A,@R1", "MOV A,T", "ORL A,#0A5H",
    "JMP 2A5H", "STRT CNT", "JNT1 0BA5H", "SWAP A",
    "ORL A,R0", "ORL A,R1", "ORL A,R2", "ORL A,R3",
    "ORL A,R4", "ORL A,R5", "ORL A,R6", "ORL A,R7",
    /* 50 */
    "ANL A,@R0", "ANL A,@R1", "JB2 0BA5H", "ANL A,#0A5H",
    "CALL 2A5H", "STRT T", "JT1 0BA5H", "DA A",
    "ANL A,R0", "ANL A,R1", "ANL A,R2", "ANL A,R3",
    "ANL A,R4", "ANL A,R5", "ANL A,R6", "ANL A,R7",
    /* 60 */
    "ADD A,@R0", "ADD A,@R1", "MOV T,A", "DB 63H",
    "JMP 3A5H", "STOP TCNT", "DB 66H", "RRC A",
    "ADD A,R0", "ADD A,R1", "ADD A,R2", "ADD A,R3",
    "ADD A,R4", "ADD A,R5", "ADD A,R6", "ADD A,R7",
    /* 70 */
    "ADDC A,@R0", "ADDC A,@R1", "JB3 0BA5H", "DB 73H",
    "CALL 3A5H", "ENT0 CLK", "JF1 0BA5H", "RR A",
    "ADDC A,R0", "ADDC A,R1", "ADDC A,R2", "ADDC A,R3",
    "ADDC A,R4", "ADDC A,R5", "ADDC A,R6", "ADDC A,R7",
    /* 80 */
    "MOVX A,@R0", "MOVX A,@R1", "DB 82H", "RET",
    "JMP 4A5H", "CLR F0", "JNI 0BA5H", "DB 87H",
    "ORL BUS,#0A5H", "ORL P1,#0A5H", "ORL P2,#0A5H", "DB 8BH",
    "ORLD P4,A", "ORLD P5,A", "ORLD P6,A", "ORLD P7,A",
    /* 90 */
    "MOVX @R0,A", "MOVX @R1,A", "JB4 0BA5H", "RETR",
    "CALL 4A5H", "CPL F0", "JNZ 0BA5H", "CLR C",
    "ANL BUS,#0A5H", "ANL P1,#0A5H", "ANL P2,#0A5H", "DB 9BH",
    "ANLD P4,A", "ANLD P5,A", "ANLD P6,A", "ANLD P7,A",
    /* A0 */
    "MOV @R0,A", "MOV @R1,A", "DB 0A2H", "MOVP A,@A",
    "JMP 5A5H", "CLR F1", "DB 0A6H", "CPL C",
    "MOV R0,A", "MOV R1,A", "MOV R2,A", "MOV R3,A",
    "MOV R4,A", "MOV R5,A", "MOV R6,A", "MOV R7,A",
    /* B0 */
    "MOV @R0,#0A5H", "MOV @R1,#0A5H", "JB5 0BA5H", "JMPP @A",
    "CALL 5A5H", "CPL F1", "JF0 0BA5H", "DB 0B7H",
    "MOV R0,#0A5H", "MOV R1,#0A5H", "MOV R2,#0A5H", "MOV R3,#0A5H",
    "MOV R4,#0A5H", "MOV R5,#0A5H", "MOV R6,#0A5H", "MOV R7,#0A5H",
    /* C0 */
    "DB 0C0H", "DB 0C1H", "DB 0C2H", "DB 0C3H",
    "JMP 6A5H", "SEL RB0", "JZ 0BA5H", "MOV A,PSW",
    "DEC R0", "DEC R1", "DEC R2", "DEC R3",
    "DEC R4", "DEC R5", "DEC R6", "DEC R7",
    /* D0 */
    "XRL A,@R0", "XRL A,@R1", "JB6 0BA5H", "XRL A,#0A5H",
    "CALL 6A5H", "SEL RB1", "DB 0D6H", "MOV PSW,A",
    "XRL A,R0", "XRL A,R1", "XRL A,R2", "XRL A,R3",
    "XRL A,R4", "XRL A,R5", "XRL A,R6", "XRL A,R7",
    /* E0 */
    "DB 0E0H", "DB 0E1H", "DB 0E2H", "MOVP3 A,@A",
    "JMP 7A5H", "SEL MB0", "JNC 0BA5H", "RL A",
    "DJNZ R0,0BA5H", "DJNZ R1,0BA5H", "DJNZ R2,0BA5H", "DJNZ R3,0BA5H",
    "DJNZ R4,0BA5H", "DJNZ R5,0BA5H", "DJNZ R6,0BA5H", "DJNZ R7,0BA5H",
    /* F0 */
    "MOV A,@R0", "MOV A,@R1", "JB7 0BA5H", "DB 0F3H",
    "CALL 7A5H", "SEL MB1", "JC 0BA5H", "RLC A",
    "MOV A,R0", "MOV A,R1", "MOV A,R2", "MOV A,R3",
    "MOV A,R4", "MOV A,R5", "MOV A,R6", "MOV A,R7",
};
/* clang-format on */

static void check_line_of(uint32_t set, const char *expected, const uint8_t *program,
                          size_t program_len, size_t address, size_t addresses)
{
    uint8_t line[40];
    uint8_t untouched[40];
    struct second_line listed;

    memset(line, 0xEE, sizeof line);
    memset(untouched, 0xEE, sizeof untouched);
    listed = second_line(set, program, program_len, address, line, SECOND_LINE_SIZE);
    check("line: number", 0, listed.number);
    check("line: addresses", addresses, listed.addresses);
    if (listed.written > SECOND_LINE_SIZE) {
        check("line: at most 32 bytes", SECOND_LINE_SIZE, listed.written);
        return;
    }
    check_text("line", expected, line, listed.written);
    check_bytes("line: nothing past the LF", untouched, line + listed.written,
                sizeof line - listed.written);
}

static void check_line(const char *expected, const uint8_t *program, size_t program_len,
                       size_t address, size_t addresses)
{
    check_line_of(SECOND_INTEL, expected, program, program_len, address, addresses);
}

static void check_line_refused(uint8_t number, uint32_t set, const uint8_t *program,
                               size_t program_len, size_t address, size_t line_len)
{
    uint8_t line[64];
    uint8_t untouched[64];
    struct second_line listed;

    memset(line, 0xEE, sizeof line);
    memset(untouched, 0xEE, sizeof untouched);
    listed = second_line(set, program, program_len, address, line, line_len);
    check("line refused: number", number, listed.number);
    check("line refused: written", 0, listed.written);
    check("line refused: addresses", 0, listed.addresses);
    check_bytes("line refused: buffer", untouched, line, sizeof line);
}

static void lines(void)
{
    static uint8_t program[4097];
    char expected[64];

    for (unsigned code = 0; code < 256; code++) {
        program[0xB10] = (uint8_t)code;
        program[0xB11] = 0xA5;
        if (is_two_bytes(code))
            snprintf(expected, sizeof expected, "B10  %02X A5  %s\n", code, spellings[code]);
        else
            snprintf(expected, sizeof expected, "B10  %02X     %s\n", code, spellings[code]);
        check_line(expected, program, 4096, 0xB10, is_two_bytes(code) ? 2 : 1);
        if (code != 0x01 && code != 0x82)
            check_line_of(SECOND_NEC, expected, program, 4096, 0xB10, is_two_bytes(code) ? 2 : 1);
    }
    program[0xB10] = 0x01;
    check_line_of(SECOND_NEC, "B10  01     HALT\n", program, 4096, 0xB10, 1);
    program[0xB10] = 0x82;
    check_line_of(SECOND_NEC, "B10  82     STOP\n", program, 4096, 0xB10, 1);
    program[0xFFF] = 0x01;
    check_line_of(SECOND_NEC, "FFF  01     HALT\n", program, 4096, 0xFFF, 1);

    program[0x010] = 0x03;
    program[0x011] = 0x9F;
    check_line("010  03 9F  ADD A,#9FH\n", program, 4096, 0x010, 2);
    program[0x011] = 0x00;
    check_line("010  03 00  ADD A,#00H\n", program, 4096, 0x010, 2);
    program[0x010] = 0xC6;
    program[0x011] = 0xFF;
    check_line("010  C6 FF  JZ 0FFH\n", program, 4096, 0x010, 2);
    program[0xFFD] = 0xE8;
    program[0xFFE] = 0xFF;
    check_line("FFD  E8 FF  DJNZ R0,0FFFH\n", program, 4096, 0xFFD, 2);
    program[0xFFD] = 0xE4;
    check_line("FFD  E4 FF  JMP 7FFH\n", program, 4096, 0xFFD, 2);

    /* DB: lacking its second byte, and at 7FF and FFF; a one-byte code there isn't. */
    program[0x7FF] = 0xE4;
    program[0xFFF] = 0xE4;
    check_line("7FF  E4     DB 0E4H\n", program, 4096, 0x7FF, 1);
    check_line("7FF  E4     DB 0E4H\n", program, 2048, 0x7FF, 1);
    check_line("FFF  E4     DB 0E4H\n", program, 4096, 0xFFF, 1);
    check_line("010  C6     DB 0C6H\n", program, 0x011, 0x010, 1);
    program[0x7FF] = 0x17;
    program[0xFFF] = 0xF7;
    check_line("7FF  17     INC A\n", program, 4096, 0x7FF, 1);
    check_line("FFF  F7     RLC A\n", program, 4096, 0xFFF, 1);

    /* A conditional jump shows the page of its second byte, wherever the program ends. */
    program[0x0FF] = 0xC6;
    program[0x100] = 0x01;
    check_line("0FF  C6 01  JZ 101H\n", program, 4096, 0x0FF, 2);
    check_line("0FF  C6 01  JZ 101H\n", program, 0x101, 0x0FF, 2);
    check_line("0FF  C6     DB 0C6H\n", program, 0x100, 0x0FF, 1);
    program[0x0FE] = 0xC6;
    check_line("0FE  C6 C6  JZ 0C6H\n", program, 4096, 0x0FE, 2);
    program[0x1FF] = 0xEB;
    program[0x200] = 0xFE;
    check_line("1FF  EB FE  DJNZ R3,2FEH\n", program, 4096, 0x1FF, 2);
    program[0x1FF] = 0x72;
    check_line("1FF  72 FE  JB3 2FEH\n", program, 4096, 0x1FF, 2);
    program[0x9FF] = 0xC6;
    program[0xA00] = 0x01;
    check_line("9FF  C6 01  JZ 0A01H\n", program, 4096, 0x9FF, 2);
    program[0x7FE] = 0xC6;
    program[0x7FF] = 0x96;
    program[0xFFE] = 0xC6;
    program[0xFFF] = 0x96;
    check_line("7FE  C6 96  JZ 796H\n", program, 4096, 0x7FE, 2);
    check_line("7FF  96     DB 96H\n", program, 4096, 0x7FF, 1);
    check_line("FFE  C6 96  JZ 0F96H\n", program, 4096, 0xFFE, 2);
    check_line("FFF  96     DB 96H\n", program, 4096, 0xFFF, 1);

    check_line_refused(25, 2, program, 4097, 5000, 31);
    check_line_refused(1, SECOND_NEC, program, 4097, 5000, 31);
    check_line_refused(1, SECOND_INTEL, program, 4097, 5000, 31);
    check_line_refused(7, SECOND_INTEL, program, 4096, 5000, 31);
    check_line_refused(7, SECOND_INTEL, program, 4096, 0, 0);
    check_line_refused(5, SECOND_INTEL, program, 4096, 4096, 32);
    check_line_refused(5, SECOND_INTEL, program, 4096, SIZE_MAX, 64);
    check_line_refused(5, SECOND_INTEL, NULL, 0, 0, 32);
    check_line_refused(25, UINT32_MAX, program, 4096, 0, 32);
}

static void listings(void)
{
    static const uint8_t sample[] = {0x55, 0x23, 0x0F, 0x24, 0x00, 0x66};
    static const char sample_text[] = "000  55     STRT T\n"
                                      "001  23 0F  MOV A,#0FH\n"
                                      "003  24 00  JMP 100H\n"
                                      "005  66     DB 66H\n";
    static uint8_t program[4097];
    static uint8_t text[4096 * SECOND_LINE_SIZE];
    size_t len = strlen(sample_text);

    static const uint8_t nec[] = {0x01, 0x82};
    check_text("the listing stays Intel", "000  01     DB 01H\n001  82     DB 82H\n", text,
               second_listing(nec, sizeof nec, text, sizeof text));

    check_text("listing of document 01", sample_text, text,
               second_listing(sample, sizeof sample, text, len));
    check("listing: text too small", 0, second_listing(sample, sizeof sample, text, len - 1));
    check("listing of nothing", 0, second_listing(NULL, 0, text, sizeof text));
    check_text("listing of 4,097", "refused 1\n", text, second_listing(program, 4097, text, 10));
    check("listing of 4,097: text too small", 0, second_listing(program, 4097, text, 9));

    /* A NOP puts the two-byte codes at odd addresses, so that one stands at 7FF and one at FFF. */
    static char expected[4096 * SECOND_LINE_SIZE];
    memset(program, 0x23, sizeof program);
    program[0x000] = 0x00;
    program[0x800] = 0x00;
    len = 0;
    for (unsigned address = 0; address < 4096;) {
        const char *rest = "23 23  MOV A,#23H";
        unsigned addresses = 2;
        if ((address & 0x7FF) == 0x000) {
            rest = "00     NOP";
            addresses = 1;
        } else if ((address & 0x7FF) == 0x7FF) {
            rest = "23     DB 23H";
            addresses = 1;
        }
        len += (size_t)snprintf(expected + len, sizeof expected - len, "%03X  %s\n", address, rest);
        address += addresses;
    }
    check_text("listing of 4,096", expected, text,
               second_listing(program, 4096, text, sizeof text));

    memset(program, 0x00, sizeof program);
    program[0x1FF] = 0xF6;
    program[0x200] = 0x10;
    len = 0;
    for (unsigned address = 0x000; address < 0x1FF; address++)
        len +=
            (size_t)snprintf(expected + len, sizeof expected - len, "%03X  00     NOP\n", address);
    snprintf(expected + len, sizeof expected - len, "1FF  F6 10  JC 210H\n");
    check_text("listing of 513 with a jump over a page's end", expected, text,
               second_listing(program, 513, text, sizeof text));
}

/* Random machines: a run is its steps, one by one, and no step leaves the sizes. */

static uint32_t random_state = 0x2545F491;

static uint32_t random_bits(void)
{
    random_state ^= random_state << 13;
    random_state ^= random_state >> 17;
    random_state ^= random_state << 5;
    return random_state;
}

static uint8_t random_byte(void)
{
    return (uint8_t)(random_bits() >> 11);
}

static uint8_t random_flag(void)
{
    return random_bits() >> 11 & 1;
}

static void random_codes(const struct bench *b, uint8_t *program, size_t len)
{
    for (size_t i = 0; i < len; i++) {
        program[i] = random_byte();
        if (is_undefined(b->set, program[i]) && random_bits() % 16 != 0)
            program[i] = 0x00;
        if (b->set == SECOND_NEC && random_bits() % 16 == 0)
            program[i] = random_flag() ? 0x01 : 0x82;
    }
}

static void random_bench(struct bench *b)
{
    fresh(b);
    b->set = random_flag() ? SECOND_NEC : SECOND_INTEL;
    b->program_len = (size_t)1024 << random_bits() % 3;
    b->ram_len = (size_t)64 << random_bits() % 3;
    b->outside_len = random_flag() ? 4096 : 0;
    random_codes(b, b->program, b->program_len);
    random_codes(b, b->outside, b->outside_len);
    for (size_t i = 0; i < sizeof b->ram; i++)
        b->ram[i] = random_byte();
    b->s = (struct second_state){
        .a = random_byte(),
        .pc = (uint16_t)(random_bits() % b->program_len),
        .psw = random_byte() | ONE,
        .f1 = random_flag(),
        .dbf = random_flag(),
        .t = random_byte() | 0xF0,
        .divider = random_byte() & 31,
        .counting = (uint8_t)(random_bits() % 3),
        .tf = random_flag(),
        .request = random_flag(),
        .external_enabled = random_flag(),
        .timer_enabled = random_flag(),
        .in_service = random_flag(),
        .last_t1 = random_flag(),
        .t0_clock = random_flag(),
        .p1 = random_byte(),
        .p2 = random_byte(),
        .bus = random_byte(),
        .bus_driven = random_flag(),
        .mode = b->set == SECOND_NEC ? random_byte() & 3 : SECOND_MODE_RUNS,
    };
}

static void random_runs(void)
{
    static struct bench b;
    static struct bench again;
    uint32_t samples[500];
    const size_t samples_len = sizeof samples / sizeof *samples;

    for (int round = 0; round < 400; round++) {
        random_bench(&b);
        again = b;
        for (size_t i = 0; i < samples_len; i++) {
            samples[i] = random_bits() & IDLE;
            if (random_bits() % 64 != 0)
                samples[i] |= SECOND_PIN_RESET;
            if (random_bits() % 8 != 0)
                samples[i] |= SECOND_PIN_INT;
            if (b.outside_len != 0 && random_flag())
                samples[i] |= SECOND_PIN_EA;
        }
        struct second_totals totals = run(&b, samples, samples_len);

        size_t used = 0;
        uint64_t cycles = 0;
        struct second_outcome outcome = {0};
        while (outcome.number == 0 && samples_len - used >= 2) {
            again.first = samples[used];
            again.second = samples[used + 1];
            again.want = again.s;
            memcpy(again.want_ram, again.ram, sizeof again.ram);
            outcome = just_step(&again);
            used += outcome.samples;
            cycles += outcome.cycles;
        }
        if (outcome.number != 0) {
            check("random: only 4 or 5", 1, outcome.number == 4 || outcome.number == 5);
            check_state("random: a refused step leaves the state", &again.want, &again.s);
            check_bytes("random: a refused step leaves RAM", again.want_ram, again.ram, 256);
        }
        check("random: run's number", outcome.number, totals.number);
        check("random: run's samples", used, totals.samples);
        check("random: run's cycles", (unsigned long)cycles, (unsigned long)totals.cycles);
        check_state("random: run's state", &again.s, &b.s);
        check_bytes("random: run's RAM", again.ram, b.ram, sizeof b.ram);
    }
}

int main(void)
{
    bench_cases();
    power_up();
    refusals();
    codes(SECOND_INTEL, 26, 164);
    codes(SECOND_NEC, 24, 166);
    resets();
    interrupts();
    entering();
    waiting();
    releasing();
    counting();
    jumps();
    tables();
    short_programs();
    second_program();
    stack();
    accumulator();
    memory();
    ports();
    runs();
    halted_runs();
    reader();
    rewriter(SECOND_INTEL, 96);
    rewriter(SECOND_NEC, 98);
    writer();
    lines();
    listings();
    random_runs();

    printf("%lu passed, %lu failed\n", passed, failed);
    return failed == 0 ? 0 : 1;
}
