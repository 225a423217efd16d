/*
 * Second emulator of the MCS-48: power-up, the step and the run.
 *
 * Written from document 01 (the scope), items 2, 3 and 7 of document 02 and our readings
 * of them alone, without a look at the Rattle sources.
 */
#include "second.h"
#include "second_codes.h"

#include <stdbool.h>

enum {
    PSW_C = 0x80,
    PSW_AC = 0x40,
    PSW_F0 = 0x20,
    PSW_BS = 0x10,
    PSW_ONE = 0x08, /* always 1 */
    PSW_SP = 0x07,
    PSW_SAVED = 0xF0 /* the bits that go onto the stack */
};

enum { STACK = 8, BANK_1 = 24 };

enum { VECTOR_EXTERNAL = 0x003, VECTOR_TIMER = 0x007 };

void second_power_up(struct second_state *state)
{
    *state = (struct second_state){.psw = PSW_ONE, .p1 = 0xFF, .p2 = 0xFF, .bus = 0xFF};
}

/* Pins. */

static bool pin_high(uint32_t sample, uint32_t pin)
{
    return (sample & pin) != 0;
}

static uint8_t pins(uint32_t sample, unsigned shift)
{
    return (uint8_t)(sample >> shift);
}

static void remember_t1(struct second_state *s, uint32_t sample)
{
    s->last_t1 = pin_high(sample, SECOND_PIN_T1);
}

/* Program memory. */

/* What a step can fetch from, and how much came from outside. */
struct memory {
    const uint8_t *inside;
    size_t inside_len;
    const uint8_t *outside;
    size_t outside_len;
    bool ea; /* of the step's first sample: "all bytes of a step go by" it (our reading) */
    uint8_t from_outside;
};

/*
 * "A fetch past the internal end, or any fetch with EA high, takes its byte there" (02,
 * item 7), at the same address. False if the memory that must answer lacks the byte.
 */
static bool fetch(struct memory *m, uint16_t address, uint8_t *byte)
{
    bool inside = !m->ea && address < m->inside_len;

    if (inside) {
        *byte = m->inside[address];
        return true;
    }
    if (address >= m->outside_len)
        return false;
    *byte = m->outside[address];
    m->from_outside++;
    return true;
}

/* Timer and counter. */

/* Counts one cycle; true if T went from FF to 00 in it. */
static bool count_cycle(struct second_state *s, uint32_t sample)
{
    bool up = false;

    if (s->counting == SECOND_TIMER) {
        s->divider = (s->divider + 1) & 31;
        up = s->divider == 0;
    } else if (s->counting == SECOND_COUNTER) {
        up = s->last_t1 && !pin_high(sample, SECOND_PIN_T1);
    }
    remember_t1(s, sample);
    if (!up)
        return false;
    s->t = (uint8_t)(s->t + 1);
    return s->t == 0;
}

/* What an overflow sets has no bearing on the next cycle's count, so it is set at the end. */
static void count_cycles(struct second_state *s, unsigned cycles, uint32_t first, uint32_t second)
{
    bool overflow = count_cycle(s, first);

    if (cycles == 2)
        overflow |= count_cycle(s, second);
    if (overflow) {
        s->tf = 1;
        if (s->timer_enabled)
            s->request = 1;
    }
}

/* Program counter, stack, registers and RAM. */

uint16_t second_next_pc(uint16_t pc)
{
    return (uint16_t)((pc & PC_BANK) | ((pc + 1) & PC_COUNTED));
}

static uint16_t in_page(uint16_t pc, uint8_t low)
{
    return (uint16_t)((pc & PC_PAGE) | low);
}

/* "A conditional jump stays in the page of its second byte" (02, item 3). */
uint16_t second_conditional_target(uint16_t at, uint8_t operand)
{
    return in_page(second_next_pc(at), operand);
}

/* "MOVP uses the page of the instruction that follows it" (02, item 3). */
static uint16_t movp_place(uint16_t at, uint8_t a)
{
    return in_page(second_next_pc(at), a);
}

/* JMPP "stays as 01 has it" (02, item 3): table byte and target in the page of its first byte. */
static uint16_t jmpp_place(uint16_t at, uint8_t low)
{
    return in_page(at, low);
}

/* "MOVP3 replaces bits 8-10 by 3 and leaves bit 11" (01). */
static uint16_t movp3_place(uint16_t at, uint8_t a)
{
    return (uint16_t)((at & PC_BANK) | 0x300 | a);
}

/* Where JMP and CALL go: 8 bits from the second byte, 3 from the first, the bank from DBF. */
static uint16_t long_target(const struct second_state *s, uint8_t code, uint8_t low)
{
    unsigned bank = s->dbf && !s->in_service ? PC_BANK : 0;

    return (uint16_t)(bank | (code & 0xE0u) << 3 | low);
}

static void set_sp(struct second_state *s, unsigned sp)
{
    s->psw = (uint8_t)((s->psw & (PSW_SAVED | PSW_ONE)) | (sp & PSW_SP));
}

static void push(struct second_state *s, uint8_t *ram, uint16_t pc)
{
    unsigned sp = s->psw & PSW_SP;

    ram[STACK + 2 * sp] = (uint8_t)pc;
    ram[STACK + 2 * sp + 1] = (uint8_t)(pc >> 8 | (s->psw & PSW_SAVED));
    set_sp(s, sp + 1);
}

/* The word pushed: PC in bits 0 to 11, PSW bits 4 to 7 above it. */
static uint16_t pop(struct second_state *s, const uint8_t *ram)
{
    unsigned sp = (s->psw - 1u) & PSW_SP;

    set_sp(s, sp);
    return (uint16_t)(ram[STACK + 2 * sp] | ram[STACK + 2 * sp + 1] << 8);
}

static uint8_t *bank_register(const struct second_state *s, uint8_t *ram, unsigned r)
{
    return &ram[(s->psw & PSW_BS ? BANK_1 : 0) + r];
}

/* Rr of a code that names one of R0 to R7. */
static uint8_t *reg(const struct second_state *s, uint8_t *ram, uint8_t code)
{
    return bank_register(s, ram, code & 7);
}

/* The cell @Rr of a code that names R0 or R1. The RAM sizes are powers of two. */
static uint8_t *cell(const struct second_state *s, uint8_t *ram, size_t ram_len, uint8_t code)
{
    return &ram[*bank_register(s, ram, code & 1) & (ram_len - 1)];
}

/* Accumulator and flags. */

static void set_psw(struct second_state *s, unsigned bit, bool on)
{
    s->psw = (uint8_t)(on ? s->psw | bit : s->psw & ~bit);
}

static bool carry(const struct second_state *s)
{
    return (s->psw & PSW_C) != 0;
}

static void add(struct second_state *s, uint8_t value, unsigned carry_in)
{
    unsigned sum = s->a + value + carry_in;
    unsigned low = (s->a & 0xFu) + (value & 0xFu) + carry_in;

    s->a = (uint8_t)sum;
    set_psw(s, PSW_C, sum > 0xFF);
    set_psw(s, PSW_AC, low > 0xF);
}

static void decimal_adjust(struct second_state *s)
{
    unsigned v = s->a;

    if ((v & 0xF) > 9 || (s->psw & PSW_AC))
        v += 6;
    if (v >= 0xA0 || carry(s)) {
        v += 0x60;
        set_psw(s, PSW_C, true);
    }
    s->a = (uint8_t)v;
}

static void exchange(uint8_t *x, uint8_t *y)
{
    uint8_t old = *x;

    *x = *y;
    *y = old;
}

static void exchange_digit(uint8_t *x, uint8_t *y)
{
    uint8_t old = *x;

    *x = (uint8_t)((*x & 0xF0) | (*y & 0x0F));
    *y = (uint8_t)((*y & 0xF0) | (old & 0x0F));
}

static void drive_bus(struct second_state *s, uint8_t latch)
{
    s->bus = latch;
    s->bus_driven = 1;
}

/* Events. */

static void tell(struct second_outcome *outcome, enum second_event_kind event, uint8_t address,
                 uint8_t data)
{
    outcome->event = (uint8_t)event;
    outcome->address = address;
    outcome->data = data;
}

/* MOVD, ORLD and ANLD: their codes hold ports 4 to 7 in the low three bits as they are. */
static void tell_expander(struct second_outcome *outcome, enum second_event_kind event,
                          uint8_t code, uint8_t a)
{
    tell(outcome, event, code & 7, a & 0xF);
}

/* What a step can be: each fills in cycles, samples and event of an outcome that is all 0. */

/* Each machine cycle uses one sample. */
static void spend(struct second_outcome *outcome, uint8_t cycles)
{
    outcome->cycles = cycles;
    outcome->samples = cycles;
}

/* A, C, AC, T, the divider, the BUS latch and RAM stay. */
static void reset(struct second_state *s, uint32_t first, struct second_outcome *outcome)
{
    s->pc = 0;
    s->psw &= PSW_C | PSW_AC | PSW_ONE;
    s->f1 = 0;
    s->dbf = 0;
    s->tf = 0;
    s->request = 0;
    s->external_enabled = 0;
    s->timer_enabled = 0;
    s->in_service = 0;
    s->t0_clock = 0;
    s->p1 = 0xFF;
    s->p2 = 0xFF;
    s->bus_driven = 0;
    s->counting = SECOND_STOPPED;
    s->mode = SECOND_MODE_RUNS;
    remember_t1(s, first);
    spend(outcome, 1);
}

/*
 * A halted or stopped machine: "one sample and no machine cycle, so nothing is counted and
 * T1 isn't remembered" (02, item 2).
 */
static void stand_by(struct second_state *s, uint32_t first, struct second_outcome *outcome)
{
    if (!pin_high(first, SECOND_PIN_INT))
        s->mode = SECOND_MODE_RELEASED;
    outcome->samples = 1;
}

static void interrupt(struct second_state *s, uint8_t *ram, uint16_t vector, uint32_t first,
                      uint32_t second, struct second_outcome *outcome)
{
    push(s, ram, s->pc);
    s->pc = vector;
    s->in_service = 1;
    count_cycles(s, 2, first, second);
    spend(outcome, 2);
}

/*
 * "HALT carried out with INT low in the first sample isn't entered; for STOP we choose the
 * same" (02, item 2).
 */
static uint8_t mode_entered(enum second_mode mode, uint32_t first)
{
    return (uint8_t)(pin_high(first, SECOND_PIN_INT) ? mode : SECOND_MODE_RUNS);
}

static enum second_number instruct(uint32_t set, struct memory *m, uint8_t *ram, size_t ram_len,
                                   struct second_state *s, uint32_t first, uint32_t second,
                                   struct second_outcome *outcome)
{
    uint16_t at = s->pc;
    uint16_t next = second_next_pc(at);
    uint8_t code = 0;
    uint8_t operand = 0; /* the second byte, or JMPP's from its table */
    bool counted = true;
    uint8_t mode = SECOND_MODE_RUNS; /* "released" ends with the instruction */

    /* Refusals come before any change, those of a table byte further down too. */
    if (!fetch(m, at, &code))
        return SECOND_PAST_END;
    const struct second_code *entry = &second_codes[code];
    if (!second_defined(set, entry))
        return SECOND_UNDEFINED_CODE;
    if (entry->length == 2) {
        if (!fetch(m, next, &operand))
            return SECOND_PAST_END;
        next = second_next_pc(next);
    }

    switch (entry->operation) {
    case SECOND_NOP:
        break;

    case SECOND_ADD_A_R:
        add(s, *reg(s, ram, code), 0);
        break;
    case SECOND_ADD_A_AT_R:
        add(s, *cell(s, ram, ram_len, code), 0);
        break;
    case SECOND_ADD_A_DATA:
        add(s, operand, 0);
        break;
    case SECOND_ADDC_A_R:
        add(s, *reg(s, ram, code), carry(s));
        break;
    case SECOND_ADDC_A_AT_R:
        add(s, *cell(s, ram, ram_len, code), carry(s));
        break;
    case SECOND_ADDC_A_DATA:
        add(s, operand, carry(s));
        break;
    case SECOND_ANL_A_R:
        s->a &= *reg(s, ram, code);
        break;
    case SECOND_ANL_A_AT_R:
        s->a &= *cell(s, ram, ram_len, code);
        break;
    case SECOND_ANL_A_DATA:
        s->a &= operand;
        break;
    case SECOND_ORL_A_R:
        s->a |= *reg(s, ram, code);
        break;
    case SECOND_ORL_A_AT_R:
        s->a |= *cell(s, ram, ram_len, code);
        break;
    case SECOND_ORL_A_DATA:
        s->a |= operand;
        break;
    case SECOND_XRL_A_R:
        s->a ^= *reg(s, ram, code);
        break;
    case SECOND_XRL_A_AT_R:
        s->a ^= *cell(s, ram, ram_len, code);
        break;
    case SECOND_XRL_A_DATA:
        s->a ^= operand;
        break;
    case SECOND_INC_A:
        s->a = (uint8_t)(s->a + 1);
        break;
    case SECOND_DEC_A:
        s->a = (uint8_t)(s->a - 1);
        break;
    case SECOND_CLR_A:
        s->a = 0;
        break;
    case SECOND_CPL_A:
        s->a = (uint8_t)~s->a;
        break;
    case SECOND_DA_A:
        decimal_adjust(s);
        break;
    case SECOND_SWAP_A:
        s->a = (uint8_t)(s->a << 4 | s->a >> 4);
        break;
    case SECOND_RL_A:
        s->a = (uint8_t)(s->a << 1 | s->a >> 7);
        break;
    case SECOND_RLC_A: {
        bool out = (s->a & 0x80) != 0;
        s->a = (uint8_t)(s->a << 1 | carry(s));
        set_psw(s, PSW_C, out);
        break;
    }
    case SECOND_RR_A:
        s->a = (uint8_t)(s->a >> 1 | s->a << 7);
        break;
    case SECOND_RRC_A: {
        bool out = (s->a & 0x01) != 0;
        s->a = (uint8_t)(s->a >> 1 | carry(s) << 7);
        set_psw(s, PSW_C, out);
        break;
    }

    case SECOND_IN_A_P:
        if ((code & 3) == 1)
            s->a = s->p1 & pins(second, SECOND_PIN_P1_SHIFT);
        else
            s->a = s->p2 & pins(second, SECOND_PIN_P2_SHIFT);
        break;
    case SECOND_OUTL_P_A:
        if ((code & 3) == 1)
            s->p1 = s->a;
        else
            s->p2 = s->a;
        break;
    case SECOND_ANL_P_DATA:
        if ((code & 3) == 1)
            s->p1 &= operand;
        else
            s->p2 &= operand;
        break;
    case SECOND_ORL_P_DATA:
        if ((code & 3) == 1)
            s->p1 |= operand;
        else
            s->p2 |= operand;
        break;
    case SECOND_INS_A_BUS:
        s->a = pins(second, SECOND_PIN_BUS_SHIFT);
        break;
    case SECOND_OUTL_BUS_A:
        drive_bus(s, s->a);
        break;
    case SECOND_ANL_BUS_DATA:
        drive_bus(s, s->bus & operand);
        break;
    case SECOND_ORL_BUS_DATA:
        drive_bus(s, s->bus | operand);
        break;
    case SECOND_MOVD_A_P:
        tell_expander(outcome, SECOND_MOVD_READ, code, s->a);
        s->a = pins(second, SECOND_PIN_P2_SHIFT) & 0xF;
        break;
    case SECOND_MOVD_P_A:
        tell_expander(outcome, SECOND_MOVD_WRITE, code, s->a);
        break;
    case SECOND_ORLD_P_A:
        tell_expander(outcome, SECOND_ORLD, code, s->a);
        break;
    case SECOND_ANLD_P_A:
        tell_expander(outcome, SECOND_ANLD, code, s->a);
        break;

    case SECOND_INC_R:
        ++*reg(s, ram, code);
        break;
    case SECOND_INC_AT_R:
        ++*cell(s, ram, ram_len, code);
        break;
    case SECOND_DEC_R:
        --*reg(s, ram, code);
        break;

    case SECOND_JMP:
        next = long_target(s, code, operand);
        break;
    case SECOND_JMPP_AT_A:
        if (!fetch(m, jmpp_place(at, s->a), &operand))
            return SECOND_PAST_END;
        next = jmpp_place(at, operand);
        break;
    case SECOND_DJNZ_R:
        if (--*reg(s, ram, code) != 0)
            next = second_conditional_target(at, operand);
        break;
    case SECOND_JB:
        if (s->a >> (code >> 5) & 1)
            next = second_conditional_target(at, operand);
        break;
    case SECOND_JC:
        if (carry(s))
            next = second_conditional_target(at, operand);
        break;
    case SECOND_JNC:
        if (!carry(s))
            next = second_conditional_target(at, operand);
        break;
    case SECOND_JZ:
        if (s->a == 0)
            next = second_conditional_target(at, operand);
        break;
    case SECOND_JNZ:
        if (s->a != 0)
            next = second_conditional_target(at, operand);
        break;
    case SECOND_JT0:
        if (pin_high(first, SECOND_PIN_T0))
            next = second_conditional_target(at, operand);
        break;
    case SECOND_JNT0:
        if (!pin_high(first, SECOND_PIN_T0))
            next = second_conditional_target(at, operand);
        break;
    case SECOND_JT1:
        if (pin_high(first, SECOND_PIN_T1))
            next = second_conditional_target(at, operand);
        break;
    case SECOND_JNT1:
        if (!pin_high(first, SECOND_PIN_T1))
            next = second_conditional_target(at, operand);
        break;
    case SECOND_JF0:
        if (s->psw & PSW_F0)
            next = second_conditional_target(at, operand);
        break;
    case SECOND_JF1:
        if (s->f1)
            next = second_conditional_target(at, operand);
        break;
    case SECOND_JTF:
        if (s->tf)
            next = second_conditional_target(at, operand);
        s->tf = 0;
        break;
    case SECOND_JNI:
        if (!pin_high(first, SECOND_PIN_INT))
            next = second_conditional_target(at, operand);
        break;

    case SECOND_CALL:
        push(s, ram, next);
        next = long_target(s, code, operand);
        break;
    case SECOND_RET:
        next = pop(s, ram) & 0xFFF;
        break;
    case SECOND_RETR: {
        uint16_t word = pop(s, ram);
        s->psw = (uint8_t)((word >> 8 & PSW_SAVED) | (s->psw & (PSW_ONE | PSW_SP)));
        s->in_service = 0;
        next = word & 0xFFF;
        break;
    }

    case SECOND_CLR_C:
        set_psw(s, PSW_C, false);
        break;
    case SECOND_CPL_C:
        s->psw ^= PSW_C;
        break;
    case SECOND_CLR_F0:
        set_psw(s, PSW_F0, false);
        break;
    case SECOND_CPL_F0:
        s->psw ^= PSW_F0;
        break;
    case SECOND_CLR_F1:
        s->f1 = 0;
        break;
    case SECOND_CPL_F1:
        s->f1 ^= 1;
        break;

    case SECOND_MOV_A_R:
        s->a = *reg(s, ram, code);
        break;
    case SECOND_MOV_A_AT_R:
        s->a = *cell(s, ram, ram_len, code);
        break;
    case SECOND_MOV_A_DATA:
        s->a = operand;
        break;
    case SECOND_MOV_R_A:
        *reg(s, ram, code) = s->a;
        break;
    case SECOND_MOV_AT_R_A:
        *cell(s, ram, ram_len, code) = s->a;
        break;
    case SECOND_MOV_R_DATA:
        *reg(s, ram, code) = operand;
        break;
    case SECOND_MOV_AT_R_DATA:
        *cell(s, ram, ram_len, code) = operand;
        break;
    case SECOND_MOV_A_PSW:
        s->a = s->psw;
        break;
    case SECOND_MOV_PSW_A:
        s->psw = s->a | PSW_ONE;
        break;
    case SECOND_XCH_A_R:
        exchange(&s->a, reg(s, ram, code));
        break;
    case SECOND_XCH_A_AT_R:
        exchange(&s->a, cell(s, ram, ram_len, code));
        break;
    case SECOND_XCHD_A_AT_R:
        exchange_digit(&s->a, cell(s, ram, ram_len, code));
        break;
    case SECOND_MOVX_A_AT_R:
        tell(outcome, SECOND_MOVX_READ, *bank_register(s, ram, code & 1), 0);
        s->a = pins(second, SECOND_PIN_BUS_SHIFT);
        break;
    case SECOND_MOVX_AT_R_A:
        tell(outcome, SECOND_MOVX_WRITE, *bank_register(s, ram, code & 1), s->a);
        break;
    case SECOND_MOVP_A_AT_A:
        if (!fetch(m, movp_place(at, s->a), &s->a))
            return SECOND_PAST_END;
        break;
    case SECOND_MOVP3_A_AT_A:
        if (!fetch(m, movp3_place(at, s->a), &s->a))
            return SECOND_PAST_END;
        break;

    case SECOND_MOV_A_T:
        s->a = s->t;
        break;
    case SECOND_MOV_T_A:
        s->t = s->a;
        break;
    case SECOND_STRT_T:
        s->counting = SECOND_TIMER;
        s->divider = 0;
        counted = false;
        break;
    case SECOND_STRT_CNT:
        s->counting = SECOND_COUNTER;
        counted = false;
        break;
    case SECOND_STOP_TCNT:
        s->counting = SECOND_STOPPED;
        break;
    case SECOND_EN_TCNTI:
        s->timer_enabled = 1;
        break;
    case SECOND_DIS_TCNTI:
        s->timer_enabled = 0;
        s->request = 0;
        break;

    case SECOND_EN_I:
        s->external_enabled = 1;
        break;
    case SECOND_DIS_I:
        s->external_enabled = 0;
        break;
    case SECOND_SEL_RB0:
        set_psw(s, PSW_BS, false);
        break;
    case SECOND_SEL_RB1:
        set_psw(s, PSW_BS, true);
        break;
    case SECOND_SEL_MB0:
        s->dbf = 0;
        break;
    case SECOND_SEL_MB1:
        s->dbf = 1;
        break;
    case SECOND_ENT0_CLK:
        s->t0_clock = 1;
        break;

    case SECOND_HALT:
        mode = mode_entered(SECOND_MODE_HALTED, first);
        break;
    case SECOND_STOP:
        mode = mode_entered(SECOND_MODE_STOPPED, first);
        break;
    }

    s->pc = next;
    s->mode = mode;
    if (counted)
        count_cycles(s, entry->cycles, first, second);
    else
        remember_t1(s, first);
    spend(outcome, entry->cycles);
    outcome->outside = m->from_outside;
    return SECOND_ACCEPTED;
}

/* A step with set, lengths and state known to be good. */
static enum second_number step(uint32_t set, struct memory m, uint8_t *ram, size_t ram_len,
                               struct second_state *s, uint32_t first, uint32_t second,
                               struct second_outcome *outcome)
{
    bool waits = s->mode == SECOND_MODE_HALTED || s->mode == SECOND_MODE_STOPPED;
    bool released = s->mode == SECOND_MODE_RELEASED;

    if ((first | second) & SECOND_PIN_NONE)
        return SECOND_SAMPLE_BITS;
    if (!pin_high(first, SECOND_PIN_RESET)) {
        reset(s, first, outcome);
        return SECOND_ACCEPTED;
    }
    if (waits) {
        stand_by(s, first, outcome);
        return SECOND_ACCEPTED;
    }
    /* "After a release by INT one instruction runs before an interrupt may be called." */
    if (!s->in_service && !released) {
        if (s->external_enabled && !pin_high(first, SECOND_PIN_INT)) {
            interrupt(s, ram, VECTOR_EXTERNAL, first, second, outcome);
            return SECOND_ACCEPTED;
        }
        if (s->timer_enabled && s->request) {
            s->request = 0;
            interrupt(s, ram, VECTOR_TIMER, first, second, outcome);
            return SECOND_ACCEPTED;
        }
    }
    m.ea = pin_high(first, SECOND_PIN_EA);
    return instruct(set, &m, ram, ram_len, s, first, second, outcome);
}

/* Checks that need no sample. A step keeps what they establish, so a run needs them once. */

static bool state_in_sizes(uint32_t set, const struct second_state *s)
{
    uint8_t last_mode = set == SECOND_NEC ? SECOND_MODE_RELEASED : SECOND_MODE_RUNS;

    return s->pc < PROGRAM_MAX && s->divider < 32 && s->counting <= SECOND_COUNTER &&
           (s->psw & PSW_ONE) && s->f1 <= 1 && s->dbf <= 1 && s->tf <= 1 && s->request <= 1 &&
           s->external_enabled <= 1 && s->timer_enabled <= 1 && s->in_service <= 1 &&
           s->last_t1 <= 1 && s->t0_clock <= 1 && s->bus_driven <= 1 && s->mode <= last_mode;
}

static enum second_number check(uint32_t set, size_t program_len, size_t outside_len,
                                size_t ram_len, const struct second_state *s)
{
    if (!second_set_known(set))
        return SECOND_SET_UNKNOWN;
    if (program_len != 1024 && program_len != 2048 && program_len != PROGRAM_MAX)
        return SECOND_PROGRAM_LENGTH;
    if (outside_len != 0 && outside_len != PROGRAM_MAX)
        return SECOND_PROGRAM_LENGTH;
    if (ram_len != 64 && ram_len != 128 && ram_len != 256)
        return SECOND_RAM_LENGTH;
    if (!state_in_sizes(set, s))
        return SECOND_STATE_SIZES;
    return SECOND_ACCEPTED;
}

struct second_outcome second_step(uint32_t set, const uint8_t *program, size_t program_len,
                                  const uint8_t *outside, size_t outside_len, uint8_t *ram,
                                  size_t ram_len, struct second_state *state, uint32_t first,
                                  uint32_t second)
{
    struct second_outcome outcome = {0};
    struct memory memory = {program, program_len, outside, outside_len, false, 0};
    enum second_number number = check(set, program_len, outside_len, ram_len, state);

    if (number == SECOND_ACCEPTED)
        number = step(set, memory, ram, ram_len, state, first, second, &outcome);
    outcome.number = (uint8_t)number;
    return outcome;
}

struct second_totals second_run(uint32_t set, const uint8_t *program, size_t program_len,
                                const uint8_t *outside, size_t outside_len, uint8_t *ram,
                                size_t ram_len, struct second_state *state, const uint32_t *samples,
                                size_t samples_len)
{
    struct memory memory = {program, program_len, outside, outside_len, false, 0};
    enum second_number number = check(set, program_len, outside_len, ram_len, state);
    size_t used = 0;
    uint64_t cycles = 0;

    while (number == SECOND_ACCEPTED && samples_len - used >= 2) {
        struct second_outcome outcome = {0};
        const uint32_t *pair = samples + used;

        number = step(set, memory, ram, ram_len, state, pair[0], pair[1], &outcome);
        used += outcome.samples;
        cycles += outcome.cycles;
    }
    return (struct second_totals){.number = (uint8_t)number, .samples = used, .cycles = cycles};
}
