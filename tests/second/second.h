/*
 * Second emulator of the Intel MCS-48 (8048, 8049, 8050) and of NEC's uPD80C49H: the
 * second opinion that the proved one is compared with.
 *
 * Written from document 01 (the scope), items 2, 3 and 7 of document 02 and our readings
 * of them alone, without a look at the Rattle sources; codes and spellings after data
 * sheets 001 and 002, those of HALT and STOP after 000.
 *
 * No routine keeps anything between calls: what it works on is lent to it and nothing is
 * allocated. A pointer may be null only where the length that goes with it is 0.
 */
#ifndef SECOND_H
#define SECOND_H

#include <stddef.h>
#include <stdint.h>

/* The numbers of document 01, and our own for a set; 0 means accepted. */
enum second_number {
    SECOND_ACCEPTED = 0,
    SECOND_PROGRAM_LENGTH = 1,
    SECOND_RAM_LENGTH = 2,
    SECOND_STATE_SIZES = 3,
    SECOND_UNDEFINED_CODE = 4,
    SECOND_PAST_END = 5,
    SECOND_SAMPLE_BITS = 6,
    SECOND_LINE_BUFFER = 7,
    SECOND_OPERAND = 23,
    SECOND_SET_UNKNOWN = 25
};

/*
 * The set of instructions, which the caller names: Intel's 96, or with NEC's HALT and STOP
 * 98. Any other is number 25, given before all others.
 */
enum second_set { SECOND_INTEL = 0, SECOND_NEC = 1 };

/*
 * A pin sample: the levels in one machine cycle. Bits 29 to 31 are 0. EA is looked at in a
 * step's first sample only.
 */
#define SECOND_PIN_BUS_SHIFT 0
#define SECOND_PIN_P1_SHIFT 8
#define SECOND_PIN_P2_SHIFT 16
#define SECOND_PIN_INT (UINT32_C(1) << 24)
#define SECOND_PIN_T0 (UINT32_C(1) << 25)
#define SECOND_PIN_T1 (UINT32_C(1) << 26)
#define SECOND_PIN_RESET (UINT32_C(1) << 27)
#define SECOND_PIN_EA (UINT32_C(1) << 28)
#define SECOND_PIN_NONE (UINT32_C(7) << 29)
#define SECOND_PIN_IDLE UINT32_C(0x0FFFFFFF) /* all high but EA */

enum second_counting { SECOND_STOPPED, SECOND_TIMER, SECOND_COUNTER };

/* Whether it runs; "released" is just released by INT. */
enum second_mode {
    SECOND_MODE_RUNS,
    SECOND_MODE_HALTED,
    SECOND_MODE_STOPPED,
    SECOND_MODE_RELEASED
};

/*
 * The machine state. Flags are 0 or 1. A flag above 1, counting above 2, pc above 4095,
 * divider above 31, mode above 3, for Intel above 0, or PSW bit 3 clear is outside its
 * sizes (number 3).
 */
struct second_state {
    uint8_t a;
    uint16_t pc;
    uint8_t psw; /* 7 C, 6 AC, 5 F0, 4 BS, 3 always 1, 2 to 0 SP */
    uint8_t f1;
    uint8_t dbf;
    uint8_t t;
    uint8_t divider;
    uint8_t counting; /* enum second_counting */
    uint8_t tf;
    uint8_t request; /* stored timer request */
    uint8_t external_enabled;
    uint8_t timer_enabled;
    uint8_t in_service;
    uint8_t last_t1;
    uint8_t t0_clock;
    uint8_t p1; /* latches */
    uint8_t p2;
    uint8_t bus;
    uint8_t bus_driven;
    uint8_t mode; /* enum second_mode */
};

enum second_event_kind {
    SECOND_QUIET = 0,
    SECOND_MOVX_READ = 1,
    SECOND_MOVX_WRITE = 2,
    SECOND_MOVD_READ = 3,  /* MOVD A,Pp */
    SECOND_MOVD_WRITE = 4, /* MOVD Pp,A */
    SECOND_ORLD = 5,
    SECOND_ANLD = 6
};

/* What a step returns. Refused: the number, and 0 in all the rest. */
struct second_outcome {
    uint8_t number;
    uint8_t cycles;  /* machine cycles */
    uint8_t samples; /* used: 1 of a halted or stopped step, else as many as cycles */
    uint8_t event;   /* enum second_event_kind */
    uint8_t address; /* MOVX address, or port 4 to 7 */
    uint8_t data;    /* MOVX data written, or A's low digit before; else 0 */
    uint8_t outside; /* bytes that came from outside: 0 to 2 */
};

/* The state after power-up. RAM is as lent. */
void second_power_up(struct second_state *state);

/*
 * One step: a reset, the wait of a halted or stopped machine, an interrupt call or an
 * instruction. `first` and `second` are the samples of its first and second cycle; both
 * are looked at for number 6, even if the step uses one. Numbers 25, 1, 2, 3, 6, then 5,
 * 4, 5. Accepted, it changes state and RAM in place; refused, it touches nothing.
 *
 * `outside` is the second program, the external memory, of 4,096 bytes; with none its
 * length is 0. It answers a fetch past the end of `program`, and every fetch of a step
 * whose first sample has EA high.
 */
struct second_outcome second_step(uint32_t set, const uint8_t *program, size_t program_len,
                                  const uint8_t *outside, size_t outside_len, uint8_t *ram,
                                  size_t ram_len, struct second_state *state, uint32_t first,
                                  uint32_t second);

struct second_totals {
    uint8_t number; /* of the step refused, or 0 if the samples ran out */
    size_t samples; /* used */
    uint64_t cycles;
};

/*
 * Steps while two samples remain, or until a refusal; steps done before it stand. With
 * 0 or 1 sample it checks 25, 1, 2 and 3 and does nothing.
 */
struct second_totals second_run(uint32_t set, const uint8_t *program, size_t program_len,
                                const uint8_t *outside, size_t outside_len, uint8_t *ram,
                                size_t ram_len, struct second_state *state, const uint32_t *samples,
                                size_t samples_len);

/* The 96 instructions and NEC's two. R is a register, AT_R the cell it points at, P a port. */
enum second_operation {
    SECOND_NOP,
    /* accumulator */
    SECOND_ADD_A_R,
    SECOND_ADD_A_AT_R,
    SECOND_ADD_A_DATA,
    SECOND_ADDC_A_R,
    SECOND_ADDC_A_AT_R,
    SECOND_ADDC_A_DATA,
    SECOND_ANL_A_R,
    SECOND_ANL_A_AT_R,
    SECOND_ANL_A_DATA,
    SECOND_ORL_A_R,
    SECOND_ORL_A_AT_R,
    SECOND_ORL_A_DATA,
    SECOND_XRL_A_R,
    SECOND_XRL_A_AT_R,
    SECOND_XRL_A_DATA,
    SECOND_INC_A,
    SECOND_DEC_A,
    SECOND_CLR_A,
    SECOND_CPL_A,
    SECOND_DA_A,
    SECOND_SWAP_A,
    SECOND_RL_A,
    SECOND_RLC_A,
    SECOND_RR_A,
    SECOND_RRC_A,
    /* input and output; these P are 1 and 2, those of MOVD, ORLD and ANLD 4 to 7 */
    SECOND_IN_A_P,
    SECOND_OUTL_P_A,
    SECOND_ANL_P_DATA,
    SECOND_ORL_P_DATA,
    SECOND_INS_A_BUS,
    SECOND_OUTL_BUS_A,
    SECOND_ANL_BUS_DATA,
    SECOND_ORL_BUS_DATA,
    SECOND_MOVD_A_P,
    SECOND_MOVD_P_A,
    SECOND_ORLD_P_A,
    SECOND_ANLD_P_A,
    /* registers */
    SECOND_INC_R,
    SECOND_INC_AT_R,
    SECOND_DEC_R,
    /* branches */
    SECOND_JMP,
    SECOND_JMPP_AT_A,
    SECOND_DJNZ_R,
    SECOND_JB,
    SECOND_JC,
    SECOND_JNC,
    SECOND_JZ,
    SECOND_JNZ,
    SECOND_JT0,
    SECOND_JNT0,
    SECOND_JT1,
    SECOND_JNT1,
    SECOND_JF0,
    SECOND_JF1,
    SECOND_JTF,
    SECOND_JNI,
    /* subroutines */
    SECOND_CALL,
    SECOND_RET,
    SECOND_RETR,
    /* flags */
    SECOND_CLR_C,
    SECOND_CPL_C,
    SECOND_CLR_F0,
    SECOND_CPL_F0,
    SECOND_CLR_F1,
    SECOND_CPL_F1,
    /* moves */
    SECOND_MOV_A_R,
    SECOND_MOV_A_AT_R,
    SECOND_MOV_A_DATA,
    SECOND_MOV_R_A,
    SECOND_MOV_AT_R_A,
    SECOND_MOV_R_DATA,
    SECOND_MOV_AT_R_DATA,
    SECOND_MOV_A_PSW,
    SECOND_MOV_PSW_A,
    SECOND_XCH_A_R,
    SECOND_XCH_A_AT_R,
    SECOND_XCHD_A_AT_R,
    SECOND_MOVX_A_AT_R,
    SECOND_MOVX_AT_R_A,
    SECOND_MOVP_A_AT_A,
    SECOND_MOVP3_A_AT_A,
    /* timer and counter */
    SECOND_MOV_A_T,
    SECOND_MOV_T_A,
    SECOND_STRT_T,
    SECOND_STRT_CNT,
    SECOND_STOP_TCNT,
    SECOND_EN_TCNTI,
    SECOND_DIS_TCNTI,
    /* control */
    SECOND_EN_I,
    SECOND_DIS_I,
    SECOND_SEL_RB0,
    SECOND_SEL_RB1,
    SECOND_SEL_MB0,
    SECOND_SEL_MB1,
    SECOND_ENT0_CLK,
    /* NEC alone */
    SECOND_HALT,
    SECOND_STOP
};

enum { SECOND_OPERATIONS = SECOND_STOP + 1 };

/*
 * An instruction. The operands are wider than a code can hold, so that the writer has
 * something to refuse. Those that the operation doesn't have are 0 when read and not
 * looked at when written.
 */
struct second_instruction {
    enum second_operation operation;
    uint16_t reg;     /* 0 to 7; 0 or 1 for @R */
    uint16_t port;    /* 1 or 2; 4 to 7 for MOVD, ORLD and ANLD */
    uint16_t bit;     /* of JB, 0 to 7 */
    uint16_t data;    /* 00 to FF */
    uint16_t address; /* JMP and CALL 000 to 7FF; conditional jumps the low 8 bits */
};

/* What the reader returns. Refused: the number, and 0 in all the rest. */
struct second_reading {
    uint8_t number;
    uint8_t length;
    uint8_t bytes[2]; /* the second is 0 if not used */
    struct second_instruction instruction;
};

/*
 * The instruction at an address of a program of 0 to 4,096 bytes. A second byte is at
 * the next PC, which wraps as in a step. Numbers 25, 1, 5, 4, 5.
 */
struct second_reading second_read(uint32_t set, const uint8_t *program, size_t program_len,
                                  size_t address);

/* What the writer returns. Bytes not used are 0. */
struct second_written {
    uint8_t number;
    uint8_t length;
    uint8_t bytes[2];
};

/*
 * The code of an instruction. Refused with length 0: 25 first; 23 if one of its operands
 * doesn't fit, or if the operation is none of the 98; 4 for HALT and STOP under Intel.
 */
struct second_written second_write(uint32_t set, const struct second_instruction *instruction);

/* A line buffer must have at least this many bytes. */
enum { SECOND_LINE_SIZE = 32 };

struct second_line {
    uint8_t number;
    size_t written;   /* bytes, with the LF */
    size_t addresses; /* to the next line */
};

/*
 * One line of the listing, ended by LF, of a program of 0 to 4,096 bytes. Numbers 25, 1,
 * 7, 5. Refused, it leaves the buffer alone and returns the number and 0 in the rest;
 * accepted, it touches nothing past the LF.
 */
struct second_line second_line(uint32_t set, const uint8_t *program, size_t program_len,
                               size_t address, uint8_t *line, size_t line_len);

/*
 * The whole listing as the list program prints it, for Intel ("the listing program stays
 * Intel"), `refused 1` and LF for a program above 4,096 bytes. Returns the bytes written,
 * or 0 if text_len is too small; the text is then of no use. SECOND_LINE_SIZE bytes for
 * each of the program's, and never less than one SECOND_LINE_SIZE, are always enough.
 */
size_t second_listing(const uint8_t *program, size_t program_len, uint8_t *text, size_t text_len);

#endif
