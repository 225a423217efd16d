/*
 * The Intel 8048, 8049 and 8050 family and NEC's uPD80C49H, emulated: one step, a run over many, an instruction reader, and one line of a
 * listing.
 * Link libmcs48_c.a (x86-64 Linux). Every function is proved against its promise; the promises are the `ensures` clauses in
 * crates/mcs48_c/src/lib.rt, and this page says the same in words.
 *
 * WHAT A CALLER OWES. A pointer is valid for as many elements as the length beside it says (with a length of 0 it may point anywhere;
 * `outside` may then be null, the others are not), and buffers that are lent to one call do not overlap. Nothing else: each function
 * answers for every length and every content. Lengths are in elements, not bytes, and size_t has 64 bits.
 *
 * THREADS. There is no global state and no allocation. Calls may run at the same time as long as they write to different buffers.
 *
 * THE SET names whose instructions the program is written in. MCS48_INTEL: the 96 of the 8048, 8049 and 8050. MCS48_NEC: the same and HALT,
 * code 01, and STOP, code 82, of the uPD80C49H. Any other number is refused by 25, before all else.
 *
 * THE PROGRAM, the chip's internal memory: 1,024, 2,048 or 4,096 bytes for a step and a run; up to 4,096 for mcs48_read and
 * mcs48_list_line. It is only read.
 *
 * THE SECOND PROGRAM, `outside`, the memory outside the chip: 4,096 bytes, or none, which is the ordinary case: NULL and length 0. It is
 * only read. It answers every fetch past the program's end, and with the pin EA high every fetch, at the full 12-bit address in either
 * memory. So go an instruction's first byte, its second byte and the byte it takes from a table, all by EA in the step's first sample.
 * A part without internal memory, the 8035 or the 8039 (under MCS48_NEC the 80C39H or the 80C40H), has EA held high and all of its program
 * outside; a first program of an allowed length is lent all the same, and its bytes do not matter then.
 *
 * THE RAM: 64, 128 or 256 bytes, with any program. R0-R7 are bytes 0-7, or 24-31 in bank 1; the stack is bytes 8-23.
 *
 * A SAMPLE is the level of each input pin in one machine cycle, in 32 bits; 0x0FFFFFFF has every pin high but EA:
 *   bits 0-7 BUS   8-15 P1   16-23 P2   24 INT   25 T0   26 T1   27 RESET   28 EA   29-31 must be 0
 * RESET and INT act when low: a list of zeros is a list of resets. EA is looked at in a step's first sample, and is without effect in its
 * second.
 *
 * THE STATE is MCS48_STATE_BYTES bytes. A flag is 0 or 1. mcs48_power_up fills them.
 *   byte  0  A                                         byte 12  timer interrupt enabled (flag)
 *         1  PC bits 0-7                                    13  an interrupt is in service (flag)
 *         2  PC bits 8-11; PC is at most 4,095              14  level of T1 in the last cycle (flag)
 *         3  PSW: bit 7 C, 6 AC, 5 F0, 4 bank BS,           15  T0 gives out the clock (flag)
 *            3 always 1, 2-0 SP                             16  latch of P1
 *         4  F1 (flag)                                      17  latch of P2
 *         5  DBF, the memory bank bit (flag)                18  latch of BUS
 *         6  the counter T                                  19  BUS is driven by its latch (flag)
 *         7  the divider, 0 to 31                           20  runs 0, is halted 1, is stopped 2, was just
 *         8  T stands still 0, counts cycles                    released by INT 3; 0 under Intel
 *            divided by 32 1, counts falls of T1 2          21  0
 *         9  timer flag TF (flag)                           22  0
 *        10  stored timer request (flag)                    23  0
 *        11  external interrupt enabled (flag)
 * Bytes that break one of these rules are refused by 3, and so is another length.
 *
 * REFUSALS. A number is 0 for an accepted call, else the first of these that holds, in the order given with each function:
 *   MCS48_PROGRAM_LENGTH  the program's length, or then the second program's, is none of those above
 *   MCS48_RAM_LENGTH      the RAM's length is none of those above
 *   MCS48_STATE_OUTSIDE   the state's length or bytes break a rule above
 *   MCS48_UNDEFINED_CODE  the instruction's first byte is none of those that the set defines: 230 for Intel, 232 for NEC
 *   MCS48_PAST_END        the memory that must answer lacks its first byte, its second byte or the byte it takes from a table: with EA
 *                         low where it is past the program's end and there is no second program, with EA high where there is none
 *   MCS48_SAMPLE_BITS     one of bits 29-31 is set in either sample of the step
 *   MCS48_LINE_TOO_SHORT  the line's buffer has less than 32 bytes
 *   MCS48_SET_UNKNOWN     the set is neither MCS48_INTEL nor MCS48_NEC
 *
 * RESULTS are 64 bits, and small functions at the end of this page take them apart. Bits 0-7 are always the number.
 */
#ifndef MCS48_H
#define MCS48_H

#include <stddef.h>
#include <stdint.h>

#ifdef __cplusplus
extern "C" {
#endif

enum {
    MCS48_PROGRAM_LENGTH = 1,
    MCS48_RAM_LENGTH = 2,
    MCS48_STATE_OUTSIDE = 3,
    MCS48_UNDEFINED_CODE = 4,
    MCS48_PAST_END = 5,
    MCS48_SAMPLE_BITS = 6,
    MCS48_LINE_TOO_SHORT = 7,
    MCS48_SET_UNKNOWN = 25
};

enum { MCS48_INTEL = 0, MCS48_NEC = 1 };

/* Byte 20 of the state. */
enum { MCS48_RUNS = 0, MCS48_HALTED = 1, MCS48_STOPPED = 2, MCS48_RELEASED = 3 };

enum { MCS48_STATE_BYTES = 24, MCS48_LINE_BYTES = 32 };

/* The events of a step: what an instruction shows outside, besides the latches. */
enum {
    MCS48_NO_EVENT = 0,
    MCS48_MOVX_READ = 1,  /* MOVX A,@Rr: address; the data is taken from BUS in the second sample */
    MCS48_MOVX_WRITE = 2, /* MOVX @Rr,A: address and data */
    MCS48_MOVD_READ = 3,  /* MOVD A,Pp: port 4-7, and the low digit that A had before */
    MCS48_MOVD_WRITE = 4, /* MOVD Pp,A: port 4-7 and digit */
    MCS48_ORLD = 5,       /* ORLD Pp,A: port 4-7 and digit */
    MCS48_ANLD = 6        /* ANLD Pp,A: port 4-7 and digit */
};

/*
 * The state after power-up: latches FF, PSW 08, all else 0, off and standing still; it runs. RAM is whatever the caller has in it.
 * Where state_len is not 24, nothing is written.
 */
void mcs48_power_up(uint8_t *state, size_t state_len);

/*
 * One step: a reset, a wait of a halted or stopped machine, an interrupt call or one instruction, and then the counting of its machine
 * cycles. `first` and `second` are the samples of its first and second cycle; both are looked at, also by a step that uses one. The next
 * step then begins with the next sample: `second` again after a step that used one.
 *
 * A halted or stopped machine uses one sample in a step and no machine cycle: nothing is counted, and T1 is not remembered. RESET low is a
 * reset, after which it runs. INT low releases it: from the next step on it runs, and one instruction is carried out before an interrupt
 * may be called. HALT or STOP carried out with INT low in the first sample leaves the machine running.
 *
 * Returns
 *   bits  0-7   the number; order 25, 1 for the program and for the second, 2, 3, 6, then 5 for the first byte, 4, and 5 for the second or
 *               table byte; beside a number other than 0 all else is 0
 *         8-15  machine cycles, 1 or 2 (0 if refused, and for a wait)
 *        16-23  the event (MCS48_NO_EVENT ..)
 *        24-31  the event's address or port, 0 where there is none
 *        32-39  the event's data or digit, 0 where there is none
 *        40-47  how many of the instruction's bytes came from outside, 0 to 2, a table's byte among them; 0 for a reset, a wait and a call
 *        48-55  the samples used: 1 for a wait, else the machine cycles
 *        56-63  0
 * An accepted step leaves the new state in `state` and what it stored in `ram`. A refused one leaves both as they were.
 */
uint64_t mcs48_step(uint32_t set, const uint8_t *program, size_t program_len, const uint8_t *outside, size_t outside_len, uint8_t *ram,
                    size_t ram_len, uint8_t *state, size_t state_len, uint32_t first, uint32_t second);

/*
 * Steps while two samples remain, or until a refusal. samples[0] is the first step's; a step of n machine cycles uses n samples, a wait one,
 * and each is given the sample after its first even if it uses one. EA may change from step to step.
 *
 * Returns the number that ended the run, 0 if the samples ran out. 25, 1, 2 and 3 are given before the first step, also with 0 or 1 sample;
 * then nothing is done. Any other number is that of the step that was refused: the steps before it stand, in `state`, in `ram` and in the
 * totals.
 *
 * Where totals_len is 2 or more, totals[0] is the samples used and totals[1] the machine cycles spent, 0 and 0 if nothing was done; a
 * third element and those after it stay. Where it is less, `totals` is not written. Samples and machine cycles differ by the waits.
 */
uint64_t mcs48_run(uint32_t set, const uint8_t *program, size_t program_len, const uint8_t *outside, size_t outside_len, uint8_t *ram,
                   size_t ram_len, uint8_t *state, size_t state_len, const uint32_t *samples, size_t samples_len, uint64_t *totals,
                   size_t totals_len);

/*
 * The instruction at an address: its length and its bytes, which are those that the instruction writer gives for it. A second byte is taken
 * from the next PC: the low 11 bits of the address count and wrap, bit 11 stays, as in a step.
 *
 * Returns
 *   bits  0-7   the number; order 25, 1 (more than 4,096 bytes), 5 for the first byte, 4, 5 for the second
 *         8-15  the instruction's length, 1 or 2
 *        16-23  its first byte
 *        24-31  its second byte, 0 if it has none
 *        32-63  0
 * Beside a number other than 0 all else is 0.
 */
uint64_t mcs48_read(uint32_t set, const uint8_t *program, size_t program_len, size_t address);

/*
 * The line of a listing at an address, as ASCII with LF at its end and no 0 after it. No line is longer than MCS48_LINE_BYTES. An undefined
 * code is shown as DB, and so is a two-byte code that lacks its second byte or stands at 7FF or FFF.
 *
 * Returns
 *   bits  0-7   the number; order 25, 1 (more than 4,096 bytes), 7, 5 for the first byte
 *         8-23  the bytes written to `line`, its LF among them
 *        24-39  how many addresses on the next line is: 1 or 2
 *        40-63  0
 * Beside a number other than 0 all else is 0, and `line` stays as it was. What lies past the LF always does.
 */
uint64_t mcs48_list_line(uint32_t set, const uint8_t *program, size_t program_len, size_t address, uint8_t *line, size_t line_len);

/* A result taken apart. Of any function: */
static inline uint32_t mcs48_number(uint64_t result) { return (uint32_t)(result & 0xFF); }

/* Of mcs48_step: */
static inline uint32_t mcs48_cycles(uint64_t result) { return (uint32_t)(result >> 8 & 0xFF); }
static inline uint32_t mcs48_event(uint64_t result) { return (uint32_t)(result >> 16 & 0xFF); }
static inline uint32_t mcs48_event_address(uint64_t result) { return (uint32_t)(result >> 24 & 0xFF); } /* or the port */
static inline uint32_t mcs48_event_data(uint64_t result) { return (uint32_t)(result >> 32 & 0xFF); }    /* or the digit */
static inline uint32_t mcs48_outside(uint64_t result) { return (uint32_t)(result >> 40 & 0xFF); }       /* bytes from outside */
static inline uint32_t mcs48_samples(uint64_t result) { return (uint32_t)(result >> 48 & 0xFF); }

/* Of mcs48_read: */
static inline uint32_t mcs48_read_length(uint64_t result) { return (uint32_t)(result >> 8 & 0xFF); }
static inline uint32_t mcs48_first_byte(uint64_t result) { return (uint32_t)(result >> 16 & 0xFF); }
static inline uint32_t mcs48_second_byte(uint64_t result) { return (uint32_t)(result >> 24 & 0xFF); }

/* Of mcs48_list_line: the bytes written, and how many addresses on the next line is. */
static inline uint32_t mcs48_line_length(uint64_t result) { return (uint32_t)(result >> 8 & 0xFFFF); }
static inline uint32_t mcs48_line_size(uint64_t result) { return (uint32_t)(result >> 24 & 0xFFFF); }

#ifdef __cplusplus
}
#endif

#endif
