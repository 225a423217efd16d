/*
 * The benchmark's ROM: a loop of all kinds of instructions, while the timer interrupts every 256
 * cycles.
 */
#include "rom.h"

#include "second.h"
#include "shared.h"

#include <string.h>

static const uint8_t at_000[] = {
    0x04, 0x10, /* JMP 010H */
    0x00,
    0x93, /* RETR */
    0x00, 0x00, 0x00,
    0xD5,       /* 007, the timer's vector: SEL RB1 */
    0xAF,       /* MOV R7,A */
    0x23, 0xF8, /* MOV A,#0F8H */
    0x62,       /* MOV T,A */
    0x1E,       /* INC R6 */
    0xFF,       /* MOV A,R7 */
    0x93,       /* RETR */
    0x00,
    0x23, 0xF8, /* 010: MOV A,#0F8H */
    0x62,       /* MOV T,A */
    0x25,       /* EN TCNTI */
    0x55,       /* STRT T */
    0xB8, 0x20, /* MOV R0,#20H */
    0xB9, 0x40, /* MOV R1,#40H */
    0xBD, 0x10, /* MOV R5,#10H */
    0xF0,       /* 01B: MOV A,@R0 */
    0x6A,       /* ADD A,R2 */
    0x13, 0x35, /* ADDC A,#35H */
    0x57,       /* DA A */
    0xA0,       /* MOV @R0,A */
    0x18,       /* INC R0 */
    0xF8,       /* MOV A,R0 */
    0x53, 0x3F, /* ANL A,#3FH */
    0x43, 0x20, /* ORL A,#20H */
    0xA8,       /* MOV R0,A */
    0x2B,       /* XCH A,R3 */
    0xDC,       /* XRL A,R4 */
    0xF7,       /* RLC A */
    0xAC,       /* MOV R4,A */
    0x31,       /* XCHD A,@R1 */
    0x47,       /* SWAP A */
    0x72, 0x32, /* JB3 032H */
    0x37,       /* CPL A */
    0x11,       /* INC @R1 */
    0x34, 0x00, /* 032: CALL 100H */
    0x09,       /* IN A,P1 */
    0x3A,       /* OUTL P2,A */
    0x99, 0xF0, /* ANL P1,#0F0H */
    0x89, 0x0F, /* ORL P1,#0FH */
    0xFA,       /* MOV A,R2 */
    0x53, 0x0F, /* ANL A,#0FH */
    0x03, 0x60, /* ADD A,#60H */
    0xA3,       /* MOVP A,@A */
    0xAA,       /* MOV R2,A */
    0xE6, 0x45, /* JNC 045H */
    0x97,       /* CLR C */
    0xA7,       /* CPL C */
    0xED, 0x1B, /* 045: DJNZ R5,01BH */
    0xBD, 0x10, /* MOV R5,#10H */
    0x24, 0x40, /* JMP 140H */
};

static const uint8_t at_060[] = {
    0x3B, 0x91, 0x07, 0xE4, 0x5C, 0x28, 0xF3, 0x60, 0x8D, 0x12, 0xBA, 0x4F, 0x76, 0xC9, 0x05, 0xAE,
};

static const uint8_t at_100[] = {
    0xBE, 0x03, /* MOV R6,#03H */
    0x77,       /* 102: RR A */
    0xCB,       /* DEC R3 */
    0xEE, 0x02, /* DJNZ R6,102H */
    0xC6, 0x09, /* JZ 109H */
    0x68,       /* ADD A,R0 */
    0x83,       /* 109: RET */
};

static const uint8_t at_140[] = {
    0x08,       /* INS A,BUS */
    0x02,       /* OUTL BUS,A */
    0x42,       /* MOV A,T */
    0x7B,       /* ADDC A,R3 */
    0x49,       /* ORL A,R1 */
    0x5C,       /* ANL A,R4 */
    0xC7,       /* MOV A,PSW */
    0xE7,       /* RL A */
    0x95,       /* CPL F0 */
    0xB6, 0x4C, /* JF0 14CH */
    0x17,       /* INC A */
    0x16, 0x4E, /* 14C: JTF 14EH */
    0x26, 0x51, /* 14E: JNT0 151H */
    0x07,       /* DEC A */
    0x80,       /* 151: MOVX A,@R0 */
    0x91,       /* MOVX @R1,A */
    0x04, 0x1B, /* JMP 01BH */
};

uint8_t program[PROGRAM];
uint32_t samples[SAMPLES];

void fill_program(void)
{
    memcpy(program + 0x000, at_000, sizeof at_000);
    memcpy(program + 0x060, at_060, sizeof at_060);
    memcpy(program + 0x100, at_100, sizeof at_100);
    memcpy(program + 0x140, at_140, sizeof at_140);
}

void fill_samples(void)
{
    for (size_t i = 0; i < SAMPLES; i++)
        samples[i] = (random_word() & SECOND_PIN_IDLE) | SECOND_PIN_RESET | SECOND_PIN_INT;
}
