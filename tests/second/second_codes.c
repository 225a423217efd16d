/*
 * Second emulator of the MCS-48: the table of the 256 first bytes.
 *
 * Written from document 01 (the scope), item 2 of document 02 and our readings of both
 * alone, without a look at the Rattle sources; the codes after data sheets 001 and 002,
 * those of HALT and STOP after 000. Where their cycles differ from document 01 (OUTL,
 * MOVD, ORLD), these are document 01's.
 */
#include "second_codes.h"

/* clang-format off */
#define ONE(name) {SECOND_##name, 1, 1, false}      /* one byte, one cycle */
#define ONE_SLOW(name) {SECOND_##name, 1, 2, false} /* one byte, two cycles */
#define TWO(name) {SECOND_##name, 2, 2, false}      /* two bytes, two cycles */
#define ONE_NEC(name) {SECOND_##name, 1, 1, true}   /* one byte, one cycle, undefined for Intel */
#define NONE {SECOND_NOP, 0, 0, false}              /* undefined */

#define X2(...) __VA_ARGS__, __VA_ARGS__
#define X4(...) X2(__VA_ARGS__), X2(__VA_ARGS__)
#define X8(...) X4(__VA_ARGS__), X4(__VA_ARGS__)

/* Laid out as the code table of data sheet 002, half a row to a group. */
const struct second_code second_codes[256] = {
    [0x00] = ONE(NOP), ONE_NEC(HALT), ONE_SLOW(OUTL_BUS_A), TWO(ADD_A_DATA),
             TWO(JMP), ONE(EN_I), NONE, ONE(DEC_A),
    [0x08] = ONE_SLOW(INS_A_BUS), X2(ONE_SLOW(IN_A_P)), NONE, X4(ONE_SLOW(MOVD_A_P)),
    [0x10] = X2(ONE(INC_AT_R)), TWO(JB), TWO(ADDC_A_DATA),
             TWO(CALL), ONE(DIS_I), TWO(JTF), ONE(INC_A),
    [0x18] = X8(ONE(INC_R)),
    [0x20] = X2(ONE(XCH_A_AT_R)), NONE, TWO(MOV_A_DATA),
             TWO(JMP), ONE(EN_TCNTI), TWO(JNT0), ONE(CLR_A),
    [0x28] = X8(ONE(XCH_A_R)),
    [0x30] = X2(ONE(XCHD_A_AT_R)), TWO(JB), NONE,
             TWO(CALL), ONE(DIS_TCNTI), TWO(JT0), ONE(CPL_A),
    [0x38] = NONE, X2(ONE_SLOW(OUTL_P_A)), NONE, X4(ONE_SLOW(MOVD_P_A)),
    [0x40] = X2(ONE(ORL_A_AT_R)), ONE(MOV_A_T), TWO(ORL_A_DATA),
             TWO(JMP), ONE(STRT_CNT), TWO(JNT1), ONE(SWAP_A),
    [0x48] = X8(ONE(ORL_A_R)),
    [0x50] = X2(ONE(ANL_A_AT_R)), TWO(JB), TWO(ANL_A_DATA),
             TWO(CALL), ONE(STRT_T), TWO(JT1), ONE(DA_A),
    [0x58] = X8(ONE(ANL_A_R)),
    [0x60] = X2(ONE(ADD_A_AT_R)), ONE(MOV_T_A), NONE,
             TWO(JMP), ONE(STOP_TCNT), NONE, ONE(RRC_A),
    [0x68] = X8(ONE(ADD_A_R)),
    [0x70] = X2(ONE(ADDC_A_AT_R)), TWO(JB), NONE,
             TWO(CALL), ONE(ENT0_CLK), TWO(JF1), ONE(RR_A),
    [0x78] = X8(ONE(ADDC_A_R)),
    [0x80] = X2(ONE_SLOW(MOVX_A_AT_R)), ONE_NEC(STOP), ONE_SLOW(RET),
             TWO(JMP), ONE(CLR_F0), TWO(JNI), NONE,
    [0x88] = TWO(ORL_BUS_DATA), X2(TWO(ORL_P_DATA)), NONE, X4(ONE_SLOW(ORLD_P_A)),
    [0x90] = X2(ONE_SLOW(MOVX_AT_R_A)), TWO(JB), ONE_SLOW(RETR),
             TWO(CALL), ONE(CPL_F0), TWO(JNZ), ONE(CLR_C),
    [0x98] = TWO(ANL_BUS_DATA), X2(TWO(ANL_P_DATA)), NONE, X4(ONE_SLOW(ANLD_P_A)),
    [0xA0] = X2(ONE(MOV_AT_R_A)), NONE, ONE_SLOW(MOVP_A_AT_A),
             TWO(JMP), ONE(CLR_F1), NONE, ONE(CPL_C),
    [0xA8] = X8(ONE(MOV_R_A)),
    [0xB0] = X2(TWO(MOV_AT_R_DATA)), TWO(JB), ONE_SLOW(JMPP_AT_A),
             TWO(CALL), ONE(CPL_F1), TWO(JF0), NONE,
    [0xB8] = X8(TWO(MOV_R_DATA)),
    [0xC0] = NONE, NONE, NONE, NONE,
             TWO(JMP), ONE(SEL_RB0), TWO(JZ), ONE(MOV_A_PSW),
    [0xC8] = X8(ONE(DEC_R)),
    [0xD0] = X2(ONE(XRL_A_AT_R)), TWO(JB), TWO(XRL_A_DATA),
             TWO(CALL), ONE(SEL_RB1), NONE, ONE(MOV_PSW_A),
    [0xD8] = X8(ONE(XRL_A_R)),
    [0xE0] = NONE, NONE, NONE, ONE_SLOW(MOVP3_A_AT_A),
             TWO(JMP), ONE(SEL_MB0), TWO(JNC), ONE(RL_A),
    [0xE8] = X8(TWO(DJNZ_R)),
    [0xF0] = X2(ONE(MOV_A_AT_R)), TWO(JB), NONE,
             TWO(CALL), ONE(SEL_MB1), TWO(JC), ONE(RLC_A),
    [0xF8] = X8(ONE(MOV_A_R)),
};
/* clang-format on */
