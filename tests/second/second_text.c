/*
 * Second emulator of the MCS-48: the instruction reader, the instruction writer and the
 * listing.
 *
 * Written from document 01 (the scope), items 2 and 3 of document 02 and our readings of
 * them alone, without a look at the Rattle sources; codes and spellings after data sheets
 * 001 and 002, those of HALT and STOP after 000.
 */
#include "second.h"
#include "second_codes.h"

#include <stdbool.h>
#include <string.h>

/* The operand that a first byte holds; the text shows it as one digit, where the * is. */
enum operand {
    NO_OPERAND,
    REGISTER, /* bits 0 to 2 */
    INDIRECT, /* bit 0 */
    PORT,     /* 1 or 2, in bits 0 and 1 */
    EXPANDER, /* 4 to 7, less 4 in bits 0 and 1 */
    BIT       /* bits 5 to 7 */
};

/* What the second byte is; the text ends with it. */
enum tail {
    NO_TAIL,
    DATA,
    PAGE_ADDRESS, /* low 8 bits, in the page of this byte */
    LONG_ADDRESS  /* low 8 bits of 11, the others in bits 5 to 7 of the first byte */
};

struct form {
    const char *text;
    uint8_t code; /* with all operand bits 0 */
    enum operand operand;
    enum tail tail;
};

static const struct form forms[SECOND_OPERATIONS] = {
    [SECOND_NOP] = {"NOP", 0x00, NO_OPERAND, NO_TAIL},

    [SECOND_ADD_A_R] = {"ADD A,R*", 0x68, REGISTER, NO_TAIL},
    [SECOND_ADD_A_AT_R] = {"ADD A,@R*", 0x60, INDIRECT, NO_TAIL},
    [SECOND_ADD_A_DATA] = {"ADD A,#", 0x03, NO_OPERAND, DATA},
    [SECOND_ADDC_A_R] = {"ADDC A,R*", 0x78, REGISTER, NO_TAIL},
    [SECOND_ADDC_A_AT_R] = {"ADDC A,@R*", 0x70, INDIRECT, NO_TAIL},
    [SECOND_ADDC_A_DATA] = {"ADDC A,#", 0x13, NO_OPERAND, DATA},
    [SECOND_ANL_A_R] = {"ANL A,R*", 0x58, REGISTER, NO_TAIL},
    [SECOND_ANL_A_AT_R] = {"ANL A,@R*", 0x50, INDIRECT, NO_TAIL},
    [SECOND_ANL_A_DATA] = {"ANL A,#", 0x53, NO_OPERAND, DATA},
    [SECOND_ORL_A_R] = {"ORL A,R*", 0x48, REGISTER, NO_TAIL},
    [SECOND_ORL_A_AT_R] = {"ORL A,@R*", 0x40, INDIRECT, NO_TAIL},
    [SECOND_ORL_A_DATA] = {"ORL A,#", 0x43, NO_OPERAND, DATA},
    [SECOND_XRL_A_R] = {"XRL A,R*", 0xD8, REGISTER, NO_TAIL},
    [SECOND_XRL_A_AT_R] = {"XRL A,@R*", 0xD0, INDIRECT, NO_TAIL},
    [SECOND_XRL_A_DATA] = {"XRL A,#", 0xD3, NO_OPERAND, DATA},
    [SECOND_INC_A] = {"INC A", 0x17, NO_OPERAND, NO_TAIL},
    [SECOND_DEC_A] = {"DEC A", 0x07, NO_OPERAND, NO_TAIL},
    [SECOND_CLR_A] = {"CLR A", 0x27, NO_OPERAND, NO_TAIL},
    [SECOND_CPL_A] = {"CPL A", 0x37, NO_OPERAND, NO_TAIL},
    [SECOND_DA_A] = {"DA A", 0x57, NO_OPERAND, NO_TAIL},
    [SECOND_SWAP_A] = {"SWAP A", 0x47, NO_OPERAND, NO_TAIL},
    [SECOND_RL_A] = {"RL A", 0xE7, NO_OPERAND, NO_TAIL},
    [SECOND_RLC_A] = {"RLC A", 0xF7, NO_OPERAND, NO_TAIL},
    [SECOND_RR_A] = {"RR A", 0x77, NO_OPERAND, NO_TAIL},
    [SECOND_RRC_A] = {"RRC A", 0x67, NO_OPERAND, NO_TAIL},

    [SECOND_IN_A_P] = {"IN A,P*", 0x08, PORT, NO_TAIL},
    [SECOND_OUTL_P_A] = {"OUTL P*,A", 0x38, PORT, NO_TAIL},
    [SECOND_ANL_P_DATA] = {"ANL P*,#", 0x98, PORT, DATA},
    [SECOND_ORL_P_DATA] = {"ORL P*,#", 0x88, PORT, DATA},
    [SECOND_INS_A_BUS] = {"INS A,BUS", 0x08, NO_OPERAND, NO_TAIL},
    [SECOND_OUTL_BUS_A] = {"OUTL BUS,A", 0x02, NO_OPERAND, NO_TAIL},
    [SECOND_ANL_BUS_DATA] = {"ANL BUS,#", 0x98, NO_OPERAND, DATA},
    [SECOND_ORL_BUS_DATA] = {"ORL BUS,#", 0x88, NO_OPERAND, DATA},
    [SECOND_MOVD_A_P] = {"MOVD A,P*", 0x0C, EXPANDER, NO_TAIL},
    [SECOND_MOVD_P_A] = {"MOVD P*,A", 0x3C, EXPANDER, NO_TAIL},
    [SECOND_ORLD_P_A] = {"ORLD P*,A", 0x8C, EXPANDER, NO_TAIL},
    [SECOND_ANLD_P_A] = {"ANLD P*,A", 0x9C, EXPANDER, NO_TAIL},

    [SECOND_INC_R] = {"INC R*", 0x18, REGISTER, NO_TAIL},
    [SECOND_INC_AT_R] = {"INC @R*", 0x10, INDIRECT, NO_TAIL},
    [SECOND_DEC_R] = {"DEC R*", 0xC8, REGISTER, NO_TAIL},

    [SECOND_JMP] = {"JMP ", 0x04, NO_OPERAND, LONG_ADDRESS},
    [SECOND_JMPP_AT_A] = {"JMPP @A", 0xB3, NO_OPERAND, NO_TAIL},
    [SECOND_DJNZ_R] = {"DJNZ R*,", 0xE8, REGISTER, PAGE_ADDRESS},
    [SECOND_JB] = {"JB* ", 0x12, BIT, PAGE_ADDRESS},
    [SECOND_JC] = {"JC ", 0xF6, NO_OPERAND, PAGE_ADDRESS},
    [SECOND_JNC] = {"JNC ", 0xE6, NO_OPERAND, PAGE_ADDRESS},
    [SECOND_JZ] = {"JZ ", 0xC6, NO_OPERAND, PAGE_ADDRESS},
    [SECOND_JNZ] = {"JNZ ", 0x96, NO_OPERAND, PAGE_ADDRESS},
    [SECOND_JT0] = {"JT0 ", 0x36, NO_OPERAND, PAGE_ADDRESS},
    [SECOND_JNT0] = {"JNT0 ", 0x26, NO_OPERAND, PAGE_ADDRESS},
    [SECOND_JT1] = {"JT1 ", 0x56, NO_OPERAND, PAGE_ADDRESS},
    [SECOND_JNT1] = {"JNT1 ", 0x46, NO_OPERAND, PAGE_ADDRESS},
    [SECOND_JF0] = {"JF0 ", 0xB6, NO_OPERAND, PAGE_ADDRESS},
    [SECOND_JF1] = {"JF1 ", 0x76, NO_OPERAND, PAGE_ADDRESS},
    [SECOND_JTF] = {"JTF ", 0x16, NO_OPERAND, PAGE_ADDRESS},
    [SECOND_JNI] = {"JNI ", 0x86, NO_OPERAND, PAGE_ADDRESS},

    [SECOND_CALL] = {"CALL ", 0x14, NO_OPERAND, LONG_ADDRESS},
    [SECOND_RET] = {"RET", 0x83, NO_OPERAND, NO_TAIL},
    [SECOND_RETR] = {"RETR", 0x93, NO_OPERAND, NO_TAIL},

    [SECOND_CLR_C] = {"CLR C", 0x97, NO_OPERAND, NO_TAIL},
    [SECOND_CPL_C] = {"CPL C", 0xA7, NO_OPERAND, NO_TAIL},
    [SECOND_CLR_F0] = {"CLR F0", 0x85, NO_OPERAND, NO_TAIL},
    [SECOND_CPL_F0] = {"CPL F0", 0x95, NO_OPERAND, NO_TAIL},
    [SECOND_CLR_F1] = {"CLR F1", 0xA5, NO_OPERAND, NO_TAIL},
    [SECOND_CPL_F1] = {"CPL F1", 0xB5, NO_OPERAND, NO_TAIL},

    [SECOND_MOV_A_R] = {"MOV A,R*", 0xF8, REGISTER, NO_TAIL},
    [SECOND_MOV_A_AT_R] = {"MOV A,@R*", 0xF0, INDIRECT, NO_TAIL},
    [SECOND_MOV_A_DATA] = {"MOV A,#", 0x23, NO_OPERAND, DATA},
    [SECOND_MOV_R_A] = {"MOV R*,A", 0xA8, REGISTER, NO_TAIL},
    [SECOND_MOV_AT_R_A] = {"MOV @R*,A", 0xA0, INDIRECT, NO_TAIL},
    [SECOND_MOV_R_DATA] = {"MOV R*,#", 0xB8, REGISTER, DATA},
    [SECOND_MOV_AT_R_DATA] = {"MOV @R*,#", 0xB0, INDIRECT, DATA},
    [SECOND_MOV_A_PSW] = {"MOV A,PSW", 0xC7, NO_OPERAND, NO_TAIL},
    [SECOND_MOV_PSW_A] = {"MOV PSW,A", 0xD7, NO_OPERAND, NO_TAIL},
    [SECOND_XCH_A_R] = {"XCH A,R*", 0x28, REGISTER, NO_TAIL},
    [SECOND_XCH_A_AT_R] = {"XCH A,@R*", 0x20, INDIRECT, NO_TAIL},
    [SECOND_XCHD_A_AT_R] = {"XCHD A,@R*", 0x30, INDIRECT, NO_TAIL},
    [SECOND_MOVX_A_AT_R] = {"MOVX A,@R*", 0x80, INDIRECT, NO_TAIL},
    [SECOND_MOVX_AT_R_A] = {"MOVX @R*,A", 0x90, INDIRECT, NO_TAIL},
    [SECOND_MOVP_A_AT_A] = {"MOVP A,@A", 0xA3, NO_OPERAND, NO_TAIL},
    [SECOND_MOVP3_A_AT_A] = {"MOVP3 A,@A", 0xE3, NO_OPERAND, NO_TAIL},

    [SECOND_MOV_A_T] = {"MOV A,T", 0x42, NO_OPERAND, NO_TAIL},
    [SECOND_MOV_T_A] = {"MOV T,A", 0x62, NO_OPERAND, NO_TAIL},
    [SECOND_STRT_T] = {"STRT T", 0x55, NO_OPERAND, NO_TAIL},
    [SECOND_STRT_CNT] = {"STRT CNT", 0x45, NO_OPERAND, NO_TAIL},
    [SECOND_STOP_TCNT] = {"STOP TCNT", 0x65, NO_OPERAND, NO_TAIL},
    [SECOND_EN_TCNTI] = {"EN TCNTI", 0x25, NO_OPERAND, NO_TAIL},
    [SECOND_DIS_TCNTI] = {"DIS TCNTI", 0x35, NO_OPERAND, NO_TAIL},

    [SECOND_EN_I] = {"EN I", 0x05, NO_OPERAND, NO_TAIL},
    [SECOND_DIS_I] = {"DIS I", 0x15, NO_OPERAND, NO_TAIL},
    [SECOND_SEL_RB0] = {"SEL RB0", 0xC5, NO_OPERAND, NO_TAIL},
    [SECOND_SEL_RB1] = {"SEL RB1", 0xD5, NO_OPERAND, NO_TAIL},
    [SECOND_SEL_MB0] = {"SEL MB0", 0xE5, NO_OPERAND, NO_TAIL},
    [SECOND_SEL_MB1] = {"SEL MB1", 0xF5, NO_OPERAND, NO_TAIL},
    [SECOND_ENT0_CLK] = {"ENT0 CLK", 0x75, NO_OPERAND, NO_TAIL},

    [SECOND_HALT] = {"HALT", 0x01, NO_OPERAND, NO_TAIL},
    [SECOND_STOP] = {"STOP", 0x82, NO_OPERAND, NO_TAIL},
};

/* The reader. */

static struct second_instruction decode(enum second_operation operation, uint8_t code,
                                        uint8_t operand)
{
    const struct form *form = &forms[operation];
    struct second_instruction i = {.operation = operation};

    switch (form->operand) {
    case NO_OPERAND:
        break;
    case REGISTER:
        i.reg = code & 7;
        break;
    case INDIRECT:
        i.reg = code & 1;
        break;
    case PORT:
        i.port = code & 3;
        break;
    case EXPANDER:
        i.port = (uint16_t)(4 + (code & 3));
        break;
    case BIT:
        i.bit = code >> 5;
        break;
    }
    switch (form->tail) {
    case NO_TAIL:
        break;
    case DATA:
        i.data = operand;
        break;
    case PAGE_ADDRESS:
        i.address = operand;
        break;
    case LONG_ADDRESS:
        i.address = (uint16_t)((code >> 5) << 8 | operand);
        break;
    }
    return i;
}

static struct second_reading unreadable(enum second_number number)
{
    return (struct second_reading){.number = (uint8_t)number};
}

struct second_reading second_read(uint32_t set, const uint8_t *program, size_t program_len,
                                  size_t address)
{
    if (!second_set_known(set))
        return unreadable(SECOND_SET_UNKNOWN);
    if (program_len > PROGRAM_MAX)
        return unreadable(SECOND_PROGRAM_LENGTH);
    if (address >= program_len)
        return unreadable(SECOND_PAST_END);

    uint8_t code = program[address];
    const struct second_code *entry = &second_codes[code];
    if (!second_defined(set, entry))
        return unreadable(SECOND_UNDEFINED_CODE);

    uint8_t operand = 0;
    if (entry->length == 2) {
        uint16_t next = second_next_pc((uint16_t)address);
        if (next >= program_len)
            return unreadable(SECOND_PAST_END);
        operand = program[next];
    }
    return (struct second_reading){
        .length = entry->length,
        .bytes = {code, operand},
        .instruction = decode(entry->operation, code, operand),
    };
}

/* The writer. */

static bool operand_fits(enum operand operand, const struct second_instruction *i)
{
    switch (operand) {
    case NO_OPERAND:
        break;
    case REGISTER:
        return i->reg <= 7;
    case INDIRECT:
        return i->reg <= 1;
    case PORT:
        return i->port == 1 || i->port == 2;
    case EXPANDER:
        return i->port >= 4 && i->port <= 7;
    case BIT:
        return i->bit <= 7;
    }
    return true;
}

static bool tail_fits(enum tail tail, const struct second_instruction *i)
{
    switch (tail) {
    case NO_TAIL:
        break;
    case DATA:
        return i->data <= 0xFF;
    case PAGE_ADDRESS:
        return i->address <= 0xFF;
    case LONG_ADDRESS:
        return i->address <= PC_COUNTED;
    }
    return true;
}

static struct second_written unwritten(enum second_number number)
{
    return (struct second_written){.number = (uint8_t)number};
}

struct second_written second_write(uint32_t set, const struct second_instruction *instruction)
{
    const struct second_instruction *i = instruction;

    if (!second_set_known(set))
        return unwritten(SECOND_SET_UNKNOWN);
    if ((unsigned)i->operation >= SECOND_OPERATIONS)
        return unwritten(SECOND_OPERAND);
    const struct form *form = &forms[i->operation];
    if (!operand_fits(form->operand, i) || !tail_fits(form->tail, i))
        return unwritten(SECOND_OPERAND);
    if (set == SECOND_INTEL && (i->operation == SECOND_HALT || i->operation == SECOND_STOP))
        return unwritten(SECOND_UNDEFINED_CODE);

    unsigned code = form->code;
    switch (form->operand) {
    case NO_OPERAND:
        break;
    case REGISTER:
    case INDIRECT:
        code |= i->reg;
        break;
    case PORT:
        code |= i->port;
        break;
    case EXPANDER:
        code |= i->port - 4u;
        break;
    case BIT:
        code |= (unsigned)i->bit << 5;
        break;
    }

    unsigned operand = 0;
    switch (form->tail) {
    case NO_TAIL:
        break;
    case DATA:
        operand = i->data;
        break;
    case PAGE_ADDRESS:
        operand = i->address;
        break;
    case LONG_ADDRESS:
        operand = i->address & 0xFFu;
        code |= (unsigned)i->address >> 8 << 5;
        break;
    }

    struct second_written written = {
        .length = form->tail == NO_TAIL ? 1 : 2,
        .bytes = {(uint8_t)code, (uint8_t)operand},
    };
    return written;
}

/* The listing. Each put routine returns where the next character goes. */

static uint8_t *put_char(uint8_t *to, char c)
{
    *to = (uint8_t)c;
    return to + 1;
}

static uint8_t *put_hex(uint8_t *to, unsigned value, unsigned digits)
{
    while (digits-- > 0)
        to = put_char(to, "0123456789ABCDEF"[value >> 4 * digits & 0xF]);
    return to;
}

/* A number as the text column shows it: an H after it, a 0 before a leading letter. */
static uint8_t *put_number(uint8_t *to, unsigned value, unsigned digits)
{
    if (value >> 4 * (digits - 1) > 9)
        to = put_char(to, '0');
    to = put_hex(to, value, digits);
    return put_char(to, 'H');
}

/* Text in which a * stands for a digit. */
static uint8_t *put_text(uint8_t *to, const char *text, unsigned digit)
{
    for (; *text != '\0'; text++)
        to = *text == '*' ? put_hex(to, digit, 1) : put_char(to, *text);
    return to;
}

static uint8_t *put_instruction(uint8_t *to, const struct second_instruction *i, uint16_t at)
{
    const struct form *form = &forms[i->operation];
    unsigned digit = 0;

    switch (form->operand) {
    case NO_OPERAND:
        break;
    case REGISTER:
    case INDIRECT:
        digit = i->reg;
        break;
    case PORT:
    case EXPANDER:
        digit = i->port;
        break;
    case BIT:
        digit = i->bit;
        break;
    }
    to = put_text(to, form->text, digit);

    switch (form->tail) {
    case NO_TAIL:
        break;
    case DATA:
        to = put_number(to, i->data, 2);
        break;
    case PAGE_ADDRESS:
        to = put_number(to, second_conditional_target(at, (uint8_t)i->address), 3);
        break;
    case LONG_ADDRESS:
        to = put_number(to, i->address, 3);
        break;
    }
    return to;
}

struct second_line second_line(uint32_t set, const uint8_t *program, size_t program_len,
                               size_t address, uint8_t *line, size_t line_len)
{
    if (!second_set_known(set))
        return (struct second_line){.number = SECOND_SET_UNKNOWN};
    if (program_len > PROGRAM_MAX)
        return (struct second_line){.number = SECOND_PROGRAM_LENGTH};
    if (line_len < SECOND_LINE_SIZE)
        return (struct second_line){.number = SECOND_LINE_BUFFER};
    if (address >= program_len)
        return (struct second_line){.number = SECOND_PAST_END};

    /* The reader wraps at 7FF and FFF; the listing shows DB there. */
    struct second_reading reading = second_read(set, program, program_len, address);
    bool wraps = reading.length == 2 && (address & PC_COUNTED) == PC_COUNTED;
    bool readable = reading.number == SECOND_ACCEPTED && !wraps;

    uint8_t *to = put_hex(line, (unsigned)address, 3);
    to = put_text(to, "  ", 0);
    to = put_hex(to, program[address], 2);
    if (readable && reading.length == 2) {
        to = put_char(to, ' ');
        to = put_hex(to, reading.bytes[1], 2);
    } else {
        to = put_text(to, "   ", 0);
    }
    to = put_text(to, "  ", 0);
    if (readable) {
        to = put_instruction(to, &reading.instruction, (uint16_t)address);
    } else {
        to = put_text(to, "DB ", 0);
        to = put_number(to, program[address], 2);
    }
    to = put_char(to, '\n');

    return (struct second_line){
        .written = (size_t)(to - line),
        .addresses = readable ? reading.length : 1,
    };
}

size_t second_listing(const uint8_t *program, size_t program_len, uint8_t *text, size_t text_len)
{
    static const char refusal[] = "refused 1\n";
    size_t used = 0;

    if (program_len > PROGRAM_MAX) {
        if (text_len < strlen(refusal))
            return 0;
        memcpy(text, refusal, strlen(refusal));
        return strlen(refusal);
    }
    for (size_t address = 0; address < program_len;) {
        uint8_t line[SECOND_LINE_SIZE];
        struct second_line listed =
            second_line(SECOND_INTEL, program, program_len, address, line, sizeof line);

        if (listed.written > text_len - used)
            return 0;
        memcpy(text + used, line, listed.written);
        used += listed.written;
        address += listed.addresses;
    }
    return used;
}
