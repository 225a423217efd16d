/*
 * The machine state as bytes and as the second emulator has it.
 */
#include "bytes.h"

#include <string.h>

const char *const state_byte_names[STATE_BYTES] = {
    "A",
    "PC low",
    "PC high",
    "PSW",
    "F1",
    "DBF",
    "T",
    "divider",
    "counting",
    "TF",
    "request",
    "external enable",
    "timer enable",
    "in service",
    "last T1",
    "T0 clock",
    "P1",
    "P2",
    "BUS",
    "BUS driven",
    "mode",
    "byte 21",
    "byte 22",
    "byte 23",
};

void bytes_of_state(uint8_t bytes[STATE_BYTES], const struct second_state *state)
{
    memset(bytes, 0, STATE_BYTES);
    bytes[BYTE_A] = state->a;
    bytes[BYTE_PC_LOW] = (uint8_t)state->pc;
    bytes[BYTE_PC_HIGH] = (uint8_t)(state->pc >> 8);
    bytes[BYTE_PSW] = state->psw;
    bytes[BYTE_F1] = state->f1;
    bytes[BYTE_DBF] = state->dbf;
    bytes[BYTE_T] = state->t;
    bytes[BYTE_DIVIDER] = state->divider;
    bytes[BYTE_COUNTING] = state->counting;
    bytes[BYTE_TF] = state->tf;
    bytes[BYTE_REQUEST] = state->request;
    bytes[BYTE_EXTERNAL_ENABLED] = state->external_enabled;
    bytes[BYTE_TIMER_ENABLED] = state->timer_enabled;
    bytes[BYTE_IN_SERVICE] = state->in_service;
    bytes[BYTE_LAST_T1] = state->last_t1;
    bytes[BYTE_T0_CLOCK] = state->t0_clock;
    bytes[BYTE_P1] = state->p1;
    bytes[BYTE_P2] = state->p2;
    bytes[BYTE_BUS] = state->bus;
    bytes[BYTE_BUS_DRIVEN] = state->bus_driven;
    bytes[BYTE_MODE] = state->mode;
}

bool known_to_second(const uint8_t *bytes, size_t len)
{
    static const uint8_t none[STATE_BYTES - BYTE_RESERVED];

    return len == STATE_BYTES && memcmp(bytes + BYTE_RESERVED, none, sizeof none) == 0;
}

struct second_state state_of_bytes(const uint8_t *bytes, size_t len)
{
    if (!known_to_second(bytes, len))
        return (struct second_state){.psw = 0};
    return (struct second_state){
        .a = bytes[BYTE_A],
        .pc = (uint16_t)(bytes[BYTE_PC_LOW] | bytes[BYTE_PC_HIGH] << 8),
        .psw = bytes[BYTE_PSW],
        .f1 = bytes[BYTE_F1],
        .dbf = bytes[BYTE_DBF],
        .t = bytes[BYTE_T],
        .divider = bytes[BYTE_DIVIDER],
        .counting = bytes[BYTE_COUNTING],
        .tf = bytes[BYTE_TF],
        .request = bytes[BYTE_REQUEST],
        .external_enabled = bytes[BYTE_EXTERNAL_ENABLED],
        .timer_enabled = bytes[BYTE_TIMER_ENABLED],
        .in_service = bytes[BYTE_IN_SERVICE],
        .last_t1 = bytes[BYTE_LAST_T1],
        .t0_clock = bytes[BYTE_T0_CLOCK],
        .p1 = bytes[BYTE_P1],
        .p2 = bytes[BYTE_P2],
        .bus = bytes[BYTE_BUS],
        .bus_driven = bytes[BYTE_BUS_DRIVEN],
        .mode = bytes[BYTE_MODE],
    };
}
