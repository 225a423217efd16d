/*
 * The 24 bytes of a machine state in the C interface, and the second emulator's struct of it.
 *
 * The second emulator knows neither the bytes 21 to 23 nor a length: where these are wrong, a
 * state that is outside its sizes stands for them.
 */
#ifndef BYTES_H
#define BYTES_H

#include "second.h"

#include <stdbool.h>
#include <stddef.h>
#include <stdint.h>

/* Where each field stands, and how many bytes there are. */
enum state_byte {
    BYTE_A,
    BYTE_PC_LOW,
    BYTE_PC_HIGH,
    BYTE_PSW,
    BYTE_F1,
    BYTE_DBF,
    BYTE_T,
    BYTE_DIVIDER,
    BYTE_COUNTING,
    BYTE_TF,
    BYTE_REQUEST,
    BYTE_EXTERNAL_ENABLED,
    BYTE_TIMER_ENABLED,
    BYTE_IN_SERVICE,
    BYTE_LAST_T1,
    BYTE_T0_CLOCK,
    BYTE_P1,
    BYTE_P2,
    BYTE_BUS,
    BYTE_BUS_DRIVEN,
    BYTE_MODE,
    BYTE_RESERVED, /* and the two after it */
    STATE_BYTES = BYTE_RESERVED + 3
};

extern const char *const state_byte_names[STATE_BYTES];

void bytes_of_state(uint8_t bytes[STATE_BYTES], const struct second_state *state);
struct second_state state_of_bytes(const uint8_t *bytes, size_t len);
bool known_to_second(const uint8_t *bytes, size_t len);

#endif
