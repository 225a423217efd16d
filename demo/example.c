/* Five bytes of a ROM on the proved chip, for 34 machine cycles with all pins high. */
#include "mcs48.h"

#include <stdio.h>

int main(void)
{
    /* STRT T; MOV A,#0FH; JMP 100H; all the rest is NOP */
    static const uint8_t rom[1024] = {0x55, 0x23, 0x0F, 0x24, 0x00};
    uint8_t ram[64] = {0};
    uint8_t state[MCS48_STATE_BYTES];
    uint32_t samples[34];
    uint64_t totals[2];

    for (int cycle = 0; cycle < 34; cycle++)
        samples[cycle] = 0x0FFFFFFF;
    mcs48_power_up(state, sizeof state);
    uint64_t result = mcs48_run(MCS48_INTEL, rom, sizeof rom, NULL, 0, ram, sizeof ram, state,
                                sizeof state, samples, 34, totals, 2);
    printf("number %d, %d samples used, %d machine cycles\n", (int)mcs48_number(result),
           (int)totals[0], (int)totals[1]);
    printf("A=%02X PC=%X%02X PSW=%02X T=%02X\n", state[0], state[2], state[1], state[3], state[6]);
    return 0;
}
