/*
 * Lists the box's ROM, so that demo/run can hold the mnemonics of box.asm against its code bytes.
 */
#include "box.h"

#include <stdio.h>

int main(void)
{
    uint8_t line[MCS48_LINE_BYTES];

    for (size_t address = 0; address < ROM_SIZE;) {
        uint64_t answer =
            mcs48_list_line(MCS48_INTEL, box_rom, sizeof box_rom, address, line, sizeof line);

        box_accept(mcs48_number(answer));
        fwrite(line, 1, mcs48_line_length(answer), stdout);
        address += mcs48_line_size(answer);
    }
    return 0;
}
