/*
 * The proved chip, the second emulator and the wrong copy, each as an emulator of the box.
 */
#include "emulators.h"
#include "bytes.h"

size_t proved_chip(struct box *box, size_t count)
{
    uint64_t totals[2]; /* samples used, machine cycles */
    uint64_t result =
        mcs48_run(MCS48_INTEL, box_rom, sizeof box_rom, NULL, 0, box->ram, sizeof box->ram,
                  box->state, sizeof box->state, box->samples, count, totals, 2);

    box_accept(mcs48_number(result));
    return totals[0];
}

typedef struct second_totals second_runner(uint32_t set, const uint8_t *program, size_t program_len,
                                           const uint8_t *outside, size_t outside_len, uint8_t *ram,
                                           size_t ram_len, struct second_state *state,
                                           const uint32_t *samples, size_t samples_len);

static size_t run_second(second_runner *run, struct box *box, size_t count)
{
    /* The second emulator has its state in a struct, the box in the 24 bytes of the C interface. */
    struct second_state state = state_of_bytes(box->state, sizeof box->state);
    struct second_totals totals = run(SECOND_INTEL, box_rom, sizeof box_rom, NULL, 0, box->ram,
                                      sizeof box->ram, &state, box->samples, count);

    box_accept(totals.number);
    bytes_of_state(box->state, &state);
    return totals.samples;
}

size_t second_emulator(struct box *box, size_t count)
{
    return run_second(second_run, box, count);
}

/* What second_run is called in the wrong copy. */
extern second_runner wrong_run;

size_t wrong_copy(struct box *box, size_t count)
{
    return run_second(wrong_run, box, count);
}
