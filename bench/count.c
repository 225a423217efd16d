/*
 * What bench/count counts the instructions of: the benchmark's ROM from power-up, in one run of
 * mcs48_run (`count run`) or by as many calls of mcs48_step (`count step`). Each calls one of the
 * two alone, because they share their code. Both go on while two samples remain, so that the
 * steps are the same; `count step` prints how many.
 */
#include "mcs48.h"
#include "rom.h"

#include <inttypes.h>
#include <stdio.h>
#include <stdlib.h>
#include <string.h>

/* Few, because one instruction at a time is slow, and enough to go round the loop many times. */
enum { COUNTED = 3000 };

static uint8_t ram[RAM];
static uint8_t state[MCS48_STATE_BYTES];

static _Noreturn void stop(const char *why)
{
    fprintf(stderr, "count: %s\n", why);
    exit(1);
}

static void one_run(void)
{
    uint64_t totals[2];
    uint64_t number = mcs48_run(MCS48_INTEL, program, PROGRAM, NULL, 0, ram, RAM, state,
                                sizeof state, samples, COUNTED, totals, 2);

    if (number != 0)
        stop("the run is refused");
    if (COUNTED - totals[0] >= 2)
        stop("the run ends before its samples");
}

static uint64_t single_steps(void)
{
    uint64_t steps = 0;

    for (size_t used = 0; COUNTED - used >= 2; steps++) {
        uint64_t answer = mcs48_step(MCS48_INTEL, program, PROGRAM, NULL, 0, ram, RAM, state,
                                     sizeof state, samples[used], samples[used + 1]);

        if (mcs48_number(answer) != 0)
            stop("a step is refused");
        used += mcs48_samples(answer);
    }
    return steps;
}

int main(int argc, char **argv)
{
    fill_program();
    fill_samples();
    mcs48_power_up(state, sizeof state);
    if (argc == 2 && strcmp(argv[1], "run") == 0)
        one_run();
    else if (argc == 2 && strcmp(argv[1], "step") == 0)
        printf("%" PRIu64 "\n", single_steps());
    else
        stop("run or step");
    return 0;
}
