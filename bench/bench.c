/*
 * The benchmark: mcs48_run and second_run over one mixed ROM and the same samples, in one
 * process and in turn. The whole run is cut in runs of so many samples each, so that what a
 * run costs beside its steps shows where these are few. A time is that of the best round:
 * what else the machine does can only add to it, and often doubles the median.
 */
#define _GNU_SOURCE /* sched_setaffinity */
#include "mcs48.h"
#include "rom.h"
#include "second.h"
#include "shared.h"

#include <sched.h>
#include <stdio.h>
#include <stdlib.h>
#include <string.h>
#include <time.h>

enum { ROUNDS = 31 };

/* Both emulators, each from power-up to the end of the samples. */

struct end {
    uint8_t state[STATE_BYTES];
    uint8_t ram[RAM];
    uint64_t used;
    double ns;
};

static double now(void)
{
    struct timespec time;

    clock_gettime(CLOCK_MONOTONIC, &time);
    return (double)time.tv_sec * 1e9 + (double)time.tv_nsec;
}

static _Noreturn void stop(const char *why)
{
    printf("bench: %s\n", why);
    exit(1);
}

static size_t piece(uint64_t used, size_t most)
{
    return SAMPLES - used < most ? SAMPLES - used : most;
}

static struct end run_proved(size_t most)
{
    struct end end = {.used = 0};
    uint64_t totals[2];
    uint64_t number = 0;

    mcs48_power_up(end.state, sizeof end.state);
    double before = now();
    while (number == 0 && SAMPLES - end.used >= 2) {
        number = mcs48_run(MCS48_INTEL, program, PROGRAM, NULL, 0, end.ram, RAM, end.state,
                           STATE_BYTES, samples + end.used, piece(end.used, most), totals, 2);
        end.used += totals[0];
    }
    end.ns = now() - before;
    if (number != 0)
        stop("the proved emulator refuses the ROM");
    return end;
}

static struct end run_second(size_t most)
{
    struct end end = {.used = 0};
    struct second_state state;
    struct second_totals totals = {.number = 0};

    second_power_up(&state);
    double before = now();
    while (totals.number == 0 && SAMPLES - end.used >= 2) {
        totals = second_run(SECOND_INTEL, program, PROGRAM, NULL, 0, end.ram, RAM, &state,
                            samples + end.used, piece(end.used, most));
        end.used += totals.samples;
    }
    end.ns = now() - before;
    if (totals.number != 0)
        stop("the second emulator refuses the ROM");
    bytes_of_state(end.state, &state);
    return end;
}

static uint64_t count_steps(void)
{
    uint8_t ram[RAM] = {0};
    struct second_state state;
    uint64_t steps = 0;

    second_power_up(&state);
    for (size_t used = 0; SAMPLES - used >= 2; steps++)
        used += second_step(SECOND_INTEL, program, PROGRAM, NULL, 0, ram, RAM, &state,
                            samples[used], samples[used + 1])
                    .samples;
    return steps;
}

/* Rounds. */

static void same_end(const struct end *proved, const struct end *second)
{
    if (proved->used != second->used ||
        memcmp(proved->state, second->state, sizeof proved->state) != 0 ||
        memcmp(proved->ram, second->ram, sizeof proved->ram) != 0)
        stop("the two emulators end differently");
}

struct figures {
    double proved; /* ns of the whole run */
    double second;
    double cycles;
};

static struct figures measure(size_t most)
{
    struct figures best = {0};

    for (int i = 0; i < ROUNDS; i++) {
        struct end proved = run_proved(most);
        struct end second = run_second(most);

        same_end(&proved, &second);
        if (i == 0 || proved.ns < best.proved)
            best.proved = proved.ns;
        if (i == 0 || second.ns < best.second)
            best.second = second.ns;
        best.cycles = (double)proved.used;
    }
    return best;
}

/* One processor for both, where the system lets us choose. */
static void stay_on_one_processor(void)
{
    cpu_set_t one;
    int here = sched_getcpu();

    if (here < 0)
        return;
    CPU_ZERO(&one);
    CPU_SET((size_t)here, &one);
    sched_setaffinity(0, sizeof one, &one);
}

int main(void)
{
    static const size_t pieces[] = {2, 20, 200, 2000, 20000, SAMPLES};
    struct figures best = {0};

    stay_on_one_processor();
    fill_program();
    fill_samples();
    double steps = (double)count_steps();

    printf("samples a run   proved ns a cycle   second ns a cycle   ratio\n");
    for (size_t i = 0; i < LENGTH(pieces); i++) {
        best = measure(pieces[i]);
        printf("%13zu   %17.2f   %17.2f   %5.2f\n", pieces[i], best.proved / best.cycles,
               best.second / best.cycles, best.proved / best.second);
    }
    printf("%.0f steps of %.2f cycles: proved %.2f ns a step, second %.2f\n", steps,
           best.cycles / steps, best.proved / steps, best.second / steps);
    printf("ratio proved/second: %.2f\n", best.proved / best.second);
    return 0;
}
