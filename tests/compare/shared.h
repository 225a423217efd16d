/*
 * What the drivers share: the sets, the codes that jump on a condition, random numbers, the
 * count of cases, buffers that are lent with guards around them, printing.
 */
#ifndef SHARED_H
#define SHARED_H

#include "bytes.h"

#include <stdbool.h>

#define LENGTH(array) (sizeof(array) / sizeof(array)[0])

extern const uint32_t sets[2]; /* Intel and NEC */

/* Neither; by chance one that is Intel or NEC in its low 8, 16 or 31 bits, or in its high ones. */
uint32_t unknown_set(void);

const char *set_name(uint32_t set);

/* One of 28: JBb, DJNZ and twelve more. */
bool is_conditional_jump(uint8_t code);

/* Random numbers. Each case has its own, from the seed and its place among the cases. */

uint32_t random_word(void);
uint32_t below(uint32_t limit); /* 0 to limit - 1 */
bool one_in(uint32_t times);
void random_bytes(uint8_t *to, size_t len);

/*
 * Cases. A case is many calls of one kind, and fails with the first call after which the two
 * emulators differ. The first failure of all prints its whole call; with --first it also ends
 * the driver. The exit status is 1 for a difference, 2 if the driver can't work, and a signal if
 * a call touches what isn't lent.
 */

struct driver {
    const char *name;
    uint64_t count;     /* what --count N replaces */
    void (*show)(void); /* prints the call under way and both answers */
};

void start(const struct driver *driver, int argc, char **argv);
uint64_t count(void);

void begin_case(const char *format, ...);
void differ(const char *format, ...);
bool agrees(void); /* no difference in this case so far */
void end_case(void);

/* Prints the last line, `N passed, M failed`, and returns the exit status. */
int finish(void);

/* Ends the driver: it can't work. */
_Noreturn void give_up(const char *why);

/*
 * Lent buffers. Each lies in a room of its own between two stretches of memory that may not
 * be touched. A buffer is lent from the room's start, up to its end, or inside; where it
 * doesn't reach the room's start or end, guard bytes follow it, and a write to them is seen.
 */

struct lent {
    uint8_t *room;
    size_t size;
    uint8_t *at; /* what is lent now */
    size_t len;
};

/* A room for buffers of up to `most` bytes. */
struct lent new_room(size_t most);

/* Lends a copy of len bytes, at one of the three places by chance. */
void *lend(struct lent *lent, const void *bytes, size_t len);

/* Is it as expected, and its guards too? If not, that is a difference. */
void came_back(const struct lent *lent, const char *name, const void *expected);

/* Reserves len bytes that can be read, as zeros, and not written. */
const uint8_t *zeros(size_t len);

/* Printing. */

void print_bytes(const char *label, const uint8_t *bytes, size_t len);
void print_state(const char *label, const uint8_t *bytes, size_t len);

/* Prints where two stretches differ. */
void print_unlike(const char *label, const uint8_t *proved, const uint8_t *second, size_t len);

#endif
