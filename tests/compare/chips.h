/*
 * Chips for the drivers of step and run: random ones, in which the edges come up far more
 * often than by chance, and the comparison of what a call leaves of them.
 */
#ifndef CHIPS_H
#define CHIPS_H

#include "shared.h"

/* Room for lengths that are refused too, up to those that are good but for bit 16. */
enum { PROGRAM_ROOM = 0x10000 + 4096, RAM_ROOM = 0x10000 + 256, STATE_ROOM = 64 };

enum { OUTSIDE = 4096 }; /* the second program's one length */

/* What a call is lent, as it is before the call, and the set that it names. */
struct chip {
    uint32_t set;
    uint8_t program[PROGRAM_ROOM];
    size_t program_len;
    uint8_t outside[PROGRAM_ROOM]; /* the second program */
    size_t outside_len;
    bool kept; /* the bytes of both are those that were lent last */
    uint8_t ram[RAM_ROOM];
    size_t ram_len;
    uint8_t state[STATE_ROOM];
    size_t state_len;
};

extern const size_t program_sizes[3];
extern const size_t ram_sizes[3];

/* For Intel one of 230, for NEC one of 232. */
bool is_defined(uint32_t set, uint8_t code);

/* One of 66. */
bool is_two_bytes(uint8_t code);

/* Any bytes in a program of one of its three sizes, and three times in four in a second. */
void random_programs(struct chip *chip);
void random_sizes(struct chip *chip); /* of RAM one of three, of the state 24 */
void random_ram(struct chip *chip);
void random_state(struct chip *chip); /* a permitted one of its set */

/* Pins at random, EA too, now and then with RESET low and with one of bits 29 to 31. */
uint32_t random_sample(void);

uint16_t pc_of(const struct chip *chip);
void set_pc(struct chip *chip, uint16_t pc);
uint16_t next_pc(uint16_t pc);

/* Rr in the bank that PSW names. */
uint8_t *register_of(struct chip *chip, unsigned r);

/* The byte that a fetch takes (02, item 7), or null if the memory that must answer lacks it. */
uint8_t *fetched(struct chip *chip, bool ea, uint16_t address);

/* A chip as both emulators are lent it: the proved one between guards. */
struct lent_chip {
    struct lent program;
    struct lent outside;
    const uint8_t *outside_at; /* by chance null where there is none */
    struct lent ram;
    struct lent state;
    struct second_state second_state;
    uint8_t second_ram[RAM_ROOM];
    uint64_t calls; /* with programs that were kept */
};

void new_rooms(struct lent_chip *lent);

/* Programs that are kept, with the lengths they had, stay where they are: a copy takes long. */
void lend_chip(struct lent_chip *lent, const struct chip *chip);

/* Puts a byte into a program, also as it is lent if it is kept. */
void put_byte(struct lent_chip *lent, struct chip *chip, bool ea, uint16_t address, uint8_t byte);

/*
 * Has the call left the same to both, and both programs alone? That is looked for in one call of
 * eight where they are kept, since what is written to them stays until they are lent anew.
 */
void compare_chips(struct lent_chip *lent, const struct chip *before);

void show_before(const struct chip *chip);
void show_after(const struct lent_chip *lent, const struct chip *before);

#endif
