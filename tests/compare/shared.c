/*
 * What the drivers share: the sets, the codes that jump on a condition, random numbers, the
 * count of cases, buffers that are lent with guards around them, printing.
 */
#define _DEFAULT_SOURCE /* MAP_ANONYMOUS */
#include "shared.h"

#include <signal.h>
#include <stdarg.h>
#include <stdio.h>
#include <stdlib.h>
#include <string.h>
#include <sys/mman.h>

const uint32_t sets[2] = {SECOND_INTEL, SECOND_NEC};

uint32_t unknown_set(void)
{
    static const uint32_t near[] = {2,          3,          4,         0xFF,       0x100,
                                    0x101,      0x10000,    0x10001,   0x7FFFFFFF, 0x80000000,
                                    0x80000001, 0xFFFFFFFE, 0xFFFFFFFF};

    return one_in(4) ? 2 + below(UINT32_MAX - 1) : near[below(LENGTH(near))];
}

const char *set_name(uint32_t set)
{
    return set == SECOND_INTEL ? "Intel" : set == SECOND_NEC ? "NEC" : "unknown set";
}

/* The data sheets' codes, so that neither emulator decides which are tried. */
bool is_conditional_jump(uint8_t code)
{
    static const uint8_t others[] = {0x16, 0x26, 0x36, 0x46, 0x56, 0x76,
                                     0x86, 0x96, 0xB6, 0xC6, 0xE6, 0xF6};
    bool jb = (code & 0x1F) == 0x12;
    bool djnz = (code & 0xF8) == 0xE8;

    return jb || djnz || memchr(others, code, sizeof others) != NULL;
}

/* Random numbers: splitmix64. */

static uint64_t random_state;

static uint64_t random_64(void)
{
    uint64_t z = random_state += UINT64_C(0x9E3779B97F4A7C15);

    z = (z ^ z >> 30) * UINT64_C(0xBF58476D1CE4E5B9);
    z = (z ^ z >> 27) * UINT64_C(0x94D049BB133111EB);
    return z ^ z >> 31;
}

uint32_t random_word(void)
{
    return (uint32_t)(random_64() >> 32);
}

uint32_t below(uint32_t limit)
{
    return (uint32_t)((uint64_t)random_word() * limit >> 32);
}

bool one_in(uint32_t times)
{
    return below(times) == 0;
}

void random_bytes(uint8_t *to, size_t len)
{
    uint64_t word;

    for (; len >= sizeof word; len -= sizeof word, to += sizeof word) {
        word = random_64();
        memcpy(to, &word, sizeof word);
    }
    word = random_64();
    memcpy(to, &word, len);
}

/* Cases. */

enum { DIFFERENCE = 1, UNABLE = 2 };

static const struct driver *driver;
static uint64_t seed = 48;
static uint64_t calls;
static bool only_first;
static uint64_t place;
static char case_name[80];
static bool case_agrees;
static unsigned passed;
static unsigned failed;

_Noreturn void give_up(const char *why)
{
    printf("%s: %s\n", driver->name, why);
    exit(UNABLE);
}

/* Only what is lent may be touched. The signal ends the driver as it would have anyway. */
static void fault(int signal_number)
{
    printf("%s: %s: signal %d in this call:\n", driver->name, case_name, signal_number);
    driver->show();
    fflush(stdout);
    signal(signal_number, SIG_DFL);
    raise(signal_number);
}

static const char usage[] = "takes --seed N, --count N and --first";

static uint64_t number_after(int argc, char **argv, int at)
{
    char *end = NULL;
    uint64_t number = at + 1 < argc ? strtoull(argv[at + 1], &end, 10) : 0;

    if (end == NULL || *end != '\0')
        give_up(usage);
    return number;
}

void start(const struct driver *chosen, int argc, char **argv)
{
    static const int faults[] = {SIGSEGV, SIGBUS, SIGILL, SIGFPE, SIGTRAP};

    driver = chosen;
    calls = driver->count;
    for (int i = 1; i < argc; i++) {
        if (strcmp(argv[i], "--seed") == 0)
            seed = number_after(argc, argv, i++);
        else if (strcmp(argv[i], "--count") == 0)
            calls = number_after(argc, argv, i++);
        else if (strcmp(argv[i], "--first") == 0)
            only_first = true;
        else
            give_up(usage);
    }
    for (size_t i = 0; i < LENGTH(faults); i++)
        signal(faults[i], fault);
    printf("%s: seed %llu, count %llu\n", driver->name, (unsigned long long)seed,
           (unsigned long long)calls);
}

uint64_t count(void)
{
    return calls;
}

void begin_case(const char *format, ...)
{
    va_list words;

    va_start(words, format);
    vsnprintf(case_name, sizeof case_name, format, words);
    va_end(words);
    case_agrees = true;
    random_state = seed << 32 ^ place++;
}

void differ(const char *format, ...)
{
    va_list words;

    if (!case_agrees)
        return;
    case_agrees = false;
    printf("%s: %s: ", driver->name, case_name);
    va_start(words, format);
    vprintf(format, words);
    va_end(words);
    printf("\n");
    if (failed == 0)
        driver->show();
}

bool agrees(void)
{
    return case_agrees;
}

void end_case(void)
{
    if (case_agrees)
        passed++;
    else
        failed++;
    if (only_first && failed > 0)
        exit(finish());
}

int finish(void)
{
    printf("%u passed, %u failed\n", passed, failed);
    return failed == 0 ? 0 : DIFFERENCE;
}

/* Lent buffers. */

enum {
    UNIT = 1 << 16, /* a multiple of every page size, so that no neighbour shares a page */
    GUARD = 64,
    GUARD_BYTE = 0xA5
};

static uint8_t *map(size_t size, int protection)
{
    void *at = mmap(NULL, size, protection, MAP_PRIVATE | MAP_ANONYMOUS | MAP_NORESERVE, -1, 0);

    if (at == MAP_FAILED)
        give_up("no memory");
    return at;
}

const uint8_t *zeros(size_t len)
{
    return map(len, PROT_READ);
}

struct lent new_room(size_t most)
{
    size_t size = (most + 2 * GUARD + UNIT - 1) / UNIT * UNIT;
    uint8_t *all = map(size + 3 * UNIT, PROT_NONE);
    uint8_t *room = all + UNIT + (UNIT - (uintptr_t)all % UNIT) % UNIT;

    if (mprotect(room, size, PROT_READ | PROT_WRITE) != 0)
        give_up("no memory");
    return (struct lent){.room = room, .size = size, .at = room};
}

/* How many guard bytes stand before and after what is lent. */
static size_t guards_before(const struct lent *lent)
{
    return lent->at == lent->room ? 0 : GUARD;
}

static size_t guards_after(const struct lent *lent)
{
    return lent->at + lent->len == lent->room + lent->size ? 0 : GUARD;
}

/*
 * In pieces: for a whole program memcpy takes a string instruction, which the emulator that runs
 * the drivers on Arm carries out byte by byte, in more time than all the rest of a step.
 */
static void copy(uint8_t *to, const uint8_t *from, size_t len)
{
    while (len > 0) {
        size_t piece = len < 1024 ? len : 1024;

        memcpy(to, from, piece);
        to += piece;
        from += piece;
        len -= piece;
    }
}

void *lend(struct lent *lent, const void *bytes, size_t len)
{
    if (len + 2 * GUARD > lent->size)
        give_up("a buffer is larger than its room");
    switch (below(3)) {
    case 0:
        lent->at = lent->room;
        break;
    case 1:
        lent->at = lent->room + lent->size - len;
        break;
    default:
        lent->at = lent->room + GUARD;
        break;
    }
    lent->len = len;
    copy(lent->at, bytes, len);
    memset(lent->at - guards_before(lent), GUARD_BYTE, guards_before(lent));
    memset(lent->at + len, GUARD_BYTE, guards_after(lent));
    return lent->at;
}

static bool is_guard(const uint8_t *bytes, size_t len)
{
    uint8_t guard[GUARD];

    memset(guard, GUARD_BYTE, sizeof guard);
    return memcmp(bytes, guard, len) == 0;
}

void came_back(const struct lent *lent, const char *name, const void *expected)
{
    if (memcmp(lent->at, expected, lent->len) != 0)
        differ("%s differs", name);
    if (!is_guard(lent->at - guards_before(lent), guards_before(lent)))
        differ("written to before the start of %s", name);
    if (!is_guard(lent->at + lent->len, guards_after(lent)))
        differ("written to past the end of %s", name);
}

/* Printing. */

void print_bytes(const char *label, const uint8_t *bytes, size_t len)
{
    printf("  %s, %zu bytes:", label, len);
    for (size_t i = 0; i < len; i++) {
        if (i % 16 == 0)
            printf("\n    %03zX:", i);
        printf(" %02X", bytes[i]);
    }
    printf("\n");
}

void print_state(const char *label, const uint8_t *bytes, size_t len)
{
    if (len != STATE_BYTES) {
        print_bytes(label, bytes, len);
        return;
    }
    printf("  %s:\n   ", label);
    for (size_t i = 0; i < len; i++)
        printf(" %s %02X%s", state_byte_names[i], bytes[i],
               i + 1 == len ? "\n" : i % 8 == 7 ? "\n   " : ",");
}

void print_unlike(const char *label, const uint8_t *proved, const uint8_t *second, size_t len)
{
    for (size_t i = 0; i < len; i++) {
        if (proved[i] != second[i])
            printf("  %s %zu: proved %02X, second %02X\n", label, i, proved[i], second[i]);
    }
}
