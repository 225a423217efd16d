/*
 * Texts: mcs48_read and mcs48_reread against second_read and second_write, mcs48_list_line against
 * second_line, listings made line by line against second_listing, mcs48_power_up against
 * second_power_up; and what the header's functions take out of the answers. All that names a set
 * is called for Intel and for NEC.
 *
 * --count N: random programs, beside those of the lengths at the edges.
 */
#include "mcs48.h"
#include "shared.h"

#include <stdio.h>
#include <string.h>

enum { PROGRAM_MOST = 4096, PROGRAM_ROOM = PROGRAM_MOST + 1, LINE_ROOM = 64 };

/* The proved reader, and the proved writer on what it gives (crates/reread): as mcs48_read answers. */
uint64_t mcs48_reread(uint32_t set, const uint8_t *program, size_t program_len, size_t address);

/* The call under way. Power-up takes the line's buffer for its state. */

static uint32_t set;
static uint8_t program[PROGRAM_ROOM];
static size_t program_len;
static size_t address;
static uint8_t line[LINE_ROOM]; /* before the call */
static size_t line_len;
static uint8_t second_text[LINE_ROOM];

static struct lent lent_program;
static struct lent lent_line;
static uint64_t proved_answer;
static uint64_t second_answer;

static void show(void)
{
    size_t from = address < 8 ? 0 : address - 8;

    printf("  %s (%08X), program of %zu bytes, address %zX, from %zX:", set_name(set),
           (unsigned)set, program_len, address, from);
    for (size_t i = from; i < program_len && i < from + 24; i++)
        printf(" %02X", program[i]);
    printf("\n  line of %zu bytes\n", line_len);
    printf("  proved %010llX, second %010llX\n", (unsigned long long)proved_answer,
           (unsigned long long)second_answer);
    print_bytes("line before", line, line_len);
    print_bytes("proved, after", lent_line.at, line_len);
    print_bytes("second, after", second_text, line_len);
}

/* The reader, and the writer after it. */

static struct second_written second_read_and_written(void)
{
    struct second_reading reading = second_read(set, program, program_len, address);

    if (reading.number != SECOND_ACCEPTED)
        return (struct second_written){.number = reading.number};
    return second_write(set, &reading.instruction);
}

static bool is_reading(uint64_t answer, struct second_written written)
{
    return mcs48_number(answer) == written.number && mcs48_read_length(answer) == written.length &&
           mcs48_first_byte(answer) == written.bytes[0] &&
           mcs48_second_byte(answer) == written.bytes[1];
}

static struct second_written check_read(void)
{
    struct second_written written = second_read_and_written();

    line_len = 0;
    second_answer = written.number | (uint64_t)written.length << 8 |
                    (uint64_t)written.bytes[0] << 16 | (uint64_t)written.bytes[1] << 24;
    proved_answer = mcs48_read(set, lent_program.at, program_len, address);
    if (proved_answer != second_answer)
        differ("what is read differs");
    if (!is_reading(proved_answer, written))
        differ("the header's functions take what is read apart differently");
    proved_answer = mcs48_reread(set, lent_program.at, program_len, address);
    if (proved_answer != second_answer)
        differ("what is read and written again differs");
    return written;
}

/* Lines. */

static bool is_line(uint64_t answer, struct second_line listed)
{
    return mcs48_number(answer) == listed.number && mcs48_line_length(answer) == listed.written &&
           mcs48_line_size(answer) == listed.addresses;
}

/* An accepted line changes nothing past its LF, a refused one nothing at all. */
static struct second_line check_line(size_t len)
{
    line_len = len;
    lend(&lent_line, line, line_len);
    memcpy(second_text, line, line_len);

    struct second_line listed =
        second_line(set, program, program_len, address, second_text, line_len);
    second_answer =
        listed.number | (uint64_t)listed.written << 8 | (uint64_t)listed.addresses << 24;
    proved_answer =
        mcs48_list_line(set, lent_program.at, program_len, address, lent_line.at, line_len);

    if (proved_answer != second_answer)
        differ("the answer to a line differs");
    if (!is_line(proved_answer, listed))
        differ("the header's functions take the answer to a line apart differently");
    came_back(&lent_line, "the line", second_text);
    return listed;
}

static void check_lines(void)
{
    static const size_t lengths[] = {0, 1, 31, 32, 33, LINE_ROOM};

    for (size_t i = 0; i < LENGTH(lengths); i++)
        check_line(lengths[i]);
}

/* Whole listings, as the list program, which stays Intel, would make them of mcs48_list_line. */

enum { TEXT_ROOM = SECOND_LINE_SIZE * PROGRAM_MOST };

static size_t proved_listing(uint8_t *text)
{
    size_t used = 0;

    set = SECOND_INTEL;
    for (address = 0; address < program_len; address += mcs48_line_size(proved_answer)) {
        line_len = SECOND_LINE_SIZE;
        lend(&lent_line, line, line_len);
        proved_answer =
            mcs48_list_line(set, lent_program.at, program_len, address, lent_line.at, line_len);
        if (mcs48_number(proved_answer) != 0)
            return (size_t)sprintf((char *)text, "refused %u\n",
                                   (unsigned)mcs48_number(proved_answer));
        size_t written = mcs48_line_length(proved_answer);
        if (written > line_len || mcs48_line_size(proved_answer) == 0) {
            differ("a line that is too long, or leads nowhere");
            return 0;
        }
        memcpy(text + used, lent_line.at, written);
        used += written;
    }
    return used;
}

static void check_listing(void)
{
    static uint8_t proved_text[TEXT_ROOM];
    static uint8_t whole[TEXT_ROOM];
    size_t proved_len = proved_listing(proved_text);
    size_t second_len = second_listing(program, program_len, whole, sizeof whole);

    if (proved_len != second_len || memcmp(proved_text, whole, second_len) != 0)
        differ("the listing differs");
}

/* Programs. */

static void lend_program(void)
{
    lend(&lent_program, program, program_len);
    random_bytes(line, sizeof line);
}

static void check_address(void)
{
    for (size_t i = 0; i < LENGTH(sets); i++) {
        set = sets[i];
        check_read();
        check_lines();
    }
}

/* Addresses past the end too, and some that are good in their low bits. */
static void check_past_end(void)
{
    const size_t far[] = {program_len,
                          program_len + 1,
                          PROGRAM_MOST - 1,
                          PROGRAM_MOST,
                          PROGRAM_MOST + 1,
                          0xFFFF,
                          0x10000,
                          (size_t)1 << 32,
                          ((size_t)1 << 32) + program_len / 2,
                          (size_t)1 << 63,
                          SIZE_MAX - 1,
                          SIZE_MAX};

    for (size_t i = 0; i < LENGTH(far) && agrees(); i++) {
        address = far[i];
        check_address();
    }
}

static void check_program(void)
{
    lend_program();
    for (address = 0; address < program_len && agrees(); address++)
        check_address();
    check_past_end();
    check_listing();
    came_back(&lent_program, "the program", program);
}

static void program_case(size_t len)
{
    begin_case("program of %zu bytes", len);
    random_bytes(program, sizeof program);
    program_len = len;
    check_program();
    end_case();
}

static void length_cases(void)
{
    static const size_t edges[] = {255,  256,  257,  511,  512,  513,  1000, 1023, 1024, 1025,
                                   2046, 2047, 2048, 2049, 2050, 3072, 4000, 4094, 4095, 4096,
                                   4097};

    for (size_t len = 0; len <= 66; len++)
        program_case(len);
    for (size_t i = 0; i < LENGTH(edges); i++)
        program_case(edges[i]);
}

static void random_case(void)
{
    begin_case("programs of random length");
    for (uint64_t i = 0; i < count() && agrees(); i++) {
        random_bytes(program, sizeof program);
        program_len = below(PROGRAM_ROOM + 1);
        check_program();
    }
    end_case();
}

/* Every two bytes at one place, in programs that end with them and that go on. */
static void pair_case(size_t at, size_t len)
{
    begin_case("every two bytes at %03zX of %zu", at, len);
    program_len = len;
    random_bytes(program, sizeof program);
    for (unsigned pair = 0; pair < 0x10000 && agrees(); pair++) {
        size_t next = (at & 0x800) | ((at + 1) & 0x7FF);

        program[at] = (uint8_t)(pair >> 8);
        program[next] = (uint8_t)pair;
        lend_program();
        address = at;
        for (size_t i = 0; i < LENGTH(sets); i++) {
            set = sets[i];
            check_read();
            check_line(SECOND_LINE_SIZE);
        }
    }
    end_case();
}

static void pair_cases(void)
{
    pair_case(0x000, 2);
    pair_case(0x3FE, 0x400);
    pair_case(0xAFF, 0x1000);
    pair_case(0x7FF, 0x800);
    pair_case(0xFFF, 0x1000);
}

/* A conditional jump where each page ends. The NOP before it makes it a line of the listing. */

static void put_at_page_ends(uint8_t code)
{
    random_bytes(program, sizeof program);
    for (size_t end = 0x0FF; end < PROGRAM_MOST; end += 0x100) {
        program[end - 1] = 0x00;
        program[end] = code;
    }
}

/* Programs that end with the jump's first byte and with its second. */
static void check_page_end(size_t end)
{
    for (program_len = end + 1; program_len <= end + 2; program_len++) {
        lend_program();
        address = end;
        check_address();
        check_listing();
    }
}

static void page_end_case(uint8_t code)
{
    begin_case("code %02X at the end of each page", code);
    put_at_page_ends(code);
    program_len = PROGRAM_MOST;
    check_program();
    for (size_t end = 0x0FF; end < PROGRAM_MOST && agrees(); end += 0x100)
        check_page_end(end);
    end_case();
}

static void page_end_cases(void)
{
    for (unsigned code = 0; code < 256; code++) {
        if (is_conditional_jump((uint8_t)code))
            page_end_case((uint8_t)code);
    }
}

/* HALT and STOP are NEC's: for Intel they are refused by 4, and DB in the listing. */

struct nec_code {
    uint8_t code;
    const char *text;
    const char *intel_text;
};

static void check_text(const char *text)
{
    struct second_line listed = check_line(SECOND_LINE_SIZE);
    char expected[SECOND_LINE_SIZE];
    int len = snprintf(expected, sizeof expected, "%03zX  %02X     %s\n", address, program[address],
                       text);

    if (listed.written != (size_t)len || memcmp(lent_line.at, expected, listed.written) != 0)
        differ("not %s", text);
}

static void nec_code_case(const struct nec_code *nec)
{
    begin_case("code %02X everywhere", nec->code);
    random_bytes(program, sizeof program);
    program_len = PROGRAM_MOST;
    for (address = 0; address < program_len && agrees(); address++) {
        program[address] = nec->code;
        lend_program();
        set = SECOND_NEC;
        if (check_read().length != 1)
            differ("not of one byte");
        check_text(nec->text);
        set = SECOND_INTEL;
        if (check_read().number != SECOND_UNDEFINED_CODE)
            differ("not 4");
        check_text(nec->intel_text);
    }
    end_case();
}

static void nec_code_cases(void)
{
    static const struct nec_code halt = {0x01, "HALT", "DB 01H"};
    static const struct nec_code stop = {0x82, "STOP", "DB 82H"};

    nec_code_case(&halt);
    nec_code_case(&stop);
}

/* A set that is neither, before every other reason: any program, address and line. */
static void unknown_set_case(void)
{
    begin_case("sets that are neither");
    for (unsigned i = 0; i < 10000 && agrees(); i++) {
        if (i % 64 == 0)
            random_bytes(program, sizeof program);
        program_len = one_in(8) ? PROGRAM_ROOM : below(64);
        lend_program();
        set = unknown_set();
        address = below(80);
        if (check_read().number != SECOND_SET_UNKNOWN)
            differ("25 is not read");
        if (check_line(below(LINE_ROOM + 1)).number != SECOND_SET_UNKNOWN)
            differ("25 is not the answer to a line");
        came_back(&lent_program, "the program", program);
    }
    end_case();
}

/* Power-up. */

static void power_up_case(size_t len)
{
    struct second_state state;

    begin_case("power-up of %zu bytes", len);
    line_len = len;
    random_bytes(line, sizeof line);
    memcpy(second_text, line, sizeof line);
    second_power_up(&state);
    if (len == STATE_BYTES)
        bytes_of_state(second_text, &state);
    for (int i = 0; i < 100 && agrees(); i++) {
        lend(&lent_line, line, len);
        mcs48_power_up(lent_line.at, len);
        came_back(&lent_line, "the state", second_text);
    }
    end_case();
}

static void power_up_cases(void)
{
    static const size_t lengths[] = {0, 1, 19, 20, 23, 24, 25, 32, 48, 64};

    for (size_t i = 0; i < LENGTH(lengths); i++)
        power_up_case(lengths[i]);
}

int main(int argc, char **argv)
{
    static const struct driver driver = {"texts", 50, show};

    start(&driver, argc, argv);
    lent_program = new_room(PROGRAM_ROOM);
    lent_line = new_room(LINE_ROOM);
    page_end_cases();
    length_cases();
    random_case();
    pair_cases();
    nec_code_cases();
    unknown_set_case();
    power_up_cases();
    return finish();
}
