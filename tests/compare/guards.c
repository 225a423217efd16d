/*
 * Guards: that the drivers would see a call which touches what it isn't lent, or writes to what
 * is lent to be read, as both programs are. A child does so, to a buffer lent as the drivers lend
 * theirs, and must not come to a good end. The buffers are a small one, one as long as the second
 * program, and one of no bytes, as where there is none.
 *
 * --count N: buffers that a child touches; at one place in three a page is in the way.
 */
#define _DEFAULT_SOURCE /* fork */
#include "shared.h"

#include <signal.h>
#include <stdio.h>
#include <string.h>
#include <sys/wait.h>
#include <unistd.h>

enum { MOST = 4096 };

static struct lent lent;
static uint8_t bytes[MOST];
static size_t len;
static volatile uint8_t sink;

static void show(void)
{
    printf("  a buffer of %zu bytes\n", len);
}

static void read_before(volatile uint8_t *buffer)
{
    sink = buffer[-1];
}

static void read_past(volatile uint8_t *buffer)
{
    sink = buffer[len];
}

static void write_before(volatile uint8_t *buffer)
{
    buffer[-1] = 0;
}

static void write_past(volatile uint8_t *buffer)
{
    buffer[len] = 0;
}

static void write_inside(volatile uint8_t *buffer)
{
    buffer[below((uint32_t)len)] ^= 1;
}

static void touch_nothing(volatile uint8_t *buffer)
{
    sink = buffer[0];
    sink = buffer[len - 1];
}

enum seen { UNSEEN, AS_FAULT, AS_DIFFERENCE };

/* What a child meets that lends `times` buffers and touches each. */
static enum seen seen_of(void (*touch)(volatile uint8_t *), uint64_t times)
{
    int status = 0;

    fflush(stdout);
    pid_t child = fork();
    if (child == 0) {
        signal(SIGSEGV, SIG_DFL);
        signal(SIGBUS, SIG_DFL);
        fclose(stdout); /* what it reports is expected, and what is said of its end */
        fclose(stderr);
        for (uint64_t i = 0; i < times; i++) {
            touch(lend(&lent, bytes, len));
            came_back(&lent, "the buffer", bytes);
        }
        _exit(agrees() ? 0 : 1);
    }
    if (child < 0 || waitpid(child, &status, 0) != child)
        give_up("no child");
    return WIFSIGNALED(status) ? AS_FAULT : WEXITSTATUS(status) == 0 ? UNSEEN : AS_DIFFERENCE;
}

static void touch_case(const char *name, void (*touch)(volatile uint8_t *), enum seen expected)
{
    begin_case("%s of %zu bytes", name, len);
    random_bytes(bytes, sizeof bytes);
    if (seen_of(touch, count()) != expected)
        differ("not seen, or what is allowed is");
    end_case();
}

/* Each of many alone: outside chance decides whether a page or guard bytes are in the way. */
static void write_case(const char *name, void (*touch)(volatile uint8_t *))
{
    begin_case("%s of %zu bytes", name, len);
    random_bytes(bytes, sizeof bytes);
    for (uint64_t i = 0; i < count() && agrees(); i++) {
        if (seen_of(touch, 1) == UNSEEN)
            differ("not seen");
        random_word(); /* the child's random numbers are lost with it */
    }
    end_case();
}

int main(int argc, char **argv)
{
    static const struct driver driver = {"guards", 50, show};
    static const size_t lengths[] = {0, 100, MOST};

    start(&driver, argc, argv);
    lent = new_room(MOST);
    for (size_t i = 0; i < LENGTH(lengths); i++) {
        len = lengths[i];
        touch_case("read before the start", read_before, AS_FAULT);
        touch_case("read past the end", read_past, AS_FAULT);
        write_case("write before the start", write_before);
        write_case("write past the end", write_past);
        if (len == 0)
            continue;
        touch_case("read inside", touch_nothing, UNSEEN);
        write_case("write inside", write_inside);
    }
    return finish();
}
