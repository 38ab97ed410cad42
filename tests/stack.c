/* How much stack the functions of fir.h need, and that it is what fir.h states:
 *   stack_c HEADER    calls each on a stack of just what HEADER states and a page, and measures
 *   stack_c           measures, and prints the lines for the header */
#include "stack.h"

#include <signal.h>
#include <stdio.h>

/* A page more is for the call's caller; measuring has room for any need; numbers in the header are
 * multiples of STEP, and not more than SLACK above the need. */
enum { PAGE = 4096, ROOM = 1 << 20, STEP = 64, SLACK = 512 };

static int calls, faults;

static void fault(const char *name, const char *what, const char *with)
{
    printf("%s: %s: %s\n", name, what, with);
    faults++;
}

/* The bytes of a stack of this size that a call changes, 0 where something is wrong. */
static size_t depth_of(const struct entry *entry, size_t bytes, uint32_t refusal, const char *what)
{
    const struct outcome outcome = on_stack(entry->call, bytes);
    if (outcome.signal == SIGSEGV)
        fault(entry->name, "more stack is needed than there is", what);
    else if (outcome.signal != 0)
        fault(entry->name, "ended by a signal", what);
    else if (outcome.refusal != refusal)
        fault(entry->name, "another refusal than expected", what);
    else if (!outcome.same)
        fault(entry->name, "the results are not those of an ordinary call", what);
    else
        return outcome.depth;
    return 0;
}

void try_call(enum function which, uint32_t refusal, const char *what)
{
    struct entry *entry = &entries[which];
    const size_t depth = depth_of(entry, ROOM, refusal, what);
    calls++;
    if (depth > entry->need) {
        entry->need = depth;
        entry->most = what;
    }
    if (entry->stated != 0)
        depth_of(entry, entry->stated + PAGE, refusal, what);
}

enum { KNOWN = 20000 };

static void known(void)
{
    volatile char area[KNOWN];
    for (int i = 0; i < KNOWN; i++)
        area[i] = 1;
    (void)area[0];
}

/* The measure is right about a need that is known, and half of a need is caught: of that one, and of
 * building's. */
static void self_check(void)
{
    const size_t depth = on_stack(known, ROOM).depth;
    if (depth < KNOWN || depth > KNOWN + 256)
        fault("self-check", "the measure is wrong", "a known need");
    if (on_stack(known, KNOWN / 2).signal != SIGSEGV)
        fault("self-check", "half the stack is not caught", "a known need");
    lend_heaviest();
    if (on_stack(entries[BUILD].call, entries[BUILD].need / 2).signal != SIGSEGV)
        fault("self-check", "half the stack is not caught", "fir_build");
}

static void compare(const struct entry *entry)
{
    printf("%s: needs %zu bytes (%s), fir.h states %zu\n", entry->name, entry->need,
           entry->need == 0 ? "no call came back" : entry->most, entry->stated);
    if (entry->need > entry->stated)
        fault(entry->name, "the number in fir.h is too small", "measured");
    if (entry->stated > entry->need + SLACK)
        fault(entry->name, "the number in fir.h is too large", "measured");
}

static void print_line(const struct entry *entry)
{
    printf(" *   stack: %-18s%7zu\n", entry->name, (entry->need + STEP - 1) / STEP * STEP);
}

int main(int count, char **arguments)
{
    if (count > 1)
        faults += read_header(arguments[1]);
    try_taps();
    try_forms();
    try_planes();
    try_building();
    try_networks();
    try_verilog();
    self_check();
    for (int i = 0; i < FUNCTIONS; i++)
        (count > 1 ? compare : print_line)(&entries[i]);
    printf("stack.c: %d functions, %d calls, %d wrong\n", FUNCTIONS, calls, faults);
    return faults != 0;
}
