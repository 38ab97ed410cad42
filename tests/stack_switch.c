/* A call on a stack of just so many bytes, in a process of its own. */
#define _GNU_SOURCE
#include "stack.h"

#include <stdlib.h>
#include <string.h>
#include <sys/mman.h>
#include <sys/resource.h>
#include <sys/wait.h>
#include <ucontext.h>
#include <unistd.h>

/* Below the stack lie so many bytes that nothing can touch: more than the largest frame has. */
enum { PAGE = 4096, GUARD = 16 << 20, PAINT = 0xa5 };

static struct lent before, wanted;

/* The lowest byte of a painted stack of so many bytes. */
static unsigned char *painted(size_t bytes)
{
    const size_t pages = (bytes + PAGE - 1) / PAGE * PAGE;
    unsigned char *low = mmap(NULL, GUARD + pages, PROT_NONE,
                              MAP_PRIVATE | MAP_ANONYMOUS | MAP_NORESERVE, -1, 0);
    if (low == MAP_FAILED || mprotect(low + GUARD, pages, PROT_READ | PROT_WRITE) != 0)
        abort();
    return memset(low + GUARD, PAINT, pages);
}

/* Calls on that stack and comes back. Nothing but the call and the words that lead back is on it. */
static void call_on(unsigned char *stack, size_t bytes, void (*call)(void))
{
    static ucontext_t here, there;
    if (getcontext(&there) != 0)
        abort();
    there.uc_stack.ss_sp = stack;
    there.uc_stack.ss_size = bytes;
    there.uc_link = &here;
    makecontext(&there, call, 0);
    if (swapcontext(&here, &there) != 0)
        abort();
}

/* The other process: it tells what came of the call where it lives to do so. */
static void child(void (*call)(void), size_t bytes, int to)
{
    const struct rlimit no_core = {0, 0};
    unsigned char *stack = painted(bytes);
    struct outcome outcome = {.depth = bytes};
    setrlimit(RLIMIT_CORE, &no_core);
    call_on(stack, bytes, call);
    outcome.refusal = (uint32_t)(lent.answer >> 32);
    outcome.same = memcmp(&lent, &wanted, sizeof lent) == 0;
    while (outcome.depth > 0 && *stack++ == PAINT)
        outcome.depth--;
    if (write(to, &outcome, sizeof outcome) != sizeof outcome)
        abort();
    _exit(0);
}

struct outcome on_stack(void (*call)(void), size_t bytes)
{
    struct outcome outcome = {.depth = 0};
    int ends[2], status;
    pid_t process;
    memcpy(&before, &lent, sizeof lent);
    call();
    memcpy(&wanted, &lent, sizeof lent);
    memcpy(&lent, &before, sizeof lent);
    if (pipe(ends) != 0 || (process = fork()) < 0)
        abort();
    if (process == 0)
        child(call, bytes, ends[1]);
    close(ends[1]);
    if (waitpid(process, &status, 0) != process)
        abort();
    if (WIFSIGNALED(status))
        outcome.signal = WTERMSIG(status);
    else if (read(ends[0], &outcome, sizeof outcome) != sizeof outcome)
        abort();
    close(ends[0]);
    return outcome;
}
