#define _DEFAULT_SOURCE /* for MAP_ANONYMOUS */

#include "lent.h"

#include <signal.h>
#include <string.h>
#include <sys/mman.h>
#include <unistd.h>

bool lent_open(struct lent *l, size_t most, bool guarded)
{
    size_t page = sysconf(_SC_PAGESIZE);
    size_t needed = MARGIN + 16 + most + MARGIN;
    l->size = (needed + page - 1) / page * page;
    l->guarded = guarded;
    l->memory =
        mmap(NULL, l->size + page, PROT_READ | PROT_WRITE, MAP_PRIVATE | MAP_ANONYMOUS, -1, 0);
    if (l->memory == MAP_FAILED)
        return false;
    if (guarded && mprotect(l->memory + l->size, page, PROT_NONE) != 0)
        return false;
    lent_place(l, 0, 0);
    return true;
}

void lent_place(struct lent *l, size_t n, unsigned shift)
{
    l->n = n;
    l->bytes = l->guarded ? l->memory + l->size - n : l->memory + MARGIN + shift;
}

size_t lent_behind(const struct lent *l)
{
    return l->guarded ? 0 : MARGIN;
}

static const char *last_words;

static void touched(int signal)
{
    ssize_t ignored = write(STDOUT_FILENO, last_words, strlen(last_words));
    (void)ignored;
    (void)signal;
    _exit(1);
}

/* The handler has a stack of its own: one that ran out would be of no use to it. */
void lent_report_touching(const char *message)
{
    static uint8_t own[1 << 16];
    stack_t stack = {0};
    struct sigaction action = {0};
    last_words = message;
    stack.ss_sp = own;
    stack.ss_size = sizeof own;
    sigaltstack(&stack, NULL);
    action.sa_handler = touched;
    action.sa_flags = SA_ONSTACK;
    sigaction(SIGSEGV, &action, NULL);
    sigaction(SIGBUS, &action, NULL);
}
