/*
 * Calls every entry of the archive on a stack of exactly as many bytes as the header says,
 * with a page below it that may not be touched: on good files, and on files damaged in every
 * section. Says how many bytes of each stack were used.
 */
#define _DEFAULT_SOURCE /* for MAP_ANONYMOUS and the contexts */

#include <stdio.h>
#include <string.h>
#include <sys/mman.h>
#include <ucontext.h>
#include <unistd.h>

#include "../include/aestilumne.h"
#include "known.h"
#include "lent.h"

enum entry { CHECK, REQUEST, LISTING, QUESTION, TABLE, ENTRIES };

static const struct {
    const char *name;
    size_t stack;
} entries[ENTRIES] = {
    {"check", AESTILUMNE_STACK_CHECK},       {"request", AESTILUMNE_STACK_REQUEST},
    {"listing", AESTILUMNE_STACK_LISTING},   {"question", AESTILUMNE_STACK_QUESTION},
    {"table", AESTILUMNE_STACK_TABLE},
};

/* What the function that makes the call takes itself, on the same stack. */
enum { CALLER = 512 };

/* ---- A stack ---- */

enum { PAINT = 0xA5 };

static struct {
    uint8_t *bottom;
    size_t size;
    ucontext_t back, there;
} own;

static bool open_stack(size_t size)
{
    size_t page = (size_t)sysconf(_SC_PAGESIZE);
    uint8_t *memory = mmap(NULL, page + size, PROT_READ | PROT_WRITE,
                           MAP_PRIVATE | MAP_ANONYMOUS, -1, 0);
    if (memory == MAP_FAILED || mprotect(memory, page, PROT_NONE) != 0)
        return false;
    own.bottom = memory + page;
    own.size = size;
    memset(own.bottom, PAINT, size);
    return true;
}

/* How many bytes of it were ever written. */
static size_t used(void)
{
    size_t untouched = 0;
    while (untouched < own.size && own.bottom[untouched] == PAINT)
        untouched++;
    return own.size - untouched;
}

/* ---- A call ---- */

static struct {
    enum entry entry;
    const uint8_t *file;
    size_t n;
    uint64_t o, kind, a, b, answer;
    uint8_t out[AESTILUMNE_LISTING_ENOUGH];
} call;

static void make_call(void)
{
    switch (call.entry) {
    case CHECK:
        call.answer = aestilumne_check(call.file, call.n);
        break;
    case REQUEST:
        call.answer = aestilumne_request(call.file, call.n, call.o, call.kind, call.a, call.b,
                                         call.out, sizeof call.out);
        break;
    case LISTING:
        call.answer =
            aestilumne_listing(call.file, call.n, call.o, call.out, sizeof call.out);
        break;
    case QUESTION:
        call.answer = aestilumne_question(call.file, call.n, call.o, call.a);
        break;
    default:
        call.answer = aestilumne_table(call.file, call.n, call.kind);
    }
}

static unsigned long calls, refused;

static void on_the_stack(uint64_t kind, uint64_t a, uint64_t b)
{
    call.kind = kind;
    call.a = a;
    call.b = b;
    getcontext(&own.there);
    own.there.uc_stack.ss_sp = own.bottom;
    own.there.uc_stack.ss_size = own.size;
    own.there.uc_link = &own.back;
    makecontext(&own.there, make_call, 0);
    swapcontext(&own.back, &own.there);
    calls++;
    refused += aestilumne_apart(call.answer).outcome >= AESTILUMNE_ENDS;
}

/* Every kind and every table, of one file. */
static void ask_all(enum entry entry, const uint8_t *file, size_t n)
{
    call.entry = entry;
    call.file = file;
    call.n = n;
    if (entry == REQUEST)
        for (uint64_t kind = 0; kind <= 9; kind++)
            on_the_stack(kind, 5, kind == AESTILUMNE_DELETE_ROLE ? 0 : 3);
    else if (entry == TABLE)
        for (uint64_t table = 0; table <= 6; table++)
            on_the_stack(table, 0, 0);
    else
        on_the_stack(0, 0, 0);
}

/* ---- Good files, and damaged ones ---- */

static uint8_t damaged[FILE_ENOUGH + 1];

/* Cut short and changed at every step-th byte, so in every section, and with a byte left over. */
static void damage(enum entry entry, const uint8_t *file, size_t n, size_t step)
{
    for (size_t at = 0; at < n; at += step) {
        ask_all(entry, file, at);
        memcpy(damaged, file, n);
        damaged[at] ^= 0x80;
        ask_all(entry, damaged, n);
        damaged[at] = 0x7F;
        ask_all(entry, damaged, n);
    }
    memcpy(damaged, file, n);
    damaged[n] = 0;
    ask_all(entry, damaged, n + 1);
}

static void ask_of_files(enum entry entry)
{
    static uint8_t file[FILE_ENOUGH];
    struct policy p;
    known_department(&p);
    size_t n = ref_write(&p, file, sizeof file).length;
    for (call.o = 0; call.o < 4; call.o++)
        ask_all(entry, file, n);
    call.o = 1;
    damage(entry, file, n, 1);
    known_largest(&p);
    n = ref_write(&p, file, sizeof file).length;
    call.o = 0;
    ask_all(entry, file, n);
    damage(entry, file, n, entry == LISTING ? 500 : 50);
}

int main(void)
{
    unsigned passed = 0, failed = 0;
    setvbuf(stdout, NULL, _IOLBF, BUFSIZ);
    lent_report_touching("FAILED: a call needs more stack than the header says\n"
                         "0 passed, 1 failed\n");
    for (enum entry entry = CHECK; entry < ENTRIES; entry++) {
        if (!open_stack(entries[entry].stack + CALLER)) {
            printf("no memory for a stack\n0 passed, 1 failed\n");
            return 1;
        }
        calls = refused = 0;
        ask_of_files(entry);
        bool damaged_too = refused > 0 && refused < calls;
        printf("%-8s %6zu bytes: %lu calls, %lu on bad files; %zu used\n", entries[entry].name,
               entries[entry].stack, calls, refused, used());
        damaged_too ? passed++ : failed++;
    }
    printf("%u passed, %u failed\n", passed, failed);
    return failed == 0 ? 0 : 1;
}
