/*
 * Measures the module's archive beside the plain version, in one process, so that both run in
 * one way on any machine. All that is printed is ratios: times mean nothing elsewhere.
 *
 * Nothing is measured before the archive, the plain version and the reference agree.
 */
#define _POSIX_C_SOURCE 200809L

#include <stdio.h>
#include <time.h>

#include "../tests/known.h"
#include "policies.h"
#include "programs.h"

enum { RANDOM_POLICIES = 3000, SEED = 1 };

/* A listing of a full-size policy may cost so many checks of the same file. */
enum { LISTING_LIMIT = 600 };

/* ---- What is measured ---- */

struct subject {
    enum program program;
    struct call call;
    unsigned long times; /* calls in one round */
    double best;         /* seconds of one round, the best so far */
};

static uint8_t out[LISTING_ENOUGH];

/* The processor's time: that of others on the machine does not count. */
static double seconds(void)
{
    struct timespec t;
    clock_gettime(CLOCK_PROCESS_CPUTIME_ID, &t);
    return (double)t.tv_sec + 1e-9 * (double)t.tv_nsec;
}

static double one_round(const struct subject *s)
{
    double start = seconds();
    for (unsigned long i = 0; i < s->times; i++)
        ask(s->program, &s->call, out, sizeof out);
    return seconds() - start;
}

/* Long enough for the clock. */
static struct subject subject_of(enum program program, const struct call *c)
{
    struct subject s = {program, *c, 1, 0};
    for (s.best = one_round(&s); s.best < 0.01; s.best = one_round(&s))
        s.times *= 2;
    return s;
}

static struct subject so_many_times(enum program program, const struct call *c,
                                    unsigned long times)
{
    struct subject s = {program, *c, times, 0};
    s.best = one_round(&s);
    return s;
}

/* Rounds in turn, so that a slow moment of the machine meets all alike; the best one counts. */
static void measure(struct subject *subjects, unsigned count)
{
    enum { ROUNDS = 12, LONG_ROUNDS = 2 };
    for (unsigned round = 0; round < ROUNDS; round++)
        for (unsigned i = 0; i < count; i++) {
            struct subject *s = &subjects[i];
            if (round >= LONG_ROUNDS && s->best > 0.2)
                continue;
            double took = one_round(s);
            if (took < s->best)
                s->best = took;
        }
}

static double cost(const struct subject *s)
{
    return s->best / (double)s->times;
}

/* ---- The policies ---- */

struct measured {
    const char *name;
    uint8_t file[FILE_ENOUGH];
    size_t n;
    uint64_t user, permission, listed; /* of the question; the officer of the listing */
    struct request assign, create;
};

enum { F, FULL_CHAIN, FULL_FLAT, MEASURED };

static struct measured department(void)
{
    struct measured m = {
        "F", {0}, 0, 2, 0, 1, {0, PUT_USER, 2, PE1}, {0, CREATE_ROLE, PL1, PE1}};
    struct policy p;
    known_department(&p);
    m.n = ref_write(&p, m.file, sizeof m.file).length;
    return m;
}

static struct measured full_size(enum shape shape)
{
    struct measured m = {"", {0}, 0, USERS - 1, PERMISSIONS - 1, OFFICER, {0}, {0}};
    struct request assign = {OFFICER, PUT_USER, USERS - 1, 1};
    struct request create = {OFFICER, CREATE_ROLE, FULL_ROLES - 1, 0};
    struct policy p;
    full_size_policy(&p, shape);
    m.name = shape == CHAIN ? "full size, chain" : "full size, flat";
    m.n = ref_write(&p, m.file, sizeof m.file).length;
    m.assign = assign;
    m.create = create;
    return m;
}

/* ---- The calls ---- */

enum { CALLS = 5 };

/* What the archive may cost, the plain version's cost being 1: on F, and at full size. */
static const struct {
    const char *name;
    double small, full;
} calls[CALLS] = {
    {"check", 8, 1.5},
    {"question", 8, 1.5},
    {"request: put a user in a role", 12, 1.5},
    {"request: create a role", 12, 1.5},
    {"listing", 25, 1.5},
};

static struct call call_of(const struct measured *m, unsigned which)
{
    static const enum entry entries[CALLS] = {CHECK, QUESTION, REQUEST, REQUEST, LISTING};
    struct call c = {entries[which], m->file, m->n, {m->listed, 0, 0, 0}};
    if (entries[which] == QUESTION) {
        c.q.officer = m->user;
        c.q.a = m->permission;
    } else if (entries[which] == REQUEST) {
        c.q = which == 2 ? m->assign : m->create;
    }
    return c;
}

static bool agree_on_measured(const struct measured *m)
{
    bool agree = true;
    for (unsigned which = 0; which < CALLS; which++) {
        struct call c = call_of(m, which);
        agree = all_agree(&c) && agree;
    }
    return agree;
}

/* ---- The archive beside the plain version ---- */

static void print_number(double ratio)
{
    printf(ratio < 10 ? " %.1f" : " %.0f", ratio);
}

static double ratio_to_plain(const struct call *c)
{
    struct subject pair[2] = {subject_of(ARCHIVE, c), subject_of(PLAIN, c)};
    measure(pair, 2);
    return cost(&pair[0]) / cost(&pair[1]);
}

/* Whether every ratio keeps its limit. */
static bool print_beside_plain(const struct measured *measured)
{
    bool held = true;
    printf("\nThe archive's cost, the plain version's being 1, with the limit in brackets:\n\n| |");
    for (unsigned i = 0; i < MEASURED; i++)
        printf(" %s |", measured[i].name);
    printf("\n|---|---|---|---|\n");
    for (unsigned which = 0; which < CALLS; which++) {
        printf("| %s |", calls[which].name);
        for (unsigned i = 0; i < MEASURED; i++) {
            struct call c = call_of(&measured[i], which);
            double limit = i == F ? calls[which].small : calls[which].full;
            double ratio = ratio_to_plain(&c);
            print_number(ratio);
            printf(limit < 10 ? " (%.1f)%s |" : " (%.0f)%s |", limit,
                   ratio <= limit ? "" : " ABOVE");
            held = held && ratio <= limit;
        }
        printf("\n");
    }
    return held;
}

/* ---- The limit of a listing ---- */

/* One listing beside as many checks as it may cost: both take about as long. */
static double listing_in_checks(enum program program, const struct measured *m)
{
    struct call check = call_of(m, 0), listing = call_of(m, CALLS - 1);
    struct subject pair[2] = {so_many_times(program, &listing, 1),
                              so_many_times(program, &check, LISTING_LIMIT)};
    measure(pair, 2);
    return cost(&pair[0]) / cost(&pair[1]);
}

static bool print_limit(const struct measured *measured)
{
    bool held = true;
    printf("\nOne listing, one check of the same file being 1 (limit %d for the archive):\n\n",
           LISTING_LIMIT);
    printf("| | entries | archive | plain | |\n|---|---|---|---|---|\n");
    for (unsigned i = FULL_CHAIN; i <= FULL_FLAT; i++) {
        struct call listing = call_of(&measured[i], CALLS - 1);
        uint64_t answer = ask(ARCHIVE, &listing, out, sizeof out);
        double archive = listing_in_checks(ARCHIVE, &measured[i]);
        double plain = listing_in_checks(PLAIN, &measured[i]);
        bool within = archive <= LISTING_LIMIT;
        printf("| %s | %zu | %.0f | %.0f | %s |\n", measured[i].name, ref_unpack(answer).length,
               archive, plain, within ? "within the limit" : "ABOVE THE LIMIT");
        held = held && within;
    }
    return held;
}

/* ---- Growth ---- */

static const unsigned grown_roles[] = {8, 16, 32, FULL_ROLES}, grown_rows[] = {1, 16, ROWS};
enum { BY_ROLES = 4, BY_ROWS = 3, GROWN = BY_ROLES * BY_ROWS };

struct grown {
    uint8_t file[FILE_ENOUGH];
    size_t n;
};

static struct call grown_call(const struct grown *g, enum entry entry)
{
    struct call c = {entry, g->file, g->n, {OFFICER, 0, 0, 0}};
    return c;
}

static bool make_grown(struct grown grown[GROWN])
{
    bool agree = true;
    struct policy p;
    for (unsigned i = 0; i < GROWN; i++) {
        sized_policy(&p, FLAT, grown_roles[i / BY_ROWS], grown_rows[i % BY_ROWS]);
        grown[i].n = ref_write(&p, grown[i].file, sizeof grown[i].file).length;
        struct call check = grown_call(&grown[i], CHECK);
        struct call listing = grown_call(&grown[i], LISTING);
        agree = all_agree(&check) && all_agree(&listing) && agree;
    }
    return agree;
}

static void print_growth(const struct grown grown[GROWN], enum entry entry, const char *name)
{
    struct subject subjects[GROWN];
    for (unsigned i = 0; i < GROWN; i++) {
        struct call c = grown_call(&grown[i], entry);
        subjects[i] = subject_of(ARCHIVE, &c);
    }
    measure(subjects, GROWN);
    printf("\nHow the archive's %s grows, the smallest being 1 (flat):\n\n| |", name);
    for (unsigned column = 0; column < BY_ROWS; column++)
        printf(" rows: %u |", grown_rows[column]);
    printf("\n|---|---|---|---|");
    for (unsigned i = 0; i < GROWN; i++) {
        if (i % BY_ROWS == 0)
            printf("\n| roles: %u |", grown_roles[i / BY_ROWS]);
        print_number(cost(&subjects[i]) / cost(&subjects[0]));
        printf(" |");
    }
    printf("\n");
}

/* ---- All of it ---- */

int main(void)
{
    static struct measured measured[MEASURED];
    static struct grown grown[GROWN];
    bool agree = make_grown(grown);
    setvbuf(stdout, NULL, _IOLBF, BUFSIZ);
    measured[F] = department();
    measured[FULL_CHAIN] = full_size(CHAIN);
    measured[FULL_FLAT] = full_size(FLAT);
    for (unsigned i = 0; i < MEASURED; i++)
        agree = agree_on_measured(&measured[i]) && agree;
    agree = all_agree_on_random(SEED, RANDOM_POLICIES) && agree;
    if (!agree) {
        printf("FAILED: the programs differ, so nothing is measured\n");
        return 1;
    }
    printf("The archive, the plain version and the reference agree on all policies measured\n"
           "and on %d random ones with their damaged files.\n",
           RANDOM_POLICIES);
    bool held = print_beside_plain(measured);
    held = print_limit(measured) && held;
    print_growth(grown, CHECK, "check");
    print_growth(grown, LISTING, "listing");
    if (!held)
        printf("\nFAILED: something costs more than it may\n");
    return held ? 0 : 1;
}
