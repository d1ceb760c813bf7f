/*
 * Compares the module's archive with the reference: outcome, number, place, length and
 * every byte of each lent buffer, on random policies, requests and damaged files.
 *
 * against [-g] [seed [requests [listings [damaged files]]]]
 */
#include <inttypes.h>
#include <stdio.h>
#include <stdlib.h>
#include <string.h>

#include "../include/aestilumne.h"
#include "known.h"
#include "lent.h"
#include "random.h"
#include "reference.h"

enum { OUT_MOST = LISTING_ENOUGH + 128, OUTCOMES = 28, KINDS = 8, OFTEN_ENOUGH = 20 };
enum { REPORTS_MOST = 10, FULL_LISTINGS_MOST = 10 };

enum entry { CHECK, REQUEST, LISTING, QUESTION, TABLE, ENTRIES };
static const char *const entry_name[] = {"check", "request", "listing", "question", "table"};

/* One call of an entry; the numbers it takes are a request's, from the first. */
struct call {
    enum entry entry;
    const uint8_t *file;
    size_t n;
    struct request q;
    size_t out_n;
    bool again; /* asked before, with another buffer */
};

struct run {
    struct dice dice;
    struct lent policy, out;
    uint8_t wanted[MARGIN + OUT_MOST + MARGIN]; /* the reference's buffer and around it */
    unsigned long passed, failed;
    unsigned long requests[KINDS + 1][OUTCOMES]; /* kind 0: any unknown kind */
    unsigned long others[ENTRIES][OUTCOMES];
    unsigned long yes;
};

/* Document 01's constant table; kind 0 stands for an unknown kind. */
static const bool may_give[KINDS + 1][10] = {
    {0, 1, 0, 0, 0, 0, 0, 0, 0, 0}, /* unknown */
    {1, 0, 1, 1, 1, 1, 0, 0, 0, 0}, {1, 0, 1, 1, 0, 1, 0, 0, 0, 0},
    {1, 0, 1, 1, 1, 1, 0, 0, 0, 0}, {1, 0, 1, 1, 0, 1, 0, 0, 0, 0},
    {1, 0, 1, 1, 0, 1, 1, 0, 0, 1}, {1, 1, 1, 1, 0, 0, 0, 1, 1, 0},
    {1, 0, 1, 1, 0, 1, 0, 0, 0, 1}, {1, 0, 1, 1, 0, 1, 0, 0, 0, 1},
};

/* ---- One call, asked twice ---- */

static uint64_t ask_reference(const struct call *c, uint8_t *out)
{
    switch (c->entry) {
    case REQUEST:
        return ref_request(c->file, c->n, c->q, out, c->out_n);
    case LISTING:
        return ref_listing(c->file, c->n, c->q.officer, out, c->out_n);
    case QUESTION:
        return ref_question(c->file, c->n, c->q.officer, c->q.kind);
    case TABLE:
        return ref_table(c->file, c->n, c->q.officer);
    default:
        return ref_check(c->file, c->n);
    }
}

static uint64_t ask_archive(const struct call *c, const uint8_t *policy, uint8_t *out)
{
    const struct request *q = &c->q;
    switch (c->entry) {
    case REQUEST:
        return aestilumne_request(policy, c->n, q->officer, q->kind, q->a, q->b, out, c->out_n);
    case LISTING:
        return aestilumne_listing(policy, c->n, q->officer, out, c->out_n);
    case QUESTION:
        return aestilumne_question(policy, c->n, q->officer, q->kind);
    case TABLE:
        return aestilumne_table(policy, c->n, q->officer);
    default:
        return aestilumne_check(policy, c->n);
    }
}

/* No two bytes side by side are equal, so that a copied byte shows. */
static void fill(uint8_t *bytes, size_t n, uint8_t first)
{
    for (size_t i = 0; i < n; i++)
        bytes[i] = first + 37 * i;
}

static bool still_filled(const uint8_t *bytes, size_t n, uint8_t first)
{
    for (size_t i = 0; i < n; i++)
        if (bytes[i] != (uint8_t)(first + 37 * i))
            return false;
    return true;
}

static void print_answer(const char *who, uint64_t answer)
{
    struct reply r = ref_unpack(answer);
    printf("  %s: outcome %u number %u place %zu length %zu\n", who, r.outcome, r.number,
           r.place, r.length);
}

static void report(const struct call *c, uint64_t wanted, uint64_t got)
{
    printf("FAILED: %s on %zu bytes, numbers %" PRIu64 " %" PRIu64 " %" PRIu64 " %" PRIu64
           ", buffer %zu%s\n",
           entry_name[c->entry], c->n, c->q.officer, c->q.kind, c->q.a, c->q.b, c->out_n,
           wanted == got ? ": same answer, other bytes" : "");
    print_answer("reference", wanted);
    print_answer("archive", got);
    for (size_t i = 0; c->n <= 400 && i < c->n; i++)
        printf("%s%02X", i == 0 ? "  " : " ", c->file[i]);
    printf("\n");
}

/* A request is counted once, by its first call; 10 each time it comes. */
static void count_outcome(struct run *t, const struct call *c, struct reply r)
{
    bool known = c->q.kind >= 1 && c->q.kind <= KINDS;
    if (r.outcome >= OUTCOMES)
        return;
    if (c->entry == REQUEST)
        t->requests[known ? c->q.kind : 0][r.outcome]++;
    else
        t->others[c->entry][r.outcome]++;
    if (c->entry == QUESTION)
        t->yes += r.number;
}

static void settle(struct run *t, const struct call *c, bool held, uint64_t wanted,
                   uint64_t got)
{
    if (held)
        t->passed++;
    else if (t->failed++ < REPORTS_MOST)
        report(c, wanted, got);
}

/* The header reads an answer as the reference does, and no refusal as a yes. */
static bool read_alike(uint64_t answer)
{
    struct reply r = ref_unpack(answer);
    struct aestilumne_answer a = aestilumne_apart(answer);
    return a.outcome == r.outcome && a.number == r.number && a.place == r.place &&
           a.length == r.length && aestilumne_may(answer) == (r.outcome == 0 && r.number == 1);
}

/* Asks the reference and the archive, and compares answers, buffers and what is around. */
static struct reply compare(struct run *t, struct call c)
{
    uint8_t first = roll(&t->dice);
    lent_place(&t->policy, c.n, below(&t->dice, 16));
    lent_place(&t->out, c.out_n, below(&t->dice, 16));
    size_t around = MARGIN + c.out_n + lent_behind(&t->out);
    uint8_t *seen = t->out.bytes - MARGIN;
    memcpy(t->policy.bytes, c.file, c.n);
    fill(t->wanted, around, first);
    fill(seen, around, first);
    uint64_t wanted = ask_reference(&c, t->wanted + MARGIN);
    uint64_t got = ask_archive(&c, t->policy.bytes, t->out.bytes);
    struct reply r = ref_unpack(wanted);
    bool held = wanted == got && read_alike(got) && memcmp(seen, t->wanted, around) == 0 &&
                memcmp(t->policy.bytes, c.file, c.n) == 0;
    if (r.outcome != 0)
        held = held && still_filled(seen, around, first);
    settle(t, &c, held, wanted, got);
    if (!c.again || r.outcome == 10)
        count_outcome(t, &c, r);
    return r;
}

/* The same call with a larger buffer, the exact one, one byte less and none. */
static void compare_sizes(struct run *t, struct call c, size_t most, size_t entry_size)
{
    c.out_n = most;
    struct reply r = compare(t, c);
    size_t exact = r.length * entry_size;
    c.again = true;
    c.out_n = exact;
    compare(t, c);
    if (r.outcome == 0 && exact > 0) {
        c.out_n = exact - 1;
        compare(t, c);
        c.out_n = 0;
        compare(t, c);
        c.out_n = exact + 1 + below(&t->dice, 100);
        compare(t, c);
    }
}

/* ---- Good files ---- */

static struct call call_of(enum entry entry, const uint8_t *file, size_t n)
{
    struct call c = {entry, file, n, {0, 0, 0, 0}, 0, false};
    return c;
}

static enum size random_size(struct run *t)
{
    unsigned percent = below(&t->dice, 100);
    return percent < 12   ? TINY
           : percent < 65 ? SMALL
           : percent < 85 ? MIDDLE
           : percent < 98 ? CROWDED
                          : FULL;
}

static void compare_question(struct run *t, const struct policy *p, const uint8_t *file,
                             size_t n)
{
    struct call c = call_of(QUESTION, file, n);
    c.q.officer = below(&t->dice, p->users + chance(&t->dice, 10));
    c.q.kind = below(&t->dice, p->permissions + chance(&t->dice, 10));
    if (chance(&t->dice, 5))
        c.q.officer = random_number(&t->dice);
    if (chance(&t->dice, 5))
        c.q.kind = random_number(&t->dice);
    compare(t, c);
}

static void compare_tables(struct run *t, const uint8_t *file, size_t n)
{
    struct call c = call_of(TABLE, file, n);
    for (c.q.officer = 0; c.q.officer <= TABLES + 1; c.q.officer++)
        compare(t, c);
    c.q.officer = random_number(&t->dice);
    compare(t, c);
}

/* Policies made here, and those after accepted requests, are never refused. */
static void compare_good_file(struct run *t, const uint8_t *file, size_t n)
{
    if (compare(t, call_of(CHECK, file, n)).outcome == 0)
        return;
    t->failed++;
    printf("FAILED: a policy that must be good is refused\n");
}

/* A walk: the policy after an accepted request is often the next one's policy. */
static void requests_on(struct run *t, struct policy *p, unsigned long count)
{
    uint8_t file[FILE_ENOUGH];
    struct policy after;
    bool fresh = true;
    for (unsigned long i = 0; i < count; i++) {
        struct call c = call_of(REQUEST, file, ref_write(p, file, sizeof file).length);
        if (fresh)
            compare_good_file(t, file, c.n);
        c.q = random_request(&t->dice, p);
        compare_sizes(t, c, FILE_ENOUGH, 1);
        if (i % 16 == 0)
            compare_tables(t, file, c.n);
        compare_question(t, p, file, c.n);
        fresh = ref_decide(p, c.q, &after).outcome == 0 && chance(&t->dice, 80);
        if (fresh)
            *p = after;
    }
}

static void run_requests(struct run *t, unsigned long requests)
{
    struct policy p;
    while (requests > 0) {
        unsigned long count = requests < 25 ? requests : 25;
        random_policy(&t->dice, random_size(t), &p);
        requests_on(t, &p, count);
        requests -= count;
    }
}

/* One size of buffer, since the reference tries every request each time. */
static void compare_full_listing(struct run *t, struct call c)
{
    c.out_n = LISTING_ENOUGH;
    compare(t, c);
}

static enum size listing_size(struct run *t)
{
    unsigned percent = below(&t->dice, 100);
    return percent < 25 ? TINY : percent < 95 ? SMALL : MIDDLE;
}

static void run_listings(struct run *t, unsigned long listings)
{
    uint8_t file[FILE_ENOUGH];
    struct policy p;
    for (unsigned long i = 0; i < listings; i++) {
        enum size size = i < FULL_LISTINGS_MOST ? FULL : listing_size(t);
        random_policy(&t->dice, size, &p);
        struct call c = call_of(LISTING, file, ref_write(&p, file, sizeof file).length);
        c.q.officer = below(&t->dice, p.users + (chance(&t->dice, 20) ? 2 : 0));
        if (chance(&t->dice, 8))
            c.q.officer = random_number(&t->dice);
        if (size == FULL)
            compare_full_listing(t, c);
        else
            compare_sizes(t, c, LISTING_ENOUGH, 3);
    }
}

/* ---- Damaged files ---- */

/* A bad file's refusal comes from every entry, whatever else is asked. */
static void all_entries(struct run *t, const uint8_t *file, size_t n)
{
    struct policy p;
    struct call c = call_of(REQUEST, file, n);
    ref_read(file, n, &p);
    c.out_n = chance(&t->dice, 50) ? FILE_ENOUGH : below(&t->dice, 50);
    c.q = random_request(&t->dice, &p);
    compare(t, c);
    c.entry = LISTING;
    compare(t, c);
    compare_question(t, &p, file, n);
    compare_tables(t, file, n);
}

static void compare_file(struct run *t, const uint8_t *file, size_t n)
{
    compare(t, call_of(CHECK, file, n));
    if (chance(&t->dice, 10))
        all_entries(t, file, n);
}

/* The file cut at every place; returns how many files that made. */
static unsigned long cut_everywhere(struct run *t, const struct policy *p)
{
    uint8_t file[FILE_ENOUGH];
    size_t length = ref_write(p, file, sizeof file).length;
    for (size_t n = 0; n < length; n++)
        compare_file(t, file, n);
    return length;
}

static void run_damaged(struct run *t, unsigned long files)
{
    static uint8_t file[DAMAGED_ENOUGH];
    struct policy p;
    unsigned long done = 0;
    while (done < files) {
        enum size size = random_size(t);
        random_policy(&t->dice, size, &p);
        if (size <= SMALL && chance(&t->dice, 10))
            done += cut_everywhere(t, &p);
        for (unsigned i = 0; i < 40 && done < files; i++, done++)
            compare_file(t, file, random_damaged_file(&t->dice, &p, file));
    }
}

/* ---- What was reached ---- */

static void print_count(unsigned long count, bool expected)
{
    if (count == 0 && !expected)
        printf("%8s", ".");
    else
        printf("%8lu", count);
}

static void print_reached(const struct run *t)
{
    printf("kind   ");
    for (unsigned outcome = 0; outcome <= 10; outcome++)
        printf("%8u", outcome);
    for (unsigned i = 1; i <= KINDS + 1; i++) {
        unsigned kind = i % (KINDS + 1);
        printf(kind == 0 ? "\nunknown" : "\n%-7u", kind);
        for (unsigned outcome = 0; outcome <= 10; outcome++)
            print_count(t->requests[kind][outcome], outcome == 10 || may_give[kind][outcome]);
    }
    printf("\nfiles  ");
    for (unsigned outcome = 20; outcome <= 27; outcome++)
        printf("%6u: %lu", outcome, t->others[CHECK][outcome]);
    printf("\nlistings 0: %lu, 2: %lu, 10: %lu\n", t->others[LISTING][0], t->others[LISTING][2],
           t->others[LISTING][10]);
    printf("questions yes: %lu, no: %lu, 2: %lu\n", t->yes, t->others[QUESTION][0] - t->yes,
           t->others[QUESTION][2]);
    printf("table parts 0: %lu, 1: %lu\n", t->others[TABLE][0], t->others[TABLE][1]);
}

static void demand_often(struct run *t, unsigned long count, const char *what, unsigned which,
                         unsigned outcome)
{
    if (count >= OFTEN_ENOUGH) {
        t->passed++;
        return;
    }
    t->failed++;
    printf("FAILED: %s %u reached %u only %lu times\n", what, which, outcome, count);
}

static void demand_never(struct run *t, unsigned long count, unsigned kind, unsigned outcome)
{
    if (count == 0)
        return;
    t->failed++;
    printf("FAILED: kind %u must not give %u\n", kind, outcome);
}

/* Each pair of the constant table often enough, and no other pair. */
static void demand_kinds(struct run *t)
{
    unsigned long too_short = 0;
    for (unsigned kind = 0; kind <= KINDS; kind++) {
        for (unsigned outcome = 0; outcome < 10; outcome++) {
            unsigned long count = t->requests[kind][outcome];
            if (may_give[kind][outcome])
                demand_often(t, count, "kind", kind, outcome);
            else
                demand_never(t, count, kind, outcome);
        }
        too_short += t->requests[kind][10];
    }
    demand_often(t, too_short, "requests of kinds 0 to", KINDS, 10);
}

static void demand_reached(struct run *t)
{
    demand_kinds(t);
    for (unsigned outcome = 20; outcome <= 27; outcome++)
        demand_often(t, t->others[CHECK][outcome], "entry", CHECK, outcome);
    demand_often(t, t->others[LISTING][0], "entry", LISTING, 0);
    demand_often(t, t->others[LISTING][2], "entry", LISTING, 2);
    demand_often(t, t->others[LISTING][10], "entry", LISTING, 10);
    demand_often(t, t->others[TABLE][0], "entry", TABLE, 0);
    demand_often(t, t->others[TABLE][1], "entry", TABLE, 1);
    demand_often(t, t->others[QUESTION][2], "entry", QUESTION, 2);
    demand_often(t, t->yes, "yes of entry", QUESTION, 0);
    demand_often(t, t->others[QUESTION][0] - t->yes, "no of entry", QUESTION, 0);
}

static unsigned long argument(int argc, char **argv, int which, unsigned long otherwise)
{
    return which < argc ? strtoul(argv[which], NULL, 10) : otherwise;
}

/* The policies of document 01 and the largest one: the file, and every user's listing. */
static void run_known(struct run *t)
{
    static struct policy known[3];
    uint8_t file[FILE_ENOUGH];
    known_department(&known[0]);
    known_chain(&known[1], ROLES);
    known_largest(&known[2]);
    for (unsigned i = 0; i < 3; i++) {
        size_t n = ref_write(&known[i], file, sizeof file).length;
        compare(t, call_of(CHECK, file, n));
        for (unsigned user = 0; user < 4; user++) {
            struct call c = call_of(LISTING, file, n);
            c.q.officer = user;
            compare_sizes(t, c, LISTING_ENOUGH, 3);
        }
    }
    compare(t, call_of(CHECK, known_example, KNOWN_EXAMPLE_LENGTH));
    compare_sizes(t, call_of(LISTING, known_example, KNOWN_EXAMPLE_LENGTH), LISTING_ENOUGH, 3);
}

int main(int argc, char **argv)
{
    static struct run t;
    bool guarded = argc > 1 && strcmp(argv[1], "-g") == 0;
    int first = guarded ? 2 : 1;
    unsigned long seed = argument(argc, argv, first, 1);
    setvbuf(stdout, NULL, _IOLBF, BUFSIZ);
    printf("seed %lu%s\n", seed, guarded ? ", guarded" : "");
    t.dice = dice_from(seed);
    if (!lent_open(&t.policy, DAMAGED_ENOUGH, guarded) ||
        !lent_open(&t.out, OUT_MOST, guarded)) {
        printf("FAILED: no memory\n0 passed, 1 failed\n");
        return 1;
    }
    lent_report_touching("FAILED: a call touched memory that was not lent\n0 passed, 1 failed\n");
    run_known(&t);
    run_requests(&t, argument(argc, argv, first + 1, 20000));
    run_listings(&t, argument(argc, argv, first + 2, 1000));
    run_damaged(&t, argument(argc, argv, first + 3, 20000));
    print_reached(&t);
    demand_reached(&t);
    printf("%lu passed, %lu failed\n", t.passed, t.failed);
    return t.failed != 0;
}
