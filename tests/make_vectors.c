/*
 * Writes the vector files, from a fixed seed, so that they are the same each time.
 *
 * make_vectors FOLDER       files.bin, requests.bin, listings.bin and tables.bin
 * make_vectors -F FOLDER    F.policy, the bytes of policy F
 *
 * Numbers in the records have their lowest byte first. Buffers were of 10,375 bytes for
 * a new policy and 37,056 for a listing.
 */
#include <stdio.h>
#include <string.h>

#include "known.h"
#include "random.h"
#include "reference.h"

enum { SEED = 2026, OUTCOMES = 28, KINDS = 8, EACH_PAIR = 12 };
enum { FILES_MOST = 150000, REQUESTS_MOST = 150000, LISTINGS_MOST = 60000, TABLES_MOST = 60000 };

struct vectors {
    FILE *out;
    size_t size, records;
    unsigned reached[KINDS + 1][OUTCOMES]; /* kind 0: an unknown kind, or no request */
};

/* ---- Records ---- */

static void put_bytes(struct vectors *v, const uint8_t *bytes, size_t n)
{
    v->size += fwrite(bytes, 1, n, v->out);
}

static void put_number(struct vectors *v, uint64_t value, unsigned bytes)
{
    for (unsigned i = 0; i < bytes; i++) {
        uint8_t byte = value >> (8 * i);
        put_bytes(v, &byte, 1);
    }
}

static void put_file(struct vectors *v, const uint8_t *file, size_t n)
{
    struct reply r = ref_unpack(ref_check(file, n));
    put_number(v, n, 2);
    put_number(v, r.outcome, 1);
    put_number(v, r.place, 2);
    put_bytes(v, file, n);
    v->reached[0][r.outcome]++;
    v->records++;
}

static void put_request(struct vectors *v, const uint8_t *file, size_t n, struct request q)
{
    uint8_t out[FILE_ENOUGH];
    uint64_t answer = ref_request(file, n, q, out, sizeof out);
    struct reply r = ref_unpack(answer);
    put_number(v, n, 2);
    put_number(v, q.officer, 8);
    put_number(v, q.kind, 8);
    put_number(v, q.a, 8);
    put_number(v, q.b, 8);
    put_number(v, answer, 8);
    put_bytes(v, file, n);
    put_bytes(v, out, r.length);
    v->reached[q.kind <= KINDS ? q.kind : 0][r.outcome]++;
    v->records++;
}

static void put_listing(struct vectors *v, const uint8_t *file, size_t n, uint64_t officer)
{
    uint8_t out[LISTING_ENOUGH];
    uint64_t answer = ref_listing(file, n, officer, out, sizeof out);
    struct reply r = ref_unpack(answer);
    put_number(v, n, 2);
    put_number(v, officer, 8);
    put_number(v, answer, 8);
    put_bytes(v, file, n);
    put_bytes(v, out, 3 * r.length);
    v->reached[0][r.outcome]++;
    v->records++;
}

static void put_table(struct vectors *v, const uint8_t *file, size_t n, uint64_t table)
{
    uint64_t answer = ref_table(file, n, table);
    put_number(v, n, 2);
    put_number(v, table, 8);
    put_number(v, answer, 8);
    put_bytes(v, file, n);
    v->reached[0][ref_unpack(answer).outcome]++;
    v->records++;
}

/* ---- files.bin ---- */

static void put_policy(struct vectors *v, const struct policy *p)
{
    uint8_t file[FILE_ENOUGH];
    put_file(v, file, ref_write(p, file, sizeof file).length);
}

/* A small policy with something in every section, and a set of several bytes. */
static void every_section(struct policy *p)
{
    struct row row = {1, 0, 3, LOW_INCLUDED, 0, 0};
    known_chain(p, 4);
    p->roles.in_use[40] = true;
    p->admins.in_use[1] = true;
    p->admins.senior[0][1] = true;
    add_user(p, ref_with(ref_with(0, 1), 40), 0);
    p->permission_roles[p->permissions++] = ref_with(0, 2);
    p->permission_roles[p->permissions++] = ref_with(0, 40);
    row.needed = ref_with(0, 1);
    row.barred = ref_with(0, 40);
    add_row(p, CAN_ASSIGN, row);
    add_row(p, CAN_ASSIGN_PERMISSION, row);
    add_row(p, CAN_REVOKE, row);
    add_row(p, CAN_REVOKE_PERMISSION, row);
    add_range(p, 0, 0, 3);
    add_range(p, 1, 1, 3);
}

/* The file with other bytes in the place of one number. */
static void put_with(struct vectors *v, const uint8_t *file, size_t n, size_t at, size_t length,
                     const uint8_t *number, size_t number_n)
{
    uint8_t changed[FILE_ENOUGH];
    memcpy(changed, file, at);
    memcpy(changed + at, number, number_n);
    memcpy(changed + at + number_n, file + at + length, n - at - length);
    put_file(v, changed, n - length + number_n);
}

/* One number lengthened, turned into the largest one, over 64 bits, one more, 64, 16. */
static void put_spoiled_number(struct vectors *v, const uint8_t *file, size_t n, size_t at,
                               size_t length)
{
    static const uint8_t largest[] = {0xFF, 0xFF, 0xFF, 0xFF, 0xFF, 0xFF, 0xFF, 0xFF, 0xFF, 1};
    static const uint8_t over[] = {0x80, 0x80, 0x80, 0x80, 0x80, 0x80, 0x80, 0x80, 0x80, 2};
    static const uint8_t number_64[] = {64}, number_16[] = {16};
    uint8_t longer[12];
    memcpy(longer, file + at, length);
    longer[length - 1] |= 0x80;
    longer[length] = 0;
    put_with(v, file, n, at, length, longer, length + 1);
    put_with(v, file, n, at, length, largest, sizeof largest);
    put_with(v, file, n, at, length, over, sizeof over);
    put_with(v, file, n, at, length, number_64, 1);
    put_with(v, file, n, at, length, number_16, 1);
    longer[length - 1] = file[at + length - 1] + 1;
    put_with(v, file, n, at, length, longer, length);
}

/* Every cut, every number spoiled, and bytes left over. */
static void put_all_damage(struct vectors *v)
{
    uint8_t file[FILE_ENOUGH] = {0};
    struct policy p;
    every_section(&p);
    size_t n = ref_write(&p, file, sizeof file).length;
    for (size_t cut = 0; cut <= n; cut++)
        put_file(v, file, cut);
    for (size_t at = 0, end; at < n; at = end) {
        for (end = at + 1; file[end - 1] >= 0x80; end++)
            ;
        put_spoiled_number(v, file, n, at, end - at);
    }
    put_file(v, file, n + 1);
    put_file(v, file, n + 40);
}

static void put_first_numbers(struct vectors *v)
{
    static const uint8_t first[][2] = {{0, 0}, {2, 0}, {127, 0}, {0x80, 1}, {0x81, 0}};
    for (unsigned i = 0; i < 5; i++) {
        size_t length = first[i][0] < 0x80 ? 1 : 2;
        put_file(v, first[i], length);
        put_with(v, known_example, sizeof known_example, 0, 1, first[i], length);
    }
}

/* Nine continuing bytes and a tenth: first, as the set of roles, and as the last number. */
static void put_ten_bytes(struct vectors *v)
{
    static const uint8_t tenth[] = {0, 1, 2, 0x7F, 0x80, 0x81, 0xFF};
    static const size_t places[] = {0, 1, 19};
    uint8_t number[10];
    for (unsigned low = 0x80; low <= 0xFF; low += 0x7F)
        for (unsigned i = 0; i < sizeof tenth; i++)
            for (unsigned place = 0; place < 3; place++) {
                memset(number, low, 9);
                number[9] = tenth[i];
                put_with(v, known_example, sizeof known_example, places[place], 1, number, 10);
            }
}

/* All 64 roles in use, with no order and nothing else; then the 10 smallest bytes. */
static void put_bare_files(struct vectors *v)
{
    uint8_t file[FILE_ENOUGH];
    struct policy p;
    memset(&p, 0, sizeof p);
    size_t n = ref_write(&p, file, sizeof file).length;
    put_file(v, file, n);
    file[n] = 1;
    put_file(v, file, n + 1);
    for (unsigned role = 0; role < ROLES; role++)
        p.roles.in_use[role] = true;
    put_policy(v, &p);
}

/* The largest good file; then the largest of all, and faults in its last number or behind. */
static void put_largest(struct vectors *v)
{
    uint8_t file[FILE_ENOUGH + 8];
    struct policy p;
    known_largest(&p);
    size_t n = ref_write(&p, file, sizeof file).length;
    put_file(v, file, n);
    known_largest_not_strict(&p);
    n = ref_write(&p, file, sizeof file).length;
    put_file(v, file, n); /* 23 */
    file[n] = 0;
    put_file(v, file, n + 1); /* 27 */
    file[n - 1] = ROLES;
    put_file(v, file, n); /* 22 */
    file[n - 1] = 0x80;
    put_file(v, file, n + 1); /* 21 */
    memset(file + n - 1, 0x80, 9);
    put_file(v, file, n + 8); /* 20 */
}

/* First, middle and last. */
static const unsigned three_roles[] = {0, 31, ROLES - 1};
static const unsigned three_admins[] = {0, 7, ADMINS - 1};
static const unsigned three_rows[] = {0, 31, ROWS - 1};

/* 23: a role above itself, a pair that follows and is missing; the same for administrative ones. */
static void put_not_strict(struct vectors *v)
{
    struct policy p, chain;
    known_chain(&chain, ROLES);
    for (unsigned admin = 0; admin < ADMINS; admin++) {
        chain.admins.in_use[admin] = true;
        for (unsigned junior = 0; junior < admin; junior++)
            chain.admins.senior[admin][junior] = true;
    }
    put_policy(v, &chain);
    for (unsigned i = 0; i < 3; i++) {
        p = chain;
        p.roles.senior[three_roles[i]][three_roles[i]] = true;
        put_policy(v, &p);
        p = chain;
        p.admins.senior[three_admins[i]][three_admins[i]] = true;
        put_policy(v, &p);
        p = chain;
        p.roles.senior[ROLES - 1][three_roles[i] % (ROLES - 2)] = false;
        put_policy(v, &p);
        p = chain;
        p.admins.senior[ADMINS - 1][three_admins[i] % (ADMINS - 2)] = false;
        put_policy(v, &p);
    }
}

/* Roles 0 < 1 < .. < 62, and 63 above 30 alone; 64 rows of empty ranges. */
static void many_ranges(struct policy *p)
{
    known_chain(p, ROLES - 1);
    p->roles.in_use[ROLES - 1] = true;
    for (unsigned role = 0; role <= 30; role++)
        p->roles.senior[ROLES - 1][role] = true;
    for (unsigned row = 0; row < ROWS; row++)
        add_range(p, 0, 0, 1);
}

static void set_range(struct policy *p, unsigned row, unsigned low, unsigned high)
{
    p->tables[CAN_MODIFY].rows[row].low = low;
    p->tables[CAN_MODIFY].rows[row].high = high;
}

static void put_with_range(struct vectors *v, const struct policy *p, unsigned row, unsigned low,
                           unsigned high)
{
    struct policy changed = *p;
    set_range(&changed, row, low, high);
    put_policy(v, &changed);
}

/* 24, 25 and 26, each in the first, a middle and the last row; 24 wins over an earlier 25. */
static void put_unsound_ranges(struct vectors *v)
{
    struct policy p;
    for (unsigned i = 0; i < 3; i++) {
        many_ranges(&p);
        put_policy(v, &p);
        put_with_range(v, &p, three_rows[i], 40, 40);
        put_with_range(v, &p, three_rows[i], 41, 40);
        put_with_range(v, &p, three_rows[i], 40, ROLES - 1);
        put_with_range(v, &p, three_rows[i], 29, 31);
        set_range(&p, three_rows[i], 40, 50);
        put_with_range(v, &p, (three_rows[i] + 1) % ROWS, 45, 55);
        put_with_range(v, &p, (three_rows[i] + 32) % ROWS, 35, 45);
        put_with_range(v, &p, (three_rows[i] + 1) % ROWS, 42, 48);
        put_with_range(v, &p, (three_rows[i] + 1) % ROWS, 29, 31);
        set_range(&p, ROWS / 2, 29, 31);
        put_with_range(v, &p, ROWS - 2, 50, 50);
    }
}

static void put_spoiled_policies(struct vectors *v, struct dice *d)
{
    static void (*const spoil[])(struct dice *, struct policy *) = {
        spoil_order, spoil_ends, spoil_encapsulation, spoil_by_overlap};
    struct policy p;
    for (unsigned which = 0; which < 4; which++)
        for (unsigned made = 0; made < 12;) {
            uint8_t file[FILE_ENOUGH];
            random_policy(d, SMALL, &p);
            spoil[which](d, &p);
            size_t n = ref_write(&p, file, sizeof file).length;
            if (ref_unpack(ref_check(file, n)).outcome != 23 + which)
                continue;
            put_file(v, file, n);
            made++;
        }
}

static void put_good_policies(struct vectors *v, struct dice *d)
{
    static const unsigned many[] = {[TINY] = 20, [SMALL] = 30, [MIDDLE] = 8, [CROWDED] = 4};
    struct policy p;
    for (enum size size = TINY; size <= CROWDED; size++)
        for (unsigned i = 0; i < many[size]; i++) {
            random_policy(d, size, &p);
            put_policy(v, &p);
        }
}

static void put_damaged_files(struct vectors *v, struct dice *d, size_t most)
{
    static uint8_t file[DAMAGED_ENOUGH];
    struct policy p;
    while (v->size < most) {
        random_policy(d, chance(d, 30) ? TINY : SMALL, &p);
        size_t n = random_damaged_file(d, &p, file);
        if (n < 500)
            put_file(v, file, n);
    }
}

static void make_files(struct vectors *v)
{
    struct dice d = dice_from(SEED);
    struct policy p;
    put_file(v, known_example, 0);
    put_file(v, known_example, sizeof known_example);
    known_department(&p);
    put_policy(v, &p);
    put_bare_files(v);
    put_first_numbers(v);
    put_ten_bytes(v);
    put_all_damage(v);
    put_largest(v);
    put_not_strict(v);
    put_unsound_ranges(v);
    put_spoiled_policies(v, &d);
    put_good_policies(v, &d);
    put_damaged_files(v, &d, FILES_MOST - 10000);
}

/* ---- requests.bin ---- */

static void put_request_on(struct vectors *v, const struct policy *p, uint64_t officer,
                           uint64_t kind, uint64_t a, uint64_t b)
{
    uint8_t file[FILE_ENOUGH];
    struct request q = {officer, kind, a, b};
    put_request(v, file, ref_write(p, file, sizeof file).length, q);
}

static void put_department_cases(struct vectors *v)
{
    static const struct request cases[] = {
        {0, INSERT_EDGE, QE1, PE1}, {1, INSERT_EDGE, QE1, PE2}, {0, INSERT_EDGE, QE1, PE2},
        {1, INSERT_EDGE, QE1, E1},  {0, DELETE_EDGE, QE1, E1},  {1, DELETE_EDGE, QE1, E1},
        {1, DELETE_EDGE, PL1, E1},  {0, CREATE_ROLE, PL1, PE1}, {1, CREATE_ROLE, DIR, PE1},
        {1, DELETE_ROLE, E1, 0},    {0, DELETE_ROLE, PE1, 0},   {0, PUT_USER, 2, PE1},
        {0, PUT_USER, 2, PL1},      {0, PUT_USER, 1, PE1},      {0, CREATE_ROLE, PL2, DIR},
        {UINT64_MAX, 99, 0, 0},     {0, DELETE_ROLE, PE1, 1},   {3, INSERT_EDGE, QE1, PE1},
    };
    struct policy p;
    known_department(&p);
    for (unsigned i = 0; i < sizeof cases / sizeof cases[0]; i++)
        put_request_on(v, &p, cases[i].officer, cases[i].kind, cases[i].a, cases[i].b);
    p.user_roles[2] = ref_with(p.user_roles[2], PE1);
    put_request_on(v, &p, 0, DELETE_ROLE, PE1, 0);
}

static void put_chain_cases(struct vectors *v)
{
    struct policy p;
    known_chain(&p, 5);
    add_range(&p, 0, 0, 2);
    add_range(&p, 0, 1, 4);
    put_request_on(v, &p, 0, CREATE_ROLE, 3, 1);
    known_chain(&p, 4);
    add_range(&p, 0, 0, 2);
    add_range(&p, 0, 1, 3);
    put_request_on(v, &p, 0, CREATE_ROLE, 2, 1);
    known_chain(&p, 4);
    add_range(&p, 0, 0, 3);
    add_range(&p, 0, 1, 2);
    put_request_on(v, &p, 0, DELETE_EDGE, 2, 1);
    known_chain(&p, ROLES);
    add_range(&p, 0, 0, ROLES - 1);
    put_request_on(v, &p, 0, CREATE_ROLE, 40, 20);
    put_request_on(v, &p, 0, DELETE_ROLE, 30, 0);
    p.roles.in_use[30] = false;
    for (unsigned role = 0; role < ROLES; role++)
        p.roles.senior[role][30] = p.roles.senior[30][role] = false;
    put_request_on(v, &p, 0, CREATE_ROLE, 40, 20);
}

/* From one of the longest good files to another. */
static void put_largest_request(struct vectors *v)
{
    struct policy p;
    known_largest(&p);
    put_request_on(v, &p, USERS - 1, TAKE_USER, 0, 0);
}

/* A bad file's refusal comes before the kind's. */
static void put_bad_file_requests(struct vectors *v)
{
    struct request strange = {UINT64_MAX, 99, UINT64_MAX, UINT64_MAX}, plain = {0, 5, 3, 0};
    uint8_t file[KNOWN_EXAMPLE_LENGTH + 1] = {0};
    memcpy(file, known_example, sizeof known_example);
    put_request(v, file, 0, strange);
    put_request(v, file, 7, strange);
    put_request(v, file, sizeof file, plain);
    file[19] = 4;
    put_request(v, file, KNOWN_EXAMPLE_LENGTH, plain);
}

/* Random requests, until each kind has given each of its numbers a few times. */
static void put_random_requests(struct vectors *v, struct dice *d)
{
    uint8_t file[FILE_ENOUGH];
    struct policy p;
    for (unsigned i = 0; i < 4000; i++) {
        random_policy(d, i % 16 == 0 ? CROWDED : i % 4 == 0 ? TINY : SMALL, &p);
        size_t n = ref_write(&p, file, sizeof file).length;
        for (unsigned tries = 0; tries < 8; tries++) {
            struct request q = random_request(d, &p);
            unsigned kind = q.kind <= KINDS ? q.kind : 0, outcome = ref_outcome(&p, q);
            bool wanted = n < 350 || (outcome == 6 && n < 700);
            if (wanted && v->reached[kind][outcome] < EACH_PAIR)
                put_request(v, file, n, q);
        }
    }
}

static void make_requests(struct vectors *v)
{
    struct dice d = dice_from(SEED);
    put_department_cases(v);
    put_chain_cases(v);
    put_bad_file_requests(v);
    put_largest_request(v);
    put_random_requests(v, &d);
}

/* ---- listings.bin ---- */

static void put_random_listings(struct vectors *v, struct dice *d, size_t most)
{
    uint8_t file[FILE_ENOUGH];
    struct policy p;
    for (unsigned i = 0; v->size < most; i++) {
        random_policy(d, i % 10 == 0 ? MIDDLE : i % 4 == 0 ? TINY : SMALL, &p);
        size_t n = ref_write(&p, file, sizeof file).length;
        if (n < 600)
            put_listing(v, file, n, below(d, p.users + 1));
    }
}

static void make_listings(struct vectors *v)
{
    struct dice d = dice_from(SEED);
    uint8_t file[FILE_ENOUGH];
    struct policy p;
    known_department(&p);
    size_t n = ref_write(&p, file, sizeof file).length;
    for (uint64_t officer = 0; officer <= 3; officer++)
        put_listing(v, file, n, officer);
    put_listing(v, file, n, UINT64_MAX);
    put_listing(v, file, n - 1, 0);
    put_listing(v, known_example, sizeof known_example, 0);
    put_listing(v, known_example, sizeof known_example, 1);
    put_random_listings(v, &d, LISTINGS_MOST - 8000);
}

/* ---- tables.bin ---- */

static void put_tables(struct vectors *v, const uint8_t *file, size_t n)
{
    for (uint64_t table = 1; table <= TABLES; table++)
        put_table(v, file, n, table);
}

static void put_policy_tables(struct vectors *v, const struct policy *p)
{
    uint8_t file[FILE_ENOUGH];
    put_tables(v, file, ref_write(p, file, sizeof file).length);
}

/* A table number not 1 to 5 gives 1 before a bad file its own refusal. */
static void put_bad_tables(struct vectors *v)
{
    uint8_t file[KNOWN_EXAMPLE_LENGTH + 1] = {0};
    memcpy(file, known_example, sizeof known_example);
    for (unsigned n = 0; n <= sizeof file; n += 7) {
        put_table(v, file, n, 0);
        put_table(v, file, n, TABLES + 1);
        put_table(v, file, n, UINT64_MAX);
        put_tables(v, file, n);
    }
    file[19] = 4;
    put_tables(v, file, KNOWN_EXAMPLE_LENGTH);
    file[19] = 0;
    put_tables(v, file, KNOWN_EXAMPLE_LENGTH);
}

static void make_tables(struct vectors *v)
{
    struct dice d = dice_from(SEED);
    struct policy p;
    put_tables(v, known_example, sizeof known_example);
    put_table(v, known_example, sizeof known_example, 0);
    put_table(v, known_example, sizeof known_example, TABLES + 1);
    put_bad_tables(v);
    known_department(&p);
    put_policy_tables(v, &p);
    every_section(&p);
    put_policy_tables(v, &p);
    while (v->size < TABLES_MOST / 2) {
        random_policy(&d, chance(&d, 30) ? TINY : SMALL, &p);
        put_policy_tables(v, &p);
    }
}

/* ---- Files in a folder ---- */

static FILE *open_in(const char *folder, const char *name)
{
    char path[4096];
    if (snprintf(path, sizeof path, "%s/%s", folder, name) >= (int)sizeof path)
        return NULL;
    return fopen(path, "wb");
}

/* False if the file cannot be written or is larger than it may be. */
static bool make(const char *folder, const char *name, size_t most,
                 void (*records)(struct vectors *), struct vectors *v)
{
    memset(v, 0, sizeof *v);
    v->out = open_in(folder, name);
    if (!v->out)
        return false;
    records(v);
    bool written = !ferror(v->out);
    if (fclose(v->out) != 0)
        written = false;
    printf("%s: %zu records, %zu bytes\n", name, v->records, v->size);
    return written && v->size <= most;
}

static bool all_refusals_reached(const struct vectors *v)
{
    for (unsigned outcome = 20; outcome <= 27; outcome++)
        if (v->reached[0][outcome] == 0)
            return false;
    return v->reached[0][0] > 0;
}

/* Document 01's constant table, acceptance with it; kind 0 is an unknown one. */
static bool all_pairs_reached(const struct vectors *v)
{
    static const char *const numbers[KINDS + 1] = {"1",      "02345",  "0235",  "02345", "0235",
                                                   "023569", "012378", "02359", "02359"};
    for (unsigned kind = 0; kind <= KINDS; kind++)
        for (const char *number = numbers[kind]; *number; number++)
            if (v->reached[kind][*number - '0'] == 0)
                return false;
    return true;
}

static bool make_all(const char *folder)
{
    static struct vectors v;
    return make(folder, "files.bin", FILES_MOST, make_files, &v) && all_refusals_reached(&v) &&
           make(folder, "requests.bin", REQUESTS_MOST, make_requests, &v) &&
           all_pairs_reached(&v) &&
           make(folder, "listings.bin", LISTINGS_MOST, make_listings, &v) &&
           make(folder, "tables.bin", TABLES_MOST, make_tables, &v);
}

static void department_bytes(struct vectors *v)
{
    uint8_t file[FILE_ENOUGH];
    struct policy p;
    known_department(&p);
    put_bytes(v, file, ref_write(&p, file, sizeof file).length);
}

static int usage(void)
{
    fputs("usage: make_vectors [-F] FOLDER\n", stderr);
    return 2;
}

int main(int argc, char **argv)
{
    static struct vectors v;
    bool made;
    if (argc == 3 && strcmp(argv[1], "-F") == 0)
        made = make(argv[2], "F.policy", FILE_ENOUGH, department_bytes, &v);
    else if (argc == 2)
        made = make_all(argv[1]);
    else
        return usage();
    if (!made)
        fputs("not written, too large, or a number was not reached\n", stderr);
    return !made;
}
