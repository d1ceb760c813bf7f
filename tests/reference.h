/*
 * The rules of document 01, written a second time and from the paper alone.
 * Nothing here is shared with the module; where the two differ, one is wrong.
 */
#ifndef REFERENCE_H
#define REFERENCE_H

#include <stdbool.h>
#include <stddef.h>
#include <stdint.h>

enum {
    ROLES = 64,
    ADMINS = 16,
    USERS = 256,
    PERMISSIONS = 256,
    ROWS = 64,
    FILE_ENOUGH = 10375,
    LISTING_ENOUGH = 37056
};

enum kind {
    PUT_USER = 1,
    TAKE_USER,
    PUT_PERMISSION,
    TAKE_PERMISSION,
    CREATE_ROLE,
    DELETE_ROLE,
    INSERT_EDGE,
    DELETE_EDGE
};

/* The five tables, by their number in the file. */
enum { CAN_ASSIGN = 1, CAN_REVOKE, CAN_ASSIGN_PERMISSION, CAN_REVOKE_PERMISSION, CAN_MODIFY };
enum { TABLES = 5 };

enum { LOW_INCLUDED = 1, HIGH_INCLUDED = 2 };

/* One type for both orders; the administrative one uses the first 16 numbers. */
struct order {
    bool in_use[ROLES];
    bool senior[ROLES][ROLES]; /* senior[a][b]: a is senior to b */
};

/* A row of any table; brackets and sets stay 0 where its table has none. */
struct row {
    unsigned admin, low, high, brackets;
    uint64_t needed, barred;
};

struct table {
    unsigned count;
    struct row rows[ROWS];
};

/* A set is a number with bit n for member n, as in the file. */
struct policy {
    struct order roles, admins;
    unsigned users;
    uint64_t user_roles[USERS];
    uint64_t user_admins[USERS];
    unsigned permissions;
    uint64_t permission_roles[PERMISSIONS];
    struct table tables[TABLES + 1]; /* from 1; number 0 stays empty */
};

struct request {
    uint64_t officer, kind, a, b;
};

/* What a call answers; what a call does not use is 0. */
struct reply {
    unsigned outcome, number;
    size_t place, length;
};

bool ref_has(uint64_t set, unsigned member);
uint64_t ref_with(uint64_t set, unsigned member);

/* The order, ranges and rows. */
bool ref_strict(const struct order *o);
bool ref_edge(const struct order *o, unsigned a, unsigned b);
bool ref_inside(const struct order *o, const struct row *range, unsigned role);
bool ref_encapsulated(const struct order *o, const struct row *range);
bool ref_overlap_in_part(const struct order *o, const struct row *x, const struct row *y);
bool ref_in_brackets(const struct order *o, const struct row *row, unsigned role);
bool ref_may_use(const struct policy *p, unsigned officer, const struct row *row);

/* 0, or the first of 24, 25 and 26 that the can-modify rows deserve under this order. */
unsigned ref_ranges_fault(const struct order *o, const struct table *modify);

/* A refused read leaves an empty policy. */
struct reply ref_read(const uint8_t *bytes, size_t n, struct policy *p);
struct reply ref_write(const struct policy *p, uint8_t *out, size_t out_n);

/* A refused request leaves in `after` a copy of `before`. */
unsigned ref_outcome(const struct policy *p, struct request q);
struct reply ref_decide(const struct policy *before, struct request q, struct policy *after);

struct reply ref_may_exercise(const struct policy *p, uint64_t user, uint64_t permission);
struct reply ref_list(const struct policy *p, uint64_t officer, uint8_t *out, size_t out_n);

/* One answer: bits 0-7 outcome, 8-15 number, 16-31 place, 32-63 length. */
uint64_t ref_pack(struct reply r);
struct reply ref_unpack(uint64_t answer);

/* The five entries, on the bytes of a policy file. */
uint64_t ref_check(const uint8_t *policy, size_t n);
uint64_t ref_request(const uint8_t *policy, size_t n, struct request q, uint8_t *out,
                     size_t out_n);
uint64_t ref_listing(const uint8_t *policy, size_t n, uint64_t officer, uint8_t *out,
                     size_t out_n);
uint64_t ref_question(const uint8_t *policy, size_t n, uint64_t user, uint64_t permission);
uint64_t ref_table(const uint8_t *policy, size_t n, uint64_t table);

#endif
