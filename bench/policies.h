/*
 * The policies that are measured beside F.
 */
#ifndef POLICIES_H
#define POLICIES_H

#include "../tests/reference.h"

/*
 * How the roles between the lowest and the highest stand. In a chain each two are comparable,
 * so no edge can be inserted; flat, no two are, so that all can be, which is the most that a
 * listing may have to try.
 */
enum shape { CHAIN, FLAT };

/* The user whose administrative role every row is for, or a senior of it. */
enum { OFFICER = 0 };

/*
 * A lowest role 0, a highest role, the others between them, and can-modify rows of the
 * officer that all have this one range: equal ranges never overlap in part, and each row is
 * checked to the end.
 */
void sized_policy(struct policy *p, enum shape shape, unsigned roles, unsigned rows);

/*
 * 63 roles in use, 61 of them inside the range of the officer, 64 can-modify rows; and 16
 * administrative roles, 256 users, 256 permissions, 64 rows in each other table. One number
 * is free, so that a role can be created; the 61 are empty and unnamed, so that each can be
 * deleted.
 */
enum { FULL_ROLES = ROLES - 1 };
void full_size_policy(struct policy *p, enum shape shape);

#endif
