/*
 * Policies that are known by heart: those of document 01 and the largest file.
 */
#ifndef KNOWN_H
#define KNOWN_H

#include "reference.h"

/* The roles of the engineering department, policy F. */
enum department { E, ED, E1, PE1, QE1, PL1, E2, PE2, QE2, PL2, DIR };

/* Its administrative roles; document 01 names them and leaves their numbers open. */
enum { SSO, DSO, PSO1 };

void add_row(struct policy *p, unsigned table, struct row row);
void add_range(struct policy *p, unsigned admin, unsigned low, unsigned high);
unsigned add_user(struct policy *p, uint64_t roles, uint64_t admins);

/* Adds every pair that follows from those present. */
void close_order(struct order *o);

/* Policy F. */
void known_department(struct policy *p);

/* Roles 0 < 1 < .. < count - 1, administrative role 0, and user 0 who holds it. */
void known_chain(struct policy *p, unsigned count);

/* The 20 bytes of document 01's listing. */
enum { KNOWN_EXAMPLE_LENGTH = 20 };
extern const uint8_t known_example[KNOWN_EXAMPLE_LENGTH];

/*
 * Every number as wide as a good policy allows. A lowest role has an empty set of
 * juniors, 1 byte and not 10; the same for administrative roles, 1 byte and not 3. So
 * the longest good file is 11 bytes shorter than the 10,375 that are always enough.
 */
enum { KNOWN_LARGEST_LENGTH = FILE_ENOUGH - 11 };
void known_largest(struct policy *p);

/* The same with the two lowest roles junior to themselves: 10,375 bytes, refused with 23. */
void known_largest_not_strict(struct policy *p);

#endif
