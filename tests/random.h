/*
 * Random policies, requests and damaged files, all from one seed: the same seed gives
 * the same run.
 */
#ifndef RANDOM_H
#define RANDOM_H

#include "reference.h"

struct dice {
    uint64_t state;
};

struct dice dice_from(uint64_t seed);
uint64_t roll(struct dice *d);
uint64_t below(struct dice *d, uint64_t limit);
bool chance(struct dice *d, unsigned percent);

/*
 * How large a policy is. Crowded: 64 roles and few of all else; full: all that a policy
 * may hold, with 62 to 64 roles.
 */
enum size { TINY, SMALL, MIDDLE, CROWDED, FULL };

/* A good policy: its file is never refused. */
void random_policy(struct dice *d, enum size size, struct policy *p);

/* Good, nearly good, out of range or huge. */
struct request random_request(struct dice *d, const struct policy *p);

/* Small numbers mostly, and those around the sizes and the widths. */
uint64_t random_number(struct dice *d);

/* Room for any damaged file; what is left over shows a length kept in 16 bits. */
enum { LEFT_OVER_MOST = 65536, DAMAGED_ENOUGH = FILE_ENOUGH + LEFT_OVER_MOST + 256 };

/* The file of this policy with some damage, its length returned; at times it is still good. */
size_t random_damaged_file(struct dice *d, const struct policy *p, uint8_t *out);

/* Each spoils the policy so that its file is refused with that number, where it can. */
void spoil_order(struct dice *d, struct policy *p);         /* 23 */
void spoil_ends(struct dice *d, struct policy *p);          /* 24 */
void spoil_encapsulation(struct dice *d, struct policy *p); /* 25 */
void spoil_by_overlap(struct dice *d, struct policy *p);    /* 26 */

#endif
