/*
 * The programs that have document 01's rules, asked in one way: the module's archive, the
 * plain version, and the reference that both are compared with.
 */
#ifndef PROGRAMS_H
#define PROGRAMS_H

#include "../tests/reference.h"

enum entry { CHECK, QUESTION, REQUEST, LISTING };

/* A call of an entry; the question takes its user and permission from officer and a. */
struct call {
    enum entry entry;
    const uint8_t *file;
    size_t n;
    struct request q;
};

enum program { REFERENCE, ARCHIVE, PLAIN, PROGRAMS };
extern const char *const program_name[PROGRAMS];

uint64_t ask(enum program program, const struct call *c, uint8_t *out, size_t out_n);

/* Whether all three give the same answer and leave the same bytes; tells where they do not. */
bool all_agree(const struct call *c);

/* The same for so many random policies, their damaged files, and questions to them. */
bool all_agree_on_random(uint64_t seed, unsigned policies);

#endif
