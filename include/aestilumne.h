/*
 * Role administration for railway signalling software: a policy of roles, officers and
 * permissions as a file, eight kinds of request that change it, the permission question, and
 * the listing of what an officer may change.
 *
 * Every function takes the whole policy as the bytes of its file, checks them itself, and
 * answers any bytes and any numbers. Nothing is kept between calls, nothing is allocated, and
 * no input is written to.
 *
 * The caller owes three things, which C cannot check:
 *   - each pointer is valid for the length beside it. A length of 0 still takes a pointer that
 *     is not null;
 *   - `out` does not overlap `policy`;
 *   - there is as much stack as AESTILUMNE_STACK_CHECK and its like say, whatever the file holds.
 *
 * An answer is ONE number that holds four. It is never a truth value: take it apart with
 * aestilumne_apart, or ask aestilumne_may.
 */
#ifndef AESTILUMNE_H
#define AESTILUMNE_H

#include <stddef.h>
#include <stdint.h>

#ifdef __cplusplus
extern "C" {
#endif

/* A bad file's 20 to 27 comes before all others but AESTILUMNE_NO_TABLE: 20 to 22 for the first
 * number of the file that fails, then 27, then the first of 23 to 26 that holds. Then the first
 * of 1 to 10 that holds. A bad file has a place: 20 the input's length, 21 and 22 the number's
 * first byte, 27 the first byte left over, 23 to 26 always 0. */
enum aestilumne_outcome {
    AESTILUMNE_ACCEPTED = 0,

    AESTILUMNE_NO_KIND = 1,       /* kind not 1 to 8, or kind 6 with b not 0 */
    AESTILUMNE_NO_TABLE = 1,      /* table not 1 to 5 */
    AESTILUMNE_UNKNOWN = 2,       /* officer, user or permission number not below its count, or
                                     a role not in use */
    AESTILUMNE_NO_ROW = 3,        /* the officer may use no row that the kind needs */
    AESTILUMNE_NOT_SATISFIED = 4, /* kinds 1, 3: such rows exist, none is satisfied */
    AESTILUMNE_NOTHING_TO_DO = 5, /* already or not explicitly assigned; kind 5 with a not
                                     senior to b; kind 7 with a, b equal or comparable; kind 8
                                     with (a, b) no edge */
    AESTILUMNE_FULL = 6,          /* kind 5, 64 roles in use */
    AESTILUMNE_NAMED = 7,         /* kind 6, a is an end, needed or barred role of any row */
    AESTILUMNE_OCCUPIED = 8,      /* kind 6, a user or permission is explicitly in a */
    AESTILUMNE_SPOILS_RANGE = 9,  /* after the change some authority range would have low not
                                     junior to high, would not be encapsulated, or two would
                                     overlap in part */
    AESTILUMNE_TOO_SHORT = 10,    /* out is shorter than what would be written */

    AESTILUMNE_ENDS = 20,             /* the input ends inside or before a number */
    AESTILUMNE_NOT_SHORTEST = 21,     /* a number not shortest, or over 64 bits */
    AESTILUMNE_NOT_ALLOWED = 22,      /* a first number other than 1, a count over its size, an
                                         administrative role above 15, a set or row naming what
                                         is not in use, brackets above 3 */
    AESTILUMNE_NOT_STRICT = 23,       /* either order not strict */
    AESTILUMNE_LOW_NOT_JUNIOR = 24,   /* a can-modify low not junior to high */
    AESTILUMNE_NOT_ENCAPSULATED = 25, /* a range not encapsulated */
    AESTILUMNE_OVERLAP = 26,          /* two ranges overlap in part */
    AESTILUMNE_LEFT_OVER = 27         /* bytes left over */
};

/* The kinds of request. */
enum aestilumne_kind {
    AESTILUMNE_ASSIGN_USER = 1,       /* put user a in role b */
    AESTILUMNE_REVOKE_USER = 2,       /* take user a out of role b */
    AESTILUMNE_ASSIGN_PERMISSION = 3, /* put permission a in role b */
    AESTILUMNE_REVOKE_PERMISSION = 4, /* take permission a out of role b */
    AESTILUMNE_CREATE_ROLE = 5,       /* create a role, parent a, child b */
    AESTILUMNE_DELETE_ROLE = 6,       /* delete role a, b = 0 */
    AESTILUMNE_INSERT_EDGE = 7,       /* make a senior to b */
    AESTILUMNE_DELETE_EDGE = 8        /* delete edge (a, b) */
};

/* The tables of a policy file. */
enum aestilumne_table_number {
    AESTILUMNE_CAN_ASSIGN = 1,
    AESTILUMNE_CAN_REVOKE = 2,
    AESTILUMNE_CAN_ASSIGN_PERMISSION = 3,
    AESTILUMNE_CAN_REVOKE_PERMISSION = 4,
    AESTILUMNE_CAN_MODIFY = 5
};

/* Sizes that are always enough. */
#define AESTILUMNE_FILE_ENOUGH 10375    /* bytes of a policy file */
#define AESTILUMNE_LISTING_ENOUGH 37056 /* bytes of a listing */

/* Bytes of stack that a call takes at most, with good files and with damaged ones: upper bounds
 * for x86-64, derived from the archive, in which the C library's memcpy, memmove and memset count
 * with 1,024 bytes. A thread needs beside it what its own functions take and what the C library
 * keeps on a thread's stack. */
#define AESTILUMNE_STACK_CHECK 31744
#define AESTILUMNE_STACK_QUESTION 32256
#define AESTILUMNE_STACK_TABLE 31744
#define AESTILUMNE_STACK_REQUEST 71168
#define AESTILUMNE_STACK_LISTING 40960

/* Is this a policy file? Outcome 0 or 20 to 27. */
uint64_t aestilumne_check(const uint8_t *policy, size_t n);

/* Read, request, write. Accepted (0): out holds the file of the policy after the request, its
 * length is returned, bytes past it stay; number is the new role of kind 5, else 0. Otherwise
 * the first refusal (20 to 27, then 1 to 9, then 10), with length 0, number 0, and nothing is
 * written. */
uint64_t aestilumne_request(const uint8_t *policy, size_t n, uint64_t officer, uint64_t kind,
                            uint64_t a, uint64_t b, uint8_t *out, size_t out_n);

/* Every request of kinds 5 to 8 that would be accepted from this officer, ordered by kind,
 * then a, then b, three bytes each (kind, a, b), from the start of out; later bytes stay.
 * length is the number of entries. Refused with 20 to 27, then 2, then 10: length 0, and
 * nothing is written. */
uint64_t aestilumne_listing(const uint8_t *policy, size_t n, uint64_t officer, uint8_t *out,
                            size_t out_n);

/* May this user exercise this permission? number 1 is yes, 0 is no. Refused with 20 to 27,
 * then 2. See aestilumne_may. */
uint64_t aestilumne_question(const uint8_t *policy, size_t n, uint64_t user,
                             uint64_t permission);

/* The part of the file that one table is, from its count to its last row: it starts at place
 * and has length bytes (never 0 when accepted). Refused with 1, then 20 to 27: length 0. */
uint64_t aestilumne_table(const uint8_t *policy, size_t n, uint64_t table);

/* An answer, taken apart. */
struct aestilumne_answer {
    unsigned outcome; /* bits 0 to 7: enum aestilumne_outcome */
    unsigned number;  /* bits 8 to 15: the new role, or yes and no */
    unsigned place;   /* bits 16 to 31: where in a bad file, or where a table starts; else 0 */
    uint32_t length;  /* bits 32 to 63: bytes, or entries of a listing */
};

static inline struct aestilumne_answer aestilumne_apart(uint64_t answer)
{
    struct aestilumne_answer r;
    r.outcome = (unsigned)(answer & 0xFF);
    r.number = (unsigned)(answer >> 8 & 0xFF);
    r.place = (unsigned)(answer >> 16 & 0xFFFF);
    r.length = (uint32_t)(answer >> 32);
    return r;
}

/* 1 only for an answer to the permission question that says yes; every refusal is 0. Not for
 * the answer to a request: a role that was created as number 1 would read as yes. */
static inline int aestilumne_may(uint64_t answer)
{
    struct aestilumne_answer r = aestilumne_apart(answer);
    return r.outcome == AESTILUMNE_ACCEPTED && r.number == 1;
}

#ifdef __cplusplus
}
#endif

#endif
