/*
 * Memory lent to a call. Bytes around it must stay as they were; or, guarded, it ends at
 * the edge of a page that no one may touch.
 */
#ifndef LENT_H
#define LENT_H

#include <stdbool.h>
#include <stddef.h>
#include <stdint.h>

enum { MARGIN = 64 };

struct lent {
    uint8_t *memory;
    size_t size;
    bool guarded;
    uint8_t *bytes; /* what the call gets */
    size_t n;
};

/* Room for buffers of up to `most` bytes. False if there is no memory. */
bool lent_open(struct lent *l, size_t most, bool guarded);

/* The buffer of the next call. With no guard it starts `shift` bytes further on (below 16). */
void lent_place(struct lent *l, size_t n, unsigned shift);

/* How many bytes behind the buffer may be looked at: MARGIN, or none if guarded. */
size_t lent_behind(const struct lent *l);

/* A run that touches such a page, or none, ends with this message and status 1. */
void lent_report_touching(const char *message);

#endif
