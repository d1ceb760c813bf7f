#include "programs.h"

#include <inttypes.h>
#include <stdio.h>
#include <string.h>

#include "../include/aestilumne.h"
#include "../tests/random.h"
#include "plain.h"

const char *const program_name[PROGRAMS] = {"reference", "archive", "plain"};

static uint64_t ask_reference(const struct call *c, uint8_t *out, size_t out_n)
{
    switch (c->entry) {
    case QUESTION:
        return ref_question(c->file, c->n, c->q.officer, c->q.a);
    case REQUEST:
        return ref_request(c->file, c->n, c->q, out, out_n);
    case LISTING:
        return ref_listing(c->file, c->n, c->q.officer, out, out_n);
    default:
        return ref_check(c->file, c->n);
    }
}

/* The archive and the plain version have the same four functions. */
struct entries {
    uint64_t (*check)(const uint8_t *, size_t);
    uint64_t (*question)(const uint8_t *, size_t, uint64_t, uint64_t);
    uint64_t (*request)(const uint8_t *, size_t, uint64_t, uint64_t, uint64_t, uint64_t,
                        uint8_t *, size_t);
    uint64_t (*listing)(const uint8_t *, size_t, uint64_t, uint8_t *, size_t);
};

static const struct entries archive = {aestilumne_check, aestilumne_question,
                                       aestilumne_request, aestilumne_listing};
static const struct entries plain = {plain_check, plain_question, plain_request, plain_listing};

static uint64_t ask_entries(const struct entries *e, const struct call *c, uint8_t *out,
                            size_t out_n)
{
    const struct request *q = &c->q;
    switch (c->entry) {
    case QUESTION:
        return e->question(c->file, c->n, q->officer, q->a);
    case REQUEST:
        return e->request(c->file, c->n, q->officer, q->kind, q->a, q->b, out, out_n);
    case LISTING:
        return e->listing(c->file, c->n, q->officer, out, out_n);
    default:
        return e->check(c->file, c->n);
    }
}

uint64_t ask(enum program program, const struct call *c, uint8_t *out, size_t out_n)
{
    if (program == REFERENCE)
        return ask_reference(c, out, out_n);
    return ask_entries(program == ARCHIVE ? &archive : &plain, c, out, out_n);
}

/* ---- Comparing ---- */

static void tell(enum program program, const struct call *c, uint64_t wanted, uint64_t got)
{
    static const char *const entry_name[] = {"check", "question", "request", "listing"};
    const struct request *q = &c->q;
    printf("FAILED: %s of %zu bytes, officer %" PRIu64 " kind %" PRIu64 " a %" PRIu64
           " b %" PRIu64 ": the reference answers %" PRIx64 ", %s %" PRIx64 "%s\n",
           entry_name[c->entry], c->n, q->officer, q->kind, q->a, q->b, wanted,
           program_name[program], got, wanted == got ? ", with other bytes" : "");
}

/* Both buffers start with the same bytes, so that one written past its end shows. */
static bool agree_within(const struct call *c, size_t out_n, uint64_t *answer)
{
    static uint8_t wanted[LISTING_ENOUGH], seen[LISTING_ENOUGH];
    bool agree = true;
    memset(wanted, 0xA5, sizeof wanted);
    *answer = ask(REFERENCE, c, wanted, out_n);
    for (enum program program = ARCHIVE; program < PROGRAMS; program++) {
        memset(seen, 0xA5, sizeof seen);
        uint64_t got = ask(program, c, seen, out_n);
        if (got == *answer && memcmp(seen, wanted, sizeof seen) == 0)
            continue;
        tell(program, c, *answer, got);
        agree = false;
    }
    return agree;
}

bool all_agree(const struct call *c)
{
    uint64_t answer;
    return agree_within(c, LISTING_ENOUGH, &answer);
}

/* With a buffer that is one byte too short as well. */
static bool agree_when_short(const struct call *c, unsigned entry_size)
{
    uint64_t answer;
    bool agree = agree_within(c, LISTING_ENOUGH, &answer);
    size_t length = entry_size * ref_unpack(answer).length;
    return agree && (length == 0 || agree_within(c, length - 1, &answer));
}

/* ---- Random policies ---- */

/* The reference tries every request in a listing, so large policies have few. */
static bool agree_on_listing(struct dice *d, const struct policy *p, struct call c)
{
    c.entry = LISTING;
    c.q.officer = below(d, p->users + 1);
    return agree_when_short(&c, 3);
}

static bool agree_on_policy(struct dice *d, const struct policy *p, enum size size)
{
    uint8_t file[FILE_ENOUGH];
    struct call c = {CHECK, file, ref_write(p, file, sizeof file).length, {0, 0, 0, 0}};
    bool agree = all_agree(&c);
    c.entry = QUESTION;
    c.q.officer = below(d, p->users + chance(d, 10));
    c.q.a = below(d, p->permissions + chance(d, 10));
    agree = all_agree(&c) && agree;
    c.entry = REQUEST;
    for (unsigned i = 0; i < 4; i++) {
        c.q = random_request(d, p);
        agree = agree_when_short(&c, 1) && agree;
    }
    if (size <= SMALL || chance(d, 2))
        agree = agree_on_listing(d, p, c) && agree;
    return agree;
}

static bool agree_on_damaged(struct dice *d, const struct policy *p)
{
    static uint8_t file[DAMAGED_ENOUGH];
    struct call c = {CHECK, file, random_damaged_file(d, p, file), {0, 0, 0, 0}};
    bool agree = all_agree(&c);
    c.entry = REQUEST;
    c.q = random_request(d, p);
    return all_agree(&c) && agree;
}

bool all_agree_on_random(uint64_t seed, unsigned policies)
{
    static const enum size sizes[] = {TINY,  SMALL,  SMALL,  SMALL,
                                      SMALL, MIDDLE, MIDDLE, CROWDED};
    struct dice d = dice_from(seed);
    struct policy p;
    bool agree = true;
    for (unsigned i = 0; i < policies && agree; i++) {
        enum size size = i % 100 == 0 ? FULL : sizes[i % (sizeof sizes / sizeof sizes[0])];
        random_policy(&d, size, &p);
        agree = agree_on_policy(&d, &p, size);
        for (unsigned j = 0; j < 4; j++)
            agree = agree_on_damaged(&d, &p) && agree;
    }
    return agree;
}
