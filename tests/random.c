#include "random.h"

#include <string.h>

#include "known.h"

/* ---- Dice ---- */

struct dice dice_from(uint64_t seed)
{
    struct dice d = {seed};
    return d;
}

/* A counter, well mixed (splitmix64). */
uint64_t roll(struct dice *d)
{
    uint64_t z = d->state += 0x9E3779B97F4A7C15u;
    z = (z ^ z >> 30) * 0xBF58476D1CE4E5B9u;
    z = (z ^ z >> 27) * 0x94D049BB133111EBu;
    return z ^ z >> 31;
}

uint64_t below(struct dice *d, uint64_t limit)
{
    return limit == 0 ? 0 : roll(d) % limit;
}

bool chance(struct dice *d, unsigned percent)
{
    return below(d, 100) < percent;
}

/* A random member, or 0 if there is none. */
static unsigned pick(struct dice *d, const bool *members)
{
    unsigned found[ROLES], count = 0;
    for (unsigned member = 0; member < ROLES; member++)
        if (members[member])
            found[count++] = member;
    return count == 0 ? 0 : found[below(d, count)];
}

static unsigned count_of(const bool *members)
{
    unsigned count = 0;
    for (unsigned member = 0; member < ROLES; member++)
        count += members[member];
    return count;
}

static uint64_t random_set(struct dice *d, const bool *from, unsigned picks)
{
    uint64_t set = 0;
    for (unsigned i = 0; i < picks && count_of(from) > 0; i++)
        set = ref_with(set, pick(d, from));
    return set;
}

/* ---- Orders ---- */

/*
 * Puts roles strictly between low and high, some of them as smaller ranges with ends of
 * their own. Roles of two units meet at the units' ends only, so the ranges are
 * encapsulated.
 */
static void fill_range(struct dice *d, struct order *o, const unsigned *roles, unsigned count,
                       unsigned low, unsigned high)
{
    unsigned ends[ROLES][2], units = 0;
    while (count > 0) {
        unsigned taken = count >= 2 && chance(d, 45) ? 2 + below(d, count - 1) : 1;
        unsigned unit_low = roles[0], unit_high = taken == 1 ? roles[0] : roles[1];
        if (taken > 1) {
            o->senior[unit_high][unit_low] = true;
            fill_range(d, o, roles + 2, taken - 2, unit_low, unit_high);
        }
        o->senior[unit_low][low] = true;
        o->senior[high][unit_high] = true;
        ends[units][0] = unit_low;
        ends[units++][1] = unit_high;
        roles += taken;
        count -= taken;
    }
    for (unsigned lower = 0; lower < units; lower++)
        for (unsigned upper = lower + 1; upper < units; upper++)
            if (chance(d, 20)) {
                unsigned over = ends[upper][below(d, 2)];
                o->senior[over][ends[lower][below(d, 2)]] = true;
            }
}

static void random_pairs(struct dice *d, struct order *o, const unsigned *roles, unsigned count,
                         unsigned percent)
{
    for (unsigned upper = 0; upper < count; upper++)
        for (unsigned lower = 0; lower < upper; lower++)
            if (chance(d, percent))
                o->senior[roles[upper]][roles[lower]] = true;
}

/* Numbers in use: at times the lowest ones, else with holes and in any order. */
static void random_numbers(struct dice *d, unsigned size, unsigned numbers[ROLES])
{
    bool mixed = chance(d, 65);
    for (unsigned i = 0; i < size; i++) {
        unsigned other = mixed ? below(d, i + 1) : i;
        numbers[i] = numbers[other];
        numbers[other] = i;
    }
}

static void random_order(struct dice *d, unsigned size, unsigned count, struct order *o)
{
    unsigned numbers[ROLES] = {0};
    random_numbers(d, size, numbers);
    for (unsigned i = 0; i < count; i++)
        o->in_use[numbers[i]] = true;
    unsigned apart = chance(d, 25) ? below(d, 4) : 0;
    switch (below(d, 10)) {
    case 0: /* a chain */
        random_pairs(d, o, numbers, count, 100);
        break;
    case 1: /* few pairs or none */
        random_pairs(d, o, numbers, count, below(d, 5));
        break;
    case 2: /* any order */
        random_pairs(d, o, numbers, count, 5 + below(d, 40));
        break;
    default: /* a department, perhaps with roles apart from it */
        if (count >= 2 + apart) {
            o->senior[numbers[1]][numbers[0]] = true;
            fill_range(d, o, numbers + 2, count - 2 - apart, numbers[0], numbers[1]);
        }
    }
    close_order(o);
}

/* ---- Can-modify rows ---- */

struct ranges {
    unsigned count;
    struct row rows[ROLES * ROLES];
};

static bool is_empty(const struct order *o, const struct row *range)
{
    for (unsigned role = 0; role < ROLES; role++)
        if (ref_inside(o, range, role))
            return false;
    return true;
}

/* All ranges that a row may name under this order, empty ones or others. */
static void encapsulated_ranges(const struct order *o, bool empty, struct ranges *found)
{
    found->count = 0;
    for (unsigned low = 0; low < ROLES; low++)
        for (unsigned high = 0; high < ROLES; high++) {
            struct row range = {0, low, high, 0, 0, 0};
            if (o->senior[high][low] && is_empty(o, &range) == empty &&
                ref_encapsulated(o, &range))
                found->rows[found->count++] = range;
        }
}

static bool fits_beside(const struct policy *p, const struct row *range)
{
    const struct table *t = &p->tables[CAN_MODIFY];
    for (unsigned i = 0; i < t->count; i++)
        if (ref_overlap_in_part(&p->roles, &t->rows[i], range))
            return false;
    return true;
}

static void random_ranges(struct dice *d, struct policy *p, unsigned count)
{
    static struct ranges empty, other;
    struct table *t = &p->tables[CAN_MODIFY];
    encapsulated_ranges(&p->roles, true, &empty);
    encapsulated_ranges(&p->roles, false, &other);
    for (unsigned tries = 0; t->count < count && tries < 20 * count; tries++) {
        const struct ranges *from = other.count == 0 || chance(d, 15) ? &empty : &other;
        if (from->count == 0)
            continue;
        struct row range = from->rows[below(d, from->count)];
        if (t->count > 0 && chance(d, 10)) /* an equal range */
            range = t->rows[below(d, t->count)];
        range.admin = pick(d, p->admins.in_use);
        if (fits_beside(p, &range))
            add_row(p, CAN_MODIFY, range);
    }
}

/* ---- Members and the other tables ---- */

struct shape {
    unsigned roles, admins, users, permissions, rows;
    bool exact; /* as many rows as said, not up to that many */
};

/* The least and the most of each size. */
static const struct limits {
    struct shape least, most;
} limits[] = {
    [TINY] = {{0, 0, 0, 0, 2, false}, {4, 3, 3, 2, 2, false}},
    [SMALL] = {{4, 1, 1, 1, 5, false}, {12, 4, 6, 5, 5, false}},
    [MIDDLE] = {{10, 1, 1, 1, 14, false}, {39, 8, 30, 20, 14, false}},
    [CROWDED] = {{64, 1, 1, 1, 6, false}, {64, 3, 4, 3, 6, false}},
    [FULL] = {{62, 16, 256, 256, 64, true}, {64, 16, 256, 256, 64, true}},
};

static unsigned between(struct dice *d, unsigned least, unsigned most)
{
    return least + below(d, most - least + 1);
}

static struct shape random_shape(struct dice *d, enum size size)
{
    const struct limits *l = &limits[size];
    struct shape s = l->least;
    s.roles = between(d, l->least.roles, l->most.roles);
    s.admins = between(d, l->least.admins, l->most.admins);
    s.users = between(d, l->least.users, l->most.users);
    s.permissions = between(d, l->least.permissions, l->most.permissions);
    return s;
}

/* Some roles only, so that others stay without members, or without rows, or both. */
static void some_roles(struct dice *d, const struct order *o, bool chosen[ROLES])
{
    unsigned percent = 30 + below(d, 50);
    for (unsigned role = 0; role < ROLES; role++)
        chosen[role] = o->in_use[role] && chance(d, percent);
}

static void random_members(struct dice *d, struct shape s, struct policy *p)
{
    bool from[ROLES];
    some_roles(d, &p->roles, from);
    for (unsigned user = 0; user < s.users; user++) {
        uint64_t admins = random_set(d, p->admins.in_use, chance(d, 70) ? 1 + below(d, 2) : 0);
        add_user(p, random_set(d, from, chance(d, 5) ? 40 : below(d, 4)), admins);
    }
    while (p->permissions < s.permissions)
        p->permission_roles[p->permissions++] =
            random_set(d, from, chance(d, 5) ? 40 : below(d, 4));
}

/* Its ends are comparable more often than not. */
static struct row random_row(struct dice *d, const bool *from, const struct policy *p)
{
    struct row row = {0};
    row.admin = pick(d, p->admins.in_use);
    row.high = pick(d, count_of(from) > 0 ? from : p->roles.in_use);
    row.low = pick(d, p->roles.senior[row.high]);
    if (!p->roles.senior[row.high][row.low] || chance(d, 20))
        row.low = pick(d, count_of(from) > 0 ? from : p->roles.in_use);
    row.brackets = below(d, 4);
    return row;
}

static unsigned random_count(struct dice *d, struct shape s)
{
    return s.exact ? s.rows : chance(d, 15) ? 0 : 1 + below(d, s.rows);
}

static void random_rows(struct dice *d, struct shape s, unsigned number, struct policy *p)
{
    bool from[ROLES];
    some_roles(d, &p->roles, from);
    for (unsigned count = random_count(d, s); count > 0; count--) {
        struct row row = random_row(d, from, p);
        if (number == CAN_ASSIGN || number == CAN_ASSIGN_PERMISSION) {
            row.needed = random_set(d, from, chance(d, 50) ? 0 : below(d, 3));
            row.barred = random_set(d, from, chance(d, 50) ? 0 : below(d, 3));
        }
        add_row(p, number, row);
    }
}

void random_policy(struct dice *d, enum size size, struct policy *p)
{
    struct shape s = random_shape(d, size);
    memset(p, 0, sizeof *p);
    random_order(d, ROLES, s.roles, &p->roles);
    random_order(d, ADMINS, s.admins, &p->admins);
    random_members(d, s, p);
    if (s.roles == 0 || s.admins == 0)
        return;
    for (unsigned number = CAN_ASSIGN; number < CAN_MODIFY; number++)
        if (s.exact || chance(d, 60))
            random_rows(d, s, number, p);
    random_ranges(d, p, random_count(d, s));
}

/* ---- Requests ---- */

uint64_t random_number(struct dice *d)
{
    static const uint64_t edges[] = {
        0,          1,           2,           5,   6,   8,    9,     15,         16,
        17,         63,          64,          65,  127, 128,  255,   256,        257,
        0xFFFFFFFF, 0x100000000, 0x100000001, 512, 320, 4096, 65536, 1ULL << 63, UINT64_MAX - 1,
        UINT64_MAX,
    };
    if (chance(d, 40))
        return below(d, 64);
    if (chance(d, 10))
        return roll(d);
    return edges[below(d, sizeof edges / sizeof edges[0])];
}

static unsigned some_officer(struct dice *d, const struct policy *p, const struct row *row)
{
    unsigned first = below(d, p->users);
    for (unsigned i = 0; i < p->users; i++)
        if (ref_may_use(p, (first + i) % p->users, row))
            return (first + i) % p->users;
    return first;
}

/* A role that this row gives the officer a say over. */
static unsigned some_role(struct dice *d, const struct policy *p, uint64_t kind,
                          const struct row *row)
{
    const struct order *o = &p->roles;
    bool members[ROLES];
    for (unsigned role = 0; role < ROLES; role++) {
        bool is_end = role == row->low || role == row->high;
        if (kind <= TAKE_PERMISSION)
            members[role] = ref_in_brackets(o, row, role);
        else
            members[role] = ref_inside(o, row, role) || (kind == CREATE_ROLE && is_end);
    }
    return count_of(members) > 0 ? pick(d, members) : pick(d, o->in_use);
}

/* The wider of two ranges: there a change can harm the ranges within. */
static struct row wider_of(const struct order *o, struct row x, struct row y)
{
    unsigned in_x = 0, in_y = 0;
    for (unsigned role = 0; role < ROLES; role++) {
        in_x += ref_inside(o, &x, role);
        in_y += ref_inside(o, &y, role);
    }
    return in_x >= in_y ? x : y;
}

/* A row, an officer who may use it, and numbers that it covers. */
static struct request aimed_request(struct dice *d, const struct policy *p, uint64_t kind)
{
    struct request q = {below(d, p->users), kind, 0, 0};
    const struct table *t = &p->tables[kind <= TAKE_PERMISSION ? kind : CAN_MODIFY];
    struct row row = {0};
    if (t->count > 0) {
        row = t->rows[below(d, t->count)];
        if (kind >= CREATE_ROLE)
            row = wider_of(&p->roles, row, t->rows[below(d, t->count)]);
        q.officer = some_officer(d, p, &row);
    }
    if (q.kind != DELETE_ROLE)
        q.b = some_role(d, p, q.kind, &row);
    if (q.kind == PUT_USER || q.kind == TAKE_USER)
        q.a = below(d, p->users);
    else if (q.kind == PUT_PERMISSION || q.kind == TAKE_PERMISSION)
        q.a = below(d, p->permissions);
    else
        q.a = some_role(d, p, q.kind, &row);
    return q;
}

/* Accepted, or refused as a second roll says, if a few tries find one of this kind. */
static struct request sought_request(struct dice *d, const struct policy *p, uint64_t kind)
{
    unsigned sought = chance(d, 40) ? 0 : chance(d, 50) ? 9 : 4 + below(d, 6);
    struct request q = aimed_request(d, p, kind);
    for (unsigned tries = 0; tries < 8 && ref_outcome(p, q) != sought; tries++)
        q = aimed_request(d, p, kind);
    return q;
}

static struct request wild_request(struct dice *d)
{
    struct request q;
    q.officer = random_number(d);
    q.kind = random_number(d);
    q.a = random_number(d);
    q.b = random_number(d);
    return q;
}

static uint64_t *some_field(struct dice *d, struct request *q)
{
    switch (below(d, 4)) {
    case 0:
        return &q->officer;
    case 1:
        return &q->kind;
    case 2:
        return &q->a;
    default:
        return &q->b;
    }
}

/* Any kind, though less often one whose table is empty. */
static uint64_t random_kind(struct dice *d, const struct policy *p)
{
    uint64_t kind = 1 + below(d, 8);
    for (unsigned tries = 0; tries < 2; tries++)
        if (p->tables[kind <= TAKE_PERMISSION ? kind : CAN_MODIFY].count == 0)
            kind = 1 + below(d, 8);
    return kind;
}

struct request random_request(struct dice *d, const struct policy *p)
{
    uint64_t kind = random_kind(d, p);
    struct request q = sought_request(d, p, kind);
    uint64_t *field = some_field(d, &q);
    if (chance(d, 20)) /* nearly good */
        *field = field == &q.kind ? below(d, 10) : below(d, chance(d, 50) ? 8 : 66);
    else if (chance(d, 5))
        *field = random_number(d);
    else if (chance(d, 3))
        return wild_request(d);
    return q;
}

/* ---- Policies that a reader must refuse ---- */

/* A self pair, a pair turned back, or a pair that follows from others taken away. */
static void spoil_pairs(struct dice *d, struct order *o)
{
    unsigned a = pick(d, o->in_use);
    unsigned b = pick(d, o->senior[a]);
    if (count_of(o->in_use) == 0)
        return;
    for (unsigned tries = 0; tries < 30 && (!o->senior[a][b] || ref_edge(o, a, b)); tries++) {
        a = pick(d, o->in_use);
        b = pick(d, o->senior[a]);
    }
    switch (below(d, 3)) {
    case 0:
        o->senior[a][a] = true;
        break;
    case 1:
        o->senior[b][a] |= o->senior[a][b];
        break;
    default:
        o->senior[a][b] = false;
    }
}

void spoil_order(struct dice *d, struct policy *p)
{
    spoil_pairs(d, chance(d, 70) ? &p->roles : &p->admins);
}

/* A can-modify row to spoil, at times a new one; none if no row can be. */
static struct row *row_to_spoil(struct dice *d, struct policy *p)
{
    struct table *t = &p->tables[CAN_MODIFY];
    if (count_of(p->roles.in_use) == 0 || count_of(p->admins.in_use) == 0)
        return NULL;
    if (t->count < ROWS && (t->count == 0 || chance(d, 50)))
        add_range(p, pick(d, p->admins.in_use), 0, 0);
    else
        return &t->rows[below(d, t->count)];
    return &t->rows[t->count - 1];
}

void spoil_ends(struct dice *d, struct policy *p)
{
    struct row *row = row_to_spoil(d, p);
    if (!row)
        return;
    do {
        row->low = pick(d, p->roles.in_use);
        row->high = chance(d, 20) ? row->low : pick(d, p->roles.in_use);
    } while (p->roles.senior[row->high][row->low] && chance(d, 95));
}

void spoil_encapsulation(struct dice *d, struct policy *p)
{
    struct row *row = row_to_spoil(d, p);
    for (unsigned tries = 0; row && tries < 200; tries++) {
        row->high = pick(d, p->roles.in_use);
        row->low = pick(d, p->roles.senior[row->high]);
        if (p->roles.senior[row->high][row->low] && !ref_encapsulated(&p->roles, row))
            return;
    }
}

static bool overlaps_some(const struct policy *p, const struct row *row)
{
    return p->roles.senior[row->high][row->low] && ref_encapsulated(&p->roles, row) &&
           !fits_beside(p, row);
}

void spoil_by_overlap(struct dice *d, struct policy *p)
{
    struct row *row = row_to_spoil(d, p);
    for (unsigned tries = 0; row && tries < 300; tries++) {
        row->high = pick(d, p->roles.in_use);
        row->low = pick(d, p->roles.senior[row->high]);
        if (overlaps_some(p, row))
            return;
    }
}

static void spoil_policy(struct dice *d, struct policy *p)
{
    unsigned which = below(d, 4);
    if (which == 0 || chance(d, 8))
        spoil_order(d, p);
    if (which == 1 || chance(d, 8))
        spoil_ends(d, p);
    if (which == 2 || chance(d, 8))
        spoil_encapsulation(d, p);
    if (which == 3 || chance(d, 8))
        spoil_by_overlap(d, p);
}

/* ---- Damaged bytes ---- */

struct file {
    uint8_t *bytes;
    size_t n;
};

/* Puts other bytes in the place of some; a file stays within its room. */
static void replace(struct file *f, size_t at, size_t old, const uint8_t *bytes, size_t count)
{
    memmove(f->bytes + at + count, f->bytes + at + old, f->n - at - old);
    memcpy(f->bytes + at, bytes, count);
    f->n += count - old;
}

/* Where a number starts, chosen at random, and its length. */
static size_t some_number(struct dice *d, const struct file *f, size_t *length)
{
    size_t at = below(d, f->n), end;
    while (at > 0 && f->bytes[at - 1] >= 0x80)
        at--;
    for (end = at; end + 1 < f->n && f->bytes[end] >= 0x80; end++)
        ;
    *length = end + 1 - at;
    return at;
}

static size_t encode(uint64_t value, uint8_t *bytes)
{
    size_t length = 0;
    for (; value >= 0x80; value >>= 7)
        bytes[length++] = (value & 0x7F) | 0x80;
    bytes[length++] = value;
    return length;
}

/* A set naming what is not in use, a count or number too large, brackets above 3. */
static void change_number(struct dice *d, struct file *f)
{
    uint8_t number[10];
    uint64_t value = 0;
    size_t length, at = some_number(d, f, &length);
    for (size_t i = length; i > 0; i--)
        value = value << 7 | (f->bytes[at + i - 1] & 0x7F);
    if (chance(d, 40))
        value = ref_with(value, below(d, 64));
    else if (chance(d, 40))
        value += 1 + below(d, 3);
    else
        value = random_number(d);
    replace(f, at, length, number, encode(value, number));
}

/* The same number with groups of 0 at its end: 2 to 10 bytes, or more than 10. */
static void lengthen_number(struct dice *d, struct file *f)
{
    uint8_t number[16];
    size_t length, at = some_number(d, f, &length);
    if (length > 10)
        return;
    size_t longer = length + 1 + below(d, chance(d, 50) ? 1 : 12 - length);
    memset(number, 0x80, sizeof number);
    memcpy(number, f->bytes + at, length);
    number[length - 1] |= 0x80;
    number[longer - 1] = 0;
    replace(f, at, length, number, longer);
}

/* Nine continuing bytes, and a tenth that says too much. */
static void overflow_number(struct dice *d, struct file *f)
{
    static const uint8_t tenth[] = {0, 1, 2, 3, 0x40, 0x7F, 0x80, 0x81, 0x82, 0xFF};
    uint8_t number[11];
    size_t length, at = some_number(d, f, &length);
    for (unsigned i = 0; i < 9; i++)
        number[i] = 0x80 | roll(d);
    number[9] = tenth[below(d, sizeof tenth)];
    number[10] = below(d, 2);
    replace(f, at, length, number, chance(d, 80) ? 10 : 11);
}

static void leave_over(struct dice *d, struct file *f)
{
    size_t count = chance(d, 80) ? 1 + below(d, 3) : 1 + below(d, 40);
    if (chance(d, 1) && f->n <= FILE_ENOUGH + 64)
        count = LEFT_OVER_MOST;
    for (size_t i = 0; i < count; i++)
        f->bytes[f->n + i] = chance(d, 50) ? 0 : roll(d);
    f->n += count;
}

static void damage_bytes(struct dice *d, struct file *f)
{
    uint8_t byte = chance(d, 50) ? roll(d) : below(d, 4);
    if (f->n == 0)
        return;
    size_t at = below(d, f->n);
    switch (below(d, 8)) {
    case 0:
        f->n = at;
        break;
    case 1:
        f->bytes[at] = byte;
        break;
    case 2:
        replace(f, at, 0, &byte, 1);
        break;
    case 3:
        replace(f, at, 1, &byte, 0);
        break;
    case 4:
        lengthen_number(d, f);
        break;
    case 5:
        overflow_number(d, f);
        break;
    case 6:
        leave_over(d, f);
        break;
    default:
        change_number(d, f);
    }
}

size_t random_damaged_file(struct dice *d, const struct policy *p, uint8_t *out)
{
    struct policy spoiled = *p;
    struct file f = {out, 0};
    bool rules = chance(d, 35);
    if (rules)
        spoil_policy(d, &spoiled);
    f.n = ref_write(&spoiled, out, FILE_ENOUGH).length;
    if (!rules || chance(d, 10))
        damage_bytes(d, &f);
    if (chance(d, 10)) /* two faults in one file: the first must win */
        damage_bytes(d, &f);
    return f.n;
}
