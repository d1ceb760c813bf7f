#include "plain.h"

#include <stdbool.h>
#include <string.h>

enum { ROLES = 64, ADMINS = 16, MEMBERS = 256, ROWS = 64, TABLES = 5, MODIFY = 4 };
enum { LONGEST_FILE = 10375, LONGEST_LISTING = 37056 };
enum { CREATE = 5, DELETE, INSERT, CUT };

/* Both directions are kept, since a range is the meeting of one of each. */
struct order {
    uint64_t used, juniors[ROLES], seniors[ROLES];
};

struct row {
    unsigned admin, low, high, brackets;
    uint64_t needed, barred; /* 0 where the table has none */
};

struct table {
    unsigned count;
    struct row rows[ROWS];
};

struct members {
    unsigned count;
    uint64_t roles[MEMBERS];
};

struct policy {
    struct order roles, admins;
    struct members users, permissions;
    uint64_t offices[MEMBERS]; /* each user's administrative roles */
    struct table tables[TABLES];
};

struct request {
    uint64_t officer, kind, a, b;
};

/* ---- Sets ---- */

static uint64_t only(unsigned member)
{
    return (uint64_t)1 << member;
}

static bool has(uint64_t set, unsigned member)
{
    return set >> member & 1;
}

/* The lowest member; the set must have one. */
static unsigned lowest(uint64_t set)
{
    return (unsigned)__builtin_ctzll(set);
}

static bool in_use(const struct order *o, uint64_t role)
{
    return role < ROLES && has(o->used, (unsigned)role);
}

/* ---- Orders ---- */

static void find_seniors(struct order *o)
{
    memset(o->seniors, 0, sizeof o->seniors);
    for (uint64_t left = o->used; left != 0; left &= left - 1)
        for (uint64_t below = o->juniors[lowest(left)]; below != 0; below &= below - 1)
            o->seniors[lowest(below)] |= only(lowest(left));
}

/* These roles and all that are junior to one of them. */
static uint64_t with_juniors(const struct order *o, uint64_t roles)
{
    uint64_t all = roles;
    for (; roles != 0; roles &= roles - 1)
        all |= o->juniors[lowest(roles)];
    return all;
}

static bool is_strict(const struct order *o)
{
    for (uint64_t left = o->used; left != 0; left &= left - 1) {
        unsigned role = lowest(left);
        uint64_t below = o->juniors[role];
        if (has(below, role) || with_juniors(o, below) != below)
            return false;
    }
    return true;
}

static uint64_t edges_down(const struct order *o, unsigned role)
{
    uint64_t indirect = 0;
    for (uint64_t below = o->juniors[role]; below != 0; below &= below - 1)
        indirect |= o->juniors[lowest(below)];
    return o->juniors[role] & ~indirect;
}

/* ---- Authority ranges ---- */

static uint64_t range_of(const struct order *o, const struct row *row)
{
    return o->juniors[row->high] & o->seniors[row->low];
}

static bool is_encapsulated(const struct order *o, const struct row *row, uint64_t range)
{
    uint64_t outside = o->used & ~range;
    uint64_t above = o->seniors[row->high] | only(row->high);
    uint64_t below = o->juniors[row->low] | only(row->low);
    for (uint64_t left = range; left != 0; left &= left - 1) {
        unsigned role = lowest(left);
        if ((((o->seniors[role] ^ above) | (o->juniors[role] ^ below)) & outside) != 0)
            return false;
    }
    return true;
}

static bool overlap_in_part(uint64_t x, uint64_t y)
{
    return (x & y) != 0 && (x & ~y) != 0 && (y & ~x) != 0;
}

/* 0, or the first of 24, 25 and 26. Each range is found once, for both of its uses. */
static unsigned ranges_fault(const struct order *o, const struct table *modify)
{
    uint64_t ranges[ROWS];
    for (unsigned i = 0; i < modify->count; i++) {
        const struct row *row = &modify->rows[i];
        if (!has(o->juniors[row->high], row->low))
            return 24;
        ranges[i] = range_of(o, row);
    }
    for (unsigned i = 0; i < modify->count; i++)
        if (!is_encapsulated(o, &modify->rows[i], ranges[i]))
            return 25;
    for (unsigned i = 1; i < modify->count; i++)
        for (unsigned j = 0; j < i; j++)
            if (overlap_in_part(ranges[i], ranges[j]))
                return 26;
    return 0;
}

/* ---- Reading a file ---- */

/* After a refusal every number reads as 0, so that only the end asks whether one came. */
struct reader {
    const uint8_t *bytes;
    size_t n, at, first_byte; /* first_byte: of the number read last */
    unsigned outcome;
    size_t place;
};

static uint64_t refuse(struct reader *r, unsigned outcome, size_t place)
{
    if (r->outcome == 0) {
        r->outcome = outcome;
        r->place = place;
        r->n = r->at; /* nothing more is read */
    }
    return 0;
}

static uint64_t read_long_number(struct reader *r)
{
    uint64_t value = 0;
    for (unsigned shift = 0;; shift += 7) {
        if (r->at == r->n)
            return refuse(r, 20, r->n);
        uint8_t byte = r->bytes[r->at++];
        if ((shift == 63 && byte > 1) || (shift > 0 && byte == 0))
            return refuse(r, 21, r->first_byte);
        value |= (uint64_t)(byte & 0x7F) << shift;
        if (byte < 0x80)
            return value;
    }
}

/* Most numbers of a file are one byte. */
static inline uint64_t read_number(struct reader *r)
{
    r->first_byte = r->at;
    if (r->at < r->n && r->bytes[r->at] < 0x80)
        return r->bytes[r->at++];
    return read_long_number(r);
}

static unsigned read_at_most(struct reader *r, unsigned most)
{
    uint64_t value = read_number(r);
    return (unsigned)(value <= most ? value : refuse(r, 22, r->first_byte));
}

static unsigned read_role(struct reader *r, const struct order *o)
{
    uint64_t role = read_number(r);
    return (unsigned)(in_use(o, role) ? role : refuse(r, 22, r->first_byte));
}

static uint64_t read_set(struct reader *r, uint64_t allowed)
{
    uint64_t set = read_number(r);
    return (set & ~allowed) == 0 ? set : refuse(r, 22, r->first_byte);
}

static void read_order(struct reader *r, uint64_t allowed, struct order *o)
{
    o->used = read_set(r, allowed);
    memset(o->juniors, 0, sizeof o->juniors);
    for (uint64_t left = o->used; left != 0; left &= left - 1)
        o->juniors[lowest(left)] = read_set(r, o->used);
    find_seniors(o);
}

static void read_members(struct reader *r, struct policy *p)
{
    p->users.count = read_at_most(r, MEMBERS);
    for (unsigned user = 0; user < p->users.count; user++) {
        p->users.roles[user] = read_set(r, p->roles.used);
        p->offices[user] = read_set(r, p->admins.used);
    }
    p->permissions.count = read_at_most(r, MEMBERS);
    for (unsigned permission = 0; permission < p->permissions.count; permission++)
        p->permissions.roles[permission] = read_set(r, p->roles.used);
}

/* Can-assign and its like for permissions are tables 0 and 2. */
static bool has_sets(unsigned table)
{
    return table == 0 || table == 2;
}

static void read_table(struct reader *r, struct policy *p, unsigned table)
{
    struct table *t = &p->tables[table];
    t->count = read_at_most(r, ROWS);
    for (unsigned i = 0; i < t->count; i++) {
        struct row *row = &t->rows[i];
        row->admin = read_role(r, &p->admins);
        row->low = read_role(r, &p->roles);
        row->high = read_role(r, &p->roles);
        row->brackets = table == MODIFY ? 0 : read_at_most(r, 3);
        row->needed = has_sets(table) ? read_set(r, p->roles.used) : 0;
        row->barred = has_sets(table) ? read_set(r, p->roles.used) : 0;
    }
}

static void check_rules(struct reader *r, const struct policy *p)
{
    if (r->outcome != 0)
        return;
    if (r->at < r->n)
        refuse(r, 27, r->at);
    else if (!is_strict(&p->roles) || !is_strict(&p->admins))
        refuse(r, 23, 0);
    else {
        unsigned fault = ranges_fault(&p->roles, &p->tables[MODIFY]);
        if (fault != 0)
            refuse(r, fault, 0);
    }
}

/* ---- Answers ---- */

static uint64_t answer_of(unsigned outcome, uint64_t number, size_t place, size_t length)
{
    return outcome | number << 8 | (uint64_t)place << 16 | (uint64_t)length << 32;
}

/* 0, or the answer of a bad file. */
static uint64_t read_policy(const uint8_t *bytes, size_t n, struct policy *p)
{
    struct reader r = {bytes, n, 0, 0, 0, 0};
    if (read_number(&r) != 1)
        refuse(&r, 22, 0);
    read_order(&r, UINT64_MAX, &p->roles);
    read_order(&r, only(ADMINS) - 1, &p->admins);
    read_members(&r, p);
    for (unsigned table = 0; table < TABLES; table++)
        read_table(&r, p, table);
    check_rules(&r, p);
    return answer_of(r.outcome, 0, r.place, 0);
}

/* ---- Writing a file ---- */

static uint8_t *put_number(uint8_t *to, uint64_t value)
{
    for (; value >= 0x80; value >>= 7)
        *to++ = (uint8_t)(value | 0x80);
    *to++ = (uint8_t)value;
    return to;
}

static uint8_t *put_order(uint8_t *to, const struct order *o)
{
    to = put_number(to, o->used);
    for (uint64_t left = o->used; left != 0; left &= left - 1)
        to = put_number(to, o->juniors[lowest(left)]);
    return to;
}

static uint8_t *put_members(uint8_t *to, const struct policy *p)
{
    to = put_number(to, p->users.count);
    for (unsigned user = 0; user < p->users.count; user++) {
        to = put_number(to, p->users.roles[user]);
        to = put_number(to, p->offices[user]);
    }
    to = put_number(to, p->permissions.count);
    for (unsigned permission = 0; permission < p->permissions.count; permission++)
        to = put_number(to, p->permissions.roles[permission]);
    return to;
}

static uint8_t *put_table(uint8_t *to, const struct table *t, unsigned table)
{
    to = put_number(to, t->count);
    for (unsigned i = 0; i < t->count; i++) {
        const struct row *row = &t->rows[i];
        to = put_number(to, row->admin);
        to = put_number(to, row->low);
        to = put_number(to, row->high);
        if (table != MODIFY)
            to = put_number(to, row->brackets);
        if (has_sets(table)) {
            to = put_number(to, row->needed);
            to = put_number(to, row->barred);
        }
    }
    return to;
}

/* Written aside first, since a buffer that is too short must stay as it is. */
static uint64_t write_policy(const struct policy *p, uint64_t number, uint8_t *out,
                             size_t out_n)
{
    uint8_t file[LONGEST_FILE];
    uint8_t *to = put_number(file, 1);
    to = put_order(to, &p->roles);
    to = put_order(to, &p->admins);
    to = put_members(to, p);
    for (unsigned table = 0; table < TABLES; table++)
        to = put_table(to, &p->tables[table], table);
    size_t length = (size_t)(to - file);
    if (length > out_n)
        return answer_of(10, 0, 0, 0);
    memcpy(out, file, length);
    return answer_of(0, number, 0, length);
}

/* ---- Members: kinds 1 to 4 ---- */

static uint64_t bracketed(const struct order *o, const struct row *row)
{
    uint64_t up = o->seniors[row->low] | ((row->brackets & 1) ? only(row->low) : 0);
    uint64_t down = o->juniors[row->high] | ((row->brackets & 2) ? only(row->high) : 0);
    return up & down;
}

/* The administrative roles whose rows the officer may use. */
static uint64_t offices_reached(const struct policy *p, uint64_t officer)
{
    return with_juniors(&p->admins, p->offices[officer]);
}

/* 3 or 4, or 0 where some row allows it; a can-revoke row has no sets and is satisfied. */
static unsigned rows_outcome(const struct policy *p, struct request q, uint64_t held)
{
    const struct table *t = &p->tables[q.kind - 1];
    uint64_t offices = offices_reached(p, q.officer);
    uint64_t counts = q.kind == 1 ? with_juniors(&p->roles, held) : held;
    unsigned outcome = 3;
    for (unsigned i = 0; i < t->count; i++) {
        const struct row *row = &t->rows[i];
        if (!has(offices, row->admin) || !has(bracketed(&p->roles, row), (unsigned)q.b))
            continue;
        if ((row->needed & ~counts) == 0 && (row->barred & counts) == 0)
            return 0;
        outcome = 4;
    }
    return outcome;
}

static unsigned change_members(struct policy *p, struct request q)
{
    struct members *m = q.kind <= 2 ? &p->users : &p->permissions;
    if (q.officer >= p->users.count || q.a >= m->count || !in_use(&p->roles, q.b))
        return 2;
    unsigned outcome = rows_outcome(p, q, m->roles[q.a]);
    if (outcome != 0)
        return outcome;
    bool puts_in = q.kind % 2 == 1;
    if (has(m->roles[q.a], (unsigned)q.b) == puts_in)
        return 5;
    m->roles[q.a] ^= only((unsigned)q.b);
    return 0;
}

/* ---- The hierarchy: kinds 5 to 8 ---- */

static void create_role(struct order *o, unsigned parent, unsigned child)
{
    unsigned created = lowest(~o->used);
    uint64_t above = o->seniors[parent] | only(parent);
    uint64_t below = o->juniors[child] | only(child);
    o->used |= only(created);
    o->seniors[created] = above;
    o->juniors[created] = below;
    for (; above != 0; above &= above - 1)
        o->juniors[lowest(above)] |= only(created);
    for (; below != 0; below &= below - 1)
        o->seniors[lowest(below)] |= only(created);
}

static void delete_role(struct order *o, unsigned role)
{
    for (uint64_t above = o->seniors[role]; above != 0; above &= above - 1)
        o->juniors[lowest(above)] &= ~only(role);
    for (uint64_t below = o->juniors[role]; below != 0; below &= below - 1)
        o->seniors[lowest(below)] &= ~only(role);
    o->used &= ~only(role);
    o->seniors[role] = 0;
    o->juniors[role] = 0;
}

static void insert_edge(struct order *o, unsigned senior, unsigned junior)
{
    uint64_t above = o->seniors[senior] | only(senior);
    uint64_t below = o->juniors[junior] | only(junior);
    for (uint64_t left = above; left != 0; left &= left - 1)
        o->juniors[lowest(left)] |= below;
    for (uint64_t left = below; left != 0; left &= left - 1)
        o->seniors[lowest(left)] |= above;
}

static void change_order(struct order *o, unsigned kind, unsigned a, unsigned b)
{
    if (kind == CREATE) {
        create_role(o, a, b);
    } else if (kind == DELETE) {
        delete_role(o, a);
    } else if (kind == INSERT) {
        insert_edge(o, a, b);
    } else {
        o->juniors[a] &= ~only(b);
        o->seniors[b] &= ~only(a);
    }
}

/* The b for which a row of these offices allows the kind with this a; 0 alone for kind 6. */
static uint64_t authority(const struct policy *p, uint64_t offices, unsigned kind, unsigned a)
{
    const struct table *t = &p->tables[MODIFY];
    uint64_t allowed = 0;
    for (unsigned i = 0; i < t->count; i++) {
        const struct row *row = &t->rows[i];
        if (!has(offices, row->admin))
            continue;
        uint64_t range = range_of(&p->roles, row);
        if (kind == CREATE && has(p->roles.juniors[row->high] | only(row->high), a))
            allowed |= p->roles.seniors[row->low] | only(row->low);
        else if (kind != CREATE && has(range, a))
            allowed |= kind == DELETE ? 1 : range;
    }
    return allowed;
}

/* The b with which there is something to do. */
static uint64_t left_to_do(const struct order *o, unsigned kind, unsigned a)
{
    switch (kind) {
    case CREATE:
        return o->juniors[a];
    case DELETE:
        return 1;
    case INSERT:
        return o->used & ~(o->juniors[a] | o->seniors[a] | only(a));
    default:
        return edges_down(o, a);
    }
}

static uint64_t named_roles(const struct policy *p)
{
    uint64_t named = 0;
    for (unsigned table = 0; table < TABLES; table++)
        for (unsigned i = 0; i < p->tables[table].count; i++) {
            const struct row *row = &p->tables[table].rows[i];
            named |= only(row->low) | only(row->high) | row->needed | row->barred;
        }
    return named;
}

static uint64_t occupied_roles(const struct policy *p)
{
    uint64_t occupied = 0;
    for (unsigned user = 0; user < p->users.count; user++)
        occupied |= p->users.roles[user];
    for (unsigned permission = 0; permission < p->permissions.count; permission++)
        occupied |= p->permissions.roles[permission];
    return occupied;
}

/* What kind 6 cannot spoil is not checked: no row names the role that goes. */
static bool spoils_ranges(const struct policy *p, unsigned kind, const struct order *after)
{
    return kind != DELETE && ranges_fault(after, &p->tables[MODIFY]) != 0;
}

static unsigned change_hierarchy(struct policy *p, struct request q)
{
    unsigned kind = (unsigned)q.kind, a = (unsigned)q.a, b = (unsigned)q.b;
    if (q.officer >= p->users.count || !in_use(&p->roles, q.a) ||
        (kind != DELETE && !in_use(&p->roles, q.b)))
        return 2;
    if (!has(authority(p, offices_reached(p, q.officer), kind, a), b))
        return 3;
    if (!has(left_to_do(&p->roles, kind, a), b))
        return 5;
    if (kind == CREATE && p->roles.used == UINT64_MAX)
        return 6;
    if (kind == DELETE && has(named_roles(p), a))
        return 7;
    if (kind == DELETE && has(occupied_roles(p), a))
        return 8;
    change_order(&p->roles, kind, a, b);
    return spoils_ranges(p, kind, &p->roles) ? 9 : 0;
}

/* ---- The listing ---- */

/* The entries of one kind and one a, by ascending b; returns where the next ones go. */
static uint8_t *list_row(const struct policy *p, unsigned kind, unsigned a, uint64_t candidates,
                         uint8_t *to)
{
    for (; candidates != 0; candidates &= candidates - 1) {
        struct order after = p->roles;
        change_order(&after, kind, a, lowest(candidates));
        if (spoils_ranges(p, kind, &after))
            continue;
        *to++ = (uint8_t)kind;
        *to++ = (uint8_t)a;
        *to++ = (uint8_t)lowest(candidates);
    }
    return to;
}

static uint8_t *list_kind(const struct policy *p, uint64_t offices, unsigned kind, uint8_t *to)
{
    uint64_t roles = p->roles.used;
    if (kind == CREATE && roles == UINT64_MAX)
        roles = 0;
    if (kind == DELETE)
        roles &= ~(named_roles(p) | occupied_roles(p));
    for (; roles != 0; roles &= roles - 1) {
        unsigned a = lowest(roles);
        uint64_t candidates = authority(p, offices, kind, a) & left_to_do(&p->roles, kind, a);
        to = list_row(p, kind, a, candidates, to);
    }
    return to;
}

/* ---- The entries ---- */

uint64_t plain_check(const uint8_t *policy, size_t n)
{
    struct policy p;
    return read_policy(policy, n, &p);
}

uint64_t plain_request(const uint8_t *policy, size_t n, uint64_t officer, uint64_t kind,
                       uint64_t a, uint64_t b, uint8_t *out, size_t out_n)
{
    struct policy p;
    struct request q = {officer, kind, a, b};
    uint64_t refused = read_policy(policy, n, &p);
    if (refused != 0)
        return refused;
    if (kind < 1 || kind > CUT || (kind == DELETE && b != 0))
        return answer_of(1, 0, 0, 0);
    unsigned created = kind == CREATE && ~p.roles.used != 0 ? lowest(~p.roles.used) : 0;
    unsigned outcome = kind < CREATE ? change_members(&p, q) : change_hierarchy(&p, q);
    if (outcome != 0)
        return answer_of(outcome, 0, 0, 0);
    return write_policy(&p, created, out, out_n);
}

uint64_t plain_listing(const uint8_t *policy, size_t n, uint64_t officer, uint8_t *out,
                       size_t out_n)
{
    struct policy p;
    uint8_t entries[LONGEST_LISTING], *to = entries;
    uint64_t refused = read_policy(policy, n, &p);
    if (refused != 0)
        return refused;
    if (officer >= p.users.count)
        return answer_of(2, 0, 0, 0);
    for (unsigned kind = CREATE; kind <= CUT; kind++)
        to = list_kind(&p, offices_reached(&p, officer), kind, to);
    size_t length = (size_t)(to - entries);
    if (length > out_n)
        return answer_of(10, 0, 0, 0);
    memcpy(out, entries, length);
    return answer_of(0, 0, 0, length / 3);
}

uint64_t plain_question(const uint8_t *policy, size_t n, uint64_t user, uint64_t permission)
{
    struct policy p;
    uint64_t refused = read_policy(policy, n, &p);
    if (refused != 0)
        return refused;
    if (user >= p.users.count || permission >= p.permissions.count)
        return answer_of(2, 0, 0, 0);
    uint64_t roles = with_juniors(&p.roles, p.users.roles[user]);
    return answer_of(0, (roles & p.permissions.roles[permission]) != 0, 0, 0);
}
