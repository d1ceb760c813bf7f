#include "reference.h"

#include <string.h>

/* ---- Sets and orders ---- */

bool ref_has(uint64_t set, unsigned member)
{
    return (set >> member) & 1;
}

uint64_t ref_with(uint64_t set, unsigned member)
{
    return set | (uint64_t)1 << member;
}

static uint64_t without(uint64_t set, unsigned member)
{
    return set & ~((uint64_t)1 << member);
}

/* Nothing is senior to itself, and senior-of-senior is senior. */
bool ref_strict(const struct order *o)
{
    for (unsigned a = 0; a < ROLES; a++) {
        if (o->senior[a][a])
            return false;
        for (unsigned b = 0; b < ROLES; b++)
            for (unsigned c = 0; o->senior[a][b] && c < ROLES; c++)
                if (o->senior[b][c] && !o->senior[a][c])
                    return false;
    }
    return true;
}

/* A pair with a senior to b and no role strictly between. */
bool ref_edge(const struct order *o, unsigned a, unsigned b)
{
    for (unsigned c = 0; c < ROLES; c++)
        if (o->senior[a][c] && o->senior[c][b])
            return false;
    return o->senior[a][b];
}

/* The paper's a <= b: equal or junior. */
static bool at_most(const struct order *o, unsigned a, unsigned b)
{
    return a == b || o->senior[b][a];
}

static bool role_in_use(const struct order *o, uint64_t role)
{
    return role < ROLES && o->in_use[role];
}

static unsigned roles_in_use(const struct order *o)
{
    unsigned count = 0;
    for (unsigned role = 0; role < ROLES; role++)
        count += o->in_use[role];
    return count;
}

/* ---- Authority ranges ---- */

/* Strictly between the ends of a can-modify row. */
bool ref_inside(const struct order *o, const struct row *range, unsigned role)
{
    return o->senior[role][range->low] && o->senior[range->high][role];
}

/* The test of one role r in the range against one role s outside it. */
static bool meets_outside_at_ends(const struct order *o, const struct row *range, unsigned r,
                                  unsigned s)
{
    bool above_range = s == range->high || o->senior[s][range->high];
    bool below_range = s == range->low || o->senior[range->low][s];
    return o->senior[s][r] == above_range && o->senior[r][s] == below_range;
}

bool ref_encapsulated(const struct order *o, const struct row *range)
{
    for (unsigned r = 0; r < ROLES; r++) {
        if (!ref_inside(o, range, r))
            continue;
        for (unsigned s = 0; s < ROLES; s++) {
            bool outside = o->in_use[s] && !ref_inside(o, range, s);
            if (outside && !meets_outside_at_ends(o, range, r, s))
                return false;
        }
    }
    return true;
}

/* They share a role and each has one that the other lacks. */
bool ref_overlap_in_part(const struct order *o, const struct row *x, const struct row *y)
{
    bool shared = false, only_x = false, only_y = false;
    for (unsigned role = 0; role < ROLES; role++) {
        bool in_x = ref_inside(o, x, role), in_y = ref_inside(o, y, role);
        shared |= in_x && in_y;
        only_x |= in_x && !in_y;
        only_y |= in_y && !in_x;
    }
    return shared && only_x && only_y;
}

unsigned ref_ranges_fault(const struct order *o, const struct table *modify)
{
    for (unsigned i = 0; i < modify->count; i++)
        if (!o->senior[modify->rows[i].high][modify->rows[i].low])
            return 24;
    for (unsigned i = 0; i < modify->count; i++)
        if (!ref_encapsulated(o, &modify->rows[i]))
            return 25;
    for (unsigned i = 0; i < modify->count; i++)
        for (unsigned j = i + 1; j < modify->count; j++)
            if (ref_overlap_in_part(o, &modify->rows[i], &modify->rows[j]))
                return 26;
    return 0;
}

/* ---- Rows and who may use them ---- */

/* The range of a can-assign or can-revoke row: each end is included or not. */
bool ref_in_brackets(const struct order *o, const struct row *row, unsigned role)
{
    bool is_low = role == row->low && (row->brackets & LOW_INCLUDED);
    bool is_high = role == row->high && (row->brackets & HIGH_INCLUDED);
    return (is_low || o->senior[role][row->low]) && (is_high || o->senior[row->high][role]);
}

/* The officer holds, explicitly, the row's administrative role or a senior of it. */
bool ref_may_use(const struct policy *p, unsigned officer, const struct row *row)
{
    for (unsigned held = 0; held < ADMINS; held++)
        if (ref_has(p->user_admins[officer], held) && at_most(&p->admins, row->admin, held))
            return true;
    return false;
}

static bool user_is_in(const struct policy *p, unsigned user, unsigned role)
{
    for (unsigned held = 0; held < ROLES; held++)
        if (ref_has(p->user_roles[user], held) && at_most(&p->roles, role, held))
            return true;
    return false;
}

/* A user counts as in a role through a senior too; a permission by explicit assignment. */
static bool counts_as_in(const struct policy *p, struct request q, unsigned role)
{
    if (q.kind == PUT_USER)
        return user_is_in(p, q.a, role);
    return ref_has(p->permission_roles[q.a], role);
}

static bool satisfies(const struct policy *p, struct request q, const struct row *row)
{
    for (unsigned role = 0; role < ROLES; role++) {
        if (ref_has(row->needed, role) && !counts_as_in(p, q, role))
            return false;
        if (ref_has(row->barred, role) && counts_as_in(p, q, role))
            return false;
    }
    return true;
}

static const struct table *table_for(const struct policy *p, uint64_t kind)
{
    return &p->tables[kind <= TAKE_PERMISSION ? kind : CAN_MODIFY];
}

/* The last column of the paper's table of kinds. */
static bool row_covers(const struct policy *p, struct request q, const struct row *row)
{
    const struct order *o = &p->roles;
    switch (q.kind) {
    case CREATE_ROLE:
        return at_most(o, row->low, q.b) && at_most(o, q.a, row->high);
    case DELETE_ROLE:
        return ref_inside(o, row, q.a);
    case INSERT_EDGE:
    case DELETE_EDGE:
        return ref_inside(o, row, q.a) && ref_inside(o, row, q.b);
    default:
        return ref_in_brackets(o, row, q.b);
    }
}

/* ---- The conditions of the outcome numbers, in the paper's order ---- */

static bool kind_unknown(struct request q)
{
    return q.kind < PUT_USER || q.kind > DELETE_EDGE || (q.kind == DELETE_ROLE && q.b != 0);
}

static bool number_unknown(const struct policy *p, struct request q)
{
    if (q.officer >= p->users)
        return true;
    switch (q.kind) {
    case PUT_USER:
    case TAKE_USER:
        return q.a >= p->users || !role_in_use(&p->roles, q.b);
    case PUT_PERMISSION:
    case TAKE_PERMISSION:
        return q.a >= p->permissions || !role_in_use(&p->roles, q.b);
    case DELETE_ROLE:
        return !role_in_use(&p->roles, q.a);
    default:
        return !role_in_use(&p->roles, q.a) || !role_in_use(&p->roles, q.b);
    }
}

static bool usable_row_exists(const struct policy *p, struct request q, bool and_satisfied)
{
    const struct table *t = table_for(p, q.kind);
    for (unsigned i = 0; i < t->count; i++) {
        const struct row *row = &t->rows[i];
        if (ref_may_use(p, q.officer, row) && row_covers(p, q, row) &&
            (!and_satisfied || satisfies(p, q, row)))
            return true;
    }
    return false;
}

static bool nothing_to_do(const struct policy *p, struct request q)
{
    const struct order *o = &p->roles;
    switch (q.kind) {
    case PUT_USER:
        return ref_has(p->user_roles[q.a], q.b);
    case TAKE_USER:
        return !ref_has(p->user_roles[q.a], q.b);
    case PUT_PERMISSION:
        return ref_has(p->permission_roles[q.a], q.b);
    case TAKE_PERMISSION:
        return !ref_has(p->permission_roles[q.a], q.b);
    case CREATE_ROLE:
        return !o->senior[q.a][q.b];
    case INSERT_EDGE:
        return q.a == q.b || o->senior[q.a][q.b] || o->senior[q.b][q.a];
    case DELETE_EDGE:
        return !ref_edge(o, q.a, q.b);
    default:
        return false;
    }
}

static bool named_by_some_row(const struct policy *p, unsigned role)
{
    for (unsigned number = 1; number <= TABLES; number++)
        for (unsigned i = 0; i < p->tables[number].count; i++) {
            const struct row *row = &p->tables[number].rows[i];
            if (row->low == role || row->high == role || ref_has(row->needed, role) ||
                ref_has(row->barred, role))
                return true;
        }
    return false;
}

static bool has_members(const struct policy *p, unsigned role)
{
    for (unsigned user = 0; user < p->users; user++)
        if (ref_has(p->user_roles[user], role))
            return true;
    for (unsigned permission = 0; permission < p->permissions; permission++)
        if (ref_has(p->permission_roles[permission], role))
            return true;
    return false;
}

/* ---- Effects on the hierarchy ---- */

static unsigned lowest_free(const struct order *o)
{
    unsigned role = 0;
    while (o->in_use[role])
        role++;
    return role;
}

static void create_role(const struct order *before, unsigned a, unsigned b, struct order *after)
{
    unsigned created = lowest_free(before);
    after->in_use[created] = true;
    for (unsigned role = 0; role < ROLES; role++) {
        if (at_most(before, a, role))
            after->senior[role][created] = true;
        if (at_most(before, role, b))
            after->senior[created][role] = true;
    }
}

static void delete_role(unsigned a, struct order *after)
{
    after->in_use[a] = false;
    for (unsigned role = 0; role < ROLES; role++) {
        after->senior[a][role] = false;
        after->senior[role][a] = false;
    }
}

static void insert_edge(const struct order *before, unsigned a, unsigned b, struct order *after)
{
    for (unsigned x = 0; x < ROLES; x++)
        for (unsigned y = 0; y < ROLES; y++)
            if (at_most(before, a, x) && at_most(before, y, b))
                after->senior[x][y] = true;
}

/* Kinds 5 to 8; other kinds leave the hierarchy as it is. */
static void change_order(const struct order *before, struct request q, struct order *after)
{
    *after = *before;
    if (q.kind == CREATE_ROLE)
        create_role(before, q.a, q.b, after);
    if (q.kind == DELETE_ROLE)
        delete_role(q.a, after);
    if (q.kind == INSERT_EDGE)
        insert_edge(before, q.a, q.b, after);
    if (q.kind == DELETE_EDGE)
        after->senior[q.a][q.b] = false;
}

static bool change_spoils_ranges(const struct policy *p, struct request q)
{
    struct order after;
    change_order(&p->roles, q, &after);
    return ref_ranges_fault(&after, &p->tables[CAN_MODIFY]) != 0;
}

/* ---- Requests ---- */

/* 9 is tested for kind 6 too, as printed; that it is never given there is a fact, not a rule.
 */
unsigned ref_outcome(const struct policy *p, struct request q)
{
    if (kind_unknown(q))
        return 1;
    if (number_unknown(p, q))
        return 2;
    if (!usable_row_exists(p, q, false))
        return 3;
    if ((q.kind == PUT_USER || q.kind == PUT_PERMISSION) && !usable_row_exists(p, q, true))
        return 4;
    if (nothing_to_do(p, q))
        return 5;
    if (q.kind == CREATE_ROLE && roles_in_use(&p->roles) == ROLES)
        return 6;
    if (q.kind == DELETE_ROLE && named_by_some_row(p, q.a))
        return 7;
    if (q.kind == DELETE_ROLE && has_members(p, q.a))
        return 8;
    if (q.kind >= CREATE_ROLE && change_spoils_ranges(p, q))
        return 9;
    return 0;
}

static void change_members(struct request q, struct policy *after)
{
    switch (q.kind) {
    case PUT_USER:
        after->user_roles[q.a] = ref_with(after->user_roles[q.a], q.b);
        break;
    case TAKE_USER:
        after->user_roles[q.a] = without(after->user_roles[q.a], q.b);
        break;
    case PUT_PERMISSION:
        after->permission_roles[q.a] = ref_with(after->permission_roles[q.a], q.b);
        break;
    case TAKE_PERMISSION:
        after->permission_roles[q.a] = without(after->permission_roles[q.a], q.b);
        break;
    default:
        break;
    }
}

struct reply ref_decide(const struct policy *before, struct request q, struct policy *after)
{
    struct reply r = {0};
    *after = *before;
    r.outcome = ref_outcome(before, q);
    if (r.outcome != 0)
        return r;
    if (q.kind == CREATE_ROLE)
        r.number = lowest_free(&before->roles);
    change_order(&before->roles, q, &after->roles);
    change_members(q, after);
    return r;
}

/* Some role held explicitly equals, or is senior to, some role the permission is in. */
struct reply ref_may_exercise(const struct policy *p, uint64_t user, uint64_t permission)
{
    struct reply r = {0};
    if (user >= p->users || permission >= p->permissions) {
        r.outcome = 2;
        return r;
    }
    for (unsigned role = 0; role < ROLES; role++)
        if (ref_has(p->permission_roles[permission], role) && user_is_in(p, user, role))
            r.number = 1;
    return r;
}

/* ---- The listing ---- */

/* Every request of kinds 5 to 8 is tried; returns how many are accepted. */
static size_t accepted_requests(const struct policy *p, uint64_t officer, uint8_t *entries)
{
    size_t count = 0;
    for (unsigned kind = CREATE_ROLE; kind <= DELETE_EDGE; kind++)
        for (unsigned a = 0; a < ROLES; a++)
            for (unsigned b = 0; b < (kind == DELETE_ROLE ? 1 : ROLES); b++) {
                struct request q = {officer, kind, a, b};
                if (ref_outcome(p, q) != 0)
                    continue;
                entries[3 * count] = kind;
                entries[3 * count + 1] = a;
                entries[3 * count + 2] = b;
                count++;
            }
    return count;
}

struct reply ref_list(const struct policy *p, uint64_t officer, uint8_t *out, size_t out_n)
{
    struct reply r = {0};
    uint8_t entries[LISTING_ENOUGH];
    if (officer >= p->users) {
        r.outcome = 2;
        return r;
    }
    size_t count = accepted_requests(p, officer, entries);
    if (3 * count > out_n) {
        r.outcome = 10;
        return r;
    }
    if (count > 0)
        memcpy(out, entries, 3 * count);
    r.length = count;
    return r;
}

/* ---- Reading a policy file ---- */

/* After a refusal every further number reads as 0 and nothing moves. */
struct reader {
    const uint8_t *bytes;
    size_t n, at;
    size_t first_byte; /* of the number read last */
    unsigned outcome;
    size_t place;
    size_t table_start[TABLES + 2]; /* from 1; the last one is the end of table 5 */
};

/* The first refusal wins. */
static uint64_t refuse(struct reader *r, unsigned outcome, size_t place)
{
    if (r->outcome == 0) {
        r->outcome = outcome;
        r->place = place;
    }
    return 0;
}

static uint64_t read_number(struct reader *r)
{
    uint64_t value = 0;
    r->first_byte = r->at;
    for (unsigned group = 0; r->outcome == 0; group++) {
        if (r->at == r->n)
            return refuse(r, 20, r->n);
        uint8_t byte = r->bytes[r->at++];
        if (group == 9 && byte > 1)
            return refuse(r, 21, r->first_byte);
        value |= (uint64_t)(byte & 0x7F) << (7 * group);
        if (byte == 0 && group > 0)
            return refuse(r, 21, r->first_byte);
        if (byte < 0x80)
            return value;
    }
    return 0;
}

static unsigned read_at_most(struct reader *r, unsigned most)
{
    uint64_t value = read_number(r);
    return value <= most ? value : refuse(r, 22, r->first_byte);
}

static unsigned read_role(struct reader *r, const struct order *o)
{
    uint64_t role = read_number(r);
    return role_in_use(o, role) ? role : refuse(r, 22, r->first_byte);
}

static uint64_t read_set(struct reader *r, const struct order *o)
{
    uint64_t set = read_number(r);
    for (unsigned member = 0; member < ROLES; member++)
        if (ref_has(set, member) && !o->in_use[member])
            return refuse(r, 22, r->first_byte);
    return set;
}

static void read_order(struct reader *r, unsigned size, struct order *o)
{
    uint64_t in_use = read_number(r);
    for (unsigned role = 0; role < ROLES; role++) {
        o->in_use[role] = ref_has(in_use, role);
        if (o->in_use[role] && role >= size)
            refuse(r, 22, r->first_byte);
    }
    for (unsigned role = 0; role < ROLES; role++) {
        uint64_t juniors = o->in_use[role] ? read_set(r, o) : 0;
        for (unsigned junior = 0; junior < ROLES; junior++)
            o->senior[role][junior] = ref_has(juniors, junior);
    }
}

static void read_row(struct reader *r, unsigned number, const struct policy *p, struct row *row)
{
    row->admin = read_role(r, &p->admins);
    row->low = read_role(r, &p->roles);
    row->high = read_role(r, &p->roles);
    if (number != CAN_MODIFY)
        row->brackets = read_at_most(r, LOW_INCLUDED + HIGH_INCLUDED);
    if (number == CAN_ASSIGN || number == CAN_ASSIGN_PERMISSION) {
        row->needed = read_set(r, &p->roles);
        row->barred = read_set(r, &p->roles);
    }
}

static void read_tables(struct reader *r, struct policy *p)
{
    for (unsigned number = 1; number <= TABLES; number++) {
        struct table *t = &p->tables[number];
        r->table_start[number] = r->at;
        t->count = read_at_most(r, ROWS);
        for (unsigned i = 0; i < t->count; i++)
            read_row(r, number, p, &t->rows[i]);
    }
    r->table_start[TABLES + 1] = r->at;
}

static void read_numbers(struct reader *r, struct policy *p)
{
    if (read_number(r) != 1)
        refuse(r, 22, r->first_byte);
    read_order(r, ROLES, &p->roles);
    read_order(r, ADMINS, &p->admins);
    p->users = read_at_most(r, USERS);
    for (unsigned user = 0; user < p->users; user++) {
        p->user_roles[user] = read_set(r, &p->roles);
        p->user_admins[user] = read_set(r, &p->admins);
    }
    p->permissions = read_at_most(r, PERMISSIONS);
    for (unsigned permission = 0; permission < p->permissions; permission++)
        p->permission_roles[permission] = read_set(r, &p->roles);
    read_tables(r, p);
}

/* What is tested once all numbers are read. */
static void read_checks(struct reader *r, const struct policy *p)
{
    if (r->outcome != 0)
        return;
    if (r->at < r->n)
        refuse(r, 27, r->at);
    if (!ref_strict(&p->roles) || !ref_strict(&p->admins))
        refuse(r, 23, 0);
    unsigned fault = ref_ranges_fault(&p->roles, &p->tables[CAN_MODIFY]);
    if (fault != 0)
        refuse(r, fault, 0);
}

static struct reader read_file(const uint8_t *bytes, size_t n, struct policy *p)
{
    struct reader r = {0};
    r.bytes = bytes;
    r.n = n;
    memset(p, 0, sizeof *p);
    read_numbers(&r, p);
    read_checks(&r, p);
    if (r.outcome != 0)
        memset(p, 0, sizeof *p);
    return r;
}

struct reply ref_read(const uint8_t *bytes, size_t n, struct policy *p)
{
    struct reply reply = {0};
    struct reader r = read_file(bytes, n, p);
    reply.outcome = r.outcome;
    reply.place = r.place;
    return reply;
}

/* ---- Writing a policy file ---- */

/* Without a buffer it only counts. */
struct writer {
    uint8_t *out;
    size_t length;
};

static void write_byte(struct writer *w, uint8_t byte)
{
    if (w->out)
        w->out[w->length] = byte;
    w->length++;
}

static void write_number(struct writer *w, uint64_t value)
{
    while (value >= 0x80) {
        write_byte(w, (value & 0x7F) + 0x80);
        value >>= 7;
    }
    write_byte(w, value);
}

static uint64_t set_of(const bool *members)
{
    uint64_t set = 0;
    for (unsigned member = 0; member < ROLES; member++)
        if (members[member])
            set = ref_with(set, member);
    return set;
}

static void write_order(struct writer *w, const struct order *o)
{
    write_number(w, set_of(o->in_use));
    for (unsigned role = 0; role < ROLES; role++)
        if (o->in_use[role])
            write_number(w, set_of(o->senior[role]));
}

static void write_row(struct writer *w, unsigned number, const struct row *row)
{
    write_number(w, row->admin);
    write_number(w, row->low);
    write_number(w, row->high);
    if (number != CAN_MODIFY)
        write_number(w, row->brackets);
    if (number == CAN_ASSIGN || number == CAN_ASSIGN_PERMISSION) {
        write_number(w, row->needed);
        write_number(w, row->barred);
    }
}

static void write_numbers(struct writer *w, const struct policy *p)
{
    write_number(w, 1);
    write_order(w, &p->roles);
    write_order(w, &p->admins);
    write_number(w, p->users);
    for (unsigned user = 0; user < p->users; user++) {
        write_number(w, p->user_roles[user]);
        write_number(w, p->user_admins[user]);
    }
    write_number(w, p->permissions);
    for (unsigned permission = 0; permission < p->permissions; permission++)
        write_number(w, p->permission_roles[permission]);
    for (unsigned number = 1; number <= TABLES; number++) {
        write_number(w, p->tables[number].count);
        for (unsigned i = 0; i < p->tables[number].count; i++)
            write_row(w, number, &p->tables[number].rows[i]);
    }
}

struct reply ref_write(const struct policy *p, uint8_t *out, size_t out_n)
{
    struct reply r = {0};
    struct writer counting = {NULL, 0}, writing = {out, 0};
    write_numbers(&counting, p);
    if (out_n < counting.length) {
        r.outcome = 10;
        return r;
    }
    write_numbers(&writing, p);
    r.length = writing.length;
    return r;
}

/* ---- The entries ---- */

uint64_t ref_pack(struct reply r)
{
    return (uint64_t)r.outcome | (uint64_t)r.number << 8 | (uint64_t)r.place << 16 |
           (uint64_t)r.length << 32;
}

struct reply ref_unpack(uint64_t answer)
{
    struct reply r;
    r.outcome = answer & 0xFF;
    r.number = answer >> 8 & 0xFF;
    r.place = answer >> 16 & 0xFFFF;
    r.length = answer >> 32;
    return r;
}

uint64_t ref_check(const uint8_t *policy, size_t n)
{
    struct policy p;
    return ref_pack(ref_read(policy, n, &p));
}

/* Read, request, write: the first refusal is returned. */
uint64_t ref_request(const uint8_t *policy, size_t n, struct request q, uint8_t *out,
                     size_t out_n)
{
    struct policy before, after;
    struct reply r = ref_read(policy, n, &before);
    if (r.outcome != 0)
        return ref_pack(r);
    r = ref_decide(&before, q, &after);
    if (r.outcome != 0)
        return ref_pack(r);
    struct reply written = ref_write(&after, out, out_n);
    if (written.outcome == 0)
        written.number = r.number;
    return ref_pack(written);
}

uint64_t ref_listing(const uint8_t *policy, size_t n, uint64_t officer, uint8_t *out,
                     size_t out_n)
{
    struct policy p;
    struct reply r = ref_read(policy, n, &p);
    if (r.outcome == 0)
        r = ref_list(&p, officer, out, out_n);
    return ref_pack(r);
}

uint64_t ref_question(const uint8_t *policy, size_t n, uint64_t user, uint64_t permission)
{
    struct policy p;
    struct reply r = ref_read(policy, n, &p);
    if (r.outcome == 0)
        r = ref_may_exercise(&p, user, permission);
    return ref_pack(r);
}

uint64_t ref_table(const uint8_t *policy, size_t n, uint64_t table)
{
    struct policy p;
    struct reply reply = {0};
    if (table < 1 || table > TABLES) {
        reply.outcome = 1;
        return ref_pack(reply);
    }
    struct reader r = read_file(policy, n, &p);
    reply.outcome = r.outcome;
    reply.place = r.place;
    if (r.outcome == 0) {
        reply.place = r.table_start[table];
        reply.length = r.table_start[table + 1] - r.table_start[table];
    }
    return ref_pack(reply);
}
