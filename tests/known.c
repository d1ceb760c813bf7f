#include "known.h"

#include <string.h>

const uint8_t known_example[KNOWN_EXAMPLE_LENGTH] = {
    0x01, 0x0F, 0x00, 0x01, 0x01, 0x07, 0x01, 0x00, 0x01, 0x00,
    0x01, 0x00, 0x00, 0x00, 0x00, 0x00, 0x01, 0x00, 0x00, 0x03,
};

void add_row(struct policy *p, unsigned table, struct row row)
{
    p->tables[table].rows[p->tables[table].count++] = row;
}

void add_range(struct policy *p, unsigned admin, unsigned low, unsigned high)
{
    struct row row = {admin, low, high, 0, 0, 0};
    add_row(p, CAN_MODIFY, row);
}

unsigned add_user(struct policy *p, uint64_t roles, uint64_t admins)
{
    p->user_roles[p->users] = roles;
    p->user_admins[p->users] = admins;
    return p->users++;
}

void close_order(struct order *o)
{
    for (unsigned between = 0; between < ROLES; between++)
        for (unsigned a = 0; a < ROLES; a++)
            for (unsigned b = 0; o->senior[a][between] && b < ROLES; b++)
                if (o->senior[between][b])
                    o->senior[a][b] = true;
}

static void department_hierarchy(struct order *o)
{
    static const unsigned edges[][2] = {
        {ED, E},  {E1, ED},  {PE1, E1}, {QE1, E1},  {PL1, PE1}, {PL1, QE1}, {DIR, PL1},
        {E2, ED}, {PE2, E2}, {QE2, E2}, {PL2, PE2}, {PL2, QE2}, {DIR, PL2},
    };
    for (unsigned role = E; role <= DIR; role++)
        o->in_use[role] = true;
    for (unsigned i = 0; i < sizeof edges / sizeof edges[0]; i++)
        o->senior[edges[i][0]][edges[i][1]] = true;
    close_order(o);
}

void known_department(struct policy *p)
{
    struct row assign = {PSO1, E1, PL1, LOW_INCLUDED, 0, 0};
    assign.needed = ref_with(0, ED);
    memset(p, 0, sizeof *p);
    department_hierarchy(&p->roles);
    for (unsigned admin = SSO; admin <= PSO1; admin++)
        p->admins.in_use[admin] = true;
    p->admins.senior[SSO][DSO] = true;
    p->admins.senior[SSO][PSO1] = true;
    p->admins.senior[DSO][PSO1] = true;
    add_range(p, PSO1, E1, PL1);
    add_range(p, PSO1, E2, PL2);
    add_range(p, DSO, ED, DIR);
    add_row(p, CAN_ASSIGN, assign);
    add_user(p, 0, ref_with(0, PSO1));
    add_user(p, 0, ref_with(0, DSO));
    add_user(p, ref_with(0, ED), 0);
}

void known_chain(struct policy *p, unsigned count)
{
    memset(p, 0, sizeof *p);
    for (unsigned role = 0; role < count; role++) {
        p->roles.in_use[role] = true;
        for (unsigned junior = 0; junior < role; junior++)
            p->roles.senior[role][junior] = true;
    }
    p->admins.in_use[0] = true;
    add_user(p, 0, ref_with(0, 0));
}

/* All numbers in use, the last one junior to every other. */
static void widest_order(struct order *o, unsigned size)
{
    for (unsigned role = 0; role < size; role++) {
        o->in_use[role] = true;
        o->senior[role][size - 1] = role < size - 1;
    }
}

void known_largest(struct policy *p)
{
    struct row row = {ADMINS - 1, ROLES - 1, 0, 3, 0, UINT64_MAX};
    memset(p, 0, sizeof *p);
    widest_order(&p->roles, ROLES);
    widest_order(&p->admins, ADMINS);
    while (p->users < USERS)
        add_user(p, UINT64_MAX, 0xFFFF);
    while (p->permissions < PERMISSIONS)
        p->permission_roles[p->permissions++] = UINT64_MAX;
    row.needed = UINT64_MAX;
    for (unsigned i = 0; i < ROWS; i++) {
        add_row(p, CAN_ASSIGN, row);
        add_row(p, CAN_REVOKE, row);
        add_row(p, CAN_ASSIGN_PERMISSION, row);
        add_row(p, CAN_REVOKE_PERMISSION, row);
        add_range(p, row.admin, row.low, row.high);
    }
}

void known_largest_not_strict(struct policy *p)
{
    known_largest(p);
    p->roles.senior[ROLES - 1][ROLES - 1] = true;
    p->admins.senior[ADMINS - 1][ADMINS - 1] = true;
}
