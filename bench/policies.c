#include "policies.h"

#include <string.h>

#include "../tests/known.h"

static void shape_order(struct order *o, enum shape shape, unsigned roles)
{
    for (unsigned role = 0; role < roles; role++)
        o->in_use[role] = true;
    for (unsigned senior = 1; senior < roles; senior++)
        for (unsigned junior = 0; junior < senior; junior++)
            o->senior[senior][junior] = shape == CHAIN || junior == 0 || senior == roles - 1;
}

void sized_policy(struct policy *p, enum shape shape, unsigned roles, unsigned rows)
{
    memset(p, 0, sizeof *p);
    shape_order(&p->roles, shape, roles);
    p->admins.in_use[0] = true;
    add_user(p, 0, ref_with(0, 0));
    for (unsigned i = 0; i < rows; i++)
        add_range(p, 0, 0, roles - 1);
}

/* Administrative role 0 over 15 others, the last of which the rows name. */
static void fill_admins(struct order *o)
{
    for (unsigned admin = 1; admin < ADMINS; admin++) {
        o->in_use[admin] = true;
        o->senior[0][admin] = true;
    }
}

void full_size_policy(struct policy *p, enum shape shape)
{
    unsigned highest = FULL_ROLES - 1;
    uint64_t ends = ref_with(ref_with(0, 0), highest);
    struct row row = {ADMINS - 1, 0, highest, LOW_INCLUDED + HIGH_INCLUDED, 0, 0};
    sized_policy(p, shape, FULL_ROLES, 0);
    fill_admins(&p->admins);
    while (p->users < USERS)
        add_user(p, ends, ref_with(0, ADMINS - 1));
    while (p->permissions < PERMISSIONS)
        p->permission_roles[p->permissions++] = ends;
    for (unsigned i = 0; i < ROWS; i++) {
        row.needed = ends;
        add_row(p, CAN_ASSIGN, row);
        add_row(p, CAN_ASSIGN_PERMISSION, row);
        row.needed = 0;
        add_row(p, CAN_REVOKE, row);
        add_row(p, CAN_REVOKE_PERMISSION, row);
        add_range(p, row.admin, row.low, row.high);
    }
}
