/*
 * Holds the reference to document 01's own text: its cases 1 to 14, its example file
 * and listing, and the readings that the team decided.
 */
#include <stdio.h>
#include <string.h>

#include "known.h"
#include "reference.h"

static unsigned passed, failed;

static void expect(bool held, const char *what)
{
    if (held) {
        passed++;
        return;
    }
    failed++;
    printf("FAILED: %s\n", what);
}

/* Two policies are the same if their files are. */
static bool same_policy(const struct policy *x, const struct policy *y)
{
    uint8_t file_x[FILE_ENOUGH], file_y[FILE_ENOUGH];
    struct reply rx = ref_write(x, file_x, sizeof file_x);
    struct reply ry = ref_write(y, file_y, sizeof file_y);
    return rx.outcome == 0 && ry.outcome == 0 && rx.length == ry.length &&
           memcmp(file_x, file_y, rx.length) == 0;
}

/* One request on policy bytes; on acceptance `p` becomes the policy after it. */
static void expect_request(struct policy *p, struct request q, unsigned outcome,
                           unsigned number, const char *what)
{
    uint8_t file[FILE_ENOUGH], out[FILE_ENOUGH];
    struct policy before = *p;
    struct reply written = ref_write(p, file, sizeof file);
    struct reply r = ref_unpack(ref_request(file, written.length, q, out, sizeof out));
    expect(r.outcome == outcome && r.number == number && r.place == 0, what);
    expect((r.outcome == 0) == (r.length > 0), what);
    if (r.outcome == 0)
        expect(ref_read(out, r.length, p).outcome == 0, what);
    else
        expect(same_policy(p, &before), what);
}

static struct request asks(uint64_t officer, uint64_t kind, uint64_t a, uint64_t b)
{
    struct request q = {officer, kind, a, b};
    return q;
}

/* One request on a fresh F that is refused. */
static void expect_refused(struct request q, unsigned outcome, const char *what)
{
    struct policy p;
    known_department(&p);
    expect_request(&p, q, outcome, 0, what);
}

/* ---- Cases 1 to 14 ---- */

static void case_1(void)
{
    struct policy p, wanted;
    known_department(&p);
    known_department(&wanted);
    wanted.roles.senior[QE1][PE1] = true;
    expect_request(&p, asks(0, INSERT_EDGE, QE1, PE1), 0, 0, "case 1");
    expect(same_policy(&p, &wanted), "case 1: one new pair");
}

static void case_6(void)
{
    struct policy p, wanted;
    known_department(&p);
    known_department(&wanted);
    wanted.roles.senior[QE1][E1] = false;
    expect_request(&p, asks(1, DELETE_EDGE, QE1, E1), 0, 0, "case 6");
    expect(p.roles.senior[QE1][ED], "case 6: QE1 stays senior to ED");
    expect(same_policy(&p, &wanted), "case 6: only that pair goes");
}

static void case_8(void)
{
    struct policy p, wanted;
    known_department(&p);
    known_department(&wanted);
    wanted.roles.in_use[11] = true;
    wanted.roles.senior[PL1][11] = wanted.roles.senior[DIR][11] = true;
    wanted.roles.senior[11][PE1] = wanted.roles.senior[11][E1] = true;
    wanted.roles.senior[11][ED] = wanted.roles.senior[11][E] = true;
    expect_request(&p, asks(0, CREATE_ROLE, PL1, PE1), 0, 11, "case 8");
    expect(same_policy(&p, &wanted), "case 8: role 11 in its place");
}

static void case_10(void)
{
    struct policy p, wanted;
    known_department(&p);
    known_department(&wanted);
    wanted.roles.in_use[PE1] = false;
    for (unsigned role = 0; role < ROLES; role++)
        wanted.roles.senior[role][PE1] = wanted.roles.senior[PE1][role] = false;
    expect_refused(asks(1, DELETE_ROLE, E1, 0), 7, "case 10: E1");
    expect_request(&p, asks(0, DELETE_ROLE, PE1, 0), 0, 0, "case 10: PE1");
    expect(same_policy(&p, &wanted), "case 10: all other pairs stay");
}

static void cases_11_and_12(void)
{
    struct policy p, wanted;
    known_department(&p);
    known_department(&wanted);
    wanted.user_roles[2] = ref_with(wanted.user_roles[2], PE1);
    expect_request(&p, asks(0, PUT_USER, 2, PE1), 0, 0, "case 11: u2 in PE1");
    expect(same_policy(&p, &wanted), "case 11: only u2 changes");
    expect_refused(asks(0, PUT_USER, 2, PL1), 3, "case 11: u2 in PL1");
    expect_refused(asks(0, PUT_USER, 1, PE1), 4, "case 11: u1 in PE1");
    expect_request(&p, asks(0, DELETE_ROLE, PE1, 0), 8, 0, "case 12");
}

static void case_13(void)
{
    struct policy p;
    known_chain(&p, 5);
    add_range(&p, 0, 0, 2);
    add_range(&p, 0, 1, 4);
    expect_request(&p, asks(0, CREATE_ROLE, 3, 1), 9, 0, "case 13");
}

static void case_14(void)
{
    struct policy p;
    known_chain(&p, ROLES);
    add_range(&p, 0, 0, ROLES - 1);
    expect_request(&p, asks(0, CREATE_ROLE, 40, 20), 6, 0, "case 14: 64 in use");
    expect_request(&p, asks(0, DELETE_ROLE, 30, 0), 0, 0, "case 14: one deletion");
    expect_request(&p, asks(0, CREATE_ROLE, 40, 20), 0, 30, "case 14: that number again");
}

static void cases(void)
{
    case_1();
    expect_refused(asks(1, INSERT_EDGE, QE1, PE2), 9, "case 2");
    expect_refused(asks(0, INSERT_EDGE, QE1, PE2), 3, "case 3");
    expect_refused(asks(1, INSERT_EDGE, QE1, E1), 5, "case 4");
    expect_refused(asks(0, DELETE_EDGE, QE1, E1), 3, "case 5");
    case_6();
    expect_refused(asks(1, DELETE_EDGE, PL1, E1), 5, "case 7");
    case_8();
    expect_refused(asks(1, CREATE_ROLE, DIR, PE1), 9, "case 9");
    case_10();
    cases_11_and_12();
    case_13();
    case_14();
}

/* ---- Readings beside the cases ---- */

/* The new role lies in both ranges, and each keeps a role of its own. */
static void overlap_alone(void)
{
    struct policy p;
    known_chain(&p, 4);
    add_range(&p, 0, 0, 2);
    add_range(&p, 0, 1, 3);
    expect_request(&p, asks(0, CREATE_ROLE, 2, 1), 9, 0, "create under 2 over 1");
    p.roles.in_use[4] = true;
    p.roles.senior[4][1] = p.roles.senior[4][0] = true;
    p.roles.senior[2][4] = p.roles.senior[3][4] = true;
    expect(ref_strict(&p.roles), "create under 2 over 1: strict");
    expect(ref_ranges_fault(&p.roles, &p.tables[CAN_MODIFY]) == 26, "by overlap alone");
}

/* The pair removed joins the ends of another row's empty range. */
static void empty_range_cut(void)
{
    struct policy p;
    known_chain(&p, 4);
    add_range(&p, 0, 0, 3);
    add_range(&p, 0, 1, 2);
    expect_request(&p, asks(0, DELETE_EDGE, 2, 1), 9, 0, "delete edge (2, 1)");
}

static void readings(void)
{
    overlap_alone();
    empty_range_cut();
    expect_refused(asks(0, CREATE_ROLE, PL2, DIR), 5, "create PL2 over DIR");
    expect_refused(asks(9, 99, 99, 99), 1, "unknown kind before unknown officer");
    expect_refused(asks(9, DELETE_ROLE, PE1, 1), 1, "kind 6 with b not 0");
    expect_refused(asks(0, CREATE_ROLE, UINT64_MAX, E), 2, "no such role");
    expect_refused(asks(0, PUT_USER, 2, 64), 2, "role 64");
    expect_refused(asks(0, PUT_PERMISSION, 0, PE1), 2, "no permissions");
}

/* ---- Files ---- */

static void expect_listing_count(const struct policy *p, uint64_t officer, size_t count)
{
    uint8_t out[LISTING_ENOUGH];
    struct reply r = ref_list(p, officer, out, sizeof out);
    expect(r.outcome == 0 && r.length == count, "listing of F");
    memset(out, 0xA5, sizeof out);
    r = ref_list(p, officer, out, 3 * count);
    expect(r.outcome == 0 && r.length == count, "listing of F: exact buffer");
    expect(out[3 * count] == 0xA5, "listing of F: later bytes stay");
    if (count == 0)
        return;
    memset(out, 0xA5, sizeof out);
    r = ref_list(p, officer, out, 3 * count - 1);
    expect(r.outcome == 10 && r.length == 0 && out[0] == 0xA5, "listing of F: short buffer");
}

static void department_file(void)
{
    struct policy p, again;
    uint8_t file[FILE_ENOUGH];
    known_department(&p);
    struct reply r = ref_write(&p, file, sizeof file);
    expect(ref_read(file, r.length, &again).outcome == 0, "F is read");
    expect(same_policy(&p, &again), "F is read back");
    expect_listing_count(&p, 0, 18);
    expect_listing_count(&p, 1, 43);
    expect_listing_count(&p, 2, 0);
    expect(ref_list(&p, 3, file, sizeof file).outcome == 2, "listing of an unknown officer");
}

static void example_listing(void)
{
    static const uint8_t lines[9][3] = {
        {5, 1, 0}, {5, 2, 0}, {5, 3, 0}, {5, 3, 1}, {5, 3, 2},
        {6, 1, 0}, {6, 2, 0}, {7, 1, 2}, {7, 2, 1},
    };
    uint8_t out[LISTING_ENOUGH];
    struct reply r =
        ref_unpack(ref_listing(known_example, sizeof known_example, 0, out, sizeof out));
    expect(r.outcome == 0 && r.length == 9, "example: nine lines");
    expect(memcmp(out, lines, sizeof lines) == 0, "example: the lines");
    r = ref_unpack(ref_listing(known_example, sizeof known_example, 1, out, sizeof out));
    expect(r.outcome == 2 && r.length == 0, "example: one user");
}

static void example_part(uint64_t table, unsigned outcome, size_t place, size_t length)
{
    struct reply r = ref_unpack(ref_table(known_example, sizeof known_example, table));
    expect(r.outcome == outcome && r.place == place && r.length == length, "example: table");
    r = ref_unpack(ref_table(known_example, 10, table));
    if (outcome == 0)
        expect(r.outcome == 20 && r.place == 10 && r.length == 0, "bad file: table");
    else
        expect(r.outcome == outcome && r.place == 0, "1 before a bad file");
}

static void example_file(void)
{
    struct policy p;
    uint8_t out[KNOWN_EXAMPLE_LENGTH + 1];
    memset(out, 0xA5, sizeof out);
    expect(ref_read(known_example, sizeof known_example, &p).outcome == 0, "example: read");
    expect(ref_write(&p, out, KNOWN_EXAMPLE_LENGTH - 1).outcome == 10, "example: short");
    expect(out[0] == 0xA5, "example: nothing written");
    expect(ref_write(&p, out, sizeof out).length == KNOWN_EXAMPLE_LENGTH, "example: length");
    expect(memcmp(out, known_example, sizeof known_example) == 0, "example: written back");
    expect(out[KNOWN_EXAMPLE_LENGTH] == 0xA5, "example: bytes past the end stay");
    example_listing();
    for (uint64_t table = 1; table <= 4; table++)
        example_part(table, 0, 11 + table, 1);
    example_part(5, 0, 16, 4);
    example_part(0, 1, 0, 0);
    example_part(6, 1, 0, 0);
    example_part(UINT64_MAX, 1, 0, 0);
}

static void expect_check(const uint8_t *file, size_t n, unsigned outcome, size_t place,
                         const char *what)
{
    struct reply r = ref_unpack(ref_check(file, n));
    expect(r.outcome == outcome && r.place == place, what);
}

static void refused_files(void)
{
    uint8_t file[KNOWN_EXAMPLE_LENGTH + 1] = {0};
    static const uint8_t tenth_0[] = {0x80, 0x80, 0x80, 0x80, 0x80, 0x80, 0x80, 0x80, 0x80, 0};
    static const uint8_t tenth_2[] = {0x80, 0x80, 0x80, 0x80, 0x80, 0x80, 0x80, 0x80, 0x80, 2};
    memcpy(file, known_example, sizeof known_example);
    for (size_t n = 0; n < sizeof known_example; n++)
        expect_check(file, n, 20, n, "input ends");
    expect_check(file, sizeof file, 27, 20, "a byte left over");
    expect_check(tenth_0, sizeof tenth_0, 21, 0, "tenth byte 0");
    expect_check(tenth_2, sizeof tenth_2, 21, 0, "tenth byte 2");
    expect_check(tenth_0, 9, 20, 9, "nine continuing bytes");
    file[5] = 0x17;
    expect_check(file, sizeof known_example, 22, 5, "a junior not in use");
    file[5] = 0x06;
    expect_check(file, sizeof known_example, 23, 0, "3 over 1 over 0 but not 3 over 0");
    file[5] = 0x07;
    file[18] = 3;
    expect_check(file, sizeof known_example, 24, 0, "low equal to high");
}

static void largest_file(void)
{
    struct policy p;
    uint8_t file[FILE_ENOUGH];
    known_largest(&p);
    struct reply r = ref_write(&p, file, sizeof file);
    expect(r.length == KNOWN_LARGEST_LENGTH, "length of the largest good file");
    expect_check(file, r.length, 0, 0, "the largest good file");
    known_largest_not_strict(&p);
    r = ref_write(&p, file, sizeof file);
    expect(r.length == FILE_ENOUGH, "10,375 bytes");
    expect_check(file, r.length, 23, 0, "10,375 bytes are not a good policy");
}

int main(void)
{
    cases();
    readings();
    department_file();
    example_file();
    refused_files();
    largest_file();
    printf("%u passed, %u failed\n", passed, failed);
    return failed != 0;
}
