/*
 * Uses the archive as an encoder of balise telegrams would: encoder POLICY NEW-POLICY
 *
 * Made for examples/lines.policy. Its roles: 1 to 3 are line 4's and 4 to 6 line 7's, 2 and 5
 * their editors, 0 below all and 7 the department's head. Its users: 0 the department's
 * officer, 1 line 4's officer, 2 line 7's, 3 an editor of line 4, 4 one of line 7. Its
 * permissions: 0 to write line 4's telegrams, 1 to write line 7's.
 */
#include <stdio.h>

#include "../include/aestilumne.h"

enum { DEPARTMENT, OFFICER_4, OFFICER_7, EDITOR_4, EDITOR_7 }; /* users */
enum { EDITORS_4 = 2, HEAD_4 = 3, HEAD = 7 };                  /* roles */
enum { TELEGRAMS_4, TELEGRAMS_7 };                             /* permissions */

struct file {
    uint8_t bytes[AESTILUMNE_FILE_ENOUGH + 1]; /* one more, so that a file too long shows */
    size_t n;
};

static int read_file(const char *path, struct file *f)
{
    FILE *in = fopen(path, "rb");
    if (in == NULL)
        return 0;
    f->n = fread(f->bytes, 1, sizeof f->bytes, in);
    return fclose(in) == 0;
}

static int write_file(const char *path, const struct file *f)
{
    FILE *out = fopen(path, "wb");
    if (out == NULL)
        return 0;
    size_t n = fwrite(f->bytes, 1, f->n, out);
    return (fclose(out) == 0) & (n == f->n);
}

/* Asked before each telegram is encoded. */
static void ask(const struct file *f, uint64_t user, uint64_t permission, const char *line)
{
    uint64_t answer = aestilumne_question(f->bytes, f->n, user, permission);
    printf("user %u writes %s's telegrams: %s\n", (unsigned)user, line,
           aestilumne_may(answer) ? "yes" : "no");
}

/* Carries out a request; the new policy takes the place of the old one only if accepted. */
static struct aestilumne_answer carry_out(struct file *f, uint64_t officer, uint64_t kind,
                                          uint64_t a, uint64_t b)
{
    static uint8_t next[AESTILUMNE_FILE_ENOUGH];
    struct aestilumne_answer r = aestilumne_apart(
        aestilumne_request(f->bytes, f->n, officer, kind, a, b, next, sizeof next));
    if (r.outcome == AESTILUMNE_ACCEPTED) {
        for (f->n = 0; f->n < r.length; f->n++)
            f->bytes[f->n] = next[f->n];
    }
    return r;
}

/* What exactly can this officer change tonight? */
static void list(const struct file *f, uint64_t officer)
{
    static const char *const kind[] = {"create a role under", "delete role", "insert edge",
                                       "delete edge"};
    static uint8_t out[AESTILUMNE_LISTING_ENOUGH];
    struct aestilumne_answer r =
        aestilumne_apart(aestilumne_listing(f->bytes, f->n, officer, out, sizeof out));
    printf("user %u can make %u changes:\n", (unsigned)officer, (unsigned)r.length);
    for (size_t i = 0; i < r.length; i++) {
        const uint8_t *e = out + 3 * i;
        printf("    %s %u", kind[e[0] - AESTILUMNE_CREATE_ROLE], e[1]);
        if (e[0] == AESTILUMNE_DELETE_ROLE)
            printf("\n");
        else
            printf(e[0] == AESTILUMNE_CREATE_ROLE ? " over %u\n" : " %u\n", e[2]);
    }
}

int main(int argc, char **argv)
{
    static struct file f;
    struct aestilumne_answer r;
    if (argc != 3 || !read_file(argv[1], &f)) {
        fprintf(stderr, "encoder POLICY NEW-POLICY\n");
        return 2;
    }
    r = aestilumne_apart(aestilumne_check(f.bytes, f.n));
    printf("policy of %u bytes: outcome %u, place %u\n", (unsigned)f.n, r.outcome, r.place);
    if (r.outcome != AESTILUMNE_ACCEPTED)
        return 1;
    ask(&f, EDITOR_4, TELEGRAMS_4, "line 4");
    ask(&f, EDITOR_4, TELEGRAMS_7, "line 7");
    ask(&f, EDITOR_7, TELEGRAMS_4, "line 4");
    list(&f, OFFICER_4);

    /* How line 7's editors once came to stand over line 4's: it is refused now. */
    r = carry_out(&f, DEPARTMENT, AESTILUMNE_CREATE_ROLE, HEAD, EDITORS_4);
    printf("the department creates a role on top of line 4's editors: outcome %u\n", r.outcome);

    r = carry_out(&f, OFFICER_4, AESTILUMNE_CREATE_ROLE, HEAD_4, EDITORS_4);
    printf("line 4's officer creates one inside its range: outcome %u, role %u, %u bytes\n",
           r.outcome, r.number, (unsigned)r.length);
    list(&f, OFFICER_4);
    return write_file(argv[2], &f) ? 0 : 1;
}
