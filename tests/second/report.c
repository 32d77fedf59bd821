/* Makes the stored input and output of the program `report_runs`: reports opened, marks entered and reports ranked, and every refusal.
 * The figures are written from 02's words, 2026-14, and worked out afresh from all marks entered since the opening; fractions are
 * compared by their whole parts and then by what is left of them, upside down.
 *
 *   report in FILE    writes the input
 *   report out FILE   writes the answers
 */
#include "random.h"

#include <stdio.h>
#include <string.h>

enum { FRAME = 114, FLAGS = 100, COLUMNS = 96, MOST_MARKS = 1000000, MOST_RUNS = 4096 };

/* ---- a report: its columns, and the marks entered; equal ones one after another are kept together */

struct mark {
    uint32_t ending, detail;
    unsigned flags;
    unsigned char flag[FLAGS];
};

struct report {
    uint32_t n;
    unsigned runs;
    struct {
        struct mark mark;
        uint32_t times;
    } run[MOST_RUNS];
};

static struct report reports[2];
static unsigned own; /* which of the two is the first */

static uint32_t marks(const struct report *r)
{
    uint32_t sum = 0;
    for (unsigned i = 0; i < r->runs; i++)
        sum += r->run[i].times;
    return sum;
}

static uint32_t ended(const struct report *r, uint32_t code)
{
    uint32_t sum = 0;
    for (unsigned i = 0; i < r->runs; i++)
        if (r->run[i].mark.ending == code)
            sum += r->run[i].times;
    return sum;
}

/* 'wrong columns (flag 1 on corrected marks)' */
static int wrong_at(const struct mark *m, unsigned column)
{
    return m->ending == 1 && column < m->flags && m->flag[column] == 1;
}

static unsigned wrong_in(const struct mark *m)
{
    unsigned sum = 0;
    for (unsigned c = 0; c < COLUMNS; c++)
        sum += wrong_at(m, c);
    return sum;
}

static uint64_t wrong(const struct report *r)
{
    uint64_t sum = 0;
    for (unsigned i = 0; i < r->runs; i++)
        sum += (uint64_t)wrong_in(&r->run[i].mark) * r->run[i].times;
    return sum;
}

static uint64_t wrong_column(const struct report *r, unsigned column)
{
    uint64_t sum = 0;
    for (unsigned i = 0; i < r->runs; i++)
        if (wrong_at(&r->run[i].mark, column))
            sum += r->run[i].times;
    return sum;
}

static unsigned most(const struct report *r)
{
    unsigned best = 0;
    for (unsigned i = 0; i < r->runs; i++)
        if (wrong_in(&r->run[i].mark) > best)
            best = wrong_in(&r->run[i].mark);
    return best;
}

/* ---- the calls */

static unsigned open_report(struct report *r, uint32_t n)
{
    r->runs = 0;
    r->n = n < 1 || n > COLUMNS ? 1 : n;
    return r->n == n ? 0 : 3;
}

static unsigned refusal(const struct report *r, const struct mark *m)
{
    if (marks(r) + 1 > MOST_MARKS)
        return 24;
    if (m->flags != r->n)
        return 5;
    if (m->ending > 4)
        return 26;
    if (m->ending != 1)
        return 0;
    for (unsigned i = 0; i < m->flags; i++)
        if (m->flag[i] > 2)
            return 26;
    return wrong_in(m) == m->detail ? 0 : 26;
}

/* so often; the answer is that of the last time */
static unsigned enter(struct report *r, const struct mark *m, uint32_t times)
{
    unsigned refused = refusal(r, m);
    if (refused)
        return refused;
    uint32_t room = MOST_MARKS - marks(r), taken = times < room ? times : room;
    if (r->runs == MOST_RUNS) {
        fprintf(stderr, "report: too many marks for this program\n");
        _Exit(1);
    }
    r->run[r->runs].mark = *m;
    r->run[r->runs++].times = taken;
    return taken < times ? 24 : 0;
}

/* -1, 0 or 1: a/b is less than c/d, the same, or more */
static int compared(uint64_t a, uint64_t b, uint64_t c, uint64_t d)
{
    if (a / b != c / d)
        return a / b < c / d ? -1 : 1;
    uint64_t left = a % b, other = c % d;
    if (!left || !other)
        return (left != 0) - (other != 0);
    return compared(d, other, b, left);
}

/* who comes first: 0 neither, 1 the first, 2 the second */
static unsigned ranking(const struct report *r, const struct report *s)
{
    uint32_t b = ended(r, 1), d = ended(s, 1);
    if (!b || !d)
        return b ? 1 : d ? 2 : 0;
    int order = compared(wrong(r), b, wrong(s), d);
    return order < 0 ? 1 : order > 0 ? 2 : 0;
}

/* ---- frames and lines */

static int wants_input;
static FILE *to;

static void number(unsigned char *at, uint32_t x)
{
    for (unsigned i = 0; i < 4; i++)
        at[i] = (unsigned char)(x >> 8 * i);
}

static void line(unsigned refused, const struct report *r)
{
    if (refused)
        fprintf(to, "!%u", refused);
    else
        fprintf(to, "done");
    fprintf(to, " %u %u", (unsigned)r->n, (unsigned)marks(r));
    for (uint32_t code = 0; code < 5; code++)
        fprintf(to, " %u", (unsigned)ended(r, code));
    fprintf(to, " %llu %u", (unsigned long long)wrong(r), most(r));
    for (unsigned c = 0; c < COLUMNS; c++)
        if (wrong_column(r, c))
            fprintf(to, " %u:%llu", c, (unsigned long long)wrong_column(r, c));
    fprintf(to, "\n");
}

static void opens(uint32_t n)
{
    unsigned char frame[FRAME] = {0};
    number(frame + 1, n);
    unsigned refused = open_report(&reports[own], n);
    if (wants_input)
        fwrite(frame, 1, FRAME, to);
    else
        line(refused, &reports[own]);
}

static void enters_often(const struct mark *m, uint32_t times)
{
    unsigned char frame[FRAME] = {1};
    number(frame + 1, m->ending);
    number(frame + 5, m->detail);
    number(frame + 9, times);
    frame[13] = (unsigned char)m->flags;
    memcpy(frame + 14, m->flag, m->flags);
    unsigned refused = enter(&reports[own], m, times);
    if (wants_input)
        fwrite(frame, 1, FRAME, to);
    else
        line(refused, &reports[own]);
}

static void enters(const struct mark *m)
{
    enters_often(m, 1);
}

static void ranks(void)
{
    static const char *const word[] = {"equal", "first", "second"};
    unsigned char frame[FRAME] = {2};
    if (wants_input)
        fwrite(frame, 1, FRAME, to);
    else
        fprintf(to, "%s\n", word[ranking(&reports[own], &reports[!own])]);
    own = !own;
}

/* ---- marks */

/* a mark of n columns, the first `wrong` of them flagged 1 */
static struct mark mark_of(uint32_t ending, uint32_t detail, unsigned n, unsigned wrong)
{
    struct mark m = {ending, detail, n, {0}};
    memset(m.flag, 1, wrong);
    return m;
}

static struct mark corrected(unsigned n, unsigned wrong)
{
    return mark_of(1, wrong, n, wrong);
}

/* a mark that is entered, whatever its ending; a corrected one may have lost columns */
static struct mark random_mark(unsigned n)
{
    struct mark m = {chance(2) ? 1 : below(5), below(300), n, {0}};
    unsigned dense = 1 + below(6);
    for (unsigned i = 0; i < n; i++)
        m.flag[i] = m.ending == 1 ? (unsigned char)(chance(dense) ? 1 : chance(4) ? 2 : 0) : (unsigned char)below(256);
    if (m.ending == 1)
        m.detail = wrong_in(&m);
    return m;
}

/* the same made wrong in one way, or in none */
static struct mark spoilt(struct mark m)
{
    static const uint32_t codes[] = {5, 6, 255, 256, 257, 258, 65537, 16777217, 4294967295u};
    switch (below(9)) {
    case 0: m.ending = codes[below(sizeof codes / sizeof *codes)]; break;
    case 1: m.flags = below(FLAGS + 1); break;
    case 2: m.flags++; break;
    case 3: m.flags--; break;
    case 4: m.flag[below(m.flags)] = (unsigned char)(3 + below(253)); break;
    case 5: m.detail += 1; break;
    case 6: m.detail -= 1; break;
    case 7: m.detail += 256; break;
    case 8: m.flag[below(m.flags)] ^= 1; break;
    }
    return m;
}

/* ---- the runs */

static void openings(void)
{
    static const uint32_t ns[] = {0, 1, 2, 95, 96, 97, 98, 255, 256, 257, 352, 65536, 65537, 16777217, 4294967295u};
    struct mark one = corrected(1, 1), two = corrected(2, 1);
    for (unsigned i = 0; i < sizeof ns / sizeof *ns; i++) {
        opens(ns[i]);
        enters(&one);
        enters(&two);
    }
}

/* both reports grow, in turn */
static void in_turn(unsigned n, unsigned other, unsigned turns)
{
    opens(n);
    ranks();
    opens(other);
    for (unsigned i = 0; i < turns; i++) {
        struct mark m = random_mark(reports[own].n), bad = spoilt(m);
        if (chance(2))
            enters(&bad);
        if (chance(6))
            enters_often(&m, 1 + below(50));
        else
            enters(&m);
        if (chance(3))
            ranks();
    }
}

/* one of the two reports anew: so many corrected marks of so many wrong columns, and one mark more; ranked with the other */
static void supplier(unsigned n, uint32_t times, unsigned wrong, struct mark last)
{
    struct mark m = corrected(n, wrong);
    opens(n);
    if (times)
        enters_often(&m, times);
    enters(&last);
    ranks();
}

static void fractions(void)
{
    struct mark none = mark_of(2, 0, 3, 0), refused = mark_of(0, 7, 3, 3), right = corrected(3, 0);
    supplier(3, 0, 0, none); /* no corrected mark: last, and two such are equal */
    supplier(3, 0, 0, refused);
    supplier(3, 0, 0, right); /* 0/1 */
    supplier(3, 4, 3, none); /* 12/4 */
    supplier(3, 0, 0, none);
    supplier(3, 7, 0, right); /* 0/8 */
    supplier(3, 2, 0, right); /* 0/3 */
    supplier(3, 1, 2, corrected(3, 3)); /* 5/2 and 7/3, whose whole parts are the same */
    supplier(3, 2, 2, corrected(3, 3));
    supplier(3, 5, 2, corrected(3, 2)); /* 12/6 */
    supplier(3, 3, 2, right); /* 6/4 */
    supplier(3, 2, 1, right); /* 2/3 */
    supplier(3, 5, 1, corrected(3, 1)); /* 6/6 and 11/11 */
    supplier(3, 11, 1, none);
    supplier(96, 20000, 96, corrected(96, 95)); /* fractions close to one another, two of them the same */
    supplier(96, 20001, 96, corrected(96, 95));
    supplier(96, 20001, 96, corrected(96, 95));
    supplier(96, 20002, 96, corrected(96, 96));
    ranks();
    ranks();
}

/* 'Up to 1,000,000 marks', and the refusals' order */
static void full(void)
{
    struct mark none = mark_of(2, 0, 2, 0), wrong = corrected(2, 1), lost = corrected(2, 1);
    lost.flag[1] = 2;
    opens(2);
    enters(&wrong);
    enters_often(&none, MOST_MARKS - 3);
    enters(&lost);
    struct mark short_one = mark_of(1, 1, 1, 1), bad = mark_of(5, 0, 2, 0), bad_short = mark_of(5, 0, 1, 0);
    enters(&bad_short); /* 5 before 26 */
    enters(&bad);
    enters(&wrong);
    enters(&wrong);
    enters(&short_one); /* 24 before 5 and 26 */
    enters(&bad);
    enters(&bad_short);
    ranks();
    ranks();
    opens(2);
    enters_often(&none, 7);
}

int main(int argc, char **argv)
{
    if (argc != 3 || (strcmp(argv[1], "in") && strcmp(argv[1], "out"))) {
        fprintf(stderr, "usage: report in|out FILE\n");
        return 2;
    }
    wants_input = !strcmp(argv[1], "in");
    to = fopen(argv[2], "wb");
    if (!to) {
        perror(argv[2]);
        return 1;
    }
    state = 20261114;
    open_report(&reports[0], 1);
    open_report(&reports[1], 1);
    openings();
    static const unsigned ns[] = {1, 2, 3, 5, 16, 33, 95, 96};
    for (unsigned i = 0; i < sizeof ns / sizeof *ns; i++)
        in_turn(ns[i], chance(2) ? ns[i] : 1 + below(COLUMNS), 40);
    fractions();
    full();
    return fclose(to) ? 1 : 0;
}
