/* Makes the stored input and output of the program `desk_runs`: marks put together on a desk in several orders, damaged and
 * mended columns, refused puts and refused openings, with factors of one; then the same with factors. The desk is written from 01's
 * definitions and 02's: y is the symbol divided by its column's factor, and a row fits where the polynomial through its first k y
 * (Lagrange) has its other y as values.
 *
 *   desk in FILE    writes the input
 *   desk out FILE   writes the answers
 */
#include "second.h"

#include <stdio.h>
#include <string.h>

enum { FRAME = 53, POINTS = 20, LENGTHS = 7, FACTOR_COUNT = 32, FACTORS = 33, MOST_FACTORS = 20 };

/* ---- the desk */

struct desk {
    unsigned degree, n, r;
    unsigned x[16], factor[16], k[4];
    unsigned symbol[4][16];
};

/* 'in the desk's interpolation y is the symbol divided by its column's factor' */
static unsigned divided(const struct desk *d, unsigned row, unsigned column)
{
    return second_quotient(d->degree, d->symbol[row][column], d->factor[column]);
}

/* the value at a point of the polynomial of at most k coefficients that has the row's first k y at its first k points */
static unsigned through(const struct desk *d, unsigned row, unsigned point)
{
    unsigned sum = 0;
    for (unsigned i = 0; i < d->k[row]; i++) {
        unsigned above = divided(d, row, i), below = 1;
        for (unsigned j = 0; j < d->k[row]; j++)
            if (j != i) {
                above = second_product(d->degree, above, point ^ d->x[j]);
                below = second_product(d->degree, below, d->x[i] ^ d->x[j]);
            }
        sum ^= second_quotient(d->degree, above, below);
    }
    return sum;
}

static unsigned verdict(const struct desk *d)
{
    unsigned bad = 0;
    for (unsigned row = 0; row < d->r; row++)
        for (unsigned i = d->k[row]; i < d->n; i++)
            if (through(d, row, d->x[i]) != divided(d, row, i)) {
                bad++;
                break;
            }
    return bad;
}

/* The factors that an opening hands in: n of one but where a run says otherwise. */
static unsigned factors[MOST_FACTORS], factor_count;

static void zero_desk(struct desk *d, unsigned degree, unsigned n, const unsigned *x, const unsigned *f, unsigned r, const unsigned *k)
{
    memset(d, 0, sizeof *d);
    d->degree = degree;
    d->n = n;
    d->r = r;
    memcpy(d->x, x, n * sizeof *x);
    memcpy(d->factor, f, n * sizeof *f);
    memcpy(d->k, k, r * sizeof *k);
}

static unsigned open_refusal(unsigned degree, unsigned n, const unsigned *x, unsigned r, const unsigned *k)
{
    if (degree != 2 && degree != 4 && degree != 8)
        return 1;
    if (r < 1 || r > 4)
        return 2;
    if (n < 1 || n > 16)
        return 3;
    for (unsigned l = 0; l < r; l++)
        if (k[l] < 1 || k[l] > n)
            return 4;
    for (unsigned l = 0; l < r; l++)
        if (k[l] == n)
            return 18;
    if (factor_count != n)
        return 5;
    for (unsigned i = 0; i < n; i++) {
        if (x[i] >> degree)
            return 6;
        for (unsigned j = 0; j < i; j++)
            if (x[j] == x[i])
                return 6;
    }
    for (unsigned i = 0; i < n; i++)
        if (factors[i] == 0 || factors[i] >> degree)
            return 23;
    return 0;
}

static unsigned open_desk(struct desk *d, unsigned degree, unsigned n, const unsigned *x, unsigned r, const unsigned *k)
{
    static const unsigned spare_x[] = {0, 1}, spare_factors[] = {1, 1}, spare_k[] = {1};
    unsigned refused = open_refusal(degree, n, x, r, k);
    if (refused)
        zero_desk(d, 2, 2, spare_x, spare_factors, 1, spare_k);
    else
        zero_desk(d, degree, n, x, factors, r, k);
    return refused;
}

static unsigned put_column(struct desk *d, unsigned column, unsigned count, const unsigned *s)
{
    if (column >= d->n)
        return 14;
    if (count != d->r)
        return 5;
    for (unsigned l = 0; l < count; l++)
        if (s[l] >> d->degree)
            return 7;
    for (unsigned l = 0; l < count; l++)
        d->symbol[l][column] = s[l];
    return 0;
}

/* ---- one call, as a frame or as a line */

static FILE *to;
static int wants_input;
static struct desk now;

static void frame(unsigned kind, unsigned number, unsigned n, const unsigned *x, unsigned r, const unsigned *k)
{
    unsigned char f[FRAME] = {0};
    f[0] = (unsigned char)kind;
    f[1] = (unsigned char)(number & 255);
    f[2] = (unsigned char)(number >> 8);
    f[3] = (unsigned char)n;
    f[4] = (unsigned char)r;
    for (unsigned i = 0; i < n; i++)
        f[5 + i] = (unsigned char)x[i];
    for (unsigned l = 0; l < r; l++)
        f[5 + POINTS + l] = (unsigned char)k[l];
    if (kind == 0)
        f[FACTOR_COUNT] = (unsigned char)factor_count;
    for (unsigned i = 0; i < f[FACTOR_COUNT]; i++)
        f[FACTORS + i] = (unsigned char)factors[i];
    fwrite(f, 1, sizeof f, to);
}

static void line(unsigned refused)
{
    if (refused)
        fprintf(to, "!%u %u\n", refused, verdict(&now));
    else
        fprintf(to, "done %u\n", verdict(&now));
}

/* so many factors of one */
static void ones(unsigned count)
{
    factor_count = count;
    for (unsigned i = 0; i < count; i++)
        factors[i] = 1;
}

/* an opening with the factors that are there */
static void opens_with_factors(unsigned degree, unsigned n, const unsigned *x, unsigned r, const unsigned *k)
{
    unsigned refused = open_desk(&now, degree, n, x, r, k);
    if (wants_input)
        frame(0, degree, n, x, r, k);
    else
        line(refused);
}

static void opens(unsigned degree, unsigned n, const unsigned *x, unsigned r, const unsigned *k)
{
    ones(n);
    opens_with_factors(degree, n, x, r, k);
}

static void puts_column(unsigned column, unsigned count, const unsigned *s)
{
    unsigned refused = put_column(&now, column, count, s);
    if (wants_input)
        frame(1, column, count, s, 0, 0);
    else
        line(refused);
}

/* ---- marks */

static unsigned state = 2026;

static unsigned any(unsigned below)
{
    state = state * 1103515245u + 12345u;
    return (state >> 16) % below;
}

/* the columns of a random mark of the desk's code: column i, row l */
static unsigned mark[16][4];

static void strike(void)
{
    unsigned size = 1u << now.degree;
    for (unsigned l = 0; l < now.r; l++) {
        unsigned message[16];
        for (unsigned i = 0; i < now.k[l]; i++)
            message[i] = any(size);
        for (unsigned i = 0; i < now.n; i++) {
            mark[i][l] = 0;
            for (unsigned j = now.k[l]; j-- > 0;)
                mark[i][l] = second_product(now.degree, mark[i][l], now.x[i]) ^ message[j];
            mark[i][l] = second_product(now.degree, now.factor[i], mark[i][l]);
        }
    }
}

/* upwards, downwards, then in an order by chance */
static void order(unsigned which, unsigned *o)
{
    for (unsigned i = 0; i < now.n; i++)
        o[i] = which == 1 ? now.n - 1 - i : i;
    if (which == 2)
        for (unsigned i = now.n; i-- > 1;) {
            unsigned j = any(i + 1), t = o[i];
            o[i] = o[j];
            o[j] = t;
        }
}

/* a column with one row's symbol changed, and with all of them changed; then the right one again */
static void damage(void)
{
    unsigned size = 1u << now.degree, i = any(now.n), s[4];
    memcpy(s, mark[i], sizeof s);
    s[any(now.r)] ^= 1 + any(size - 1);
    puts_column(i, now.r, s);
    for (unsigned l = 0; l < now.r; l++)
        s[l] = mark[i][l] ^ (1 + any(size - 1));
    puts_column(i, now.r, s);
    puts_column(i, now.r, mark[i]);
}

static void refused_puts(void)
{
    unsigned s[POINTS] = {0}, bad[POINTS] = {0}, i = any(now.n);
    for (unsigned l = 0; l < POINTS; l++) {
        s[l] = any(1u << now.degree);
        bad[l] = s[l];
    }
    bad[any(now.r)] = 1u << now.degree;
    puts_column(now.n, now.r, s);
    puts_column(now.n + 256 * (1 + any(200)), now.r, s);
    puts_column(256 + i, now.r, s);
    puts_column(now.n, now.r + 1, bad);
    puts_column(i, 0, s);
    puts_column(i, now.r - 1, s);
    puts_column(i, now.r + 1, bad);
    puts_column(i, POINTS, bad);
    if (now.degree < 8)
        puts_column(i, now.r, bad);
}

/* factors that are not zero, the second not one where the field has another */
static void any_factors(unsigned degree, unsigned n)
{
    factor_count = n;
    for (unsigned i = 0; i < n; i++)
        factors[i] = i == 1 ? 2 + any((1u << degree) - 2) : 1 + any((1u << degree) - 1);
}

static void code(unsigned degree, unsigned n, unsigned r, const unsigned *k, int with_factors)
{
    unsigned size = 1u << degree, x[16], o[16];
    for (unsigned i = 0; i < n;) {
        unsigned j = 0;
        x[i] = any(size);
        while (j < i && x[j] != x[i])
            j++;
        if (j == i)
            i++;
    }
    for (unsigned which = 0; which < 3; which++) {
        if (with_factors)
            any_factors(degree, n);
        else
            ones(n);
        opens_with_factors(degree, n, x, r, k);
        strike();
        order(which, o);
        for (unsigned i = 0; i < n; i++) {
            if (i == n / 2)
                refused_puts();
            puts_column(o[i], r, mark[o[i]]);
        }
        damage();
        puts_column(o[0], r, mark[o[n - 1]]);
    }
}

/* what a refused opening hands over: the zero desk of GF(4) with points 0 1 and k 1 */
static void spare(void)
{
    unsigned one[] = {1}, four[] = {4}, two[] = {1, 1};
    puts_column(2, 1, one);
    puts_column(0, 2, two);
    puts_column(0, 1, four);
    puts_column(0, 1, one);
    puts_column(1, 1, one);
}

static void refused_openings(void)
{
    unsigned x[POINTS], k[LENGTHS], bad[LENGTHS] = {1, 1, 1, 0, 1, 1, 1}, long_k[LENGTHS] = {1, 4, 1, 1, 1, 1, 1};
    unsigned twice[] = {3, 1, 3}, outside[] = {3, 16, 1}, full[] = {1, 3}, full_and_none[] = {3, 0}, full_and_more[] = {4, 3};
    unsigned sixteen[] = {1, 2, 3, 16};
    for (unsigned i = 0; i < POINTS; i++)
        x[i] = i;
    for (unsigned l = 0; l < LENGTHS; l++)
        k[l] = 1;
    static const unsigned degrees[] = {0, 1, 3, 5, 7, 9, 16, 255, 258, 260, 264, 514};
    for (unsigned i = 0; i < sizeof degrees / sizeof *degrees; i++)
        opens(degrees[i], 3, x, 1, k);
    spare();
    opens(3, 0, x, 0, k);
    opens(4, 3, x, 0, k);
    opens(4, 3, x, 5, k);
    opens(4, 0, x, 7, k);
    spare();
    opens(4, 0, x, 1, k);
    opens(8, 17, x, 1, k);
    opens(8, 20, x, 4, bad);
    spare();
    opens(4, 3, x, 4, bad);
    opens(4, 3, x, 2, long_k);
    opens(4, 4, x, 2, long_k);
    opens(4, 3, twice, 2, long_k);
    spare();
    opens(4, 3, x, 2, full);
    opens(4, 3, twice, 2, full);
    opens(4, 3, x, 2, full_and_none);
    opens(4, 3, x, 2, full_and_more);
    opens(2, 1, x, 1, k);
    opens(8, 16, x, 4, sixteen);
    spare();
    opens(4, 3, twice, 1, k);
    opens(4, 3, outside, 1, k);
    opens(8, 3, outside, 1, k);
    opens(2, 5, x, 1, k);
    spare();
    opens(4, 16, x, 4, k);
    opens(4, 17, x, 4, k);
}

/* one opening of GF(16) with k 1 and three points; its factors are in a list of up to four */
static void opens_three(const unsigned *x, unsigned count, unsigned a, unsigned b, unsigned c, unsigned d)
{
    static const unsigned k[] = {1};
    unsigned list[] = {a, b, c, d};
    factor_count = count;
    memcpy(factors, list, sizeof list);
    opens_with_factors(4, 3, x, 1, k);
}

/* a row of one value, struck with the factors a desk was opened with and then with other ones */
static void other_factors(void)
{
    unsigned x[] = {3, 1, 0}, s;
    opens_three(x, 3, 2, 3, 15, 0);
    for (unsigned i = 0; i < 3; i++)
        puts_column(i, 1, &factors[i]);
    opens_three(x, 3, 2, 4, 15, 0);
    for (unsigned i = 0; i < 3; i++) {
        s = i == 1 ? 3 : factors[i];
        puts_column(i, 1, &s);
    }
    s = 4;
    puts_column(1, 1, &s);
}

static void refused_factors(void)
{
    static const unsigned x[] = {3, 1, 0}, twice[] = {3, 1, 3}, full[] = {3}, none[] = {0}, k[] = {1};
    static const unsigned sixteen[] = {0, 1, 2, 3, 4, 5, 6, 7, 8, 9, 10, 11, 12, 13, 14, 15};
    opens_three(x, 0, 1, 1, 1, 1); /* missing and spare */
    opens_three(x, 2, 1, 1, 1, 1);
    spare();
    opens_three(x, 4, 1, 1, 1, 1);
    opens_three(x, 4, 1, 1, 1, 0);
    spare();
    opens_three(x, 3, 0, 1, 1, 1); /* zero and outside the field */
    opens_three(x, 3, 1, 1, 0, 1);
    spare();
    opens_three(x, 3, 1, 16, 1, 1);
    opens_three(x, 3, 1, 1, 255, 1);
    spare();
    opens_three(x, 3, 15, 15, 15, 1);
    opens_three(twice, 4, 1, 1, 1, 1); /* 5 before 6, 6 before 23, 5 before 23 */
    opens_three(twice, 3, 1, 0, 1, 1);
    opens_three(x, 2, 1, 0, 1, 1);
    factor_count = 4; /* 18, 4, 3, 2 and 1 before 5 */
    opens_with_factors(4, 3, x, 1, full);
    opens_with_factors(4, 3, x, 1, none);
    opens_with_factors(4, 0, x, 1, k);
    opens_with_factors(4, 3, x, 0, k);
    opens_with_factors(3, 3, x, 1, k);
    ones(17); /* sixteen columns */
    opens_with_factors(8, 16, sixteen, 1, k);
    ones(15);
    opens_with_factors(8, 16, sixteen, 1, k);
    ones(16);
    factors[15] = 0;
    opens_with_factors(8, 16, sixteen, 1, k);
    factors[15] = 255;
    opens_with_factors(8, 16, sixteen, 1, k);
    ones(MOST_FACTORS);
    opens_with_factors(8, 16, sixteen, 1, k);
    spare();
}

int main(int argc, char **argv)
{
    if (argc != 3 || (strcmp(argv[1], "in") && strcmp(argv[1], "out"))) {
        fprintf(stderr, "usage: desk in|out FILE\n");
        return 2;
    }
    wants_input = !strcmp(argv[1], "in");
    to = fopen(argv[2], "wb");
    if (!to) {
        perror(argv[2]);
        return 1;
    }
    static const unsigned one[] = {1}, two[] = {1, 2}, four[] = {4, 1, 2, 3}, long_k[] = {15, 3, 8, 14}, last[] = {2, 3},
                          three[] = {3, 1, 2, 3};
    for (int with_factors = 0; with_factors < 2; with_factors++) {
        code(2, 4, 2, two, with_factors);
        code(2, 4, 4, three, with_factors);
        code(2, 2, 1, one, with_factors);
        code(4, 5, 2, two, with_factors);
        code(4, 9, 4, four, with_factors);
        code(4, 16, 4, long_k, with_factors);
        code(8, 4, 2, last, with_factors);
        code(8, 12, 4, four, with_factors);
        code(8, 16, 4, long_k, with_factors);
        code(8, 16, 1, one, with_factors);
        if (!with_factors)
            refused_openings();
    }
    other_factors();
    refused_factors();
    return fclose(to) ? 1 : 0;
}
