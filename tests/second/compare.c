/* Compares the static library with the second program over many random calls: all fields, lengths, limits, endings and refusals,
 * column factors, lists of lost columns, and rows read by their powers. Every buffer has guard bytes around it; what a call must not
 * change is compared byte by byte, and so is the working space.
 *
 *   compare [COUNT [SEED]]    COUNT calls, half as many with lost columns, and as many again of rows read by their powers
 */
#define _POSIX_C_SOURCE 200112L
#include "grenhyrna.h"
#include "halves.h"
#include "random.h"
#include "second.h"

#include <stdlib.h>

enum { GUARD = 64, ROOM = 1024, SPARE = 200 };

/* A buffer with guards, twice: for the library and for the second program. */
struct buffer {
    uint8_t all[2][GUARD + ROOM + GUARD];
    size_t length;
};

static uint8_t *own(struct buffer *b, int which)
{
    return b->all[which] + GUARD;
}

static void fill(struct buffer *b, size_t length, unsigned symbols)
{
    b->length = length;
    for (size_t i = 0; i < sizeof b->all[0]; i++)
        b->all[0][i] = (uint8_t)next();
    for (size_t i = 0; i < length; i++)
        own(b, 0)[i] = (uint8_t)below(symbols);
    memcpy(b->all[1], b->all[0], sizeof b->all[0]);
}

static void both(struct buffer *b)
{
    memcpy(b->all[1], b->all[0], sizeof b->all[0]);
}

/* Calls whose endings are counted apart. */
enum { MARKS, RINGS, LOST_MARKS, LOST_RINGS, POWERED, KINDS };

/* What a list of lost columns is like; the first six are good where the largest k allows. */
enum { EMPTY, FRONT, BACK, ANY_ORDER, FALLING, ALL_BUT_LARGEST, TOO_MANY, TWICE, OUT_OF_RANGE, ALL, TOO_LONG, SHAPES };
static const char *const shapes[] = {"empty",    "the first", "the last",     "any order", "falling", "all but k_max",
                                     "too many", "twice",     "out of range", "all",       "too long"};

/* What the factors are like; the first two are good. */
enum { ONES, ANY, ZERO, OUTSIDE, MISSING, SPARE_FACTOR, FACTORS };
static const char *const factor_lists[] = {"all one", "any", "a zero", "one outside", "one missing", "one spare"};

/* Two checks that both refuse a call: the first number is the answer. For 16 stands a bad list of lost columns. */
static const struct {
    uint8_t answer, other;
} orders[] = {{18, 5}, {5, 6}, {5, 23}, {6, 23}, {23, 7}, {23, 16}, {23, 8}};
enum { ORDERS = sizeof orders / sizeof *orders };

/* What came about, and of the lists how many were looked at, no earlier check having refused the call. */
static struct {
    unsigned long endings[KINDS][5], refusals[KINDS][32], done;
    unsigned long looked_at[SHAPES], tight_calls, nothing_wrong, bad_where_lost;
    unsigned long factors[FACTORS], orders[ORDERS], not_read_for_a_factor, corrected_for_a_factor;
    unsigned long powers[5], beyond_half, single_rows, twenty_before_four, large_numbers;
} tried;

static struct buffer lengths, points, factors, lost, first, second, flags;
static int factors_are; /* what the factors are like */
static uint8_t space[2][GUARD + SECOND_SPACE + SPARE + GUARD];
static size_t space_length;

/* What the working space holds before a call: a part of this list, from any place on. No byte of it is zero. */
static uint8_t dirt[2 * sizeof space[0]];

static void fill_space(void)
{
    memcpy(space[0], dirt + below(sizeof space[0]), sizeof space[0]);
    memcpy(space[1], space[0], sizeof space[0]);
    space_length = chance(40) ? SECOND_SPACE - 1 - below(3) : SECOND_SPACE + below(SPARE);
}

static int same(const char *what, uint32_t a, uint32_t b)
{
    struct buffer *buffers[] = {&lengths, &points, &factors, &lost, &first, &second, &flags};
    int ok = a == b;
    for (size_t i = 0; i < sizeof buffers / sizeof *buffers; i++)
        ok &= !memcmp(buffers[i]->all[0], buffers[i]->all[1], sizeof buffers[i]->all[0]);
    ok &= !memcmp(space[0], space[1], sizeof space[0]);
    if (!ok)
        printf("compare: %s: the library answers %u, the second program %u, or a buffer differs\n", what, a, b);
    return ok;
}

static void count_decoding(int kind, uint32_t answer)
{
    tried.endings[kind][gren_code(answer)]++;
    if (gren_code(answer) == GREN_REFUSED)
        tried.refusals[kind][gren_detail(answer)]++;
}

static void count_result(int kind, uint32_t answer)
{
    if (answer == GREN_DONE)
        tried.done++;
    else
        tried.refusals[kind][answer]++;
}

static unsigned any_but_zero(unsigned symbols)
{
    return 1 + below(symbols - 1);
}

/* Lays factors, nearly always good ones. */
static void random_factors(uint32_t degree, size_t columns)
{
    unsigned turn = below(40), symbols = 1u << degree, at = below((unsigned)columns);
    factors_are = turn < 4 ? ZERO + (int)turn : turn < 16 ? ONES : ANY;
    if (factors_are == OUTSIDE && degree == 8)
        factors_are = ANY;
    fill(&factors, columns + (factors_are == SPARE_FACTOR) - (factors_are == MISSING), 256);
    for (size_t i = 0; i < columns; i++)
        own(&factors, 0)[i] = (uint8_t)(factors_are == ONES ? 1 : any_but_zero(symbols));
    if (factors_are == ZERO || (factors_are == SPARE_FACTOR && chance(2)))
        own(&factors, 0)[at] = 0;
    if (factors_are == OUTSIDE)
        own(&factors, 0)[at] = (uint8_t)(chance(2) ? symbols : symbols + below(256 - symbols));
    both(&factors);
}

/* Another factor in one column; answers whether it is another. */
static int change_factor(unsigned symbols, size_t columns)
{
    uint8_t *one = own(&factors, 0) + below((unsigned)columns), before = *one;
    *one = (uint8_t)any_but_zero(symbols);
    both(&factors);
    return *one != before;
}

/* Whether a check refuses the call, whatever the checks before it do. */
static int refuses(unsigned check, uint32_t degree, size_t columns, const struct buffer *symbols, int bad_list, int over)
{
    const uint8_t *x = points.all[0] + GUARD, *f = factors.all[0] + GUARD, *y = symbols->all[0] + GUARD;
    int bad = 0;
    switch (check) {
    case 5: return factors.length != columns;
    case 6:
        for (size_t i = 0; i < columns; i++)
            bad |= x[i] >> degree || memchr(x, x[i], i) != NULL;
        return bad;
    case 23:
        for (size_t i = 0; i < factors.length; i++)
            bad |= f[i] >> degree || !f[i];
        return bad;
    case 7:
        for (size_t i = 0; i < symbols->length; i++)
            bad |= y[i] >> degree;
        return bad;
    case 16: return bad_list;
    default: return over;
    }
}

/* Counts what a call's factors were, and that a second check would refuse it too. */
static void count_code(uint32_t answer, uint32_t degree, size_t columns, const struct buffer *symbols, int bad_list, int over)
{
    tried.factors[factors_are]++;
    for (int i = 0; i < ORDERS; i++)
        tried.orders[i] += answer == orders[i].answer && refuses(orders[i].other, degree, columns, symbols, bad_list, over);
}

/* A code, nearly always a valid one; the degree is answered. */
static uint32_t random_code(size_t *rows, size_t *columns, int small)
{
    static const uint32_t degrees[] = {2, 4, 8};
    uint32_t degree = degrees[below(3)];
    size_t most = degree == 2 ? 4 : degree == 4 ? 16 : small ? 20 : 96;
    *rows = 1 + below(4);
    *columns = chance(60) ? 1 : 2 + below((unsigned)most - 1);
    if (small && *columns > 12 && !chance(4))
        *columns = 4 + below(9);
    if (small && degree == 8 && chance(200)) { /* the second program takes its time over these */
        *rows = 1 + below(2);
        *columns = 21 + below(76);
    }
    fill(&lengths, *rows, 256);
    for (size_t l = 0; l < *rows; l++)
        own(&lengths, 0)[l] = (uint8_t)(1 + below(chance(2) && *columns > 1 ? (unsigned)*columns - 1 : ((unsigned)*columns + 2) / 3));
    fill(&points, *columns, 1u << degree);
    for (size_t i = 0; i < *columns; i++) {
        uint8_t x;
        size_t j;
        do {
            x = (uint8_t)below(1u << degree);
            for (j = 0; j < i && own(&points, 0)[j] != x; j++)
                ;
        } while (j < i);
        own(&points, 0)[i] = x;
    }
    random_factors(degree, *columns);
    if (factors_are > ANY && chance(4))
        own(&points, 0)[*columns - 1] = own(&points, 0)[0];
    switch (below(60)) {
    case 0: degree = below(12) + (chance(3) ? 256 : 0); break;
    case 1: lengths.length = *rows = chance(2) ? 0 : 5 + below(3); break;
    case 2: points.length = *columns = chance(2) ? 0 : 97 + below(5); break;
    case 3: own(&lengths, 0)[below((unsigned)*rows)] = chance(2) ? 0 : (uint8_t)(*columns + 1); break;
    case 4: own(&points, 0)[below((unsigned)*columns)] = (uint8_t)next(); break;
    case 5: own(&points, 0)[*columns - 1] = own(&points, 0)[0]; break;
    case 6: own(&lengths, 0)[below((unsigned)*rows)] = (uint8_t)*columns; break;
    case 7: /* one k equal to n and one out of range, or the other way round */
        own(&lengths, 0)[0] = (uint8_t)(chance(2) ? *columns : 0);
        own(&lengths, 0)[*rows - 1] = (uint8_t)(chance(2) ? *columns : *columns + 1);
        break;
    default: break;
    }
    both(&lengths);
    both(&points);
    return degree;
}

static size_t message_length(size_t rows)
{
    size_t sum = 0;
    for (size_t l = 0; l < rows && l < 8; l++)
        sum += own(&lengths, 0)[l];
    return sum < ROOM ? sum : 0;
}

/* A length that is right but now and then. */
static size_t spoil_length(size_t length)
{
    return chance(50) ? length + 1 : chance(50) && length ? length - 1 : length;
}

static void spoil_symbol(struct buffer *b, uint32_t degree)
{
    if (chance(40) && b->length && degree < 8)
        own(b, 0)[below((unsigned)b->length)] = (uint8_t)(1u << degree);
    both(b);
}

static uint32_t encode_both(uint32_t degree, size_t rows, size_t columns, uint32_t *other)
{
    *other = second_mark_encode(degree, own(&lengths, 1), rows, own(&points, 1), columns, own(&factors, 1), factors.length,
                                own(&first, 1), first.length, own(&second, 1), second.length);
    return gren_mark_encode(degree, own(&lengths, 0), rows, own(&points, 0), columns, own(&factors, 0), factors.length,
                            own(&first, 0), first.length, own(&second, 0), second.length);
}

static int compare_mark_coding(void)
{
    size_t rows, columns;
    uint32_t degree = random_code(&rows, &columns, 0), a, b;
    unsigned symbols = degree == 2 || degree == 4 ? 1u << degree : 256;
    fill(&first, spoil_length(message_length(rows)), symbols);
    spoil_symbol(&first, degree);
    fill(&second, spoil_length(rows * columns), 256);
    fill_space();
    a = encode_both(degree, rows, columns, &b);
    count_result(MARKS, a);
    count_code(a, degree, columns, &first, 0, 0);
    if (!same("encoding", a, b))
        return 0;
    if (a != GREN_DONE)
        return 1;
    /* read it back, now and then with a wrong symbol or two, or with another factor */
    struct buffer array = second;
    unsigned wrong = chance(2) ? 0 : 1 + below(2);
    int other = chance(4) && change_factor(symbols, columns) && !wrong;
    for (; wrong; wrong--)
        own(&array, 0)[below((unsigned)array.length)] ^= (uint8_t)(1 + below(symbols - 1));
    both(&array);
    second = array;
    spoil_symbol(&second, degree);
    fill(&first, spoil_length(message_length(rows)), 256);
    a = gren_mark_read(degree, own(&lengths, 0), rows, own(&points, 0), columns, own(&factors, 0), factors.length, own(&second, 0),
                       second.length, own(&first, 0), first.length);
    b = second_mark_read(degree, own(&lengths, 1), rows, own(&points, 1), columns, own(&factors, 1), factors.length,
                         own(&second, 1), second.length, own(&first, 1), first.length);
    count_result(MARKS, a);
    tried.not_read_for_a_factor += other && a == GREN_NO_CODE_ARRAY;
    return same("reading", a, b);
}

static int compare_mark_decoding(void)
{
    size_t rows, columns;
    uint32_t degree = random_code(&rows, &columns, 1), a, b, limit;
    int other = 0, fits = rows >= 1 && rows <= 4 && columns >= 1 && columns <= 96;
    unsigned symbols = degree == 2 || degree == 4 ? 1u << degree : 256;
    for (size_t l = 0; fits && l < rows; l++)
        fits &= own(&lengths, 0)[l] >= 1 && own(&lengths, 0)[l] <= columns;
    unsigned joint = fits ? second_joint_limit(own(&lengths, 0), rows, columns) : 0;
    limit = chance(2) ? joint : below(joint + 1);
    if (columns > 20 && limit > 3)
        limit = 1 + below(3);
    if (chance(factors_are > ANY ? 10 : 50))
        limit += 1 + below(300);
    fill(&first, message_length(rows), symbols);
    fill(&second, rows * columns < ROOM ? rows * columns : 0, 256);
    fill_space();
    if (encode_both(degree, rows, columns, &b) == GREN_DONE) {
        unsigned wrong = chance(4) ? below((unsigned)columns + 1) : below(limit + 2);
        other = chance(8) && change_factor(symbols, columns) && !wrong;
        for (; wrong; wrong--) {
            size_t i = below((unsigned)columns);
            for (size_t l = 0; l < rows; l++)
                if (chance(2))
                    own(&second, 0)[l * columns + i] = (uint8_t)below(symbols);
        }
        if (chance(5))
            for (size_t i = 0; i < rows * columns; i++)
                own(&second, 0)[i] = (uint8_t)below(symbols);
    } else if (chance(2))
        fill(&second, second.length, symbols);
    both(&second);
    spoil_symbol(&second, degree);
    second.length = spoil_length(second.length);
    fill(&first, spoil_length(rows * columns < ROOM ? rows * columns : 0), 256);
    fill(&flags, spoil_length(columns), 256);
    a = gren_mark_decode(degree, own(&lengths, 0), rows, own(&points, 0), columns, own(&factors, 0), factors.length, limit,
                         own(&second, 0), second.length, own(&first, 0), first.length, own(&flags, 0), flags.length,
                         space[0] + GUARD, space_length);
    b = second_mark_decode(degree, own(&lengths, 1), rows, own(&points, 1), columns, own(&factors, 1), factors.length, limit,
                           own(&second, 1), second.length, own(&first, 1), first.length, own(&flags, 1), flags.length,
                           space[1] + GUARD, space_length);
    count_decoding(MARKS, a);
    count_code(a, degree, columns, &second, 0, limit > joint);
    tried.corrected_for_a_factor += other && a == 257;
    return same("decoding", a, b);
}

typedef uint32_t ring_coding(uint32_t q, uint32_t m, const uint8_t *input, size_t input_length, uint8_t *result, size_t result_length);

/* Encoding or reading a ring; the library's number is in *a. */
static int compare_ring_coding(const char *what, ring_coding *library, ring_coding *other, uint32_t q, uint32_t m,
                               struct buffer *input, struct buffer *result, uint32_t *a)
{
    *a = library(q, m, own(input, 0), input->length, own(result, 0), result->length);
    count_result(RINGS, *a);
    return same(what, *a, other(q, m, own(input, 1), input->length, own(result, 1), result->length));
}

static int compare_ring(void)
{
    uint32_t q = chance(2) ? 2 : 4, a, b;
    uint32_t m = q * q - 1 + below(q * q * q - q * q - q + 1);
    uint8_t ks[4];
    second_ring_lengths(q, m, ks);
    size_t symbols = q * q, size = q * q * q, total = 0;
    for (uint32_t j = 0; j < q; j++)
        total += ks[j];
    uint32_t limit = below(second_joint_limit(ks, q, q * q) + 1);
    if (chance(40))
        q = below(9) + (chance(3) ? 256 : 0);
    if (chance(40))
        m = below(80);
    if (chance(40))
        m = q * q * q - 1 - below(q); /* a row without check symbols */
    if (chance(40))
        limit += 1 + below(300);
    fill_space();
    fill(&first, spoil_length(total), (unsigned)symbols);
    spoil_symbol(&first, q < 8 ? q : 8);
    fill(&second, spoil_length(size), 256);
    if (!compare_ring_coding("encoding a ring", gren_ring_encode, second_ring_encode, q, m, &first, &second, &a))
        return 0;
    if (a != GREN_DONE)
        fill(&second, second.length, (unsigned)symbols);
    unsigned wrong = chance(3) ? 0 : chance(4) ? below((unsigned)symbols + 1) : below(limit + 2);
    for (; wrong; wrong--) {
        size_t sector = below((unsigned)symbols);
        for (size_t i = 0; i < size / symbols; i++)
            if (chance(2))
                own(&second, 0)[sector * (size / symbols) + i] = (uint8_t)below((unsigned)symbols);
    }
    both(&second);
    spoil_symbol(&second, q < 8 ? q : 8);
    fill(&first, spoil_length(total), 256);
    if (!compare_ring_coding("reading a ring", gren_ring_read, second_ring_read, q, m, &second, &first, &a))
        return 0;
    fill(&first, spoil_length(size), 256);
    fill(&flags, spoil_length(symbols), 256);
    a = gren_ring_decode(q, m, limit, own(&second, 0), second.length, own(&first, 0), first.length, own(&flags, 0), flags.length,
                         space[0] + GUARD, space_length);
    b = second_ring_decode(q, m, limit, own(&second, 1), second.length, own(&first, 1), first.length, own(&flags, 1), flags.length,
                           space[1] + GUARD, space_length);
    count_decoding(RINGS, a);
    return same("decoding a ring", a, b);
}

/* ---- lost columns */

static void exchange(uint8_t *a, uint8_t *b)
{
    uint8_t kept = *a;
    *a = *b;
    *b = kept;
}

static void shuffle(uint8_t *list, size_t count)
{
    for (size_t i = count; i > 1; i--)
        exchange(list + i - 1, list + below((unsigned)i));
}

static void sort_falling(uint8_t *list, size_t count)
{
    for (size_t i = 1; i < count; i++)
        for (size_t j = i; j && list[j - 1] < list[j]; j--)
            exchange(list + j, list + j - 1);
}

/* Lays a list of lost columns, `most` of which may be lost; answers its shape. */
static int random_lost(size_t columns, size_t most)
{
    static uint8_t order[ROOM];
    size_t count = below((unsigned)most + 1);
    int shape = chance(5) ? (int)(TOO_MANY + below(SHAPES - TOO_MANY)) : (int)below(TOO_MANY);
    for (size_t i = 0; i < ROOM; i++)
        order[i] = (uint8_t)(columns ? i % columns : i);
    if (shape != FRONT && shape != BACK)
        shuffle(order, columns);
    switch (shape) {
    case EMPTY: count = 0; break;
    case BACK: memmove(order, order + columns - count, count); break;
    case FALLING: sort_falling(order, count); break;
    case ALL_BUT_LARGEST: count = most; break;
    case TOO_MANY: count = most + 1 + below((unsigned)(columns - most)); break;
    case TWICE:
        count += count < 2 ? 2 : 0;
        order[below((unsigned)count - 1)] = order[count - 1];
        break;
    case OUT_OF_RANGE:
        count += !count;
        order[below((unsigned)count)] = (uint8_t)(chance(3) ? columns : chance(2) ? 255 : columns + below(256 - (unsigned)columns));
        break;
    case ALL: count = columns; break;
    case TOO_LONG: count = columns + 1 + below(chance(2) ? 4 : ROOM - 128); break;
    default: break;
    }
    count = count < ROOM ? count : ROOM;
    fill(&lost, count, 256);
    memcpy(own(&lost, 0), order, count);
    both(&lost);
    return shape;
}

static int is_lost(size_t column)
{
    return memchr(own(&lost, 0), (int)column, lost.length) != NULL;
}

/* The number of remaining columns where the list is good and leaves enough, and else 0. */
static size_t remaining(size_t columns, size_t most)
{
    size_t count = 0;
    for (size_t i = 0; i < columns; i++)
        count += is_lost(i);
    return count == lost.length && count <= most ? columns - count : 0;
}

/* A limit up to the joint limit over the remaining columns, or just above it, or any. */
static uint32_t random_limit(const uint8_t *ks, size_t rows, size_t left)
{
    unsigned joint = left ? second_joint_limit(ks, rows, left) : below(4);
    uint32_t limit = chance(2) ? joint : below(joint + 1);
    if (left > 20 && limit > 3)
        limit = 1 + below(3);
    return chance(25) ? joint + 1 : chance(50) ? joint + 1 + below(300) : limit;
}

/* Random symbols in the lost columns, and wrong ones in some of the others; the symbol of row l and column i is at
 * l · down + i · across. */
static void damage(size_t rows, size_t columns, size_t down, size_t across, uint32_t limit, unsigned symbols)
{
    unsigned most = limit < 96 ? limit : 96;
    unsigned wrong = chance(4) ? 0 : chance(5) ? below((unsigned)columns + 1) : chance(2) ? most + 1 : below(most + 2);
    for (size_t i = 0; i < columns; i++)
        for (size_t l = 0; l < rows && is_lost(i); l++)
            own(&second, 0)[l * down + i * across] = (uint8_t)below(symbols);
    for (; wrong; wrong--) {
        size_t i = below((unsigned)columns);
        for (size_t l = 0; l < rows && !is_lost(i); l++)
            if (chance(2))
                own(&second, 0)[l * down + i * across] = (uint8_t)below(symbols);
    }
    if (chance(4))
        for (size_t i = 0; i < rows * columns; i++)
            own(&second, 0)[i] = (uint8_t)below(symbols);
    both(&second);
}

/* A symbol outside the field, now and then, half of them in a lost column; answers whether it is in one. */
static int spoil_received(size_t rows, size_t columns, size_t down, size_t across, unsigned symbols)
{
    if (!chance(30) || !rows || !columns || symbols > 128)
        return 0;
    size_t i = lost.length && chance(2) ? own(&lost, 0)[below((unsigned)lost.length)] : below((unsigned)columns);
    if (i >= columns)
        return 0;
    own(&second, 0)[below((unsigned)rows) * down + i * across] = (uint8_t)(symbols + below(256 - symbols));
    both(&second);
    return is_lost(i);
}

/* What both calls with lost columns take, and what is counted of them. */
struct call {
    int ring;
    uint32_t degree, m, limit; /* a ring's q is its degree */
    size_t rows, columns;
    int shape, tight, bad_lost; /* the list's shape; k_max columns remain; a lost column has a bad symbol */
};

static void count_lost(const struct call *c, uint32_t answer)
{
    int refused = gren_code(answer) == GREN_REFUSED;
    count_decoding(c->ring ? LOST_RINGS : LOST_MARKS, answer);
    tried.looked_at[c->shape] += !refused || answer == GREN_BAD_LOST || answer == GREN_TOO_MANY_LOST || answer == GREN_BAD_LIMIT;
    tried.tight_calls += !refused && c->tight;
    tried.nothing_wrong += answer == 256 && lost.length > 0;
    tried.bad_where_lost += answer == GREN_BAD_SYMBOL && c->bad_lost;
}

static uint32_t library_lost(const struct call *c, int which)
{
    return c->ring ? gren_ring_decode_lost(c->degree, c->m, c->limit, own(&lost, which), lost.length, own(&second, which),
                                           second.length, own(&first, which), first.length, own(&flags, which), flags.length,
                                           space[which] + GUARD, space_length)
                   : gren_mark_decode_lost(c->degree, own(&lengths, which), c->rows, own(&points, which), c->columns,
                                           own(&factors, which), factors.length, c->limit, own(&lost, which), lost.length,
                                           own(&second, which), second.length, own(&first, which), first.length,
                                           own(&flags, which), flags.length, space[which] + GUARD, space_length);
}

static uint32_t second_lost(const struct call *c)
{
    return c->ring ? second_ring_decode_lost(c->degree, c->m, c->limit, own(&lost, 1), lost.length, own(&second, 1), second.length,
                                             own(&first, 1), first.length, own(&flags, 1), flags.length, space[1] + GUARD,
                                             space_length)
                   : second_mark_decode_lost(c->degree, own(&lengths, 1), c->rows, own(&points, 1), c->columns, own(&factors, 1),
                                             factors.length, c->limit, own(&lost, 1), lost.length, own(&second, 1), second.length,
                                             own(&first, 1), first.length, own(&flags, 1), flags.length, space[1] + GUARD,
                                             space_length);
}

static uint32_t without_list(const struct call *c)
{
    return c->ring ? gren_ring_decode(c->degree, c->m, c->limit, own(&second, 1), second.length, own(&first, 1), first.length,
                                      own(&flags, 1), flags.length, space[1] + GUARD, space_length)
                   : gren_mark_decode(c->degree, own(&lengths, 1), c->rows, own(&points, 1), c->columns, own(&factors, 1),
                                      factors.length, c->limit, own(&second, 1), second.length, own(&first, 1), first.length,
                                      own(&flags, 1), flags.length, space[1] + GUARD, space_length);
}

/* The library against the second program, against itself with other symbols in the lost columns, and with nothing lost against the
 * call that takes no list. */
static int compare_lost(const struct call *c, size_t down, size_t across, unsigned symbols)
{
    static struct buffer lent_first, lent_flags, received;
    static uint8_t lent_space[sizeof space[0]];
    lent_first = first, lent_flags = flags, received = second;
    memcpy(lent_space, space[0], sizeof space[0]);
    uint32_t a = library_lost(c, 0), b = second_lost(c);
    count_lost(c, a);
    if (!c->ring)
        count_code(a, c->degree, c->columns, &second, c->shape >= TOO_MANY, 0);
    if (!same(c->ring ? "decoding a ring with lost sectors" : "decoding with lost columns", a, b))
        return 0;
    if (lost.length && gren_code(a) == GREN_REFUSED && a != GREN_BAD_LOST && a != GREN_TOO_MANY_LOST && a != GREN_BAD_LIMIT)
        return 1;
    memcpy(first.all[1], lent_first.all[1], sizeof first.all[1]);
    memcpy(flags.all[1], lent_flags.all[1], sizeof flags.all[1]);
    memcpy(space[1], lent_space, sizeof space[1]);
    for (size_t i = 0; i < c->columns; i++)
        for (size_t l = 0; l < c->rows && is_lost(i); l++)
            own(&second, 1)[l * down + i * across] = (uint8_t)below(symbols);
    b = lost.length ? library_lost(c, 1) : without_list(c);
    second = received;
    return same(lost.length ? "other symbols in the lost columns" : "nothing lost", a, b);
}

static int compare_mark_lost(void)
{
    struct call c = {0};
    uint32_t b;
    c.degree = random_code(&c.rows, &c.columns, 1);
    unsigned symbols = c.degree == 2 || c.degree == 4 ? 1u << c.degree : 256;
    size_t cells = c.rows * c.columns < ROOM ? c.rows * c.columns : 0, largest = 0;
    for (size_t l = 0; l < c.rows; l++)
        largest = own(&lengths, 0)[l] > largest ? own(&lengths, 0)[l] : largest;
    size_t most = largest <= c.columns ? c.columns - largest : 0;
    c.shape = random_lost(c.columns, most);
    size_t left = c.rows >= 1 && c.rows <= 4 ? remaining(c.columns, most) : 0;
    c.tight = left == largest && lost.length;
    c.limit = random_limit(own(&lengths, 0), c.rows, left);
    fill(&first, message_length(c.rows), symbols);
    fill(&second, cells, 256);
    fill_space();
    if (encode_both(c.degree, c.rows, c.columns, &b) == GREN_DONE)
        damage(c.rows, c.columns, c.columns, 1, c.limit, symbols);
    else if (chance(2))
        fill(&second, cells, symbols);
    both(&second);
    if (cells)
        c.bad_lost = spoil_received(c.rows, c.columns, c.columns, 1, symbols);
    second.length = spoil_length(second.length);
    fill(&first, spoil_length(cells), 256);
    fill(&flags, spoil_length(c.columns), 256);
    return compare_lost(&c, c.columns, 1, symbols);
}

static int compare_ring_lost(void)
{
    uint32_t q = chance(3) ? 4 : 2, size = q * q * q;
    struct call c = {1, q, q * q - 1 + below(size - q * q - q + 1), 0, q, q * q, 0, 0, 0};
    uint8_t ks[4];
    second_ring_lengths(q, c.m, ks);
    size_t most = c.columns - ks[0], total = 0;
    for (uint32_t j = 0; j < q; j++)
        total += ks[j];
    c.shape = random_lost(c.columns, most);
    size_t left = remaining(c.columns, most);
    c.tight = left == ks[0] && lost.length;
    c.limit = random_limit(ks, q, left);
    fill(&first, total, (unsigned)c.columns);
    fill(&second, size, 256);
    fill_space();
    if (gren_ring_encode(q, c.m, own(&first, 0), total, own(&second, 0), size) != GREN_DONE)
        return 0;
    damage(q, c.columns, 1, q, c.limit, (unsigned)c.columns);
    c.bad_lost = spoil_received(q, c.columns, 1, q, (unsigned)c.columns);
    if (chance(40))
        c.degree = below(9) + (chance(3) ? 256 : 0);
    if (chance(40))
        c.m = below(80);
    if (chance(40))
        c.m = size - 1 - below(q); /* a row without check symbols */
    second.length = spoil_length(size);
    fill(&first, spoil_length(size), 256);
    fill(&flags, spoil_length(c.columns), 256);
    return compare_lost(&c, 1, q, (unsigned)c.columns);
}

/* ---- rows read by their powers */

/* A number of 32 bits, of which the low eight are those of a small one. */
static uint32_t large(uint32_t n)
{
    return n + 256 * (chance(2) ? 1 : 1 + below(1u << 23));
}

/* A code of one row, nearly always one that the powers allow; the degree is answered. */
static uint32_t random_row(uint32_t *k, uint32_t *powers, size_t *columns)
{
    size_t rows;
    uint32_t degree = random_code(&rows, columns, 1);
    unsigned n = *columns < 2 ? 2 : (unsigned)*columns;
    *powers = 1 + below(4);
    *k = 1 + below((n - 2) / *powers + 1);
    switch (below(30)) {
    case 0: *powers = chance(2) ? 0 : 5 + below(4); break;
    case 1: *powers = large(*powers); break;
    case 2: *k = chance(2) ? 0 : (uint32_t)*columns + 1; break;
    case 3: *k = large(*k); break;
    case 4: *k = (uint32_t)*columns; break;
    case 5: *k = 1 + below(n); break;                 /* now and then too long for its powers */
    case 6: *k = ((uint32_t)n - 1) / *powers + 1; break; /* now and then the largest length is n */
    case 7: *powers = 0xFFFFFFFFu, *k = chance(2) ? 0 : 0xFFFFFFFFu; break;
    case 8: *k = 0xFFFFFFFFu - below(3); break;
    case 9: *powers = chance(2) ? 0 : 5, *k = chance(2) ? 0 : (uint32_t)*columns + 1; break;
    default: break;
    }
    return degree;
}

/* What was received, from the codeword of a message, and now and then any symbols. */
static void receive(uint32_t degree, uint32_t k, size_t columns, uint32_t limit, unsigned symbols)
{
    uint8_t length = (uint8_t)k;
    fill(&first, k <= columns ? k : 0, symbols);
    fill(&second, columns, 256);
    if (k > columns
        || second_mark_encode(degree, &length, 1, own(&points, 0), columns, own(&factors, 0), factors.length, own(&first, 0),
                              first.length, own(&second, 0), columns)
               != 256) {
        fill(&second, columns, symbols);
        return;
    }
    unsigned most = limit < 96 ? limit : 96, wrong = chance(3) ? below(most + 2) : most + below(2);
    for (; wrong; wrong--)
        own(&second, 0)[below((unsigned)columns)] = (uint8_t)(chance(8) ? 0 : below(symbols));
    if (chance(12))
        fill(&second, columns, symbols);
    both(&second);
}

static void count_powers(uint32_t answer, uint32_t k, uint32_t powers, size_t columns)
{
    count_decoding(POWERED, answer);
    int refused = gren_code(answer) == GREN_REFUSED;
    if (!refused)
        tried.powers[powers]++;
    tried.beyond_half += gren_code(answer) == GREN_CORRECTED && 2 * gren_detail(answer) > columns - k;
    tried.twenty_before_four += answer == GREN_BAD_POWERS && (k < 1 || k > columns);
    tried.large_numbers += refused && (k > 255 || powers > 255);
}

/* The library against the second program, and with one power against the decoding of the row. */
static int compare_powers(void)
{
    size_t columns;
    uint32_t k, powers, degree = random_row(&k, &powers, &columns), limit, a, b;
    unsigned symbols = degree == 2 || degree == 4 ? 1u << degree : 256, joint = 0;
    uint8_t ks[4] = {0}, length = (uint8_t)k;
    static struct buffer lent_first, lent_flags;
    static uint8_t lent_space[sizeof space[0]];
    if (powers >= 1 && powers <= 4 && k >= 1 && columns <= 96 && k <= columns && powers * (k - 1) + 1 <= columns) {
        second_power_lengths(k, powers, ks);
        joint = second_joint_limit(ks, powers, columns);
    }
    limit = chance(4) ? below(joint + 1) : joint;
    if (columns > 20 && limit > 3)
        limit = 1 + below(3);
    if (chance(30))
        limit = joint + 1 + below(chance(2) ? 1 : 300);
    receive(degree, k, columns, limit, symbols);
    spoil_symbol(&second, degree);
    fill_space();
    second.length = spoil_length(columns);
    fill(&first, spoil_length(columns), 256);
    fill(&flags, spoil_length(columns), 256);
    lent_first = first, lent_flags = flags;
    memcpy(lent_space, space[0], sizeof space[0]);
    a = gren_mark_decode_powers(degree, k, powers, own(&points, 0), columns, own(&factors, 0), factors.length, limit, own(&second, 0),
                                second.length, own(&first, 0), first.length, own(&flags, 0), flags.length, space[0] + GUARD,
                                space_length);
    b = second_mark_decode_powers(degree, k, powers, own(&points, 1), columns, own(&factors, 1), factors.length, limit,
                                  own(&second, 1), second.length, own(&first, 1), first.length, own(&flags, 1), flags.length,
                                  space[1] + GUARD, space_length);
    count_powers(a, k, powers, columns);
    if (!same("decoding by powers", a, b))
        return 0;
    if (powers != 1 || k > 255)
        return 1;
    memcpy(first.all[1], lent_first.all[1], sizeof first.all[1]);
    memcpy(flags.all[1], lent_flags.all[1], sizeof flags.all[1]);
    memcpy(space[1], lent_space, sizeof space[1]);
    b = gren_mark_decode(degree, &length, 1, own(&points, 1), columns, own(&factors, 1), factors.length, limit, own(&second, 1),
                         second.length, own(&first, 1), first.length, own(&flags, 1), flags.length, space[1] + GUARD, space_length);
    tried.single_rows++;
    return same("one power and the row alone", a, b);
}

/* ---- all */

static unsigned long count = 20000;
static uint64_t seed = 20261115;

static void start(uint64_t place)
{
    state = place * 0x9E3779B97F4A7C15u;
    for (int warm = 0; warm < 4; warm++)
        next();
}

static void make_dirt(void)
{
    start(seed + 1);
    for (size_t i = 0; i < sizeof dirt; i++)
        dirt[i] = (uint8_t)(1 + below(255));
}

static int print_counts(void)
{
    static const char *const names[KINDS] = {"marks", "rings", "marks with lost columns", "rings with lost sectors",
                                               "rows read by their powers"};
    static const uint8_t checks[KINDS][13] = {{1, 2, 3, 4, 18, 5, 6, 23, 7, 8, 9},
                                              {10, 11, 18, 5, 7, 8, 9},
                                              {1, 2, 3, 4, 18, 5, 6, 23, 7, 16, 17, 8},
                                              {10, 11, 18, 5, 7, 16, 17, 8},
                                              {1, 3, 20, 4, 18, 5, 6, 23, 7, 8}};
    int missing = 0;
    for (int kind = 0; kind < KINDS; kind++) {
        unsigned long *ends = tried.endings[kind];
        printf("compare: %s: refused %lu, corrected %lu, none %lu, several %lu, hollow %lu; refusals", names[kind], ends[0], ends[1],
               ends[2], ends[3], ends[4]);
        for (const uint8_t *k = checks[kind]; *k; k++) {
            printf(" %u: %lu", *k, tried.refusals[kind][*k]);
            missing |= !tried.refusals[kind][*k];
        }
        printf("\n");
        for (unsigned e = 0; e < 5; e++)
            missing |= !ends[e];
    }
    printf("compare: lists");
    for (int shape = 0; shape < SHAPES; shape++) {
        printf("%s %s %lu", shape ? "," : "", shapes[shape], tried.looked_at[shape]);
        missing |= !tried.looked_at[shape];
    }
    printf("; decoded with k_max columns remaining %lu, corrected with nothing wrong %lu, refused for a symbol in a lost column %lu\n",
           tried.tight_calls, tried.nothing_wrong, tried.bad_where_lost);
    missing |= !tried.tight_calls || !tried.nothing_wrong || !tried.bad_where_lost;
    printf("compare: factors");
    for (int shape = 0; shape < FACTORS; shape++) {
        printf("%s %s %lu", shape ? "," : "", factor_lists[shape], tried.factors[shape]);
        missing |= !tried.factors[shape];
    }
    printf("; another factor in one column: not read %lu, corrected there %lu; two refusals", tried.not_read_for_a_factor,
           tried.corrected_for_a_factor);
    missing |= !tried.not_read_for_a_factor || !tried.corrected_for_a_factor;
    for (int i = 0; i < ORDERS; i++) {
        printf(" %u before %u: %lu", orders[i].answer, orders[i].other, tried.orders[i]);
        missing |= !tried.orders[i];
    }
    printf("\ncompare: powers");
    for (unsigned power = 1; power < 5; power++) {
        printf("%s %u: %lu", power > 1 ? "," : "", power, tried.powers[power]);
        missing |= !tried.powers[power];
    }
    printf("; corrected beyond half the distance %lu, one power as the row alone %lu, 20 before 4 %lu, refused for a number above 255 "
           "%lu\n",
           tried.beyond_half, tried.single_rows, tried.twenty_before_four, tried.large_numbers);
    missing |= !tried.beyond_half || !tried.single_rows || !tried.twenty_before_four || !tried.large_numbers;
    if (missing && count >= 20000)
        printf("compare: something was never tried: a count is 0\n");
    return missing && count >= 20000;
}

/* Every other four of the cases. */
static int compare_half(unsigned half)
{
    for (unsigned long i = 0; i < 2 * count; i++) {
        int ok;
        if (i / 4 % 2 != half)
            continue;
        start(seed + i + 1);
        if (i >= count + count / 2)
            ok = compare_powers();
        else if (i >= count)
            ok = i % 3 == 0 ? compare_ring_lost() : compare_mark_lost();
        else
            ok = i % 4 == 0 ? compare_mark_coding() : i % 4 == 3 ? compare_ring() : compare_mark_decoding();
        if (!ok) {
            printf("compare: case %lu of seed %llu FAILED\n", i, (unsigned long long)seed);
            return 0;
        }
    }
    return 1;
}

int main(int argc, char **argv)
{
    count = argc > 1 ? strtoul(argv[1], NULL, 10) : count;
    seed = argc > 2 ? strtoull(argv[2], NULL, 10) : seed;
    make_dirt();
    if (!in_halves(compare_half, (unsigned long *)&tried, sizeof tried / sizeof(unsigned long)))
        return 1;
    printf("compare: %lu cases of seed %llu agree, %lu with lost columns, and %lu rows read by their powers; encodings and readings "
           "done: %lu\n",
           count, (unsigned long long)seed, count / 2, count - count / 2, tried.done);
    return print_counts();
}
