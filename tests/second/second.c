#include "second.h"

#include <stdlib.h>
#include <string.h>

enum { MOST = 400 };

/* ---- fields */

static unsigned modulus(unsigned degree)
{
    return degree == 2 ? 0x7 : degree == 4 ? 0x13 : 0x12D;
}

static unsigned multiply(unsigned degree, unsigned a, unsigned b)
{
    unsigned whole = 0;
    for (unsigned i = 0; i < degree; i++)
        if (b >> i & 1)
            whole ^= a << i;
    for (unsigned i = 2 * degree; i >= degree; i--)
        if (whole >> i & 1)
            whole ^= modulus(degree) << (i - degree);
    return whole;
}

/* All multiples of a. Each product is multiplied out once and then kept. */
static const uint8_t *multiples(unsigned degree, unsigned a)
{
    static uint8_t products[9][256][256], known[9];
    if (!known[degree]) {
        for (unsigned i = 0; i < 1u << degree; i++)
            for (unsigned j = 0; j < 1u << degree; j++)
                products[degree][i][j] = (uint8_t)multiply(degree, i, j);
        known[degree] = 1;
    }
    return products[degree][a];
}

unsigned second_product(unsigned degree, unsigned a, unsigned b)
{
    return multiples(degree, a)[b];
}

unsigned second_inverse(unsigned degree, unsigned a)
{
    for (unsigned c = 1; c < 1u << degree; c++)
        if (second_product(degree, a, c) == 1)
            return c;
    return 0;
}

unsigned second_quotient(unsigned degree, unsigned a, unsigned b)
{
    return second_product(degree, a, second_inverse(degree, b));
}

static unsigned raised(unsigned degree, unsigned a, unsigned n)
{
    unsigned p = 1;
    while (n--)
        p = second_product(degree, p, a);
    return p;
}

static unsigned value(unsigned degree, const uint8_t *p, size_t count, unsigned x)
{
    unsigned sum = 0, power = 1;
    for (size_t i = 0; i < count; i++) {
        sum ^= second_product(degree, p[i], power);
        power = second_product(degree, power, x);
    }
    return sum;
}

/* ---- linear algebra: a basis of the solutions of `rows` homogeneous equations in `unknowns` unknowns */

struct solutions {
    size_t count;
    uint8_t (*basis)[MOST];
};

static struct solutions solve(unsigned degree, uint8_t (*equations)[MOST], size_t rows, size_t unknowns)
{
    size_t pivot_of[MOST], rank = 0;
    uint8_t is_pivot[MOST] = {0};
    for (size_t column = 0; column < unknowns && rank < rows; column++) {
        size_t r = rank;
        while (r < rows && equations[r][column] == 0)
            r++;
        if (r == rows)
            continue;
        uint8_t swap[MOST];
        memcpy(swap, equations[r], MOST);
        memcpy(equations[r], equations[rank], MOST);
        unsigned inverse = second_inverse(degree, swap[column]);
        for (size_t i = 0; i < unknowns; i++)
            equations[rank][i] = (uint8_t)second_product(degree, swap[i], inverse);
        for (size_t other = 0; other < rows; other++) {
            const uint8_t *times = multiples(degree, equations[other][column]);
            if (other != rank && equations[other][column])
                for (size_t i = column; i < unknowns; i++) /* before that the row is zero */
                    equations[other][i] ^= times[equations[rank][i]];
        }
        pivot_of[rank++] = column;
        is_pivot[column] = 1;
    }
    struct solutions s = {0, calloc(unknowns - rank + 1, MOST)};
    for (size_t column = 0; column < unknowns; column++) {
        if (is_pivot[column])
            continue;
        uint8_t *v = s.basis[s.count++];
        v[column] = 1;
        for (size_t r = 0; r < rank; r++)
            v[pivot_of[r]] = equations[r][column];
    }
    return s;
}

/* ---- checks */

static int bad_degree(uint32_t degree)
{
    return degree != 2 && degree != 4 && degree != 8;
}

static unsigned total(const uint8_t *lengths, size_t rows)
{
    unsigned sum = 0;
    for (size_t l = 0; l < rows; l++)
        sum += lengths[l];
    return sum;
}

static unsigned largest(const uint8_t *lengths, size_t rows)
{
    unsigned most = 0;
    for (size_t l = 0; l < rows; l++)
        most = lengths[l] > most ? lengths[l] : most;
    return most;
}

unsigned second_joint_limit(const uint8_t *lengths, size_t rows, size_t columns)
{
    unsigned a = (unsigned)((rows * columns - total(lengths, rows)) / (rows + 1));
    unsigned b = (unsigned)columns - largest(lengths, rows);
    return a < b ? a : b;
}

unsigned second_safe_limit(const uint8_t *lengths, size_t rows, size_t columns)
{
    return ((unsigned)columns - largest(lengths, rows)) / 2;
}

static int outside(uint32_t degree, const uint8_t *symbols, size_t count)
{
    for (size_t i = 0; i < count; i++)
        if (symbols[i] >> degree)
            return 1;
    return 0;
}

/* 'some k equals n' */
static int no_check_symbols(const uint8_t *lengths, size_t rows, size_t columns)
{
    for (size_t l = 0; l < rows; l++)
        if (lengths[l] == columns)
            return 1;
    return 0;
}

/* Checks 1 to 4 and 18. */
static unsigned code_check(uint32_t degree, const uint8_t *lengths, size_t rows, size_t columns)
{
    if (bad_degree(degree))
        return 1;
    if (rows < 1 || rows > 4)
        return 2;
    if (columns < 1 || columns > 96)
        return 3;
    for (size_t l = 0; l < rows; l++)
        if (lengths[l] < 1 || lengths[l] > columns)
            return 4;
    return no_check_symbols(lengths, rows, columns) ? 18 : 0;
}

static int bad_points(uint32_t degree, const uint8_t *points, size_t columns)
{
    for (size_t i = 0; i < columns; i++) {
        if (points[i] >> degree)
            return 1;
        for (size_t j = 0; j < i; j++)
            if (points[j] == points[i])
                return 1;
    }
    return 0;
}

/* 'a factor outside the field or zero' */
static int bad_factors(uint32_t degree, const uint8_t *factors, size_t columns)
{
    for (size_t i = 0; i < columns; i++)
        if (factors[i] >> degree || factors[i] == 0)
            return 1;
    return 0;
}

/* Checks 1 to 7 of a mark, 18 behind 4 and 23 behind 6, where `fit` says whether the buffers' lengths are right. 'A missing or spare
 * factor is 5'. */
static unsigned mark_check(uint32_t degree, const uint8_t *lengths, size_t rows, const uint8_t *points, size_t columns,
                           const uint8_t *factors, size_t factor_count, int fit, const uint8_t *symbols, size_t count)
{
    unsigned k = code_check(degree, lengths, rows, columns);
    if (k)
        return k;
    if (!fit || factor_count != columns)
        return 5;
    return bad_points(degree, points, columns)     ? 6
           : bad_factors(degree, factors, columns) ? 23
           : outside(degree, symbols, count)       ? 7
                                                   : 0;
}

/* Whether received, answer, flags and working space are as long as a decoding of so many symbols and columns takes them. */
static int decoding_fits(size_t symbols, size_t columns, size_t received_length, size_t answer_length, size_t flags_length,
                         size_t space_length)
{
    return received_length == symbols && answer_length == symbols && flags_length == columns && space_length >= SECOND_SPACE;
}

/* ---- marks */

/* 'a row then holds factor times value' */
static unsigned struck(unsigned degree, unsigned factor, const uint8_t *p, size_t count, unsigned x)
{
    return second_product(degree, factor, value(degree, p, count, x));
}

static void encode_rows(unsigned degree, const uint8_t *lengths, size_t rows, const uint8_t *points, size_t columns,
                        const uint8_t *factors, const uint8_t *message, uint8_t *array)
{
    for (size_t l = 0; l < rows; l++) {
        for (size_t i = 0; i < columns; i++)
            array[l * columns + i] = (uint8_t)struck(degree, factors[i], message, lengths[l], points[i]);
        message += lengths[l];
    }
}

uint32_t second_mark_encode(uint32_t degree, const uint8_t *lengths, size_t rows, const uint8_t *points, size_t columns,
                            const uint8_t *factors, size_t factor_count, const uint8_t *message, size_t message_length,
                            uint8_t *array, size_t array_length)
{
    int fit = message_length == total(lengths, rows) && array_length == rows * columns;
    unsigned k = mark_check(degree, lengths, rows, points, columns, factors, factor_count, fit, message, message_length);
    if (k)
        return k;
    encode_rows(degree, lengths, rows, points, columns, factors, message, array);
    return 256;
}

/* The polynomial of at most k coefficients whose values times the factors are a row, if there is one. */
static int row_polynomial(unsigned degree, unsigned k, const uint8_t *points, size_t columns, const uint8_t *factors,
                          const uint8_t *row, uint8_t *p)
{
    /* unknowns: the coefficients, and a multiple of the row that must not vanish */
    uint8_t(*equations)[MOST] = calloc(columns, MOST);
    for (size_t i = 0; i < columns; i++) {
        unsigned power = factors[i];
        equations[i][0] = row[i];
        for (unsigned j = 0; j < k; j++) {
            equations[i][1 + j] = (uint8_t)power;
            power = second_product(degree, power, points[i]);
        }
    }
    struct solutions s = solve(degree, equations, columns, 1 + k);
    int found = 0;
    for (size_t b = 0; b < s.count && !found; b++) {
        if (s.basis[b][0] == 0)
            continue;
        unsigned inverse = second_inverse(degree, s.basis[b][0]);
        for (unsigned j = 0; j < k; j++)
            p[j] = (uint8_t)second_product(degree, inverse, s.basis[b][1 + j]);
        found = 1;
    }
    free(s.basis);
    free(equations);
    return found;
}

uint32_t second_mark_read(uint32_t degree, const uint8_t *lengths, size_t rows, const uint8_t *points, size_t columns,
                          const uint8_t *factors, size_t factor_count, const uint8_t *array, size_t array_length,
                          uint8_t *message, size_t message_length)
{
    int fit = message_length == total(lengths, rows) && array_length == rows * columns;
    unsigned k = mark_check(degree, lengths, rows, points, columns, factors, factor_count, fit, array, array_length);
    if (k)
        return k;
    uint8_t found[MOST] = {0};
    size_t from = 0;
    for (size_t l = 0; l < rows; l++) {
        if (!row_polynomial(degree, lengths[l], points, columns, factors, array + l * columns, found + from))
            return 9;
        from += lengths[l];
    }
    memcpy(message, found, message_length);
    return 256;
}

/* p divided by e: the quotient, if nothing is left over; its number of coefficients, leading zeros not counted, in *count. */
static int divide(unsigned degree, const uint8_t *p, size_t p_count, const uint8_t *e, size_t e_count, uint8_t *quotient,
                  size_t *count)
{
    uint8_t rest[MOST];
    memcpy(rest, p, p_count);
    memset(quotient, 0, MOST);
    while (e_count && e[e_count - 1] == 0)
        e_count--;
    unsigned inverse = second_inverse(degree, e[e_count - 1]);
    *count = 0;
    for (size_t top = p_count; top-- > 0;) {
        if (rest[top] == 0)
            continue;
        if (top + 1 < e_count)
            return 0;
        unsigned c = second_product(degree, rest[top], inverse);
        size_t place = top + 1 - e_count;
        quotient[place] = (uint8_t)c;
        if (place + 1 > *count)
            *count = place + 1;
        for (size_t i = 0; i < e_count; i++)
            rest[place + i] ^= (uint8_t)second_product(degree, c, e[i]);
    }
    return 1;
}

/* The ending of a decoding that is not refused; answer and flags are written on "corrected" alone. */
static uint32_t endings(unsigned degree, const uint8_t *lengths, size_t rows, const uint8_t *points, size_t columns,
                        const uint8_t *factors, uint32_t limit, const uint8_t *received, uint8_t *answer, uint8_t *flags)
{
    /* 'In the locators … y is the symbol divided by its column's factor' */
    uint8_t y[384];
    for (size_t l = 0; l < rows; l++)
        for (size_t i = 0; i < columns; i++)
            y[l * columns + i] = (uint8_t)second_quotient(degree, received[l * columns + i], factors[i]);
    for (uint32_t t = 0; t <= limit; t++) {
        size_t unknowns = t + 1, base[4];
        for (size_t l = 0; l < rows; l++) {
            base[l] = unknowns;
            unknowns += lengths[l] + t;
        }
        uint8_t(*equations)[MOST] = calloc(rows * columns, MOST);
        for (size_t l = 0; l < rows; l++)
            for (size_t i = 0; i < columns; i++) {
                uint8_t *row = equations[l * columns + i];
                unsigned power = 1;
                for (size_t j = 0; j < lengths[l] + t; j++) {
                    if (j <= t)
                        row[j] = (uint8_t)second_product(degree, y[l * columns + i], power);
                    row[base[l] + j] = (uint8_t)power;
                    power = second_product(degree, power, points[i]);
                }
            }
        struct solutions s = solve(degree, equations, rows * columns, unknowns);
        free(equations);
        /* the E of all solutions, as one space */
        size_t one = s.count, independent = 0;
        for (size_t b = 0; b < s.count && independent < 2; b++) {
            int zero = 1;
            for (size_t j = 0; j <= t; j++)
                zero &= s.basis[b][j] == 0;
            if (zero)
                continue;
            if (one == s.count) {
                one = b;
                independent = 1;
                continue;
            }
            for (size_t i = 0; i <= t && independent < 2; i++)
                for (size_t j = 0; j <= t; j++)
                    if (second_product(degree, s.basis[one][i], s.basis[b][j])
                        != second_product(degree, s.basis[one][j], s.basis[b][i])) {
                        independent = 2;
                        break;
                    }
        }
        if (independent == 0) {
            free(s.basis);
            continue;
        }
        if (independent == 2) {
            free(s.basis);
            return 256 * 3 + t;
        }
        uint8_t rebuilt[384];
        uint32_t ending = 256 * 1;
        for (size_t l = 0; l < rows && ending == 256; l++) {
            uint8_t quotient[MOST];
            size_t count;
            if (!divide(degree, s.basis[one] + base[l], lengths[l] + t, s.basis[one], t + 1, quotient, &count)
                || count > lengths[l])
                ending = 256 * 4 + t;
            else /* 'the answer's rows are the quotients' values times the factors' */
                for (size_t i = 0; i < columns; i++)
                    rebuilt[l * columns + i] = (uint8_t)struck(degree, factors[i], quotient, lengths[l], points[i]);
        }
        free(s.basis);
        if (ending != 256)
            return ending;
        for (size_t i = 0; i < columns; i++) {
            flags[i] = 0;
            for (size_t l = 0; l < rows; l++)
                flags[i] |= rebuilt[l * columns + i] != received[l * columns + i];
            ending += flags[i];
        }
        memcpy(answer, rebuilt, rows * columns);
        return ending;
    }
    return 256 * 2;
}

uint32_t second_mark_decode(uint32_t degree, const uint8_t *lengths, size_t rows, const uint8_t *points, size_t columns,
                            const uint8_t *factors, size_t factor_count, uint32_t limit, const uint8_t *received,
                            size_t received_length, uint8_t *answer, size_t answer_length, uint8_t *flags, size_t flags_length,
                            uint8_t *space, size_t space_length)
{
    int fit = decoding_fits(rows * columns, columns, received_length, answer_length, flags_length, space_length);
    unsigned k = mark_check(degree, lengths, rows, points, columns, factors, factor_count, fit, received, received_length);
    if (k)
        return k;
    if (limit > second_joint_limit(lengths, rows, columns))
        return 8;
    memset(space, 0, SECOND_SPACE);
    return endings(degree, lengths, rows, points, columns, factors, limit, received, answer, flags);
}

/* ---- lost columns */

/* Checks 16 and 17; which[i] is 1 where column i is lost. */
/* 02, 2026-01: the checks that are common come first and refuse the tray whole; a mark with a bad symbol is refused on its own. */
uint32_t second_tray_decode(uint32_t degree, const uint8_t *lengths, size_t rows, const uint8_t *points, size_t columns,
                            const uint8_t *factors, size_t factor_count, uint32_t limit, const uint8_t *received,
                            size_t received_length, uint32_t *answers, size_t marks, uint8_t *arrays, size_t arrays_length,
                            uint8_t *flags, size_t flags_length, uint8_t *space, size_t space_length)
{
    size_t symbols = rows * columns;
    unsigned k = code_check(degree, lengths, rows, columns);
    if (k)
        return k;
    if (marks == 0 || marks > 64)
        return 15;
    if (received_length != marks * symbols || arrays_length != marks * symbols || flags_length != marks * columns ||
        space_length < SECOND_SPACE || factor_count != columns)
        return 5;
    if (bad_points(degree, points, columns))
        return 6;
    if (bad_factors(degree, factors, columns))
        return 23;
    if (limit > second_joint_limit(lengths, rows, columns))
        return 8;
    for (size_t i = 0; i < marks; i++)
        answers[i] = outside(degree, received + i * symbols, symbols)
                         ? 7
                         : endings(degree, lengths, rows, points, columns, factors, limit, received + i * symbols,
                                   arrays + i * symbols, flags + i * columns);
    memset(space, 0, SECOND_SPACE);
    return 256;
}

static unsigned lost_check(const uint8_t *lengths, size_t rows, size_t columns, const uint8_t *lost, size_t lost_count,
                           uint8_t *which)
{
    memset(which, 0, columns);
    for (size_t i = 0; i < lost_count; i++) {
        if (lost[i] >= columns || which[lost[i]])
            return 16;
        which[lost[i]] = 1;
    }
    return columns - lost_count < largest(lengths, rows) ? 17 : 0;
}

/* The ending of the array made of the remaining columns; on "corrected" all columns are the values of the rows found there, times the
 * factors. */
static uint32_t endings_lost(unsigned degree, const uint8_t *lengths, size_t rows, const uint8_t *points, size_t columns,
                             const uint8_t *factors, uint32_t limit, const uint8_t *which, const uint8_t *received, uint8_t *answer,
                             uint8_t *flags)
{
    uint8_t xs[96] = {0}, fs[96] = {0}, ys[384] = {0}, found[384] = {0}, wrong[96] = {0}, p[MOST];
    size_t remaining = 0, at = 0;
    for (size_t i = 0; i < columns; i++)
        if (!which[i]) {
            fs[remaining] = factors[i];
            xs[remaining++] = points[i];
        }
    for (size_t l = 0; l < rows; l++)
        for (size_t i = 0; i < columns; i++)
            if (!which[i])
                ys[at++] = received[l * columns + i];
    uint32_t ending = endings(degree, lengths, rows, xs, remaining, fs, limit, ys, found, wrong);
    if (ending / 256 != 1)
        return ending;
    for (size_t l = 0; l < rows; l++) {
        row_polynomial(degree, lengths[l], xs, remaining, fs, found + l * remaining, p);
        for (size_t i = 0; i < columns; i++)
            answer[l * columns + i] = (uint8_t)struck(degree, factors[i], p, lengths[l], points[i]);
    }
    at = 0;
    for (size_t i = 0; i < columns; i++)
        flags[i] = which[i] ? 2 : wrong[at++];
    return ending;
}

uint32_t second_mark_decode_lost(uint32_t degree, const uint8_t *lengths, size_t rows, const uint8_t *points, size_t columns,
                                 const uint8_t *factors, size_t factor_count, uint32_t limit, const uint8_t *lost,
                                 size_t lost_count, const uint8_t *received, size_t received_length, uint8_t *answer,
                                 size_t answer_length, uint8_t *flags, size_t flags_length, uint8_t *space, size_t space_length)
{
    uint8_t which[96];
    int fit = decoding_fits(rows * columns, columns, received_length, answer_length, flags_length, space_length);
    unsigned k = mark_check(degree, lengths, rows, points, columns, factors, factor_count, fit, received, received_length);
    if (k)
        return k;
    k = lost_check(lengths, rows, columns, lost, lost_count, which);
    if (k)
        return k;
    if (limit > second_joint_limit(lengths, rows, columns - lost_count))
        return 8;
    memset(space, 0, SECOND_SPACE);
    return endings_lost(degree, lengths, rows, points, columns, factors, limit, which, received, answer, flags);
}

/* ---- every array that fits */

/* 'as for decoding, but 21, n above 16, after 3; 22, room that is not a whole number of arrays, directly after 5, which no longer reads the
 * result's length'; 'Lent no flags or working space' */
static unsigned list_check(uint32_t degree, const uint8_t *lengths, size_t rows, const uint8_t *points, size_t columns,
                           const uint8_t *factors, size_t factor_count, uint32_t limit, const uint8_t *received,
                           size_t received_length, size_t room_length)
{
    unsigned k = code_check(degree, lengths, rows, columns);
    if (k == 1 || k == 2 || k == 3)
        return k;
    if (columns > 16)
        return 21;
    if (k)
        return k;
    if (received_length != rows * columns || factor_count != columns)
        return 5;
    if (room_length % (rows * columns))
        return 22;
    k = mark_check(degree, lengths, rows, points, columns, factors, factor_count, 1, received, received_length);
    return k ? k : limit > second_joint_limit(lengths, rows, columns) ? 8 : 0;
}

/* Whether the columns that are not in the set are those of a code array, and which it is: row after row, from the equations of these
 * columns alone. */
static int fits_outside(unsigned degree, const uint8_t *lengths, size_t rows, const uint8_t *points, size_t columns,
                        const uint8_t *factors, const uint8_t *received, const uint8_t *in_set, uint8_t *array)
{
    uint8_t xs[16], fs[16], row[16], message[MOST] = {0};
    size_t left = 0, from = 0;
    for (size_t l = 0; l < rows; l++) {
        left = 0;
        for (size_t i = 0; i < columns; i++)
            if (!in_set[i])
                xs[left] = points[i], fs[left] = factors[i], row[left++] = received[l * columns + i];
        if (!row_polynomial(degree, lengths[l], xs, left, fs, row, message + from))
            return 0;
        from += lengths[l];
    }
    encode_rows(degree, lengths, rows, points, columns, factors, message, array);
    return 1;
}

static int differ_in(size_t rows, size_t columns, const uint8_t *a, const uint8_t *b, size_t i)
{
    for (size_t l = 0; l < rows; l++)
        if (a[l * columns + i] != b[l * columns + i])
            return 1;
    return 0;
}

/* The next set of as many columns in dictionary order of their numbers, which rise; 0 behind the last. */
static int next_set(size_t *set, size_t size, size_t columns)
{
    size_t at = size;
    while (at && set[at - 1] == columns - size + at - 1)
        at--;
    if (!at)
        return 0;
    set[at - 1]++;
    for (; at < size; at++)
        set[at] = set[at - 1] + 1;
    return 1;
}

uint32_t second_mark_list(uint32_t degree, const uint8_t *lengths, size_t rows, const uint8_t *points, size_t columns,
                          const uint8_t *factors, size_t factor_count, uint32_t limit, const uint8_t *received,
                          size_t received_length, uint8_t *room, size_t room_length)
{
    unsigned k = list_check(degree, lengths, rows, points, columns, factors, factor_count, limit, received, received_length,
                            room_length);
    if (k)
        return k;
    uint8_t array[MOST];
    size_t total = 0, symbols = rows * columns, set[16];
    for (size_t size = 0; size <= limit; size++) {
        for (size_t i = 0; i < size; i++)
            set[i] = i;
        do {
            uint8_t in_set[16] = {0};
            for (size_t i = 0; i < size; i++)
                in_set[set[i]] = 1;
            int fits = fits_outside(degree, lengths, rows, points, columns, factors, received, in_set, array);
            for (size_t i = 0; fits && i < columns; i++)
                fits = differ_in(rows, columns, received, array, i) == in_set[i];
            if (!fits)
                continue;
            if ((total + 1) * symbols <= room_length)
                memcpy(room + total * symbols, array, symbols);
            total++;
        } while (next_set(set, size, columns));
    }
    return (uint32_t)(256 + total);
}

/* ---- powers of one row */

/* 'message lengths i(k−1)+1' */
void second_power_lengths(unsigned k, unsigned powers, uint8_t *lengths)
{
    for (unsigned i = 1; i <= powers; i++)
        lengths[i - 1] = (uint8_t)(i * (k - 1) + 1);
}

/* Checks 1, 3, 20, 4 and 18: 'the largest power length counts as k in 4 and 18'. */
static unsigned powers_check(uint32_t degree, uint32_t k, uint32_t powers, size_t columns)
{
    if (bad_degree(degree))
        return 1;
    if (columns < 1 || columns > 96)
        return 3;
    if (powers < 1 || powers > 4)
        return 20;
    if (k < 1 || k > columns || powers * (k - 1) + 1 > columns)
        return 4;
    return k == columns || powers * (k - 1) + 1 == columns ? 18 : 0;
}

uint32_t second_mark_decode_powers(uint32_t degree, uint32_t k, uint32_t powers, const uint8_t *points, size_t columns,
                                   const uint8_t *factors, size_t factor_count, uint32_t limit, const uint8_t *received,
                                   size_t received_length, uint8_t *answer, size_t answer_length, uint8_t *flags,
                                   size_t flags_length, uint8_t *space, size_t space_length)
{
    uint8_t lengths[4], one[96], rows[384], found[384], wrong[96];
    unsigned number = powers_check(degree, k, powers, columns);
    if (number)
        return number;
    if (!decoding_fits(columns, columns, received_length, answer_length, flags_length, space_length) || factor_count != columns)
        return 5;
    if (bad_points(degree, points, columns))
        return 6;
    if (bad_factors(degree, factors, columns))
        return 23;
    if (outside(degree, received, received_length))
        return 7;
    second_power_lengths(k, powers, lengths);
    if (limit > second_joint_limit(lengths, powers, columns))
        return 8;
    memset(space, 0, SECOND_SPACE);
    memset(one, 1, sizeof one);
    /* 'raise each received symbol to the powers 1 to s, giving s rows'; 'Power rows use the factors' powers' */
    for (unsigned i = 0; i < powers; i++)
        for (size_t j = 0; j < columns; j++)
            rows[i * columns + j] = (uint8_t)second_quotient(degree, raised(degree, received[j], i + 1), raised(degree, factors[j], i + 1));
    uint32_t ending = endings(degree, lengths, powers, points, columns, one, limit, rows, found, wrong);
    if (ending / 256 != 1)
        return ending;
    /* 'then the first row is returned': its wrong symbols are flagged and counted */
    ending = 256;
    for (size_t j = 0; j < columns; j++) {
        answer[j] = (uint8_t)second_product(degree, factors[j], found[j]);
        flags[j] = answer[j] != received[j];
        ending += flags[j];
    }
    return ending;
}

/* ---- rings */

/* 'Rings keep factors of one' */
static const uint8_t ones[16] = {1, 1, 1, 1, 1, 1, 1, 1, 1, 1, 1, 1, 1, 1, 1, 1};

/* The points of the curve in order; both lists have q³ entries. */
static void ring_points(unsigned q, uint8_t *xs, uint8_t *ys)
{
    size_t count = 0;
    for (unsigned x = 0; x < q * q; x++)
        for (unsigned y = 0; y < q * q; y++)
            if ((raised(q, y, q) ^ y) == raised(q, x, q + 1)) {
                xs[count] = (uint8_t)x;
                ys[count++] = (uint8_t)y;
            }
}

void second_ring_lengths(unsigned q, unsigned m, uint8_t *lengths)
{
    for (unsigned j = 0; j < q; j++)
        lengths[j] = (uint8_t)((m - j * (q + 1)) / q + 1);
}

/* Checks 10, 11 and 18; behind 11 the message lengths are written. */
static unsigned order_check(uint32_t q, uint32_t m, uint8_t *lengths)
{
    if (q != 2 && q != 4)
        return 10;
    if (m < q * q - 1 || m > q * q * q - 1)
        return 11;
    second_ring_lengths(q, m, lengths);
    return no_check_symbols(lengths, q, q * q) ? 18 : 0;
}

/* Checks 10, 11, 18, 5 and 7 of encoding and reading, of which `symbols` is the input. */
static unsigned ring_check(uint32_t q, uint32_t m, uint8_t *lengths, size_t message_length, size_t word_length,
                           const uint8_t *symbols, size_t count)
{
    unsigned k = order_check(q, m, lengths);
    if (k)
        return k;
    return message_length != total(lengths, q) || word_length != q * q * q ? 5 : outside(q, symbols, count) ? 7 : 0;
}

/* The same of decoding, where `fit` says whether the buffers' lengths are right. */
static unsigned ring_decoding_check(uint32_t q, uint32_t m, uint8_t *lengths, int fit, const uint8_t *received, size_t count)
{
    unsigned k = order_check(q, m, lengths);
    if (k)
        return k;
    return !fit ? 5 : outside(q, received, count) ? 7 : 0;
}

uint32_t second_ring_encode(uint32_t q, uint32_t m, const uint8_t *message, size_t message_length, uint8_t *word,
                            size_t word_length)
{
    uint8_t lengths[4], xs[64], ys[64];
    unsigned k = ring_check(q, m, lengths, message_length, word_length, message, message_length);
    if (k)
        return k;
    ring_points(q, xs, ys);
    for (size_t i = 0; i < q * q * q; i++) {
        const uint8_t *f = message;
        unsigned sum = 0;
        for (unsigned j = 0; j < q; j++) {
            sum ^= second_product(q, value(q, f, lengths[j], xs[i]), raised(q, ys[i], j));
            f += lengths[j];
        }
        word[i] = (uint8_t)sum;
    }
    return 256;
}

/* The array of a ring and its points: in each sector the polynomial in y of q coefficients that has the sector's values. */
static void ring_array(unsigned q, const uint8_t *ring, uint8_t *points, uint8_t *array)
{
    uint8_t xs[64], ys[64], p[4];
    ring_points(q, xs, ys);
    for (unsigned x = 0; x < q * q; x++) {
        points[x] = (uint8_t)x;
        row_polynomial(q, q, ys + x * q, q, ones, ring + x * q, p);
        for (unsigned j = 0; j < q; j++)
            array[j * q * q + x] = p[j];
    }
}

static void array_ring(unsigned q, const uint8_t *array, uint8_t *ring)
{
    uint8_t xs[64], ys[64];
    ring_points(q, xs, ys);
    for (size_t i = 0; i < q * q * q; i++) {
        unsigned sum = 0;
        for (unsigned j = 0; j < q; j++)
            sum ^= second_product(q, array[j * q * q + xs[i]], raised(q, ys[i], j));
        ring[i] = (uint8_t)sum;
    }
}

uint32_t second_ring_read(uint32_t q, uint32_t m, const uint8_t *word, size_t word_length, uint8_t *message, size_t message_length)
{
    uint8_t lengths[4], points[16], array[64], found[64];
    unsigned k = ring_check(q, m, lengths, message_length, word_length, word, word_length);
    if (k)
        return k;
    ring_array(q, word, points, array);
    uint32_t read = second_mark_read(q, lengths, q, points, q * q, ones, q * q, array, q * q * q, found, message_length);
    if (read != 256)
        return read;
    memcpy(message, found, message_length);
    return 256;
}

uint32_t second_ring_decode(uint32_t q, uint32_t m, uint32_t limit, const uint8_t *received, size_t received_length,
                            uint8_t *answer, size_t answer_length, uint8_t *flags, size_t flags_length, uint8_t *space,
                            size_t space_length)
{
    uint8_t lengths[4], points[16], array[64], rebuilt[64];
    int fit = decoding_fits(q * q * q, q * q, received_length, answer_length, flags_length, space_length);
    unsigned k = ring_decoding_check(q, m, lengths, fit, received, received_length);
    if (k)
        return k;
    if (limit > second_joint_limit(lengths, q, q * q))
        return 8;
    memset(space, 0, SECOND_SPACE);
    ring_array(q, received, points, array);
    uint32_t ending = endings(q, lengths, q, points, q * q, ones, limit, array, rebuilt, flags);
    if (ending / 256 == 1)
        array_ring(q, rebuilt, answer);
    return ending;
}

uint32_t second_ring_decode_lost(uint32_t q, uint32_t m, uint32_t limit, const uint8_t *lost, size_t lost_count,
                                 const uint8_t *received, size_t received_length, uint8_t *answer, size_t answer_length,
                                 uint8_t *flags, size_t flags_length, uint8_t *space, size_t space_length)
{
    uint8_t lengths[4], points[16], which[16], array[64], rebuilt[64];
    int fit = decoding_fits(q * q * q, q * q, received_length, answer_length, flags_length, space_length);
    unsigned k = ring_decoding_check(q, m, lengths, fit, received, received_length);
    if (k)
        return k;
    k = lost_check(lengths, q, q * q, lost, lost_count, which);
    if (k)
        return k;
    if (limit > second_joint_limit(lengths, q, q * q - lost_count))
        return 8;
    memset(space, 0, SECOND_SPACE);
    ring_array(q, received, points, array);
    uint32_t ending = endings_lost(q, lengths, q, points, q * q, ones, limit, which, array, rebuilt, flags);
    if (ending / 256 == 1)
        array_ring(q, rebuilt, answer);
    return ending;
}

/* ---- rings by their wrong symbols */

/* '(q³ − m − 1 − g)/2 rounded down', or -1 where that is below zero */
int second_pits_limit(unsigned q, unsigned m)
{
    int over = (int)(q * q * q) - (int)m - 1 - (int)(q * (q - 1) / 2);
    return over < 0 ? -1 : over / 2;
}

/* The values at a point of the functions x^i·y^j, j below q, of pole order at most `most`, 'x having order q and y order q+1';
 * answers how many there are. */
static size_t functions_at(unsigned q, unsigned most, unsigned x, unsigned y, uint8_t *values)
{
    size_t count = 0;
    for (unsigned j = 0; j < q; j++) {
        unsigned v = raised(q, y, j);
        for (unsigned i = 0; i * q + j * (q + 1) <= most; i++) {
            values[count++] = (uint8_t)v;
            v = second_product(q, v, x);
        }
    }
    return count;
}

/* The value at a point of the function that has these coefficients. */
static unsigned function_at(unsigned q, unsigned most, unsigned x, unsigned y, const uint8_t *coefficients)
{
    uint8_t values[MOST];
    size_t count = functions_at(q, most, x, y, values);
    unsigned sum = 0;
    for (size_t i = 0; i < count; i++)
        sum ^= second_product(q, coefficients[i], values[i]);
    return sum;
}

/* The key equation: L of pole order at most `order`, not zero, and N of pole order at most m + order, with N = received · L in all
 * points. Where a word differs in few symbols, that is N = word · L, and L is zero in at most `order` points. */
static int locating_function(unsigned q, unsigned m, unsigned order, const uint8_t *xs, const uint8_t *ys, const uint8_t *received,
                             uint8_t *l)
{
    size_t size = q * q * q, count = 0, unknowns = 0;
    uint8_t(*equations)[MOST] = calloc(size, MOST);
    for (size_t p = 0; p < size; p++) {
        count = functions_at(q, order, xs[p], ys[p], equations[p]);
        for (size_t i = 0; i < count; i++)
            equations[p][i] = (uint8_t)second_product(q, received[p], equations[p][i]);
        unknowns = count + functions_at(q, m + order, xs[p], ys[p], equations[p] + count);
    }
    struct solutions s = solve(q, equations, size, unknowns);
    int found = s.count > 0;
    if (found)
        memcpy(l, s.basis[0], count);
    free(s.basis);
    free(equations);
    return found;
}

/* The function of pole order at most m that has the received symbols in the points with use[p], if there is one. */
static int function_through(unsigned q, unsigned m, const uint8_t *xs, const uint8_t *ys, const uint8_t *use, const uint8_t *received,
                            uint8_t *f)
{
    size_t rows = 0, count = 0;
    uint8_t(*equations)[MOST] = calloc(q * q * q, MOST);
    for (size_t p = 0; p < q * q * q; p++)
        if (use[p]) {
            equations[rows][0] = received[p];
            count = functions_at(q, m, xs[p], ys[p], equations[rows++] + 1);
        }
    struct solutions s = solve(q, equations, rows, 1 + count);
    int found = 0;
    for (size_t b = 0; b < s.count && !found; b++)
        if (s.basis[b][0]) {
            for (size_t i = 0; i < count; i++)
                f[i] = (uint8_t)second_quotient(q, s.basis[b][1 + i], s.basis[b][0]);
            found = 1;
        }
    free(s.basis);
    free(equations);
    return found;
}

/* "Corrected", with answer and flags written, or "none". */
static uint32_t pits_ending(unsigned q, unsigned m, unsigned limit, const uint8_t *received, uint8_t *answer, uint8_t *flags)
{
    uint8_t xs[64], ys[64], l[MOST], f[MOST], use[64], word[64];
    unsigned size = q * q * q, order = limit + q * (q - 1) / 2, wrong = 0;
    ring_points(q, xs, ys);
    if (!locating_function(q, m, order, xs, ys, received, l))
        return 256 * 2;
    for (size_t p = 0; p < size; p++)
        use[p] = function_at(q, order, xs[p], ys[p], l) != 0;
    if (!function_through(q, m, xs, ys, use, received, f))
        return 256 * 2;
    for (size_t p = 0; p < size; p++) {
        word[p] = (uint8_t)function_at(q, m, xs[p], ys[p], f);
        wrong += word[p] != received[p];
    }
    if (wrong > limit)
        return 256 * 2;
    for (size_t p = 0; p < size; p++) {
        answer[p] = word[p];
        flags[p] = word[p] != received[p];
    }
    return 256 + wrong;
}

uint32_t second_ring_decode_pits(uint32_t q, uint32_t m, uint32_t limit, const uint8_t *received, size_t received_length,
                                 uint8_t *answer, size_t answer_length, uint8_t *flags, size_t flags_length, uint8_t *space,
                                 size_t space_length)
{
    uint8_t lengths[4];
    size_t size = (size_t)q * q * q;
    int fit = decoding_fits(size, size, received_length, answer_length, flags_length, space_length);
    unsigned k = ring_decoding_check(q, m, lengths, fit, received, received_length);
    if (k)
        return k;
    int most = second_pits_limit(q, m);
    if (most < 0 || limit > (uint32_t)most)
        return 19;
    memset(space, 0, SECOND_SPACE);
    return pits_ending(q, m, limit, received, answer, flags);
}
