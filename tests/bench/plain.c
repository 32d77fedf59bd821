#include "plain.h"

#include <string.h>

enum { LINES = 5, MOST = 384 };

static uint8_t powers[512], exponents[256];
static unsigned order;

void plain_field(unsigned degree)
{
    unsigned modulus = degree == 2 ? 0x7 : degree == 4 ? 0x13 : 0x12D, c = 1;
    order = (1u << degree) - 1;
    for (unsigned i = 0; i < order; i++) {
        powers[i] = powers[i + order] = (uint8_t)c;
        exponents[c] = (uint8_t)i;
        c <<= 1;
        if (c >> degree)
            c ^= modulus;
    }
}

static inline uint8_t product(uint8_t a, uint8_t b)
{
    return a && b ? powers[exponents[a] + exponents[b]] : 0;
}

static inline uint8_t quotient(uint8_t a, uint8_t b)
{
    return a ? powers[exponents[a] + order - exponents[b]] : 0;
}

static uint8_t value(const uint8_t *p, size_t count, uint8_t x)
{
    uint8_t v = 0;
    while (count--)
        v = product(v, x) ^ p[count];
    return v;
}

static void reduce(const uint8_t *points, size_t columns, size_t k, uint8_t *u)
{
    for (size_t j = 0; j < k; j++)
        for (size_t i = j + 1; i < columns; i++)
            u[i] = quotient(u[i] ^ u[j], points[i] ^ points[j]);
}

/* The value at x of the polynomial that has Newton's coefficients u at these points. */
static inline uint8_t newton(const uint8_t *points, size_t k, const uint8_t *u, uint8_t x)
{
    uint8_t v = 0;
    while (k--)
        v = product(v, x ^ points[k]) ^ u[k];
    return v;
}

void plain_encode(const uint8_t *lengths, size_t rows, const uint8_t *points, size_t columns, const uint8_t *message,
                  uint8_t *array)
{
    for (size_t l = 0; l < rows; message += lengths[l++])
        for (size_t i = 0; i < columns; i++)
            *array++ = value(message, lengths[l], points[i]);
}

int plain_read(const uint8_t *lengths, size_t rows, const uint8_t *points, size_t columns, const uint8_t *array, uint8_t *message)
{
    uint8_t own[MOST], *p = own;
    for (size_t l = 0; l < rows; p += lengths[l++]) {
        uint8_t u[96];
        memcpy(u, array + l * columns, columns);
        reduce(points, columns, lengths[l], u);
        for (size_t i = lengths[l]; i < columns; i++)
            if (u[i])
                return 0;
        size_t count = 0;
        for (size_t j = lengths[l]; j-- > 0; count++) {
            p[count] = 0;
            for (size_t i = count; i > 0; i--)
                p[i] = p[i - 1] ^ product(points[j], p[i]);
            p[0] = product(points[j], p[0]) ^ u[j];
        }
    }
    memcpy(message, own, (size_t)(p - own));
    return 1;
}

uint32_t plain_decode(const uint8_t *lengths, size_t rows, const uint8_t *points, size_t columns, uint32_t limit,
                      const uint8_t *received, uint8_t *answer, uint8_t *flags)
{
    static uint8_t values[LINES][MOST], locators[LINES][MOST];
    uint8_t at[MOST];
    size_t leads[LINES] = {0}, widths[LINES] = {0}, count = 0, lines = rows + 1;
    memset(values, 0, sizeof values);
    memset(locators, 0, sizeof locators);
    int clean = 1;
    for (size_t l = 0; l < rows; l++) {
        uint8_t u[96];
        memcpy(u, received + l * columns, columns);
        reduce(points, columns, lengths[l], u);
        for (size_t i = lengths[l]; i < columns; i++) {
            values[0][count] = u[i];
            values[l + 1][count] = 1;
            at[count++] = points[i];
            clean &= u[i] == 0;
        }
    }
    if (clean) {
        memcpy(answer, received, rows * columns);
        memset(flags, 0, columns);
        return 256;
    }
    for (size_t j = 0; j < lines; j++) {
        leads[j] = j;
        widths[j] = 1;
    }
    locators[0][0] = 1;
    for (size_t i = 0; i < count; i++) {
        size_t p = lines;
        for (size_t j = 0; j < lines; j++)
            if (values[j][i] && (p == lines || leads[j] < leads[p]))
                p = j;
        if (p == lines)
            continue;
        for (size_t j = 0; j < lines; j++) {
            if (j == p || !values[j][i])
                continue;
            uint8_t c = quotient(values[j][i], values[p][i]);
            const uint8_t *row = powers + exponents[c];
            for (size_t k = i + 1; k < count; k++)
                if (values[p][k])
                    values[j][k] ^= row[exponents[values[p][k]]];
            for (size_t k = 0; k < widths[p]; k++)
                if (locators[p][k])
                    locators[j][k] ^= row[exponents[locators[p][k]]];
            if (widths[j] < widths[p])
                widths[j] = widths[p];
        }
        for (size_t k = i + 1; k < count; k++)
            values[p][k] = product(values[p][k], at[k] ^ at[i]);
        for (size_t k = widths[p]; k > 0; k--)
            locators[p][k] = locators[p][k - 1] ^ product(at[i], locators[p][k]);
        locators[p][0] = product(at[i], locators[p][0]);
        widths[p]++;
        leads[p] += lines;
    }
    size_t best = 0;
    for (size_t j = 1; j < lines; j++)
        if (leads[j] < leads[best])
            best = j;
    uint32_t t = (uint32_t)((leads[best] + rows) / lines);
    if (t > limit)
        return 256 * 2;
    for (size_t j = 0; j < lines; j++)
        if (j != best && leads[j] <= t * lines)
            return 256 * 3 + t;
    uint8_t good[96], wrong[96], symbols[96];
    size_t right = 0, bad = 0;
    for (size_t i = 0; i < columns; i++)
        if (value(locators[best], t + 1, points[i]))
            good[right++] = (uint8_t)i;
        else
            wrong[bad++] = (uint8_t)i;
    if (bad != t)
        return 256 * 4 + t;
    uint8_t nodes[96];
    for (size_t i = 0; i < right; i++)
        nodes[i] = points[good[i]];
    memcpy(answer, received, rows * columns);
    memset(flags, 0, columns);
    for (size_t l = 0; l < rows; l++) {
        size_t k = lengths[l];
        for (size_t i = 0; i < k; i++)
            symbols[i] = received[l * columns + good[i]];
        reduce(nodes, k, k, symbols);
        for (size_t b = 0; b < bad; b++)
            answer[l * columns + wrong[b]] = newton(nodes, k, symbols, points[wrong[b]]);
    }
    for (size_t b = 0; b < bad; b++)
        flags[wrong[b]] = 1;
    return 256 + t;
}

uint32_t plain_decode_lost(const uint8_t *lengths, size_t rows, const uint8_t *points, size_t columns, uint32_t limit,
                           const uint8_t *lost, size_t lost_count, const uint8_t *received, uint8_t *answer, uint8_t *flags)
{
    static uint8_t at[96], xs[96], ys[MOST], found[MOST], wrong[96];
    size_t remaining = 0;
    memset(flags, 0, columns);
    for (size_t i = 0; i < lost_count; i++)
        flags[lost[i]] = 2;
    for (size_t i = 0; i < columns; i++)
        if (!flags[i]) {
            at[remaining] = (uint8_t)i;
            xs[remaining++] = points[i];
        }
    for (size_t l = 0; l < rows; l++)
        for (size_t i = 0; i < remaining; i++)
            ys[l * remaining + i] = received[l * columns + at[i]];
    uint32_t ending = plain_decode(lengths, rows, xs, remaining, limit, ys, found, wrong);
    if (ending / 256 != 1)
        return ending;
    for (size_t l = 0; l < rows; l++) {
        uint8_t *row = found + l * remaining;
        for (size_t i = 0; i < remaining; i++)
            answer[l * columns + at[i]] = row[i];
        reduce(xs, lengths[l], lengths[l], row);
        for (size_t i = 0; i < lost_count; i++)
            answer[l * columns + lost[i]] = newton(xs, lengths[l], row, points[lost[i]]);
    }
    for (size_t i = 0; i < remaining; i++)
        flags[at[i]] = wrong[i];
    return ending;
}

void plain_multiply(size_t rows, size_t columns, const uint8_t *factors, uint8_t *array)
{
    for (size_t l = 0; l < rows; l++)
        for (size_t i = 0; i < columns; i++)
            array[l * columns + i] = product(factors[i], array[l * columns + i]);
}

uint32_t plain_decode_factors(const uint8_t *lengths, size_t rows, const uint8_t *points, size_t columns, const uint8_t *factors,
                              uint32_t limit, const uint8_t *received, uint8_t *answer, uint8_t *flags)
{
    static uint8_t ys[MOST];
    for (size_t l = 0; l < rows; l++)
        for (size_t i = 0; i < columns; i++)
            ys[l * columns + i] = quotient(received[l * columns + i], factors[i]);
    uint32_t ending = plain_decode(lengths, rows, points, columns, limit, ys, answer, flags);
    if (ending / 256 == 1)
        plain_multiply(rows, columns, factors, answer);
    return ending;
}

uint32_t plain_decode_powers(const uint8_t *lengths, size_t powers, const uint8_t *points, size_t columns, uint32_t limit,
                             const uint8_t *received, uint8_t *answer, uint8_t *flags)
{
    static uint8_t ys[MOST];
    memcpy(ys, received, columns);
    for (size_t i = columns; i < powers * columns; i++)
        ys[i] = product(ys[i - columns], received[i % columns]);
    return plain_decode(lengths, powers, points, columns, limit, ys, answer, flags);
}

enum { SIDE = 4, RING = 64, PIT_LINES = 2 * SIDE };

/* Pairs of functions (L, N), a line each: the values of N + received · L in the ring's points, and then those of L. Where L is y^j and
 * N zero at the start, the lead is 2 · (5j + m) + 1; where N is y^j and L zero, 2 · 5j. */
static uint8_t pairs[PIT_LINES][2 * RING];
static size_t pair_leads[PIT_LINES];
static uint8_t abscissas[RING], ordinates[RING];

void plain_ring_points(void)
{
    size_t p = 0;
    for (unsigned x = 0; x < SIDE * SIDE; x++)
        for (unsigned y = 0; y < SIDE * SIDE; y++) {
            uint8_t y2 = product((uint8_t)y, (uint8_t)y), x2 = product((uint8_t)x, (uint8_t)x);
            if ((product(y2, y2) ^ y) == product(product(x2, x2), (uint8_t)x)) {
                abscissas[p] = (uint8_t)x;
                ordinates[p++] = (uint8_t)y;
            }
        }
}

/* The pairs over the points with use[p], from the start. */
static void pair_functions(uint32_t m, const uint8_t *received, const uint8_t *use)
{
    uint8_t power[RING];
    memset(pairs, 0, sizeof pairs);
    memset(power, 1, sizeof power);
    for (size_t j = 0; j < SIDE; j++) {
        for (size_t p = 0; p < RING; p++) {
            pairs[j][p] = product(received[p], power[p]);
            pairs[j][RING + p] = pairs[SIDE + j][p] = power[p];
            power[p] = product(power[p], ordinates[p]);
        }
        pair_leads[j] = 2 * (5 * j + m) + 1;
        pair_leads[SIDE + j] = 2 * 5 * j;
    }
    for (size_t i = 0; i < RING; i++) {
        size_t best = PIT_LINES;
        for (size_t j = 0; j < PIT_LINES && use[i]; j++)
            if (pairs[j][i] && (best == PIT_LINES || pair_leads[j] < pair_leads[best]))
                best = j;
        if (best == PIT_LINES)
            continue;
        for (size_t j = 0; j < PIT_LINES; j++) {
            if (j == best || !pairs[j][i])
                continue;
            const uint8_t *row = powers + exponents[quotient(pairs[j][i], pairs[best][i])];
            for (size_t k = 0; k < 2 * RING; k++)
                if (pairs[best][k])
                    pairs[j][k] ^= row[exponents[pairs[best][k]]];
        }
        for (size_t k = 0; k < 2 * RING; k++)
            pairs[best][k] = product(pairs[best][k], abscissas[k % RING] ^ abscissas[i]);
        pair_leads[best] += 2 * SIDE;
    }
}

/* Whether a ring is a word of H(m): in each sector the polynomial in y that has its values, and of these the rows. */
static int is_word(uint32_t m, const uint8_t *ring)
{
    uint8_t rows[SIDE][SIDE * SIDE];
    for (size_t x = 0; x < SIDE * SIDE; x++) {
        uint8_t u[SIDE], p[SIDE] = {0};
        memcpy(u, ring + SIDE * x, SIDE);
        reduce(ordinates + SIDE * x, SIDE, SIDE, u);
        for (size_t j = SIDE; j-- > 0;) {
            for (size_t i = SIDE - 1; i > 0; i--)
                p[i] = p[i - 1] ^ product(ordinates[SIDE * x + j], p[i]);
            p[0] = product(ordinates[SIDE * x + j], p[0]) ^ u[j];
        }
        for (size_t j = 0; j < SIDE; j++)
            rows[j][x] = p[j];
    }
    for (size_t j = 0; j < SIDE; j++) {
        uint8_t xs[SIDE * SIDE];
        size_t k = (m - 5 * j) / SIDE + 1;
        for (size_t x = 0; x < SIDE * SIDE; x++)
            xs[x] = (uint8_t)x;
        reduce(xs, SIDE * SIDE, k, rows[j]);
        for (size_t x = k; x < SIDE * SIDE; x++)
            if (rows[j][x])
                return 0;
    }
    return 1;
}

uint32_t plain_decode_pits(uint32_t m, uint32_t limit, const uint8_t *received, uint8_t *answer, uint8_t *flags)
{
    uint8_t use[RING], found[RING];
    size_t best = 0;
    uint32_t wrong = 0;
    if (is_word(m, received)) {
        memcpy(answer, received, RING);
        memset(flags, 0, RING);
        return 256;
    }
    memset(use, 1, sizeof use);
    pair_functions(m, received, use);
    for (size_t j = 1; j < PIT_LINES; j++)
        if (pair_leads[j] < pair_leads[best])
            best = j;
    memcpy(use, pairs[best] + RING, RING);
    pair_functions(m, received, use);
    for (size_t p = 0; p < RING; p++) {
        found[p] = received[p] ^ pairs[0][p];
        wrong += pairs[0][p] != 0;
    }
    if (wrong > limit || !is_word(m, found))
        return 256 * 2;
    for (size_t p = 0; p < RING; p++)
        flags[p] = pairs[0][p] != 0;
    memcpy(answer, found, RING);
    return 256 + wrong;
}
