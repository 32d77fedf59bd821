/* Demand 3 seen to hold by a program that knows nothing of locators: all arrays over GF(4) with few columns and rows, all message
 * lengths, all sets of lost columns and all trial limits, against a search over sets of wrong columns, with factors of one; then
 * smaller arrays with all lists of factors. Then short lists of lost columns and of factors, good and bad, against the checks. A code
 * with a row as long as the mark is refused, whatever is lost. Then all rows, read by their powers, against a search over all codewords,
 * and rings for q = 2, by their wrong symbols, against all words.
 *
 *   exhaustive [MOST [RINGS]]    arrays of up to MOST symbols (default 8: all with two rows of four), and every RINGS-th ring (default 1)
 */
#define _POSIX_C_SOURCE 200112L
#include "grenhyrna.h"
#include "halves.h"
#include "second.h"

#include <stdlib.h>

enum { DEGREE = 2, FIELD = 4, MOST_COLUMNS = 4 };

static uint8_t space[GREN_SPACE];

/* The value at x of the polynomial through the given points (Lagrange). */
static unsigned through(const uint8_t *xs, const uint8_t *ys, size_t count, unsigned x)
{
    unsigned sum = 0;
    for (size_t i = 0; i < count; i++) {
        unsigned term = ys[i];
        for (size_t j = 0; j < count; j++)
            if (j != i)
                term = second_product(DEGREE, second_product(DEGREE, term, x ^ xs[j]), second_inverse(DEGREE, xs[i] ^ xs[j]));
        sum ^= term;
    }
    return sum;
}

/* The factors of the code that is tried. */
static uint8_t factors[MOST_COLUMNS] = {1, 1, 1, 1};

/* The code array that agrees with y outside the columns of `set`, if there is one; there are enough columns outside to fix it. Each of
 * its symbols is a factor times a value. */
static int agreeing(const uint8_t *ks, size_t r, const uint8_t *points, size_t n, const uint8_t *y, unsigned set, uint8_t *array)
{
    for (size_t l = 0; l < r; l++) {
        uint8_t xs[MOST_COLUMNS], ys[MOST_COLUMNS];
        size_t good = 0;
        for (size_t i = 0; i < n; i++)
            if (!(set >> i & 1)) {
                xs[good] = points[i];
                ys[good++] = (uint8_t)second_quotient(DEGREE, y[l * n + i], factors[i]);
            }
        for (size_t i = 0; i < n; i++)
            array[l * n + i] = (uint8_t)second_product(DEGREE, factors[i], through(xs, ys, ks[l], points[i]));
        for (size_t i = 0; i < n; i++)
            if (!(set >> i & 1) && array[l * n + i] != y[l * n + i])
                return 0;
    }
    return 1;
}

static unsigned size_of(unsigned set)
{
    unsigned count = 0;
    for (; set; set >>= 1)
        count += set & 1;
    return count;
}

/* What was tried: arrays with no lost columns and with some, with factors of one and with others; lists that end as corrected, 16, 17,
 * 8 and 18; calls with lists of factors that are done or corrected, 5, 6, 23 and 7; rows read by their powers, by their endings; and rings
 * by their wrong symbols that are corrected with none wrong, corrected with one, none, and refused 19. */
static struct {
    unsigned long cases[2][2], lists[5], factors[5], rows[5], rings[4];
} tried;

static size_t most_symbols = 8;
static unsigned long one_ring_in = 1;
static unsigned half, list_of_factors; /* the number of the list of factors, and 0 for factors of one */

/* The columns of a set as a list, in an order that depends on `turn`: each order of up to three comes about. */
static size_t listed(unsigned set, unsigned long turn, uint8_t *list)
{
    uint8_t rising[MOST_COLUMNS];
    size_t count = 0;
    for (unsigned i = 0; i < MOST_COLUMNS; i++)
        if (set >> i & 1)
            rising[count++] = (uint8_t)i;
    for (size_t i = 0; i < count; i++) {
        size_t at = (i + turn) % count;
        list[i] = rising[turn / count % 2 ? count - 1 - at : at];
    }
    return count;
}

/* The only nearest code array outside the lost columns, if there is one, and how far it is; answers how many are as near. */
static unsigned search(const uint8_t *ks, size_t r, const uint8_t *points, size_t n, unsigned lost, unsigned limit, const uint8_t *y,
                       uint8_t *found, unsigned *nearest)
{
    uint8_t other[8];
    unsigned ways = 0;
    for (unsigned w = 0; w <= limit && !ways; w++)
        for (unsigned set = 0; set < 1u << n; set++)
            if (!(set & lost) && size_of(set) == w && agreeing(ks, r, points, n, y, set | lost, other)) {
                if (!ways || memcmp(found, other, r * n))
                    ways++;
                memcpy(found, other, r * n);
                *nearest = w;
            }
    return ways;
}

static int check(const uint8_t *ks, size_t r, const uint8_t *points, size_t n, unsigned lost, unsigned limit, unsigned long turn,
                 const uint8_t *y)
{
    uint8_t answer[8], flags[MOST_COLUMNS], found[8], list[MOST_COLUMNS];
    unsigned nearest = ~0u, ways = search(ks, r, points, n, lost, limit, y, found, &nearest);
    size_t gone = listed(lost, turn, list);
    memset(answer, 0xEE, sizeof answer);
    memset(flags, 0xEE, sizeof flags);
    uint32_t e = lost ? gren_mark_decode_lost(DEGREE, ks, r, points, n, factors, n, limit, list, gone, y, r * n, answer, r * n,
                                              flags, n, space, sizeof space)
                      : gren_mark_decode(DEGREE, ks, r, points, n, factors, n, limit, y, r * n, answer, r * n, flags, n, space,
                                         sizeof space);
    tried.cases[list_of_factors > 0][lost > 0]++;
    int corrected = gren_code(e) == GREN_CORRECTED;
    int ok = gren_code(e) != GREN_REFUSED;
    if (corrected) {
        ok &= ways == 1 && gren_detail(e) == nearest && !memcmp(answer, found, r * n);
        for (size_t i = 0; ok && i < n; i++) {
            int wrong = 0;
            for (size_t l = 0; l < r; l++)
                wrong |= answer[l * n + i] != y[l * n + i];
            ok &= flags[i] == (lost >> i & 1 ? 2 : wrong);
        }
    } else {
        for (size_t i = 0; i < sizeof answer; i++)
            ok &= answer[i] == 0xEE;
        for (size_t i = 0; i < sizeof flags; i++)
            ok &= flags[i] == 0xEE;
    }
    if (gren_code(e) == GREN_NONE)
        ok &= ways == 0;
    if (limit <= second_safe_limit(ks, r, n - gone))
        ok &= corrected == (ways > 0);
    return ok;
}

/* Every other array of a code, of `one_in` one, and all trial limits. In the longest arrays the lost columns take few of the symbols
 * that they could. */
static int check_arrays(const uint8_t *ks, size_t r, const uint8_t *points, size_t n, unsigned lost, unsigned one_in)
{
    size_t left = n - size_of(lost), free_symbols = r * n <= 6 ? r * n : r * left;
    for (unsigned limit = 0; limit <= second_joint_limit(ks, r, left); limit++)
        for (unsigned long word = half + 2 * (list_of_factors % one_in); word < 1ul << (2 * free_symbols); word += 2 * one_in) {
            uint8_t y[8];
            unsigned long symbols = word, other = word * 2654435761u >> 7;
            for (size_t i = 0; i < r * n; i++) {
                unsigned long *from = r * n > 6 && lost >> (i % n) & 1 ? &other : &symbols;
                y[i] = (uint8_t)(*from & 3);
                *from >>= 2;
            }
            if (!check(ks, r, points, n, lost, limit, word, y)) {
                printf("exhaustive: n %zu, r %zu, k %u %u, factors %u, lost %u, limit %u, array %lu FAILED\n", n, r, ks[0], ks[1],
                       list_of_factors, lost, limit, word);
                return 0;
            }
        }
    return 1;
}

/* A code array with other symbols in the lost columns, where there is nothing to find but the numbers of the checks. */
static int check_list(const uint8_t *ks, size_t r, const uint8_t *points, size_t n, const uint8_t *list, size_t count)
{
    unsigned lost = 0, largest = r > 1 && ks[1] > ks[0] ? ks[1] : ks[0], expected = 0;
    uint8_t y[8] = {0}, answer[8], flags[MOST_COLUMNS];
    for (size_t i = 0; i < count; i++) {
        if (list[i] >= n || lost >> list[i] & 1)
            expected = 16;
        else
            lost |= 1u << list[i];
    }
    if (!expected && n - count < largest)
        expected = 17;
    if (largest == n)
        expected = 18;
    for (size_t i = 0; i < r * n; i++)
        if (lost >> (i % n) & 1)
            y[i] = (uint8_t)(1 + i % 3);
    unsigned most = expected ? 1 : second_joint_limit(ks, r, n - count) + 1;
    for (unsigned limit = 0; limit <= most; limit++) {
        unsigned refused = expected ? expected : limit == most ? 8 : 0;
        memset(answer, 0xEE, sizeof answer);
        memset(flags, 0xEE, sizeof flags);
        uint32_t e = gren_mark_decode_lost(DEGREE, ks, r, points, n, factors, n, limit, list, count, y, r * n, answer, r * n, flags,
                                           n, space, sizeof space);
        int ok = e == (refused ? refused : 256);
        for (size_t i = 0; i < r * n; i++)
            ok &= answer[i] == (refused ? 0xEE : 0);
        for (size_t i = 0; i < n; i++)
            ok &= flags[i] == (refused ? 0xEE : lost >> i & 1 ? 2 : 0);
        tried.lists[refused == 16 ? 1 : refused == 17 ? 2 : refused == 8 ? 3 : refused == 18 ? 4 : 0]++;
        if (!ok)
            return 0;
    }
    return 1;
}

/* All lists of up to four numbers: the columns, the number of columns, and 255. */
static int check_lists(const uint8_t *ks, size_t r, const uint8_t *points, size_t n)
{
    unsigned all = 1;
    for (size_t count = 0; count <= 4; count++, all *= (unsigned)n + 2)
        for (unsigned which = 0; which < all; which++) {
            uint8_t list[4];
            unsigned rest = which;
            for (size_t i = 0; i < count; i++, rest /= (unsigned)n + 2)
                list[i] = (uint8_t)(rest % (n + 2) > n ? 255 : rest % (n + 2));
            if (!check_list(ks, r, points, n, list, count)) {
                printf("exhaustive: n %zu, r %zu, k %u %u, list %u of %zu FAILED\n", n, r, ks[0], ks[1], which, count);
                return 0;
            }
        }
    return 1;
}

/* A code without a full row, all sets of lost columns that leave enough. */
static int check_losses(const uint8_t *ks, size_t r, const uint8_t *points, size_t n, unsigned one_in)
{
    for (unsigned lost = 0; lost < 1u << n; lost++) {
        size_t left = n - size_of(lost);
        if (left >= ks[0] && (r == 1 || left >= ks[1]) && !check_arrays(ks, r, points, n, lost, one_in))
            return 0;
    }
    return 1;
}

/* The same with all lists of factors but that of ones: all arrays of up to four symbols in up to three columns, and of the others up to
 * six symbols a part, another one for each list. */
static int check_with_factors(const uint8_t *ks, size_t r, const uint8_t *points, size_t n)
{
    unsigned all = 1, one_in = r * n > 4 ? 13 : n > 3 ? 5 : 1;
    int ok = 1;
    for (size_t i = 0; i < n; i++)
        all *= FIELD - 1;
    for (list_of_factors = 1; ok && r * n <= 6 && list_of_factors < all; list_of_factors++) {
        unsigned rest = list_of_factors;
        for (size_t i = 0; i < n; i++, rest /= FIELD - 1)
            factors[i] = (uint8_t)(1 + rest % (FIELD - 1));
        ok = check_losses(ks, r, points, n, one_in);
    }
    list_of_factors = 0;
    memset(factors, 1, sizeof factors);
    return ok;
}

static int check_code(const uint8_t *ks, size_t r, const uint8_t *points, size_t n)
{
    int full = ks[0] == n || (r > 1 && ks[1] == n);
    if (!full && (!check_losses(ks, r, points, n, 1) || !check_with_factors(ks, r, points, n)))
        return 0;
    return half || check_lists(ks, r, points, n);
}

/* One list of factors in all four calls, for a row of one value. Of the value 1 the factors themselves are struck. */
static int check_factor_list(const uint8_t *points, size_t n, const uint8_t *list, size_t count, uint8_t symbol, unsigned refused)
{
    static const uint8_t k[] = {1}, lost[] = {0};
    uint8_t out[4][8], flags[2][8], y[8] = {0}, lent[8];
    memset(out, 0xEE, sizeof out);
    memset(flags, 0xEE, sizeof flags);
    memset(lent, 0xEE, sizeof lent);
    if (!refused)
        memcpy(y, list, n);
    y[n - 1] ^= symbol ^ 1;
    uint32_t coded = refused ? refused : 256;
    int ok = gren_mark_encode(DEGREE, k, 1, points, n, list, count, &symbol, 1, out[0], n) == coded;
    ok &= gren_mark_read(DEGREE, k, 1, points, n, list, count, y, n, out[1], 1) == coded;
    ok &= gren_mark_decode(DEGREE, k, 1, points, n, list, count, 0, y, n, out[2], n, flags[0], n, space, sizeof space) == coded;
    ok &= gren_mark_decode_lost(DEGREE, k, 1, points, n, list, count, 0, lost, 1, y, n, out[3], n, flags[1], n, space, sizeof space)
          == coded;
    tried.factors[refused == 5 ? 1 : refused == 6 ? 2 : refused == 23 ? 3 : refused == 7 ? 4 : 0] += 4;
    for (size_t i = 0; i < 4; i++) {
        size_t written = refused ? 0 : i == 1 ? 1 : n;
        ok &= !memcmp(out[i], i == 1 ? k : list, written) && !memcmp(out[i] + written, lent, sizeof lent - written);
    }
    for (size_t i = 0; i < 2; i++)
        for (size_t j = 0; j < sizeof flags[0]; j++)
            ok &= flags[i][j] == (refused || j >= n ? 0xEE : i && j == 0 ? 2 : 0);
    return ok;
}

/* All lists of up to n + 1 factors from 0 to 4 and 255; each with good points and symbols, with a point named twice, and with a symbol
 * outside the field. */
static int check_factor_lists(const uint8_t *points, size_t n)
{
    static const uint8_t numbers[] = {0, 1, 2, 3, 4, 255};
    uint8_t twice[MOST_COLUMNS], list[MOST_COLUMNS + 1];
    unsigned all = 1, sizes = sizeof numbers;
    memcpy(twice, points, n);
    twice[n - 1] = twice[0];
    for (size_t count = 0; count <= n + 1; count++, all *= sizes)
        for (unsigned which = 0; which < all; which++) {
            unsigned rest = which, bad = 0;
            for (size_t i = 0; i < count; i++, rest /= sizes) {
                list[i] = numbers[rest % sizes];
                bad |= list[i] < 1 || list[i] >= FIELD;
            }
            unsigned code = count != n ? 5 : 0, factor = bad ? 23 : 0;
            if (!check_factor_list(points, n, list, count, 1, code ? code : factor)
                || !check_factor_list(twice, n, list, count, 1, code ? code : 6)
                || !check_factor_list(points, n, list, count, FIELD, code ? code : factor ? factor : 7)
                || !check_factor_list(twice, n, list, count, FIELD, code ? code : 6)) {
                printf("exhaustive: n %zu, list %u of %zu factors FAILED\n", n, which, count);
                return 0;
            }
        }
    return 1;
}

/* ---- rows read by their powers */

/* The codeword of message number `message`, and in how many symbols it differs from y. */
static unsigned wrong_symbols(unsigned k, const uint8_t *points, size_t n, unsigned message, const uint8_t *y, uint8_t *word)
{
    uint8_t length = (uint8_t)k, coefficients[MOST_COLUMNS];
    unsigned wrong = 0;
    for (unsigned i = 0; i < k; i++, message /= FIELD)
        coefficients[i] = (uint8_t)(message % FIELD);
    second_mark_encode(DEGREE, &length, 1, points, n, factors, n, coefficients, k, word, n);
    for (size_t i = 0; i < n; i++)
        wrong += word[i] != y[i];
    return wrong;
}

/* The nearest codeword to y, and how far it is; with another as near, it is farther than all. */
static unsigned nearest_word(unsigned k, const uint8_t *points, size_t n, const uint8_t *y, uint8_t *word, unsigned *distance)
{
    unsigned all = 1, count = 0;
    uint8_t other[MOST_COLUMNS];
    for (unsigned i = 0; i < k; i++)
        all *= FIELD;
    *distance = MOST_COLUMNS + 1;
    for (unsigned message = 0; message < all; message++) {
        unsigned wrong = wrong_symbols(k, points, n, message, y, other);
        count = wrong < *distance ? 1 : count + (wrong == *distance);
        if (wrong < *distance) {
            *distance = wrong;
            memcpy(word, other, n);
        }
    }
    return count;
}

/* One row: the second program's answer, the only nearest codeword on "corrected", and no codeword within the limit on "none". */
static int check_row(unsigned k, unsigned s, const uint8_t *points, size_t n, const uint8_t *y, unsigned limit, unsigned safe)
{
    uint8_t answer[2][MOST_COLUMNS], flags[2][MOST_COLUMNS], word[MOST_COLUMNS];
    unsigned distance, near = nearest_word(k, points, n, y, word, &distance);
    memset(answer, 0xEE, sizeof answer);
    memset(flags, 0xEE, sizeof flags);
    memset(space, 1, sizeof space);
    uint32_t a = gren_mark_decode_powers(DEGREE, k, s, points, n, factors, n, limit, y, n, answer[0], n, flags[0], n, space,
                                         sizeof space),
             b = second_mark_decode_powers(DEGREE, k, s, points, n, factors, n, limit, y, n, answer[1], n, flags[1], n, space,
                                           sizeof space);
    int ok = a == b && !memcmp(answer[0], answer[1], sizeof answer[0]) && !memcmp(flags[0], flags[1], sizeof flags[0]);
    if (gren_code(a) == GREN_CORRECTED)
        ok &= near == 1 && gren_detail(a) == distance && distance <= limit && !memcmp(answer[0], word, n);
    else
        ok &= gren_code(a) != GREN_REFUSED && (distance > limit || (gren_code(a) != GREN_NONE && limit > safe));
    tried.rows[gren_code(a)]++;
    return ok;
}

/* All rows over GF(4) with up to four symbols, all k and s that pass, all limits, with factors of one and others. */
static int check_rows(const uint8_t *points)
{
    static const uint8_t others[MOST_COLUMNS] = {2, 3, 1, 3};
    for (unsigned with = 0; with < 2; with++) {
        for (size_t i = 0; i < MOST_COLUMNS; i++)
            factors[i] = with ? others[i] : 1;
        for (size_t n = 2; n <= MOST_COLUMNS; n++)
            for (unsigned s = 1; s <= 4; s++)
                for (unsigned k = 1; s * (k - 1) + 1 < n; k++) {
                    uint8_t ks[4], y[MOST_COLUMNS];
                    second_power_lengths(k, s, ks);
                    unsigned joint = second_joint_limit(ks, s, n), safe = second_safe_limit(ks, s, n);
                    for (unsigned row = 0; row < 1u << 2 * n; row++)
                        for (unsigned limit = 0; limit <= joint; limit++) {
                            for (size_t i = 0; i < n; i++)
                                y[i] = (uint8_t)(row >> 2 * i & 3);
                            if (!check_row(k, s, points, n, y, limit, safe)) {
                                printf("exhaustive: n %zu, k %u, %u powers, row %u, limit %u FAILED\n", n, k, s, row, limit);
                                return 0;
                            }
                        }
                }
    }
    return 1;
}

/* ---- rings by their wrong symbols, q = 2 */

enum { RING = 8, RINGS = 1 << 2 * RING, NO_WORD = RINGS };

/* Of each ring the number of the only word within one symbol of it, and in how many it differs: words of H(m) are far enough apart.
 * A ring's number has its symbols as digits. */
static unsigned near_word[RINGS];
static uint8_t near_wrong[RINGS];

static void ring_of(unsigned number, uint8_t *ring)
{
    for (size_t i = 0; i < RING; i++)
        ring[i] = (uint8_t)(number >> 2 * i & 3);
}

static unsigned number_of(const uint8_t *ring)
{
    unsigned number = 0;
    for (size_t i = 0; i < RING; i++)
        number |= (unsigned)ring[i] << 2 * i;
    return number;
}

/* Goes through all words of H(m), and through the rings that differ from each in at most `limit` symbols, one at most; answers whether
 * no ring has two. */
static int find_near(unsigned m, unsigned limit)
{
    unsigned length = m == 3 ? 3 : m == 4 ? 4 : 5;
    for (unsigned i = 0; i < RINGS; i++)
        near_word[i] = NO_WORD;
    for (unsigned which = 0; which < 1u << 2 * length; which++) {
        uint8_t message[RING], ring[RING];
        ring_of(which, message);
        if (second_ring_encode(2, m, message, length, ring, RING) != 256)
            return 0;
        unsigned word = number_of(ring);
        for (unsigned change = 0; change <= (limit ? 3 * RING : 0); change++) {
            unsigned near = word ^ (change ? (1 + (change - 1) % 3) << 2 * ((change - 1) / 3) : 0);
            if (near_word[near] != NO_WORD)
                return 0;
            near_word[near] = word;
            near_wrong[near] = change > 0;
        }
    }
    return 1;
}

/* One ring: the word within the limit, or none; with a limit that is above the largest, 19. */
static int check_ring(unsigned m, unsigned limit, int refused, unsigned number)
{
    uint8_t y[RING], answer[RING], flags[RING], word[RING];
    int found = !refused && near_word[number] != NO_WORD, ok = 1;
    ring_of(number, y);
    ring_of(found ? near_word[number] : 0, word);
    memset(answer, 0xEE, sizeof answer);
    memset(flags, 0xEE, sizeof flags);
    uint32_t e = gren_ring_decode_pits(2, m, limit, y, RING, answer, RING, flags, RING, space, sizeof space);
    for (size_t i = 0; i < RING; i++)
        ok &= answer[i] == (found ? word[i] : 0xEE) && flags[i] == (found ? word[i] != y[i] : 0xEE);
    tried.rings[refused ? 3 : found ? near_wrong[number] : 2]++;
    return ok && e == (refused ? GREN_BAD_PITS : found ? 256u + near_wrong[number] : 256u * GREN_NONE);
}

/* H(3), H(4) and H(5) with all limits: every ring of this half, and a few rings with a limit that is one too large. */
static int check_rings(void)
{
    for (unsigned m = 3; m <= 5; m++)
        for (unsigned limit = 0, most = m < 5 ? 1 : 0; limit <= most + 1; limit++) {
            int refused = limit > most;
            if (!refused && !find_near(m, limit)) {
                printf("exhaustive: H(%u): two words are within %u symbols of one ring\n", m, limit);
                return 0;
            }
            for (unsigned long ring = half; ring < RINGS; ring += 2 * (refused ? 1001 : one_ring_in))
                if (!check_ring(m, limit, refused, (unsigned)ring)) {
                    printf("exhaustive: H(%u), ring %lu, by wrong symbols, limit %u FAILED\n", m, ring, limit);
                    return 0;
                }
        }
    return 1;
}

static int check_half(unsigned which)
{
    static const uint8_t points[MOST_COLUMNS] = {2, 0, 3, 1};
    half = which;
    for (size_t n = 1; n <= MOST_COLUMNS; n++)
        for (size_t r = 1; r <= 2; r++) {
            if (r * n > most_symbols)
                continue;
            for (unsigned code = 0; code < 16; code++) {
                uint8_t ks[2] = {(uint8_t)(1 + code % 4), (uint8_t)(1 + code / 4)};
                if (ks[0] > n || ks[1] > n || (r == 1 && ks[1] > 1))
                    continue;
                if (!check_code(ks, r, points, n))
                    return 0;
            }
        }
    return check_rings() && (half ? check_rows(points) : check_factor_lists(points, 2) && check_factor_lists(points, 3));
}

int main(int argc, char **argv)
{
    most_symbols = argc > 1 ? strtoul(argv[1], NULL, 10) : most_symbols;
    one_ring_in = argc > 2 ? strtoul(argv[2], NULL, 10) : one_ring_in;
    if (!in_halves(check_half, (unsigned long *)&tried, sizeof tried / sizeof(unsigned long)))
        return 1;
    for (int with_factors = 0; with_factors < 2; with_factors++)
        printf("exhaustive: factors %s: %lu decodings agree with the search over sets of columns, and %lu with lost columns\n",
               with_factors ? "of all kinds" : "of one", tried.cases[with_factors][0], tried.cases[with_factors][1]);
    printf("exhaustive: lists of lost columns: %lu corrected, refusals 16: %lu 17: %lu 8: %lu 18: %lu\n", tried.lists[0],
           tried.lists[1], tried.lists[2], tried.lists[3], tried.lists[4]);
    printf("exhaustive: lists of factors: %lu done, refusals 5: %lu 6: %lu 23: %lu 7: %lu\n", tried.factors[0], tried.factors[1],
           tried.factors[2], tried.factors[3], tried.factors[4]);
    printf("exhaustive: rows read by their powers: corrected %lu, none %lu, several %lu, hollow %lu, as the search over codewords says\n",
           tried.rows[1], tried.rows[2], tried.rows[3], tried.rows[4]);
    printf("exhaustive: rings by their wrong symbols, q 2: corrected with 0 wrong %lu, with 1 %lu, none %lu, as all words say; refused 19: "
           "%lu\n",
           tried.rings[0], tried.rings[1], tried.rings[2], tried.rings[3]);
    return 0;
}
