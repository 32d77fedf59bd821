/* Compares decoding rings by their wrong symbols with the second program, for both q and all m: words with up to two wrong symbols more
 * than the limit, anywhere, in few sectors, at one place of many sectors or on lines; rings between two words, and any rings; every
 * refusal and every two of them. Every buffer has guard bytes around it. What must stay is compared with what was lent, a word within
 * the limit must be found, and the refusals are worked out here once more.
 *
 *   pits [COUNT [SEED]]
 */
#define _POSIX_C_SOURCE 200112L
#include "grenhyrna.h"
#include "halves.h"
#include "random.h"
#include "second.h"

#include <stdlib.h>

enum { GUARD = 64, SYMBOLS = 65, SPARE = 100, MOST_M = 64 };

/* What a call is lent: for the library, for the second program, and as it was before. */
struct lent {
    uint8_t received[GUARD + SYMBOLS + GUARD], answer[GUARD + SYMBOLS + GUARD], flags[GUARD + SYMBOLS + GUARD];
    uint8_t space[GUARD + SECOND_SPACE + SPARE + GUARD];
};

static struct lent own, second, before;
static uint8_t dirt[2 * sizeof(struct lent)]; /* no byte of it is zero */
static uint8_t planted[64];                   /* the word that was struck */
static uint32_t q, m, limit;
static size_t received_length, answer_length, flags_length, space_length;

/* Where the wrong symbols are; BETWEEN is a ring that has some symbols of one word and the others of another. */
enum { SCATTERED, SECTORS, ONE_PLACE, LINES, BETWEEN, ANY, SHAPES };
static const char *const shapes[SHAPES] = {"scattered", "in few sectors", "at one place of sectors", "on lines", "between two words",
                                           "any ring"};

static const uint8_t checks[] = {10, 11, 18, 5, 7, 19};
enum { CHECKS = sizeof checks };

/* What came about. `weights` counts words with no wrong symbol, fewer than the limit, as many, one more and two more. */
static struct {
    unsigned long corrected[SHAPES], none[SHAPES], refused[CHECKS], both[CHECKS][CHECKS], weights[5], orders[2][MOST_M], other_word,
        limits[32], below_zero;
} tried;

static uint8_t *received(void)
{
    return own.received + GUARD;
}

/* ---- rings */

/* A word of H(m): of any message, and now and then of one that is nearly zero. */
static void strike(uint8_t *word)
{
    uint8_t lengths[4], message[64];
    size_t total = 0;
    unsigned zeros = chance(4) ? 8 : 1;
    second_ring_lengths(q, m, lengths);
    for (uint32_t j = 0; j < q; j++)
        total += lengths[j];
    for (size_t i = 0; i < total; i++)
        message[i] = (uint8_t)(below(zeros) ? 0 : below(q * q));
    second_ring_encode(q, m, message, total, word, q * q * q);
}

/* The word of (x + a)(x + b)…, with as many factors as m allows: it has as few symbols that are not zero as such a product can. */
static void light_word(uint8_t *word)
{
    uint32_t from = below(q * q), factors = m / q;
    for (uint32_t i = 0; i < q * q * q; i++) {
        unsigned v = 1;
        for (uint32_t f = 0; f < factors; f++)
            v = second_product(q, v, i / q ^ (from + f) % (q * q));
        word[i] = (uint8_t)v;
    }
}

static void make_wrong(uint32_t at)
{
    if (received()[at] == planted[at])
        received()[at] ^= (uint8_t)(1 + below(q * q - 1));
}

/* The y of the point at a place of the ring. */
static uint32_t ordinate(uint32_t at)
{
    uint32_t x = at / q, place = at % q, norm = 1;
    for (uint32_t i = 0; i <= q; i++)
        norm = second_product(q, norm, x);
    for (uint32_t y = 0;; y++) {
        uint32_t power = 1;
        for (uint32_t i = 0; i < q; i++)
            power = second_product(q, power, y);
        if ((power ^ y) == norm && !place--)
            return y;
    }
}

/* Makes symbols wrong in points of lines y = ax + b, so many of them at most. */
static void damage_lines(unsigned wrong)
{
    for (unsigned tries = 0; tries < 8 && wrong; tries++) {
        uint32_t a = below(q * q), b = below(q * q);
        for (uint32_t at = 0; at < q * q * q && wrong; at++)
            if (ordinate(at) == (second_product(q, a, at / q) ^ b) && received()[at] == planted[at])
                make_wrong(at), wrong--;
    }
}

/* Lays a ring of that shape; the limit is already known. */
static void lay_ring(int shape)
{
    uint32_t size = q * q * q, place = below(q), sector = below(q * q);
    unsigned wrong = chance(3) ? limit + below(3) : below(limit + 3);
    uint8_t light[64];
    strike(planted);
    memcpy(received(), planted, size);
    switch (shape) {
    case SCATTERED:
        for (wrong = wrong < size ? wrong : size; wrong; wrong--) {
            uint32_t at;
            do
                at = below(size);
            while (received()[at] != planted[at]);
            make_wrong(at);
        }
        break;
    case SECTORS:
        for (unsigned i = 0; i < wrong && i < size; i++)
            make_wrong((sector * q + i) % size);
        break;
    case ONE_PLACE:
        for (unsigned i = 0; i < wrong && i < q * q; i++)
            make_wrong((sector + i) % (q * q) * q + place);
        break;
    case LINES: damage_lines(wrong); break;
    case BETWEEN:
        light_word(light);
        for (unsigned i = 0, of = 2 + below(2); i < size; i++)
            if (chance(of))
                received()[i] ^= light[i];
        break;
    default:
        for (unsigned i = 0; i < size; i++)
            received()[i] = (uint8_t)below(q * q);
    }
}

/* ---- calls */

/* One bit a check of `faults`: what makes that check refuse the call. Of 11 and 18 together, some k is q² for an m that is too large. */
static void spoil(unsigned faults)
{
    static const uint32_t sizes[] = {0, 1, 3, 3, 3, 5, 6, 8, 258, 260, 0x80000002u, 0xFFFFFFFFu};
    if (faults & 1)
        q = sizes[faults & 4 ? 2 : below(sizeof sizes / sizeof *sizes)];
    if ((faults & 6) == 6)
        m = q * q * q + 1 + below(q);
    else if (faults & 4)
        m = q * q * q - 1 - below(q);
    else if (faults & 2)
        m = chance(3) ? below(q * q - 1) : chance(2) ? q * q * q + below(40) : chance(2) ? m + 256 : 0xFFFFFFFFu - below(2);
    if (faults & 8)
        switch (below(5)) {
        case 0: received_length += chance(2) ? 1 : (size_t)-1; break;
        case 1: answer_length += chance(2) ? 1 : (size_t)-1; break;
        case 2: flags_length += chance(2) ? 1 : (size_t)-1; break;
        case 3: flags_length = q < 5 ? q * q : 3; break;
        default: space_length = SECOND_SPACE - 1 - below(3);
        }
    if (faults & 16)
        received()[below((unsigned)received_length)] = (uint8_t)(chance(2) && q < 5 ? q * q : 255 - below(200));
    if (faults & 32)
        limit = chance(2) ? limit + 1 : chance(2) ? limit + 256 : 0xFFFFFFFFu - below(3);
}

/* Whether a check refuses the call, whatever the checks before it do. */
static int refuses(unsigned check)
{
    uint64_t n = q, bad = 0;
    switch (check) {
    case 10: return q != 2 && q != 4;
    case 11: return m + 1 < n * n || m > n * n * n - 1;
    case 18:
        for (uint64_t j = 0; n && j < n && j * (n + 1) <= m; j++)
            bad |= (m - j * (n + 1)) / n + 1 == n * n;
        return bad != 0;
    case 5:
        return received_length != n * n * n || answer_length != n * n * n || flags_length != n * n * n || space_length < GREN_SPACE;
    case 7:
        for (size_t i = 0; i < received_length; i++)
            bad |= received()[i] >= n * n;
        return bad != 0;
    default: return (uint64_t)m + 1 + n * (n - 1) / 2 + 2 * (uint64_t)limit > n * n * n;
    }
}

/* The first check that refuses the call, as a place in the list; counts it and what else refuses. */
static int first_refusal(void)
{
    int first = 0;
    while (first < CHECKS && !refuses(checks[first]))
        first++;
    for (int other = first + 1; other < CHECKS; other++)
        tried.both[first][other] += refuses(checks[other]) != 0;
    if (first < CHECKS)
        tried.refused[first]++;
    tried.below_zero += first == CHECKS - 1 && !limit;
    return first;
}

/* The ending of a call that is not refused is right by itself: the answer is a word, flags and detail are its wrong symbols, the
 * space is cleared and all else is as it was; a word within the limit was found. */
static int ended_well(uint32_t answer, int shape)
{
    uint32_t size = q * q * q, wrong = 0, from_planted = 0;
    uint8_t message[64], lengths[4];
    size_t total = 0;
    struct lent expected = before;
    second_ring_lengths(q, m, lengths);
    for (uint32_t j = 0; j < q; j++)
        total += lengths[j];
    memset(expected.space + GUARD, 0, GREN_SPACE);
    for (uint32_t i = 0; i < size; i++)
        from_planted += received()[i] != planted[i];
    if (shape < BETWEEN)
        tried.weights[!from_planted ? 0 : from_planted < limit ? 1 : from_planted - limit < 3 ? 2 + from_planted - limit : 4]++;
    tried.limits[limit]++;
    tried.orders[q == 4][m]++;
    if (gren_code(answer) == GREN_NONE) {
        tried.none[shape]++;
        return answer == 256 * GREN_NONE && from_planted > limit && !memcmp(&own, &expected, sizeof own);
    }
    for (uint32_t i = 0; i < size; i++) {
        expected.answer[GUARD + i] = own.answer[GUARD + i];
        expected.flags[GUARD + i] = own.answer[GUARD + i] != received()[i];
        wrong += expected.flags[GUARD + i];
    }
    int as_struck = !memcmp(own.answer + GUARD, planted, size);
    tried.corrected[shape]++;
    tried.other_word += !as_struck;
    return answer == 256 + wrong && wrong <= limit && (as_struck || from_planted > limit)
           && gren_ring_read(q, m, own.answer + GUARD, size, message, total) == GREN_DONE && !memcmp(&own, &expected, sizeof own);
}

/* Lends a call its memory: a part of the dirt, from any place on, and the ring. */
static int random_call(void)
{
    int shape = (int)below(SHAPES);
    memcpy(&own, dirt + below(sizeof own), sizeof own);
    q = chance(3) ? 2 : 4;
    m = q * q - 1 + below(q * q * q - q * q - q + 1);
    if (q == 4 && chance(4))
        m = 37;
    int most = second_pits_limit(q, m);
    limit = most < 0 ? 0 : chance(2) ? (uint32_t)most : below((unsigned)most + 1);
    lay_ring(shape);
    received_length = answer_length = flags_length = q * q * q, space_length = SECOND_SPACE + below(SPARE);
    if (chance(2))
        return shape;
    if (most >= 0)
        limit = (uint32_t)most; /* so that one more is refused */
    unsigned faults = 1u << below(CHECKS);
    spoil(chance(3) ? faults : faults | 1u << below(CHECKS));
    return shape;
}

static int compare_call(void)
{
    int shape = random_call();
    second = before = own;
    int refusal = first_refusal();
    uint32_t a = gren_ring_decode_pits(q, m, limit, received(), received_length, own.answer + GUARD, answer_length, own.flags + GUARD,
                                       flags_length, own.space + GUARD, space_length);
    uint32_t b = second_ring_decode_pits(q, m, limit, second.received + GUARD, received_length, second.answer + GUARD, answer_length,
                                         second.flags + GUARD, flags_length, second.space + GUARD, space_length);
    int well = refusal < CHECKS ? a == checks[refusal] && !memcmp(&own, &before, sizeof own) : ended_well(a, shape);
    if (well && a == b && !memcmp(&own, &second, sizeof own))
        return 1;
    printf("pits: q %u, m %u, limit %u: the library answers %u, the second program %u, or a buffer is not as it must be; received", q, m,
           limit, a, b);
    for (size_t i = 0; i < received_length; i++)
        printf(" %u", before.received[GUARD + i]);
    printf("\n");
    return 0;
}

/* ---- all */

static unsigned long count = 3000;
static uint64_t seed = 20261116;

static void start(uint64_t place)
{
    state = place * 0x9E3779B97F4A7C15u;
    for (int warm = 0; warm < 4; warm++)
        next();
}

static int compare_half(unsigned half)
{
    for (unsigned long i = half; i < count; i += 2) {
        start(seed + i + 1);
        if (!compare_call()) {
            printf("pits: call %lu of seed %llu FAILED\n", i, (unsigned long long)seed);
            return 0;
        }
    }
    return 1;
}

/* Prints a count; answers whether it is zero. */
static int none_of(const char *name, unsigned long n)
{
    printf(" %s %lu", name, n);
    return !n;
}

static int print_counts(void)
{
    static const char *const weights[] = {"0:", "below the limit:", "at it:", "one above:", "two above:"};
    int missing = 0;
    printf("pits: %lu calls of seed %llu agree; corrected:", count, (unsigned long long)seed);
    for (int shape = 0; shape < SHAPES; shape++)
        missing |= none_of(shapes[shape], tried.corrected[shape]) && shape != ANY;
    printf(", to another word than was struck: %lu; none:", tried.other_word);
    for (int shape = 0; shape < SHAPES; shape++)
        missing |= none_of(shapes[shape], tried.none[shape]);
    printf("\npits: wrong symbols");
    for (int weight = 0; weight < 5; weight++)
        missing |= none_of(weights[weight], tried.weights[weight]);
    printf("; every m and every limit: ");
    for (unsigned order = 3; order <= 57; order++)
        missing |= (order <= 5 && !tried.orders[0][order]) || (order >= 15 && !tried.orders[1][order]);
    for (int most = 0; most <= second_pits_limit(4, 15); most++)
        missing |= !tried.limits[most];
    printf("%s; refused", missing ? "NO" : "yes");
    for (int check = 0; check < CHECKS; check++) {
        printf(" %u: %lu", checks[check], tried.refused[check]);
        missing |= !tried.refused[check];
        for (int other = check + 1; other < CHECKS; other++) {
            printf("%s%u: %lu%s", other == check + 1 ? " (with " : ", ", checks[other], tried.both[check][other],
                   other == CHECKS - 1 ? ")" : "");
            missing |= !tried.both[check][other];
        }
    }
    printf(", of them with limit 0: %lu\n", tried.below_zero);
    missing |= !tried.below_zero;
    if (missing && count >= 3000)
        printf("pits: something was never tried: a count is 0\n");
    return missing && count >= 3000;
}

int main(int argc, char **argv)
{
    count = argc > 1 ? strtoul(argv[1], NULL, 10) : count;
    seed = argc > 2 ? strtoull(argv[2], NULL, 10) : seed;
    start(seed);
    for (size_t i = 0; i < sizeof dirt; i++)
        dirt[i] = (uint8_t)(1 + below(255));
    return in_halves(compare_half, (unsigned long *)&tried, sizeof tried / sizeof(unsigned long)) ? print_counts() : 1;
}
