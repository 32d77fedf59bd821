/* How often a row is corrected by its powers: source document 000, section 3.3, Table 3.4, in GF(256). Codewords of random messages, at
 * random points, with exactly as many wrong symbols, at random places, as the joint limit of the powers. What comes about is reported;
 * that a row is corrected to another codeword is the one thing that is not to be.
 *
 *   powers [ROWS [SEED]]    ROWS rows of each code (default 20000)
 */
#include "grenhyrna.h"
#include "random.h"

#include <stdio.h>
#include <stdlib.h>
#include <string.h>

enum { DEGREE = 8, COLUMNS = 31 };

static const struct {
    uint8_t k;
    unsigned powers, wrong;
} codes[] = {{6, 2, 15}, {4, 3, 18}};
enum { CODES = sizeof codes / sizeof *codes };

static uint8_t points[COLUMNS], ones[COLUMNS], word[COLUMNS], received[COLUMNS], answer[COLUMNS], flags[COLUMNS], space[GREN_SPACE];

/* The first `count` of the numbers below `all`, in a random order. */
static void draw(uint8_t *list, unsigned count, unsigned all)
{
    uint8_t order[256];
    for (unsigned i = 0; i < all; i++)
        order[i] = (uint8_t)i;
    for (unsigned i = 0; i < count; i++) {
        unsigned j = i + below(all - i);
        list[i] = order[j];
        order[j] = order[i];
    }
}

/* One row of a code; its ending, and 0 where it is corrected to another codeword or refused. */
static uint32_t one_row(int code)
{
    uint8_t message[COLUMNS], places[COLUMNS], k = codes[code].k;
    draw(points, COLUMNS, 1u << DEGREE);
    for (unsigned i = 0; i < k; i++)
        message[i] = (uint8_t)below(1u << DEGREE);
    gren_mark_encode(DEGREE, &k, 1, points, COLUMNS, ones, COLUMNS, message, k, word, COLUMNS);
    memcpy(received, word, COLUMNS);
    draw(places, codes[code].wrong, COLUMNS);
    for (unsigned i = 0; i < codes[code].wrong; i++)
        received[places[i]] ^= (uint8_t)(1 + below(255));
    uint32_t end = gren_mark_decode_powers(DEGREE, k, codes[code].powers, points, COLUMNS, ones, COLUMNS, codes[code].wrong, received,
                                           COLUMNS, answer, COLUMNS, flags, COLUMNS, space, sizeof space);
    return gren_code(end) == GREN_CORRECTED && memcmp(answer, word, COLUMNS) ? 0 : gren_code(end);
}

int main(int argc, char **argv)
{
    unsigned long rows = argc > 1 ? strtoul(argv[1], NULL, 10) : 20000, bad = 0;
    state = (argc > 2 ? strtoull(argv[2], NULL, 10) : 20261116) * 0x9E3779B97F4A7C15u;
    memset(ones, 1, sizeof ones);
    for (int code = 0; code < CODES; code++) {
        unsigned long ends[5] = {0};
        for (unsigned long i = 0; i < rows; i++)
            ends[one_row(code)]++;
        printf("powers: n = %d, k = %u, half the distance %u; %u powers, %u wrong: %lu rows, corrected %lu, several %lu, hollow %lu; not "
               "corrected %.2f of 1,000\n",
               COLUMNS, codes[code].k, (COLUMNS - codes[code].k) / 2, codes[code].powers, codes[code].wrong, rows, ends[1], ends[3],
               ends[4], 1000.0 * (double)(rows - ends[1]) / (double)rows);
        bad += ends[0] + ends[2];
    }
    return bad != 0;
}
