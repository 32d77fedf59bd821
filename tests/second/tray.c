/* Compares the tray of the static library with the second program, and each of its marks with a call for that mark alone: 1 to 64
 * marks, 0 and 65, every ending and 7 mixed, every mark refused, lengths one off, and each check that refuses a tray whole. Every buffer
 * has guard bytes around it, and all of it is compared.
 *
 *   tray [COUNT [SEED]]
 */
#include "grenhyrna.h"
#include "random.h"
#include "second.h"

#include <stdio.h>
#include <stdlib.h>
#include <string.h>

enum { GUARD = 64, MARKS = 65, SYMBOLS = 64, COLUMNS = 16, SPARE = 100 };

/* What a call leaves, three times: by the library, by the second program, and by the library a mark at a time. */
struct lent {
    uint32_t answers[GUARD + MARKS + GUARD];
    uint8_t arrays[GUARD + MARKS * SYMBOLS + GUARD], flags[GUARD + MARKS * COLUMNS + GUARD], space[GUARD + SECOND_SPACE + SPARE + GUARD];
};

static struct lent own, second, alone;
static uint8_t lengths[5], points[COLUMNS + 1], factors[COLUMNS + 1], received[MARKS * SYMBOLS + 1];
static uint32_t degree, limit;
static size_t rows, columns, marks, factor_count, received_length, arrays_length, flags_length, space_length;
static struct {
    unsigned long endings[5], whole[32], all_refused, full, single, rest;
} tried;

static void dirty(void *at, size_t bytes)
{
    for (size_t i = 0; i < bytes; i++)
        ((uint8_t *)at)[i] = (uint8_t)(1 + below(255));
}

/* A code, nearly always a good one. */
static void random_code(void)
{
    degree = (uint32_t[]){2, 4, 4, 4, 8}[below(5)];
    size_t most = degree == 2 ? 4 : COLUMNS;
    rows = 1 + below(4), columns = 2 + below((unsigned)most - 1);
    for (size_t l = 0; l < rows; l++)
        lengths[l] = (uint8_t)(1 + below((unsigned)columns - 1));
    for (size_t i = 0; i < columns; i++)
        points[i] = (uint8_t)((i * 5 + 3) % (degree == 2 ? 4 : 16)), factors[i] = (uint8_t)(1 + below((1u << degree) - 1));
    for (size_t i = 0; degree == 2 && i < columns; i++)
        points[i] = (uint8_t)i;
    limit = below(second_joint_limit(lengths, rows, columns) + 1);
    if (chance(3))
        limit = second_joint_limit(lengths, rows, columns);
}

/* A mark: a code array with some columns wrong, an arbitrary one, or one with a symbol outside the field. */
static void random_mark(uint8_t *mark, int bad)
{
    uint8_t message[SYMBOLS];
    size_t total = 0;
    for (size_t l = 0; l < rows; l++)
        total += lengths[l];
    for (size_t i = 0; i < total; i++)
        message[i] = (uint8_t)below(1u << degree);
    second_mark_encode(degree, lengths, rows, points, columns, factors, columns, message, total, mark, rows * columns);
    size_t wrong = chance(6) ? columns : below(limit + 2);
    for (size_t w = 0; w < wrong; w++)
        for (size_t at = below((unsigned)columns), l = 0; l < rows; l++)
            mark[l * columns + at] = (uint8_t)below(1u << degree);
    if (bad && degree < 8)
        mark[below((unsigned)(rows * columns))] = (uint8_t)((1u << degree) + below(256 - (1u << degree)));
}

static void random_tray(void)
{
    random_code();
    marks = chance(30) ? 0 : chance(30) ? 65 : chance(12) ? 64 : 1 + below(8);
    int all_bad = chance(20);
    for (size_t i = 0; i < marks; i++)
        random_mark(received + i * rows * columns, all_bad || chance(6));
    factor_count = columns, space_length = SECOND_SPACE + below(SPARE);
    received_length = arrays_length = marks * rows * columns, flags_length = marks * columns;
}

/* One thing wrong, or two: the first in the order of checking is the answer. */
static void spoil(void)
{
    for (unsigned turns = 1 + chance(3); turns; turns--)
        switch (below(14)) {
        case 0: degree = below(10); break;
        case 1: rows = chance(2) ? 0 : 5; break;
        case 2: columns = 0; break;
        case 3: lengths[below((unsigned)rows)] = 0; break;
        case 4: lengths[0] = (uint8_t)columns; break;
        case 5: marks = chance(2) ? 0 : 65; break;
        case 6: received_length += chance(2) && received_length ? (size_t)-1 : 1; break;
        case 7: arrays_length += chance(2) && arrays_length ? (size_t)-1 : 1; break;
        case 8: flags_length += chance(2) && flags_length ? (size_t)-1 : 1; break;
        case 9: space_length = SECOND_SPACE - 1; break;
        case 10: factor_count += chance(2) ? 1 : (size_t)-1; break;
        case 11: points[0] = points[columns - 1]; break;
        case 12: factors[0] = 0; break;
        default: limit = 97;
        }
}

static int tray(unsigned long call)
{
    dirty(&own, sizeof own);
    second = alone = own;
    uint32_t a = gren_tray_decode(degree, lengths, rows, points, columns, factors, factor_count, limit, received, received_length,
                                  own.answers + GUARD, marks, own.arrays + GUARD, arrays_length, own.flags + GUARD, flags_length,
                                  own.space + GUARD, space_length);
    uint32_t b = second_tray_decode(degree, lengths, rows, points, columns, factors, factor_count, limit, received, received_length,
                                    second.answers + GUARD, marks, second.arrays + GUARD, arrays_length, second.flags + GUARD,
                                    flags_length, second.space + GUARD, space_length);
    size_t symbols = rows * columns, refused = 0;
    for (size_t i = 0; a == GREN_DONE && i < marks; i++) {
        uint32_t c = gren_mark_decode(degree, lengths, rows, points, columns, factors, factor_count, limit, received + i * symbols,
                                      symbols, alone.arrays + GUARD + i * symbols, symbols, alone.flags + GUARD + i * columns, columns,
                                      alone.space + GUARD, space_length);
        alone.answers[GUARD + i] = c;
        tried.endings[gren_code(c)]++;
        refused += gren_code(c) == GREN_REFUSED;
        if (gren_code(c) == GREN_REFUSED && gren_detail(c) != GREN_BAD_SYMBOL)
            a = c;
    }
    if (a == GREN_DONE)
        memset(alone.space + GUARD, 0, GREN_SPACE);
    tried.whole[a == GREN_DONE ? 0 : a % 32]++;
    tried.all_refused += a == GREN_DONE && refused == marks;
    tried.full += a == GREN_DONE && marks == 64;
    tried.single += a == GREN_DONE && marks == 1;
    if (a == b && !memcmp(&own, &second, sizeof own) && !memcmp(&own, &alone, sizeof own))
        return 1;
    printf("tray: call %lu: the library answers %u, the second program %u, or a buffer differs from it or from single calls\n", call, a, b);
    return 0;
}

int main(int argc, char **argv)
{
    unsigned long count = argc > 1 ? strtoul(argv[1], NULL, 10) : 2000;
    state = argc > 2 ? strtoul(argv[2], NULL, 10) : 20261115;
    for (unsigned long call = 0; call < count; call++) {
        random_tray();
        if (chance(3))
            spoil();
        if (!tray(call))
            return 1;
    }
    static const unsigned numbers[] = {1, 2, 3, 4, 18, 15, 5, 6, 23, 8};
    int met = tried.all_refused && tried.full && tried.single;
    for (size_t i = 0; i < sizeof numbers / sizeof *numbers; i++)
        met &= tried.whole[numbers[i]] > 0;
    for (size_t i = 0; i < 5; i++)
        met &= tried.endings[i] > 0;
    printf("tray: %lu trays as the second program and as single calls; marks refused %lu, corrected %lu, none %lu, several %lu, hollow %lu;",
           count, tried.endings[0], tried.endings[1], tried.endings[2], tried.endings[3], tried.endings[4]);
    printf(" whole:");
    for (size_t i = 0; i < sizeof numbers / sizeof *numbers; i++)
        printf(" %u %lu", numbers[i], tried.whole[numbers[i]]);
    printf("; 64 marks %lu, one %lu, every mark refused %lu\n", tried.full, tried.single, tried.all_refused);
    if (!met)
        printf("tray: not everything was met: more calls are needed\n");
    return met ? 0 : 1;
}
