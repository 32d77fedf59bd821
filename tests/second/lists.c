/* Compares the lists of the static library with the second program, with all code arrays of small codes, and with the joint decoder:
 * random codes, arrays, limits and rooms, every refusal, every received array of some codes over GF(4), and the marks that docs/COURSE.md
 * lists. The room has guard bytes around it, and all of it is compared.
 *
 *   lists [COUNT [SEED]]
 */
#include "grenhyrna.h"
#include "random.h"
#include "second.h"

#include <stdio.h>
#include <stdlib.h>
#include <string.h>

enum { GUARD = 64, COLUMNS = 16, SYMBOLS = 64, ROOM = 4096, MOST_ARRAYS = 70000 };

static uint8_t lengths[5], points[98], factors[98], received[SYMBOLS + 1], own[GUARD + ROOM + GUARD], other[sizeof own];
static uint32_t degree, limit;
static size_t rows, columns, factor_count, received_length, room_length;
static struct {
    unsigned long refusals[32], empty, one, several, room[4], cut, whole, endings[5], searched, wide, all, beyond;
} tried;

static size_t total_length(void)
{
    size_t sum = 0;
    for (size_t l = 0; l < rows; l++)
        sum += lengths[l];
    return sum;
}

/* A code, and a received array: a code array with some columns wrong, or an arbitrary one. */
static void random_call(void)
{
    degree = (uint32_t[]){2, 2, 4, 4, 8}[below(5)];
    int wide = degree > 2 && chance(150);
    rows = 1 + below(wide ? 2 : 4);
    columns = degree == 2 ? 2 + below(3) : wide ? COLUMNS : 2 + below(6);
    for (size_t l = 0; l < rows; l++)
        lengths[l] = (uint8_t)(1 + below(chance(2) ? 1 : (unsigned)columns - 1));
    unsigned symbols = 1u << degree, shift = below(symbols);
    for (size_t i = 0; i < columns; i++)
        points[i] = (uint8_t)(((degree == 2 ? i : i * 7) + shift) % symbols), factors[i] = (uint8_t)(1 + below(symbols - 1));
    if (chance(3))
        memset(factors, 1, columns);
    unsigned joint = second_joint_limit(lengths, rows, columns);
    limit = chance(2) ? joint : below(joint + 1);
    if (wide && limit > 3)
        limit = 1 + below(3);
    uint8_t message[SYMBOLS];
    for (size_t i = 0; i < total_length(); i++)
        message[i] = (uint8_t)below(symbols);
    second_mark_encode(degree, lengths, rows, points, columns, factors, columns, message, total_length(), received, rows * columns);
    for (size_t wrong = chance(5) ? 4 * columns : below(limit + 2); wrong; wrong--)
        for (size_t at = below((unsigned)columns), l = 0; l < rows; l++)
            if (chance(2))
                received[l * columns + at] = (uint8_t)below(symbols);
    factor_count = columns, received_length = rows * columns;
    room_length = rows * columns * (chance(2) ? below(4) : below((unsigned)(ROOM / (rows * columns)) + 1));
    tried.wide += wide;
}

/* One thing wrong, or two: the first in the order of checking is the answer. */
static void spoil(void)
{
    for (unsigned turns = 1 + chance(2); turns; turns--)
        switch (below(13)) {
        case 0: degree = below(10); break;
        case 1: rows = chance(2) ? 0 : 5; break;
        case 2: columns = chance(2) ? 0 : 97; break;
        case 3: columns = 17 + below(80); break;
        case 4: lengths[0] = (uint8_t)(chance(2) ? 0 : columns + 1); break;
        case 5: lengths[0] = (uint8_t)columns; break;
        case 6: received_length += chance(2) ? (size_t)-1 : 1; break;
        case 7: factor_count += chance(2) ? (size_t)-1 : 1; break;
        case 8: room_length += 1 + below(2); break;
        case 9: points[0] = chance(2) ? points[1] : (uint8_t)next(); break;
        case 10: factors[0] = chance(2) ? 0 : (uint8_t)next(); break;
        case 11: received[0] = (uint8_t)next(); break;
        default: limit += 1 + below(98);
        }
}

static int wrong_at(const uint8_t *array, size_t i)
{
    for (size_t l = 0; l < rows; l++)
        if (array[l * columns + i] != received[l * columns + i])
            return 1;
    return 0;
}

static unsigned wrong_columns(const uint8_t *array)
{
    unsigned count = 0;
    for (size_t i = 0; i < columns; i++)
        count += (unsigned)wrong_at(array, i);
    return count;
}

/* The order of the list: fewer wrong columns first, and then by the first column that is wrong in one of them alone. */
static int earlier(const void *a, const void *b)
{
    unsigned p = wrong_columns(a), q = wrong_columns(b);
    if (p != q)
        return p < q ? -1 : 1;
    for (size_t i = 0; i < columns; i++)
        if (wrong_at(a, i) != wrong_at(b, i))
            return wrong_at(a, i) ? -1 : 1;
    return 0;
}

/* The list by a search over all messages, in the room; the answer. */
static uint32_t search(uint8_t *room)
{
    static uint8_t found[MOST_ARRAYS * SYMBOLS];
    uint8_t message[SYMBOLS] = {0}, *at = found;
    size_t symbols = rows * columns, length = total_length(), place = 0, count;
    do {
        second_mark_encode(degree, lengths, rows, points, columns, factors, columns, message, length, at, symbols);
        if (wrong_columns(at) <= limit)
            at += symbols;
        for (place = 0; place < length && !(message[place] = (uint8_t)((message[place] + 1u) % (1u << degree))); place++)
            ;
    } while (place < length);
    count = (size_t)(at - found) / symbols;
    qsort(found, count, symbols, earlier);
    memcpy(room, found, count * symbols < room_length ? count * symbols : room_length);
    return (uint32_t)(256 + count);
}

/* Whether what decoding answers agrees with the list of so many arrays, of which the room has the first. */
static int agrees(uint32_t total, const uint8_t *room)
{
    static uint8_t answer[SYMBOLS], flags[COLUMNS], space[GREN_SPACE];
    size_t symbols = rows * columns, here = room_length / symbols;
    uint32_t end = gren_mark_decode(degree, lengths, rows, points, columns, factors, factor_count, limit, received, received_length,
                                    answer, symbols, flags, columns, space, sizeof space);
    tried.endings[gren_code(end)]++;
    int safe = limit <= second_safe_limit(lengths, rows, columns);
    tried.beyond += !safe && total && gren_code(end) != GREN_CORRECTED;
    if (gren_code(end) != GREN_CORRECTED)
        return gren_code(end) != GREN_REFUSED && (!total || (gren_code(end) != GREN_NONE && !safe));
    int ok = total >= 1 && (!here || !memcmp(room, answer, symbols));
    for (size_t i = 1; i < here && i < total; i++)
        ok &= wrong_columns(room + i * symbols) > gren_detail(end);
    return ok;
}

static void count_list(uint32_t total)
{
    size_t here = room_length / (rows * columns);
    tried.empty += !total, tried.one += total == 1, tried.several += total > 1;
    tried.room[here < 3 ? here : 3]++;
    tried.cut += total > here, tried.whole += total && total <= here;
}

/* One call, by all who can answer it. */
static int listed(void)
{
    for (size_t i = 0; i < sizeof own; i++)
        own[i] = (uint8_t)(1 + below(255));
    memcpy(other, own, sizeof own);
    uint8_t before[SYMBOLS + 1];
    memcpy(before, received, sizeof before);
    uint32_t a = gren_mark_list(degree, lengths, rows, points, columns, factors, factor_count, limit, received, received_length,
                                own + GUARD, room_length);
    uint32_t b = second_mark_list(degree, lengths, rows, points, columns, factors, factor_count, limit, received, received_length,
                                  other + GUARD, room_length);
    int ok = a == b && !memcmp(own, other, sizeof own) && !memcmp(before, received, sizeof before);
    if (a < 256)
        tried.refusals[a % 32]++;
    else {
        count_list(a - 256);
        ok &= agrees(a - 256, own + GUARD);
        size_t bits = total_length() * degree;
        if (bits <= 12) {
            ok &= search(other + GUARD) == a && !memcmp(own, other, sizeof own);
            tried.searched++;
        }
    }
    if (!ok)
        printf("lists: the library answers %u, the second program %u, or another list, or the room differs\n", a, b);
    return ok;
}

/* The mark of a sample, a record that is whole, and what listing it answers; the first wrong columns of its list are the given ones. */
static int sample(const char *path, uint32_t answer, size_t wrong)
{
    uint8_t bytes[256], *at = bytes + 5;
    FILE *file = fopen(path, "rb");
    size_t got = file ? fread(bytes, 1, sizeof bytes, file) : 0;
    if (file)
        fclose(file);
    degree = bytes[2], rows = bytes[3], columns = factor_count = bytes[4], received_length = rows * columns;
    if (got < 5 || got != 6 + rows + columns + received_length)
        return printf("lists: %s is no sample of one mark\n", path), 0;
    memcpy(lengths, at, rows), limit = at[rows], at += rows + 1;
    memcpy(points, at, columns), at += columns;
    memcpy(received, at, received_length), memset(factors, 1, columns);
    room_length = 10 * received_length;
    if (!listed())
        return 0;
    uint32_t a = gren_mark_list(degree, lengths, rows, points, columns, factors, columns, limit, received, received_length, own + GUARD,
                                room_length);
    size_t first = 0;
    while (a > 256 && !wrong_at(own + GUARD, first))
        first++;
    if (a != answer || (a > 256 && first != wrong))
        return printf("lists: %s: answer %u, the first wrong column of its first array %zu\n", path, a, first), 0;
    return 1;
}

/* Every received array of a code over GF(4) with one or two rows, at every limit. */
static int exhaustive(size_t r, size_t n, uint8_t k, uint8_t j)
{
    degree = 2, rows = r, columns = n, lengths[0] = k, lengths[1] = j, factor_count = n, received_length = r * n;
    for (size_t i = 0; i < n; i++)
        points[i] = (uint8_t)(3 - i), factors[i] = (uint8_t)(1 + i % 3);
    for (unsigned long number = 0; number < 1ul << 2 * r * n; number++)
        for (limit = 0; limit <= second_joint_limit(lengths, rows, columns); limit++) {
            for (size_t i = 0; i < r * n; i++)
                received[i] = (uint8_t)(number >> 2 * i & 3);
            room_length = r * n * (number % 5);
            if (!listed())
                return 0;
            tried.all++;
        }
    return 1;
}

int main(int argc, char **argv)
{
    unsigned long count = argc > 1 ? strtoul(argv[1], NULL, 10) : 3000;
    state = argc > 2 ? strtoul(argv[2], NULL, 10) : 20261116;
    for (unsigned long call = 0; call < count; call++) {
        random_call();
        if (chance(3))
            spoil();
        if (!listed())
            return 1;
    }
    if (!exhaustive(1, 3, 1, 1) || !exhaustive(1, 4, 1, 1) || !exhaustive(1, 4, 2, 1) || !exhaustive(2, 3, 1, 1) || !exhaustive(2, 3, 2, 1))
        return 1;
    if (!sample("samples/several.bin", 258, 0) || !sample("samples/several_one.bin", 257, 0) || !sample("samples/several_none.bin", 256, 0)
        || !sample("samples/hollow_near.bin", 266, 0))
        return 1;
    static const unsigned numbers[] = {1, 2, 3, 21, 4, 18, 5, 22, 6, 23, 7, 8};
    int met = tried.empty && tried.one && tried.several && tried.cut && tried.whole && tried.searched && tried.wide && tried.beyond;
    printf("lists: %lu random calls and %lu of every array of five codes over GF(4), as the second program; %lu as a search over all "
           "messages; none %lu, one %lu, more %lu; room for 0, 1, 2, more: %lu, %lu, %lu, %lu; decoded: corrected %lu, none %lu, several "
           "%lu, hollow %lu; refused:",
           count, tried.all, tried.searched, tried.empty, tried.one, tried.several, tried.room[0], tried.room[1], tried.room[2],
           tried.room[3], tried.endings[1], tried.endings[2], tried.endings[3], tried.endings[4]);
    for (size_t i = 0; i < sizeof numbers / sizeof *numbers; i++) {
        met &= tried.refusals[numbers[i]] > 0;
        printf(" %u %lu", numbers[i], tried.refusals[numbers[i]]);
    }
    printf("\n");
    for (size_t i = 0; i < 4; i++)
        met &= tried.room[i] > 0 && tried.endings[i + 1] > 0;
    if (!met)
        printf("lists: not everything was met: more calls are needed\n");
    return met ? 0 : 1;
}
