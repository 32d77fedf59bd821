/* The calls of the comparing program (crates/compared), and what it is to write: the named cases; then frames of random calls, right
 * and wrong ones, over all fields, then such with lost columns, all with factors of one; then such with factors; then rows read by their
 * powers; then rings by their wrong symbols. The answers are the second program's, and in a named case they must be the expected ones.
 *
 *   compared in|out FILE CASES
 */
#include "cases.h"
#include "frame.h"
#include "random.h"

enum { CALLS = 600, LOST_CALLS = 240, FACTOR_CALLS = 240, POWER_CALLS = 240, PIT_CALLS = 180 };

/* A length that is right but now and then. */
static size_t spoilt(size_t length)
{
    return chance(40) ? length + 1 : chance(40) && length ? length - 1 : length;
}

static void set_lengths(size_t lengths, size_t points, size_t symbols, size_t result, size_t flags)
{
    frame[6] = (uint8_t)lengths;
    frame[7] = (uint8_t)points;
    set_number(8, spoilt(symbols));
    set_number(10, spoilt(result));
    frame[12] = (uint8_t)spoilt(flags);
    frame[13] = (uint8_t)(chance(40) ? below(8) : 8 + below(248));
}

static void random_symbols(unsigned size)
{
    for (size_t i = 0; i < 385; i++)
        frame[SYMBOLS + i] = (uint8_t)below(size);
}

/* Damages some columns of an array, or some sectors of a ring, whose symbols lie `apart` from each other. */
static void damage(unsigned columns, unsigned rows, unsigned across, unsigned down, unsigned most, unsigned size)
{
    for (unsigned wrong = below(most + 2); wrong; wrong--) {
        unsigned i = below(columns);
        for (unsigned l = 0; l < rows; l++)
            if (chance(2))
                frame[SYMBOLS + i * across + l * down] = (uint8_t)below(size);
    }
    if (chance(6))
        random_symbols(size);
}

/* Lays a list of lost columns, good or bad; answers how many columns remain, and all of them where the list is bad. */
static unsigned lose(unsigned columns, unsigned largest)
{
    uint8_t order[24];
    unsigned most = columns - largest, count = below((most < MOST_LOST ? most : MOST_LOST) + 1), bad = 0;
    for (unsigned i = 0; i < 24; i++)
        order[i] = (uint8_t)(i % columns);
    for (unsigned i = columns; i > 1; i--) {
        unsigned j = below(i);
        uint8_t swap = order[i - 1];
        order[i - 1] = order[j];
        order[j] = swap;
    }
    switch (below(16)) {
    case 0: count = 0; break;
    case 1:
        for (unsigned i = 0; i < count; i++)
            order[i] = (uint8_t)(columns - 1 - i);
        break;
    case 2: count = most; break;
    case 3: count = most + 1 + below(columns - most), bad = 1; break;
    case 4: order[count] = order[0], order[count + 1] = order[0], count += 2, bad = 1; break;
    case 5: order[count++] = (uint8_t)(chance(2) ? columns : 255), bad = 1; break;
    case 6: count = columns + 1, bad = 1; break;
    default: break;
    }
    count = count < MOST_LOST ? count : MOST_LOST;
    frame[LOST_COUNT] = (uint8_t)count;
    memcpy(frame + LOST, order, MOST_LOST);
    return bad ? columns : columns - count;
}

/* Any symbols in the lost columns, now and then one outside the field, and often any symbols everywhere. */
static void spoil_lost(unsigned columns, unsigned rows, unsigned across, unsigned down, unsigned size)
{
    if (frame[LOST_COUNT] && chance(4))
        random_symbols(size);
    for (unsigned z = 0; z < frame[LOST_COUNT]; z++)
        for (unsigned l = 0; l < rows && frame[LOST + z] < columns; l++)
            frame[SYMBOLS + frame[LOST + z] * across + l * down] = (uint8_t)(chance(60) ? next() : below(size));
}

/* Lays factors that are not zero. */
static void random_factors(unsigned columns, unsigned size)
{
    frame[FACTOR_COUNT] = (uint8_t)columns;
    for (unsigned i = 0; i < columns; i++)
        frame[FACTORS + i] = (uint8_t)(1 + below(size - 1));
}

/* Now and then a factor that is zero, outside the field, another than before, missing or spare. */
static void spoil_factors(unsigned columns, unsigned size)
{
    uint8_t *one = frame + FACTORS + below(columns);
    switch (below(20)) {
    case 0: *one = 0; break;
    case 1: *one = (uint8_t)(chance(2) ? size : 255); break;
    case 2: *one = (uint8_t)(1 + below(size - 1)); break;
    case 3: frame[FACTOR_COUNT]--; break;
    case 4: frame[FACTORS + frame[FACTOR_COUNT]++] = 1; break;
    default: break;
    }
}

static void mark_call(unsigned call, int with_factors)
{
    static const unsigned degrees[] = {2, 4, 8};
    unsigned degree = degrees[below(3)], size = 1u << degree, rows = 1 + below(4), columns = chance(40) ? 1 : 2 + below(size < 12 ? size - 1 : 11);
    if (degree == 8 && call < 2 && chance(4))
        columns = 60 + below(37);
    uint8_t ks[7], xs[97], message[385], array[384] = {0};
    size_t total = 0;
    for (unsigned l = 0; l < 7; l++)
        ks[l] = (uint8_t)(chance(80) ? columns : 1 + below(chance(2) && columns > 1 ? columns - 1 : (columns + 2) / 3));
    for (unsigned l = 0; l < rows; l++)
        total += ks[l];
    for (unsigned i = 0, used[256] = {0}; i < columns; i++) {
        do
            xs[i] = (uint8_t)below(size);
        while (used[xs[i]]++);
    }
    if (with_factors)
        random_factors(columns, size);
    else
        set_ones(columns);
    unsigned largest = 0;
    for (unsigned l = 0; l < rows; l++)
        largest = ks[l] > largest ? ks[l] : largest;
    unsigned limit = second_joint_limit(ks, rows, call == MARK_LOST ? lose(columns, largest) : columns);
    if (call < 2 || chance(2))
        limit = below(limit + 1);
    random_symbols(size);
    if (call > 0) {
        memcpy(message, frame + SYMBOLS, 385);
        second_mark_encode(degree, ks, rows, xs, columns, frame + FACTORS, columns, message, total, array, rows * columns);
        memcpy(frame + SYMBOLS, array, rows * columns);
        if (call >= 2)
            damage(columns, rows, 1, columns, limit, size);
        else if (chance(2))
            frame[SYMBOLS + below(rows * columns)] ^= (uint8_t)(1 + below(size - 1));
    }
    spoil_lost(columns, rows, 1, columns, size);
    frame[0] = (uint8_t)call;
    set_number(1, chance(40) ? below(600) : degree);
    set_number(3, chance(30) ? limit + 1 + below(300) : limit);
    memcpy(frame + LENGTHS, ks, 7);
    memcpy(frame + POINTS, xs, columns);
    set_lengths(rows, columns, call == 0 ? total : rows * columns, call == 1 ? total : rows * columns, columns);
    switch (below(50)) {
    case 0: frame[6] = (uint8_t)(chance(2) ? 0 : 5 + below(3)); break;
    case 1: frame[7] = (uint8_t)(chance(2) ? 0 : 97); break;
    case 2: frame[LENGTHS + below(rows)] = (uint8_t)(chance(2) ? 0 : columns + 1); break;
    case 3: frame[POINTS + below(columns)] = frame[POINTS]; break;
    case 4: frame[SYMBOLS + below((unsigned)(call == 0 ? total : rows * columns))] = (uint8_t)next(); break;
    default: break;
    }
    if (with_factors)
        spoil_factors(columns, size);
}

static void ring_call(unsigned call)
{
    unsigned q = chance(2) ? 2 : 4, columns = q * q, size = columns * q, m = columns - 1 + below(size - columns - q + 1);
    uint8_t ks[4], message[385], word[64];
    size_t total = 0;
    second_ring_lengths(q, m, ks);
    for (unsigned j = 0; j < q; j++)
        total += ks[j];
    unsigned limit = second_joint_limit(ks, q, call == RING_LOST ? lose(columns, ks[0]) : columns);
    if (chance(2))
        limit = below(limit + 1);
    random_symbols(columns);
    if (call > 3) {
        memcpy(message, frame + SYMBOLS, 385);
        second_ring_encode(q, m, message, total, word, size);
        memcpy(frame + SYMBOLS, word, size);
        if (call >= 5)
            damage(columns, q, q, 1, limit, columns);
        else if (chance(2))
            frame[SYMBOLS + below(size)] ^= (uint8_t)(1 + below(columns - 1));
    }
    spoil_lost(columns, q, q, 1, columns);
    frame[0] = (uint8_t)call;
    set_number(1, chance(40) ? below(600) : q);
    set_number(3, chance(30) ? limit + 1 + below(300) : limit);
    frame[5] = (uint8_t)(chance(30) ? below(256) : chance(30) ? size - 1 - below(q) : m);
    set_lengths(0, 0, call == 3 ? total : size, call == 4 ? total : size, columns);
    if (chance(40))
        frame[SYMBOLS + below((unsigned)(call == 3 ? total : size))] = (uint8_t)next();
}

/* A row read by its powers: nearly always one that its length and number of powers allow. */
static void powers_call(void)
{
    static const unsigned degrees[] = {2, 4, 8};
    unsigned degree = degrees[below(3)], size = 1u << degree, columns = 2 + below(size < 12 ? size - 1 : 11), powers = 1 + below(4),
             k = 1 + below((columns - 2) / powers + 1);
    uint8_t ks[4], length = (uint8_t)k, message[385], row[97] = {0};
    for (unsigned i = 0, used[256] = {0}; i < columns; i++) {
        do
            frame[POINTS + i] = (uint8_t)below(size);
        while (used[frame[POINTS + i]]++);
    }
    if (chance(2))
        random_factors(columns, size);
    else
        set_ones(columns);
    second_power_lengths(k, powers, ks);
    unsigned limit = second_joint_limit(ks, powers, columns);
    if (chance(4))
        limit = below(limit + 1);
    random_symbols(size);
    memcpy(message, frame + SYMBOLS, 385);
    second_mark_encode(degree, &length, 1, frame + POINTS, columns, frame + FACTORS, columns, message, k, row, columns);
    memcpy(frame + SYMBOLS, row, columns);
    damage(columns, 1, 1, 0, 2 * limit, size);
    frame[0] = MARK_POWERS;
    set_number(1, chance(40) ? below(600) : degree);
    set_number(3, chance(30) ? limit + 1 + below(300) : limit);
    set_lengths(0, columns, columns, columns, columns);
    set_number(K, chance(20) ? (chance(2) ? 0 : below(2) ? columns : 256 + k) : k);
    set_number(POWERS, chance(20) ? (chance(2) ? 0 : chance(2) ? 5 : 256 + powers) : chance(10) ? 1 + below(4) : powers);
    switch (below(40)) {
    case 0: frame[7] = (uint8_t)(chance(2) ? 0 : 97); break;
    case 1: frame[POINTS + below(columns)] = frame[POINTS]; break;
    case 2: frame[SYMBOLS + below(columns)] = (uint8_t)next(); break;
    default: break;
    }
    spoil_factors(columns, size);
}

/* A ring by its wrong symbols: a word with up to two more of them than the limit, anywhere. */
static void pits_call(void)
{
    unsigned q = chance(2) ? 2 : 4, columns = q * q, size = columns * q, m = columns - 1 + below(size - columns - q + 1);
    int most = second_pits_limit(q, m);
    unsigned limit = most < 0 ? 0 : chance(2) ? (unsigned)most : below((unsigned)most + 1);
    uint8_t ks[4], message[385], word[64];
    size_t total = 0;
    second_ring_lengths(q, m, ks);
    for (unsigned j = 0; j < q; j++)
        total += ks[j];
    random_symbols(columns);
    memcpy(message, frame + SYMBOLS, 385);
    second_ring_encode(q, m, message, total, word, size);
    memcpy(frame + SYMBOLS, word, size);
    for (unsigned wrong = chance(2) ? limit : below(limit + 3); wrong; wrong--)
        frame[SYMBOLS + below(size)] ^= (uint8_t)(1 + below(columns - 1));
    if (chance(8))
        random_symbols(columns);
    frame[0] = RING_PITS;
    set_number(1, chance(30) ? below(600) : q);
    set_number(3, chance(20) ? limit + 1 + below(300) : limit);
    set_number(5, chance(20) ? below(300) : chance(20) ? size - 1 - below(q) : m);
    set_number(8, spoilt(size));
    set_number(10, spoilt(size));
    frame[12] = (uint8_t)spoilt(size);
    frame[13] = (uint8_t)(chance(40) ? below(8) : 8 + below(248));
    if (chance(20))
        frame[SYMBOLS + below(size)] = (uint8_t)next();
}

static void random_call(unsigned i)
{
    static const uint8_t marks[] = {0, 1, 2, MARK_LOST};
    memset(frame, 0, sizeof frame);
    if (i >= CALLS + LOST_CALLS + FACTOR_CALLS + POWER_CALLS)
        pits_call();
    else if (i >= CALLS + LOST_CALLS + FACTOR_CALLS)
        powers_call();
    else if (i >= CALLS + LOST_CALLS)
        mark_call(marks[i % 4], 1);
    else if (i % 3 == 2)
        ring_call(i < CALLS ? 3 + i / 3 % 3 : RING_LOST);
    else
        mark_call(i < CALLS ? i / 3 % 3 : MARK_LOST, 0);
}

/* The frame, or its line, which is the expected one where there is one. */
static void put(FILE *to, int wants_input, const char *expected)
{
    char line[LINE];
    if (wants_input) {
        fwrite(frame, 1, FRAME, to);
        return;
    }
    answer(line);
    if (expected && strcmp(line, expected)) {
        fprintf(stderr, "compared: expected %sthe second program answers %sof %s", expected, line, text);
        exit(1);
    }
    fputs(line, to);
}

int main(int argc, char **argv)
{
    char expected[LINE];
    if (argc != 4 || (strcmp(argv[1], "in") && strcmp(argv[1], "out"))) {
        fprintf(stderr, "usage: compared in|out FILE CASES\n");
        return 2;
    }
    int wants_input = !strcmp(argv[1], "in");
    FILE *to = fopen(argv[2], "wb"), *cases = fopen(argv[3], "r");
    if (!to || !cases) {
        perror(to ? argv[3] : argv[2]);
        return 1;
    }
    while (next_case(cases, expected))
        put(to, wants_input, expected);
    state = 0x2545F4914F6CDD1Du;
    for (unsigned i = 0; i < CALLS + LOST_CALLS + FACTOR_CALLS + POWER_CALLS + PIT_CALLS; i++) {
        if (i == CALLS) /* from here each ending and each refusal comes about, of marks and of rings */
            state = 167 * 0x9E3779B97F4A7C15u;
        if (i == CALLS + LOST_CALLS) /* and from here each of marks with factors, the endings without lost columns and with them */
            state = 4 * 0x9E3779B97F4A7C15u;
        if (i == CALLS + LOST_CALLS + FACTOR_CALLS) /* and from here each of rows read by their powers */
            state = 51 * 0x9E3779B97F4A7C15u;
        if (i == CALLS + LOST_CALLS + FACTOR_CALLS + POWER_CALLS) /* and from here each of rings by their wrong symbols */
            state = 1 * 0x9E3779B97F4A7C15u;
        random_call(i);
        put(to, wants_input, NULL);
    }
    return fclose(to) ? 1 : 0;
}
