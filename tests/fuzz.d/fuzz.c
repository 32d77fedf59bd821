/* Feeds the C functions arbitrary numbers and bytes. Every buffer lies between two pages that cannot be touched, at the front of its
 * room or at its end, so that a byte read or written outside stops the program. After each call what must be as it was is compared,
 * and the working space is looked at.
 *
 *   fuzz calls SECONDS SEED    calls for that long; prints how many, and how they ended
 *   fuzz stream SEED           writes records, damaged and cut, for the record program
 */
#define _DEFAULT_SOURCE
#include "grenhyrna.h"
#include "random.h"

#include <stdio.h>
#include <stdlib.h>
#include <string.h>
#include <sys/mman.h>
#include <time.h>
#include <unistd.h>

enum { LENGTHS, POINTS, FACTORS, LOST, INPUT, RESULT, FLAGS, ANSWERS, SPACE, BUFFERS };

static struct buffer {
    uint8_t *room, *at, *copy;
    size_t size, length;
} buffers[BUFFERS];

static void make_rooms(void)
{
    size_t page = (size_t)sysconf(_SC_PAGESIZE);
    for (int i = 0; i < BUFFERS; i++) {
        struct buffer *b = &buffers[i];
        b->size = i == SPACE ? 16 * 4096 : 4096;
        b->size = (b->size + page - 1) / page * page;
        uint8_t *all = mmap(NULL, b->size + 2 * page, PROT_NONE, MAP_PRIVATE | MAP_ANONYMOUS, -1, 0);
        b->copy = malloc(b->size);
        if (all == MAP_FAILED || !b->copy || mprotect(all + page, b->size, PROT_READ | PROT_WRITE)) {
            fprintf(stderr, "fuzz: no memory\n");
            exit(2);
        }
        b->room = all + page;
    }
}

static void lay(int i, size_t length, unsigned symbols)
{
    struct buffer *b = &buffers[i];
    b->length = length;
    b->at = chance(2) ? b->room : b->room + b->size - length;
    for (size_t k = 0; k < b->size; k += 8) {
        uint64_t noise = (uint64_t)next() << 32 | next();
        memcpy(b->room + k, &noise, 8);
    }
    for (size_t k = 0; k < length && i != SPACE; k++)
        b->at[k] = (uint8_t)below(chance(200) ? 256 : symbols);
    memcpy(b->copy, b->room, b->size);
}

static int as_lent(int i)
{
    return !memcmp(buffers[i].copy, buffers[i].room, buffers[i].size);
}

/* Nothing outside the buffer changed. */
static int inside(int i)
{
    struct buffer *b = &buffers[i];
    size_t front = (size_t)(b->at - b->room), back = front + b->length;
    return !memcmp(b->copy, b->room, front) && !memcmp(b->copy + back, b->room + back, b->size - back);
}

static int space_cleared(void)
{
    struct buffer *b = &buffers[SPACE];
    size_t front = (size_t)(b->at - b->room);
    for (size_t k = 0; k < GREN_SPACE; k++)
        if (b->at[k])
            return 0;
    return !memcmp(b->copy, b->room, front)
           && !memcmp(b->copy + front + GREN_SPACE, b->at + GREN_SPACE, b->size - front - GREN_SPACE);
}

static size_t any_length(size_t right, size_t most)
{
    size_t length = chance(12) ? below((unsigned)most + 1) : right;
    return length <= most ? length : most;
}

/* The ways of decoding, and how often each ended how. */
enum { NO_LIST, WITH_LIST, BY_POWERS, BY_SYMBOLS, WAYS };
static const char *const ways[WAYS] = {"with no list", "with lost columns", "by powers", "by wrong symbols"};
static unsigned long ends[WAYS][5], refused, refused_for_a_factor, done, trays, trays_refused, marks_ended[5], lists, listed;
static int on_mark; /* the call is on a mark: rings have no factors */

static int only_read(void)
{
    return as_lent(INPUT) && as_lent(POINTS) && as_lent(FACTORS) && as_lent(LENGTHS) && as_lent(LOST);
}

/* Each lost column has the flag 2, and as many of the others have 1 as are wrong; the rest have 0. */
static int flagged(uint32_t wrong)
{
    const struct buffer *flags = &buffers[FLAGS], *lost = &buffers[LOST];
    uint32_t ones = 0;
    for (size_t i = 0; i < flags->length; i++) {
        int gone = memchr(lost->at, (int)i, lost->length) != NULL;
        if (gone ? flags->at[i] != GREN_LOST : flags->at[i] > 1)
            return 0;
        ones += flags->at[i] == 1;
    }
    return ones == wrong;
}

static int decoded(int way, uint32_t r)
{
    uint32_t code = gren_code(r), detail = gren_detail(r);
    int ok = code <= GREN_HOLLOW && inside(RESULT) && inside(FLAGS) && only_read();
    if (code == GREN_REFUSED)
        ok &= ((detail >= 1 && detail <= 11 && detail != 9) || detail == 18 || (way == WITH_LIST && (detail == 16 || detail == 17))
               || (way == BY_POWERS && detail == GREN_BAD_POWERS) || (way == BY_SYMBOLS && detail == GREN_BAD_PITS)
               || (on_mark && detail == GREN_BAD_FACTOR))
              && as_lent(SPACE);
    else
        ok &= space_cleared() && (way != BY_SYMBOLS || code <= GREN_NONE);
    if (code == GREN_CORRECTED)
        ok &= flagged(detail);
    else
        ok &= as_lent(RESULT) && as_lent(FLAGS);
    if (ok)
        ends[way][code]++;
    refused_for_a_factor += r == GREN_BAD_FACTOR;
    return ok;
}

static int coded(uint32_t r)
{
    int ok = (r == GREN_DONE || (r >= 1 && r <= 11 && r != 8) || r == 18 || (on_mark && r == GREN_BAD_FACTOR)) && only_read();
    ok &= r == GREN_DONE ? inside(RESULT) : as_lent(RESULT);
    if (ok && r == GREN_DONE)
        done++;
    else
        refused++;
    refused_for_a_factor += r == GREN_BAD_FACTOR;
    return ok;
}

static uint32_t any_number(uint32_t usual)
{
    return chance(15) ? (chance(2) ? below(600) : next()) : usual;
}

/* Bytes for a list of lost columns, most of them a list that names none twice. */
static void lay_lost(int with_list, size_t columns)
{
    struct buffer *lost = &buffers[LOST];
    lay(LOST, with_list ? any_length(below((unsigned)columns / (chance(2) ? 1 : 4) + 1), 300) : 0, (unsigned)columns);
    int falling = chance(2);
    for (size_t i = 0; i < lost->length && !chance(60); i++)
        lost->at[i] = (uint8_t)(falling ? columns - 1 - i : i);
    memcpy(lost->copy, lost->room, lost->size);
}

/* Factors of one, or any, most of them not zero. */
static void lay_factors(size_t columns, unsigned symbols)
{
    struct buffer *factors = &buffers[FACTORS];
    lay(FACTORS, any_length(columns, 300), symbols);
    int ones = chance(3);
    for (size_t i = 0; i < factors->length; i++)
        if ((ones || !factors->at[i]) && !chance(200))
            factors->at[i] = 1;
    memcpy(factors->copy, factors->room, factors->size);
}

/* The description of a code: most of the time one that passes its checks. */
struct code {
    uint32_t degree;
    unsigned symbols;
    size_t rows, columns, total;
};

static struct code lay_code(void)
{
    static const uint32_t degrees[] = {2, 4, 8};
    struct code c = {degrees[below(3)], 0, 1 + below(4), 0, 0};
    c.symbols = 1u << c.degree;
    c.columns = 1 + below(c.symbols < 96 ? c.symbols : 96);
    lay(LENGTHS, any_length(c.rows, 300), 1 + (unsigned)c.columns);
    lay(POINTS, any_length(c.columns, 300), c.symbols);
    struct buffer *ks = &buffers[LENGTHS], *xs = &buffers[POINTS];
    for (size_t i = 0; i < xs->length && !chance(20); i++)
        xs->at[i] = (uint8_t)i;
    memcpy(xs->copy, xs->room, xs->size);
    lay_factors(c.columns, c.symbols);
    for (size_t l = 0; l < ks->length; l++) {
        if (!ks->at[l] && !chance(20))
            ks->at[l] = 1;
        c.total += ks->at[l];
    }
    memcpy(ks->copy, ks->room, ks->size);
    return c;
}

static int mark(int call)
{
    struct code c = lay_code();
    size_t columns = c.columns, rows = c.rows, total = c.total;
    uint32_t degree = c.degree;
    unsigned symbols = c.symbols;
    struct buffer *ks = &buffers[LENGTHS], *xs = &buffers[POINTS], *fs = &buffers[FACTORS], *y = &buffers[INPUT];
    struct buffer *a = &buffers[RESULT];
    size_t cells = rows * columns;
    uint32_t asked = any_number(degree);
    lay_lost(call == 3, columns);
    if (call == 0) {
        lay(INPUT, any_length(total, 1000), symbols);
        lay(RESULT, any_length(cells, 1000), 256);
        return coded(gren_mark_encode(asked, ks->at, ks->length, xs->at, xs->length, fs->at, fs->length, y->at, y->length, a->at,
                                      a->length));
    }
    lay(INPUT, any_length(cells, 1000), chance(3) ? 1 : chance(3) ? 2 : symbols);
    if (call == 1) {
        lay(RESULT, any_length(total, 1000), 256);
        return coded(gren_mark_read(asked, ks->at, ks->length, xs->at, xs->length, fs->at, fs->length, y->at, y->length, a->at,
                                    a->length));
    }
    lay(RESULT, any_length(cells, 1000), 256);
    lay(FLAGS, any_length(columns, 300), 256);
    lay(SPACE, chance(12) ? below(16 * 4096) : GREN_SPACE + below(100), 256);
    uint32_t limit = any_number(below((unsigned)columns));
    if (call == 2)
        return decoded(NO_LIST, gren_mark_decode(asked, ks->at, ks->length, xs->at, xs->length, fs->at, fs->length, limit, y->at, y->length,
                                           a->at, a->length, buffers[FLAGS].at, buffers[FLAGS].length, buffers[SPACE].at,
                                           buffers[SPACE].length));
    return decoded(WITH_LIST, gren_mark_decode_lost(asked, ks->at, ks->length, xs->at, xs->length, fs->at, fs->length, limit / 2,
                                            buffers[LOST].at, buffers[LOST].length, y->at, y->length, a->at, a->length,
                                            buffers[FLAGS].at, buffers[FLAGS].length, buffers[SPACE].at, buffers[SPACE].length));
}

/* A mark of a tray that was not refused: corrected, or its array and flags as they were; refused for a symbol alone. */
static int marked(size_t mark, size_t cells, size_t columns)
{
    const struct buffer *a = &buffers[RESULT], *f = &buffers[FLAGS];
    size_t array = (size_t)(a->at - a->room) + mark * cells, flags = (size_t)(f->at - f->room) + mark * columns;
    uint32_t r, ones = 0;
    memcpy(&r, buffers[ANSWERS].at + 4 * mark, 4);
    uint32_t code = gren_code(r);
    if (code > GREN_HOLLOW || (code == GREN_REFUSED && gren_detail(r) != GREN_BAD_SYMBOL))
        return 0;
    marks_ended[code]++;
    if (code != GREN_CORRECTED)
        return !memcmp(a->copy + array, a->room + array, cells) && !memcmp(f->copy + flags, f->room + flags, columns);
    for (size_t i = 0; i < columns; i++) {
        if (f->room[flags + i] > 1)
            return 0;
        ones += f->room[flags + i];
    }
    return ones == gren_detail(r);
}

/* A tray, with as many marks as the buffers' rooms hold. */
static int tray(void)
{
    struct code c = lay_code();
    size_t cells = c.rows * c.columns, most = 4000 / cells, marks = 1 + below(most < GREN_MOST_MARKS ? (unsigned)most : GREN_MOST_MARKS);
    size_t asked = any_length(marks, 70);
    struct buffer *ks = &buffers[LENGTHS], *xs = &buffers[POINTS], *fs = &buffers[FACTORS], *y = &buffers[INPUT];
    struct buffer *a = &buffers[RESULT], *f = &buffers[FLAGS], *s = &buffers[SPACE];
    lay_lost(0, c.columns);
    lay(INPUT, any_length(marks * cells, 4000), chance(3) ? 1 : chance(3) ? 2 : c.symbols);
    lay(RESULT, any_length(marks * cells, 4000), 256);
    lay(FLAGS, any_length(marks * c.columns, 4000), 256);
    lay(ANSWERS, 4 * asked, 256);
    lay(SPACE, chance(12) ? below(16 * 4096) : GREN_SPACE + below(100), 256);
    uint32_t r = gren_tray_decode(any_number(c.degree), ks->at, ks->length, xs->at, xs->length, fs->at, fs->length,
                                  any_number(below((unsigned)c.columns / 2 + 1)), y->at, y->length,
                                  (uint32_t *)(void *)buffers[ANSWERS].at, asked, a->at, a->length, f->at, f->length, s->at, s->length);
    trays++;
    refused_for_a_factor += r == GREN_BAD_FACTOR;
    int ok = inside(RESULT) && inside(FLAGS) && inside(ANSWERS) && only_read();
    if (r != GREN_DONE) {
        trays_refused++;
        return ok && ((r >= 1 && r <= 6) || r == 8 || r == GREN_BAD_MARKS || r == 18 || r == GREN_BAD_FACTOR) && as_lent(RESULT)
               && as_lent(FLAGS) && as_lent(ANSWERS) && as_lent(SPACE);
    }
    for (size_t k = 0; k < asked; k++)
        ok &= marked(k, cells, c.columns);
    return ok && space_cleared();
}

/* One row by its powers. */
static int row(void)
{
    static const uint32_t degrees[] = {2, 4, 8};
    uint32_t degree = degrees[below(3)], powers = 1 + below(4);
    unsigned symbols = 1u << degree;
    size_t most = symbols < 96 ? symbols : 96, columns = 1 + below((unsigned)most);
    uint32_t k = 1 + below((unsigned)columns / powers + 1);
    struct buffer *xs = &buffers[POINTS], *fs = &buffers[FACTORS], *y = &buffers[INPUT], *a = &buffers[RESULT];
    lay(LENGTHS, 0, 1);
    lay(POINTS, any_length(columns, 300), symbols);
    for (size_t i = 0; i < xs->length && !chance(20); i++)
        xs->at[i] = (uint8_t)i;
    memcpy(xs->copy, xs->room, xs->size);
    lay_factors(columns, symbols);
    lay_lost(0, columns);
    lay(INPUT, any_length(columns, 1000), chance(3) ? 1 : chance(3) ? 2 : symbols);
    lay(RESULT, any_length(columns, 1000), 256);
    lay(FLAGS, any_length(columns, 300), 256);
    lay(SPACE, chance(12) ? below(16 * 4096) : GREN_SPACE + below(100), 256);
    return decoded(BY_POWERS,
                   gren_mark_decode_powers(any_number(degree), any_number(k), any_number(powers), xs->at, xs->length, fs->at, fs->length,
                                           any_number(below((unsigned)columns / 2 + 1)), y->at, y->length, a->at, a->length,
                                           buffers[FLAGS].at, buffers[FLAGS].length, buffers[SPACE].at, buffers[SPACE].length));
}

/* Every array that fits, of a code that is nearly always a good one. */
static int list(void)
{
    static const uint32_t degrees[] = {2, 4, 8};
    uint32_t degree = degrees[below(3)], got;
    unsigned symbols = 1u << degree;
    size_t rows = 1 + below(4), columns = 2 + below(symbols < 6 ? symbols - 1 : 5), cells = rows * columns, most;
    struct buffer *ks = &buffers[LENGTHS], *xs = &buffers[POINTS], *fs = &buffers[FACTORS], *y = &buffers[INPUT], *a = &buffers[RESULT];
    lay(LENGTHS, any_length(rows, 8), 256);
    for (size_t l = 0; l < ks->length && !chance(20); l++)
        ks->at[l] = (uint8_t)(1 + below((unsigned)columns - 1));
    memcpy(ks->copy, ks->room, ks->size);
    lay(POINTS, any_length(columns, 300), symbols);
    for (size_t i = 0; i < xs->length && !chance(20); i++)
        xs->at[i] = (uint8_t)i;
    memcpy(xs->copy, xs->room, xs->size);
    lay_factors(columns, symbols);
    lay_lost(0, columns);
    lay(INPUT, any_length(cells, 1000), chance(3) ? 1 : chance(3) ? 2 : symbols);
    lay(RESULT, any_length(cells * below(4), 1000), 256);
    lay(FLAGS, 0, 1);
    lay(SPACE, 0, 1);
    got = gren_mark_list(any_number(degree), ks->at, ks->length, xs->at, xs->length, fs->at, fs->length,
                         any_number(below((unsigned)columns / 2 + 1)), y->at, y->length, a->at, a->length);
    most = ks->length && xs->length ? a->length / (ks->length * xs->length) : 0;
    lists++, listed += got > 256;
    /* a refusal, or a list without an array, leaves the room as it was; and so does a room without a place */
    return only_read() && got <= 256 + 65536 && (got > 256 && most ? 1 : as_lent(RESULT));
}

static int ring(int call)
{
    uint32_t q = chance(2) ? 2 : 4, size = q * q * q, m = q * q - 1 + below(size - q * q + 1);
    size_t total = 0;
    for (uint32_t j = 0; j < q; j++)
        total += (m - j * (q + 1)) / q + 1;
    lay(LENGTHS, 0, 1);
    lay(POINTS, 0, 1);
    lay(FACTORS, 0, 1);
    lay_lost(call == 3, q * q);
    struct buffer *y = &buffers[INPUT], *a = &buffers[RESULT];
    uint32_t asked = any_number(q), order = any_number(m);
    lay(INPUT, any_length(call == 0 ? total : size, 300), chance(3) ? 1 : q * q);
    lay(RESULT, any_length(call == 1 ? total : size, 300), 256);
    if (call == 0)
        return coded(gren_ring_encode(asked, order, y->at, y->length, a->at, a->length));
    if (call == 1)
        return coded(gren_ring_read(asked, order, y->at, y->length, a->at, a->length));
    lay(FLAGS, any_length(call == 4 ? size : q * q, 300), 256);
    lay(SPACE, chance(12) ? below(16 * 4096) : GREN_SPACE + below(100), 256);
    uint32_t limit = any_number(below(8));
    if (call == 4)
        return decoded(BY_SYMBOLS, gren_ring_decode_pits(asked, order, limit, y->at, y->length, a->at, a->length, buffers[FLAGS].at,
                                                         buffers[FLAGS].length, buffers[SPACE].at, buffers[SPACE].length));
    if (call == 2)
        return decoded(NO_LIST, gren_ring_decode(asked, order, limit, y->at, y->length, a->at, a->length, buffers[FLAGS].at,
                                           buffers[FLAGS].length, buffers[SPACE].at, buffers[SPACE].length));
    return decoded(WITH_LIST, gren_ring_decode_lost(asked, order, limit / 2, buffers[LOST].at, buffers[LOST].length, y->at, y->length, a->at,
                                            a->length, buffers[FLAGS].at, buffers[FLAGS].length, buffers[SPACE].at,
                                            buffers[SPACE].length));
}

static int calls(double seconds, unsigned long seed)
{
    unsigned long n = 0;
    struct timespec began, now;
    make_rooms();
    clock_gettime(CLOCK_MONOTONIC, &began);
    do {
        for (int i = 0; i < 100; i++, n++) {
            int call = (int)below(4), by_powers = chance(6), in_trays = !by_powers && chance(12),
                in_lists = !by_powers && !in_trays && chance(12);
            on_mark = by_powers || in_trays || in_lists || !chance(3);
            if (!on_mark && chance(4))
                call = 4; /* a ring by its wrong symbols */
            if (!(by_powers ? row() : in_trays ? tray() : in_lists ? list() : on_mark ? mark(call) : ring(call))) {
                printf("fuzz: seed %lu, call %lu: a number or a buffer is not as promised\n", seed, n);
                return 1;
            }
        }
        clock_gettime(CLOCK_MONOTONIC, &now);
    } while ((double)(now.tv_sec - began.tv_sec) + (double)(now.tv_nsec - began.tv_nsec) / 1e9 < seconds);
    printf("fuzz: seed %lu: %lu calls: %lu done, %lu refused; of all, %lu refused for a factor\n", seed, n, done, refused,
           refused_for_a_factor);
    for (int way = 0; way < WAYS; way++) {
        unsigned long *e = ends[way];
        printf("fuzz: decodings %s: %lu corrected, %lu none, %lu several, %lu hollow, %lu refused\n", ways[way], e[1], e[2], e[3], e[4],
               e[0]);
    }
    unsigned long *e = marks_ended;
    printf("fuzz: %lu trays, %lu of them refused; marks: %lu corrected, %lu none, %lu several, %lu hollow, %lu refused\n", trays,
           trays_refused, e[1], e[2], e[3], e[4], e[0]);
    printf("fuzz: %lu lists, %lu of them with arrays\n", lists, listed);
    return 0;
}

/* A run of records: whole ones with any contents, most with a small field and few columns, and at the end perhaps a cut. */
static int stream(void)
{
    for (unsigned n = below(40); n; n--) {
        unsigned rows = 1 + below(4), columns = 1 + below(chance(4) ? 96 : 9), size = rows + 1 + columns + rows * columns;
        uint8_t head[5] = {0x42, 0x4D, chance(9) ? (uint8_t)next() : 4, (uint8_t)rows, (uint8_t)columns};
        for (int i = 0; i < 5; i++)
            if (chance(150))
                head[i] = (uint8_t)next();
        fwrite(head, 1, 5, stdout);
        if (n == 1 && chance(2))
            size = below(size);
        for (unsigned i = 0; i < size; i++)
            putchar((int)(i < rows ? 1 + below(columns) : i == rows ? below(4) : i <= rows + columns && !chance(60) ? i - rows - 1 : below(chance(99) ? 256 : chance(2) ? 2 : 16)));
    }
    return 0;
}

int main(int argc, char **argv)
{
    if (argc == 4 && !strcmp(argv[1], "calls")) {
        state = 0x9E3779B97F4A7C15u ^ strtoul(argv[3], NULL, 10) << 1;
        return calls(strtod(argv[2], NULL), strtoul(argv[3], NULL, 10));
    }
    if (argc == 3 && !strcmp(argv[1], "stream")) {
        state = 0xD1B54A32D192ED03u ^ strtoul(argv[2], NULL, 10) << 1;
        return stream();
    }
    fprintf(stderr, "usage: fuzz calls SECONDS SEED | fuzz stream SEED\n");
    return 2;
}
