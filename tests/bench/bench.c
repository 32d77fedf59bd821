/* The standard cases of the benchmark: runs one of them COUNT times, by the proved library or by the plain C decoder.
 *
 *   bench list                   the cases, a line each
 *   bench CASE own|plain COUNT
 *   bench CASE own|plain time    prints the nanoseconds of a call
 */
#define _POSIX_C_SOURCE 199309L
#include "grenhyrna.h"
#include "plain.h"

#include <stdio.h>
#include <stdlib.h>
#include <string.h>
#include <time.h>

struct test {
    const char *name;
    char kind; /* d: decode, e: encode, r: read, h: decode a ring; D and H: with lost columns; f: decode, with factors;
                  p: one row, by powers; t: decode a tray of 64 marks, beside 64 calls; s: decode a ring by its wrong symbols */
    unsigned degree, columns, rows, lengths[4], wrong, lost;
};

static const struct test tests[] = {
    {"GF(16) n 16 k 10 9 7 6, 0 wrong", 'd', 4, 16, 4, {10, 9, 7, 6}, 0, 0},
    {"GF(16) n 16 k 10 9 7 6, 3 wrong", 'd', 4, 16, 4, {10, 9, 7, 6}, 3, 0},
    {"GF(16) n 16 k 10 9 7 6, 6 wrong", 'd', 4, 16, 4, {10, 9, 7, 6}, 6, 0},
    {"GF(256) n 96 k 64, 0 wrong", 'd', 8, 96, 1, {64}, 0, 0},
    {"GF(256) n 96 k 64, 16 wrong", 'd', 8, 96, 1, {64}, 16, 0},
    {"GF(256) n 96 k 64 x4, 0 wrong", 'd', 8, 96, 4, {64, 64, 64, 64}, 0, 0},
    {"GF(256) n 96 k 64 x4, 25 wrong", 'd', 8, 96, 4, {64, 64, 64, 64}, 25, 0},
    {"GF(256) n 96 k 32 x4, 0 wrong", 'd', 8, 96, 4, {32, 32, 32, 32}, 0, 0},
    {"GF(256) n 96 k 32 x4, 51 wrong", 'd', 8, 96, 4, {32, 32, 32, 32}, 51, 0},
    {"ring H(37), 0 wrong sectors", 'h', 4, 16, 4, {10, 9, 7, 6}, 0, 0},
    {"ring H(37), 3 wrong sectors", 'h', 4, 16, 4, {10, 9, 7, 6}, 3, 0},
    {"ring H(37), 6 wrong sectors", 'h', 4, 16, 4, {10, 9, 7, 6}, 6, 0},
    {"ring H(37), by symbols, 0 wrong", 's', 4, 16, 4, {10, 9, 7, 6}, 0, 0},
    {"ring H(37), by symbols, 10 wrong", 's', 4, 16, 4, {10, 9, 7, 6}, 10, 0},
    {"encode GF(256) n 96 k 64 x4", 'e', 8, 96, 4, {64, 64, 64, 64}, 0, 0},
    {"read GF(256) n 96 k 64 x4", 'r', 8, 96, 4, {64, 64, 64, 64}, 0, 0},
    {"GF(256) n 96 k 64 x4, 16 lost, 12 wrong", 'D', 8, 96, 4, {64, 64, 64, 64}, 12, 16},
    {"ring H(37), 4 sectors lost, 2 wrong", 'H', 4, 16, 4, {10, 9, 7, 6}, 2, 4},
    {"GF(256) n 96 k 64 x4, 25 wrong, factors", 'f', 8, 96, 4, {64, 64, 64, 64}, 25, 0},
    {"GF(256) n 31 k 6 by 2 powers, 15 wrong", 'p', 8, 31, 2, {6, 11}, 15, 0},
    {"64 marks of GF(16) n 16 k 10 9 7 6, 3 wrong; 64 calls of the library", 't', 4, 16, 4, {10, 9, 7, 6}, 3, 0},
};

static uint8_t lengths[4], points[96], factors[96], lost[96], message[384], array[384], ring[64], answer[384], flags[96], space[GREN_SPACE];

static uint8_t tray[64 * 64], answered[64 * 64], flagged[64 * 16];
static uint32_t answers[64];

static struct test t;
static size_t total, symbols;
static uint32_t limit, expected;
static int own;

static uint32_t seed = 12345;

static unsigned below(unsigned n)
{
    seed = seed * 1103515245u + 12345u;
    return (seed >> 16) % n;
}

static double seconds(void)
{
    struct timespec now;
    clock_gettime(CLOCK_MONOTONIC, &now);
    return (double)now.tv_sec + (double)now.tv_nsec / 1e9;
}

/* A column, and the sector of that number; of a ring that is decoded by its wrong symbols, one symbol of it. */
static void damage(size_t column)
{
    if (t.kind == 's') {
        ring[4 * column + column % 4] ^= (uint8_t)(1 + below(15));
        return;
    }
    for (size_t l = 0; l < t.rows; l++) {
        array[l * t.columns + column] ^= (uint8_t)(1 + below((1u << t.degree) - 1));
        ring[4 * column % 64 + l] ^= (uint8_t)(1 + below(15));
    }
}

/* A tray of 64 marks in one call, or in 64. */
static uint32_t decode_tray(void)
{
    uint32_t got = 256;
    if (own)
        got = gren_tray_decode(t.degree, lengths, t.rows, points, t.columns, factors, t.columns, limit, tray, sizeof tray, answers, 64,
                               answered, sizeof answered, flagged, sizeof flagged, space, sizeof space);
    else
        for (size_t i = 0; i < 64; i++)
            answers[i] = gren_mark_decode(t.degree, lengths, t.rows, points, t.columns, factors, t.columns, limit, tray + i * symbols,
                                          symbols, answered + i * symbols, symbols, flagged + i * t.columns, t.columns, space,
                                          sizeof space);
    for (size_t i = 0; i < 64; i++)
        if (answers[i] != 256 + t.wrong)
            got = answers[i];
    return got == 256 ? expected : got;
}

static int run(unsigned long count)
{
    uint32_t got = expected;
    for (unsigned long i = 0; i < count; i++) {
        if (t.kind == 'd' || (t.kind == 'f' && own))
            got = own ? gren_mark_decode(t.degree, lengths, t.rows, points, t.columns, factors, t.columns, limit, array, symbols,
                                         answer, symbols, flags, t.columns, space, sizeof space)
                      : plain_decode(lengths, t.rows, points, t.columns, limit, array, answer, flags);
        else if (t.kind == 'f')
            got = plain_decode_factors(lengths, t.rows, points, t.columns, factors, limit, array, answer, flags);
        else if (t.kind == 'p')
            got = own ? gren_mark_decode_powers(t.degree, lengths[0], t.rows, points, t.columns, factors, t.columns, limit, array,
                                                t.columns, answer, t.columns, flags, t.columns, space, sizeof space)
                      : plain_decode_powers(lengths, t.rows, points, t.columns, limit, array, answer, flags);
        else if (t.kind == 't')
            got = decode_tray();
        else if (t.kind == 'h')
            got = own ? gren_ring_decode(4, 37, limit, ring, 64, answer, 64, flags, 16, space, sizeof space)
                      : plain_decode(lengths, t.rows, points, t.columns, limit, array, answer, flags);
        else if (t.kind == 's')
            got = own ? gren_ring_decode_pits(4, 37, 10, ring, 64, answer, 64, flags, 64, space, sizeof space)
                      : plain_decode_pits(37, 10, ring, answer, flags);
        else if (t.kind == 'e')
            got = own ? gren_mark_encode(t.degree, lengths, t.rows, points, t.columns, factors, t.columns, message, total, answer,
                                         symbols)
                      : (plain_encode(lengths, t.rows, points, t.columns, message, answer), 256u);
        else if (t.kind == 'D')
            got = own ? gren_mark_decode_lost(t.degree, lengths, t.rows, points, t.columns, factors, t.columns, limit, lost, t.lost,
                                              array, symbols, answer, symbols, flags, t.columns, space, sizeof space)
                      : plain_decode_lost(lengths, t.rows, points, t.columns, limit, lost, t.lost, array, answer, flags);
        else if (t.kind == 'H')
            got = own ? gren_ring_decode_lost(4, 37, limit, lost, t.lost, ring, 64, answer, 64, flags, 16, space, sizeof space)
                      : plain_decode_lost(lengths, t.rows, points, t.columns, limit, lost, t.lost, array, answer, flags);
        else
            got = own ? gren_mark_read(t.degree, lengths, t.rows, points, t.columns, factors, t.columns, array, symbols, answer, total)
                      : plain_read(lengths, t.rows, points, t.columns, array, answer) ? 256u
                                                                                      : 9u;
        if (got != expected) {
            fprintf(stderr, "bench: %s: %s answers %u, not %u\n", t.name, own ? "the library" : "the plain decoder", got, expected);
            return 1;
        }
    }
    return 0;
}

int main(int argc, char **argv)
{
    size_t cases = sizeof tests / sizeof *tests;
    if (argc == 2 && !strcmp(argv[1], "list")) {
        for (size_t i = 0; i < cases; i++)
            printf("%s\n", tests[i].name);
        return 0;
    }
    if (argc != 4 || strtoul(argv[1], NULL, 10) >= cases) {
        fprintf(stderr, "usage: bench list | bench CASE own|plain COUNT|time\n");
        return 2;
    }
    t = tests[strtoul(argv[1], NULL, 10)];
    own = !strcmp(argv[2], "own");
    unsigned long count = strtoul(argv[3], NULL, 10);
    symbols = t.rows * t.columns;
    for (size_t l = 0; l < t.rows; l++)
        total += lengths[l] = (uint8_t)t.lengths[l];
    for (size_t i = 0; i < t.columns; i++)
        points[i] = (uint8_t)i, factors[i] = (uint8_t)(t.kind == 'f' ? i + 1 : 1);
    for (size_t i = 0; i < total; i++)
        message[i] = (uint8_t)below(1u << t.degree);
    plain_field(t.degree);
    plain_encode(lengths, t.kind == 'p' ? 1 : t.rows, points, t.columns, message, array);
    plain_multiply(t.rows, t.columns, factors, array);
    if (t.kind == 's')
        plain_ring_points();
    if (t.kind == 'h' || t.kind == 'H' || t.kind == 's')
        gren_ring_encode(4, 37, message, total, ring, 64);
    for (size_t w = 0; w < t.wrong; w++)
        damage(w * t.columns / t.wrong + (t.lost > 0)); /* beside the lost columns */
    for (size_t w = 0; w < t.lost; w++)
        damage(lost[w] = (uint8_t)(w * t.columns / t.lost));
    for (size_t i = 0; t.kind == 't' && i < 64; i++)
        memcpy(tray + i * symbols, array, symbols);
    size_t remaining = t.columns - t.lost;
    limit = (uint32_t)((t.rows * remaining - total) / (t.rows + 1)), expected = 256 + t.wrong;
    if (limit > remaining - lengths[0])
        limit = (uint32_t)(remaining - lengths[0]);
    if (strcmp(argv[3], "time"))
        return run(count);
    for (count = 16;; count *= 2) {
        double began = seconds();
        if (run(count))
            return 1;
        double took = seconds() - began;
        if (took > 0.25) {
            printf("%.0f\n", took / (double)count * 1e9);
            return 0;
        }
    }
}
