/* Salvaging a file of records by the second program, written from 02's words (2026-12), and files to salvage.
 *   second <old >clean 2>listing     looks for the next 42 4D, keeps or skips what stands there, and lists runs at their end
 *   second count <old                how often each thing happened: kept, kept with a change, and failed or skipped, by kind
 *   second make SEED                 a damaged file */
#include "../second/random.h"
#include "../second/second.h"
#include <stdio.h>
#include <stdlib.h>
#include <string.h>

enum { MOST = 1 << 24 };
static uint8_t in[MOST], ones[96], space[SECOND_SPACE];
static unsigned counts[9];
enum { REFUSED, CORRECTED, NONE, SEVERAL, HOLLOW, CUT, RANGE, STRAY, CHANGED };

/* The bytes of the record at b, of which `left` are there; 0 where the mark has failed. Answers how it ends. */
static size_t decode(const uint8_t *b, size_t left, uint8_t *answer, unsigned *code)
{
    size_t r, n, size;
    uint8_t flags[96] = {0};
    if (left < 5)
        return *code = CUT, 0;
    r = b[3], n = b[4];
    if (r < 1 || r > 4 || n < 1 || n > 96)
        return *code = RANGE, 0;
    size = 6 + r + n + r * n;
    if (left < size)
        return *code = CUT, 0;
    *code = second_mark_decode(b[2], b + 5, r, b + 6 + r, n, ones, n, b[5 + r], b + 6 + r + n, r * n, answer, r * n, flags, n, space,
                               sizeof space) / 256;
    return *code == REFUSED ? 0 : size;
}

static void run(size_t from, size_t to, int quiet)
{
    if (from < to && !quiet)
        fprintf(stderr, "%zu skipped %zu\n", from, to - from);
}

static void keep(size_t at, size_t size, const uint8_t *answer, int quiet)
{
    const uint8_t *b = in + at;
    size_t r = b[3], n = b[4], symbols = 6 + r + n, i, changed = 0;
    if (!quiet) {
        fwrite(b, 1, symbols, stdout);
        fwrite(answer, 1, r * n, stdout);
        fprintf(stderr, "%zu kept %zu", at, size);
    }
    for (i = 0; i < r * n; i++)
        if (b[symbols + i] != answer[i]) {
            changed = 1;
            if (!quiet)
                fprintf(stderr, " %zu:%zu:%d:%d", i / n, i % n, b[symbols + i], answer[i]);
        }
    if (!quiet)
        fputc('\n', stderr);
    counts[CHANGED] += changed;
}

static void salvage(int quiet)
{
    size_t length = fread(in, 1, sizeof in, stdin), start = 0, at = 0, size;
    for (;;) {
        uint8_t answer[384] = {0};
        unsigned code;
        while (at + 1 < length && (in[at] != 0x42 || in[at + 1] != 0x4D))
            at++;
        if (at + 1 >= length)
            break;
        size = decode(in + at, length - at, answer, &code);
        counts[code]++;
        if (code == CORRECTED) {
            run(start, at, quiet);
            keep(at, size, answer, quiet);
            start = at + size;
        }
        at += size ? size : 1;
    }
    counts[STRAY] = length > 0 && in[length - 1] == 0x42;
    run(start, length, quiet);
}

/* A record of a random code with some columns wrong: its bytes at b, and how many. A field of 256 has points and symbols that may be
 * a mark's bytes. */
static size_t record(uint8_t *b, unsigned most)
{
    static const unsigned degrees[] = {2, 4, 8};
    unsigned degree = degrees[below(3)], field = 1u << degree, i, j, l;
    size_t r = 1 + below(4), n = 2 + below((field < most ? field : most) - 1);
    uint8_t lengths[4], message[384], *points, limit;
    size_t total = 0;
    b[0] = 0x42, b[1] = 0x4D, b[2] = degree, b[3] = r, b[4] = n;
    for (i = 0; i < r; i++)
        total += lengths[i] = b[5 + i] = 1 + below(chance(3) ? 1 : n - 1);
    limit = second_joint_limit(lengths, r, n);
    b[5 + r] = chance(3) ? limit : below(limit + 1);
    points = b + 6 + r;
    for (i = 0; i < n; i++)
        do {
            points[i] = chance(4) ? (chance(2) ? 0x42 : 0x4D) % field : below(field);
            for (j = 0; j < i && points[j] != points[i]; j++)
                ;
        } while (j < i);
    for (i = 0; i < total; i++)
        message[i] = below(field);
    second_mark_encode(degree, lengths, r, points, n, ones, n, message, total, points + n, r * n);
    for (i = chance(3) ? 0 : below(b[5 + r] + 1 + chance(3) + chance(4)); i > 0; i--)
        for (j = below(n), l = 0; l < r; l++)
            if (chance(2))
                points[n + l * n + j] = chance(3) ? points[n + l * n] : below(field);
    return 6 + r + n + r * n;
}

static void put(const uint8_t *b, size_t n) { fwrite(b, 1, n, stdout); }

static void noise(unsigned most)
{
    unsigned n = below(most);
    while (n-- > 0)
        putchar(chance(4) ? 0x42 : chance(4) ? 0x4D : (int)below(256));
}

/* A record of 96 columns over GF(256) whose symbols have whole records in them; refused unless `whole`, then rarely corrected. */
static void nested(int whole)
{
    uint8_t b[490], inner[490];
    size_t i, at = 7 + 96, size;
    b[0] = 0x42, b[1] = 0x4D, b[2] = 8, b[3] = 1, b[4] = 96, b[5] = whole ? 90 : 96, b[6] = whole ? 3 : 0;
    for (i = 0; i < 96; i++)
        b[7 + i] = 255 - i, b[at + i] = below(256);
    for (i = below(9); (size = record(inner, 6)), i + size <= 96; i += size + below(3))
        memcpy(b + at + i, inner, size);
    put(b, at + 96);
}

static void damaged(void)
{
    uint8_t b[490];
    size_t size;
    unsigned pieces = 40 + below(60);
    while (pieces-- > 0) {
        size = record(b, chance(20) ? 96 : 12);
        switch (below(12)) {
        case 0: noise(40); break;
        case 1: put(b, below(size)); break;                                           /* cut short by what follows */
        case 2: put(b, 1 + below(4)); break;
        case 3: b[2 + below(size - 2)] = below(256); put(b, size); break;            /* one byte wrong, of the head too */
        case 4: b[3 + below(2)] = chance(2) ? 0 : 97 + below(159); put(b, size); break;
        case 5: nested(0); break;
        case 6: nested(1); break;
        case 7: putchar(0x42); put(b, size); break;
        default: put(b, size);
        }
    }
    if (chance(2))
        put(b, chance(2) ? 1 + below(2) : below(size));
}

int main(int argc, char **argv)
{
    unsigned i;
    memset(ones, 1, sizeof ones);
    if (argc > 2) {
        state = strtoull(argv[2], 0, 10) * 2 + 1;
        for (i = 0; i < 20; i++)
            next();
        damaged();
    } else {
        salvage(argc > 1);
        for (i = 0; argc > 1 && i < sizeof counts / sizeof *counts; i++)
            printf("%u%c", counts[i], i + 1 < sizeof counts / sizeof *counts ? ' ' : '\n');
    }
    return 0;
}
