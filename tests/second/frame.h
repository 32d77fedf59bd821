/* A frame of the comparing program (crates/compared/src/main.rt says what each byte is), and the line that answers it. */
#ifndef FRAME_H
#define FRAME_H
#include "second.h"

#include <stdio.h>
#include <string.h>

enum { FRAME = 610, LINE = 1200, SPACE_LESS = 49144, LENT_RESULT = 7, LENT_FLAGS = 9, LENT_SPACE = 1 };
enum { K = 14, POWERS = 16, LENGTHS = 14, POINTS = 21, SYMBOLS = 118, LOST_COUNT = 503, LOST = 504, FACTOR_COUNT = 512, FACTORS = 513 };
enum { MOST_LENGTHS = 7, MOST_POINTS = 97, MOST_SYMBOLS = 385, MOST_LOST = 8, MOST_FACTORS = 97 };
enum { MARK_LOST = 7, RING_LOST = 6, MARK_POWERS = 8, RING_PITS = 9, MARK_LIST = 10 };

static uint8_t frame[FRAME];

static unsigned number(int at)
{
    return frame[at] + 256u * frame[at + 1];
}

static void set_number(int at, size_t n)
{
    frame[at] = (uint8_t)(n % 256);
    frame[at + 1] = (uint8_t)(n / 256);
}

/* So many factors of one. */
static void set_ones(size_t count)
{
    frame[FACTOR_COUNT] = (uint8_t)count;
    memset(frame + FACTORS, 1, count);
}

static char *hexadecimal(char *to, const uint8_t *symbols, size_t count)
{
    for (size_t i = 0; i < count; i++)
        to += sprintf(to, "%02x", symbols[i]);
    return to;
}

static void write_line(char *line, uint32_t answer, const uint8_t *result, size_t result_length, const uint8_t *flags,
                       size_t flags_length, size_t zeros)
{
    line += sprintf(line, "%u ", (unsigned)answer);
    line = hexadecimal(line, result, result_length);
    *line++ = ' ';
    line = hexadecimal(line, flags, flags_length);
    sprintf(line, " %zu\n", zeros);
}

static size_t count(unsigned n, unsigned most)
{
    return n < most ? n : most;
}

/* The line by the second program. */
static void answer(char *line)
{
    static uint8_t result[MOST_SYMBOLS], flags[MOST_POINTS], space[SPACE_LESS + 255];
    size_t ks = count(frame[6], MOST_LENGTHS), xs = count(frame[7], MOST_POINTS), s = count(number(8), MOST_SYMBOLS),
           a = count(number(10), MOST_SYMBOLS), f = count(frame[12], MOST_POINTS), w = SPACE_LESS + (size_t)frame[13],
           g = count(frame[LOST_COUNT], MOST_LOST), c = count(frame[FACTOR_COUNT], MOST_FACTORS), zeros = 0;
    const uint8_t *k = frame + LENGTHS, *x = frame + POINTS, *h = frame + FACTORS, *y = frame + SYMBOLS, *lost = frame + LOST;
    uint32_t r, first = number(1), limit = number(3), m = number(5);
    memset(result, LENT_RESULT, sizeof result);
    memset(flags, LENT_FLAGS, sizeof flags);
    memset(space, LENT_SPACE, sizeof space);
    switch (frame[0]) {
    case 0: r = second_mark_encode(first, k, ks, x, xs, h, c, y, s, result, a); break;
    case 1: r = second_mark_read(first, k, ks, x, xs, h, c, y, s, result, a); break;
    case 2: r = second_mark_decode(first, k, ks, x, xs, h, c, limit, y, s, result, a, flags, f, space, w); break;
    case 3: r = second_ring_encode(first, m, y, s, result, a); break;
    case 4: r = second_ring_read(first, m, y, s, result, a); break;
    case 5: r = second_ring_decode(first, m, limit, y, s, result, a, flags, f, space, w); break;
    case RING_LOST: r = second_ring_decode_lost(first, m, limit, lost, g, y, s, result, a, flags, f, space, w); break;
    case RING_PITS: r = second_ring_decode_pits(first, m, limit, y, s, result, a, flags, f, space, w); break;
    case MARK_POWERS:
        r = second_mark_decode_powers(first, number(K), number(POWERS), x, xs, h, c, limit, y, s, result, a, flags, f, space, w);
        break;
    case MARK_LIST: r = second_mark_list(first, k, ks, x, xs, h, c, limit, y, s, result, a); break;
    default: r = second_mark_decode_lost(first, k, ks, x, xs, h, c, limit, lost, g, y, s, result, a, flags, f, space, w); break;
    }
    for (size_t i = 0; i < w; i++)
        zeros += !space[i];
    write_line(line, r, result, a, flags, f, zeros);
}
#endif
