/* A tray of four marks of one code, decoded in one call: one as it was struck, one with a burr, one with a byte that is no symbol, and
 * one with too much gone. Each is answered as it would be alone, and the third refuses itself and no other. Build it, from the
 * repository's root, with
 *
 *   make lib
 *
 * which leaves the program in target/c/tray, or by hand on x86-64 with
 *
 *   cc -std=c99 -Iinclude -o tray examples/c/tray.c target/staticlib/libfirmware.a
 */
#include "grenhyrna.h"

#include <stdio.h>
#include <string.h>

enum { MARKS = 4, ROWS = 2, COLUMNS = 8, CELLS = ROWS * COLUMNS, TOTAL = 5, LIMIT = 3 };

static const uint8_t lengths[ROWS] = {2, 3};
static const uint8_t points[COLUMNS] = {1, 2, 3, 4, 5, 6, 7, 8};
static const uint8_t factors[COLUMNS] = {1, 1, 1, 1, 1, 1, 1, 1};
static const uint8_t message[TOTAL] = {3, 1, 7, 0, 9};

static uint8_t received[MARKS * CELLS], arrays[MARKS * CELLS], flags[MARKS * COLUMNS], space[GREN_SPACE];
static uint32_t answers[MARKS];

static void show(size_t mark)
{
    static const char *const words[] = {"refused", "corrected", "none", "several", "hollow"};
    printf("mark %zu: %s %u", mark, words[gren_code(answers[mark])], gren_detail(answers[mark]));
    if (gren_code(answers[mark]) == GREN_CORRECTED) {
        printf(", flags");
        for (size_t i = 0; i < COLUMNS; i++)
            printf(" %u", flags[mark * COLUMNS + i]);
    }
    printf("\n");
}

int main(void)
{
    if (gren_mark_encode(4, lengths, ROWS, points, COLUMNS, factors, sizeof factors, message, TOTAL, received, CELLS) != GREN_DONE)
        return 1;
    for (size_t mark = 1; mark < MARKS; mark++)
        memcpy(received + mark * CELLS, received, CELLS);
    received[CELLS + 1] ^= 5, received[CELLS + COLUMNS + 1] ^= 9; /* a burr over column 1 of mark 1 */
    received[2 * CELLS] = 16;                                     /* no symbol of GF(16) in mark 2 */
    for (size_t i = 0; i < 5; i++)
        received[3 * CELLS + i] ^= (uint8_t)(3 + i); /* and five columns of mark 3 */
    uint32_t result = gren_tray_decode(4, lengths, ROWS, points, COLUMNS, factors, sizeof factors, LIMIT, received, sizeof received,
                                       answers, MARKS, arrays, sizeof arrays, flags, sizeof flags, space, sizeof space);
    if (result != GREN_DONE) {
        printf("the tray is refused, %u\n", result);
        return 1;
    }
    for (size_t mark = 0; mark < MARKS; mark++)
        show(mark);
    return memcmp(arrays, arrays + CELLS, CELLS) != 0; /* the burr is gone */
}
