/* A mark from end to end: a message is encoded, columns are damaged, the array is decoded, and what the decoder says is printed
 * before anything is used. Build it, from the repository's root, with
 *
 *   make lib
 *
 * which leaves the program in target/c/mark, or by hand on x86-64 with
 *
 *   cc -std=c99 -Iinclude -o mark examples/c/mark.c target/staticlib/libfirmware.a
 */
#include "grenhyrna.h"

#include <stdio.h>

enum { ROWS = 2, COLUMNS = 8, TOTAL = 5, LIMIT = 3 };

static const uint8_t lengths[ROWS] = {2, 3};
static const uint8_t points[COLUMNS] = {1, 2, 3, 4, 5, 6, 7, 8};
static const uint8_t factors[COLUMNS] = {1, 1, 1, 1, 1, 1, 1, 1}; /* examples/c/north.c has others */
static const uint8_t message[TOTAL] = {3, 1, 7, 0, 9};

static uint8_t array[ROWS * COLUMNS], answer[ROWS * COLUMNS], flags[COLUMNS], back[TOTAL], space[GREN_SPACE];

static void show(const char *what, const uint8_t *s)
{
    for (size_t l = 0; l < ROWS; l++) {
        printf("%-10s", l == 0 ? what : "");
        for (size_t i = 0; i < COLUMNS; i++)
            printf(" %2u", s[l * COLUMNS + i]);
        printf("\n");
    }
}

/* How the decoder finished, in words; the answer is there on "corrected" alone. */
static int finished(uint32_t result)
{
    switch (gren_code(result)) {
    case GREN_CORRECTED: printf("corrected, %u wrong\n", gren_detail(result)); return 1;
    case GREN_NONE: printf("none: no code array is within %d columns\n", LIMIT); return 0;
    case GREN_SEVERAL: printf("several: more than one way to go on, at %u columns\n", gren_detail(result)); return 0;
    case GREN_HOLLOW: printf("hollow: a locator of size %u that locates nothing\n", gren_detail(result)); return 0;
    default: printf("refused, %u\n", gren_detail(result)); return 0;
    }
}

static int decode(void)
{
    show("received", array);
    uint32_t result = gren_mark_decode(4, lengths, ROWS, points, COLUMNS, factors, sizeof factors, LIMIT, array, sizeof array, answer,
                                       sizeof answer, flags, sizeof flags, space, sizeof space);
    if (!finished(result))
        return 0;
    show("answer", answer);
    printf("%-10s", "wrong");
    for (size_t i = 0; i < COLUMNS; i++)
        printf("  %c", flags[i] ? '^' : ' ');
    printf("\n");
    return 1;
}

int main(void)
{
    if (gren_mark_encode(4, lengths, ROWS, points, COLUMNS, factors, sizeof factors, message, TOTAL, array, sizeof array) != GREN_DONE)
        return 1;
    show("struck", array);
    array[1] ^= 5, array[COLUMNS + 1] ^= 9; /* a burr over column 1 */
    array[4] ^= 1;                          /* and a pit in column 4 */
    if (!decode())
        return 1;
    if (gren_mark_read(4, lengths, ROWS, points, COLUMNS, factors, sizeof factors, answer, sizeof answer, back, sizeof back)
        != GREN_DONE)
        return 1;
    printf("message   ");
    for (size_t i = 0; i < TOTAL; i++)
        printf(" %2u", back[i]);
    printf("\n\nand with four more columns gone:\n");
    for (size_t i = 0; i < 4; i++)
        array[2 * i] ^= (uint8_t)(3 + i);
    return decode(); /* not corrected: nothing to read */
}
