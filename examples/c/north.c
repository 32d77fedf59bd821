/* A mark of the northern mill, which multiplies each column by a factor before striking: encoded, damaged and decoded with its factors;
 * then with one factor set wrong, and with factors of one. Build it, from the repository's root, with
 *
 *   make lib
 *
 * which leaves the program in target/c/north, or by hand on x86-64 with
 *
 *   cc -std=c99 -Iinclude -o north examples/c/north.c target/staticlib/libfirmware.a
 */
#include "grenhyrna.h"

#include <stdio.h>

enum { ROWS = 2, COLUMNS = 4, TOTAL = 2, LIMIT = 1, BURR = 2 };

static const uint8_t lengths[ROWS] = {1, 1};
static const uint8_t points[COLUMNS] = {1, 2, 4, 8};
static const uint8_t factors[COLUMNS] = {1, 2, 3, 4};
static const uint8_t set_wrong[COLUMNS] = {1, 2, 3, 5}; /* the last is 4 at the mill */
static const uint8_t ones[COLUMNS] = {1, 1, 1, 1};
static const uint8_t message[TOTAL] = {5, 9};

static uint8_t array[ROWS * COLUMNS], answer[ROWS * COLUMNS], flags[COLUMNS], back[TOTAL], space[GREN_SPACE];

static void show(const char *what, const uint8_t *s, size_t rows)
{
    for (size_t i = 0; i < rows * COLUMNS; i++)
        printf("%s %2u%s", i % COLUMNS ? "" : what, s[i], i % COLUMNS == COLUMNS - 1 ? "\n" : "");
}

static void read_with(const uint8_t *f, const uint8_t *s)
{
    uint32_t result = gren_mark_read(4, lengths, ROWS, points, COLUMNS, f, COLUMNS, s, ROWS * COLUMNS, back, sizeof back);
    if (result == GREN_DONE)
        printf("read: message %u %u\n", back[0], back[1]);
    else
        printf("read: refused %u\n", result);
}

static void decode_with(const uint8_t *f)
{
    static const char *const words[] = {"refused", "corrected", "none", "several", "hollow"};
    uint32_t result = gren_mark_decode(4, lengths, ROWS, points, COLUMNS, f, COLUMNS, LIMIT, array, sizeof array, answer,
                                       sizeof answer, flags, sizeof flags, space, sizeof space);
    if (gren_code(result) == GREN_NONE)
        printf("decoded: none\n");
    else
        printf("decoded: %s %u\n", words[gren_code(result)], gren_detail(result));
    if (gren_code(result) != GREN_CORRECTED)
        return;
    show("answer  ", answer, ROWS);
    show("flags   ", flags, 1);
    read_with(f, answer);
}

static void try_with(const char *title, const uint8_t *f)
{
    printf("\n%s\n", title);
    show("factors ", f, 1);
    show("received", array, ROWS);
    read_with(f, array);
    decode_with(f);
}

int main(void)
{
    if (gren_mark_encode(4, lengths, ROWS, points, COLUMNS, factors, sizeof factors, message, TOTAL, array, sizeof array) != GREN_DONE)
        return 1;
    show("factors ", factors, 1);
    show("struck  ", array, ROWS);
    try_with("as struck:", factors);
    try_with("as struck, the last factor set wrong:", set_wrong);
    array[BURR] ^= 11, array[COLUMNS + BURR] ^= 2;
    try_with("a burr over column 2:", factors);
    try_with("the burr, and the last factor set wrong:", set_wrong);
    try_with("the burr, and factors of one:", ones);
    return 0;
}
