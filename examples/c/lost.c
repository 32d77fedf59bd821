/* A mark with lost columns: decodes the first record of a file, with a list of lost columns that the record does not have, and prints
 * the line that the record program would print, and on "corrected" the answer's rows and the flags. Build it, from the repository's
 * root, with
 *
 *   make lib
 *
 * which leaves the program in target/c/lost; make lost INPUT=FILE LOST=COLUMN,COLUMN,... runs it. By hand on x86-64:
 *
 *   cc -std=c99 -Iinclude -o lost examples/c/lost.c target/staticlib/libfirmware.a
 *   ./lost FILE [COLUMN,COLUMN,...]
 */
#include "grenhyrna.h"

#include <stdio.h>
#include <stdlib.h>
#include <string.h>

enum { HEAD = 5, MOST_BYTES = HEAD + GREN_MOST_ROWS + 1 + GREN_MOST_COLUMNS + GREN_MOST_SYMBOLS };

static uint8_t record[MOST_BYTES], ones[GREN_MOST_COLUMNS], lost[256], answer[GREN_MOST_SYMBOLS], flags[GREN_MOST_COLUMNS], space[GREN_SPACE];

/* The columns of a list like 1,4; answers how many, or -1 where it is no list of bytes. */
static int read_list(const char *s)
{
    int count = 0;
    while (*s) {
        char *end;
        unsigned long column = strtoul(s, &end, 10);
        if (end == s || column > 255 || count == 256 || (*end && *end != ','))
            return -1;
        lost[count++] = (uint8_t)column;
        s = *end ? end + 1 : end;
    }
    return count;
}

/* The first record of a file; answers whether it is there as a whole, with r and n in range. */
static int read_record(const char *name)
{
    FILE *file = fopen(name, "rb");
    if (!file)
        return 0;
    size_t length = fread(record, 1, sizeof record, file), rows = record[3], columns = record[4];
    fclose(file);
    return length >= HEAD && record[0] == 0x42 && record[1] == 0x4D && rows >= 1 && rows <= GREN_MOST_ROWS && columns >= 1
           && columns <= GREN_MOST_COLUMNS && length >= HEAD + rows + 1 + columns + rows * columns;
}

static void print_line(uint32_t result, size_t columns)
{
    static const char *const words[] = {"refused", "corrected", "none", "several", "hollow"};
    int named = 0;
    printf("1 %s ", words[gren_code(result)]);
    if (gren_code(result) == GREN_NONE)
        printf("-");
    else
        printf("%u", gren_detail(result));
    for (size_t i = 0; i < columns && gren_code(result) == GREN_CORRECTED; i++)
        if (flags[i] == GREN_WRONG)
            printf("%c%zu", named++ ? ',' : ' ', i);
    printf(named ? "\n" : " -\n");
}

int main(int argc, char **argv)
{
    int count = argc == 3 ? read_list(argv[2]) : 0;
    if (argc < 2 || argc > 3 || count < 0) {
        fprintf(stderr, "usage: lost FILE [COLUMN,COLUMN,...]\n");
        return 2;
    }
    if (!read_record(argv[1])) {
        fprintf(stderr, "lost: %s: no record\n", argv[1]);
        return 1;
    }
    size_t rows = record[3], columns = record[4], symbols = rows * columns;
    const uint8_t *lengths = record + HEAD, *points = lengths + rows + 1, *received = points + columns;
    memset(ones, 1, sizeof ones); /* the columns of a record have factors of one */
    uint32_t result = gren_mark_decode_lost(record[2], lengths, rows, points, columns, ones, columns, lengths[rows], lost,
                                            (size_t)count, received, symbols, answer, symbols, flags, columns, space, sizeof space);
    print_line(result, columns);
    if (gren_code(result) != GREN_CORRECTED)
        return 0;
    for (size_t i = 0; i < symbols; i++)
        printf("%s %2u%s", i % columns ? "" : "answer", answer[i], i % columns == columns - 1 ? "\n" : "");
    for (size_t i = 0; i < columns; i++)
        printf("%s %2u%s", i ? "" : "flags ", flags[i], i == columns - 1 ? "\n" : "");
    return 0;
}
