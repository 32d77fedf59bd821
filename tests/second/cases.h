/* The named cases of tests/second/cases.txt, which says how a line is read: a case's frame, and the line that is expected for it. */
#ifndef CASES_H
#define CASES_H
#include "frame.h"

#include <stdlib.h>

enum { CASE = 1500 };

static char text[CASE];
static const char *rest; /* what is left of the text */
static unsigned text_number;

static void bad_case(const char *what)
{
    fprintf(stderr, "compared: line %u of the cases: %s: %s", text_number, what, text);
    exit(1);
}

/* Passes over that word, where it comes next. */
static int word(const char *expected)
{
    size_t length = strlen(expected), blanks = strspn(rest, " ");
    if (strncmp(rest + blanks, expected, length))
        return 0;
    rest += blanks + length;
    return 1;
}

static size_t one_number(void)
{
    char *end;
    size_t n = strtoul(rest, &end, 10);
    if (end == rest)
        bad_case("no number");
    rest = end;
    return n;
}

static int digit_follows(void)
{
    const char *next = rest + strspn(rest, " ");
    return *next >= '0' && *next <= '9';
}

/* Writes a list of numbers; answers how many there are. */
static size_t numbers(uint8_t *list, size_t most)
{
    size_t n = 0;
    if (word("none"))
        return 0;
    while (digit_follows()) {
        size_t first = one_number(), last = word("..") ? one_number() : first, times = word("*") ? one_number() : 1;
        for (size_t i = 0; i < (last - first + 1) * times; i++) {
            if (n == most)
                bad_case("too many numbers");
            list[n++] = (uint8_t)(first + i / times);
        }
    }
    return n;
}

static void read_argument(void)
{
    if (word("degree ") || word("q "))
        set_number(1, one_number());
    else if (word("limit "))
        set_number(3, one_number());
    else if (word("m "))
        set_number(5, one_number());
    else if (word("k "))
        set_number(K, one_number());
    else if (word("powers "))
        set_number(POWERS, one_number());
    else if (word("lengths "))
        frame[6] = (uint8_t)numbers(frame + LENGTHS, MOST_LENGTHS);
    else if (word("points "))
        frame[7] = (uint8_t)numbers(frame + POINTS, MOST_POINTS);
    else if (word("factors "))
        frame[FACTOR_COUNT] = (uint8_t)numbers(frame + FACTORS, MOST_FACTORS);
    else if (word("lost "))
        frame[LOST_COUNT] = (uint8_t)numbers(frame + LOST, MOST_LOST);
    else if (word("symbols "))
        set_number(8, numbers(frame + SYMBOLS, MOST_SYMBOLS));
    else if (word("result "))
        set_number(10, one_number());
    else if (word("flags "))
        frame[12] = (uint8_t)one_number();
    else if (word("space "))
        frame[13] = (uint8_t)(one_number() - SPACE_LESS);
    else
        bad_case("no argument");
}

static void read_call(void)
{
    static const char *const calls[] = {"encode:",      "read:",             "decode:",      "ring encode:",   "ring read:",
                                        "ring decode:", "ring decode lost:", "decode lost:", "decode powers:", "ring decode pits:", "list:",
                                        NULL};
    int factors_given = 0;
    memset(frame, 0, sizeof frame);
    while (calls[frame[0]] && !word(calls[frame[0]]))
        frame[0]++;
    if (!calls[frame[0]])
        bad_case("no call");
    do {
        factors_given |= !strncmp(rest + strspn(rest, " "), "factors ", 8);
        read_argument();
    } while (word(","));
    if (!factors_given)
        set_ones(frame[7]);
}

/* What a buffer is to hold: as many numbers as it has places. */
static void read_buffer(uint8_t *buffer, size_t length, uint8_t lent)
{
    if (word("as lent"))
        memset(buffer, lent, length);
    else if (numbers(buffer, length) != length)
        bad_case("too few numbers");
}

static void read_answer(char *line)
{
    static const struct {
        const char *word;
        uint32_t number;
    } endings[] = {{"refused ", 0}, {"done", 256},    {"listed ", 256}, {"corrected ", 256},
                 {"none", 512},   {"several ", 768}, {"hollow ", 1024}};
    enum { ENDINGS = sizeof endings / sizeof *endings };
    uint8_t result[MOST_SYMBOLS], flags[MOST_POINTS];
    size_t e = 0, zeros = 0;
    while (e < ENDINGS && !word(endings[e].word))
        e++;
    if (e == ENDINGS)
        bad_case("no ending");
    uint32_t number_expected = endings[e].number + (digit_follows() ? (uint32_t)one_number() : 0);
    if (!word(";"))
        bad_case("no result");
    read_buffer(result, number(10), LENT_RESULT);
    if (word("; flags "))
        read_buffer(flags, frame[12], LENT_FLAGS);
    else if (frame[12])
        bad_case("no flags");
    if (word("; zeros "))
        zeros = one_number();
    write_line(line, number_expected, result, number(10), flags, frame[12], zeros);
}

/* The next case, if there is one: its frame is set, and the line that is expected is written. */
static int next_case(FILE *from, char *line)
{
    do {
        text_number++;
        if (!fgets(text, sizeof text, from))
            return 0;
    } while (*text == '#' || *text == '\n');
    rest = strchr(text, '|');
    if (!rest)
        bad_case("no call");
    rest++;
    read_call();
    if (!word("|"))
        bad_case("no answer");
    read_answer(line);
    if (!word("\n"))
        bad_case("something is left");
    return 1;
}
#endif
