/* Grenhyrna: marks struck on bar ends, encoded, read and decoded. C99 and C++.
 *
 * Every function is proved to do what is said here for every input: it ends, it reads and writes nothing but the buffers lent, and
 * it needs no set-up. Link libfirmware.a (x86-64); of its host it needs memcpy and memset alone, and less than 26 KB of stack, for a
 * tray less than 30 KB (read off the compiled code, and not proved).
 *
 * A code is a field GF(2^degree), columns distinct points (one a column), as many factors (one a column, none of them zero), and
 * rows message lengths k (one a row), each at least 1 and below the number of columns, so that every row has check symbols. K is the
 * sum of the lengths. A message is K coefficients, lowest first, row after row. An array is rows · columns symbols, row after row; a
 * code array's row l holds, in each column, the column's factor times the value at its point of a polynomial with at most k_l
 * coefficients. With factors of one it holds the values. A symbol is one byte below 2^degree, bit i standing for x^i: sums are
 * exclusive or, and products are reduced by x^2+x+1 (degree 2), x^4+x+1 (degree 4) and x^8+x^5+x^3+x^2+1 (degree 8, the field of
 * ISO/IEC 16022).
 *
 * A ring over GF(q²), q = 2 or 4, is q³ symbols in the order of its points, q a sector, q² sectors; H(m) has the q message lengths
 * (m − j(q+1))/q rounded down, plus 1; m is 3 to 5 for q = 2 and 15 to 59 for q = 4. Rings keep factors of one, and take none.
 *
 * Buffers may not overlap, and a length is the number of bytes behind its pointer. A buffer of no bytes still needs a pointer that
 * is not null.
 *
 * ENCODING AND READING answer GREN_DONE (256) with the result written, or the number of the refusal (1 to 11, 18, 23) with the
 * result buffer as it was.
 *
 * DECODING answers 256 · code + detail:
 *
 *   code              detail                      answer and flags
 *   GREN_REFUSED 0    number of the refusal       as they were; the working space too
 *   GREN_CORRECTED 1  number of wrong columns     written: the only nearest code array, and a flag a column, 1 where it was wrong
 *   GREN_NONE 2       0                           as they were: no code array is within the limit
 *   GREN_SEVERAL 3    size of the locators        as they were: more than one locator, no multiples of each other
 *   GREN_HOLLOW 4     size of the locator         as they were: a locator was found, and it locates no code array
 *
 * After every decoding that is not refused the first GREN_SPACE bytes of the working space are zero; bytes beyond are never
 * touched. The trial limit may go up to the joint limit, the smaller of (rows·columns − K)/(rows + 1) rounded down and
 * columns − k_max. At the safe limit (columns − k_max)/2 rounded down, or below, any ending but "corrected" and "refused" means that
 * no code array is within the limit. Above it GREN_SEVERAL and GREN_HOLLOW say nothing of code arrays: none, one or more may be
 * within the limit.
 *
 * DECODING WITH LOST COLUMNS takes a list of them besides, a byte a column, in any order; a ring's list names sectors, from 0. The
 * ending and its detail are those of the array made of the remaining columns, in their order, with their points and factors, and
 * both limits are worked out with the number of remaining columns in place of columns. What was received in a lost column has no
 * influence, but must lie in the field. Received, answer and flags have the lengths that they have without a list, and there are as
 * many factors as columns, lost or not:
 *
 *   code              detail                      answer and flags
 *   GREN_REFUSED 0    number of the refusal       as they were; the working space too
 *   GREN_CORRECTED 1  number of wrong columns     written: the whole array, the lost columns filled from the rows found, and a flag
 *                     among the remaining         a column: GREN_LOST (2) at each lost column, whatever was received there; at the
 *                                                 others 1 where it was wrong and 0 elsewhere
 *   GREN_NONE 2       0                           as they were
 *   GREN_SEVERAL 3    size of the locators        as they were
 *   GREN_HOLLOW 4     size of the locator         as they were
 *
 * With nothing lost it is the decoding above. The working space is as in decoding.
 *
 * DECODING A ROW BY POWERS takes a code of one row, by its k, and a number s of powers, 1 to 4. Each received symbol, divided by its
 * column's factor, is raised to the powers 1 to s: that gives s rows, of which row i has the message length i·(k − 1) + 1, and they are
 * decoded jointly. Received, answer and flags are those of the one row, columns symbols each. The trial limit may go up to the joint
 * limit of the s rows, the smaller of (s·columns − K)/(s + 1) rounded down and columns − k_max, where k_max = s·(k − 1) + 1 and
 * K = (k − 1)·s·(s + 1)/2 + s; it can fall as s grows. The safe limit is that of the s rows too:
 *
 *   code              detail                      answer and flags
 *   GREN_REFUSED 0    number of the refusal       as they were; the working space too
 *   GREN_CORRECTED 1  number of wrong symbols     written: the only nearest codeword of the one row, and a flag a symbol, 1 where it
 *                                                 was wrong
 *   GREN_NONE 2       0                           as they were: no codeword is within the limit
 *   GREN_SEVERAL 3    size of the locators        as they were
 *   GREN_HOLLOW 4     size of the locator         as they were
 *
 * With s = 1 it is the decoding of the one row. The working space is as in decoding.
 *
 * LISTING EVERY ARRAY THAT FITS takes a code of at most GREN_MOST_LISTED columns and answers 256 + the number of code arrays that differ
 * from the received one in at most so many columns as the trial limit says, or the number of the refusal with the room as it was. The
 * first of them are written one after another, as many as the room has place for; what is left of the room is as it was. Those with fewer
 * wrong columns come first and, among equal numbers, those whose wrong columns come first in the dictionary. It takes no flags and no
 * working space, and tries every set of so many columns, up to 65,536 of them. After "corrected" the first array of the list is that
 * answer, and all others have more wrong columns; after "none" the list is empty, and at the safe limit or below it is empty after
 * "several" and "hollow" too.
 *
 * DECODING A TRAY takes 1 to GREN_MOST_MARKS marks of one code in one call, their arrays one after another, and writes into answers[i]
 * what decoding mark i alone answers, 256 · code + detail, and into its part of arrays and flags what that leaves. A mark with a symbol
 * outside the field is refused on its own, GREN_BAD_SYMBOL, its array and flags as they were, and the others go on. The call answers
 * GREN_DONE (256), with the working space as in decoding even where every mark was refused; or one of 1, 2, 3, 4, 18, 15, 5, 6, 23 and
 * 8, the first that applies, which refuses the tray whole with answers, arrays, flags and working space as they were. With no mark
 * answers still needs a pointer that is not null, aligned for uint32_t.
 *
 * PITS. Decoding a ring by its wrong symbols counts symbols, in whatever sectors they are, and its trial limit counts symbols too. With
 * g = q·(q − 1)/2 the limit may go up to (q³ − m − 1 − g)/2 rounded down: 10 for q = 4 and m = 37. For q = 4 and m = 58 or 59 that is
 * below zero, and every limit is refused. Up to it no two words of H(m) are within the limit of one ring, so that there are two endings
 * alone. There are q³ flags, and the working space is as in decoding:
 *
 *   code              detail                      answer and flags
 *   GREN_REFUSED 0    number of the refusal       as they were; the working space too
 *   GREN_CORRECTED 1  number of wrong symbols     written: the only word within the limit, and a flag a symbol, 1 where it was wrong
 *   GREN_NONE 2       0                           as they were: no word is within the limit
 *
 * Many wrong symbols in few sectors are for decoding by sectors, few in many sectors for this one: neither corrects all that the
 * other does.
 *
 * VERSIONS. From version 2 on the four calls on marks take factors and factor_count right after points and columns. A caller of the
 * version before, which did not name itself, hands in as many bytes of 1 as there are columns, is compiled anew, and gets the answers
 * that it got before. Version 3 has gren_mark_decode_powers and gren_tray_decode besides, version 4 gren_ring_decode_pits, and version 5
 * gren_mark_list; none of these changes anything for a caller of version 2.
 */
#ifndef GRENHYRNA_H
#define GRENHYRNA_H

#include <stddef.h>
#include <stdint.h>

#define GREN_VERSION 5 /* of these declarations */

#ifdef __cplusplus
extern "C" {
#endif

enum {
    GREN_MOST_ROWS = 4,
    GREN_MOST_COLUMNS = 96,
    GREN_MOST_SYMBOLS = 384, /* rows · columns, and so K */
    GREN_MOST_MARKS = 64,    /* of a tray */
    GREN_MOST_LISTED = 16,   /* columns, where every array that fits is listed */
    GREN_SPACE = 49152       /* bytes of working space */
};

/* What encoding and reading answer when they are not refused. */
enum { GREN_DONE = 256 };

/* The codes of a decoding's answer: gren_code(answer) and gren_detail(answer) take it apart. */
enum { GREN_REFUSED = 0, GREN_CORRECTED = 1, GREN_NONE = 2, GREN_SEVERAL = 3, GREN_HOLLOW = 4 };

static inline uint32_t gren_code(uint32_t answer)
{
    return answer / 256;
}

static inline uint32_t gren_detail(uint32_t answer)
{
    return answer % 256;
}

/* A column's flag after "corrected". */
enum { GREN_RIGHT = 0, GREN_WRONG = 1, GREN_LOST = 2 };

/* The numbers of the refusals: the first that applies, in the order of checking, is the answer. Marks check 1, 2, 3, 4, 18, 5, 6, 23,
 * 7, then reading 9 and decoding 8; rings check 10, 11, 18, 5, 7, then reading 9 and decoding 8. With lost columns 16 and 17 come
 * after 7 and before 8; 4, 18, 5, 6, 23 and 7 read all columns, lost or not, and 8 the remaining ones. Decoding by powers checks 1, 3,
 * 20, 4, 18, 5, 6, 23, 7 and 8; 4 and 18 read k and the largest length s·(k − 1) + 1, and 5 the lengths of one row. Listing
 * checks 1, 2, 3, 21, 4, 18, 5, 22, 6, 23, 7 and 8; 5 reads received and factors. Trays check 1, 2, 3, 4, 18, 15, 5, 6, 23, 8, and then
 * each mark's own 7. Decoding a ring by its wrong symbols checks 10, 11, 18, 5, 7 and 19. */
enum {
    GREN_BAD_DEGREE = 1,     /* degree is not 2, 4 or 8 */
    GREN_BAD_ROWS = 2,       /* count of the lengths is not 1 to 4 */
    GREN_BAD_COLUMNS = 3,    /* count of the points is not 1 to 96 */
    GREN_BAD_LENGTH = 4,     /* some k is not 1 to the number of columns */
    GREN_BAD_BUFFER = 5,     /* a buffer's length: factors columns, message K, array rows·columns (ring q³), flags columns (ring q²,
                                by wrong symbols q³), space at least GREN_SPACE */
    GREN_BAD_POINT = 6,      /* a point is outside the field or stood earlier in the list */
    GREN_BAD_SYMBOL = 7,     /* a symbol is outside the field */
    GREN_BAD_LIMIT = 8,      /* the trial limit is above the joint limit, with lost columns that of the remaining columns */
    GREN_NO_CODE_ARRAY = 9,  /* reading: not a code array */
    GREN_BAD_Q = 10,         /* q is not 2 or 4 */
    GREN_BAD_M = 11,         /* m is not q²−1 to q³−1 */
    GREN_BAD_MARKS = 15,     /* a tray has no mark or more than 64 */
    GREN_BAD_LOST = 16,      /* a lost column is not below the number of columns or is named twice */
    GREN_TOO_MANY_LOST = 17, /* fewer remaining columns than the largest k */
    GREN_NO_CHECKS = 18,     /* some k equals the number of columns; of a ring, of sectors */
    GREN_BAD_PITS = 19,      /* by wrong symbols: the limit is above (q³ − m − 1 − g)/2, or that is below zero */
    GREN_BAD_POWERS = 20,    /* the number of powers is not 1 to 4 */
    GREN_TOO_WIDE = 21,      /* listing: more than 16 columns */
    GREN_BAD_ROOM = 22,      /* listing: the room's length is not that of a whole number of arrays */
    GREN_BAD_FACTOR = 23     /* a factor is outside the field or zero */
};

/* Writes the code array of a message. */
uint32_t gren_mark_encode(uint32_t degree, const uint8_t *lengths, size_t rows, const uint8_t *points, size_t columns,
                          const uint8_t *factors, size_t factor_count, const uint8_t *message, size_t message_length,
                          uint8_t *array, size_t array_length);

/* Writes the message of a code array; GREN_NO_CODE_ARRAY where the array is none. */
uint32_t gren_mark_read(uint32_t degree, const uint8_t *lengths, size_t rows, const uint8_t *points, size_t columns,
                        const uint8_t *factors, size_t factor_count, const uint8_t *array, size_t array_length, uint8_t *message,
                        size_t message_length);

/* Decodes a received array up to the trial limit. */
uint32_t gren_mark_decode(uint32_t degree, const uint8_t *lengths, size_t rows, const uint8_t *points, size_t columns,
                          const uint8_t *factors, size_t factor_count, uint32_t limit, const uint8_t *received,
                          size_t received_length, uint8_t *answer, size_t answer_length, uint8_t *flags, size_t flags_length,
                          uint8_t *space, size_t space_length);

/* Decodes a received array some of whose columns are lost. */
uint32_t gren_mark_decode_lost(uint32_t degree, const uint8_t *lengths, size_t rows, const uint8_t *points, size_t columns,
                               const uint8_t *factors, size_t factor_count, uint32_t limit, const uint8_t *lost, size_t lost_count,
                               const uint8_t *received, size_t received_length, uint8_t *answer, size_t answer_length,
                               uint8_t *flags, size_t flags_length, uint8_t *space, size_t space_length);

/* Decodes a received row as powers of it, up to the trial limit. */
uint32_t gren_mark_decode_powers(uint32_t degree, uint32_t k, uint32_t powers, const uint8_t *points, size_t columns,
                                 const uint8_t *factors, size_t factor_count, uint32_t limit, const uint8_t *received,
                                 size_t received_length, uint8_t *answer, size_t answer_length, uint8_t *flags,
                                 size_t flags_length, uint8_t *space, size_t space_length);

/* Lists every code array within the trial limit: 256 + their number, and the first of them in the room. */
uint32_t gren_mark_list(uint32_t degree, const uint8_t *lengths, size_t rows, const uint8_t *points, size_t columns,
                        const uint8_t *factors, size_t factor_count, uint32_t limit, const uint8_t *received,
                        size_t received_length, uint8_t *room, size_t room_length);

/* Decodes a tray of marks of one code: received and arrays hold marks arrays one after another, and flags columns flags a mark. */
uint32_t gren_tray_decode(uint32_t degree, const uint8_t *lengths, size_t rows, const uint8_t *points, size_t columns,
                          const uint8_t *factors, size_t factor_count, uint32_t limit, const uint8_t *received,
                          size_t received_length, uint32_t *answers, size_t marks, uint8_t *arrays, size_t arrays_length,
                          uint8_t *flags, size_t flags_length, uint8_t *space, size_t space_length);

/* Writes the word of H(m) of a message. */
uint32_t gren_ring_encode(uint32_t q, uint32_t m, const uint8_t *message, size_t message_length, uint8_t *word,
                          size_t word_length);

/* Writes the message of a word of H(m); GREN_NO_CODE_ARRAY where it is none. */
uint32_t gren_ring_read(uint32_t q, uint32_t m, const uint8_t *word, size_t word_length, uint8_t *message, size_t message_length);

/* Decodes a received ring up to the trial limit, by sectors: columns above are sectors here. */
uint32_t gren_ring_decode(uint32_t q, uint32_t m, uint32_t limit, const uint8_t *received, size_t received_length, uint8_t *answer,
                          size_t answer_length, uint8_t *flags, size_t flags_length, uint8_t *space, size_t space_length);

/* Decodes a received ring some of whose sectors are lost. */
uint32_t gren_ring_decode_lost(uint32_t q, uint32_t m, uint32_t limit, const uint8_t *lost, size_t lost_count,
                               const uint8_t *received, size_t received_length, uint8_t *answer, size_t answer_length,
                               uint8_t *flags, size_t flags_length, uint8_t *space, size_t space_length);

/* Decodes a received ring by its wrong symbols, wherever they are scattered: q³ flags, one a symbol. See PITS above. */
uint32_t gren_ring_decode_pits(uint32_t q, uint32_t m, uint32_t limit, const uint8_t *received, size_t received_length,
                               uint8_t *answer, size_t answer_length, uint8_t *flags, size_t flags_length, uint8_t *space,
                               size_t space_length);

#ifdef __cplusplus
}
#endif
#endif
