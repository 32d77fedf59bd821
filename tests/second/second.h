/* The second program: an independent account of 01, written from its definitions alone. Fields by shift and exclusive or, locators
 * by plain linear algebra over all unknowns, division by long division, rings by trying all pairs. It shares nothing with the
 * proved code and is slow on purpose. */
#ifndef SECOND_H
#define SECOND_H
#include <stddef.h>
#include <stdint.h>

enum { SECOND_SPACE = 49152 };

unsigned second_product(unsigned degree, unsigned a, unsigned b);
/* by search; 0 for 0 */
unsigned second_inverse(unsigned degree, unsigned a);
unsigned second_quotient(unsigned degree, unsigned a, unsigned b);

/* The same parameters in the same order as the calls of grenhyrna.h, each answering the same number. Buffers are changed just as
 * 01 says, and with lost columns, powers, factors, trays, wrong symbols and lists 02 (2026-03, 2026-09, 2026-11, 2026-01, 2026-06,
 * 2026-10). */
uint32_t second_mark_encode(uint32_t degree, const uint8_t *lengths, size_t rows, const uint8_t *points, size_t columns,
                            const uint8_t *factors, size_t factor_count, const uint8_t *message, size_t message_length,
                            uint8_t *array, size_t array_length);
uint32_t second_mark_read(uint32_t degree, const uint8_t *lengths, size_t rows, const uint8_t *points, size_t columns,
                          const uint8_t *factors, size_t factor_count, const uint8_t *array, size_t array_length,
                          uint8_t *message, size_t message_length);
uint32_t second_mark_decode(uint32_t degree, const uint8_t *lengths, size_t rows, const uint8_t *points, size_t columns,
                            const uint8_t *factors, size_t factor_count, uint32_t limit, const uint8_t *received,
                            size_t received_length, uint8_t *answer, size_t answer_length, uint8_t *flags, size_t flags_length,
                            uint8_t *space, size_t space_length);
uint32_t second_tray_decode(uint32_t degree, const uint8_t *lengths, size_t rows, const uint8_t *points, size_t columns,
                            const uint8_t *factors, size_t factor_count, uint32_t limit, const uint8_t *received,
                            size_t received_length, uint32_t *answers, size_t marks, uint8_t *arrays, size_t arrays_length,
                            uint8_t *flags, size_t flags_length, uint8_t *space, size_t space_length);
uint32_t second_ring_encode(uint32_t q, uint32_t m, const uint8_t *message, size_t message_length, uint8_t *word,
                            size_t word_length);
uint32_t second_ring_read(uint32_t q, uint32_t m, const uint8_t *word, size_t word_length, uint8_t *message,
                          size_t message_length);
uint32_t second_ring_decode(uint32_t q, uint32_t m, uint32_t limit, const uint8_t *received, size_t received_length,
                            uint8_t *answer, size_t answer_length, uint8_t *flags, size_t flags_length, uint8_t *space,
                            size_t space_length);

/* With lost columns. */
uint32_t second_mark_decode_lost(uint32_t degree, const uint8_t *lengths, size_t rows, const uint8_t *points, size_t columns,
                                 const uint8_t *factors, size_t factor_count, uint32_t limit, const uint8_t *lost,
                                 size_t lost_count, const uint8_t *received, size_t received_length, uint8_t *answer,
                                 size_t answer_length, uint8_t *flags, size_t flags_length, uint8_t *space, size_t space_length);
uint32_t second_ring_decode_lost(uint32_t q, uint32_t m, uint32_t limit, const uint8_t *lost, size_t lost_count,
                                 const uint8_t *received, size_t received_length, uint8_t *answer, size_t answer_length,
                                 uint8_t *flags, size_t flags_length, uint8_t *space, size_t space_length);

/* By wrong symbols (02, 2026-06). */
uint32_t second_ring_decode_pits(uint32_t q, uint32_t m, uint32_t limit, const uint8_t *received, size_t received_length,
                                 uint8_t *answer, size_t answer_length, uint8_t *flags, size_t flags_length, uint8_t *space,
                                 size_t space_length);

/* One row read as its powers. */
uint32_t second_mark_decode_powers(uint32_t degree, uint32_t k, uint32_t powers, const uint8_t *points, size_t columns,
                                   const uint8_t *factors, size_t factor_count, uint32_t limit, const uint8_t *received,
                                   size_t received_length, uint8_t *answer, size_t answer_length, uint8_t *flags,
                                   size_t flags_length, uint8_t *space, size_t space_length);

/* Every array that fits. */
uint32_t second_mark_list(uint32_t degree, const uint8_t *lengths, size_t rows, const uint8_t *points, size_t columns,
                          const uint8_t *factors, size_t factor_count, uint32_t limit, const uint8_t *received,
                          size_t received_length, uint8_t *room, size_t room_length);

/* Limits of a code whose checks 1 to 4 pass; with lost columns, of the remaining ones. */
unsigned second_joint_limit(const uint8_t *lengths, size_t rows, size_t columns);
unsigned second_safe_limit(const uint8_t *lengths, size_t rows, size_t columns);
/* The message lengths of the powers of a row, as many as there are powers, where they are at most 96. */
void second_power_lengths(unsigned k, unsigned powers, uint8_t *lengths);
/* The limit of decoding a ring by its wrong symbols, and -1 where there is none. */
int second_pits_limit(unsigned q, unsigned m);
/* The message lengths of H(m), q of them. */
void second_ring_lengths(unsigned q, unsigned m, uint8_t *lengths);
#endif
