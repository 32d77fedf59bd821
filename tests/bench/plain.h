/* A plain C decoder, as an engineer would write it with tables of logarithms: what the benchmark compares with. Valid input only. */
#ifndef PLAIN_H
#define PLAIN_H
#include <stddef.h>
#include <stdint.h>
void plain_field(unsigned degree);
void plain_encode(const uint8_t *lengths, size_t rows, const uint8_t *points, size_t columns, const uint8_t *message,
                  uint8_t *array);
int plain_read(const uint8_t *lengths, size_t rows, const uint8_t *points, size_t columns, const uint8_t *array, uint8_t *message);
uint32_t plain_decode(const uint8_t *lengths, size_t rows, const uint8_t *points, size_t columns, uint32_t limit,
                      const uint8_t *received, uint8_t *answer, uint8_t *flags);
uint32_t plain_decode_lost(const uint8_t *lengths, size_t rows, const uint8_t *points, size_t columns, uint32_t limit,
                           const uint8_t *lost, size_t lost_count, const uint8_t *received, uint8_t *answer, uint8_t *flags);
/* With factors: each column of an array times its factor, and decoding what was struck so. */
void plain_multiply(size_t rows, size_t columns, const uint8_t *factors, uint8_t *array);
uint32_t plain_decode_factors(const uint8_t *lengths, size_t rows, const uint8_t *points, size_t columns, const uint8_t *factors,
                              uint32_t limit, const uint8_t *received, uint8_t *answer, uint8_t *flags);
/* One row by its powers, as many as there are lengths; its answer is the first row of what is written. */
uint32_t plain_decode_powers(const uint8_t *lengths, size_t powers, const uint8_t *points, size_t columns, uint32_t limit,
                             const uint8_t *received, uint8_t *answer, uint8_t *flags);
/* A ring of H(m) over GF(16) by its wrong symbols; the ring's points are worked out before, once. */
void plain_ring_points(void);
uint32_t plain_decode_pits(uint32_t m, uint32_t limit, const uint8_t *received, uint8_t *answer, uint8_t *flags);
#endif
