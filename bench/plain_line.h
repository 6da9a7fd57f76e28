/*
 * The frame on the line in plain C, for the library to be compared with: a loop
 * over the bits, the check by a table of 256. Writing counts the bits first and
 * then lays them. Reading fills a buffer of its own, and copies when all is good.
 */
#ifndef PLAIN_LINE_H
#define PLAIN_LINE_H

#include <stddef.h>
#include <stdint.h>

uint64_t plain_line_write(uint8_t user, const uint8_t *data, size_t data_len,
                          uint8_t *bits, size_t bits_len);
uint64_t plain_line_read(const uint8_t *bits, size_t bits_len, size_t bit_count,
                         uint8_t *data, size_t data_len);

#endif
