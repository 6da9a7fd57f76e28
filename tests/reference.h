/*
 * A second statement of the rules in plain C. It shares no code and no
 * constants with the library or its header.
 */
#ifndef REFERENCE_H
#define REFERENCE_H

#include <stddef.h>
#include <stdint.h>
#include <stdio.h>

/* Tables, site file, frames, places. */
uint64_t ref_fresh(uint8_t *locks, size_t locks_len,
                   uint8_t *stations, size_t stations_len);
uint64_t ref_check_tables(const uint8_t *locks, size_t locks_len,
                          const uint8_t *stations, size_t stations_len);
uint64_t ref_check_site(const uint8_t *site, size_t site_len);
uint64_t ref_frame(uint32_t number,
                   const uint8_t *frame, size_t frame_len,
                   const uint8_t *site, size_t site_len,
                   uint8_t *locks, size_t locks_len,
                   uint8_t *stations, size_t stations_len);
uint64_t ref_place(uint32_t volume, uint32_t partition,
                   uint32_t track, uint32_t sector,
                   const uint8_t *site, size_t site_len);

/* Request frames by themselves. A number too large for its field is written
 * as the largest that fits: 255, for a track 65535. */
uint64_t ref_read_frame(const uint8_t *frame, size_t frame_len);
uint64_t ref_write_acknowledge(uint8_t *buffer, size_t buffer_len);
uint64_t ref_write_read(uint32_t src, uint32_t volume, uint32_t partition,
                        uint32_t track, uint32_t sector,
                        uint8_t *buffer, size_t buffer_len);
uint64_t ref_write_write(uint32_t src, uint32_t volume, uint32_t partition,
                         uint32_t track, uint32_t sector,
                         uint8_t *buffer, size_t buffer_len);
uint64_t ref_write_login(const uint8_t name[8], const uint8_t password[6],
                         const uint8_t serial[4], uint8_t product,
                         uint8_t *buffer, size_t buffer_len);
uint64_t ref_write_assign(const uint8_t name[8], const uint8_t password[6],
                          uint8_t *buffer, size_t buffer_len);
uint64_t ref_write_lock(const uint8_t lockstring[14], uint8_t *buffer, size_t buffer_len);
uint64_t ref_write_unlock(const uint8_t lockstring[14], uint8_t *buffer, size_t buffer_len);
uint64_t ref_write_clear(uint8_t *buffer, size_t buffer_len);
uint64_t ref_write_logout(uint32_t src, uint8_t *buffer, size_t buffer_len);

/* Poll turns. */
uint64_t ref_due(uint32_t number,
                 const uint8_t *locks, size_t locks_len,
                 const uint8_t *stations, size_t stations_len);
uint64_t ref_poll(uint32_t number, uint32_t heard,
                  uint8_t *locks, size_t locks_len,
                  uint8_t *stations, size_t stations_len);

/* The station's end. */
uint64_t ref_station_fresh(uint8_t *station, size_t station_len);
uint64_t ref_station_lock(uint8_t *station, size_t station_len,
                          const uint8_t lockstring[14]);
uint64_t ref_station_unlock(uint8_t *station, size_t station_len,
                            const uint8_t lockstring[14]);
uint64_t ref_station_clear(uint8_t *station, size_t station_len);
uint64_t ref_station_frame(const uint8_t *station, size_t station_len,
                           uint8_t *buffer, size_t buffer_len);
uint64_t ref_station_reply(uint8_t *station, size_t station_len,
                           uint32_t reply);

/* Disk parameters. */
uint64_t ref_cpm_parameters(uint32_t size, uint8_t *buffer, size_t buffer_len);
uint64_t ref_msdos_parameters(uint32_t size, uint8_t *buffer, size_t buffer_len);

/* What a station loads at login. */
uint64_t ref_boot(const uint8_t serial[4], const uint8_t name[8], const uint8_t password[6],
                  const uint8_t *machines, size_t machines_len,
                  const uint8_t *products, size_t products_len,
                  const uint8_t *users, size_t users_len,
                  const uint8_t *configurations, size_t configurations_len,
                  const uint8_t *systems, size_t systems_len,
                  const uint8_t *directory, size_t directory_len,
                  uint8_t *block, size_t block_len);

/* The frame on the line; the check of any bytes too. */
uint64_t ref_line_write(uint8_t user, const uint8_t *data, size_t data_len,
                        uint8_t *bits, size_t bits_len);
uint64_t ref_line_read(const uint8_t *bits, size_t bits_len, size_t bit_count,
                       uint8_t *data, size_t data_len);
uint64_t ref_line_frame(uint32_t number,
                        const uint8_t *bits, size_t bits_len, size_t bit_count,
                        const uint8_t *site, size_t site_len,
                        uint8_t *locks, size_t locks_len,
                        uint8_t *stations, size_t stations_len);
unsigned ref_line_check(const uint8_t *bytes, size_t len);

/* The earlier row of the pair that a fault names: the first one before the row
 * named that clashes with it in the way named. Only for a fault of a pair. */
unsigned ref_earlier_row(const uint8_t *site, uint64_t fault);

/* A line of the session program. */
void ref_print_line(FILE *out, unsigned long index, uint8_t number, uint64_t answer);

#endif
