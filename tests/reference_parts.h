/* What the files of the reference share. */
#ifndef REFERENCE_PARTS_H
#define REFERENCE_PARTS_H

#include <stddef.h>
#include <stdint.h>

enum {
    USERS = 64,             /* user numbers 0 to 63 */
    LOGIN_NUMBER = 253,
    LOCK_ROWS = 64,
    LOCK_ROW = 16,          /* owner, length, string 13, spare */
    FREE = 0xFF,            /* owner of a free row */
    STRING_MOST = 13,
    SLOW_FROM = 160,        /* misses from which a station is slow */
    SLOW_TURNS = 11,        /* slow turns before a slow station is due */
    MISSES_MOST = 255
};

/* Codes of request frames. */
enum {
    ACKNOWLEDGE = 0x41,
    READ = 0x11,
    WRITE = 0x12,
    LOGIN = 0x13,
    ASSIGN = 0x17,
    LOCK = 0x19,
    UNLOCK = 0x1A,
    CLEAR = 0x1B,
    LOGOUT = 0x1F
};

/* Bytes of a station record. */
enum {
    LOGGED_IN = 0,
    MISSES = 1,
    SLOW = 3,
    NAME = 4,
    SERIAL = 12,
    PRODUCT = 16,
    FOUND = 17,
    RECORD = 18
};

/* Bytes of a partition row. */
enum {
    ROW_PASSWORD = 8,
    ROW_VOLUME = 14,
    ROW_PARTITION = 15,
    ROW_SIZE = 16,
    ROW_CONTROL = 17,
    ROW_FIRST = 18,
    ROW_ZEROS = 22
};

/* A 16-bit number, low byte first. */
static inline unsigned ref_number16(const uint8_t *bytes)
{
    return bytes[0] | (unsigned)bytes[1] << 8;
}

static inline int ref_all_zero(const uint8_t *bytes, size_t count)
{
    for (size_t i = 0; i < count; i++)
        if (bytes[i] != 0)
            return 0;
    return 1;
}

static inline int ref_legal_length(uint8_t length)
{
    return length >= 1 && length <= STRING_MOST;
}

/* Puts byte i of an answer in its place. */
static inline uint64_t ref_byte(unsigned i, uint8_t byte)
{
    return (uint64_t)byte << (16 + 8 * i);
}

/* Two lock strings of legal length, each a length byte and then its bytes. */
int ref_same_string(const uint8_t *a, const uint8_t *b);

/* Total length of a frame by its code, 0 for a code not in the table. */
size_t ref_frame_length(uint8_t code);

/* Does a frame of this code have a dtn, its second byte? */
int ref_has_dtn(uint8_t code);

/* The site file. A search gives the row, or NULL. */
int ref_user_known(const uint8_t *site, const uint8_t *name, const uint8_t *password);
const uint8_t *ref_partition_named(const uint8_t *site, const uint8_t *name);
uint64_t ref_place_in(const uint8_t *site, uint32_t volume, uint32_t partition,
                      uint32_t track, uint32_t sector);

/* The running tables. */
int ref_tables_good(const uint8_t *locks, size_t locks_len,
                    const uint8_t *stations, size_t stations_len);
int ref_logged_in(const uint8_t *stations, uint32_t number);
void ref_free_row(uint8_t *row);
void ref_free_locks(uint8_t *locks, uint8_t owner);
void ref_log_out(uint8_t *locks, uint8_t *stations, uint8_t number);

#endif
