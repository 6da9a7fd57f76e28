/* The running tables: fresh ones, their check, rows freed, a logout. */
#include "reference.h"
#include "reference_parts.h"

#include <string.h>

int ref_same_string(const uint8_t *a, const uint8_t *b)
{
    return a[0] == b[0] && memcmp(a + 1, b + 1, a[0]) == 0;
}

static int sizes_good(size_t locks_len, size_t stations_len)
{
    return locks_len == LOCK_ROWS * LOCK_ROW && stations_len == USERS * RECORD;
}

uint64_t ref_fresh(uint8_t *locks, size_t locks_len,
                   uint8_t *stations, size_t stations_len)
{
    if (!sizes_good(locks_len, stations_len))
        return 11;
    for (unsigned i = 0; i < LOCK_ROWS; i++)
        ref_free_row(locks + LOCK_ROW * i);
    memset(stations, 0, stations_len);
    stations[LOGGED_IN] = 1;
    return 0;
}

/* Record 0: logged in, all else zero or no. */
static int local_good(const uint8_t *record)
{
    return record[LOGGED_IN] == 1 && ref_all_zero(record + 1, RECORD - 1);
}

static int record_good(const uint8_t *record)
{
    if (record[LOGGED_IN] == 0)
        return ref_all_zero(record, RECORD);
    if (record[LOGGED_IN] != 1 || record[FOUND] > 1)
        return 0;
    unsigned misses = ref_number16(record + MISSES);
    if (misses > MISSES_MOST || record[SLOW] > SLOW_TURNS)
        return 0;
    return misses >= SLOW_FROM || record[SLOW] == 0;
}

static int records_good(const uint8_t *stations)
{
    if (!local_good(stations))
        return 0;
    for (unsigned i = 1; i < USERS; i++)
        if (!record_good(stations + RECORD * i))
            return 0;
    return 1;
}

/* A row by itself: free, or used with a legal string and a good owner. */
static int row_good(const uint8_t *row, const uint8_t *stations)
{
    uint8_t owner = row[0], length = row[1];
    if (owner == FREE)
        return ref_all_zero(row + 1, LOCK_ROW - 1);
    if (!ref_logged_in(stations, owner) || !ref_legal_length(length))
        return 0;
    return ref_all_zero(row + 2 + length, LOCK_ROW - 2 - length);
}

/* Does an earlier used row hold the string of row i? */
static int held_earlier(const uint8_t *locks, unsigned i)
{
    const uint8_t *row = locks + LOCK_ROW * i;
    for (unsigned j = 0; j < i; j++) {
        const uint8_t *other = locks + LOCK_ROW * j;
        if (other[0] != FREE && ref_same_string(other + 1, row + 1))
            return 1;
    }
    return 0;
}

static int locks_good(const uint8_t *locks, const uint8_t *stations)
{
    for (unsigned i = 0; i < LOCK_ROWS; i++) {
        const uint8_t *row = locks + LOCK_ROW * i;
        if (!row_good(row, stations))
            return 0;
        if (row[0] != FREE && held_earlier(locks, i))
            return 0;
    }
    return 1;
}

int ref_tables_good(const uint8_t *locks, size_t locks_len,
                    const uint8_t *stations, size_t stations_len)
{
    return sizes_good(locks_len, stations_len)
        && records_good(stations)
        && locks_good(locks, stations);
}

uint64_t ref_check_tables(const uint8_t *locks, size_t locks_len,
                          const uint8_t *stations, size_t stations_len)
{
    return ref_tables_good(locks, locks_len, stations, stations_len) ? 0 : 11;
}

int ref_logged_in(const uint8_t *stations, uint32_t number)
{
    return number < USERS && stations[RECORD * number + LOGGED_IN] == 1;
}

void ref_free_row(uint8_t *row)
{
    row[0] = FREE;
    memset(row + 1, 0, LOCK_ROW - 1);
}

void ref_free_locks(uint8_t *locks, uint8_t owner)
{
    for (unsigned i = 0; i < LOCK_ROWS; i++)
        if (locks[LOCK_ROW * i] == owner)
            ref_free_row(locks + LOCK_ROW * i);
}

void ref_log_out(uint8_t *locks, uint8_t *stations, uint8_t number)
{
    ref_free_locks(locks, number);
    memset(stations + RECORD * number, 0, RECORD);
}
