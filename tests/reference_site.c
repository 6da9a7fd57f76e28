/* The site file: its check, its users, its partitions, and places. */
#include "reference.h"
#include "reference_parts.h"

#include <string.h>

enum {
    HEADER = 8,
    USER_ROW = 16,
    PARTITION_ROW = 24,
    USERS_MOST = 128,
    PARTITIONS_MOST = 64,
    VOLUME_LAST = 3,
    PARTITION_LAST = 63,
    SIZE_LAST = 6,
    TRACK_SECTORS = 128,
    VOLUME_SECTORS = 1048576
};

static unsigned user_count(const uint8_t *site)
{
    return ref_number16(site);
}

static unsigned partition_count(const uint8_t *site)
{
    return ref_number16(site + 4);
}

static const uint8_t *user_rows(const uint8_t *site)
{
    return site + HEADER;
}

static const uint8_t *partition_rows(const uint8_t *site)
{
    return site + HEADER + USER_ROW * user_count(site);
}

static uint32_t first_sector(const uint8_t *row)
{
    return ref_number16(row + ROW_FIRST)
         | (uint32_t)ref_number16(row + ROW_FIRST + 2) << 16;
}

static uint32_t tracks(const uint8_t *row)
{
    return (uint32_t)16 << (row[ROW_SIZE] - 1);
}

static uint32_t sectors(const uint8_t *row)
{
    return tracks(row) * TRACK_SECTORS;
}

static int pads(uint8_t byte)
{
    return byte == 0 || byte == ' ';
}

/* Zeros and spaces at the end do not count: from the first byte that differs on,
 * both names are padding. */
static int same_name(const uint8_t *a, const uint8_t *b)
{
    unsigned k = 0;
    while (k < 8 && a[k] == b[k])
        k++;
    while (k < 8 && pads(a[k]) && pads(b[k]))
        k++;
    return k == 8;
}

/* ---- the check ---- */

/* The bytes of a fault: where it is, and what is wrong there. */
enum { IN_HEADER = 0, IN_USER_ROW = 1, IN_PARTITION_ROW = 2 };
enum { NO_BREACH = 0, RANGE = 1, NAME_TWICE = 2, NUMBER_TWICE = 3, OVERLAP = 4 };

/* Refusal 10 with its fault: kind 7, then part, row and breach. */
static uint64_t fault_word(unsigned part, unsigned row, unsigned breach)
{
    return 10 | 7 << 8 | ref_byte(0, (uint8_t)part) | ref_byte(1, (uint8_t)row)
         | ref_byte(2, (uint8_t)breach);
}

static int header_good(const uint8_t *site, size_t site_len)
{
    if (site_len < HEADER)
        return 0;
    unsigned users = user_count(site);
    unsigned partitions = partition_count(site);
    if (users > USERS_MOST || partitions > PARTITIONS_MOST)
        return 0;
    if (ref_number16(site + 2) != HEADER)
        return 0;
    if (ref_number16(site + 6) != HEADER + USER_ROW * users)
        return 0;
    return site_len == HEADER + USER_ROW * users + PARTITION_ROW * partitions;
}

/* The first user row with the name of row i, which is i where none before it has
 * that name. */
static unsigned first_user_named(const uint8_t *rows, unsigned i)
{
    unsigned j = 0;
    while (j < i && !same_name(rows + USER_ROW * j, rows + USER_ROW * i))
        j++;
    return j;
}

/* No two users share a name. */
static uint64_t user_fault(const uint8_t *rows, unsigned count)
{
    for (unsigned i = 1; i < count; i++)
        if (first_user_named(rows, i) < i)
            return fault_word(IN_USER_ROW, i, NAME_TWICE);
    return 0;
}

/* A partition row by itself. */
static int in_range(const uint8_t *row)
{
    if (row[ROW_VOLUME] > VOLUME_LAST || row[ROW_PARTITION] > PARTITION_LAST)
        return 0;
    if (row[ROW_SIZE] < 1 || row[ROW_SIZE] > SIZE_LAST)
        return 0;
    if (first_sector(row) > VOLUME_SECTORS - sectors(row))
        return 0;
    return row[ROW_ZEROS] == 0 && row[ROW_ZEROS + 1] == 0;
}

static int overlap(const uint8_t *a, const uint8_t *b)
{
    return first_sector(a) < first_sector(b) + sectors(b)
        && first_sector(b) < first_sector(a) + sectors(a);
}

/* The first breach of two partition rows in range beside each other. */
static unsigned pair_breach(const uint8_t *a, const uint8_t *b)
{
    if (same_name(a, b))
        return NAME_TWICE;
    if (a[ROW_VOLUME] != b[ROW_VOLUME])
        return NO_BREACH;
    if (a[ROW_PARTITION] == b[ROW_PARTITION])
        return NUMBER_TWICE;
    return overlap(a, b) ? OVERLAP : NO_BREACH;
}

/* The first partition row whose first breach beside row i is this one, which is i
 * where none before it has that breach. */
static unsigned first_clash(const uint8_t *rows, unsigned i, unsigned breach)
{
    unsigned j = 0;
    while (j < i && pair_breach(rows + PARTITION_ROW * j, rows + PARTITION_ROW * i) != breach)
        j++;
    return j;
}

/* Does partition row i clash with a row before it? */
static int any_clash(const uint8_t *rows, unsigned i)
{
    for (unsigned j = 0; j < i; j++)
        if (pair_breach(rows + PARTITION_ROW * j, rows + PARTITION_ROW * i) != NO_BREACH)
            return 1;
    return 0;
}

/* The first breach of a partition row, beside good rows before it. */
static unsigned row_breach(const uint8_t *rows, unsigned i)
{
    unsigned breach = NAME_TWICE;
    if (!in_range(rows + PARTITION_ROW * i))
        return RANGE;
    if (!any_clash(rows, i))
        return NO_BREACH;
    while (first_clash(rows, i, breach) == i)
        breach++;
    return breach;
}

static uint64_t partition_fault(const uint8_t *rows, unsigned count)
{
    for (unsigned i = 0; i < count; i++) {
        unsigned breach = row_breach(rows, i);
        if (breach != NO_BREACH)
            return fault_word(IN_PARTITION_ROW, i, breach);
    }
    return 0;
}

/* The first fault: the header, the user rows, the partition rows. */
uint64_t ref_check_site(const uint8_t *site, size_t site_len)
{
    if (!header_good(site, site_len))
        return fault_word(IN_HEADER, 0, RANGE);
    uint64_t found = user_fault(user_rows(site), user_count(site));
    if (found != 0)
        return found;
    return partition_fault(partition_rows(site), partition_count(site));
}

/* Beside a row whose first breach is named, no row has one that goes before it. */
unsigned ref_earlier_row(const uint8_t *site, uint64_t fault)
{
    unsigned part = (unsigned)(fault >> 16 & 0xFF);
    unsigned row = (unsigned)(fault >> 24 & 0xFF);
    unsigned breach = (unsigned)(fault >> 32 & 0xFF);
    if (part == IN_USER_ROW)
        return first_user_named(user_rows(site), row);
    return first_clash(partition_rows(site), row, breach);
}

/* ---- users, partitions, places ---- */

/* Is there a user row with that name and password? */
int ref_user_known(const uint8_t *site, const uint8_t *name, const uint8_t *password)
{
    const uint8_t *rows = user_rows(site);
    unsigned count = user_count(site);
    for (unsigned i = 0; i < count; i++) {
        const uint8_t *row = rows + USER_ROW * i;
        if (same_name(row, name))
            return memcmp(row + ROW_PASSWORD, password, 6) == 0;
    }
    return 0;
}

const uint8_t *ref_partition_named(const uint8_t *site, const uint8_t *name)
{
    const uint8_t *rows = partition_rows(site);
    unsigned count = partition_count(site);
    for (unsigned i = 0; i < count; i++)
        if (same_name(rows + PARTITION_ROW * i, name))
            return rows + PARTITION_ROW * i;
    return NULL;
}

static const uint8_t *partition_at(const uint8_t *site, uint32_t volume, uint32_t partition)
{
    const uint8_t *rows = partition_rows(site);
    unsigned count = partition_count(site);
    for (unsigned i = 0; i < count; i++) {
        const uint8_t *row = rows + PARTITION_ROW * i;
        if (row[ROW_VOLUME] == volume && row[ROW_PARTITION] == partition)
            return row;
    }
    return NULL;
}

/* The place of an address in a good site file: 8, 9, or kind 3. */
uint64_t ref_place_in(const uint8_t *site, uint32_t volume, uint32_t partition,
                      uint32_t track, uint32_t sector)
{
    const uint8_t *row = partition_at(site, volume, partition);
    if (row == NULL)
        return 8;
    if (track >= tracks(row) || sector < 1 || sector > TRACK_SECTORS)
        return 9;
    uint32_t place = first_sector(row) + track * TRACK_SECTORS + sector - 1;
    return 3 << 8 | ref_byte(0, row[ROW_VOLUME]) | (uint64_t)place << 24;
}

uint64_t ref_place(uint32_t volume, uint32_t partition,
                   uint32_t track, uint32_t sector,
                   const uint8_t *site, size_t site_len)
{
    uint64_t fault = ref_check_site(site, site_len);
    if (fault != 0)
        return fault;
    return ref_place_in(site, volume, partition, track, sector);
}
