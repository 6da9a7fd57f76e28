/* Site files: good ones, ones at a limit, damaged ones. */
#include "generate.h"

#include <string.h>

enum {
    HEADER = 8, USER_ROW = 16, PARTITION_ROW = 24,
    VOLUME = 14, NUMBER = 15, SIZE = 16, CONTROL = 17, FIRST = 18, SPARE = 22,
    SMALLEST = 2048,            /* sectors of size code 1 */
    VOLUME_SECTORS = 1048576
};

static void put16(uint8_t *bytes, unsigned number)
{
    bytes[0] = (uint8_t)(number & 0xFF);
    bytes[1] = (uint8_t)(number >> 8 & 0xFF);
}

static void put32(uint8_t *bytes, uint32_t number)
{
    put16(bytes, number & 0xFFFF);
    put16(bytes + 2, number >> 16);
}

static uint32_t sectors_of(unsigned size)
{
    return (uint32_t)1024 << size;
}

/* ---- rows ---- */

unsigned site_users(const struct site *site)
{
    return site->bytes[0] | (unsigned)site->bytes[1] << 8;
}

unsigned site_partitions(const struct site *site)
{
    return site->bytes[4] | (unsigned)site->bytes[5] << 8;
}

static uint8_t *user(struct site *site, unsigned i)
{
    return site->bytes + HEADER + USER_ROW * i;
}

static uint8_t *partition(struct site *site, unsigned i)
{
    return site->bytes + HEADER + USER_ROW * site_users(site) + PARTITION_ROW * i;
}

const uint8_t *site_user(const struct site *site, unsigned i)
{
    return site->bytes + HEADER + USER_ROW * i;
}

const uint8_t *site_partition(const struct site *site, unsigned i)
{
    return site->bytes + HEADER + USER_ROW * site_users(site) + PARTITION_ROW * i;
}

static void swap_partitions(struct site *site, unsigned i, unsigned j)
{
    uint8_t row[PARTITION_ROW];
    memcpy(row, partition(site, i), PARTITION_ROW);
    memmove(partition(site, i), partition(site, j), PARTITION_ROW);
    memcpy(partition(site, j), row, PARTITION_ROW);
}

/* ---- names ---- */

static int pads(uint8_t byte)
{
    return byte == 0 || byte == ' ';
}

void name_repadded(struct rng *rng, uint8_t name[8])
{
    for (unsigned k = 8; k > 0 && pads(name[k - 1]); k--)
        name[k - 1] = rng_one_in(rng, 2) ? 0 : ' ';
}

/* From the end: as long as both pad they may differ, and then no byte may. */
int equal_names(const uint8_t a[8], const uint8_t b[8])
{
    int padding = 1;
    for (unsigned k = 8; k > 0; k--) {
        padding = padding && pads(a[k - 1]) && pads(b[k - 1]);
        if (!padding && a[k - 1] != b[k - 1])
            return 0;
    }
    return 1;
}

static int name_taken(const uint8_t *rows, size_t row, unsigned i)
{
    for (unsigned j = 0; j < i; j++)
        if (equal_names(rows + row * j, rows + row * i))
            return 1;
    return 0;
}

/* How the names of a table look beside each other. */
struct names {
    enum { ONE_PLACE, NUMBERED, RANDOM, BLANKS, NAME_STYLES } style;
    unsigned place;
    uint8_t common[8];
};

/* Names that differ from a common one (random, zero or blank) in one byte only;
 * numbered ones; random ones; ones of zeros, spaces and two letters. */
static struct names any_names(struct rng *rng)
{
    struct names names = { rng_below(rng, NAME_STYLES), rng_below(rng, 8), { 0 } };
    switch (rng_below(rng, 3)) {
    case 0:  rng_bytes(rng, names.common, 8); break;
    case 1:  memset(names.common, ' ', 8); break;
    default: break;
    }
    return names;
}

static void draw_name(struct rng *rng, const struct names *names, unsigned i, uint8_t *name)
{
    static const uint8_t few[] = { 0, ' ', 'A', 'a' };
    memcpy(name, names->common, 8);
    switch (names->style) {
    case NUMBERED:
        memcpy(name, "NAME    ", 8);
        put16(name + 4, (unsigned)('A' + i / 16) | (unsigned)('a' + i % 16) << 8);
        break;
    case RANDOM:
        rng_bytes(rng, name, 8);
        break;
    case BLANKS:
        for (unsigned k = 0; k < 8; k++)
            name[k] = RNG_PICK(rng, few);
        break;
    default:
        name[names->place] = (uint8_t)(name[names->place] + i);
        break;
    }
}

/* Different names, padded in one way or in several. */
static void draw_names(struct rng *rng, uint8_t *rows, size_t row, unsigned count)
{
    struct names names = any_names(rng);
    int padded = rng_one_in(rng, 2);
    for (unsigned i = 0; i < count; i++) {
        uint8_t *name = rows + row * i;
        draw_name(rng, &names, i, name);
        while (name_taken(rows, row, i))
            name[names.place]++;
        if (padded)
            name_repadded(rng, name);
    }
}

/* ---- good files ---- */

static void draw_password(struct rng *rng, uint8_t *password)
{
    switch (rng_below(rng, 4)) {
    case 0:  memset(password, 0, 6); break;
    case 1:  memset(password, ' ', 6); break;
    case 2:  memcpy(password, "SECRET", 6); break;
    default: rng_bytes(rng, password, 6); break;
    }
}

/* The free sectors before a partition; none for about half of them. */
static uint32_t draw_gap(struct rng *rng, uint32_t room)
{
    switch (rng_below(rng, 6)) {
    case 0:  return room < 3 ? 0 : 1 + rng_below(rng, 2);
    case 1:  return rng_below(rng, room / 4 + 1);
    case 2:  return rng_one_in(rng, 4) ? room : 0;
    default: return 0;
    }
}

/* The largest size code up to a drawn one that fits. */
static unsigned draw_size(struct rng *rng, uint32_t room)
{
    unsigned size = 1 + rng_below(rng, 6);
    while (size > 1 && sectors_of(size) > room)
        size--;
    return size;
}

/* Lays count partitions from row index on along one volume. */
static void lay_volume(struct rng *rng, struct site *site, unsigned index,
                       unsigned count, unsigned volume)
{
    unsigned number = rng_below(rng, 64), step = 1 + 2 * rng_below(rng, 32);
    uint32_t next = 0;
    for (unsigned k = 0; k < count; k++) {
        uint8_t *row = partition(site, index + k);
        uint32_t room = VOLUME_SECTORS - next - (count - 1 - k) * SMALLEST;
        unsigned size = draw_size(rng, room);
        next += draw_gap(rng, room - sectors_of(size));
        row[VOLUME] = (uint8_t)volume;
        row[NUMBER] = (uint8_t)((number + step * k) % 64);
        row[SIZE] = (uint8_t)size;
        row[CONTROL] = rng_byte(rng);
        put32(row + FIRST, next);
        next += sectors_of(size);
    }
}

/* The partitions are dealt out to the volumes and their rows are mixed. */
static void lay_partitions(struct rng *rng, struct site *site,
                           unsigned count, unsigned volumes)
{
    unsigned index = 0;
    for (unsigned v = 0; v < volumes; v++) {
        unsigned share = (count - index) / (volumes - v);
        lay_volume(rng, site, index, share, v);
        index += share;
    }
    for (unsigned i = 1; i < count; i++)
        swap_partitions(site, i, rng_below(rng, i + 1));
    draw_names(rng, partition(site, 0), PARTITION_ROW, count);
    for (unsigned i = 0; i < count; i++)
        draw_password(rng, partition(site, i) + 8);
}

void site_good(struct rng *rng, struct site *site,
               unsigned users, unsigned partitions, unsigned volumes)
{
    memset(site->bytes, 0, SITE_ROOM);
    put16(site->bytes, users);
    put16(site->bytes + 2, HEADER);
    put16(site->bytes + 4, partitions);
    put16(site->bytes + 6, HEADER + USER_ROW * users);
    site->len = HEADER + USER_ROW * users + PARTITION_ROW * partitions;
    draw_names(rng, user(site, 0), USER_ROW, users);
    for (unsigned i = 0; i < users; i++) {
        draw_password(rng, user(site, i) + 8);
        rng_bytes(rng, user(site, i) + 14, 2);
    }
    lay_partitions(rng, site, partitions, volumes);
}

void site_any(struct rng *rng, struct site *site)
{
    unsigned volumes = 1 + rng_below(rng, 4);
    switch (rng_below(rng, 12)) {
    case 0:  site_good(rng, site, 0, 0, volumes); break;
    case 1:  site_good(rng, site, 128, 64, volumes); break;
    case 2:  site_good(rng, site, rng_below(rng, 129), rng_below(rng, 65), volumes); break;
    default: site_good(rng, site, rng_below(rng, 12), rng_below(rng, 12), volumes); break;
    }
}

/* ---- at a limit ---- */

/* Adds a row of size code 1 at the end; volume 3 is free for such rows. */
static uint8_t *add_row(struct site *site, unsigned number, uint32_t first)
{
    unsigned count = site_partitions(site);
    uint8_t *row = partition(site, count);
    memset(row, 0, PARTITION_ROW);
    memcpy(row, "\xE0 added", 7);
    row[7] = (uint8_t)('@' + number);
    row[VOLUME] = 3;
    row[NUMBER] = (uint8_t)number;
    row[SIZE] = 1;
    put32(row + FIRST, first);
    put16(site->bytes + 4, count + 1);
    site->len += PARTITION_ROW;
    return row;
}

/* A file with rows on volumes 0 to 2 only. */
static void with_volume_3_free(struct rng *rng, struct site *site)
{
    site_good(rng, site, rng_below(rng, 20), rng_below(rng, 40), 3);
}

/* Moves the added rows, the last ones, to any place among the others. */
static void mix_rows(struct rng *rng, struct site *site)
{
    unsigned count = site_partitions(site);
    for (unsigned i = count; i-- > 0 && i + 2 >= count;)
        swap_partitions(site, i, rng_below(rng, count));
}

static void last_place(struct rng *rng, struct site *site, uint32_t beyond)
{
    unsigned size = 1 + rng_below(rng, 6);
    uint8_t *row = add_row(site, 5, 0);
    row[SIZE] = (uint8_t)size;
    put32(row + FIRST, VOLUME_SECTORS - sectors_of(size) + beyond);
}

static void full_volume(struct rng *rng, struct site *site)
{
    site_good(rng, site, 3, 0, 1);
    for (unsigned i = 0; i < 64; i++) {
        uint8_t *row = add_row(site, i, i * sectors_of(4));
        row[SIZE] = 4;
    }
}

/* Two rows, the second of random size at a distance from the first's edge. */
static void row_above(struct rng *rng, struct site *site, uint32_t overlap)
{
    unsigned size = 1 + rng_below(rng, 6);
    uint8_t *row = add_row(site, 7, 100000);
    row[SIZE] = (uint8_t)size;
    add_row(site, 8, 100000 + sectors_of(size) - overlap)[SIZE] = (uint8_t)(1 + rng_below(rng, 6));
}

static void row_below(struct rng *rng, struct site *site, uint32_t overlap)
{
    unsigned size = 1 + rng_below(rng, 6);
    add_row(site, 7, 100000)[SIZE] = (uint8_t)(1 + rng_below(rng, 6));
    add_row(site, 8, 100000 - sectors_of(size) + overlap)[SIZE] = (uint8_t)size;
}

void site_at_limit(struct rng *rng, struct site *site, enum site_limit limit)
{
    with_volume_3_free(rng, site);
    switch (limit) {
    case LIMIT_EMPTY:         site_good(rng, site, 0, 0, 1); return;
    case LIMIT_LARGEST:       site_good(rng, site, 128, 64, 1 + rng_below(rng, 4)); return;
    case LIMIT_FULL_VOLUME:   full_volume(rng, site); return;
    case LIMIT_NUMBER_63:     add_row(site, 63, 0); break;
    case LIMIT_ENDS_AT_LAST:  last_place(rng, site, 0); break;
    case LIMIT_TOUCHES_BELOW: row_below(rng, site, 0); break;
    case LIMIT_TOUCHES_ABOVE: row_above(rng, site, 0); break;
    case LIMIT_NUMBER_ON_TWO_VOLUMES:
    case LIMIT_SECTORS_ON_TWO_VOLUMES:
        site_good(rng, site, 3, 0, 1);
        add_row(site, 9, 70000);
        add_row(site, 10, limit == LIMIT_NUMBER_ON_TWO_VOLUMES ? 0 : 70000)[VOLUME] = 1;
        if (limit == LIMIT_NUMBER_ON_TWO_VOLUMES)
            partition(site, 1)[NUMBER] = 9;
        break;
    case LIMIT_USER_NAMED_AS_PARTITION:
        site_good(rng, site, 3, 4, 2);
        memcpy(user(site, 2), partition(site, 2), 14);
        return;
    default:
        return;
    }
    mix_rows(rng, site);
}

/* ---- damaged ---- */

static void damage_header(struct rng *rng, struct site *site, enum site_damage damage)
{
    site_good(rng, site, 1 + rng_below(rng, 20), 1 + rng_below(rng, 20), 3);
    uint8_t *bytes = site->bytes;
    switch (damage) {
    case SITE_NO_BYTES:   site->len = 0; break;
    case SITE_7_BYTES:    site_good(rng, site, 0, 0, 1); site->len = 7; break;
    case SITE_SHORT_BY_1: site->len--; break;
    case SITE_LONG_BY_1:  site->len++; break;
    case SITE_USERS_129:  site_good(rng, site, 129, rng_below(rng, 40), 3); break;
    case SITE_USERS_HIGH_BYTE:            bytes[1] = rng_nonzero(rng); break;
    case SITE_USERS_65535:                put16(bytes, 65535); break;
    case SITE_PARTITIONS_65:              site_good(rng, site, rng_below(rng, 40), 65, 4); break;
    case SITE_PARTITIONS_HIGH_BYTE:       bytes[5] = rng_nonzero(rng); break;
    case SITE_PARTITIONS_65535:           put16(bytes + 4, 65535); break;
    case SITE_USER_OFFSET_7:              bytes[2]--; break;
    case SITE_USER_OFFSET_9:              bytes[2]++; break;
    case SITE_USER_OFFSET_HIGH_BYTE:      bytes[3] = rng_nonzero(rng); break;
    case SITE_PARTITION_OFFSET_LESS:      put16(bytes + 6, 7 + USER_ROW * site_users(site)); break;
    case SITE_PARTITION_OFFSET_MORE:      put16(bytes + 6, 9 + USER_ROW * site_users(site)); break;
    default:                              bytes[7] ^= rng_nonzero(rng); break;
    }
}

/* One partition row that is alone on volume 3 breaks one rule. */
static void damage_row(struct rng *rng, struct site *site, enum site_damage damage)
{
    uint8_t *row = add_row(site, 3, 0);
    switch (damage) {
    case SITE_VOLUME_4:     row[VOLUME] = 4; break;
    case SITE_VOLUME_128:   row[VOLUME] = 128; break;
    case SITE_NUMBER_64:    row[NUMBER] = 64; break;
    case SITE_NUMBER_255:   row[NUMBER] = 255; break;
    case SITE_SIZE_0:       row[SIZE] = 0; break;
    case SITE_SIZE_7:       row[SIZE] = 7; break;
    case SITE_SIZE_255:     row[SIZE] = 255; break;
    case SITE_FIRST_WRAPS:  put32(row + FIRST, 0u - sectors_of(1)); break;
    case SITE_FIRST_HUGE:   put32(row + FIRST, 0u - 1 - rng_below(rng, 2047)); break;
    case SITE_SPARE_1:      row[SPARE] = rng_nonzero(rng); break;
    default:                row[SPARE + 1] = rng_nonzero(rng); break;
    }
}

/* The name at first, of so many bytes, stands at second too, padded otherwise. */
static void pad_both(struct rng *rng, uint8_t *first, uint8_t *second, unsigned length)
{
    memset(first + length, 0, 8 - length);
    memcpy(second, first, 8);
    name_repadded(rng, first);
    name_repadded(rng, second);
    second[7] = first[7] == 0 ? ' ' : 0;
}

/* Two partition rows on volume 3 that are good one by one. */
static void damage_pair(struct rng *rng, struct site *site, enum site_damage damage)
{
    uint8_t *first, *second;
    switch (damage) {
    case SITE_NAME_TWICE:
    case SITE_NAME_PADDED:
    case SITE_NUMBER_TWICE:
        first = add_row(site, 3, 0);
        second = add_row(site, 4, 50000);
        if (damage == SITE_NUMBER_TWICE)
            second[NUMBER] = first[NUMBER];
        else if (damage == SITE_NAME_TWICE)
            memcpy(second, first, 8);
        else
            pad_both(rng, first, second, 7);
        break;
    case SITE_OVERLAP_BELOW:
        row_below(rng, site, 1);
        break;
    case SITE_OVERLAP_ABOVE:
        row_above(rng, site, 1);
        break;
    default:
        add_row(site, 3, 4096)[SIZE] = 4;
        add_row(site, 4, 4096 + 128 * rng_below(rng, 100));
        break;
    }
}

/* The later of the two rows is named. */
static struct site_fault repeat_user(struct rng *rng, struct site *site, enum site_damage damage)
{
    unsigned count = 2 + rng_below(rng, 127);
    site_good(rng, site, count, rng_below(rng, 10), 2);
    unsigned i = rng_below(rng, count);
    unsigned j = (i + 1 + rng_below(rng, count - 1)) % count;
    if (damage == SITE_USER_TWICE) {
        memcpy(user(site, i), user(site, j), 8);
    } else {
        memcpy(user(site, i), "\xE1 apart", 7);
        pad_both(rng, user(site, i), user(site, j), 1 + rng_below(rng, 7));
    }
    struct site_fault fault = { PART_USER, i > j ? i : j, BREACH_NAME };
    return fault;
}

/* The breach of a damage in a partition row. */
static unsigned breach_of(enum site_damage damage)
{
    switch (damage) {
    case SITE_NAME_TWICE:
    case SITE_NAME_PADDED:
        return BREACH_NAME;
    case SITE_NUMBER_TWICE: return BREACH_NUMBER;
    case SITE_OVERLAP_BELOW:
    case SITE_OVERLAP_ABOVE:
    case SITE_OVERLAP_INSIDE:
        return BREACH_OVERLAP;
    default:
        return BREACH_RANGE;
    }
}

/* The last of the added rows, wherever they were moved: of a pair the later. */
static unsigned last_added(const struct site *site)
{
    unsigned i = site_partitions(site) - 1;
    while (i > 0 && memcmp(site_partition(site, i), "\xE0 added", 7) != 0)
        i--;
    return i;
}

static struct site_fault damage_partitions(struct rng *rng, struct site *site,
                                           enum site_damage damage)
{
    with_volume_3_free(rng, site);
    if (damage == SITE_ENDS_1_BEYOND)
        last_place(rng, site, 1);
    else if (damage < SITE_USER_TWICE)
        damage_row(rng, site, damage);
    else
        damage_pair(rng, site, damage);
    mix_rows(rng, site);
    struct site_fault fault = { PART_PARTITION, last_added(site), breach_of(damage) };
    return fault;
}

struct site_fault site_damaged(struct rng *rng, struct site *site, enum site_damage damage)
{
    struct site_fault header = { PART_HEADER, 0, BREACH_RANGE };
    if (damage == SITE_USER_TWICE || damage == SITE_USER_PADDED)
        return repeat_user(rng, site, damage);
    if (damage >= SITE_VOLUME_4)
        return damage_partitions(rng, site, damage);
    damage_header(rng, site, damage);
    return header;
}

/* ---- several faults at once ---- */

enum { APART = 16384 };         /* sectors from one row to the next on volume 3 */

/* Adds a good row on volume 3, apart from the others there. */
static uint8_t *add_apart(struct site *site)
{
    unsigned count = site_partitions(site);
    return add_row(site, count, APART * count);
}

static void add_good(struct rng *rng, struct site *site)
{
    for (unsigned n = rng_below(rng, 3); n > 0; n--)
        add_apart(site);
}

/* A good file with three rows on volume 3, for rows added later to clash with.
 * Returns its partitions. */
static unsigned with_rows_to_meet(struct rng *rng, struct site *site)
{
    unsigned users = 7 + rng_below(rng, 20);
    site_good(rng, site, users, rng_below(rng, 30), 3);
    for (unsigned n = 0; n < 3; n++) {
        add_apart(site);
        swap_partitions(site, site_partitions(site) - 1, rng_below(rng, site_partitions(site)));
    }
    return site_partitions(site);
}

/* Any row on volume 3 below count. */
static const uint8_t *row_to_meet(struct rng *rng, const struct site *site, unsigned count)
{
    unsigned i = rng_below(rng, count);
    while (site_partition(site, i)[VOLUME] != 3)
        i = (i + 1) % count;
    return site_partition(site, i);
}

static uint32_t first_of(const uint8_t *row)
{
    const uint8_t *first = row + FIRST;
    return first[0] | (uint32_t)first[1] << 8 | (uint32_t)first[2] << 16 | (uint32_t)first[3] << 24;
}

/* A row out of range that can still clash. */
static void break_range(struct rng *rng, uint8_t *row)
{
    switch (rng_below(rng, 4)) {
    case 0:  row[SPARE] = rng_nonzero(rng); break;
    case 1:  row[SPARE + 1] = rng_nonzero(rng); break;
    case 2:  row[SIZE] = 7; break;
    default: row[SIZE] = 0; break;
    }
}

/* The row gets the name of another one; its padding may differ. */
static void repeat_name(struct rng *rng, uint8_t *row, const uint8_t *other)
{
    memmove(row, other, 8);
    name_repadded(rng, row);
}

/* Adds a row that breaks these rules, beside rows below count. A long one may
 * overlap several. */
static struct site_fault add_broken(struct rng *rng, struct site *site,
                                    unsigned count, unsigned breaches)
{
    add_good(rng, site);
    struct site_fault fault = { PART_PARTITION, site_partitions(site), BREACH_RANGE };
    uint8_t *row = add_apart(site);
    if (breaches & 1u << BREACH_NAME)
        repeat_name(rng, row, partition(site, rng_below(rng, count)));
    if (breaches & 1u << BREACH_NUMBER)
        row[NUMBER] = row_to_meet(rng, site, count)[NUMBER];
    if (breaches & 1u << BREACH_OVERLAP) {
        row[SIZE] = (uint8_t)(1 + rng_below(rng, 6));
        put32(row + FIRST, first_of(row_to_meet(rng, site, count)) + rng_below(rng, SMALLEST));
    }
    if (breaches & 1u << BREACH_RANGE)
        break_range(rng, row);
    while ((breaches & 1u << fault.breach) == 0)
        fault.breach++;
    return fault;
}

struct site_fault site_row_broken(struct rng *rng, struct site *site, unsigned breaches)
{
    unsigned count = with_rows_to_meet(rng, site);
    struct site_fault fault = add_broken(rng, site, count, breaches);
    add_good(rng, site);
    return fault;
}

/* Any one of these by itself is a fault, and none mends another. */
static void break_header(struct rng *rng, struct site *site)
{
    switch (rng_below(rng, 5)) {
    case 0:  site->bytes[1] = 1; break;
    case 1:  site->bytes[2] = 9; break;
    case 2:  site->bytes[5] = 1; break;
    case 3:  site->bytes[7] |= 0x80; break;
    default: site->len++; break;
    }
}

/* One of three user rows gets the name of a row before it. */
static struct site_fault break_user(struct rng *rng, struct site *site, unsigned from)
{
    struct site_fault fault = { PART_USER, from + rng_below(rng, 3), BREACH_NAME };
    repeat_name(rng, user(site, fault.row), user(site, rng_below(rng, fault.row)));
    return fault;
}

/* Breaks a file in this way; a header is broken when the rows are done. */
static struct site_fault break_part(struct rng *rng, struct site *site, unsigned count,
                                    enum fault_kind kind, unsigned user_from)
{
    struct site_fault header = { PART_HEADER, 0, BREACH_RANGE };
    switch (kind) {
    case FAULTY_HEADER: return header;
    case FAULTY_USER:   return break_user(rng, site, user_from);
    default:            return add_broken(rng, site, count, 2u << (kind - FAULTY_RANGE));
    }
}

struct site_fault site_broken_twice(struct rng *rng, struct site *site,
                                    enum fault_kind first, enum fault_kind second)
{
    unsigned count = with_rows_to_meet(rng, site);
    struct site_fault a = break_part(rng, site, count, first, 1);
    struct site_fault b = break_part(rng, site, count, second, 4);
    add_good(rng, site);
    if (first == FAULTY_HEADER)
        break_header(rng, site);
    if (second == FAULTY_HEADER)
        break_header(rng, site);
    return b.part < a.part ? b : a;
}

/* ---- good or not ---- */

/* A field of one row becomes another row's, or is drawn anew. */
static void spoil_row(struct rng *rng, struct site *site)
{
    unsigned users = site_users(site), rows = site_partitions(site);
    uint8_t *name = user(site, rng_below(rng, users));
    uint8_t *row = partition(site, rng_below(rng, rows));
    const uint8_t *other = partition(site, rng_below(rng, rows));
    switch (rng_below(rng, 8)) {
    case 0:  repeat_name(rng, name, user(site, rng_below(rng, users))); break;
    case 1:  repeat_name(rng, row, other); break;
    case 2:  memmove(row + VOLUME, other + VOLUME, 2); break;
    case 3:  row[VOLUME] = (uint8_t)rng_below(rng, 5); break;
    case 4:  row[NUMBER] = (uint8_t)rng_below(rng, 66); break;
    case 5:  row[SIZE] = (uint8_t)rng_below(rng, 8); break;
    case 6:  memmove(row + FIRST, other + FIRST, 4); row[VOLUME] = other[VOLUME]; break;
    default: row[SPARE + rng_below(rng, 2)] = (uint8_t)rng_below(rng, 2); break;
    }
}

void site_spoiled(struct rng *rng, struct site *site)
{
    unsigned most = rng_one_in(rng, 8) ? 64 : 12;
    unsigned users = 1 + rng_below(rng, 2 * most), partitions = 1 + rng_below(rng, most);
    site_good(rng, site, users, partitions, 1 + rng_below(rng, 4));
    for (unsigned n = 1 + rng_below(rng, 6); n > 0; n--)
        spoil_row(rng, site);
}

void site_scrambled(struct rng *rng, struct site *site)
{
    site_any(rng, site);
    if (rng_one_in(rng, 8)) {
        site->len = rng_below(rng, 200);
        rng_bytes(rng, site->bytes, site->len);
        return;
    }
    for (unsigned n = 1 + rng_below(rng, 3); n > 0; n--)
        site->bytes[rng_below(rng, (unsigned)site->len)] ^= (uint8_t)(1u << rng_below(rng, 8));
}
