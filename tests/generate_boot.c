/* Tables of the boot, and logins that are served from them. */
#include "generate.h"

#include <string.h>

const size_t boot_row_len[BOOT_TABLES] = { 12, 25, 16, 64, 96, 24 };
const unsigned boot_most[BOOT_TABLES] = { 128, 40, 128, 128, 128, 128 };

unsigned boot_rows(const struct boot *boot, enum boot_table table)
{
    return (unsigned)(boot->len[table] / boot_row_len[table]);
}

uint8_t *boot_row(struct boot *boot, enum boot_table table, unsigned i)
{
    return boot->bytes[table] + boot_row_len[table] * i;
}

void boot_insert(struct boot *boot, enum boot_table table, unsigned i, const uint8_t *row)
{
    size_t at = boot_row_len[table] * i;
    uint8_t *place = boot->bytes[table] + at;
    memmove(place + boot_row_len[table], place, boot->len[table] - at);
    memcpy(place, row, boot_row_len[table]);
    boot->len[table] += boot_row_len[table];
}

static void flip(struct rng *rng, uint8_t *bytes, unsigned count)
{
    unsigned bit = rng_below(rng, 8 * count);
    bytes[bit / 8] ^= (uint8_t)(1u << bit % 8);
}

/* ---- rows that are passed over ---- */

/* The product number of the machine with the serial that is sent, if any. */
static uint8_t product_of(const struct boot *boot)
{
    const uint8_t *rows = boot->bytes[BOOT_MACHINES];
    for (unsigned i = 0; i < boot_rows(boot, BOOT_MACHINES); i++)
        if (memcmp(rows + 12 * i, boot->serial, 4) == 0)
            return rows[12 * i + 4];
    return 0;
}

/* A type other than 0 and not that of the machine. */
static uint8_t other_type(struct rng *rng, uint8_t product)
{
    uint8_t type = (uint8_t)(product ^ (1 + rng_below(rng, 127)) ^ (rng_byte(rng) & 0x80));
    return type != 0 ? type : 0x80;
}

/* The name with another password, or another name with the password. */
static void other_user(struct rng *rng, const struct boot *boot, uint8_t *row)
{
    memcpy(row, boot->name, 8);
    memcpy(row + 8, boot->password, 6);
    name_repadded(rng, row);
    if (rng_one_in(rng, 2))
        flip(rng, row + 8, 6);
    else
        row[rng_below(rng, 8)] ^= (uint8_t)(0x40 | rng_byte(rng));
}

/* A system like the first, but it does not fit: by the upper half of its
 * number, by its product map, or by its first name. */
static void other_system(struct rng *rng, const struct boot *boot, uint8_t *row)
{
    unsigned bit = product_of(boot) & 0x7F;
    memcpy(row, boot->bytes[BOOT_SYSTEMS], 96);
    switch (rng_below(rng, 4)) {
    case 0:  row[0] |= (uint8_t)(0x80 | rng_byte(rng)); break;
    case 1:  row[1 + bit / 8] &= (uint8_t)~(1u << bit % 8); break;
    case 2:  memset(row + 23, 0, 8); break;
    default: memcpy(row + 23, "NO FILE ", 8); break;
    }
    rng_bytes(rng, row + 87, 9);
}

/* A null name, or one that no list has. */
static void other_file(struct rng *rng, uint8_t *row)
{
    if (rng_one_in(rng, 4))
        memset(row, 0, 8);
    else
        row[7] = 0xEE;
}

void boot_passed_over(struct rng *rng, const struct boot *boot, enum boot_table table,
                      uint8_t *row)
{
    rng_bytes(rng, row, boot_row_len[table]);
    switch (table) {
    case BOOT_MACHINES:
        memcpy(row, boot->serial, 4);
        flip(rng, row, 4);
        break;
    case BOOT_PRODUCTS:  row[0] = other_type(rng, product_of(boot)); break;
    case BOOT_USERS:     other_user(rng, boot, row); break;
    case BOOT_SYSTEMS:   other_system(rng, boot, row); break;
    case BOOT_DIRECTORY: other_file(rng, row); break;
    default:             break;
    }
}

/* ---- any tables ---- */

enum { FILES = 12 };

/* A name of a program: look-alikes, a blank one and a null one. */
static void draw_file_name(struct rng *rng, uint8_t *name)
{
    static const char pool[FILES][9] = {
        "CPM22   ", "CPM22\0\0\0", "CPM23   ", "cpm22   ", " CPM22  ", "LOGIN   ",
        "MENU    ", "CCPBDOS ", "        ", "\0\0\0\0\0\0\0\1", "\1\0\0\0\0\0\0\0", ""
    };
    memcpy(name, RNG_PICK(rng, pool), 8);
}

static uint8_t draw_product(struct rng *rng)
{
    static const uint8_t pool[] = { 5, 5, 5, 0x85, 0x85, 6, 2, 0x82, 0x80, 0x7F, 0xFF };
    return rng_one_in(rng, 12) ? 0 : RNG_PICK(rng, pool);
}

/* One of two maps, or the first with a bit off. */
static void draw_options(struct rng *rng, uint8_t *options)
{
    memcpy(options, "\x01\x02\x03\x04\x05\x06", 6);
    switch (rng_below(rng, 4)) {
    case 0:  memset(options, 0, 6); break;
    case 1:  flip(rng, options, 6); break;
    default: break;
    }
}

/* All products, all but one, one, or any. */
static void draw_product_map(struct rng *rng, uint8_t *map)
{
    unsigned bit = draw_product(rng) & 0x7F;
    unsigned way = rng_below(rng, 6);
    memset(map, way < 4 ? 0xFF : 0, 16);
    if (way >= 3)
        map[bit / 8] ^= (uint8_t)(1u << bit % 8);
    if (way == 5)
        rng_bytes(rng, map, 16);
}

static uint8_t draw_os(struct rng *rng)
{
    static const uint8_t pool[] = { 0x10, 0x10, 0x11, 0x11, 0x12, 0x1F, 0x20, 0x21, 0x01, 0x00 };
    return RNG_PICK(rng, pool);
}

/* So many names, and names after the null one that ends them. */
static void draw_list(struct rng *rng, uint8_t *names)
{
    static const unsigned counts[] = { 0, 1, 1, 2, 2, 2, 3, 7, 8 };
    unsigned count = RNG_PICK(rng, counts);
    for (unsigned k = 0; k < 8; k++)
        draw_file_name(rng, names + 8 * k);
    if (count < 8)
        memset(names + 8 * count, 0, 8);
}

static void draw_user(struct rng *rng, uint8_t *row)
{
    static const char names[][9] = {
        "ANNA    ", "BETTY   ", "BETTY   ", "BETTX   ", " BETTY  ", "        "
    };
    static const char passwords[][7] = { "SECRET", "SECRET", "secret", "\0\0\0\0\0\0" };
    memcpy(row, RNG_PICK(rng, names), 8);
    memcpy(row + 8, RNG_PICK(rng, passwords), 6);
    name_repadded(rng, row);
    row[14] = draw_os(rng);
    row[15] = rng_byte(rng);
}

/* A directory row; its length is often one of few. */
static void draw_file(struct rng *rng, uint8_t *row)
{
    static const uint8_t lengths[][2] = {
        { 0, 0 }, { 1, 0 }, { 0xFF, 0 }, { 0, 1 }, { 0, 1 }, { 1, 1 }, { 0xFF, 0xFF }
    };
    rng_bytes(rng, row, 24);
    draw_file_name(rng, row);
    if (!rng_one_in(rng, 3))
        memcpy(row + 13, RNG_PICK(rng, lengths), 2);
}

static void draw_row(struct rng *rng, enum boot_table table, uint8_t *row)
{
    rng_bytes(rng, row, boot_row_len[table]);
    switch (table) {
    case BOOT_MACHINES:
        pool_serial(rng_below(rng, SERIALS), row);
        row[4] = draw_product(rng);
        draw_options(rng, row + 5);
        break;
    case BOOT_PRODUCTS:
        row[0] = draw_product(rng);
        for (unsigned k = 0; k < 3; k++)
            draw_file_name(rng, row + 1 + 8 * k);
        break;
    case BOOT_USERS:
        draw_user(rng, row);
        break;
    case BOOT_SYSTEMS:
        row[0] = draw_os(rng);
        draw_product_map(rng, row + 1);
        draw_options(rng, row + 17);
        draw_list(rng, row + 23);
        break;
    case BOOT_DIRECTORY:
        draw_file(rng, row);
        break;
    default:
        break;
    }
}

static unsigned draw_count(struct rng *rng, enum boot_table table)
{
    switch (rng_below(rng, 12)) {
    case 0:  return rng_below(rng, 2);
    case 1:  return boot_most[table] - rng_below(rng, 2);
    case 2:  return rng_below(rng, boot_most[table] + 1);
    default: return 2 + rng_below(rng, table == BOOT_DIRECTORY ? 30 : 10);
    }
}

/* Mostly the serial of a row, and the name and password of one, padded anew. */
static void draw_login(struct rng *rng, struct boot *boot)
{
    unsigned machines = boot_rows(boot, BOOT_MACHINES), users = boot_rows(boot, BOOT_USERS);
    pool_serial(rng_below(rng, SERIALS), boot->serial);
    memcpy(boot->name, "BETTY   ", 8);
    memcpy(boot->password, "SECRET", 6);
    if (machines != 0 && !rng_one_in(rng, 12))
        memcpy(boot->serial, boot_row(boot, BOOT_MACHINES, rng_below(rng, machines)), 4);
    if (users != 0) {
        const uint8_t *row = boot_row(boot, BOOT_USERS, rng_below(rng, users));
        memcpy(boot->name, row, 8);
        memcpy(boot->password, row + 8, 6);
    }
    name_repadded(rng, boot->name);
    if (rng_one_in(rng, 10))
        flip(rng, rng_one_in(rng, 2) ? boot->name : boot->password, 6);
}

void boot_any(struct rng *rng, struct boot *boot)
{
    for (unsigned t = 0; t < BOOT_TABLES; t++) {
        unsigned count = draw_count(rng, (enum boot_table)t);
        for (unsigned i = 0; i < count; i++)
            draw_row(rng, (enum boot_table)t, boot_row(boot, (enum boot_table)t, i));
        boot->len[t] = boot_row_len[t] * count;
    }
    draw_login(rng, boot);
}

size_t boot_bad_length(struct rng *rng, enum boot_table table)
{
    size_t row = boot_row_len[table], most = row * boot_most[table];
    if (rng_one_in(rng, 3))
        return most + row;
    return row * rng_below(rng, boot_most[table] + 1) + 1 + rng_below(rng, (unsigned)row - 1);
}
