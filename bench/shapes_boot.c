/*
 * The boot tables of the bench's shapes. But for random ones and the workshop
 * the login's machine, product, user and files stand in the last rows.
 */
#include "shapes.h"

#include <stdio.h>
#include <string.h>

/* The shapes at boot, in their order. */
enum at_boot {
    WORKSHOP,       /* a few rows each: the login and its exact system in the middle */
    EXACT_LAST,     /* the last system fits exactly, no other one fits */
    OPTIONS_LAST,   /* all systems fit, the last alone has the machine's options */
    SMALLEST_LAST,  /* all fit, none has the options, the last is the smallest */
    SMALL_LAST,     /* the same for a user who wants the smallest */
    MENU,           /* all would fit, but no first name is in the directory */
    NOBODY,         /* names of users padded by turns, and the user unknown */
    PASSWORD,       /* the user's name in all rows, the password in none */
    ANY_FULL,       /* random rows, full service */
    ANY_SMALL       /* random rows, the smallest */
};

static const unsigned workshop_rows[BOOT_TABLES] = { 5, 3, 10, 10, 6, 12 };

enum { OS = 0x11, OPTIONS = 17, LIST = 23, NAMES = 8 };

/* ---- names ---- */

static void put_name(uint8_t *name, const char *format, unsigned i)
{
    char text[32];
    snprintf(text, sizeof text, format, i);
    memcpy(name, text, 8);
}

/* The name of file i from the end, the last being 1. */
static void put_file(const struct boot *boot, uint8_t *name, unsigned i)
{
    put_name(name, "FILE%04u", boot_rows(boot, BOOT_DIRECTORY) - i);
}

/* A load list of so many names: this file from the end, then the last ones. */
static void put_list(const struct boot *boot, uint8_t *list, unsigned first, unsigned names)
{
    memset(list, 0, 8 * NAMES);
    put_file(boot, list, first);
    for (unsigned k = 1; k < names; k++)
        put_file(boot, list + 8 * k, k);
}

/* ---- tables in order ---- */

/* Serials differ at their end. The last machine has the last product. */
static void lay_machines(struct boot *boot)
{
    unsigned count = boot_rows(boot, BOOT_MACHINES), products = boot_rows(boot, BOOT_PRODUCTS);
    for (unsigned i = 0; i < count; i++) {
        uint8_t *row = boot_row(boot, BOOT_MACHINES, i);
        memcpy(row, "SERI", 4);
        row[3] = (uint8_t)i;
        row[4] = (uint8_t)(products - (count - 1 - i) % products);
        memcpy(row + 5, "\x01\x02\x03\x04\x05\x06\x95", 7);
    }
}

/* Login Please and OS Menu are the last two files. */
static void lay_products(struct boot *boot)
{
    for (unsigned i = 0; i < boot_rows(boot, BOOT_PRODUCTS); i++) {
        uint8_t *row = boot_row(boot, BOOT_PRODUCTS, i);
        row[0] = (uint8_t)(i + 1);
        put_name(row + 1, "BOOT%04u", i);
        put_file(boot, row + 9, 2);
        put_file(boot, row + 17, 1);
    }
}

static void lay_users(struct boot *boot)
{
    for (unsigned i = 0; i < boot_rows(boot, BOOT_USERS); i++) {
        uint8_t *row = boot_row(boot, BOOT_USERS, i);
        put_name(row, "USER%04u", i);
        memcpy(row + 8, "SECRET", 6);
        row[14] = OS;
        row[15] = 0;
    }
}

/* All fit, none has the machine's options: they differ at the end. The last
 * begins with the last file, the others with the seven files before it. */
static void lay_systems(struct boot *boot, unsigned names)
{
    unsigned count = boot_rows(boot, BOOT_SYSTEMS);
    for (unsigned i = 0; i < count; i++) {
        uint8_t *row = boot_row(boot, BOOT_SYSTEMS, i);
        row[0] = OS;
        memset(row + 1, 0xFF, 16);
        memcpy(row + OPTIONS, "\x01\x02\x03\x04\x05\x07", 6);
        put_list(boot, row + LIST, i == count - 1 ? 1 : 2 + i % 7, names);
    }
}

/* The last file is the smallest. */
static void lay_directory(struct boot *boot)
{
    unsigned count = boot_rows(boot, BOOT_DIRECTORY);
    for (unsigned i = 0; i < count; i++) {
        uint8_t *row = boot_row(boot, BOOT_DIRECTORY, i);
        put_name(row, "FILE%04u", i);
        row[13] = (uint8_t)(count - i);
        row[14] = 1;
    }
}

static void log_in(struct boot *boot, unsigned machine, unsigned user)
{
    memcpy(boot->serial, boot_row(boot, BOOT_MACHINES, machine), 4);
    memcpy(boot->name, boot_row(boot, BOOT_USERS, user), 8);
    memcpy(boot->password, boot_row(boot, BOOT_USERS, user) + 8, 6);
}

/* So many rows of random bytes. */
static void lay_any_bytes(struct rng *rng, struct boot *boot, const unsigned *rows)
{
    for (unsigned t = 0; t < BOOT_TABLES; t++) {
        boot->len[t] = boot_row_len[t] * rows[t];
        rng_bytes(rng, boot->bytes[t], boot->len[t]);
    }
}

/* Load lists of so many names. What no rule looks at is random. */
static void lay_in_order(struct rng *rng, struct boot *boot, const unsigned *rows, unsigned names)
{
    lay_any_bytes(rng, boot, rows);
    lay_machines(boot);
    lay_products(boot);
    lay_users(boot);
    lay_systems(boot, names);
    lay_directory(boot);
    log_in(boot, rows[BOOT_MACHINES] - 1, rows[BOOT_USERS] - 1);
}

/* ---- what the shapes have of their own ---- */

/* Gives system i the machine's options. */
static void give_options(struct boot *boot, unsigned i)
{
    boot_row(boot, BOOT_SYSTEMS, i)[OPTIONS + 5] = 0x06;
}

/* System i does not fit, by turns for one of four reasons. */
static void spoil_system(struct boot *boot, unsigned i)
{
    uint8_t *row = boot_row(boot, BOOT_SYSTEMS, i);
    switch (i % 4) {
    case 0:  row[0] = OS + 0x10; break;
    case 1:  row[0] = OS + 0x01; break;
    case 2:  memset(row + 1, 0, 16); break;
    default: memset(row + LIST, 0, 8); break;
    }
}

/* Two systems of another kind, one with other options, then the exact one. */
static void open_workshop(struct boot *boot)
{
    spoil_system(boot, 0);
    spoil_system(boot, 1);
    give_options(boot, 3);
    log_in(boot, 3, 4);
}

static void lose_first_files(struct boot *boot)
{
    for (unsigned i = 0; i < boot_rows(boot, BOOT_SYSTEMS); i++)
        put_name(boot_row(boot, BOOT_SYSTEMS, i) + LIST, "GONE%04u", i);
}

static void pad_users(struct boot *boot)
{
    for (unsigned i = 0; i < boot_rows(boot, BOOT_USERS); i++) {
        uint8_t *name = boot_row(boot, BOOT_USERS, i);
        char text[32];
        int length = snprintf(text, sizeof text, "U%u", i);
        memset(name, i % 2 == 0 ? ' ' : 0, 8);
        memcpy(name, text, (size_t)length);
    }
}

static void share_name(struct boot *boot)
{
    for (unsigned i = 0; i < boot_rows(boot, BOOT_USERS); i++)
        memcpy(boot_row(boot, BOOT_USERS, i), boot->name, 8);
}

static void lay_full(struct rng *rng, enum at_boot shape, struct boot *boot)
{
    unsigned last = boot_most[BOOT_SYSTEMS] - 1;
    lay_in_order(rng, boot, boot_most, NAMES);
    switch (shape) {
    case EXACT_LAST:
        for (unsigned i = 0; i < last; i++)
            spoil_system(boot, i);
        give_options(boot, last);
        break;
    case OPTIONS_LAST: give_options(boot, last); break;
    case SMALL_LAST:   boot_row(boot, BOOT_USERS, boot_most[BOOT_USERS] - 1)[15] = 1; break;
    case MENU:         lose_first_files(boot); break;
    case NOBODY:
        pad_users(boot);
        memcpy(boot->name, "U128    ", 8);
        break;
    case PASSWORD:
        share_name(boot);
        boot->password[5] ^= 1;
        break;
    default: break;
    }
}

/* ---- random tables ---- */

static void any_file(struct rng *rng, struct boot *boot, uint8_t *name)
{
    memcpy(name, boot_row(boot, BOOT_DIRECTORY, rng_below(rng, boot_most[BOOT_DIRECTORY])), 8);
}

/* One of sixteen. */
static void any_options(struct rng *rng, uint8_t *options)
{
    memset(options, (int)rng_below(rng, 16), 6);
}

/* One to eight names; of four systems one has a first name that is not there. */
static void any_list(struct rng *rng, struct boot *boot, uint8_t *list)
{
    unsigned names = 1 + rng_below(rng, NAMES);
    for (unsigned k = 0; k < names; k++)
        any_file(rng, boot, list + 8 * k);
    memset(list + 8 * names, 0, 8 * (NAMES - names));
    if (rng_one_in(rng, 4))
        rng_bytes(rng, list, 8);
}

/* Products have bit 80 or not, OS numbers are 10 to 13. */
static void any_row(struct rng *rng, struct boot *boot, enum boot_table table, unsigned i)
{
    uint8_t *row = boot_row(boot, table, i);
    switch (table) {
    case BOOT_MACHINES:
        row[4] = (uint8_t)(1 + rng_below(rng, boot_most[BOOT_PRODUCTS]));
        any_options(rng, row + 5);
        break;
    case BOOT_PRODUCTS:
        row[0] = (uint8_t)((i + 1) | (row[0] & 0x80));
        any_file(rng, boot, row + 9);
        any_file(rng, boot, row + 17);
        break;
    case BOOT_USERS:
        row[14] = (uint8_t)(0x10 + rng_below(rng, 4));
        break;
    case BOOT_SYSTEMS:
        row[0] = (uint8_t)(0x10 + rng_below(rng, 4));
        any_options(rng, row + OPTIONS);
        any_list(rng, boot, row + LIST);
        break;
    default: break;
    }
}

static void lay_any(struct rng *rng, struct boot *boot, uint8_t size_flag)
{
    unsigned user = rng_below(rng, boot_most[BOOT_USERS]);
    lay_any_bytes(rng, boot, boot_most);
    for (unsigned t = 0; t < BOOT_TABLES; t++)
        for (unsigned i = 0; i < boot_most[t]; i++)
            any_row(rng, boot, (enum boot_table)t, i);
    boot_row(boot, BOOT_USERS, user)[15] = size_flag;
    log_in(boot, rng_below(rng, boot_most[BOOT_MACHINES]), user);
}

void boot_shape(struct rng *rng, unsigned i, struct boot *boot)
{
    switch ((enum at_boot)i) {
    case WORKSHOP:
        lay_in_order(rng, boot, workshop_rows, 3);
        open_workshop(boot);
        break;
    case ANY_FULL:  lay_any(rng, boot, 0); break;
    case ANY_SMALL: lay_any(rng, boot, 1); break;
    default:        lay_full(rng, (enum at_boot)i, boot); break;
    }
}
