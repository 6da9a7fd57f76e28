/* The tables of a shop, and the stories of logins in it. */
#include "shop.h"

#include <string.h>

struct boot shop;

/* ---- the rows ---- */

/* Directory rows A to I. CPM stands twice, and H is the high-water mark. */
const char *const shop_files[] = {
    "CPM     \xA0\xA1\xA2\xA3\xA4\x40\x00\xA7\xA8\xA9\xAA\xAB\xAC\xAD\xAE\xAF",
    "CCP     \xB0\xB1\xB2\xB3\xB4\x10\x00\xB7\xB8\xB9\xBA\xBB\xBC\xBD\xBE\xBF",
    "BIG     \xC0\xC1\xC2\xC3\xC4\x01\x01\xC7\xC8\xC9\xCA\xCB\xCC\xCD\xCE\xCF",
    "SMALL   \xD0\xD1\xD2\xD3\xD4\x30\x00\xD7\xD8\xD9\xDA\xDB\xDC\xDD\xDE\xDF",
    "LOGIN   \xE0\xE1\xE2\xE3\xE4\x05\x00\xE7\xE8\xE9\xEA\xEB\xEC\xED\xEE\xEF",
    "MENU    \xF0\xF1\xF2\xF3\xF4\x06\x00\xF7\xF8\xF9\xFA\xFB\xFC\xFD\xFE\xFF",
    "CPM     \x60\x61\x62\x63\x64\x02\x00\x67\x68\x69\x6A\x6B\x6C\x6D\x6E\x6F",
    "\0\0\0\0\0\0\0\0\x70\x71\x72\x73\x74\x01\x00\x77\x78\x79\x7A\x7B\x7C\x7D\x7E\x7F",
    "DOS     \x90\x91\x92\x93\x94\x50\x00\x97\x98\x99\x9A\x9B\x9C\x9D\x9E\x9F"
};

/* Serial, product, options, IOBYTE. */
const char *const shop_machines[] = {
    "\x11\x22\x33\x44\x05\x01\x02\x03\x04\x05\x06\x95",
    "\x11\x22\x33\x45\x82\x01\x02\x03\x04\x05\x07\xA7",
    "\x11\x22\x33\x44\x06\x00\x00\x00\x00\x00\x00\xC3"
};

/* The fourth ends the table. */
const char *const shop_products[] = {
    "\x02" "BOOT2   DOS     BIG     ",
    "\x05" "BOOT5   LOGIN   MENU    ",
    "\x85" "BOOT5P  DOS     CCP     ",
    "\x00" "BOOT0   LOGIN   CCP     ",
    "\x06" "BOOT6   LOGIN   MENU    "
};

const char *const shop_users[] = {
    "ANNA    SECRET\x11\x00",
    "BETTY\0\0\0OTHER1\x21\x01",
    "BETTY   SECRET\x10\x00",
    "BETTY \0 SECRET\x21\x01",
    "CARL    SECRET\x31\x00"
};

/* None for CARL. */
static const char *const shop_configurations[] = {
    "ANNADISKSTOCK   ORDERS  PAPERS  \x07" "STAT A: and 23 bytes not used..",
    "BETTY1A BETTY1B BETTY1C BETTY1D \x03" "DIR and 28 bytes not used......",
    "BETTY2A BETTY2B BETTY2C BETTY2D \xFF" "any bytes at all...............",
    "BETTY3A BETTY3B BETTY3C BETTY3D \x01" "X and 30 bytes not used........"
};

/* OS number, the first byte of the product map (bits 2 and 5), the last byte of
 * the options 01 02 03 04 05 .., and the load list. */
static const struct {
    uint8_t os, map, option;
    char list[64];
} shop_systems[] = {
    { 0x12, 0x24, 0x06, "SMALL   " },
    { 0x11, 0x24, 0x07, "CPM     CCP     \0\0\0\0\0\0\0\0GONE    " },
    { 0x11, 0x24, 0x16, "SMALL   CCP     " },
    { 0x11, 0x24, 0x06, "BIG     CCP     CPM     \0\0\0\0\0\0\0\0CCP     " },
    { 0x11, 0x24, 0x06, "DOS     " },
    { 0x21, 0x24, 0x07, "DOS     " }
};

static void put_rows(enum boot_table table, const char *const *rows, unsigned count)
{
    for (unsigned i = 0; i < count; i++)
        memcpy(boot_row(&shop, table, i), rows[i], boot_row_len[table]);
    shop.len[table] = boot_row_len[table] * count;
}

#define PUT_ROWS(table, rows) put_rows((table), (rows), sizeof (rows) / sizeof *(rows))

static void put_systems(void)
{
    unsigned count = sizeof shop_systems / sizeof *shop_systems;
    for (unsigned i = 0; i < count; i++) {
        uint8_t *row = boot_row(&shop, BOOT_SYSTEMS, i);
        memset(row, 0, 96);
        row[0] = shop_systems[i].os;
        row[1] = shop_systems[i].map;
        memcpy(row + 17, "\x01\x02\x03\x04\x05", 5);
        row[22] = shop_systems[i].option;
        memcpy(row + 23, shop_systems[i].list, 64);
        memset(row + 87, 0xEE, 9);
    }
    shop.len[BOOT_SYSTEMS] = 96 * count;
}

void open_shop(void)
{
    memset(shop.bytes, 0, sizeof shop.bytes);
    PUT_ROWS(BOOT_MACHINES, shop_machines);
    PUT_ROWS(BOOT_PRODUCTS, shop_products);
    PUT_ROWS(BOOT_USERS, shop_users);
    PUT_ROWS(BOOT_CONFIGURATIONS, shop_configurations);
    PUT_ROWS(BOOT_DIRECTORY, shop_files);
    put_systems();
    memcpy(shop.serial, "\x11\x22\x33\x44", 4);
    memcpy(shop.name, "ANNA    ", 8);
    memcpy(shop.password, "SECRET", 6);
}

void block_of(const struct result *result, uint8_t *block)
{
    memset(block, 0, 194);
    if (result->configuration != NO_ROW) {
        const uint8_t *row = boot_row(&shop, BOOT_CONFIGURATIONS, result->configuration);
        memcpy(block, row, 32);
        memcpy(block + 33, row + 32, 32);
    }
    block[32] = boot_row(&shop, BOOT_MACHINES, result->machine)[11];
    block[65] = (uint8_t)result->flag;
    for (unsigned k = 0; result->files[k] != 0; k++)
        memcpy(block + 66 + 16 * k,
               boot_row(&shop, BOOT_DIRECTORY, (unsigned)(result->files[k] - 'A')) + 8, 16);
}

/* ---- stories ---- */

#define ANNA "ANNA    ", "SECRET"
#define EDIT(table, row, at, bytes) { (table), (row), (at), (bytes), sizeof (bytes) - 1 }
#define MACHINE(row, at, bytes) EDIT(BOOT_MACHINES, row, at, bytes)
#define PRODUCT(row, at, bytes) EDIT(BOOT_PRODUCTS, row, at, bytes)
#define USER(row, at, bytes) EDIT(BOOT_USERS, row, at, bytes)
#define SYSTEM(row, at, bytes) EDIT(BOOT_SYSTEMS, row, at, bytes)
#define DIRECTORY(row, at, bytes) EDIT(BOOT_DIRECTORY, row, at, bytes)
#define NO_EDIT { BOOT_USERS, 0, 0, NULL, 0 }

const struct story stories[STORIES] = {
    { "full service, equal options", ANNA, { NO_EDIT }, { 0, "CBA", 0, 0 } },
    { "full service, size flag FE", ANNA, { USER(0, 15, "\xFE") }, { 0, "CBA", 0, 0 } },
    { "small system", ANNA, { USER(0, 15, "\x01") }, { 1, "DB", 0, 0 } },
    { "small system, size flag FF", ANNA, { USER(0, 15, "\xFF") }, { 1, "DB", 0, 0 } },
    { "full service, no equal options", ANNA,
        { SYSTEM(3, 22, "\x04"), SYSTEM(4, 17, "\x81") }, { 1, "DB", 0, 0 } },
    { "the machine row decides on options", ANNA, { MACHINE(0, 10, "\x16") }, { 0, "DB", 0, 0 } },
    { "other machine, other options", ANNA, { NO_EDIT }, { 0, "AB", 0, 1 } },
    { "the machine row has the IOBYTE", ANNA,
        { MACHINE(0, 11, "\x5A"), MACHINE(2, 11, "\x77") }, { 0, "CBA", 0, 0 } },
    { "a tie, rows 1 and 2", ANNA,
        { USER(0, 15, "\x01"), DIRECTORY(0, 13, "\x30") }, { 1, "AB", 0, 0 } },
    { "a tie, rows 2 and 4", ANNA,
        { USER(0, 15, "\x01"), DIRECTORY(8, 13, "\x30") }, { 1, "DB", 0, 0 } },
    { "a tie, all of length 0", ANNA,
        { USER(0, 15, "\x01"), DIRECTORY(0, 13, "\x00"),
          DIRECTORY(3, 13, "\x00") },
        { 1, "AB", 0, 0 } },
    { "lengths have their low byte first", ANNA,
        { USER(0, 15, "\x01"), DIRECTORY(0, 13, "\xFF\x00"),
          DIRECTORY(3, 13, "\x00\x01") },
        { 1, "I", 0, 0 } },
    { "256 is more than 255", ANNA,
        { USER(0, 15, "\x01"), DIRECTORY(8, 13, "\xFF\x00"),
          DIRECTORY(3, 13, "\x00\x01") },
        { 1, "AB", 0, 0 } },
    { "257 is less than 258", ANNA,
        { USER(0, 15, "\x01"), DIRECTORY(0, 13, "\x00\x02"),
          DIRECTORY(3, 13, "\x02\x01"), DIRECTORY(8, 13, "\x00\x03") },
        { 1, "CBA", 0, 0 } },
    { "length 0 is the smallest", ANNA,
        { USER(0, 15, "\x01"), DIRECTORY(2, 13, "\x00\x00") }, { 1, "CBA", 0, 0 } },
    { "8000 is more than 7FFF", ANNA,
        { USER(0, 14, "\x20\x01"), SYSTEM(1, 0, "\x22"),
          DIRECTORY(0, 13, "\xFF\x7F"), DIRECTORY(8, 13, "\x00\x80") },
        { 1, "AB", 0, 0 } },
    { "length FFFF is a length", ANNA,
        { USER(0, 14, "\x21\x01"), DIRECTORY(8, 13, "\xFF\xFF") }, { 1, "I", 0, 0 } },
    { "the first directory row counts for size", ANNA,
        { USER(0, 15, "\x01"), DIRECTORY(6, 13, "\x00") }, { 1, "DB", 0, 0 } },
    { "options do not count for a small system", ANNA,
        { USER(0, 15, "\x01"), SYSTEM(2, 17, "\xFF\xFF\xFF\xFF\xFF\xFF") }, { 1, "DB", 0, 0 } },
    { "user by name and password, first row", "BETTY   ", "OTHER1", { NO_EDIT }, { 1, "I", 1, 0 } },
    { "user by name and password, other row", "BETTY   ", "SECRET", { NO_EDIT }, { 0, "D", 2, 0 } },
    { "zeros for spaces", "BETTY...", "SECRET", { NO_EDIT }, { 0, "D", 2, 0 } },
    { "a mix of zeros and spaces", "BETTY. .", "SECRET", { NO_EDIT }, { 0, "D", 2, 0 } },
    { "the last of users who are alike", "BETTY...", "SECRET",
        { USER(2, 4, "I") }, { 1, "I", 3, 0 } },
    { "a name of padding", "        ", "SECRET",
        { USER(1, 0, "\0 \0 \0 \0 SECRET") }, { 1, "I", 1, 0 } },
    { "a space inside counts", "BET TY  ", "SECRET", { NO_EDIT }, { 2, "E", NO_ROW, 0 } },
    { "a space in front counts", " BETTY  ", "SECRET", { NO_EDIT }, { 2, "E", NO_ROW, 0 } },
    { "small letters count", "betty   ", "SECRET", { NO_EDIT }, { 2, "E", NO_ROW, 0 } },
    { "password of another user", "ANNA    ", "OTHER1", { NO_EDIT }, { 2, "E", NO_ROW, 0 } },
    { "password of small letters", "ANNA    ", "SECREt", { NO_EDIT }, { 2, "E", NO_ROW, 0 } },
    { "a padded password", "ANNA    ", "SECRE ", { USER(0, 13, "\x00") }, { 2, "E", NO_ROW, 0 } },
    { "six zeros are a password like others", "ANNA    ", "\0\0\0\0\0\0",
        { NO_EDIT }, { 2, "E", NO_ROW, 0 } },
    { "login at the other machine", "NOBODY  ", "SECRET", { NO_EDIT }, { 2, "I", NO_ROW, 1 } },
    { "OS 10, any lower half", "BETTY   ", "SECRET", { SYSTEM(0, 0, "\x1F") }, { 0, "D", 2, 0 } },
    { "OS 10, lower half 0 too", "BETTY   ", "SECRET", { SYSTEM(0, 0, "\x10") }, { 0, "D", 2, 0 } },
    { "OS 11, a system of lower half 0", ANNA, { SYSTEM(3, 0, "\x10") }, { 0, "I", 0, 0 } },
    { "OS 11, another upper half", ANNA, { SYSTEM(3, 0, "\x21") }, { 0, "I", 0, 0 } },
    { "OS 01 is none of the shop", ANNA, { USER(0, 14, "\x01") }, { 3, "F", 0, 0 } },
    { "OS 00 is any of upper half 0", ANNA,
        { USER(0, 14, "\x00"), SYSTEM(5, 0, "\x0F") }, { 1, "I", 0, 0 } },
    { "no OS, no configuration row", "CARL    ", "SECRET", { NO_EDIT }, { 3, "F", NO_ROW, 0 } },
    { "no OS, small system", "CARL    ", "SECRET", { USER(4, 15, "\x01") }, { 3, "F", NO_ROW, 0 } },
    { "menu at the other machine", ANNA, { USER(0, 14, "\x31") }, { 3, "C", 0, 1 } },
    { "a product with top bit", ANNA, { MACHINE(0, 4, "\x85") }, { 0, "CBA", 0, 0 } },
    { "top bits on both sides", ANNA,
        { MACHINE(0, 4, "\x85"), PRODUCT(1, 0, "\x85") }, { 0, "CBA", 0, 0 } },
    { "top bit in the product row", ANNA, { PRODUCT(1, 0, "\x85") }, { 0, "CBA", 0, 0 } },
    { "no bit in the map", ANNA, { SYSTEM(3, 1, "\xDF") }, { 0, "I", 0, 0 } },
    { "no bit in the maps of the equal", ANNA,
        { SYSTEM(3, 1, "\x04"), SYSTEM(4, 1, "\xDF\xFF") }, { 1, "DB", 0, 0 } },
    { "bits count from the low one", ANNA,
        { SYSTEM(3, 1, "\x04"), SYSTEM(3, 16, "\xFF") }, { 0, "I", 0, 0 } },
    { "the first row of a product counts", "NOBODY  ", "SECRET",
        { PRODUCT(0, 0, "\x85") }, { 2, "I", NO_ROW, 0 } },
    { "no product row", ANNA,
        { PRODUCT(1, 0, "\x07"), PRODUCT(2, 0, "\x08") }, { 4, "", NO_ROW, 0 } },
    { "no product row, and nobody", "NOBODY  ", "SECRET",
        { PRODUCT(1, 0, "\x07"), PRODUCT(2, 0, "\x08") }, { 4, "", NO_ROW, 0 } },
    { "a product after the end", ANNA, { MACHINE(0, 4, "\x06") }, { 4, "", NO_ROW, 0 } },
    { "the same without an end", ANNA,
        { MACHINE(0, 4, "\x06"), PRODUCT(3, 0, "\x07") }, { 3, "F", 0, 0 } },
    { "type 80 is no end", ANNA,
        { MACHINE(0, 4, "\x06"), PRODUCT(3, 0, "\x80") }, { 3, "F", 0, 0 } },
    { "type 80 is product 00", ANNA,
        { MACHINE(0, 4, "\x00"), PRODUCT(3, 0, "\x80") }, { 3, "B", 0, 0 } },
    { "type 80 is product 80", ANNA,
        { MACHINE(0, 4, "\x80"), PRODUCT(3, 0, "\x80") }, { 3, "B", 0, 0 } },
    { "type 0 is not product 00", ANNA, { MACHINE(0, 4, "\x00") }, { 4, "", NO_ROW, 0 } },
    { "type 0 is not product 80", ANNA, { MACHINE(0, 4, "\x80") }, { 4, "", NO_ROW, 0 } },
    { "type 0 first", ANNA, { PRODUCT(0, 0, "\x00") }, { 4, "", NO_ROW, 0 } },
    { "no machine row", ANNA,
        { MACHINE(0, 0, "\x12"), MACHINE(2, 3, "\x46") }, { 4, "", NO_ROW, 0 } },
    { "the next machine row", ANNA,
        { MACHINE(0, 0, "\x12"),
          MACHINE(2, 4, "\x05\x01\x02\x03\x04\x05\x06") },
        { 0, "CBA", 0, 2 } },
    { "Login Please not in the directory", "NOBODY  ", "SECRET",
        { DIRECTORY(4, 0, "l") }, { 4, "", NO_ROW, 0 } },
    { "nobody needs Login Please", ANNA, { DIRECTORY(4, 0, "l") }, { 0, "CBA", 0, 0 } },
    { "a null Login Please", "NOBODY  ", "SECRET",
        { PRODUCT(1, 9, "\0\0\0\0\0\0\0\0") }, { 4, "", NO_ROW, 0 } },
    { "OS Menu not in the directory", "CARL    ", "SECRET",
        { DIRECTORY(5, 3, "V") }, { 4, "", NO_ROW, 0 } },
    { "a null OS Menu", "CARL    ", "SECRET",
        { PRODUCT(1, 17, "\0\0\0\0\0\0\0\0") }, { 4, "", NO_ROW, 0 } },
    { "a first name missing", ANNA, { SYSTEM(3, 23, "GONE    ") }, { 0, "I", 0, 0 } },
    { "a first name padded otherwise", ANNA, { SYSTEM(3, 26, "\0\0\0\0\0") }, { 0, "I", 0, 0 } },
    { "a first name null", ANNA, { SYSTEM(3, 23, "\0\0\0\0\0\0\0\0") }, { 0, "I", 0, 0 } },
    { "first names missing, then the smallest", ANNA,
        { SYSTEM(3, 23, "GONE"), SYSTEM(4, 23, "\0\0\0\0\0\0\0\0") }, { 1, "DB", 0, 0 } },
    { "first names missing, small system", ANNA,
        { USER(0, 15, "\x01"), SYSTEM(2, 23, "GONE") }, { 1, "AB", 0, 0 } },
    { "first names missing, then none", "BETTY   ", "OTHER1",
        { SYSTEM(5, 23, "\0\0\0\0\0\0\0\0") }, { 3, "F", 1, 0 } },
    { "first file missing, then none", "BETTY   ", "OTHER1",
        { DIRECTORY(8, 2, "s") }, { 3, "F", 1, 0 } },
    { "a second name missing", ANNA, { SYSTEM(3, 31, "GONE    ") }, { 4, "", NO_ROW, 0 } },
    { "a third name missing", ANNA, { SYSTEM(3, 39, "GONE    ") }, { 4, "", NO_ROW, 0 } },
    { "an eighth name missing", ANNA,
        { SYSTEM(3, 47, "DOS     CCP     BIG     BIG     GONE    ") }, { 4, "", NO_ROW, 0 } },
    { "a second name missing, small system", ANNA,
        { USER(0, 15, "\x01"), SYSTEM(2, 31, "GONE    ") }, { 4, "", NO_ROW, 0 } },
    { "a second name missing, not chosen", ANNA,
        { SYSTEM(2, 31, "GONE    ") }, { 0, "CBA", 0, 0 } },
    { "a second name null", ANNA, { SYSTEM(3, 31, "\0\0\0\0\0\0\0\0") }, { 0, "C", 0, 0 } },
    { "a second name of spaces", ANNA, { SYSTEM(3, 31, "        ") }, { 4, "", NO_ROW, 0 } },
    { "a second name of zeros and one", ANNA,
        { SYSTEM(3, 31, "\0\0\0\0\0\0\0\1") }, { 4, "", NO_ROW, 0 } },
    { "seven names", ANNA,
        { SYSTEM(3, 47, "DOS     SMALL   LOGIN   MENU    ") }, { 0, "CBAIDEF", 0, 0 } },
    { "eight names", ANNA,
        { SYSTEM(3, 47, "DOS     SMALL   LOGIN   MENU    BIG     ") }, { 0, "CBAIDEFC", 0, 0 } },
    { "a name twice", ANNA, { SYSTEM(3, 31, "BIG     ") }, { 0, "CCA", 0, 0 } },
    { "bytes behind the list are not looked at", ANNA,
        { SYSTEM(3, 87, "GONE    ") }, { 0, "CBA", 0, 0 } },
    { "the first of two files counts", ANNA, { SYSTEM(3, 23, "CPM     ") }, { 0, "ABA", 0, 0 } },
    { "the last of two files left", ANNA, { DIRECTORY(0, 0, "X") }, { 0, "CBG", 0, 0 } }
};

static void spell(uint8_t *bytes, const char *text, unsigned len)
{
    for (unsigned k = 0; k < len; k++)
        bytes[k] = (uint8_t)(text[k] == '.' ? 0 : text[k]);
}

void begin_story(const struct story *story)
{
    open_shop();
    for (unsigned i = 0; i < EDITS && story->edits[i].bytes != NULL; i++) {
        const struct edit *edit = &story->edits[i];
        memcpy(boot_row(&shop, edit->table, edit->row) + edit->at, edit->bytes, edit->len);
    }
    spell(shop.name, story->name, 8);
    memcpy(shop.password, story->password, 6);
    memcpy(shop.serial, shop_machines[story->result.machine % 2], 4);
}
