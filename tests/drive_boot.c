/*
 * Compares the library with the reference: what a station loads at login. A
 * small shop is written out by hand, with four blocks byte by byte and with
 * stories in which some of its bytes are changed. From the shop come all product
 * numbers, all OS numbers, each bit of the maps, and tables filled up to every
 * limit; what must come out of these is said here too. Then any tables.
 * Usage: drive_boot [rounds [first round]]
 */
#include "check.h"
#include "generate.h"
#include "hinet.h"
#include "reference.h"
#include "shop.h"

#include <stdio.h>
#include <string.h>

enum { SEED = 194, ROUNDS = 20, BLOCK = 194, LONGEST = 300 };

static struct rng rng;
static struct boot boot;
static struct lent lent_serial, lent_name, lent_password, lent_tables[BOOT_TABLES], lent_block;
static uint8_t ref_block[LONGEST];

/* ---- what was met, each of which must be seen ---- */

enum met {
    MET_ROWS_MACHINES, MET_ROWS_PRODUCTS, MET_ROWS_USERS, MET_ROWS_CONFIGURATIONS,
    MET_ROWS_SYSTEMS, MET_ROWS_DIRECTORY,
    MET_ROWS_AND_SHORT, MET_SHORT_AND_NOTHING, MET_LONGER,
    MET_MOST_ROWS, MET_NO_ROWS, MET_EIGHT_FILES, MET_PADDED, MET_NO_DRIVES,
    MET_NULL_FILE, MET_SERIAL_TWICE,
    METS
};

static const char *const met_names[METS] = {
    [MET_ROWS_MACHINES] = "23 for machines alone",
    [MET_ROWS_PRODUCTS] = "23 for products alone",
    [MET_ROWS_USERS] = "23 for users alone",
    [MET_ROWS_CONFIGURATIONS] = "23 for configurations alone",
    [MET_ROWS_SYSTEMS] = "23 for systems alone",
    [MET_ROWS_DIRECTORY] = "23 for the directory alone",
    [MET_ROWS_AND_SHORT] = "23, and under 194 bytes",
    [MET_SHORT_AND_NOTHING] = "13, where the flag is 4",
    [MET_LONGER] = "block, bytes after it",
    [MET_MOST_ROWS] = "block, a table is full",
    [MET_NO_ROWS] = "block, a table is empty",
    [MET_EIGHT_FILES] = "block, eight files",
    [MET_PADDED] = "user, padded otherwise",
    [MET_NO_DRIVES] = "user, no configuration",
    [MET_NULL_FILE] = "block, null directory row",
    [MET_SERIAL_TWICE] = "block, serial twice"
};

static unsigned long met_counts[METS];

/* How many tables are not whole rows within the limit, and the last of them. */
static unsigned bad_tables(unsigned *last)
{
    unsigned count = 0;
    for (unsigned t = 0; t < BOOT_TABLES; t++)
        if (boot.len[t] % boot_row_len[t] != 0 || boot.len[t] > boot_row_len[t] * boot_most[t]) {
            count++;
            *last = t;
        }
    return count;
}

static void count_refused(size_t block_len)
{
    unsigned last = 0, bad = bad_tables(&last);
    met_counts[MET_ROWS_MACHINES + last] += bad == 1;
    met_counts[MET_ROWS_AND_SHORT] += bad != 0 && block_len < BLOCK;
}

static unsigned rows_with(enum boot_table table, const uint8_t *bytes, size_t len)
{
    unsigned count = 0;
    for (unsigned i = 0; i < boot_rows(&boot, table); i++)
        count += memcmp(boot_row(&boot, table, i), bytes, len) == 0;
    return count;
}

/* A block was written. */
static void count_written(unsigned flag, size_t block_len)
{
    static const uint8_t zeros[64];
    met_counts[MET_LONGER] += block_len > BLOCK;
    for (unsigned t = 0; t < BOOT_TABLES; t++) {
        met_counts[MET_MOST_ROWS] += boot_rows(&boot, (enum boot_table)t) == boot_most[t];
        met_counts[MET_NO_ROWS] += boot.len[t] == 0;
    }
    met_counts[MET_EIGHT_FILES] += memcmp(lent_block.bytes + 178, zeros, 16) != 0;
    met_counts[MET_PADDED] += flag != 2 && rows_with(BOOT_USERS, boot.name, 8) == 0;
    met_counts[MET_NO_DRIVES] += flag != 2 && boot.len[BOOT_CONFIGURATIONS] == 0;
    met_counts[MET_NULL_FILE] += rows_with(BOOT_DIRECTORY, zeros, 8) != 0;
    met_counts[MET_SERIAL_TWICE] += rows_with(BOOT_MACHINES, boot.serial, 4) > 1;
}

/* Prints the counts; ends with failure if one is 0. */
static int report_met(void)
{
    int missing = 0;
    for (unsigned i = 0; i < METS; i++) {
        printf("  %-27s %10lu\n", met_names[i], met_counts[i]);
        missing += met_counts[i] == 0;
    }
    printf("%s: %d kinds of case missing\n", trace.driver, missing);
    return missing == 0 ? 0 : 1;
}

/* ---- a call ---- */

static const char *const table_names[BOOT_TABLES] = {
    "machines", "products", "users", "configurations", "systems", "directory"
};

/* Lends everything, the block with random bytes. */
static void lend_all(struct call *call, size_t block_len)
{
    const struct part fields[4] = {
        { "serial", &lent_serial, NULL }, { "name", &lent_name, NULL },
        { "password", &lent_password, NULL }, { "block", &lent_block, ref_block }
    };
    rng_bytes(&rng, ref_block, block_len);
    lend(&lent_serial, boot.serial, 4);
    lend(&lent_name, boot.name, 8);
    lend(&lent_password, boot.password, 6);
    lend(&lent_block, ref_block, block_len);
    memcpy(call->part, fields, sizeof fields);
    for (unsigned t = 0; t < BOOT_TABLES; t++) {
        const struct part part = { table_names[t], &lent_tables[t], NULL };
        lend(&lent_tables[t], boot.bytes[t], boot.len[t]);
        call->part[4 + t] = part;
    }
    call->parts = 4 + BOOT_TABLES;
}

typedef uint64_t entry_boot(const uint8_t *, const uint8_t *, const uint8_t *,
    const uint8_t *, size_t, const uint8_t *, size_t, const uint8_t *, size_t,
    const uint8_t *, size_t, const uint8_t *, size_t, const uint8_t *, size_t, uint8_t *, size_t);

static uint64_t called(entry_boot *entry, uint8_t *block, size_t block_len)
{
    const struct lent *t = lent_tables;
    return entry(lent_serial.bytes, lent_name.bytes, lent_password.bytes,
                 t[0].bytes, t[0].len, t[1].bytes, t[1].len, t[2].bytes, t[2].len,
                 t[3].bytes, t[3].len, t[4].bytes, t[4].len, t[5].bytes, t[5].len,
                 block, block_len);
}

/* The login of `boot` on both sides. */
static uint64_t ask(size_t block_len)
{
    struct call call = { .entry = ENTRY_BOOT, .parts = 0 };
    lend_all(&call, block_len);
    call.library = called(hinet_boot, lent_block.bytes, block_len);
    call.reference = called(ref_boot, ref_block, block_len);
    check_call(&call);
    if (hinet_answer_refusal(call.library) != 0)
        count_refused(block_len);
    else if (hinet_answer_honor(call.library) != HINET_HONOR_NOTHING)
        count_written(hinet_answer_honor(call.library), block_len);
    return call.library;
}

/* ---- what must come out ---- */

static const struct result nothing = { 4, "", NO_ROW, 0 };

/* The login of `boot` must come to this, and the rest of the buffer stays. */
static void comes_to(const char *what, const struct result *result, size_t block_len)
{
    uint8_t block[LONGEST];
    uint64_t answer = ask(block_len);
    memcpy(block, lent_block.before, block_len);
    if (result->flag != 4)
        block_of(result, block);
    expect(answer == (UINT64_C(10) << 8 | (uint64_t)result->flag << 16), what);
    expect(memcmp(lent_block.bytes, block, block_len) == 0, what);
}

/* The call must be refused, and no byte written. */
static void refused(const char *what, uint64_t refusal, size_t block_len)
{
    uint64_t answer = ask(block_len);
    expect(answer == refusal, what);
    expect(memcmp(lent_block.bytes, lent_block.before, block_len) == 0, what);
}

/* ---- four blocks byte by byte ---- */

#define ZEROS_16 "\0\0\0\0\0\0\0\0\0\0\0\0\0\0\0\0"
#define ANNA_DRIVES "ANNADISKSTOCK   ORDERS  PAPERS  "
#define ANNA_TYPES "\x07" "STAT A: and 23 bytes not used.."

static const char *const blocks[4] = {
    ANNA_DRIVES "\x95" ANNA_TYPES "\x00"
    "\xC0\xC1\xC2\xC3\xC4\x01\x01\xC7\xC8\xC9\xCA\xCB\xCC\xCD\xCE\xCF"
    "\xB0\xB1\xB2\xB3\xB4\x10\x00\xB7\xB8\xB9\xBA\xBB\xBC\xBD\xBE\xBF"
    "\xA0\xA1\xA2\xA3\xA4\x40\x00\xA7\xA8\xA9\xAA\xAB\xAC\xAD\xAE\xAF"
    ZEROS_16 ZEROS_16 ZEROS_16 ZEROS_16 ZEROS_16,
    ANNA_DRIVES "\x95" ANNA_TYPES "\x01"
    "\xD0\xD1\xD2\xD3\xD4\x30\x00\xD7\xD8\xD9\xDA\xDB\xDC\xDD\xDE\xDF"
    "\xB0\xB1\xB2\xB3\xB4\x10\x00\xB7\xB8\xB9\xBA\xBB\xBC\xBD\xBE\xBF"
    ZEROS_16 ZEROS_16 ZEROS_16 ZEROS_16 ZEROS_16 ZEROS_16,
    ZEROS_16 ZEROS_16 "\x95" ZEROS_16 ZEROS_16 "\x02"
    "\xE0\xE1\xE2\xE3\xE4\x05\x00\xE7\xE8\xE9\xEA\xEB\xEC\xED\xEE\xEF"
    ZEROS_16 ZEROS_16 ZEROS_16 ZEROS_16 ZEROS_16 ZEROS_16 ZEROS_16,
    ANNA_DRIVES "\x95" ANNA_TYPES "\x03"
    "\xF0\xF1\xF2\xF3\xF4\x06\x00\xF7\xF8\xF9\xFA\xFB\xFC\xFD\xFE\xFF"
    ZEROS_16 ZEROS_16 ZEROS_16 ZEROS_16 ZEROS_16 ZEROS_16 ZEROS_16
};

static void block_is(unsigned flag, uint64_t word)
{
    static const size_t lens[] = { 194, 195, 256, LONGEST };
    for (unsigned i = 0; i < 4; i++) {
        expect(ask(lens[i]) == word, "the word of a flag");
        expect(memcmp(lent_block.bytes, blocks[flag], BLOCK) == 0, "the bytes of a flag");
        expect(memcmp(lent_block.bytes + BLOCK, lent_block.before + BLOCK, lens[i] - BLOCK) == 0,
               "the bytes after a block");
    }
}

/* ANNA; as one who wants the small system; with another password; with an OS
 * that the shop has not; and at another machine. */
static void blocks_by_hand(void)
{
    boot = shop;
    block_is(0, 0x000A00);
    boot_row(&boot, BOOT_USERS, 0)[15] = 1;
    block_is(1, 0x010A00);
    boot.password[5] = 'S';
    block_is(2, 0x020A00);
    boot.password[5] = 'T';
    boot_row(&boot, BOOT_USERS, 0)[14] = 0x31;
    block_is(3, 0x030A00);
    boot.serial[3] = 0x46;
    expect(ask(BLOCK) == 0x040A00, "the word of flag 4");
    expect(memcmp(lent_block.bytes, lent_block.before, BLOCK) == 0, "flag 4 wrote a byte");
}

/* ---- stories ---- */

static void stories_by_hand(void)
{
    for (unsigned i = 0; i < STORIES; i++) {
        begin_story(&stories[i]);
        boot = shop;
        comes_to(stories[i].what, &stories[i].result, BLOCK);
        comes_to(stories[i].what, &stories[i].result, BLOCK + 1 + rng_below(&rng, 100));
        refused(stories[i].what, 13, BLOCK - 1);
        met_counts[MET_SHORT_AND_NOTHING] += stories[i].result.flag == 4;
    }
    open_shop();
    boot = shop;
    boot.serial[3] = 0x46;
    comes_to("a serial of no machine", &nothing, BLOCK);
}

/* ---- every number and every bit ---- */

static const struct result anna = { 0, "CBA", 0, 0 }, anna_small = { 1, "DB", 0, 0 };
static const struct result anna_menu = { 3, "F", 0, 0 }, login = { 2, "E", NO_ROW, 0 };

/* All product numbers of a machine with all types of a product row, and the
 * systems run on every product. */
static void every_product(void)
{
    open_shop();
    boot = shop;
    boot.len[BOOT_PRODUCTS] = 25;
    memcpy(boot.bytes[BOOT_PRODUCTS], shop_products[1], 25);
    for (unsigned i = 0; i < boot_rows(&boot, BOOT_SYSTEMS); i++)
        memset(boot_row(&boot, BOOT_SYSTEMS, i) + 1, 0xFF, 16);
    for (unsigned number = 0; number < 256; number++)
        for (unsigned type = 0; type < 256; type++) {
            int alike = number == type || number + 128 == type || number == type + 128;
            boot.bytes[BOOT_MACHINES][4] = (uint8_t)number;
            boot.bytes[BOOT_PRODUCTS][0] = (uint8_t)type;
            comes_to("product number and type", type != 0 && alike ? &anna : &nothing, BLOCK);
        }
}

/* Each product number with each bit of the map alone, and with all but it. No
 * system but row 3 runs on anything. */
static void every_map_bit(void)
{
    open_shop();
    boot = shop;
    uint8_t *map = boot_row(&boot, BOOT_SYSTEMS, 3) + 1;
    boot.len[BOOT_PRODUCTS] = 25;
    for (unsigned i = 0; i < boot_rows(&boot, BOOT_SYSTEMS); i++)
        memset(boot_row(&boot, BOOT_SYSTEMS, i) + 1, 0, 16);
    memcpy(boot.bytes[BOOT_PRODUCTS], shop_products[1], 25);
    for (unsigned number = 0; number < 256; number++)
        for (unsigned bit = 0; bit < 128; bit++) {
            int own = number == bit || number == bit + 128;
            boot.bytes[BOOT_MACHINES][4] = (uint8_t)number;
            boot.bytes[BOOT_PRODUCTS][0] = (uint8_t)(number == 0 ? 128 : number);
            memset(map, 0, 16);
            map[bit / 8] = (uint8_t)(1u << bit % 8);
            comes_to("a map of one bit", own ? &anna : &anna_menu, BLOCK);
            memset(map, 0xFF, 16);
            map[bit / 8] = (uint8_t)~(1u << bit % 8);
            comes_to("a map without one bit", own ? &anna_menu : &anna, BLOCK);
        }
}

/* All OS numbers of a user with all of a system, the only one there. */
static void every_os(void)
{
    open_shop();
    boot = shop;
    boot.len[BOOT_SYSTEMS] = 96;
    memcpy(boot.bytes[BOOT_SYSTEMS], boot_row(&shop, BOOT_SYSTEMS, 3), 96);
    for (unsigned user = 0; user < 256; user++)
        for (unsigned system = 0; system < 256; system++) {
            int fits = user == system || (user % 16 == 0 && system >= user && system < user + 16);
            boot.bytes[BOOT_USERS][14] = (uint8_t)user;
            boot.bytes[BOOT_SYSTEMS][0] = (uint8_t)system;
            comes_to("OS numbers", fits ? &anna : &anna_menu, BLOCK);
        }
}

static void every_size_flag(void)
{
    open_shop();
    boot = shop;
    for (unsigned flag = 0; flag < 256; flag++) {
        boot.bytes[BOOT_USERS][15] = (uint8_t)flag;
        comes_to("size flags", flag % 2 == 0 ? &anna : &anna_small, BLOCK);
    }
}

/* Options of the machine and of systems 3 and 4 that differ in one bit. */
static void every_option(void)
{
    open_shop();
    for (unsigned i = 1; i <= 2; i++)
        memset(boot_row(&shop, BOOT_SYSTEMS, i) + 17, 0xFF, 6);
    for (unsigned bit = 0; bit < 48; bit++) {
        boot = shop;
        for (unsigned i = 3; i <= 4; i++)
            boot_row(&boot, BOOT_SYSTEMS, i)[17 + bit / 8] ^= (uint8_t)(1u << bit % 8);
        comes_to("options, a bit off", &anna_small, BLOCK);
        boot_row(&boot, BOOT_MACHINES, 0)[5 + bit / 8] ^= (uint8_t)(1u << bit % 8);
        comes_to("options, the bit off on both sides", &anna, BLOCK);
    }
}

/* A bit off in what is sent, and in the names that are looked up. */
static void every_bit_sent(void)
{
    static const struct result dos = { 0, "I", 0, 0 };
    open_shop();
    for (unsigned bit = 0; bit < 64; bit++) {
        uint8_t mask = (uint8_t)(1u << bit % 8);
        boot = shop;
        if (bit < 32) {
            boot.len[BOOT_MACHINES] = 12;
            boot.serial[bit / 8] ^= mask;
            comes_to("serial, a bit off", &nothing, BLOCK);
        }
        boot = shop;
        if (bit < 48) {
            boot.password[bit / 8] ^= mask;
            comes_to("password, a bit off", &login, BLOCK);
        }
        boot = shop;
        boot_row(&boot, BOOT_SYSTEMS, 3)[23 + bit / 8] ^= mask;
        comes_to("first name, a bit off", &dos, BLOCK);
        boot = shop;
        boot_row(&boot, BOOT_SYSTEMS, 3)[31 + bit / 8] ^= mask;
        comes_to("second name, a bit off", &nothing, BLOCK);
        boot = shop;
        boot_row(&boot, BOOT_DIRECTORY, 1)[bit / 8] ^= mask;
        comes_to("second file, a bit off", &nothing, BLOCK);
    }
}

/* ---- load lists ---- */

/* So many names, then a null one, then whatever: each name is a file of its
 * own. A missing one is passed over as the first, is 4 as a later one, and does
 * not count after the null one. */
static void every_list(void)
{
    static const char files[9] = "CBAIDEFC", *const none = "GONE    ";
    char loaded[9];
    for (unsigned count = 0; count <= 8; count++)
        for (unsigned gone = 0; gone <= 8; gone++) {
            struct result list = { 0, loaded, 0, 0 }, dos = { 0, "I", 0, 0 };
            open_shop();
            uint8_t *names = boot_row(&shop, BOOT_SYSTEMS, 3) + 23;
            for (unsigned k = 0; k < 8; k++)
                memcpy(names + 8 * k, shop_files[files[k] - 'A'], 8);
            memset(names + 8 * count, 0, count < 8 ? 8 : 0);
            memcpy(loaded, files, count);
            loaded[count] = 0;
            if (gone < 8 && gone != count)
                memcpy(names + 8 * gone, none, 8);
            boot = shop;
            if (count == 0 || gone == 0)
                comes_to("a list with no first name", &dos, BLOCK);
            else
                comes_to("a list", gone < count ? &nothing : &list, BLOCK);
        }
}

/* ---- configurations ---- */

/* User i of 128 alike in all but the password, with so many configurations. */
static void every_configuration(void)
{
    static const unsigned counts[] = { 0, 1, 2, 63, 64, 126, 127, 128 };
    open_shop();
    rng_bytes(&rng, shop.bytes[BOOT_CONFIGURATIONS], 128 * 64);
    for (unsigned i = 0; i < 128; i++) {
        memcpy(boot_row(&shop, BOOT_USERS, i), shop_users[0], 16);
        boot_row(&shop, BOOT_USERS, i)[13] = (uint8_t)(i ^ 0x55);
    }
    shop.len[BOOT_USERS] = 128 * 16;
    for (unsigned k = 0; k < sizeof counts / sizeof *counts; k++)
        for (unsigned i = 0; i < 128; i++) {
            struct result result = { 0, "CBA", i < counts[k] ? i : NO_ROW, 0 };
            shop.len[BOOT_CONFIGURATIONS] = 64 * counts[k];
            boot = shop;
            boot.password[5] = (uint8_t)(i ^ 0x55);
            comes_to("the configuration of a user", &result, BLOCK);
        }
}

/* ---- lengths ---- */

/* A table of so many bytes, which begins as the shop's and goes on with zeros,
 * in blocks of lengths around 194. */
static void length_of(enum boot_table table, size_t len)
{
    static const size_t blocks_len[] = { 0, 1, 193, 194, 195, LONGEST };
    int good = len % boot_row_len[table] == 0 && len <= boot_row_len[table] * boot_most[table];
    boot.len[table] = len;
    for (unsigned i = 0; i < sizeof blocks_len / sizeof *blocks_len; i++)
        if (!good)
            refused("a table that is not whole rows, or over the limit", 23, blocks_len[i]);
        else if (blocks_len[i] < BLOCK)
            refused("a short block", 13, blocks_len[i]);
        else
            expect((ask(blocks_len[i]) & 0xFFFF) == 0x0A00, "a table of whole rows");
}

/* Each table alone: all lengths up to two rows, and those around its limit. */
static void every_length(void)
{
    open_shop();
    for (unsigned t = 0; t < BOOT_TABLES; t++) {
        size_t row = boot_row_len[t], most = row * boot_most[t];
        boot = shop;
        for (size_t len = 0; len <= 2 * row; len++)
            length_of((enum boot_table)t, len);
        for (size_t len = most - row - 1; len <= most + row + 1; len++)
            length_of((enum boot_table)t, len);
    }
}

/* One bad table or two; all tables at their limits; all of them empty. */
static void lengths_of_two(void)
{
    open_shop();
    for (unsigned t = 0; t < BOOT_TABLES; t++)
        for (unsigned u = 0; u < BOOT_TABLES; u++) {
            boot = shop;
            boot.len[t] = boot_bad_length(&rng, (enum boot_table)t);
            boot.len[u] = boot_bad_length(&rng, (enum boot_table)u);
            refused("two tables", 23, rng_below(&rng, LONGEST));
        }
    boot = shop;
    for (unsigned t = 0; t < BOOT_TABLES; t++)
        boot.len[t] = boot_row_len[t] * boot_most[t];
    comes_to("all tables at their limits", &anna, BLOCK);
    for (unsigned t = 0; t < BOOT_TABLES; t++)
        boot.len[t] = 0;
    comes_to("all tables empty", &nothing, BLOCK);
}

/* ---- rows that are passed over ---- */

/* Puts rows between those of a table that this login passes over. A user's
 * configuration moves with the user. */
static void fill_up(enum boot_table table, unsigned rows)
{
    uint8_t row[96], other[64];
    while (boot_rows(&boot, table) < rows) {
        unsigned i = rng_below(&rng, boot_rows(&boot, table) + 1);
        boot_passed_over(&rng, &shop, table, row);
        boot_insert(&boot, table, i, row);
        if (table != BOOT_USERS || i > boot_rows(&boot, BOOT_CONFIGURATIONS))
            continue;
        rng_bytes(&rng, other, 64);
        boot_insert(&boot, BOOT_CONFIGURATIONS, i, other);
    }
}

/* Every story again, in one table filled up or in all of them. */
static void stories_filled(void)
{
    for (unsigned i = 0; i < STORIES; i++) {
        unsigned only = rng_below(&rng, 2 * BOOT_TABLES);
        begin_story(&stories[i]);
        boot = shop;
        for (unsigned t = 0; t < BOOT_TABLES; t++)
            if (t != BOOT_CONFIGURATIONS && (only >= BOOT_TABLES || only == t))
                fill_up((enum boot_table)t, rng_one_in(&rng, 2) ? boot_most[t]
                                            : rng_below(&rng, boot_most[t] + 1));
        comes_to(stories[i].what, &stories[i].result, BLOCK + rng_below(&rng, 3));
    }
}

/* One row of the shop at each place of a table that is full of others. */
static void each_place_in(enum boot_table table, unsigned fits)
{
    uint8_t row[96];
    open_shop();
    for (unsigned i = 0; i < boot_most[table]; i++) {
        struct result result = anna;
        boot = shop;
        boot.len[table] = 0;
        while (boot_rows(&boot, table) < boot_most[table] - 1) {
            boot_passed_over(&rng, &shop, table, row);
            boot_insert(&boot, table, boot_rows(&boot, table), row);
        }
        boot_insert(&boot, table, i, boot_row(&shop, table, fits));
        if (table == BOOT_USERS)
            result.configuration = i < boot_rows(&boot, BOOT_CONFIGURATIONS) ? i : NO_ROW;
        comes_to("the row that fits, at each place", &result, BLOCK);
    }
}

static void every_place(void)
{
    each_place_in(BOOT_MACHINES, 0);
    each_place_in(BOOT_PRODUCTS, 1);
    each_place_in(BOOT_USERS, 0);
    each_place_in(BOOT_SYSTEMS, 3);
}

/* ---- what stands behind a table ---- */

/* The bytes behind a lent slice begin 01 1E 3B and go on in steps of 1D. They
 * are no row, whatever is looked for: each table here would give something else
 * if they were. */
static void behind_rows(const uint8_t *behind)
{
    boot = shop;
    memcpy(boot.serial, behind, 4);
    boot_row(&boot, BOOT_PRODUCTS, 1)[0] = behind[4];
    comes_to("a machine behind the table", &nothing, BLOCK);
    boot = shop;
    boot.bytes[BOOT_MACHINES][4] = behind[0];
    boot.len[BOOT_PRODUCTS] = 25;
    memcpy(boot_row(&boot, BOOT_DIRECTORY, 5), behind + 17, 8);
    comes_to("a product behind the table", &nothing, BLOCK);
    boot = shop;
    memcpy(boot.name, behind, 8);
    memcpy(boot.password, behind + 8, 6);
    comes_to("a user behind the table", &login, BLOCK);
}

static void behind_files(const uint8_t *behind)
{
    boot = shop;
    memcpy(boot_row(&boot, BOOT_SYSTEMS, 3) + 31, behind, 8);
    comes_to("a file behind the table", &nothing, BLOCK);
    boot = shop;
    boot.len[BOOT_SYSTEMS] = 96;
    boot.bytes[BOOT_USERS][14] = behind[0];
    boot.bytes[BOOT_MACHINES][4] = 3;
    boot_row(&boot, BOOT_PRODUCTS, 1)[0] = 3;
    memcpy(boot_row(&boot, BOOT_DIRECTORY, 0), behind + 23, 8);
    comes_to("a system behind the table", &anna_menu, BLOCK);
}

static void behind_tables(void)
{
    uint8_t behind[32];
    for (unsigned i = 0; i < 32; i++)
        behind[i] = (uint8_t)(1 + 29 * i);
    open_shop();
    behind_rows(behind);
    behind_files(behind);
}

/* ---- any tables ---- */

/* Whole tables, in blocks of several lengths; now and then the same login again
 * with a table that is bad. */
static void any_tables(void)
{
    static const size_t lens[] = { 194, 194, 194, 194, 195, 256, LONGEST, 193, 0 };
    boot_any(&rng, &boot);
    uint64_t answer = ask(RNG_PICK(&rng, lens));
    if (hinet_answer_refusal(answer) == 0 && hinet_answer_honor(answer) != HINET_HONOR_NOTHING)
        expect(hinet_boot_honor(lent_block.bytes) == hinet_answer_honor(answer),
               "the flag of the answer is not the block's");
    if (!rng_one_in(&rng, 4))
        return;
    unsigned table = rng_below(&rng, BOOT_TABLES);
    boot.len[table] = boot_bad_length(&rng, (enum boot_table)table);
    refused("a bad table among any", 23, RNG_PICK(&rng, lens));
}

static void by_hand(void)
{
    open_shop();
    blocks_by_hand();
    stories_by_hand();
    every_product();
    every_map_bit();
    every_os();
    every_size_flag();
    every_option();
    every_bit_sent();
    every_list();
    every_configuration();
    every_length();
    behind_tables();
}

int main(int argc, char **argv)
{
    struct rounds rounds = rounds_from(argc, argv, ROUNDS);
    trace.driver = "drive_boot";
    trace.seed = SEED;
    rng = rng_from(SEED);
    by_hand();
    for (trace.round = rounds.first; trace.round < rounds.end; trace.round++) {
        trace.step = 0;
        rng = rng_from(((uint64_t)SEED << 32) + trace.round);
        lengths_of_two();
        stories_filled();
        every_place();
        for (unsigned i = 0; i < 2000; i++)
            any_tables();
    }
    int missing = report_met();
    return report(ENTRY_BOOT, ENTRY_BOOT) != 0 || missing;
}
