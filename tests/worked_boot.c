/* A worked example: a master that chooses what a station loads. The tables are
 * made here; a C program reads them from its disk. Each login shows one honor
 * flag, and what the station is sent. */
#include "hinet.h"

#include <stdio.h>
#include <string.h>

enum { MACHINES = 2, PRODUCTS = 2, USERS = 4, CONFIGURATIONS = 3, SYSTEMS = 3, FILES = 6 };

static uint8_t machines[MACHINES][HINET_MACHINE_ROW_BYTES];
static uint8_t products[PRODUCTS][HINET_PRODUCT_ROW_BYTES];
static uint8_t users[USERS][HINET_USER_ROW_BYTES];
static uint8_t configurations[CONFIGURATIONS][HINET_CONFIGURATION_ROW_BYTES];
static uint8_t systems[SYSTEMS][HINET_SYSTEM_ROW_BYTES];
static uint8_t directory[FILES][HINET_DIRECTORY_ROW_BYTES];

/* ---- the tables ---- */

/* Two machines of product 5, the first with a hard disk among its options. */
static void make_machines(void)
{
    memcpy(machines[0], "\x10\x00\x00\x01\x05\x11\x00\x00\x00\x00\x00\x81", 12);
    memcpy(machines[1], "\x10\x00\x00\x02\x85\x01\x00\x00\x00\x00\x00\x95", 12);
}

/* Product 5 and the row that ends the table. */
static void make_products(void)
{
    memcpy(products[0], "\x05" "BOOT5   LOGIN5  MENU5   ", 25);
    products[1][0] = 0;
}

/* Name, password, OS number, size flag. The last has no configuration. */
static void make_users(void)
{
    memcpy(users[0], "ANNA    SECRET\x11\x00", 16);         /* CP/M 2, full service */
    memcpy(users[1], "BETTY   SECRET\x10\x01", 16);         /* any CP/M, small */
    memcpy(users[2], "CARL    SECRET\x21\x00", 16);         /* MS-DOS 2.0 */
    memcpy(users[3], "DORA    SECRET\x31\x00", 16);         /* Unix */
}

/* Four names of drives, and what is typed ahead. */
static void make_configuration(unsigned i, const char *drives, const char *typed)
{
    memcpy(configurations[i], drives, 32);
    configurations[i][32] = (uint8_t)strlen(typed);
    memcpy(configurations[i] + 33, typed, strlen(typed));
}

/* A system that runs on product 5, with the first byte of its options. */
static void make_system(unsigned i, uint8_t os, uint8_t options, const char *names)
{
    systems[i][0] = os;
    systems[i][1] = 1 << 5;
    systems[i][17] = options;
    memcpy(systems[i] + 23, names, strlen(names));
}

/* A file at a track of volume 0, partition 0, sector 1. */
static void make_file(unsigned i, const char *name, uint8_t track, uint8_t length, uint8_t high)
{
    memcpy(directory[i], name, 8);
    directory[i][10] = track;
    directory[i][12] = 1;
    directory[i][13] = length;
    directory[i][16] = high;            /* load address, its second byte */
    directory[i][21] = 1;               /* a program */
}

/* The files of product 5. COMMAND is missing. */
static void make_directory(void)
{
    make_file(0, "CPMHARD ", 3, 40, 0xE4);
    make_file(1, "CPMTINY ", 4, 24, 0xEC);
    make_file(2, "CCPBDOS ", 5, 44, 0xD0);
    make_file(3, "LOGIN5  ", 6, 8, 0x01);
    make_file(4, "MENU5   ", 7, 12, 0x01);
    make_file(5, "MSDOS   ", 8, 90, 0x06);
    directory[3][19] = 3;               /* offset to execution */
}

static void make_tables(void)
{
    make_machines();
    make_products();
    make_users();
    make_configuration(0, "ANNADISKSTOCK   ORDERS          ", "DIR A:");
    make_configuration(1, "BETTY   STOCK                   ", "");
    make_configuration(2, "CARL                            ", "CHKDSK");
    make_system(0, 0x11, 0x11, "CPMHARD CCPBDOS ");
    make_system(1, 0x11, 0x00, "CPMTINY CCPBDOS ");
    make_system(2, 0x21, 0x11, "MSDOS   COMMAND ");
    make_directory();
}

/* ---- what a station is sent ---- */

static void print_drives(const uint8_t *block)
{
    for (unsigned i = 0; i < HINET_BOOT_DRIVES; i++) {
        const uint8_t *name = hinet_boot_drive(block, i);
        if (hinet_name_length(name) != 0)
            printf("  drive %c: %.*s\n", 'A' + i, (int)hinet_name_length(name),
                   (const char *)name);
    }
}

/* The length is the table's, so it is not trusted. */
static void print_typeahead(const uint8_t *block)
{
    unsigned length = hinet_boot_typeahead_length(block);
    if (length > HINET_BOOT_TYPEAHEAD_MOST)
        length = HINET_BOOT_TYPEAHEAD_MOST;
    if (length != 0)
        printf("  typed ahead: %.*s\n", (int)length, (const char *)hinet_boot_typeahead(block));
}

static void print_entry(const uint8_t *entry)
{
    printf("  load %u sectors from volume %u, partition %u, track %u, sector %u to %04lX, %s\n",
           hinet_entry_length(entry), (unsigned)hinet_entry_volume(entry).number,
           (unsigned)hinet_entry_partition(entry).number,
           (unsigned)hinet_entry_track(entry).number, (unsigned)hinet_entry_sector(entry).number,
           (unsigned long)hinet_entry_load_address(entry),
           hinet_entry_flag(entry) & 1 ? "a program" : "data");
    if (hinet_entry_start_offset(entry) != 0)
        printf("    it starts %u bytes further on\n", hinet_entry_start_offset(entry));
}

static void print_block(const uint8_t *block)
{
    print_drives(block);
    printf("  IOBYTE %02X\n", hinet_boot_iobyte(block));
    print_typeahead(block);
    for (unsigned i = 0; i < hinet_boot_entry_count(block); i++)
        print_entry(hinet_boot_entry(block, i));
}

/* ---- a login ---- */

/* The refusal comes first, then the flag. With flag 4 there is no block. */
static void print_choice(uint64_t answer, const uint8_t *block)
{
    if (hinet_answer_refusal(answer) != 0) {
        printf("  refused: %s\n", hinet_refusal_text(hinet_answer_refusal(answer)));
        return;
    }
    printf("  honor flag %u: %s\n", hinet_answer_honor(answer),
           hinet_honor_text(hinet_answer_honor(answer)));
    if (hinet_answer_honor(answer) == HINET_HONOR_NOTHING)
        printf("  the login is rejected\n");
    else
        print_block(block);
}

/* A login frame from the wire; so many bytes of the directory are missing. */
static void serve(const uint8_t *frame, size_t missing)
{
    uint8_t block[HINET_BOOT_BYTES];
    uint64_t answer = hinet_boot(hinet_request_serial(frame), hinet_request_name(frame),
                                 hinet_request_password(frame),
                                 machines[0], sizeof machines, products[0], sizeof products,
                                 users[0], sizeof users,
                                 configurations[0], sizeof configurations,
                                 systems[0], sizeof systems,
                                 directory[0], sizeof directory - missing,
                                 block, sizeof block);
    print_choice(answer, block);
}

static void log_in(const char *name, const char *password, uint8_t machine, size_t missing)
{
    const uint8_t serial[HINET_SERIAL_BYTES] = { 0x10, 0, 0, machine };
    uint8_t frame[HINET_LENGTH_LOGIN];
    hinet_write_login((const uint8_t *)name, (const uint8_t *)password, serial, 5,
                      frame, sizeof frame);
    printf("%.*s at machine %u\n", (int)hinet_name_length((const uint8_t *)name), name, machine);
    serve(frame, missing);
}

int main(void)
{
    make_tables();
    log_in("ANNA    ", "SECRET", 1, 0);
    log_in("ANNA    ", "SECRET", 2, 0);
    log_in("BETTY\0\0\0", "SECRET", 1, 0);
    log_in("ANNA    ", "PUBLIC", 2, 0);
    log_in("DORA    ", "SECRET", 1, 0);
    log_in("CARL    ", "SECRET", 1, 0);
    log_in("ANNA    ", "SECRET", 3, 0);
    log_in("ANNA    ", "SECRET", 1, 1);
    return 0;
}
