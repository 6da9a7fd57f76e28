/*
 * Compares every constant and every inline function of hinet.h with what the
 * rules say, and calls every entry once. It compiles as C99 and as C++11.
 */
#include "hinet.h"
#include "hinet.h"

#include <stdio.h>
#include <string.h>

/* Each entry once more: a compiler refuses it where the header's differs. */
#ifdef __cplusplus
extern "C" {
#endif
uint64_t hinet_read_frame(const uint8_t *, size_t);
uint64_t hinet_write_acknowledge(uint8_t *, size_t);
uint64_t hinet_write_read(uint32_t, hinet_volume, hinet_partition, hinet_track, hinet_sector, uint8_t *, size_t);
uint64_t hinet_write_write(uint32_t, hinet_volume, hinet_partition, hinet_track, hinet_sector, uint8_t *, size_t);
uint64_t hinet_write_login(const uint8_t[8], const uint8_t[6], const uint8_t[4], uint8_t, uint8_t *, size_t);
uint64_t hinet_write_assign(const uint8_t[8], const uint8_t[6], uint8_t *, size_t);
uint64_t hinet_write_lock(const uint8_t[14], uint8_t *, size_t);
uint64_t hinet_write_unlock(const uint8_t[14], uint8_t *, size_t);
uint64_t hinet_write_clear(uint8_t *, size_t);
uint64_t hinet_write_logout(uint32_t, uint8_t *, size_t);
uint64_t hinet_fresh(uint8_t *, size_t, uint8_t *, size_t);
uint64_t hinet_check_tables(const uint8_t *, size_t, const uint8_t *, size_t);
uint64_t hinet_check_site(const uint8_t *, size_t);
uint64_t hinet_frame(uint32_t, const uint8_t *, size_t, const uint8_t *, size_t, uint8_t *, size_t, uint8_t *, size_t);
uint64_t hinet_place(hinet_volume, hinet_partition, hinet_track, hinet_sector, const uint8_t *, size_t);
uint64_t hinet_due(uint32_t, const uint8_t *, size_t, const uint8_t *, size_t);
uint64_t hinet_poll(uint32_t, uint32_t, uint8_t *, size_t, uint8_t *, size_t);
uint64_t hinet_station_fresh(uint8_t *, size_t);
uint64_t hinet_station_lock(uint8_t *, size_t, const uint8_t[14]);
uint64_t hinet_station_unlock(uint8_t *, size_t, const uint8_t[14]);
uint64_t hinet_station_clear(uint8_t *, size_t);
uint64_t hinet_station_frame(const uint8_t *, size_t, uint8_t *, size_t);
uint64_t hinet_station_reply(uint8_t *, size_t, uint32_t);
uint64_t hinet_cpm_parameters(uint32_t, uint8_t *, size_t);
uint64_t hinet_msdos_parameters(uint32_t, uint8_t *, size_t);
uint64_t hinet_boot(const uint8_t[4], const uint8_t[8], const uint8_t[6], const uint8_t *, size_t,
                    const uint8_t *, size_t, const uint8_t *, size_t, const uint8_t *, size_t,
                    const uint8_t *, size_t, const uint8_t *, size_t, uint8_t *, size_t);
uint64_t hinet_line_write(uint8_t, const uint8_t *, size_t, uint8_t *, size_t);
uint64_t hinet_line_read(const uint8_t *, size_t, size_t, uint8_t *, size_t);
uint64_t hinet_line_frame(uint32_t, const uint8_t *, size_t, size_t, const uint8_t *, size_t,
                          uint8_t *, size_t, uint8_t *, size_t);
#ifdef __cplusplus
}
#endif

static unsigned long compared, different;

static void same(const char *what, uint64_t found, uint64_t expected)
{
    compared++;
    if (found == expected)
        return;
    different++;
    printf("%s: %llX, should be %llX\n", what,
           (unsigned long long)found, (unsigned long long)expected);
}

#define SAME(what, expected) same(#what, (uint64_t)(what), (uint64_t)(expected))

static void same_bytes(const char *what, const uint8_t *found, const char *expected, size_t len)
{
    same(what, memcmp(found, expected, len) == 0, 1);
}

/* ---- constants ---- */

static void refusals_and_kinds(void)
{
    SAME(HINET_REFUSED_EMPTY, 1);
    SAME(HINET_REFUSED_NUMBER, 2);
    SAME(HINET_REFUSED_CODE, 3);
    SAME(HINET_REFUSED_LENGTH, 4);
    SAME(HINET_REFUSED_COMMAND, 5);
    SAME(HINET_REFUSED_DTN, 6);
    SAME(HINET_REFUSED_SRC, 7);
    SAME(HINET_REFUSED_NO_ROW, 8);
    SAME(HINET_REFUSED_OUTSIDE, 9);
    SAME(HINET_REFUSED_SITE, 10);
    SAME(HINET_REFUSED_TABLES, 11);
    SAME(HINET_REFUSED_NOT_DUE, 12);
    SAME(HINET_REFUSED_BUFFER, 13);
    SAME(HINET_REFUSED_WAITING, 14);
    SAME(HINET_REFUSED_REPLY, 15);
    SAME(HINET_REFUSED_SIZE, 16);
    SAME(HINET_REFUSED_DATA, 17);
    SAME(HINET_REFUSED_NO_FLAG, 18);
    SAME(HINET_REFUSED_STOPPED, 19);
    SAME(HINET_REFUSED_BITS, 20);
    SAME(HINET_REFUSED_SHORT, 21);
    SAME(HINET_REFUSED_CHECK, 22);
    SAME(HINET_REFUSED_ROWS, 23);
    SAME(HINET_KIND_NONE, 0);
    SAME(HINET_KIND_STATUS, 1);
    SAME(HINET_KIND_ASSIGN, 2);
    SAME(HINET_KIND_PLACE, 3);
    SAME(HINET_KIND_LOGIN, 4);
    SAME(HINET_KIND_TURN, 5);
    SAME(HINET_KIND_WRITTEN, 6);
    SAME(HINET_KIND_FAULT, 7);
    SAME(HINET_KIND_BITS, 8);
    SAME(HINET_KIND_LINE, 9);
    SAME(HINET_KIND_BOOT, 10);
    SAME(HINET_KIND_REQUEST, 13);
}

static void frame_constants(void)
{
    SAME(HINET_CODE_ACKNOWLEDGE, 0x41);
    SAME(HINET_CODE_READ, 0x11);
    SAME(HINET_CODE_WRITE, 0x12);
    SAME(HINET_CODE_LOGIN, 0x13);
    SAME(HINET_CODE_ASSIGN, 0x17);
    SAME(HINET_CODE_LOCK, 0x19);
    SAME(HINET_CODE_UNLOCK, 0x1A);
    SAME(HINET_CODE_CLEAR, 0x1B);
    SAME(HINET_CODE_LOGOUT, 0x1F);
    SAME(HINET_LENGTH_ACKNOWLEDGE, 1);
    SAME(HINET_LENGTH_READ, 8);
    SAME(HINET_LENGTH_WRITE, 8);
    SAME(HINET_LENGTH_LOGIN, 20);
    SAME(HINET_LENGTH_ASSIGN, 15);
    SAME(HINET_LENGTH_LOCK, 15);
    SAME(HINET_LENGTH_UNLOCK, 15);
    SAME(HINET_LENGTH_CLEAR, 1);
    SAME(HINET_LENGTH_LOGOUT, 2);
    SAME(HINET_LENGTH_MOST, 20);
    SAME(HINET_NAME_BYTES, 8);
    SAME(HINET_PASSWORD_BYTES, 6);
    SAME(HINET_SERIAL_BYTES, 4);
    SAME(HINET_LOCKSTRING_BYTES, 14);
}

static void table_constants(void)
{
    SAME(HINET_LOCK_ROWS, 64);
    SAME(HINET_LOCK_ROW_BYTES, 16);
    SAME(HINET_LOCKS_BYTES, 1024);
    SAME(HINET_STATION_RECORDS, 64);
    SAME(HINET_STATION_RECORD_BYTES, 18);
    SAME(HINET_STATIONS_BYTES, 1152);
    SAME(HINET_SITE_USERS_MOST, 128);
    SAME(HINET_SITE_PARTITIONS_MOST, 64);
    SAME(HINET_SITE_BYTES_MOST, 3592);
    SAME(HINET_NO_OWNER, 0xFF);
    SAME(HINET_NUMBER_LOCAL, 0);
    SAME(HINET_NUMBER_LAST, 63);
    SAME(HINET_NUMBER_LOGIN, 253);
    SAME(HINET_STATUS_DONE, 0x00);
    SAME(HINET_STATUS_TAKEN, 0x01);
    SAME(HINET_STATUS_NO, 0x02);
    SAME(HINET_STATUS_HELD, 0x81);
    SAME(HINET_STATUS_FULL, 0x82);
    SAME(HINET_ASSIGN_DENIED, 0xFF);
    SAME(HINET_PART_HEADER, 0);
    SAME(HINET_PART_USER, 1);
    SAME(HINET_PART_PARTITION, 2);
    SAME(HINET_BREACH_RANGE, 1);
    SAME(HINET_BREACH_NAME, 2);
    SAME(HINET_BREACH_NUMBER, 3);
    SAME(HINET_BREACH_OVERLAP, 4);
    SAME(HINET_STATE_PLACES, 64);
    SAME(HINET_STATE_PLACE_BYTES, 14);
    SAME(HINET_STATE_AWAITED, 896);
    SAME(HINET_STATE_AWAITED_BYTES, 15);
    SAME(HINET_STATE_BYTES, 911);
    SAME(HINET_SIZE_FIRST, 1);
    SAME(HINET_SIZE_LAST, 6);
    SAME(HINET_PARAMETERS_BYTES, 15);
}

static void boot_constants(void)
{
    SAME(HINET_MACHINE_ROW_BYTES, 12);
    SAME(HINET_MACHINES_MOST, 128);
    SAME(HINET_PRODUCT_ROW_BYTES, 25);
    SAME(HINET_PRODUCTS_MOST, 40);
    SAME(HINET_USER_ROW_BYTES, 16);
    SAME(HINET_USERS_MOST, 128);
    SAME(HINET_CONFIGURATION_ROW_BYTES, 64);
    SAME(HINET_CONFIGURATIONS_MOST, 128);
    SAME(HINET_SYSTEM_ROW_BYTES, 96);
    SAME(HINET_SYSTEMS_MOST, 128);
    SAME(HINET_DIRECTORY_ROW_BYTES, 24);
    SAME(HINET_DIRECTORY_MOST, 128);
    SAME(HINET_BOOT_DRIVES, 4);
    SAME(HINET_BOOT_IOBYTE, 32);
    SAME(HINET_BOOT_TYPEAHEAD, 33);
    SAME(HINET_BOOT_TYPEAHEAD_MOST, 31);
    SAME(HINET_BOOT_HONOR, 65);
    SAME(HINET_BOOT_ENTRY, 66);
    SAME(HINET_BOOT_ENTRIES, 8);
    SAME(HINET_BOOT_ENTRY_BYTES, 16);
    SAME(HINET_BOOT_BYTES, 194);
    SAME(HINET_HONOR_EXACT, 0);
    SAME(HINET_HONOR_SMALLEST, 1);
    SAME(HINET_HONOR_LOGIN, 2);
    SAME(HINET_HONOR_MENU, 3);
    SAME(HINET_HONOR_NOTHING, 4);
}

static void line_constants(void)
{
    SAME(HINET_LINE_DATA_MOST, 1024);
    SAME(HINET_LINE_BITS_MOST, 9891);
    SAME(HINET_LINE_BYTES_MOST, 1237);
    SAME(HINET_LINE_MASTER, 0);
}

static void version(void)
{
    SAME(HINET_VERSION_MAJOR, 4);
    SAME(HINET_VERSION_MINOR, 1);
    SAME(HINET_VERSION_PATCH, 0);
    SAME(strcmp(HINET_VERSION, "4.1.0"), 0);
}

/* ---- types ---- */

static void types(void)
{
    SAME(sizeof(hinet_volume), 4);
    SAME(sizeof(hinet_partition), 4);
    SAME(sizeof(hinet_track), 4);
    SAME(sizeof(hinet_sector), 4);
    SAME(hinet_volume_of(0x81A2B3C4u).number, 0x81A2B3C4u);
    SAME(hinet_partition_of(0x92B3C4D5u).number, 0x92B3C4D5u);
    SAME(hinet_track_of(0xA3C4D5E6u).number, 0xA3C4D5E6u);
    SAME(hinet_sector_of(0xB4D5E6F7u).number, 0xB4D5E6F7u);
}

/* ---- the answer word ---- */

/* A word whose bytes are these, lowest first, and the sector of a place, the bit
 * count and the length of a line in it. */
static void word_of(uint64_t word, const uint8_t bytes[8], uint32_t sector, uint32_t bits,
                    uint16_t length)
{
    uint8_t serial[4] = { 0, 0, 0, 0 };
    SAME(hinet_answer_refusal(word), bytes[0]);
    SAME(hinet_answer_kind(word), bytes[1]);
    for (unsigned i = 0; i < 6; i++)
        SAME(hinet_answer_byte(word, i), bytes[2 + i]);
    SAME(hinet_answer_code(word), bytes[2]);
    SAME(hinet_answer_length(word), bytes[2]);
    SAME(hinet_answer_status(word), bytes[2]);
    SAME(hinet_answer_assign_size(word), bytes[2]);
    SAME(hinet_answer_assign_partition(word).number, bytes[3]);
    SAME(hinet_answer_assign_control(word), bytes[4]);
    SAME(hinet_answer_assign_volume(word).number, bytes[5]);
    SAME(hinet_answer_place_volume(word).number, bytes[2]);
    SAME(hinet_answer_place_sector(word), sector);
    SAME(hinet_answer_login_number(word), bytes[2]);
    SAME(hinet_answer_login_found(word), bytes[3]);
    hinet_answer_login_serial(word, serial);
    same_bytes("hinet_answer_login_serial", serial, (const char *)bytes + 4, 4);
    SAME(hinet_answer_due(word), bytes[2]);
    SAME(hinet_answer_out(word), bytes[3]);
    SAME(hinet_fault_part(word), bytes[2]);
    SAME(hinet_fault_row(word), bytes[3]);
    SAME(hinet_fault_breach(word), bytes[4]);
    SAME(hinet_answer_honor(word), bytes[2]);
    SAME(hinet_answer_bit_count(word), bits);
    SAME(hinet_answer_line_user(word), bytes[2]);
    SAME(hinet_answer_line_length(word), length);
}

/* Two words: where a bit is set in one of them it is not set in the other. */
static void words(void)
{
    static const uint8_t high[8] = { 0x91, 0xA2, 0xB3, 0xC4, 0xD5, 0xE6, 0xF7, 0x88 };
    static const uint8_t low[8] = { 0x6E, 0x5D, 0x4C, 0x3B, 0x2A, 0x19, 0x08, 0x77 };
    word_of(UINT64_C(0x88F7E6D5C4B3A291), high, 0xF7E6D5C4u, 0xE6D5C4B3u, 0xD5C4);
    word_of(UINT64_C(0x7708192A3B4C5D6E), low, 0x08192A3Bu, 0x192A3B4Cu, 0x2A3B);
}

/* The text of each refusal, and of a number that is none. */
static void refusal_texts(void)
{
    static const char *const texts[25] = {
        "not refused",
        "the frame is empty",
        "the number is not 0 to 63 or 253, or is not logged in",
        "the code is not in the frame table",
        "the frame's length is not that of its code",
        "the command is not for this number",
        "dtn is not 0",
        "src differs from the number polled",
        "volume and partition name no row of the site file",
        "track or sector is outside the partition",
        "the site file breaks a rule",
        "the tables or the station's state break a rule",
        "heard in a turn that was not due",
        "the buffer is too short for what goes into it",
        "the station asks while it waits for a reply",
        "the reply does not fit what the station waits for",
        "the size code is not 1 to 6",
        "the data are not 1 to 1024 bytes",
        "there is no flag at the first bit, the bits ended, or the bit count is past the bytes",
        "seven ones stopped the frame",
        "the bits are not whole bytes",
        "there are under four bytes between the flags",
        "the frame check differs",
        "a table is not whole rows, or has too many",
        "no refusal number"
    };
    for (unsigned i = 0; i < 25; i++)
        same(texts[i], strcmp(hinet_refusal_text(i), texts[i]) == 0, 1);
    SAME(strcmp(hinet_refusal_text(255), texts[24]), 0);
    SAME(strcmp(hinet_refusal_text(256), texts[24]), 0);
    SAME(strcmp(hinet_refusal_text(0xFFFFFFFFu), texts[24]), 0);
}

/* The text of each part and each breach, and of a number that is none. */
static void fault_texts(void)
{
    SAME(strcmp(hinet_part_text(0), "header"), 0);
    SAME(strcmp(hinet_part_text(1), "user row"), 0);
    SAME(strcmp(hinet_part_text(2), "partition row"), 0);
    SAME(strcmp(hinet_part_text(3), "no part"), 0);
    SAME(strcmp(hinet_part_text(256), "no part"), 0);
    SAME(strcmp(hinet_part_text(0xFFFFFFFFu), "no part"), 0);
    SAME(strcmp(hinet_breach_text(0), "no breach"), 0);
    SAME(strcmp(hinet_breach_text(1), "is out of range"), 0);
    SAME(strcmp(hinet_breach_text(2), "repeats the name of an earlier row"), 0);
    SAME(strcmp(hinet_breach_text(3), "repeats volume and number of an earlier row"), 0);
    SAME(strcmp(hinet_breach_text(4), "overlaps an earlier row"), 0);
    SAME(strcmp(hinet_breach_text(5), "no breach"), 0);
    SAME(strcmp(hinet_breach_text(257), "no breach"), 0);
    SAME(strcmp(hinet_breach_text(0xFFFFFFFFu), "no breach"), 0);
}

/* The text of each honor flag, and of a number that is none. */
static void honor_texts(void)
{
    SAME(strcmp(hinet_honor_text(0), "a system with the machine's options"), 0);
    SAME(strcmp(hinet_honor_text(1), "the smallest system that fits"), 0);
    SAME(strcmp(hinet_honor_text(2), "Login Please, as name or password is unknown"), 0);
    SAME(strcmp(hinet_honor_text(3), "OS Menu, as no system fits"), 0);
    SAME(strcmp(hinet_honor_text(4), "nothing can be loaded"), 0);
    SAME(strcmp(hinet_honor_text(5), "no honor flag"), 0);
    SAME(strcmp(hinet_honor_text(256), "no honor flag"), 0);
    SAME(strcmp(hinet_honor_text(0xFFFFFFFFu), "no honor flag"), 0);
}

/* ---- fields of frames, tables and states ---- */

static void request_fields(void)
{
    static const uint8_t read[8] = { 0x11, 0x00, 0xA2, 0xB3, 0xC4, 0xD5, 0xE6, 0xF7 };
    static const uint8_t write[8] = { 0x12, 0x00, 0x17, 0x26, 0x35, 0x44, 0x53, 0x62 };
    static const uint8_t logout[3] = { 0x1F, 0x9A, 0x8B };
    static const uint8_t login[20] = { 0x13, 1, 2, 3, 4, 5, 6, 7, 8, 9, 10, 11, 12, 13, 14,
                                       15, 16, 17, 18, 0xC9 };
    SAME(hinet_request_code(read), 0x11);
    SAME(hinet_request_code(logout), 0x1F);
    SAME(hinet_request_src(read), 0xA2);
    SAME(hinet_request_partition(read).number, 0xB3);
    SAME(hinet_request_track(read).number, 0xD5C4);
    SAME(hinet_request_sector(read).number, 0xE6);
    SAME(hinet_request_volume(read).number, 0xF7);
    SAME(hinet_request_src(write), 0x17);
    SAME(hinet_request_partition(write).number, 0x26);
    SAME(hinet_request_track(write).number, 0x4435);
    SAME(hinet_request_sector(write).number, 0x53);
    SAME(hinet_request_volume(write).number, 0x62);
    SAME(hinet_request_src(logout), 0x9A);
    SAME(hinet_request_name(login) - login, 1);
    SAME(hinet_request_password(login) - login, 9);
    SAME(hinet_request_serial(login) - login, 15);
    SAME(hinet_request_product(login), 0xC9);
    SAME(hinet_request_lockstring(login) - login, 1);
    SAME(hinet_lockstring_length(read + 2), 0xA2);
    SAME(hinet_lockstring_bytes(login) - login, 1);
}

/* Eight bytes of a text. */
static const uint8_t *named(const char *text)
{
    return (const uint8_t *)text;
}

static void names(void)
{
    SAME(hinet_name_length(named("BETTYBOB")), 8);
    SAME(hinet_name_length(named("BETTY   ")), 5);
    SAME(hinet_name_length(named("BETTY\0\0\0")), 5);
    SAME(hinet_name_length(named("A\0 \0    ")), 1);
    SAME(hinet_name_length(named(" A      ")), 2);
    SAME(hinet_name_length(named("\0\0A     ")), 3);
    SAME(hinet_name_length(named("A \0B \0  ")), 4);
    SAME(hinet_name_length(named("       A")), 8);
    SAME(hinet_name_length(named("BETTY\xA0\0\0")), 6);
    SAME(hinet_name_length(named("        ")), 0);
    SAME(hinet_name_length(named("\0\0\0\0\0\0\0\0")), 0);
    SAME(hinet_name_equal(named("BETTY   "), named("BETTY\0\0\0")), 1);
    SAME(hinet_name_equal(named("BETTY \0 "), named("BETTY\0 \0")), 1);
    SAME(hinet_name_equal(named("        "), named("\0\0\0\0\0\0\0\0")), 1);
    SAME(hinet_name_equal(named("BETTYBOB"), named("BETTYBOB")), 1);
    SAME(hinet_name_equal(named("BETTY   "), named("BETTY  X")), 0);
    SAME(hinet_name_equal(named("BETTY   "), named("BETTI   ")), 0);
    SAME(hinet_name_equal(named("BETTY   "), named("betty   ")), 0);
    SAME(hinet_name_equal(named("BETTY   "), named("VETTY   ")), 0);
    SAME(hinet_name_equal(named(" BETTY  "), named("\0BETTY  ")), 0);
    SAME(hinet_name_equal(named(" BETTY  "), named("BETTY   ")), 0);
    SAME(hinet_name_equal(named("BE TTY  "), named("BE\0TTY  ")), 0);
    SAME(hinet_name_equal(named("BETTYBOB"), named("BETTYBO ")), 0);
    SAME(hinet_name_equal(named("A       "), named("        ")), 0);
}

static void row_fields(void)
{
    static uint8_t locks[1024];
    memset(locks, 0xEE, sizeof locks);
    locks[0] = 0x10;
    locks[592] = 0x91;
    locks[1008] = 0xA2;
    SAME(hinet_row_owner(locks, 0), 0x10);
    SAME(hinet_row_owner(locks, 37), 0x91);
    SAME(hinet_row_owner(locks, 63), 0xA2);
    SAME(hinet_row_lockstring(locks, 0) - locks, 1);
    SAME(hinet_row_lockstring(locks, 37) - locks, 593);
    SAME(hinet_row_lockstring(locks, 63) - locks, 1009);
}

/* Records 0, 41 and 63 among bytes EE. */
static void record_fields(void)
{
    static uint8_t stations[1152];
    memset(stations, 0xEE, sizeof stations);
    memcpy(stations, "\x01\x12\x34\x05", 4);
    memcpy(stations + 738, "\x81\xD2\xE3\xA4", 4);
    memcpy(stations + 754, "\xB5\xC6", 2);
    memcpy(stations + 1134, "\x72\x63\x04\x45", 4);
    memcpy(stations + 1150, "\x56\x27", 2);
    SAME(hinet_record_logged_in(stations, 0), 0x01);
    SAME(hinet_record_logged_in(stations, 41), 0x81);
    SAME(hinet_record_logged_in(stations, 63), 0x72);
    SAME(hinet_record_misses(stations, 0), 0x3412);
    SAME(hinet_record_misses(stations, 41), 0xE3D2);
    SAME(hinet_record_misses(stations, 63), 0x0463);
    SAME(hinet_record_slow_turns(stations, 0), 0x05);
    SAME(hinet_record_slow_turns(stations, 41), 0xA4);
    SAME(hinet_record_slow_turns(stations, 63), 0x45);
    SAME(hinet_record_name(stations, 0) - stations, 4);
    SAME(hinet_record_name(stations, 41) - stations, 742);
    SAME(hinet_record_name(stations, 63) - stations, 1138);
    SAME(hinet_record_serial(stations, 0) - stations, 12);
    SAME(hinet_record_serial(stations, 41) - stations, 750);
    SAME(hinet_record_serial(stations, 63) - stations, 1146);
    SAME(hinet_record_product(stations, 41), 0xB5);
    SAME(hinet_record_product(stations, 63), 0x56);
    SAME(hinet_record_found(stations, 41), 0xC6);
    SAME(hinet_record_found(stations, 63), 0x27);
}

static void state_fields(void)
{
    static uint8_t station[911];
    memset(station, 0xEE, sizeof station);
    station[896] = 0x9B;
    SAME(hinet_state_lockstring(station, 0) - station, 0);
    SAME(hinet_state_lockstring(station, 1) - station, 14);
    SAME(hinet_state_lockstring(station, 63) - station, 882);
    SAME(hinet_state_awaited(station), 0x9B);
}

/* A block whose bytes all differ: each field is read where it stands. */
static void block_fields(void)
{
    static const uint8_t block[15] = { 0x81, 0x12, 0x93, 0x24, 0xA5, 0x36, 0xB7, 0x48,
                                       0xC9, 0x5A, 0xDB, 0x6C, 0xED, 0x7E, 0xFF };
    SAME(hinet_block_two(block, 0), 0x1281);
    SAME(hinet_block_two(block, 13), 0xFF7E);
    SAME(hinet_cpm_spt(block), 0x1281);
    SAME(hinet_cpm_bsh(block), 0x93);
    SAME(hinet_cpm_blm(block), 0x24);
    SAME(hinet_cpm_exm(block), 0xA5);
    SAME(hinet_cpm_dsm(block), 0xB736);
    SAME(hinet_cpm_drm(block), 0xC948);
    SAME(hinet_cpm_al0(block), 0x5A);
    SAME(hinet_cpm_al1(block), 0xDB);
    SAME(hinet_cpm_cks(block), 0xED6C);
    SAME(hinet_cpm_off(block), 0xFF7E);
    SAME(hinet_msdos_bytes_per_sector(block), 0x1281);
    SAME(hinet_msdos_sectors_per_cluster(block), 0x93);
    SAME(hinet_msdos_reserved_sectors(block), 0xA524);
    SAME(hinet_msdos_fats(block), 0x36);
    SAME(hinet_msdos_root_entries(block), 0x48B7);
    SAME(hinet_msdos_sectors(block), 0x5AC9);
    SAME(hinet_msdos_media(block), 0xDB);
    SAME(hinet_msdos_sectors_per_fat(block), 0xED6C);
    SAME(hinet_msdos_sectors_per_track(block), 0xFF7E);
}

/* A load entry whose bytes all differ. */
static void entry_fields(void)
{
    static const uint8_t entry[16] = { 0x81, 0x12, 0x93, 0xA4, 0x25, 0xB6, 0x37, 0xC8,
                                       0x49, 0xDA, 0xEB, 0x5C, 0xFD, 0x6E, 0x7F, 0x01 };
    SAME(hinet_entry_volume(entry).number, 0x81);
    SAME(hinet_entry_partition(entry).number, 0x12);
    SAME(hinet_entry_track(entry).number, 0xA493);
    SAME(hinet_entry_sector(entry).number, 0x25);
    SAME(hinet_entry_length(entry), 0x37B6);
    SAME(hinet_entry_load_address(entry), 0xEBDA49C8u);
    SAME(hinet_entry_start_offset(entry), 0xFD5C);
    SAME(hinet_entry_flag(entry), 0x6E);
}

/* A boot block of bytes EE. Entries count up to the first of length 0, which has
 * two bytes; what follows it does not count. */
static void boot_fields(void)
{
    static uint8_t block[194];
    memset(block, 0xEE, sizeof block);
    memcpy(block + 32, "\x91\xA2", 2);
    block[65] = 0x83;
    SAME(hinet_boot_drive(block, 0) - block, 0);
    SAME(hinet_boot_drive(block, 3) - block, 24);
    SAME(hinet_boot_iobyte(block), 0x91);
    SAME(hinet_boot_typeahead_length(block), 0xA2);
    SAME(hinet_boot_typeahead(block) - block, 34);
    SAME(hinet_boot_honor(block), 0x83);
    SAME(hinet_boot_entry(block, 0) - block, 66);
    SAME(hinet_boot_entry(block, 7) - block, 178);
    SAME(hinet_boot_entry_count(block), 8);
    block[183] = 0;
    SAME(hinet_boot_entry_count(block), 8);
    block[184] = 0;
    SAME(hinet_boot_entry_count(block), 7);
    block[104] = 0;
    SAME(hinet_boot_entry_count(block), 7);
    block[103] = 0;
    SAME(hinet_boot_entry_count(block), 2);
    memset(block + 71, 0, 2);
    SAME(hinet_boot_entry_count(block), 0);
}

/* ---- one call of each entry ---- */

static const uint8_t name[8] = { 'B', 'E', 'T', 'T', 'Y', ' ', ' ', ' ' };
static const uint8_t password[6] = { 'S', 'E', 'C', 'R', 'E', 'T' };
static const uint8_t serial[4] = { 0x12, 0x34, 0x56, 0x78 };
static const uint8_t string[14] = { 3, 'K', 'E', 'Y' };

/* One frame of each command: kind 6 and its length. A src above 255 is 255. */
static void entries_of_frames(void)
{
    const hinet_volume volume = hinet_volume_of(3);
    const hinet_partition partition = hinet_partition_of(60);
    const hinet_track track = hinet_track_of(0x1234);
    const hinet_sector sector = hinet_sector_of(100);
    uint8_t buffer[20];
    SAME(hinet_write_acknowledge(buffer, 20), 0x010600);
    same_bytes("acknowledge", buffer, "\x41", 1);
    SAME(hinet_write_read(5, volume, partition, track, sector, buffer, 20), 0x080600);
    same_bytes("read", buffer, "\x11\0\x05\x3C\x34\x12\x64\x03", 8);
    SAME(hinet_write_write(256, volume, partition, track, sector, buffer, 20), 0x080600);
    same_bytes("write", buffer, "\x12\0\xFF\x3C\x34\x12\x64\x03", 8);
    SAME(hinet_write_login(name, password, serial, 9, buffer, 20), 0x140600);
    same_bytes("login", buffer, "\x13" "BETTY   SECRET\x12\x34\x56\x78\x09", 20);
    SAME(hinet_write_assign(name, password, buffer, 20), 0x0F0600);
    same_bytes("assign", buffer, "\x17" "BETTY   SECRET", 15);
    SAME(hinet_write_lock(string, buffer, 20), 0x0F0600);
    same_bytes("lock", buffer, "\x19\x03KEY\0\0\0\0\0\0\0\0\0\0", 15);
    SAME(hinet_write_unlock(string, buffer, 20), 0x0F0600);
    same_bytes("unlock", buffer, "\x1A\x03KEY\0\0\0\0\0\0\0\0\0\0", 15);
    SAME(hinet_write_clear(buffer, 20), 0x010600);
    same_bytes("clear", buffer, "\x1B", 1);
    SAME(hinet_write_logout(257, buffer, 1), 13);
    SAME(hinet_write_logout(257, buffer, 20), 0x020600);
    same_bytes("logout", buffer, "\x1F\xFF", 2);
    SAME(hinet_read_frame((const uint8_t *)buffer, 2), 0x1F0D00);
}

/* A partition of volume 1, number 0, size 1, first sector 2048; numbers above
 * 255 are not cut to a byte. A second login with one serial has its number. */
static void entries_of_the_master(void)
{
    static const uint8_t site[32] = { 0, 0, 8, 0, 1, 0, 8, 0,
        'S', 'T', 'O', 'C', 'K', ' ', ' ', ' ', 0, 0, 0, 0, 0, 0, 1, 0, 1, 0, 0, 8, 0, 0, 0, 0 };
    static uint8_t locks[1024], stations[1152];
    const uint8_t *rows = locks, *records = stations;
    uint8_t frame[20];
    SAME(hinet_fresh(locks, 1024, stations, 1152), 0);
    SAME(hinet_check_tables(rows, 1024, records, 1152), 0);
    SAME(hinet_check_site(site, 32), 0);
    SAME(hinet_place(hinet_volume_of(1), hinet_partition_of(0), hinet_track_of(15),
                     hinet_sector_of(128), site, 32), UINT64_C(0x00000FFF010300));
    hinet_write_login(name, password, serial, 9, frame, 20);
    SAME(hinet_frame(253, (const uint8_t *)frame, 20, site, 32, locks, 1024, stations, 1152),
         UINT64_C(0x7856341200010400));
    SAME(hinet_frame(253, (const uint8_t *)frame, 20, site, 32, locks, 1024, stations, 1152),
         UINT64_C(0x7856341200010400));
    SAME(hinet_frame(509, (const uint8_t *)frame, 20, site, 32, locks, 1024, stations, 1152), 2);
    SAME(hinet_due(1, rows, 1024, records, 1152), 0x010500);
    SAME(hinet_due(257, rows, 1024, records, 1152), 2);
    SAME(hinet_poll(1, 0, locks, 1024, stations, 1152), 0x010500);
    SAME(hinet_record_misses(stations, 1), 1);
    SAME(hinet_poll(257, 0, locks, 1024, stations, 1152), 2);
    SAME(hinet_poll(1, 256, locks, 1024, stations, 1152), 0x010500);
    SAME(hinet_record_misses(stations, 1), 0);
}

/* ANNA and ANNE, and three partitions of size 1 on volume 1: STOCK1 to STOCK3,
 * numbers 0 to 2, first sectors 2048, 4096 and 6144. */
static const uint8_t good_site[112] = {
    2, 0, 8, 0, 3, 0, 40, 0,
    'A', 'N', 'N', 'A', ' ', ' ', ' ', ' ', 'S', 'E', 'C', 'R', 'E', 'T', 0, 0,
    'A', 'N', 'N', 'E', ' ', ' ', ' ', ' ', 'S', 'E', 'C', 'R', 'E', 'T', 0, 0,
    'S', 'T', 'O', 'C', 'K', '1', ' ', ' ', 0, 0, 0, 0, 0, 0, 1, 0, 1, 0, 0, 8, 0, 0, 0, 0,
    'S', 'T', 'O', 'C', 'K', '2', ' ', ' ', 0, 0, 0, 0, 0, 0, 1, 1, 1, 0, 0, 16, 0, 0, 0, 0,
    'S', 'T', 'O', 'C', 'K', '3', ' ', ' ', 0, 0, 0, 0, 0, 0, 1, 2, 1, 0, 0, 24, 0, 0, 0, 0
};

/* The good file with two of its bytes changed, or one twice, and the word for it:
 * breach, row, part, kind 7, refusal 10. */
static const struct {
    const char *what;
    uint8_t at, byte, then_at, then_byte;
    uint64_t word;
} faults[] = {
    { "no change", 4, 3, 4, 3, 0 },
    { "129 users", 0, 129, 0, 129, UINT64_C(0x010000070A) },
    { "user offset 9", 2, 9, 2, 9, UINT64_C(0x010000070A) },
    { "2 partitions", 4, 2, 4, 2, UINT64_C(0x010000070A) },
    { "partition offset 41", 6, 41, 6, 41, UINT64_C(0x010000070A) },
    { "ANNA twice", 27, 'A', 27, 'A', UINT64_C(0x020101070A) },
    { "row 0, volume 4", 54, 4, 54, 4, UINT64_C(0x010002070A) },
    { "row 1, number 64", 79, 64, 79, 64, UINT64_C(0x010102070A) },
    { "row 2, size code 0", 104, 0, 104, 0, UINT64_C(0x010202070A) },
    { "row 2, size code 7", 104, 7, 104, 7, UINT64_C(0x010202070A) },
    { "row 2, first sector 1054720", 108, 16, 108, 16, UINT64_C(0x010202070A) },
    { "row 2, spare 1 0", 110, 1, 110, 1, UINT64_C(0x010202070A) },
    { "row 2, spare 0 255", 111, 255, 111, 255, UINT64_C(0x010202070A) },
    { "row 1, STOCK1", 69, '1', 69, '1', UINT64_C(0x020102070A) },
    { "row 0, STOCK3", 45, '3', 45, '3', UINT64_C(0x020202070A) },
    { "row 2, number 0", 103, 0, 103, 0, UINT64_C(0x030202070A) },
    { "row 1, first sector 4095", 82, 255, 83, 15, UINT64_C(0x040102070A) },
    { "row 2, size 2 in row 1", 80, 2, 80, 2, UINT64_C(0x040202070A) },
    { "one row, spare and name", 110, 1, 93, '1', UINT64_C(0x010202070A) },
    { "one row, spare and overlap", 111, 1, 107, 8, UINT64_C(0x010202070A) },
    { "one row, name and number", 93, '1', 103, 1, UINT64_C(0x020202070A) },
    { "one row, name and overlap", 93, '2', 107, 8, UINT64_C(0x020202070A) },
    { "one row, number and overlap", 103, 1, 107, 8, UINT64_C(0x030202070A) },
    { "header and user", 6, 41, 27, 'A', UINT64_C(0x010000070A) },
    { "header and row 0", 7, 1, 54, 4, UINT64_C(0x010000070A) },
    { "user and row 0", 27, 'A', 54, 4, UINT64_C(0x020101070A) },
    { "row 1 overlaps, row 2 out of range", 83, 15, 102, 4, UINT64_C(0x040102070A) },
    { "row 1 out of range, row 2 overlaps", 78, 4, 107, 8, UINT64_C(0x010102070A) },
    { "row 1, number; row 2, name", 79, 0, 93, '1', UINT64_C(0x030102070A) }
};

/* The same word from each entry that is lent the file. */
static void site_gives(const char *what, const uint8_t *site, size_t len, uint64_t word)
{
    static uint8_t locks[1024], stations[1152];
    const uint8_t acknowledge = 0x41;
    hinet_fresh(locks, 1024, stations, 1152);
    same(what, hinet_check_site(site, len), word);
    same(what, hinet_frame(0, &acknowledge, 1, site, len, locks, 1024, stations, 1152), word);
    if (word != 0)
        same(what, hinet_place(hinet_volume_of(1), hinet_partition_of(0), hinet_track_of(0),
                               hinet_sector_of(1), site, len), word);
}

static void faults_of_a_site(void)
{
    uint8_t site[113];
    for (unsigned i = 0; i < sizeof faults / sizeof *faults; i++) {
        memcpy(site, good_site, 112);
        site[faults[i].at] = faults[i].byte;
        site[faults[i].then_at] = faults[i].then_byte;
        site_gives(faults[i].what, site, 112, faults[i].word);
    }
    memcpy(site, good_site, 112);
    site[112] = 0;
    site_gives("no bytes", site, 0, UINT64_C(0x010000070A));
    site_gives("7 bytes", site, 7, UINT64_C(0x010000070A));
    site_gives("8 bytes", site, 8, UINT64_C(0x010000070A));
    site_gives("111 bytes", site, 111, UINT64_C(0x010000070A));
    site_gives("113 bytes", site, 113, UINT64_C(0x010000070A));
}

static void entries_of_a_station(void)
{
    static uint8_t station[911];
    const uint8_t *state = station;
    uint8_t frame[15];
    SAME(hinet_station_fresh(station, 911), 0);
    SAME(hinet_station_lock(station, 911, string), 0);
    SAME(hinet_station_frame(state, 911, frame, 15), 0x0F0600);
    SAME(hinet_station_reply(station, 911, 0x100), 15);
    SAME(hinet_station_reply(station, 911, 0x00), 0);
    SAME(hinet_station_unlock(station, 911, string), 0);
    SAME(hinet_station_clear(station, 911), 14);
}

/* Both blocks of size 5, in a buffer of 16 bytes; sizes that are none, and a
 * buffer that is too short. */
static void entries_of_parameters(void)
{
    uint8_t buffer[16];
    memset(buffer, 0xEE, sizeof buffer);
    SAME(hinet_cpm_parameters(0, buffer, 16), 16);
    SAME(hinet_cpm_parameters(257, buffer, 14), 16);
    SAME(hinet_msdos_parameters(7, buffer, 16), 16);
    SAME(hinet_msdos_parameters(5, buffer, 14), 13);
    same_bytes("refused", buffer, "\xEE\xEE\xEE\xEE\xEE\xEE\xEE\xEE\xEE\xEE\xEE\xEE\xEE\xEE\xEE\xEE", 16);
    SAME(hinet_cpm_parameters(5, buffer, 15), 0x0F0600);
    same_bytes("CP/M", buffer, "\x80\0\x04\x0F\0\xFF\x07\xFF\x03\xFF\xFF\0\x01\0\0\xEE", 16);
    SAME(hinet_msdos_parameters(5, buffer, 16), 0x0F0600);
    same_bytes("MS-DOS", buffer, "\x80\0\x10\x01\0\x02\0\x01\0\x80\x04\x18\0\x80\0\xEE", 16);
}

/* BETTY at a machine of product 5 asks for OS 11, full service. */
static const uint8_t machine_row[12] = { 0x12, 0x34, 0x56, 0x78, 0x85, 1, 2, 3, 4, 5, 6, 0x95 };
static const char product_row[] = "\x05" "BOOT5   LOGIN   MENU    ";
static const char user_row[] = "BETTY\0\0\0SECRET\x11\0";
static const char configuration_row[] =
    "STOCK   ORDERS  LETTERS PAPERS  \x03" "DIRand 28 bytes that are not it";
static const char system_row[96] = "\x11\x20\0\0\0\0\0\0\0\0\0\0\0\0\0\0\0"
    "\1\2\3\4\5\6" "CPM     ";
static const char file_rows[] = "LOGIN   \0\1\2\3\4\5\0\7\10\11\12\13\14\15\16\17"
    "CPM     \0\1\x22\x33\x44\x55\0\x77\x88\x99\xAA\xBB\xCC\1\xEE\xFF";

/* Her block, in a buffer; so many bytes are missing at the end of the directory. */
static uint64_t betty_boots(const uint8_t *her_password, size_t missing, uint8_t *block, size_t len)
{
    return hinet_boot(serial, name, her_password, machine_row, sizeof machine_row,
                      named(product_row), 25, named(user_row), 16, named(configuration_row), 64,
                      named(system_row), 96, named(file_rows), 48 - missing, block, len);
}

static void entries_of_the_boot(void)
{
    uint8_t block[195];
    memset(block, 0xEE, sizeof block);
    SAME(betty_boots(password, 1, block, 193), 23);
    SAME(betty_boots(password, 0, block, 193), 13);
    SAME(hinet_boot(name, name, password, machine_row, 12, machine_row, 0, machine_row, 0,
                    machine_row, 0, machine_row, 0, machine_row, 0, block, 195), 0x040A00);
    SAME(block[0], 0xEE);
    SAME(block[193], 0xEE);
    SAME(betty_boots(password, 0, block, 195), 0x000A00);
    same_bytes("drives", block, configuration_row, 32);
    SAME(hinet_boot_iobyte(block), 0x95);
    same_bytes("type-ahead", block + 33, configuration_row + 32, 32);
    SAME(hinet_boot_honor(block), 0);
    same_bytes("entry", hinet_boot_entry(block, 0), file_rows + 32, 16);
    SAME(hinet_boot_entry_count(block), 1);
    SAME(block[193], 0);
    SAME(block[194], 0xEE);
    SAME(betty_boots(name, 0, block, 194), 0x020A00);
    same_bytes("no drives", block, system_row + 40, 32);
    same_bytes("login", hinet_boot_entry(block, 0), file_rows + 8, 16);
}

/* User number 31 and 32 to 39 have the published check 906E. The check of 00 F0
 * is F8C8: it ends in five ones, and a zero comes after them. */
static void bits_of_the_line(void)
{
    static const uint8_t digits[8] = { '2', '3', '4', '5', '6', '7', '8', '9' }, f0 = 0xF0;
    uint8_t bits[16], data[9];
    memset(bits, 0xEE, sizeof bits);
    memset(data, 0xEE, sizeof data);
    SAME(hinet_line_write('1', digits, 0, bits, 16), 17);
    SAME(hinet_line_write('1', digits, 8, bits, 14), 13);
    same_bytes("refused", bits, "\xEE\xEE\xEE\xEE\xEE\xEE\xEE\xEE\xEE\xEE\xEE\xEE\xEE\xEE\xEE\xEE", 16);
    SAME(hinet_line_write('1', digits, 8, bits, 15), 0x780800);
    same_bytes("bits", bits, "\x7E\x7E" "123456789\x6E\x90\x7E\x7E\xEE", 16);
    SAME(hinet_line_read((const uint8_t *)bits, 15, 121, data, 9), 18);
    SAME(hinet_line_read((const uint8_t *)bits, 15, 120, data, 7), 13);
    same_bytes("refused", data, "\xEE\xEE\xEE\xEE\xEE\xEE\xEE\xEE\xEE", 9);
    SAME(hinet_line_read((const uint8_t *)bits, 15, 120, data, 8), 0x08310900);
    same_bytes("data", data, "23456789\xEE", 9);
    bits[5] ^= 0x10;
    SAME(hinet_line_read((const uint8_t *)bits, 15, 120, data, 9), 22);
    SAME(hinet_line_write(0, &f0, 1, bits, 16), 0x410800);
    same_bytes("five ones", bits, "\x7E\x7E\x00\xF0\xC8\xF8\xFC\xFC\x00" "89\x6E\x90\x7E\x7E\xEE", 16);
    SAME(hinet_line_read((const uint8_t *)bits, 16, 65, data, 1), 0x01000900);
    same_bytes("F0", data, "\xF0" "3456789\xEE", 9);
}

/* An acknowledge for the master, and a byte FF for user number 63. One that
 * has a bit wrong is not served. */
static void entries_of_the_line(void)
{
    static const uint8_t site[8] = { 0, 0, 8, 0, 0, 0, 8, 0 };
    static const uint8_t other[9] = { 0x7E, 0x7E, 0x5F, 0xBE, 0x57, 0xD5, 0xF8, 0xF9, 0x01 };
    static uint8_t locks[1024], stations[1152];
    uint8_t bits[8] = { 0x7E, 0x7E, 0x00, 0x41, 0xCA, 0x5C, 0x7E, 0x7E };
    hinet_fresh(locks, 1024, stations, 1152);
    SAME(hinet_line_frame(0, (const uint8_t *)bits, 8, 64, site, 8, locks, 1024, stations, 1152), 0);
    SAME(hinet_line_frame(1, (const uint8_t *)bits, 8, 64, site, 8, locks, 1024, stations, 1152), 2);
    SAME(hinet_line_frame(256, (const uint8_t *)bits, 8, 64, site, 8, locks, 1024, stations, 1152), 2);
    SAME(hinet_line_frame(0, (const uint8_t *)bits, 8, 64, site, 7, locks, 1024, stations, 1152),
         UINT64_C(0x010000070A));
    SAME(hinet_line_frame(0, (const uint8_t *)bits, 8, 64, site, 8, locks, 1023, stations, 1152), 11);
    bits[3] = 0x43;
    SAME(hinet_line_frame(0, (const uint8_t *)bits, 8, 64, site, 8, locks, 1023, stations, 1152), 22);
    SAME(hinet_line_frame(0, other, 9, 66, site, 7, locks, 1023, stations, 1152), 0x013F0900);
}

int main(void)
{
    refusals_and_kinds();
    frame_constants();
    table_constants();
    boot_constants();
    line_constants();
    version();
    types();
    words();
    refusal_texts();
    fault_texts();
    honor_texts();
    request_fields();
    names();
    row_fields();
    record_fields();
    state_fields();
    block_fields();
    entry_fields();
    boot_fields();
    entries_of_frames();
    entries_of_the_master();
    faults_of_a_site();
    entries_of_a_station();
    entries_of_parameters();
    entries_of_the_boot();
    bits_of_the_line();
    entries_of_the_line();
    printf("header: %lu compared, %lu different\n", compared, different);
    return different == 0 ? 0 : 1;
}
