/* What the master does with one request frame. */
#include "reference.h"
#include "reference_parts.h"

#include <string.h>

static uint64_t status(uint8_t byte)
{
    return 1 << 8 | ref_byte(0, byte);
}

/* May this command come at this number? */
static int command_allowed(uint8_t code, uint32_t number)
{
    if (number == LOGIN_NUMBER)
        return code == LOGIN;
    if (code == LOGIN)
        return 0;
    return code != LOGOUT || number != 0;
}

/* Refusals 1 to 7 in their order, or 0. */
static unsigned refusal(uint32_t number, const uint8_t *frame, size_t frame_len,
                        const uint8_t *stations)
{
    if (frame_len == 0)
        return 1;
    if (number != LOGIN_NUMBER && !ref_logged_in(stations, number))
        return 2;
    uint8_t code = frame[0];
    if (ref_frame_length(code) == 0)
        return 3;
    if (frame_len != ref_frame_length(code))
        return 4;
    if (!command_allowed(code, number))
        return 5;
    if (ref_has_dtn(code) && frame[1] != 0)
        return 6;
    if ((code == READ || code == WRITE) && frame[2] != number)
        return 7;
    if (code == LOGOUT && frame[1] != number)
        return 7;
    return 0;
}

/* Frame: code, dtn, src, partition, track (2), sector, volume. */
static uint64_t read_or_write(const uint8_t *frame, const uint8_t *site)
{
    uint32_t partition = frame[3];
    uint32_t track = ref_number16(frame + 4);
    uint32_t sector = frame[6];
    uint32_t volume = frame[7];
    return ref_place_in(site, volume, partition, track, sector);
}

/* The lowest free number from 1 to 63, or 0. */
static uint8_t free_number(const uint8_t *stations)
{
    for (uint8_t number = 1; number < USERS; number++)
        if (!ref_logged_in(stations, number))
            return number;
    return 0;
}

/* Logs out every number from 1 to 63 with this serial; for serial 00 00 00 00
 * nobody. */
static void log_out_serial(const uint8_t *serial, uint8_t *locks, uint8_t *stations)
{
    if (ref_all_zero(serial, 4))
        return;
    for (uint8_t number = 1; number < USERS; number++)
        if (ref_logged_in(stations, number)
            && memcmp(stations + RECORD * number + SERIAL, serial, 4) == 0)
            ref_log_out(locks, stations, number);
}

/* Frame: code, name 8, password 6, serial 4, product. */
static uint64_t login(const uint8_t *frame, const uint8_t *site,
                      uint8_t *locks, uint8_t *stations)
{
    const uint8_t *name = frame + 1, *password = frame + 9, *serial = frame + 15;
    uint8_t product = frame[19];
    log_out_serial(serial, locks, stations);
    uint8_t number = free_number(stations);
    uint8_t found = 0;
    if (number != 0) {
        uint8_t *record = stations + RECORD * number;
        found = ref_user_known(site, name, password) ? 1 : 0;
        memset(record, 0, RECORD);
        record[LOGGED_IN] = 1;
        memcpy(record + NAME, name, 8);
        memcpy(record + SERIAL, serial, 4);
        record[PRODUCT] = product;
        record[FOUND] = found;
    }
    return 4 << 8 | ref_byte(0, number) | ref_byte(1, found)
         | ref_byte(2, serial[0]) | ref_byte(3, serial[1])
         | ref_byte(4, serial[2]) | ref_byte(5, serial[3]);
}

/* Frame: code, name 8, password 6. */
static uint64_t assign(const uint8_t *frame, const uint8_t *site)
{
    const uint8_t *name = frame + 1, *password = frame + 9;
    const uint8_t *row = ref_partition_named(site, name);
    if (row == NULL)
        return 2 << 8 | ref_byte(0, 0xFF);
    if (memcmp(row + ROW_PASSWORD, password, 6) != 0 && !ref_all_zero(password, 6))
        return 2 << 8 | ref_byte(0, 0xFF);
    return 2 << 8 | ref_byte(0, row[ROW_SIZE]) | ref_byte(1, row[ROW_PARTITION])
         | ref_byte(2, row[ROW_CONTROL]) | ref_byte(3, row[ROW_VOLUME]);
}

/* The used row that holds a string of legal length, or NULL. */
static uint8_t *holder(uint8_t *locks, const uint8_t *string)
{
    for (unsigned i = 0; i < LOCK_ROWS; i++) {
        uint8_t *row = locks + LOCK_ROW * i;
        if (row[0] != FREE && ref_same_string(row + 1, string))
            return row;
    }
    return NULL;
}

static uint8_t *free_row(uint8_t *locks)
{
    for (unsigned i = 0; i < LOCK_ROWS; i++)
        if (locks[LOCK_ROW * i] == FREE)
            return locks + LOCK_ROW * i;
    return NULL;
}

/* string is the length byte and the thirteen bytes of the frame. */
static uint8_t lock(uint8_t number, const uint8_t *string, uint8_t *locks)
{
    if (!ref_legal_length(string[0]))
        return 0x02;
    uint8_t *row = holder(locks, string);
    if (row != NULL)
        return row[0] == number ? 0x81 : 0x01;
    row = free_row(locks);
    if (row == NULL)
        return 0x82;
    row[0] = number;
    memcpy(row + 1, string, 1 + (size_t)string[0]);
    return 0x00;
}

static uint8_t unlock(uint8_t number, const uint8_t *string, uint8_t *locks)
{
    if (!ref_legal_length(string[0]))
        return 0x02;
    uint8_t *row = holder(locks, string);
    if (row == NULL || row[0] != number)
        return 0x02;
    ref_free_row(row);
    return 0x00;
}

/* A frame that no refusal from 1 to 7 met, on good tables and a good site. */
static uint64_t act(uint8_t number, const uint8_t *frame, const uint8_t *site,
                    uint8_t *locks, uint8_t *stations)
{
    switch (frame[0]) {
    case READ:
    case WRITE:
        return read_or_write(frame, site);
    case LOGIN:
        return login(frame, site, locks, stations);
    case ASSIGN:
        return assign(frame, site);
    case LOCK:
        return status(lock(number, frame + 1, locks));
    case UNLOCK:
        return status(unlock(number, frame + 1, locks));
    case CLEAR:
        ref_free_locks(locks, number);
        return status(0x00);
    case LOGOUT:
        ref_log_out(locks, stations, number);
        return 0;
    default:
        return 0;
    }
}

uint64_t ref_frame(uint32_t number,
                   const uint8_t *frame, size_t frame_len,
                   const uint8_t *site, size_t site_len,
                   uint8_t *locks, size_t locks_len,
                   uint8_t *stations, size_t stations_len)
{
    if (!ref_tables_good(locks, locks_len, stations, stations_len))
        return 11;
    uint64_t fault = ref_check_site(site, site_len);
    if (fault != 0)
        return fault;
    unsigned refused = refusal(number, frame, frame_len, stations);
    if (refused != 0)
        return refused;
    return act((uint8_t)number, frame, site, locks, stations);
}
