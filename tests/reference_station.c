/* The station's end: its list of locks, its wait, what it asks and hears. */
#include "reference.h"
#include "reference_parts.h"

#include <string.h>

enum {
    PLACES = 64,
    PLACE = 14,                 /* length, string 13 */
    AWAITED = PLACES * PLACE,   /* the frame awaited: code, length, string 13 */
    AWAITED_BYTES = 15,
    STATE = AWAITED + AWAITED_BYTES
};

/* How many places are used, counted up to the first unused one. */
static unsigned list_count(const uint8_t *station)
{
    unsigned count = 0;
    while (count < PLACES && station[PLACE * count] != 0)
        count++;
    return count;
}

/* The index of a string of legal length among the first count places, or count. */
static unsigned list_find(const uint8_t *station, unsigned count, const uint8_t *string)
{
    unsigned i = 0;
    while (i < count && !ref_same_string(station + PLACE * i, string))
        i++;
    return i;
}

static int list_good(const uint8_t *station)
{
    unsigned count = list_count(station);
    for (unsigned i = 0; i < count; i++) {
        const uint8_t *place = station + PLACE * i;
        if (!ref_legal_length(place[0]))
            return 0;
        if (!ref_all_zero(place + 1 + place[0], (size_t)(STRING_MOST - place[0])))
            return 0;
        if (list_find(station, i, place) < i)
            return 0;
    }
    return ref_all_zero(station + PLACE * count, PLACE * (PLACES - count));
}

static int awaited_good(const uint8_t *awaited)
{
    switch (awaited[0]) {
    case LOCK:
    case UNLOCK:
        return 1;
    case 0:
    case CLEAR:
        return ref_all_zero(awaited + 1, AWAITED_BYTES - 1);
    default:
        return 0;
    }
}

static int state_good(const uint8_t *station, size_t station_len)
{
    return station_len == STATE && list_good(station) && awaited_good(station + AWAITED);
}

uint64_t ref_station_fresh(uint8_t *station, size_t station_len)
{
    if (station_len != STATE)
        return 11;
    memset(station, 0, STATE);
    return 0;
}

/* The refusals of asking: 11, 14, or 0. */
static unsigned ask_refusal(const uint8_t *station, size_t station_len)
{
    if (!state_good(station, station_len))
        return 11;
    if (station[AWAITED] != 0)
        return 14;
    return 0;
}

static void await(uint8_t *station, uint8_t code, const uint8_t lockstring[14])
{
    station[AWAITED] = code;
    memcpy(station + AWAITED + 1, lockstring, 14);
}

/* Takes a string out of the list, if it is there; the rest keeps its order. */
static void strike(uint8_t *station, const uint8_t *string)
{
    unsigned count = list_count(station);
    unsigned i = list_find(station, count, string);
    if (i == count)
        return;
    memmove(station + PLACE * i, station + PLACE * (i + 1), PLACE * (count - 1 - i));
    memset(station + PLACE * (count - 1), 0, PLACE);
}

uint64_t ref_station_lock(uint8_t *station, size_t station_len,
                          const uint8_t lockstring[14])
{
    unsigned refused = ask_refusal(station, station_len);
    if (refused != 0)
        return refused;
    await(station, LOCK, lockstring);
    return 0;
}

uint64_t ref_station_unlock(uint8_t *station, size_t station_len,
                            const uint8_t lockstring[14])
{
    unsigned refused = ask_refusal(station, station_len);
    if (refused != 0)
        return refused;
    if (ref_legal_length(lockstring[0]))
        strike(station, lockstring);
    await(station, UNLOCK, lockstring);
    return 0;
}

uint64_t ref_station_clear(uint8_t *station, size_t station_len)
{
    unsigned refused = ask_refusal(station, station_len);
    if (refused != 0)
        return refused;
    memset(station, 0, STATE);
    station[AWAITED] = CLEAR;
    return 0;
}

uint64_t ref_station_frame(const uint8_t *station, size_t station_len,
                           uint8_t *buffer, size_t buffer_len)
{
    if (!state_good(station, station_len))
        return 11;
    uint8_t length = AWAITED_BYTES;
    if (station[AWAITED] == 0)
        length = 0;
    else if (station[AWAITED] == CLEAR)
        length = 1;
    if (buffer_len < length)
        return 13;
    memcpy(buffer, station + AWAITED, length);
    return 6 << 8 | ref_byte(0, length);
}

/* Is the reply one that the frame awaited can have? */
static int reply_fits(const uint8_t *awaited, uint32_t reply)
{
    int legal = ref_legal_length(awaited[1]);
    switch (awaited[0]) {
    case LOCK:
        if (reply == 0x00 || reply == 0x81)
            return legal;
        return reply == 0x01 || reply == 0x02 || reply == 0x82;
    case UNLOCK:
        if (reply == 0x00)
            return legal;
        return reply == 0x02;
    case CLEAR:
        return reply == 0x00;
    default:
        return 0;
    }
}

/* Adds a string to the end of the list if missing; no if it were the 65th. */
static int add(uint8_t *station, const uint8_t *string)
{
    unsigned count = list_count(station);
    if (list_find(station, count, string) < count)
        return 1;
    if (count == PLACES)
        return 0;
    memcpy(station + PLACE * count, string, 1 + (size_t)string[0]);
    return 1;
}

uint64_t ref_station_reply(uint8_t *station, size_t station_len, uint32_t reply)
{
    if (!state_good(station, station_len))
        return 11;
    uint8_t *awaited = station + AWAITED;
    if (!reply_fits(awaited, reply))
        return 15;
    int granted = awaited[0] == LOCK && (reply == 0x00 || reply == 0x81);
    if (granted && !add(station, awaited + 1))
        return 15;
    memset(awaited, 0, AWAITED_BYTES);
    return 0;
}
