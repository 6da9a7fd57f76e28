/* One poll turn, and whether the next one is due. */
#include "reference.h"
#include "reference_parts.h"

static uint64_t turn(int due, int out)
{
    return 5 << 8 | ref_byte(0, due ? 1 : 0) | ref_byte(1, out ? 1 : 0);
}

static void set_misses(uint8_t *record, unsigned misses)
{
    record[MISSES] = (uint8_t)(misses & 0xFF);
    record[MISSES + 1] = (uint8_t)(misses >> 8);
}

/* The refusals of a turn, whether heard or not: 11, 2, 5, or 0. */
static unsigned refusal(uint32_t number, const uint8_t *locks, size_t locks_len,
                        const uint8_t *stations, size_t stations_len)
{
    if (!ref_tables_good(locks, locks_len, stations, stations_len))
        return 11;
    if (number != LOGIN_NUMBER && !ref_logged_in(stations, number))
        return 2;
    if (number == 0 || number == LOGIN_NUMBER)
        return 5;
    return 0;
}

static int is_due(const uint8_t *record)
{
    return ref_number16(record + MISSES) < SLOW_FROM || record[SLOW] == SLOW_TURNS;
}

uint64_t ref_due(uint32_t number,
                 const uint8_t *locks, size_t locks_len,
                 const uint8_t *stations, size_t stations_len)
{
    unsigned refused = refusal(number, locks, locks_len, stations, stations_len);
    if (refused != 0)
        return refused;
    return turn(is_due(stations + RECORD * number), 0);
}

uint64_t ref_poll(uint32_t number, uint32_t heard,
                  uint8_t *locks, size_t locks_len,
                  uint8_t *stations, size_t stations_len)
{
    unsigned refused = refusal(number, locks, locks_len, stations, stations_len);
    if (refused != 0)
        return refused;
    uint8_t *record = stations + RECORD * number;
    unsigned misses = ref_number16(record + MISSES);
    int due = is_due(record);
    if (!due && heard != 0)
        return 12;
    if (!due) {
        record[SLOW]++;
        return turn(0, 0);
    }
    record[SLOW] = 0;
    if (heard != 0) {
        set_misses(record, 0);
        return turn(1, 0);
    }
    if (misses == MISSES_MOST) {
        ref_log_out(locks, stations, (uint8_t)number);
        return turn(1, 1);
    }
    set_misses(record, misses + 1);
    return turn(1, 0);
}
