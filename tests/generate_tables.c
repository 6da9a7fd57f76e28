/* Running tables: played from fresh, at a limit, damaged. */
#include "generate.h"
#include "reference.h"

#include <string.h>

enum {
    ROWS = 64, ROW = 16, RECORDS = 64, RECORD = 18,
    MISSES = 1, SLOW = 3, SERIAL = 12, FOUND = 17, FREE = 0xFF
};

static uint8_t *row_at(struct tables *tables, unsigned i)
{
    return tables->locks + ROW * i;
}

static uint8_t *record_at(struct tables *tables, unsigned number)
{
    return tables->stations + RECORD * number;
}

/* ---- played from fresh ---- */

static const struct site no_rows = { 8, { 0, 0, 8, 0, 0, 0, 8, 0 } };

static void play(struct tables *tables, uint32_t number, const struct frame *frame)
{
    ref_frame(number, frame->bytes, frame->len, no_rows.bytes, no_rows.len,
              tables->locks, tables->locks_len, tables->stations, tables->stations_len);
}

static void play_code(struct rng *rng, struct tables *tables, uint8_t code)
{
    struct frame frame;
    uint32_t number = code == CODE_LOGIN ? 253 : number_logged_in(rng, tables->stations);
    frame_good(rng, &frame, code, number, &no_rows);
    play(tables, number, &frame);
}

static unsigned used_rows(struct tables *tables)
{
    unsigned count = 0;
    for (unsigned i = 0; i < ROWS; i++)
        count += row_at(tables, i)[0] != FREE;
    return count;
}

static unsigned stations_in(struct tables *tables)
{
    unsigned count = 0;
    for (unsigned number = 1; number < RECORDS; number++)
        count += record_at(tables, number)[0] == 1;
    return count;
}

static void set_age(uint8_t *record, unsigned misses, unsigned slow)
{
    record[MISSES] = (uint8_t)(misses & 0xFF);
    record[MISSES + 1] = (uint8_t)(misses >> 8);
    record[SLOW] = (uint8_t)slow;
}

void stations_aged(struct rng *rng, uint8_t *stations)
{
    static const unsigned edges[] = { 0, 1, 158, 159, 160, 161, 254, 255 };
    for (unsigned number = 1; number < RECORDS; number++) {
        uint8_t *record = stations + RECORD * number;
        if (record[0] != 1)
            continue;
        unsigned misses = rng_one_in(rng, 2) ? RNG_PICK(rng, edges) : rng_below(rng, 256);
        set_age(record, misses, misses < 160 ? 0 : rng_below(rng, 12));
    }
}

void stations_alike(struct rng *rng, uint8_t *stations)
{
    unsigned first = rng_below(rng, SERIALS);
    for (unsigned number = 1; number < RECORDS; number++) {
        uint8_t *record = stations + RECORD * number;
        if (record[0] == 1)
            pool_serial((first + rng_below(rng, 4)) % SERIALS, record + SERIAL);
    }
}

void tables_played(struct rng *rng, struct tables *tables,
                   unsigned logins, unsigned strings)
{
    unsigned long tries = 0;
    memset(tables, 0, sizeof *tables);
    tables->locks_len = ROWS * ROW;
    tables->stations_len = RECORDS * RECORD;
    ref_fresh(tables->locks, tables->locks_len, tables->stations, tables->stations_len);
    while (stations_in(tables) < logins) {
        try_again(&tries, "logins that are served");
        play_code(rng, tables, CODE_LOGIN);
    }
    while (used_rows(tables) < strings) {
        try_again(&tries, "locks that are granted");
        play_code(rng, tables, CODE_LOCK);
    }
    for (unsigned number = 1; number < RECORDS; number++)
        if (record_at(tables, number)[0] == 1)
            record_at(tables, number)[FOUND] = (uint8_t)rng_below(rng, 2);
    stations_aged(rng, tables->stations);
}

void tables_any(struct rng *rng, struct tables *tables)
{
    static const unsigned logins[] = { 0, 1, 2, 10, 62, 63 };
    static const unsigned strings[] = { 0, 1, 2, 10, 63, 64 };
    tables_played(rng, tables, RNG_PICK(rng, logins), RNG_PICK(rng, strings));
    for (unsigned n = rng_below(rng, 8); n > 0; n--) {
        play_code(rng, tables, CODE_UNLOCK);
        play_code(rng, tables, rng_one_in(rng, 2) ? CODE_LOGOUT : CODE_LOCK);
    }
    if (rng_one_in(rng, 3))
        stations_alike(rng, tables->stations);
}

/* ---- rows and records of a kind, for tables that have them ---- */

static unsigned used_row(struct rng *rng, struct tables *tables)
{
    unsigned i = rng_below(rng, ROWS);
    unsigned long tries = 0;
    while (row_at(tables, i)[0] == FREE) {
        try_again(&tries, "a used row");
        i = (i + 1) % ROWS;
    }
    return i;
}

static unsigned free_row(struct rng *rng, struct tables *tables)
{
    unsigned i = rng_below(rng, ROWS);
    unsigned long tries = 0;
    while (row_at(tables, i)[0] != FREE) {
        try_again(&tries, "a free row");
        i = (i + 1) % ROWS;
    }
    return i;
}

/* A station other than user 0 that is or is not logged in. */
static unsigned station(struct rng *rng, struct tables *tables, uint8_t logged_in)
{
    unsigned number = 1 + rng_below(rng, 63);
    unsigned long tries = 0;
    while (record_at(tables, number)[0] != logged_in) {
        try_again(&tries, logged_in ? "a station logged in" : "a number not logged in");
        number = 1 + number % 63;
    }
    return number;
}

static void set_row(uint8_t *row, unsigned owner, const uint8_t string[14])
{
    row[0] = (uint8_t)owner;
    memcpy(row + 1, string, 14);
    row[15] = 0;
}

static void free_row_at(struct tables *tables, unsigned i)
{
    static const uint8_t zeros[14];
    set_row(row_at(tables, i), FREE, zeros);
}

static void free_all_rows(struct tables *tables)
{
    for (unsigned i = 0; i < ROWS; i++)
        free_row_at(tables, i);
}

void tables_without(struct tables *tables, unsigned number)
{
    for (unsigned i = 0; i < ROWS; i++)
        if (row_at(tables, i)[0] == number)
            free_row_at(tables, i);
    memset(record_at(tables, number), 0, RECORD);
}

/* ---- at a limit ---- */

/* Strings of one family with all thirteen lengths, in mixed rows. */
static void fill_family(struct rng *rng, struct tables *tables, unsigned family)
{
    uint8_t string[14];
    free_all_rows(tables);
    for (unsigned k = 0; k < 13; k++) {
        pool_string(13 * family + k, string);
        set_row(row_at(tables, free_row(rng, tables)), rng_below(rng, 4), string);
    }
}

void tables_at_limit(struct rng *rng, struct tables *tables, enum tables_limit limit)
{
    tables_played(rng, tables, 3 + rng_below(rng, 59), 2 + rng_below(rng, 61));
    uint8_t *record = record_at(tables, station(rng, tables, 1));
    uint8_t string[14];
    switch (limit) {
    case LIMIT_MISSES_255_SLOW_11:  set_age(record, 255, 11); break;
    case LIMIT_MISSES_160:          set_age(record, 160, rng_below(rng, 12)); break;
    case LIMIT_MISSES_159:          set_age(record, 159, 0); break;
    case LIMIT_LENGTH_13:
        rng_bytes(rng, string, 14);
        string[0] = 13;
        set_row(row_at(tables, free_row(rng, tables)), 0, string);
        break;
    case LIMIT_PREFIX:              fill_family(rng, tables, 0); break;
    case LIMIT_ZERO_STRINGS:        fill_family(rng, tables, 1); break;
    case LIMIT_SERIALS_SHARED:      stations_alike(rng, tables->stations); break;
    default:                        tables_played(rng, tables, rng_below(rng, 64), ROWS); break;
    }
}

/* ---- damaged ---- */

static void damage_size(struct tables *tables, enum tables_damage damage)
{
    switch (damage) {
    case LOCKS_NO_BYTES:            tables->locks_len = 0; break;
    case LOCKS_SHORT_BY_1:          tables->locks_len -= 1; break;
    case LOCKS_LONG_BY_1:           tables->locks_len += 1; break;
    case LOCKS_SHORT_BY_ROW:        tables->locks_len -= ROW; break;
    case LOCKS_LONG_BY_ROW:         row_at(tables, ROWS)[0] = FREE; tables->locks_len += ROW; break;
    case STATIONS_NO_BYTES:         tables->stations_len = 0; break;
    case STATIONS_SHORT_BY_1:       tables->stations_len -= 1; break;
    case STATIONS_LONG_BY_1:        tables->stations_len += 1; break;
    case STATIONS_SHORT_BY_RECORD:  tables->stations_len -= RECORD; break;
    default:                        tables->stations_len += RECORD; break;
    }
}

static void damage_record(struct rng *rng, struct tables *tables, enum tables_damage damage)
{
    uint8_t *record = record_at(tables, station(rng, tables, 1));
    uint8_t *out = record_at(tables, station(rng, tables, 0));
    uint8_t *local = record_at(tables, 0);
    switch (damage) {
    case MISSES_256:    set_age(record, 256, 0); break;
    case MISSES_65535:  set_age(record, 65535, 0); break;
    case SLOW_12:       set_age(record, 160 + rng_below(rng, 96), 12); break;
    case SLOW_255:      set_age(record, 160 + rng_below(rng, 96), 255); break;
    case SLOW_AT_159:   set_age(record, 159, 1 + rng_below(rng, 11)); break;
    case SLOW_AT_0:     set_age(record, 0, 1 + rng_below(rng, 11)); break;
    case LOGGED_IN_2:   out[0] = 2; break;
    case LOGGED_IN_255: out[0] = 255; break;
    case FOUND_2:       record[FOUND] = 2; break;
    case FOUND_255:     record[FOUND] = 255; break;
    case LOCAL_OUT:     tables_without(tables, 0); break;
    case LOCAL_IN_2:    tables_without(tables, 0); local[0] = 2; break;
    case LOCAL_TRACE:   local[1 + rng_below(rng, RECORD - 1)] = 1; break;
    default:            out[1 + rng_below(rng, RECORD - 1)] = 1; break;
    }
}

/* A byte after the string of a used row becomes nonzero. */
static void byte_after_string(struct rng *rng, uint8_t *row)
{
    if (row[1] == 13)
        row[1] = 12;
    row[2 + row[1] + rng_below(rng, 13u - row[1])] = rng_nonzero(rng);
}

/* The string of one used row is put into a free row too. */
static void repeat_string(struct rng *rng, struct tables *tables, int two_owners)
{
    unsigned from = used_row(rng, tables), to = free_row(rng, tables);
    memcpy(row_at(tables, to), row_at(tables, from), ROW);
    if (two_owners)
        row_at(tables, to)[0] = row_at(tables, from)[0] == 0 ? (uint8_t)station(rng, tables, 1) : 0;
}

static void damage_row(struct rng *rng, struct tables *tables, enum tables_damage damage)
{
    uint8_t *row = row_at(tables, used_row(rng, tables));
    switch (damage) {
    case OWNER_OUT:         row[0] = (uint8_t)station(rng, tables, 0); break;
    case OWNER_64:          row[0] = 64; break;
    case OWNER_253:         row[0] = 253; break;
    case OWNER_254:         row[0] = 254; break;
    case LENGTH_0:          memset(row + 1, 0, 15); break;
    case LENGTH_14:         memset(row + 1, 14, 14); break;
    case LENGTH_255:        row[1] = 255; break;
    case BYTE_AFTER_STRING: byte_after_string(rng, row); break;
    case SPARE_SET:         row[15] = rng_nonzero(rng); break;
    case STRING_TWICE_ONE_OWNER:    repeat_string(rng, tables, 0); break;
    case STRING_TWICE_TWO_OWNERS:   repeat_string(rng, tables, 1); break;
    case FREE_OWNER_254:    row_at(tables, free_row(rng, tables))[0] = 254; break;
    default:
        row_at(tables, free_row(rng, tables))[1 + rng_below(rng, 15)] = rng_nonzero(rng);
        break;
    }
}

void tables_damaged(struct rng *rng, struct tables *tables, enum tables_damage damage)
{
    tables_played(rng, tables, 3 + rng_below(rng, 59), 2 + rng_below(rng, 61));
    if (damage < MISSES_256)
        damage_size(tables, damage);
    else if (damage < OWNER_OUT)
        damage_record(rng, tables, damage);
    else
        damage_row(rng, tables, damage);
}

void tables_scrambled(struct rng *rng, struct tables *tables)
{
    tables_any(rng, tables);
    for (unsigned n = 1 + rng_below(rng, 2); n > 0; n--) {
        uint8_t change = (uint8_t)(1u << rng_below(rng, 8));
        if (rng_one_in(rng, 2))
            tables->locks[rng_below(rng, ROWS * ROW)] ^= change;
        else
            tables->stations[rng_below(rng, RECORDS * RECORD)] ^= change;
    }
}
