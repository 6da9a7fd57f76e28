/*
 * Compares the library with the reference: logins, and whom they log out. What
 * a login leaves is said here once more, and for hand-made tables written out.
 * Usage: drive_logins [rounds [first round]]
 */
#include "desk.h"
#include "hinet.h"

#include <stdio.h>
#include <string.h>

enum { SEED = 63, ROUNDS = 20, RECORD = 18, ROW = 16, SERIAL = 12 };

static struct rng rng;
static struct site site;
static struct tables tables;
static struct frame frame;

/* The serial that the frame sends. */
static uint8_t *const sent = frame.bytes + 15;

/* ---- what a login leaves ---- */

static int was_in(unsigned number)
{
    return hinet_record_logged_in(desk.stations.before, number);
}

/* Was this station in before the login, with the serial that is sent? */
static int had_serial(unsigned number)
{
    return number != 0 && was_in(number)
        && memcmp(hinet_record_serial(desk.stations.before, number), sent, 4) == 0;
}

/* Does the login log this number out? */
static int leaves(unsigned number)
{
    static const uint8_t zero[4];
    return had_serial(number) && memcmp(sent, zero, 4) != 0;
}

/* The lowest number that is free when they have left, or 0. */
static unsigned lowest_free(void)
{
    for (unsigned number = 1; number < 64; number++)
        if (!was_in(number) || leaves(number))
            return number;
    return 0;
}

/* The rows of those who leave are free, and the other rows are as they were. */
static void rows_after(void)
{
    static const uint8_t free_row[ROW] = { 0xFF };
    for (unsigned i = 0; i < 64; i++) {
        const uint8_t *row = desk.locks.before + ROW * i;
        if (row[0] != HINET_NO_OWNER && leaves(row[0]))
            row = free_row;
        expect(memcmp(desk.locks.bytes + ROW * i, row, ROW) == 0, "a lock row after a login");
    }
}

/* The records of those who leave are cleared, and those of the others, beside
 * the number given, are as they were. */
static void records_after(unsigned given)
{
    static const uint8_t out[RECORD];
    for (unsigned number = 0; number < 64; number++) {
        const uint8_t *record = desk.stations.before + RECORD * number;
        if (number != 0 && number == given)
            continue;
        if (leaves(number))
            record = out;
        expect(memcmp(desk.stations.bytes + RECORD * number, record, RECORD) == 0,
               "a record after a login");
    }
}

/* The record at the number given has what was sent, and no misses. */
static void record_given(unsigned given, uint8_t found)
{
    const uint8_t *stations = desk.stations.bytes;
    expect(hinet_record_logged_in(stations, given) == 1, "given and not logged in");
    expect(hinet_record_misses(stations, given) == 0, "misses after a login");
    expect(hinet_record_slow_turns(stations, given) == 0, "slow turns after a login");
    expect(memcmp(hinet_record_name(stations, given), frame.bytes + 1, 8) == 0, "name given");
    expect(memcmp(hinet_record_serial(stations, given), sent, 4) == 0, "serial given");
    expect(hinet_record_product(stations, given) == frame.bytes[19], "product given");
    expect(hinet_record_found(stations, given) == found, "name found");
}

/* ---- what logins met, each of which must be seen ---- */

enum met {
    MET_NOBODY, MET_ZERO, MET_OLD_NUMBER, MET_LOWER_NUMBER, MET_SEVERAL,
    MET_FULL, MET_FULL_NOBODY, MET_FULL_ZERO,
    METS
};

static const char *const met_names[METS] = {
    [MET_NOBODY] = "nobody leaves",
    [MET_ZERO] = "serial zero, others have it",
    [MET_OLD_NUMBER] = "one leaves, same number",
    [MET_LOWER_NUMBER] = "one leaves, lower number",
    [MET_SEVERAL] = "several leave",
    [MET_FULL] = "63 in use, some leave",
    [MET_FULL_NOBODY] = "63 in use, nobody leaves",
    [MET_FULL_ZERO] = "63 in use, serial zero"
};

static unsigned long met_counts[METS], logins;

static void count_login(unsigned given)
{
    unsigned in = 0, had = 0, left = 0;
    for (unsigned number = 1; number < 64; number++) {
        in += was_in(number);
        had += had_serial(number);
        left += leaves(number);
    }
    logins++;
    met_counts[MET_NOBODY] += left == 0;
    met_counts[MET_ZERO] += had != left;
    met_counts[MET_OLD_NUMBER] += left == 1 && leaves(given);
    met_counts[MET_LOWER_NUMBER] += left == 1 && !leaves(given);
    met_counts[MET_SEVERAL] += left > 1;
    met_counts[MET_FULL] += in == 63 && left != 0;
    met_counts[MET_FULL_NOBODY] += in == 63 && left == 0;
    met_counts[MET_FULL_ZERO] += in == 63 && had != left;
}

/* Prints the counts; ends with failure if one is 0. */
static int report_logins(void)
{
    int missing = 0;
    for (unsigned i = 0; i < METS; i++) {
        printf("  %-27s %10lu\n", met_names[i], met_counts[i]);
        missing += met_counts[i] == 0;
    }
    printf("%s: %lu logins compared, %d outcomes missing\n", trace.driver, logins, missing);
    return missing == 0 ? 0 : 1;
}

/* Checks the login that was just served; gives its number. */
static unsigned login_agrees(uint64_t answer)
{
    uint8_t serial[4], number = hinet_answer_login_number(answer);
    expect(hinet_answer_kind(answer) == HINET_KIND_LOGIN, "kind of a login");
    hinet_answer_login_serial(answer, serial);
    expect(memcmp(serial, sent, 4) == 0, "serial answered");
    expect(number == lowest_free(), "not the lowest free number");
    rows_after();
    records_after(number);
    if (number != 0)
        record_given(number, hinet_answer_login_found(answer));
    else
        expect(hinet_answer_login_found(answer) == 0, "name found without a number");
    count_login(number);
    return number;
}

/* Serves the frame, a login, on the tables. */
static unsigned log_in(void)
{
    desk_put_tables(&tables);
    uint64_t answer = desk_frame(253, &frame);
    expect_refusal(0);
    return login_agrees(answer);
}

/* ---- hand-made tables ---- */

/*
 * The symbols count from 0 to 63. Stations are written from number 1 on, each
 * by its serial: "SER" and the symbol, but zero for 0. Locks are written from
 * row 0 on, each by its owner. A dot is a number that is out, or a free row.
 */
#define STATION_SYMBOLS "123456789ABCDEFGHIJKLMNOPQRSTUVWXYZabcdefghijklmnopqrstuvwxyz+/"
static const char symbols[] = "0" STATION_SYMBOLS;

#define SEVEN_TIMES(nine) nine nine nine nine nine nine nine
#define EIGHT_TIMES(eight) eight eight eight eight eight eight eight eight
#define ALL_Z SEVEN_TIMES("ZZZZZZZZZ")
#define ALL_ZERO SEVEN_TIMES("000000000")

/* The tables, the serial sent, the number given, the tables then. */
static const struct scene {
    const char *what, *stations, *locks;
    char serial;
    unsigned number;
    const char *stations_after, *locks_after;
} scenes[] = {
    { "nobody is in", "", "0.0", 'A', 1, "A", "0.0" },
    { "nobody has the serial", "AB.C", "1204", 'D', 3, "ABDC", "1204" },
    { "the old number again", "AB", "12.0112", 'A', 1, "AB", ".2.0..2" },
    { "the old number, a higher one is free", "AB.C", "2.14", 'B', 2, "AB.C", "..14" },
    { "a lower number", ".BA.C", "3.2535", 'A', 1, "AB..C", "..25.5" },
    { "the lower of two that are free", "A.C.E", "515", 'E', 2, "AEC..", ".1." },
    { "several", "ABAACA", "143016243", 'A', 1, "AB..C.", "...0..2.." },
    { "several, and a lower number", ".ABAC", "24352", 'A', 1, "A.B.C", "..35." },
    { "serial zero", "0A0", "10323", '0', 4, "0A00", "10323" },
    { "serial zero, a number between", "0.0", "31", '0', 2, "000", "31" },
    { "one among zeros", "0A0", "1223", 'A', 2, "0A0", "1..3" },
    { "all rows", "A", EIGHT_TIMES("11111111"), 'A', 1, "A", EIGHT_TIMES("........") },
    { "63 in use, the first", STATION_SYMBOLS, "1/1.0", '1', 1, STATION_SYMBOLS, "./..0" },
    { "63 in use, the last", STATION_SYMBOLS, "1/1/0", '/', 63, STATION_SYMBOLS, "1.1.0" },
    { "63 in use, two of them",
      "123456789ABCDEFGHIJKLMNOPQRSTUVWXYZabcdeKghijklmnopqrstuvwxyz+/", "KfKgf", 'K', 20,
      "123456789ABCDEFGHIJKLMNOPQRSTUVWXYZabcde.ghijklmnopqrstuvwxyz+/", "...g." },
    { "63 in use, all of them", ALL_Z, "0123/+", 'Z', 1, "Z", "0....." },
    { "63 in use, nobody", ALL_Z, "0123/+", 'Y', 0, ALL_Z, "0123/+" },
    { "63 in use, serial zero", ALL_ZERO, "0123/+", '0', 0, ALL_ZERO, "0123/+" }
};

/* A site file with BETTY, who has the password SECRET. */
static const struct site with_betty = { 24, {
    1, 0, 8, 0, 0, 0, 24, 0,
    'B', 'E', 'T', 'T', 'Y', ' ', ' ', ' ', 'S', 'E', 'C', 'R', 'E', 'T', 0, 0
} };

static void serial_of(uint8_t *serial, char symbol)
{
    memset(serial, 0, 4);
    if (symbol == '0')
        return;
    memcpy(serial, "SER", 3);
    serial[3] = (uint8_t)symbol;
}

/* BETTY's login with this serial. */
static void betty_sends(char symbol)
{
    frame.len = 20;
    memcpy(frame.bytes, "\x13" "BETTY   SECRET....\x05", 20);
    serial_of(sent, symbol);
}

/* At odd numbers stands BETTY, with the product that she sends, and has missed
 * 200 polls; at even ones ANNA, with another. The strings are single bytes. */
static void tables_by_hand(struct tables *made, const char *stations, const char *locks)
{
    tables_played(&rng, made, 0, 0);
    for (unsigned i = 0; stations[i] != '\0'; i++) {
        uint8_t *record = made->stations + RECORD * (i + 1);
        if (stations[i] == '.')
            continue;
        memcpy(record, i % 2 == 0 ? "\x01\xC8\0\x07" "BETTY   ....\x05\x01"
                                  : "\x01\x9F\0\0" "ANNA    ....\x09\0", RECORD);
        serial_of(record + SERIAL, stations[i]);
    }
    for (unsigned i = 0; locks[i] != '\0'; i++) {
        uint8_t *row = made->locks + ROW * i;
        if (locks[i] == '.')
            continue;
        row[0] = (uint8_t)(strchr(symbols, locks[i]) - symbols);
        row[1] = 1;
        row[2] = (uint8_t)('A' + i);
    }
}

/* The record of BETTY's login. */
static void betty_given(uint8_t *record, char symbol)
{
    memcpy(record, "\x01\0\0\0" "BETTY   ....\x05\x01", RECORD);
    serial_of(record + SERIAL, symbol);
}

/* Kind 4, the number, BETTY as found where there is a number, and the serial. */
static uint64_t word_of(unsigned number, char symbol)
{
    uint64_t serial = symbol == '0' ? 0 : 0x524553 | (uint64_t)symbol << 24;
    return serial << 32 | (number == 0 ? 0 : 0x01000000) | (uint64_t)number << 16 | 0x0400;
}

static void play(const struct scene *scene)
{
    static struct tables after;
    tables_by_hand(&tables, scene->stations, scene->locks);
    tables_by_hand(&after, scene->stations_after, scene->locks_after);
    if (scene->number != 0)
        betty_given(after.stations + RECORD * scene->number, scene->serial);
    betty_sends(scene->serial);
    desk_put_tables(&tables);
    uint64_t answer = desk_frame(253, &frame);
    expect(answer == word_of(scene->number, scene->serial), scene->what);
    expect(memcmp(desk.locks.bytes, after.locks, 1024) == 0, scene->what);
    expect(memcmp(desk.stations.bytes, after.stations, 1152) == 0, scene->what);
    login_agrees(answer);
    desk_check_tables();
    expect_refusal(0);
}

static void logins_by_hand(void)
{
    desk_put_site(&with_betty);
    for (unsigned i = 0; i < sizeof scenes / sizeof *scenes; i++)
        play(&scenes[i]);
}

/* ---- refused logins: they log nobody out ---- */

static void login_gives(unsigned refusal, uint32_t number)
{
    desk_put_tables(&tables);
    desk_frame(number, &frame);
    expect_refusal(refusal);
}

/* At a wrong number, and in a wrong form. */
static void refused_frames(void)
{
    static const uint32_t nobody[] = { 3, 63, 64, 252, 254, 255, 256, 509, 0xFFFFFFFDu };
    for (unsigned i = 0; i < sizeof nobody / sizeof *nobody; i++)
        login_gives(2, nobody[i]);
    for (uint32_t number = 0; number <= 2; number++)
        login_gives(5, number);
    frame.len = 19;
    login_gives(4, 253);
    frame.len = 21;
    login_gives(4, 253);
    frame.len = 0;
    login_gives(1, 253);
    frame.len = 20;
    frame.bytes[0] = 0x93;
    login_gives(3, 253);
    frame.bytes[0] = 0x13;
}

/* On a site file and on tables that are no good. */
static void refused_inputs(void)
{
    desk.site.bytes[2] = 9;
    login_gives(10, 253);
    desk.site.bytes[2] = 8;
    tables.locks[15] = 1;
    login_gives(11, 253);
    tables.locks[15] = 0;
    tables.stations_len--;
    login_gives(11, 253);
    tables.stations_len++;
}

/* The serial is that of station 1 or 2, and both have locks. */
static void refused_logins(void)
{
    static const char serials[] = { 'A', 'B' };
    tables_by_hand(&tables, "AB", "12120");
    desk_put_site(&with_betty);
    for (unsigned i = 0; i < 2; i++) {
        betty_sends(serials[i]);
        refused_frames();
        refused_inputs();
        expect(log_in() == i + 1, "number given after refusals");
    }
}

/* ---- all numbers, all serials of the pool, all counts ---- */

/* 63 stations with serials of their own, and 64 locks. */
static struct tables full;

static void make_full(void)
{
    uint8_t serial[4] = { 7, 7, 7, 7 };
    tables_played(&rng, &full, 63, 64);
    for (unsigned number = 1; number < 64; number++) {
        serial[1] = (uint8_t)number;
        memcpy(full.stations + RECORD * number + SERIAL, serial, 4);
    }
}

/* A login of any name with this serial. */
static void draw_login(const uint8_t *serial)
{
    frame_good(&rng, &frame, CODE_LOGIN, 253, &site);
    memcpy(sent, serial, 4);
}

/* Each station starts again while another number is free, or none is. It has
 * its own number again, or the free one where that is lower. */
static void each_number(void)
{
    for (unsigned old = 1; old < 64; old++) {
        const unsigned others[] = { 0, 1, old - 1, (old + 1) % 64, 63, 1 + rng_below(&rng, 63) };
        for (unsigned i = 0; i < sizeof others / sizeof *others; i++) {
            unsigned other = others[i];
            tables = full;
            if (other != 0 && other != old)
                tables_without(&tables, other);
            draw_login(full.stations + RECORD * old + SERIAL);
            expect(log_in() == (other != 0 && other < old ? other : old), "number given");
        }
    }
}

/* The stations from 1 on have the serials of the pool. The first is zero and
 * logs nobody out, and each other one logs out its own number. */
static void look_alikes(void)
{
    for (unsigned i = 0; i < SERIALS; i++) {
        tables = full;
        for (unsigned k = 0; k < SERIALS; k++)
            pool_serial(k, tables.stations + RECORD * (k + 1) + SERIAL);
        tables_without(&tables, SERIALS + 1);
        draw_login(tables.stations + RECORD * (i + 1) + SERIAL);
        expect(log_in() == (i == 0 ? SERIALS + 1 : i + 1), "number given to a look-alike");
    }
}

/* Gives a record the serial sent; or another: zero, or one that differs in one
 * byte. Half of them have the name and the product sent, too. */
static void dress(uint8_t *record, int same)
{
    uint8_t *serial = record + SERIAL;
    memcpy(serial, sent, 4);
    if (!same && rng_one_in(&rng, 4))
        memset(serial, 0, 4);
    else if (!same)
        serial[rng_below(&rng, 4)] ^= rng_nonzero(&rng);
    if (rng_one_in(&rng, 2))
        return;
    memcpy(record + 4, frame.bytes + 1, 8);
    record[16] = frame.bytes[19];
}

/* So many stations at random numbers, so many of them with the serial sent;
 * they have all locks, or some. */
static void dressed_tables(unsigned in, unsigned same)
{
    unsigned numbers[63], some = 1 + rng_below(&rng, 4);
    tables = full;
    for (unsigned i = 0; i < 63; i++)
        numbers[i] = i + 1;
    for (unsigned left = 63; left > 0; left--) {
        unsigned i = rng_below(&rng, left), number = numbers[i];
        numbers[i] = numbers[left - 1];
        numbers[left - 1] = number;
        if (left > in)
            tables_without(&tables, number);
        else
            dress(tables.stations + RECORD * number, left <= same);
    }
    for (unsigned i = 0; i < 64 && same != 0; i++)
        if (tables.locks[ROW * i] != HINET_NO_OWNER && rng_one_in(&rng, some))
            tables.locks[ROW * i] = (uint8_t)numbers[rng_below(&rng, same)];
}

/* Each serial of the pool is sent where none, one, two, half or all have it. */
static void shared_serials(void)
{
    static const unsigned counts[] = { 63, 62, 10, 2, 1, 0 };
    uint8_t serial[4];
    for (unsigned i = 0; i < SERIALS; i++)
        for (unsigned k = 0; k < sizeof counts / sizeof *counts; k++) {
            unsigned in = counts[k];
            const unsigned same[] = { 0, in < 1 ? in : 1, in < 2 ? in : 2, in / 2, in };
            for (unsigned n = 0; n < sizeof same / sizeof *same; n++) {
                pool_serial(i, serial);
                draw_login(serial);
                dressed_tables(in, same[n]);
                log_in();
            }
        }
}

/* ---- runs from fresh tables ---- */

static void run(unsigned steps)
{
    static const enum mood moods[] = {
        MOOD_LOGINS, MOOD_LOGINS, MOOD_MIXED, MOOD_LEAVE, MOOD_FAULTS
    };
    enum mood mood = MOOD_LOGINS;
    tables_played(&rng, &tables, 0, 0);
    desk_put_tables(&tables);
    desk_fresh();
    for (unsigned i = 0; i < steps; i++) {
        if (rng_one_in(&rng, 100))
            mood = RNG_PICK(&rng, moods);
        if (rng_one_in(&rng, 200)) {
            memcpy(tables.stations, desk.ref_stations, sizeof tables.stations);
            stations_alike(&rng, tables.stations);
            desk_put_stations(tables.stations);
        }
        uint32_t number = next_frame(&rng, mood, &site, desk.ref_locks, desk.ref_stations, &frame);
        uint64_t answer = desk_frame(number, &frame);
        if (hinet_answer_kind(answer) == HINET_KIND_LOGIN)
            login_agrees(answer);
    }
    desk_check_tables();
    expect_refusal(0);
}

static void one_round(void)
{
    logins_by_hand();
    refused_logins();
    site_any(&rng, &site);
    desk_put_site(&site);
    make_full();
    each_number();
    look_alikes();
    shared_serials();
    run(3000);
}

int main(int argc, char **argv)
{
    struct rounds rounds = rounds_from(argc, argv, ROUNDS);
    trace.driver = "drive_logins";
    trace.seed = SEED;
    for (trace.round = rounds.first; trace.round < rounds.end; trace.round++) {
        trace.step = 0;
        rng = rng_from(((uint64_t)SEED << 32) + trace.round);
        one_round();
    }
    return report_logins();
}
