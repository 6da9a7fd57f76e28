/*
 * Compares the library with the reference: fresh tables, the two checks,
 * frames and places. Usage: drive_frames [rounds [first round]]
 */
#include "desk.h"
#include "hinet.h"

#include <string.h>

enum { SEED = 1983, ROUNDS = 20 };

static struct rng rng;
static struct site site, bad;
static struct tables tables;
static struct frame frame;

/* ---- bad site files ---- */

/* Lends the bad file, makes this call and expects the fault that the file was
 * made for. */
static void bad_site_gives(void (*call)(void), struct site_fault fault)
{
    desk_put_site(&bad);
    call();
    expect_fault(fault.part, fault.row, fault.breach);
}

/* Each rule broken alone, several in one row, and two faults in each order. */
static void bad_sites_give(void (*call)(void))
{
    for (unsigned damage = 0; damage < SITE_DAMAGES; damage++)
        bad_site_gives(call, site_damaged(&rng, &bad, (enum site_damage)damage));
    for (unsigned breaches = 2; breaches <= BROKEN_ALL; breaches += 2)
        bad_site_gives(call, site_row_broken(&rng, &bad, breaches));
    for (unsigned first = 0; first < FAULTY_KINDS; first++)
        for (unsigned second = 0; second < FAULTY_KINDS; second++)
            bad_site_gives(call, site_broken_twice(&rng, &bad, (enum fault_kind)first,
                                                   (enum fault_kind)second));
}

/* ---- fresh tables, checks ---- */

static void fresh_of_all_sizes(void)
{
    static const size_t locks[] = { 1024, 0, 1, 1008, 1023, 1025, 1040, 1152 };
    static const size_t stations[] = { 1152, 0, 1, 1024, 1134, 1151, 1153, 1170 };
    for (unsigned i = 0; i < 8; i++)
        for (unsigned j = 0; j < 8; j++) {
            rng_bytes(&rng, tables.locks, TABLE_ROOM);
            rng_bytes(&rng, tables.stations, TABLE_ROOM);
            tables.locks_len = locks[i];
            tables.stations_len = stations[j];
            desk_put_tables(&tables);
            desk_fresh();
            expect_refusal(i == 0 && j == 0 ? 0 : 11);
        }
}

static void tables_give(unsigned refusal)
{
    desk_put_tables(&tables);
    desk_check_tables();
    expect_refusal(refusal);
}

static void check_site(void)
{
    desk_check_site();
}

static void site_is_good(void)
{
    desk_put_site(&site);
    desk_check_site();
    expect_refusal(0);
}

static void site_has_fault(unsigned part, unsigned row, unsigned breach)
{
    desk_put_site(&site);
    desk_check_site();
    expect_fault(part, row, breach);
}

static void sites(void)
{
    for (unsigned limit = 0; limit < SITE_LIMITS; limit++) {
        site_at_limit(&rng, &site, (enum site_limit)limit);
        site_is_good();
    }
    bad_sites_give(check_site);
    site_any(&rng, &site);
    site_is_good();
    for (unsigned i = 0; i < 20; i++) {
        site_scrambled(&rng, &site);
        desk_put_site(&site);
        desk_check_site();
    }
    for (unsigned i = 0; i < 60; i++) {
        site_spoiled(&rng, &site);
        desk_put_site(&site);
        desk_check_site();
    }
}

/* A file of every length around the right one, which has a user's name twice.
 * Of any other length the header is at fault. */
static void lengths_of_site(void)
{
    site_good(&rng, &site, 3, 4, 2);
    size_t whole = site.len;
    memcpy(site.bytes + 8 + 16, site.bytes + 8, 8);
    for (site.len = 0; site.len <= whole + 40; site.len++)
        if (site.len == whole)
            site_has_fault(PART_USER, 1, BREACH_NAME);
        else
            site_has_fault(PART_HEADER, 0, BREACH_RANGE);
}

static void tables_of_all_kinds(void)
{
    for (unsigned limit = 0; limit < TABLES_LIMITS; limit++) {
        tables_at_limit(&rng, &tables, (enum tables_limit)limit);
        tables_give(0);
    }
    for (unsigned damage = 0; damage < TABLES_DAMAGES; damage++) {
        tables_damaged(&rng, &tables, (enum tables_damage)damage);
        tables_give(11);
    }
    for (unsigned i = 0; i < 20; i++) {
        tables_scrambled(&rng, &tables);
        desk_put_tables(&tables);
        desk_check_tables();
    }
}

/* Any one byte of a small site file changed, good or not. */
static void one_byte_of_site(void)
{
    site_good(&rng, &site, 3, 4, 2);
    for (unsigned i = 0; i < site.len; i++) {
        uint8_t change = rng_nonzero(&rng);
        site.bytes[i] ^= change;
        desk_put_site(&site);
        desk_check_site();
        site.bytes[i] ^= change;
    }
}

/* Any one byte of fresh tables changed, but for a login, is a breach. */
static void one_byte_of_fresh(void)
{
    tables_played(&rng, &tables, 0, 0);
    for (unsigned i = 0; i < 1024 + 1152; i++) {
        uint8_t change = (uint8_t)(2 + rng_below(&rng, 254));
        uint8_t *byte = i < 1024 ? &tables.locks[i] : &tables.stations[i - 1024];
        *byte ^= change;
        tables_give(11);
        *byte ^= change;
    }
}

/* Each row in turn gets a field of the row before, of the first and of any. */
static void repeat_field(uint8_t *rows, size_t row, unsigned count,
                         size_t field, size_t len, void (*found)(unsigned))
{
    uint8_t kept[16];
    for (unsigned i = 1; i < count; i++) {
        unsigned earlier[3] = { i - 1, 0, rng_below(&rng, i) };
        uint8_t *here = rows + row * i + field;
        memcpy(kept, here, len);
        for (unsigned k = 0; k < 3; k++) {
            memcpy(here, rows + row * earlier[k] + field, len);
            found(i);
        }
        memcpy(here, kept, len);
    }
}

static void lock_repeated(unsigned row)
{
    (void)row;
    tables_give(11);
}

static void user_repeated(unsigned row)
{
    name_repadded(&rng, site.bytes + 8 + 16 * row);
    site_has_fault(PART_USER, row, BREACH_NAME);
}

static void name_repeated(unsigned row)
{
    name_repadded(&rng, site.bytes + 8 + 24 * row);
    site_has_fault(PART_PARTITION, row, BREACH_NAME);
}

static void number_repeated(unsigned row)
{
    site_has_fault(PART_PARTITION, row, BREACH_NUMBER);
}

static void sectors_repeated(unsigned row)
{
    site_has_fault(PART_PARTITION, row, BREACH_OVERLAP);
}

static void repeated_rows(void)
{
    tables_played(&rng, &tables, rng_below(&rng, 64), 64);
    repeat_field(tables.locks, 16, 64, 1, 14, lock_repeated);
    site_good(&rng, &site, 128, 4, 2);
    repeat_field(site.bytes + 8, 16, 128, 0, 8, user_repeated);
    site_good(&rng, &site, 0, 64, 4);
    repeat_field(site.bytes + 8, 24, 64, 0, 8, name_repeated);
    repeat_field(site.bytes + 8, 24, 64, 14, 2, number_repeated);
    site_at_limit(&rng, &site, LIMIT_FULL_VOLUME);
    repeat_field(site.bytes + 8 + 16 * site_users(&site), 24, 64, 18, 4, sectors_repeated);
}

/* Each partition row of the largest file in turn is out of range. */
static void rows_out_of_range(void)
{
    site_good(&rng, &site, 128, 64, 4);
    for (unsigned i = 0; i < 64; i++) {
        uint8_t *spare = site.bytes + 8 + 16 * 128 + 24 * i + 22 + rng_below(&rng, 2);
        *spare = rng_nonzero(&rng);
        site_has_fault(PART_PARTITION, i, BREACH_RANGE);
        *spare = 0;
    }
}

/* ---- frames on damaged tables and damaged site files ---- */

static uint32_t draw_frame(void)
{
    enum mood mood = (enum mood)rng_below(&rng, MOODS);
    return next_frame(&rng, mood, &site, desk.ref_locks, desk.ref_stations, &frame);
}

/* A frame for the good file. */
static void any_frame(void)
{
    uint32_t number = draw_frame();
    desk_frame(number, &frame);
}

static void frames_on_damage(void)
{
    for (unsigned damage = 0; damage < TABLES_DAMAGES; damage++) {
        tables_damaged(&rng, &tables, (enum tables_damage)damage);
        desk_put_tables(&tables);
        site_any(&rng, &site);
        desk_put_site(&site);
        desk_frame(draw_frame(), &frame);
        expect_refusal(11);
        site_damaged(&rng, &bad, (enum site_damage)rng_below(&rng, SITE_DAMAGES));
        desk_put_site(&bad);
        frame_good(&rng, &frame, CODE_CLEAR, 0, &site);
        desk_frame(number_any(&rng), &frame);
        expect_refusal(11);
    }
    tables_any(&rng, &tables);
    desk_put_tables(&tables);
    site_any(&rng, &site);
    bad_sites_give(any_frame);
    for (unsigned i = 0; i < 20; i++) {
        tables_scrambled(&rng, &tables);
        desk_put_tables(&tables);
        site_any(&rng, &site);
        uint32_t number = draw_frame();
        if (rng_one_in(&rng, 3))
            site_scrambled(&rng, &site);
        desk_put_site(&site);
        desk_frame(number, &frame);
    }
}

/* ---- several faults at once, in all combinations ---- */

/* An address: good, no such row, track outside, sectors outside. */
static void set_address(unsigned kind)
{
    const uint8_t *row = site_partition(&site, 0);
    frame.bytes[3] = row[15];
    frame.bytes[4] = kind == 2 ? (uint8_t)(16 << (row[16] - 1) & 0xFF) : 0;
    frame.bytes[5] = kind == 2 ? (uint8_t)(16 << (row[16] - 1) >> 8) : 0;
    frame.bytes[6] = (uint8_t)(kind == 3 ? 0 : kind == 4 ? 129 : 1);
    frame.bytes[7] = kind == 1 ? 4 : row[14];
}

/* All faults of one command at one number. */
static void grid_of_faults(uint8_t code, uint32_t number)
{
    int disk = code == CODE_READ || code == CODE_WRITE;
    for (unsigned faults = 0; faults <= FAULTS_ALL; faults++)
        for (unsigned kind = 0; kind < (disk ? 5u : 1u); kind++) {
            frame_good(&rng, &frame, code, number, &site);
            if (disk)
                set_address(kind);
            if (code == CODE_LOGIN && rng_one_in(&rng, 2))
                login_again(&rng, &frame, desk.ref_stations);
            frame_spoil(&rng, &frame, faults);
            desk_frame(number, &frame);
        }
}

static void grid_of_numbers(void)
{
    static const uint32_t numbers[] = {
        0, 1, 2, 3, 63, 64, 252, 253, 254, 255, 256, 257, 509, 65789, 0xFFFFFFFFu
    };
    for (unsigned i = 0; i < sizeof numbers / sizeof *numbers; i++)
        for (unsigned k = 0; k < CODES; k++)
            grid_of_faults(codes[k], numbers[i]);
}

static void faults_together(void)
{
    site_good(&rng, &site, 2, 2, 2);
    tables_played(&rng, &tables, 2, 5);
    desk_put_tables(&tables);
    desk_put_site(&site);
    grid_of_numbers();
    desk.site.bytes[2] = 9;
    grid_of_numbers();
    tables.locks[15] = 1;
    desk_put_tables(&tables);
    grid_of_numbers();
    desk.site.bytes[2] = 8;
    grid_of_numbers();
}

/* ---- all numbers, all codes, all lengths ---- */

/* Every command at one number, each on the same tables. */
static void commands_at(uint32_t number)
{
    site_good(&rng, &site, 2, 2, 1);
    tables_played(&rng, &tables, rng_below(&rng, 64), 3);
    desk_put_site(&site);
    for (unsigned k = 0; k < CODES; k++) {
        desk_put_tables(&tables);
        frame_good(&rng, &frame, codes[k], number, &site);
        desk_frame(number, &frame);
    }
}

static void numbers_and_codes(void)
{
    static const uint32_t above[] = {
        256, 257, 319, 509, 510, 511, 512, 65536, 65537, 65789, 0x01000000u,
        0x80000000u, 0x80000001u, 0xFFFFFF00u, 0xFFFFFFFDu, 0xFFFFFFFFu
    };
    for (uint32_t number = 0; number < 256; number++)
        commands_at(number);
    for (unsigned i = 0; i < sizeof above / sizeof *above; i++)
        commands_at(above[i]);
    for (unsigned code = 0; code < 256; code++)
        for (unsigned len = 0; len < 26; len++) {
            rng_bytes(&rng, frame.bytes, FRAME_ROOM);
            frame.bytes[0] = (uint8_t)code;
            frame.bytes[1] = 0;
            frame.len = len == 25 ? 255 : len;
            desk_frame(number_logged_in(&rng, desk.ref_stations), &frame);
            desk_frame(253, &frame);
        }
}

/* ---- places ---- */

static uint32_t near(uint32_t number)
{
    static const uint32_t odd[] = { 0, 1, 3, 4, 63, 64, 127, 128, 129, 255, 256, 257,
        511, 512, 65535, 65536, 65537, 0x80000000u, 0xFFFFFFFFu };
    switch (rng_below(&rng, 24)) {
    case 0:  return number + 1;
    case 1:  return number - 1;
    case 2:  return number + 256;
    case 3:  return number + 65536;
    case 4:  return number ^ 0x80;
    case 5:  return RNG_PICK(&rng, odd);
    case 6:  return (uint32_t)rng_next(&rng);
    default: return number;
    }
}

/* Asks for places near the edges of a good site file's rows. */
static void places_near(const struct site *good, unsigned count)
{
    unsigned rows = site_partitions(good);
    for (unsigned i = 0; i < count; i++) {
        if (rows == 0) {
            desk_place(near(0), near(0), near(0), near(1));
            continue;
        }
        const uint8_t *row = site_partition(good, rng_below(&rng, rows));
        uint32_t tracks = (uint32_t)16 << (row[16] - 1);
        uint32_t track = tracks - rng_below(&rng, 2);
        uint32_t sector = 128 * rng_below(&rng, 2);
        if (rng_one_in(&rng, 2))
            track = rng_below(&rng, tracks);
        if (rng_one_in(&rng, 2))
            sector = 1 + rng_below(&rng, 128);
        desk_place(near(row[14]), near(row[15]), near(track), near(sector));
    }
}

/* A place in the good file. */
static void any_place(void)
{
    places_near(&site, 1);
}

static void places(void)
{
    for (unsigned i = 0; i < 12; i++) {
        site_any(&rng, &site);
        desk_put_site(&site);
        places_near(&site, 150);
    }
    for (unsigned limit = 0; limit < SITE_LIMITS; limit++) {
        site_at_limit(&rng, &site, (enum site_limit)limit);
        desk_put_site(&site);
        places_near(&site, 30);
    }
    bad_sites_give(any_place);
}

/* ---- long runs from fresh tables ---- */

/* The answer to an assign: denied, or the row with the frame's name. */
static void assign_agrees(uint64_t answer)
{
    unsigned rows = site_partitions(&site), i = 0;
    if (hinet_answer_assign_size(answer) == HINET_ASSIGN_DENIED)
        return;
    while (i < rows && !equal_names(site_partition(&site, i), frame.bytes + 1))
        i++;
    expect(i < rows, "assigned what the site file does not have");
    const uint8_t *row = site_partition(&site, i);
    expect(hinet_answer_assign_volume(answer).number == row[14], "header: volume assigned");
    expect(hinet_answer_assign_partition(answer).number == row[15], "header: partition assigned");
    expect(hinet_answer_assign_size(answer) == row[16], "header: size assigned");
    expect(hinet_answer_assign_control(answer) == row[17], "header: control assigned");
}

/* The answer to a login: a number, and the serial as sent. */
static void login_agrees(uint64_t answer)
{
    uint8_t serial[4], number = hinet_answer_login_number(answer);
    hinet_answer_login_serial(answer, serial);
    expect(memcmp(serial, frame.bytes + 15, 4) == 0, "header: serial");
    expect(number <= 63, "header: number");
    if (number == 0)
        return;
    expect(hinet_record_found(desk.stations.bytes, number) == hinet_answer_login_found(answer),
           "header: name found");
    expect(memcmp(hinet_record_name(desk.stations.bytes, number), frame.bytes + 1, 8) == 0,
           "header: name in the record");
}

/* The fault beside a refusal: the header tells it as the word has it. */
static void fault_agrees(uint64_t answer)
{
    expect(hinet_answer_refusal(answer) == HINET_REFUSED_SITE, "header: refusal of a fault");
    expect_fault(hinet_fault_part(answer), hinet_fault_row(answer), hinet_fault_breach(answer));
}

/* What the header's inline functions tell must fit the frame. */
static void header_agrees(uint64_t answer)
{
    switch (hinet_answer_kind(answer)) {
    case HINET_KIND_NONE:
        expect(hinet_answer_refusal(answer) != 0 || frame.bytes[0] == CODE_ACKNOWLEDGE
               || frame.bytes[0] == CODE_LOGOUT, "header: no answer");
        break;
    case HINET_KIND_STATUS:
        expect(hinet_answer_status(answer) == hinet_answer_byte(answer, 0), "header: status");
        break;
    case HINET_KIND_ASSIGN:
        assign_agrees(answer);
        break;
    case HINET_KIND_PLACE:
        expect(hinet_answer_place_volume(answer).number == frame.bytes[7], "header: volume");
        expect(hinet_answer_place_sector(answer) < 1048576, "header: sector");
        break;
    case HINET_KIND_LOGIN:
        login_agrees(answer);
        break;
    case HINET_KIND_FAULT:
        fault_agrees(answer);
        break;
    default:
        fail("a kind that no frame is answered with");
    }
}

/* A frame with a site file that is no good leaves the run as it is. */
static void bad_site_between(void)
{
    struct site_fault fault =
        site_damaged(&rng, &bad, (enum site_damage)rng_below(&rng, SITE_DAMAGES));
    desk_put_site(&bad);
    header_agrees(desk_frame(draw_frame(), &frame));
    expect_fault(fault.part, fault.row, fault.breach);
    desk_put_site(&site);
}

static void run_from_fresh(unsigned steps)
{
    enum mood mood = MOOD_LOGINS;
    tables_played(&rng, &tables, 0, 0);
    desk_put_tables(&tables);
    desk_fresh();
    expect_refusal(0);
    for (unsigned i = 0; i < steps; i++) {
        if (i % 600 == 0) {
            site_any(&rng, &site);
            desk_put_site(&site);
        }
        if (rng_one_in(&rng, 120))
            mood = (enum mood)rng_below(&rng, MOODS);
        if (rng_one_in(&rng, 100)) {
            memcpy(tables.stations, desk.ref_stations, sizeof tables.stations);
            stations_aged(&rng, tables.stations);
            if (rng_one_in(&rng, 3))
                stations_alike(&rng, tables.stations);
            desk_put_stations(tables.stations);
        }
        uint32_t number = next_frame(&rng, mood, &site, desk.ref_locks, desk.ref_stations, &frame);
        header_agrees(desk_frame(number, &frame));
        if (rng_one_in(&rng, 200))
            bad_site_between();
        if (i % 32 == 0) {
            desk_check_tables();
            expect_refusal(0);
        }
    }
}

static void one_round(void)
{
    for (unsigned i = 0; i < 4; i++) {
        fresh_of_all_sizes();
        sites();
        tables_of_all_kinds();
        frames_on_damage();
    }
    one_byte_of_fresh();
    one_byte_of_site();
    lengths_of_site();
    repeated_rows();
    rows_out_of_range();
    faults_together();
    numbers_and_codes();
    places();
    run_from_fresh(12000);
}

int main(int argc, char **argv)
{
    struct rounds rounds = rounds_from(argc, argv, ROUNDS);
    trace.driver = "drive_frames";
    trace.seed = SEED;
    for (trace.round = rounds.first; trace.round < rounds.end; trace.round++) {
        trace.step = 0;
        rng = rng_from(((uint64_t)SEED << 32) + trace.round);
        one_round();
    }
    return report(ENTRY_FRESH, ENTRY_PLACE);
}
