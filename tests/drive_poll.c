/*
 * Compares the library with the reference: poll turns, alone and mixed with
 * frames, and before each of them whether it is due.
 * Usage: drive_poll [rounds [first round]]
 */
#include "desk.h"
#include "hinet.h"
#include "reference.h"

#include <string.h>

enum { SEED = 160, ROUNDS = 25, RECORD = 18 };

static struct rng rng;
static struct site site;
static struct tables tables;
static struct frame frame;

static uint64_t due(uint32_t number)
{
    struct call call = { .entry = ENTRY_DUE, .numbers = 1, .number = { number } };
    desk_lend_tables_const(&call);
    call.library = hinet_due(number, desk.locks.bytes, desk.locks.len,
                             desk.stations.bytes, desk.stations.len);
    call.reference = ref_due(number, desk.ref_locks, desk.locks.len,
                             desk.ref_stations, desk.stations.len);
    check_call(&call);
    return call.library;
}

/* What was told before a turn is what the turn then tells. */
static void turn_as_told(uint64_t told, uint64_t turn)
{
    switch (hinet_answer_refusal(turn)) {
    case 0:
        expect(hinet_answer_kind(turn) == HINET_KIND_TURN, "kind of a turn");
        expect(hinet_answer_due(told) == hinet_answer_due(turn), "due was told otherwise");
        break;
    case HINET_REFUSED_NOT_DUE:
        expect(hinet_answer_due(told) == 0, "told as due and then refused as not due");
        break;
    default:
        expect(told == turn, "refused otherwise before the turn");
        return;
    }
    expect(hinet_answer_refusal(told) == 0, "refused before a turn that is none of 11, 2, 5");
    expect(hinet_answer_kind(told) == HINET_KIND_TURN, "kind of due");
    expect(hinet_answer_out(told) == 0, "out before the turn");
}

static uint64_t poll_turn(uint32_t number, uint32_t heard)
{
    uint64_t told = due(number);
    struct call call = { .entry = ENTRY_POLL, .numbers = 2, .number = { number, heard } };
    desk_lend_tables(&call);
    call.library = hinet_poll(number, heard, desk.locks.bytes, desk.locks.len,
                              desk.stations.bytes, desk.stations.len);
    call.reference = ref_poll(number, heard, desk.ref_locks, desk.locks.len,
                              desk.ref_stations, desk.stations.len);
    check_call(&call);
    turn_as_told(told, call.library);
    return call.library;
}

static const uint32_t heards[] = { 0, 1, 2, 255, 256, 0x80000000u, 0xFFFFFFFFu };
enum { HEARDS = sizeof heards / sizeof *heards };

static void set_age(uint8_t *stations, uint32_t number, unsigned misses, unsigned slow)
{
    uint8_t *record = stations + RECORD * number;
    record[1] = (uint8_t)(misses & 0xFF);
    record[2] = (uint8_t)(misses >> 8);
    record[3] = (uint8_t)slow;
}

/* ---- every boundary of misses and slow turns ---- */

static void boundary(unsigned misses, unsigned slow)
{
    int legal = misses <= 255 && slow <= 11 && (misses >= 160 || slow == 0);
    for (unsigned h = 0; h < HEARDS; h++) {
        tables_played(&rng, &tables, 1 + rng_below(&rng, 63), rng_below(&rng, 20));
        uint32_t number = number_logged_in(&rng, tables.stations);
        if (number == 0)
            number = 1;
        set_age(tables.stations, number, misses, slow);
        desk_put_tables(&tables);
        poll_turn(number, heards[h]);
        if (!legal)
            expect_refusal(11);
        else
            expect_refusal(misses >= 160 && slow != 11 && heards[h] != 0 ? 12 : 0);
    }
}

static void boundaries(void)
{
    static const unsigned misses[] = { 0, 1, 158, 159, 160, 161, 254, 255, 256 };
    static const unsigned slow[] = { 0, 1, 10, 11, 12 };
    for (unsigned i = 0; i < sizeof misses / sizeof *misses; i++)
        for (unsigned j = 0; j < sizeof slow / sizeof *slow; j++)
            boundary(misses[i], slow[j]);
}

/* ---- all numbers; damaged tables ---- */

static void numbers(void)
{
    static const uint32_t above[] = {
        256, 257, 319, 509, 511, 512, 65536, 65537, 65789, 0x80000001u, 0xFFFFFF01u, 0xFFFFFFFFu
    };
    for (uint32_t i = 0; i < 256 + 12; i++) {
        uint32_t number = i < 256 ? i : above[i - 256];
        tables_played(&rng, &tables, rng_below(&rng, 64), 3);
        desk_put_tables(&tables);
        poll_turn(number, RNG_PICK(&rng, heards));
        if (number == 0 || number == 253)
            expect_refusal(5);
        else if (number > 63)
            expect_refusal(2);
    }
}

static void polls_on_damage(void)
{
    for (unsigned damage = 0; damage < TABLES_DAMAGES; damage++) {
        tables_damaged(&rng, &tables, (enum tables_damage)damage);
        desk_put_tables(&tables);
        poll_turn(rng_below(&rng, 64), RNG_PICK(&rng, heards));
        expect_refusal(11);
        poll_turn(number_any(&rng), RNG_PICK(&rng, heards));
        expect_refusal(11);
    }
    for (unsigned i = 0; i < 40; i++) {
        tables_scrambled(&rng, &tables);
        desk_put_tables(&tables);
        poll_turn(rng_below(&rng, 64), RNG_PICK(&rng, heards));
    }
}

/* ---- a silent station ---- */

static int due_in_turn(unsigned turn)
{
    return turn <= 160 || (turn >= 172 && (turn - 172) % 12 == 0);
}

/* A station logs in among others and asks for a lock; its number. */
static uint8_t new_station(void)
{
    tables_played(&rng, &tables, rng_below(&rng, 62), rng_below(&rng, 30));
    desk_put_tables(&tables);
    site_good(&rng, &site, 2, 2, 1);
    desk_put_site(&site);
    frame_good(&rng, &frame, CODE_LOGIN, 253, &site);
    uint8_t number = hinet_answer_login_number(desk_frame(253, &frame));
    frame_good(&rng, &frame, CODE_LOCK, number, &site);
    desk_frame(number, &frame);
    return number;
}

static void no_lock_of(uint8_t number)
{
    for (unsigned i = 0; i < 64; i++)
        expect(hinet_row_owner(desk.locks.bytes, i) != number, "a lock of a station that is out");
}

/* A station heard in one turn, if due then, and silent from there on. */
static void silent_from(unsigned heard_in)
{
    uint8_t number = new_station();
    for (unsigned turn = 1; turn <= heard_in; turn++)
        poll_turn(number, turn == heard_in);
    for (unsigned turn = 1; turn <= 1312; turn++) {
        uint64_t answer = poll_turn(number, 0);
        expect(hinet_answer_due(answer) == due_in_turn(turn), "a turn due or not");
        expect(hinet_answer_out(answer) == (turn == 1312), "out before or after turn 1312");
    }
    no_lock_of(number);
    poll_turn(number, 0);
    expect_refusal(2);
}

static void silent_stations(void)
{
    static const unsigned heard_in[] = { 1, 2, 159, 160, 172, 184, 1300 };
    silent_from(0);
    silent_from(RNG_PICK(&rng, heard_in));
}

/* ---- a station that starts again ---- */

/* A lower number than this is free from now on, if there is one. */
static void free_lower(uint8_t number)
{
    if (number == 1)
        return;
    uint8_t lower = (uint8_t)(1 + rng_below(&rng, number - 1u));
    frame_good(&rng, &frame, CODE_LOGOUT, lower, &site);
    desk_frame(lower, &frame);
    expect_refusal(0);
}

/* The login of the station with this number, once more; its number then. */
static uint8_t log_in_again(uint8_t number)
{
    frame_good(&rng, &frame, CODE_LOGIN, 253, &site);
    memcpy(frame.bytes + 15, hinet_record_serial(desk.stations.bytes, number), 4);
    return hinet_answer_login_number(desk_frame(253, &frame));
}

/* A station that was silent for some turns starts again. It is due as after any
 * login, and its old number has no turn any more. With serial zero the old
 * number stays and its silence goes on. */
static void starts_again_after(unsigned silent)
{
    static const uint8_t zero[4];
    uint8_t old = new_station();
    int stays = memcmp(hinet_record_serial(desk.stations.bytes, old), zero, 4) == 0;
    for (unsigned turn = 1; turn <= silent; turn++)
        poll_turn(old, 0);
    unsigned misses = hinet_record_misses(desk.stations.bytes, old);
    if (rng_one_in(&rng, 2))
        free_lower(old);
    uint8_t number = log_in_again(old);
    no_lock_of(number);
    if (!stays)
        no_lock_of(old);
    expect(number != 0 && (stays ? number != old : number <= old), "number given");
    if (stays)
        expect(hinet_record_misses(desk.stations.bytes, old) == misses, "misses of serial zero");
    if (number != old) {
        poll_turn(old, 0);
        expect_refusal(stays ? 0 : 2);
    }
    for (unsigned turn = 1; turn <= 161; turn++)
        expect(hinet_answer_due(poll_turn(number, 0)) == due_in_turn(turn), "a turn due or not");
}

static void stations_start_again(void)
{
    static const unsigned silent[] = { 0, 1, 159, 160, 161, 171, 172, 1311 };
    starts_again_after(0);
    starts_again_after(RNG_PICK(&rng, silent));
}

/* ---- turns mixed with frames ---- */

/* Puts a logged in station near a boundary, in both sides' tables. */
static void near_boundary(void)
{
    static const unsigned misses[] = { 0, 1, 158, 159, 160, 161, 253, 254, 255 };
    uint32_t number = number_logged_in(&rng, desk.ref_stations);
    if (number == 0)
        return;
    unsigned m = RNG_PICK(&rng, misses);
    set_age(desk.stations.bytes, number, m, m < 160 ? 0 : 8 + rng_below(&rng, 4));
    memcpy(desk.ref_stations, desk.stations.bytes, desk.stations.len);
}

static void mixed(unsigned steps)
{
    enum mood mood = MOOD_LOGINS;
    site_good(&rng, &site, rng_below(&rng, 6), rng_below(&rng, 6), 2);
    desk_put_site(&site);
    tables_played(&rng, &tables, 0, 0);
    desk_put_tables(&tables);
    desk_fresh();
    for (unsigned i = 0; i < steps; i++) {
        if (rng_one_in(&rng, 150))
            mood = (enum mood)rng_below(&rng, MOODS);
        if (rng_one_in(&rng, 8))
            near_boundary();
        uint32_t number = next_frame(&rng, mood, &site, desk.ref_locks, desk.ref_stations, &frame);
        if (!rng_one_in(&rng, 4))
            poll_turn(number, rng_one_in(&rng, 4) ? RNG_PICK(&rng, heards) : 0);
        if (rng_one_in(&rng, 2))
            desk_frame(number, &frame);
        if (i % 32 == 0) {
            desk_check_tables();
            expect_refusal(0);
        }
    }
}

int main(int argc, char **argv)
{
    struct rounds rounds = rounds_from(argc, argv, ROUNDS);
    trace.driver = "drive_poll";
    trace.seed = SEED;
    for (trace.round = rounds.first; trace.round < rounds.end; trace.round++) {
        trace.step = 0;
        rng = rng_from(((uint64_t)SEED << 32) + trace.round);
        boundaries();
        numbers();
        polls_on_damage();
        silent_stations();
        stations_start_again();
        mixed(20000);
    }
    return report(ENTRY_DUE, ENTRY_POLL);
}
