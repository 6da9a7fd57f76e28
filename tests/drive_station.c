/*
 * Compares the library with the reference: the station's end, alone and
 * against the library's master. Usage: drive_station [rounds [first round]]
 */
#include "desk.h"
#include "hinet.h"
#include "reference.h"

#include <string.h>

enum { SEED = 911, ROUNDS = 28, PLACE = 14, PLACES = 64 };

static struct rng rng;

/* ---- a station and the reference's copy of it ---- */

struct station {
    struct lent lent;
    uint8_t ref[STATE_ROOM];
};

static struct station single;
static struct lent lent_string, lent_buffer;
static uint8_t ref_buffer[64];

static void put_state(struct station *s, const struct state *state)
{
    lend(&s->lent, state->bytes, state->len);
    memcpy(s->ref, state->bytes, state->len);
}

static struct call station_call(enum entry entry, struct station *s, int writes)
{
    struct call call = { .entry = entry, .parts = 1 };
    struct part part = { "station", &s->lent, writes ? s->ref : NULL };
    lend_again(&s->lent);
    call.part[0] = part;
    return call;
}

static void add_string(struct call *call, const uint8_t string[14])
{
    struct part part = { "lockstring", &lent_string, NULL };
    lend(&lent_string, string, 14);
    call->part[call->parts++] = part;
}

static uint64_t fresh(struct station *s)
{
    struct call call = station_call(ENTRY_STATION_FRESH, s, 1);
    call.library = hinet_station_fresh(s->lent.bytes, s->lent.len);
    call.reference = ref_station_fresh(s->ref, s->lent.len);
    check_call(&call);
    return call.library;
}

static uint64_t ask_lock(struct station *s, const uint8_t string[14])
{
    struct call call = station_call(ENTRY_STATION_LOCK, s, 1);
    add_string(&call, string);
    call.library = hinet_station_lock(s->lent.bytes, s->lent.len, lent_string.bytes);
    call.reference = ref_station_lock(s->ref, s->lent.len, string);
    check_call(&call);
    return call.library;
}

static uint64_t ask_unlock(struct station *s, const uint8_t string[14])
{
    struct call call = station_call(ENTRY_STATION_UNLOCK, s, 1);
    add_string(&call, string);
    call.library = hinet_station_unlock(s->lent.bytes, s->lent.len, lent_string.bytes);
    call.reference = ref_station_unlock(s->ref, s->lent.len, string);
    check_call(&call);
    return call.library;
}

static uint64_t ask_clear(struct station *s)
{
    struct call call = station_call(ENTRY_STATION_CLEAR, s, 1);
    call.library = hinet_station_clear(s->lent.bytes, s->lent.len);
    call.reference = ref_station_clear(s->ref, s->lent.len);
    check_call(&call);
    return call.library;
}

static uint64_t awaited_frame(struct station *s, size_t buffer_len)
{
    struct call call = station_call(ENTRY_STATION_FRAME, s, 0);
    struct part part = { "buffer", &lent_buffer, ref_buffer };
    rng_bytes(&rng, ref_buffer, buffer_len);
    lend(&lent_buffer, ref_buffer, buffer_len);
    call.part[call.parts++] = part;
    call.library = hinet_station_frame(s->lent.bytes, s->lent.len, lent_buffer.bytes, buffer_len);
    call.reference = ref_station_frame(s->ref, s->lent.len, ref_buffer, buffer_len);
    check_call(&call);
    return call.library;
}

static uint64_t reply(struct station *s, uint32_t byte)
{
    struct call call = station_call(ENTRY_STATION_REPLY, s, 1);
    call.numbers = 1;
    call.number[0] = byte;
    call.library = hinet_station_reply(s->lent.bytes, s->lent.len, byte);
    call.reference = ref_station_reply(s->ref, s->lent.len, byte);
    check_call(&call);
    return call.library;
}

/* ---- sizes; damaged states ---- */

static const size_t buffers[] = { 0, 1, 2, 13, 14, 15, 16, 40 };
enum { BUFFERS = sizeof buffers / sizeof *buffers };

static uint32_t any_reply(void)
{
    static const uint32_t listed[] = { 0x00, 0x01, 0x02, 0x81, 0x82 };
    return rng_one_in(&rng, 4) ? (uint32_t)rng_next(&rng) : RNG_PICK(&rng, listed);
}

static void sizes(void)
{
    static const size_t lens[] = { 911, 0, 1, 15, 896, 897, 910, 912, 925 };
    for (unsigned i = 0; i < sizeof lens / sizeof *lens; i++) {
        struct state state;
        state.len = lens[i];
        rng_bytes(&rng, state.bytes, STATE_ROOM);
        put_state(&single, &state);
        fresh(&single);
        expect_refusal(i == 0 ? 0 : 11);
    }
}

/* Every entry but fresh on one state; each gets the state as made. */
static void all_entries(const struct state *state, unsigned refusal)
{
    uint8_t string[14];
    for (unsigned entry = 0; entry < 5; entry++) {
        put_state(&single, state);
        any_string(&rng, string);
        switch (entry) {
        case 0:  ask_lock(&single, string); break;
        case 1:  ask_unlock(&single, string); break;
        case 2:  ask_clear(&single); break;
        case 3:  awaited_frame(&single, RNG_PICK(&rng, buffers)); break;
        default: reply(&single, any_reply()); break;
        }
        if (refusal != 0)
            expect_refusal(refusal);
    }
}

static void damaged_states(void)
{
    struct state state;
    for (unsigned damage = 0; damage < STATE_DAMAGES; damage++) {
        state_damaged(&rng, &state, (enum state_damage)damage);
        all_entries(&state, 11);
    }
    for (unsigned i = 0; i < 40; i++) {
        state_scrambled(&rng, &state);
        all_entries(&state, 0);
    }
}

/* Any one byte of a fresh state that gets its top bit set is a breach. */
static void one_byte_of_fresh(void)
{
    struct state state;
    memset(&state, 0, sizeof state);
    state.len = STATE_LEN;
    for (unsigned i = 0; i < STATE_LEN; i++) {
        state.bytes[i] = (uint8_t)(128 + rng_below(&rng, 128));
        put_state(&single, &state);
        awaited_frame(&single, 15);
        expect_refusal(11);
        state.bytes[i] = 0;
    }
}

/* Each place of a full list gets the string before it, the first, and any. */
static void repeated_strings(void)
{
    struct state state;
    uint8_t kept[PLACE];
    state_good(&rng, &state, PLACES, WAIT_NONE);
    for (unsigned i = 1; i < PLACES; i++) {
        unsigned earlier[3] = { i - 1, 0, rng_below(&rng, i) };
        uint8_t *place = state.bytes + PLACE * i;
        memcpy(kept, place, PLACE);
        for (unsigned k = 0; k < 3; k++) {
            memcpy(place, state.bytes + PLACE * earlier[k], PLACE);
            put_state(&single, &state);
            awaited_frame(&single, 15);
            expect_refusal(11);
        }
        memcpy(place, kept, PLACE);
    }
}

/* Of all codes, four may stand in the frame awaited. */
static void all_codes(void)
{
    struct state state;
    for (unsigned code = 0; code < 256; code++) {
        state_good(&rng, &state, rng_below(&rng, 65), WAIT_NONE);
        state.bytes[STATE_AWAITED] = (uint8_t)code;
        put_state(&single, &state);
        awaited_frame(&single, 15);
        expect_refusal(code == 0 || (code >= 0x19 && code <= 0x1B) ? 0 : 11);
    }
}

/* ---- every reply in every wait ---- */

static void replies(unsigned entries, enum wait wait)
{
    static const uint32_t above[] = {
        256, 257, 258, 0x181, 0x182, 65536, 65537, 0x80000000u, 0xFFFFFF00u, 0xFFFFFF81u,
        0xFFFFFFFFu
    };
    struct state state;
    for (uint32_t i = 0; i < 256 + 11; i++) {
        uint32_t byte = i < 256 ? i : above[i - 256];
        if (i % 32 == 0 || wait == WAIT_LOCK)
            state_good(&rng, &state, entries, wait);
        put_state(&single, &state);
        reply(&single, byte);
        if (wait == WAIT_NONE || byte > 255)
            expect_refusal(15);
        else if (entries == PLACES && wait == WAIT_LOCK && (byte == 0x00 || byte == 0x81))
            expect_refusal(15);
    }
}

static void asks_and_frames(unsigned entries, enum wait wait)
{
    struct state state;
    uint8_t string[14];
    state_good(&rng, &state, entries, wait);
    all_entries(&state, 0);
    for (unsigned i = 0; i < BUFFERS; i++) {
        put_state(&single, &state);
        awaited_frame(&single, buffers[i]);
    }
    for (unsigned i = 0; i < entries; i++) {
        put_state(&single, &state);
        memcpy(string, state.bytes + PLACE * i, 14);
        stray_bytes(&rng, string);
        ask_unlock(&single, string);
        expect_refusal(wait == WAIT_NONE ? 0 : 14);
    }
}

static void all_waits(void)
{
    static const unsigned entries[] = { 0, 1, 2, 63, 64 };
    for (unsigned i = 0; i < sizeof entries / sizeof *entries; i++)
        for (unsigned wait = 0; wait < WAITS; wait++) {
            replies(entries[i], (enum wait)wait);
            asks_and_frames(entries[i], (enum wait)wait);
        }
}

/* ---- a station by itself, told anything ---- */

static void alone(unsigned steps)
{
    struct state state;
    uint8_t string[14];
    state_good(&rng, &state, rng_below(&rng, 65), WAIT_NONE);
    put_state(&single, &state);
    for (unsigned i = 0; i < steps; i++) {
        any_string(&rng, string);
        switch (rng_below(&rng, 16)) {
        case 0: case 1: case 2: case 3: ask_lock(&single, string); break;
        case 4: case 5: ask_unlock(&single, string); break;
        case 6: awaited_frame(&single, RNG_PICK(&rng, buffers)); break;
        case 7: if (rng_one_in(&rng, 40)) ask_clear(&single); break;
        case 8: if (rng_one_in(&rng, 200)) fresh(&single); break;
        default: reply(&single, rng_one_in(&rng, 2) ? 0 : any_reply()); break;
        }
    }
}

/* ---- stations against the library's master, with losses ---- */

enum { STATIONS = 6 };

static struct member {
    struct station station;
    uint8_t serial[4];          /* zero or its own */
    uint8_t number;             /* 0: not logged in */
} members[STATIONS];

static struct site no_rows = { 8, { 0, 0, 8, 0, 0, 0, 8, 0 } };

static void log_in(struct member *m)
{
    struct frame frame;
    frame_good(&rng, &frame, CODE_LOGIN, 253, &no_rows);
    memcpy(frame.bytes + 15, m->serial, 4);
    uint64_t answer = desk_frame(253, &frame);
    expect(hinet_answer_kind(answer) == HINET_KIND_LOGIN, "kind of a login");
    m->number = hinet_answer_login_number(answer);
    fresh(&m->station);
}

static void log_out(uint8_t number)
{
    struct frame frame;
    frame_good(&rng, &frame, CODE_LOGOUT, number, &no_rows);
    desk_frame(number, &frame);
    expect_refusal(0);
}

static int waiting(const struct member *m)
{
    return hinet_state_awaited(m->station.lent.bytes) != 0;
}

static void ask(struct member *m)
{
    uint8_t string[14];
    any_string(&rng, string);
    if (rng_one_in(&rng, 40))
        ask_clear(&m->station);
    else if (rng_one_in(&rng, 3))
        ask_unlock(&m->station, string);
    else
        ask_lock(&m->station, string);
    expect_refusal(0);
}

/* Sends the frame awaited; the request or its reply may be lost. */
static void exchange(struct member *m)
{
    struct frame frame;
    uint64_t written = awaited_frame(&m->station, 15 + rng_below(&rng, 2));
    expect(hinet_answer_kind(written) == HINET_KIND_WRITTEN, "kind of a frame written");
    frame.len = hinet_answer_length(written);
    memcpy(frame.bytes, lent_buffer.bytes, frame.len);
    if (rng_one_in(&rng, 4))
        return;
    uint64_t answer = desk_frame(m->number, &frame);
    expect_refusal(0);
    expect(hinet_answer_kind(answer) == HINET_KIND_STATUS, "kind of a status");
    if (rng_one_in(&rng, 3))
        return;
    reply(&m->station, hinet_answer_status(answer));
    expect_refusal(0);
}

static int holds(uint8_t number, const uint8_t *place)
{
    for (unsigned i = 0; i < 64; i++)
        if (hinet_row_owner(desk.locks.bytes, i) == number
            && memcmp(hinet_row_lockstring(desk.locks.bytes, i), place, 14) == 0)
            return 1;
    return 0;
}

static unsigned held_count(uint8_t number)
{
    unsigned count = 0;
    for (unsigned i = 0; i < 64; i++)
        count += hinet_row_owner(desk.locks.bytes, i) == number;
    return count;
}

/* What is listed is held; when nothing is awaited, also the other way. */
static void list_agrees(const struct member *m)
{
    const uint8_t *state = m->station.lent.bytes;
    unsigned count = 0;
    while (count < PLACES && hinet_state_lockstring(state, count)[0] != 0) {
        expect(holds(m->number, hinet_state_lockstring(state, count)), "listed and not held");
        count++;
    }
    if (!waiting(m))
        expect(held_count(m->number) == count, "held and not listed");
}

/* A reset: the login frees the locks of the old number. With serial zero it
 * would not, and the old number is logged out before. */
static void start_again(struct member *m)
{
    static const uint8_t zero[4];
    uint8_t old = m->number;
    if (memcmp(m->serial, zero, 4) == 0)
        log_out(old);
    log_in(m);
    expect(held_count(old) == 0, "a lock from before the reset");
}

static void member_step(struct member *m)
{
    if (m->number == 0) {
        log_in(m);
    } else if (rng_one_in(&rng, 300)) {
        start_again(m);
    } else if (!waiting(m) && rng_one_in(&rng, 100)) {
        log_out(m->number);
        m->number = 0;
    } else if (!waiting(m)) {
        ask(m);
    } else {
        exchange(m);
    }
    if (m->number != 0)
        list_agrees(m);
}

/* The local user locks, unlocks and clears between the stations. */
static void outsider_step(void)
{
    static const uint8_t asked[] = { CODE_LOCK, CODE_LOCK, CODE_UNLOCK, CODE_CLEAR };
    struct frame frame;
    frame_good(&rng, &frame, RNG_PICK(&rng, asked), 0, &no_rows);
    desk_frame(0, &frame);
    expect_refusal(0);
}

static void network(unsigned steps)
{
    struct state state;
    struct tables tables;
    tables_played(&rng, &tables, 0, 0);
    desk_put_tables(&tables);
    desk_put_site(&no_rows);
    desk_fresh();
    memset(&state, 0, sizeof state);
    state.len = STATE_LEN;
    for (unsigned i = 0; i < STATIONS; i++) {
        put_state(&members[i].station, &state);
        memset(members[i].serial, 0, 4);
        members[i].serial[3] = (uint8_t)(i < 2 ? 0 : i);
        members[i].number = 0;
    }
    for (unsigned i = 0; i < steps; i++) {
        member_step(&members[rng_below(&rng, STATIONS)]);
        if (rng_one_in(&rng, 10))
            outsider_step();
    }
}

int main(int argc, char **argv)
{
    struct rounds rounds = rounds_from(argc, argv, ROUNDS);
    trace.driver = "drive_station";
    trace.seed = SEED;
    for (trace.round = rounds.first; trace.round < rounds.end; trace.round++) {
        trace.step = 0;
        rng = rng_from(((uint64_t)SEED << 32) + trace.round);
        sizes();
        damaged_states();
        one_byte_of_fresh();
        repeated_strings();
        all_codes();
        all_waits();
        alone(20000);
        network(10000);
    }
    return report(ENTRY_STATION_FRESH, ENTRY_STATION_REPLY);
}
