/* Station states: good ones, damaged ones. */
#include "generate.h"

#include <string.h>

enum { PLACES = 64, PLACE = 14 };

static uint8_t *place_at(struct state *state, unsigned i)
{
    return state->bytes + PLACE * i;
}

static int same(const uint8_t *a, const uint8_t *b)
{
    return a[0] == b[0] && memcmp(a + 1, b + 1, a[0]) == 0;
}

static int listed(struct state *state, unsigned count, const uint8_t *string)
{
    for (unsigned i = 0; i < count; i++)
        if (same(place_at(state, i), string))
            return 1;
    return 0;
}

/* Different strings of the pool, taken from a random place on. */
static void fill_list(struct rng *rng, struct state *state, unsigned entries)
{
    static const unsigned steps[] = { 1, 5, 7, 11 };
    unsigned next = rng_below(rng, POOL), step = RNG_PICK(rng, steps);
    unsigned long tries = 0;
    for (unsigned count = 0; count < entries; next += step) {
        uint8_t string[14];
        pool_string(next % POOL, string);
        if (!listed(state, count, string))
            memcpy(place_at(state, count++), string, 14);
        else
            try_again(&tries, "so many different strings");
    }
}

/* A string with stray bytes that is not in the list. */
static void new_string(struct rng *rng, struct state *state, unsigned entries, uint8_t *string)
{
    unsigned long tries = 0;
    legal_string(rng, string);
    while (listed(state, entries, string)) {
        try_again(&tries, "a string that is not in the list");
        legal_string(rng, string);
    }
}

/* A string of the list, if it has any, with stray bytes after it. */
static void old_string(struct rng *rng, struct state *state, unsigned entries, uint8_t *string)
{
    if (entries == 0) {
        legal_string(rng, string);
        return;
    }
    memcpy(string, place_at(state, rng_below(rng, entries)), 14);
    rng_bytes(rng, string + 1 + string[0], 13u - string[0]);
}

void state_good(struct rng *rng, struct state *state, unsigned entries, enum wait wait)
{
    static const uint8_t waits[WAITS] = {
        [WAIT_NONE] = 0,
        [WAIT_LOCK] = 0x19, [WAIT_LOCK_LISTED] = 0x19, [WAIT_LOCK_LENGTH_0] = 0x19,
        [WAIT_LOCK_LENGTH_14] = 0x19, [WAIT_LOCK_LENGTH_255] = 0x19,
        [WAIT_UNLOCK] = 0x1A, [WAIT_UNLOCK_LENGTH_0] = 0x1A,
        [WAIT_UNLOCK_LENGTH_14] = 0x1A,
        [WAIT_CLEAR] = 0x1B
    };
    uint8_t *awaited = state->bytes + STATE_AWAITED, *string = awaited + 1;
    memset(state, 0, sizeof *state);
    state->len = STATE_LEN;
    fill_list(rng, state, entries);
    awaited[0] = waits[wait];
    if (wait == WAIT_NONE || wait == WAIT_CLEAR)
        return;
    if (wait == WAIT_LOCK_LISTED)
        old_string(rng, state, entries, string);
    else
        new_string(rng, state, entries, string);
    if (wait == WAIT_LOCK_LENGTH_0 || wait == WAIT_UNLOCK_LENGTH_0)
        string[0] = 0;
    if (wait == WAIT_LOCK_LENGTH_14 || wait == WAIT_UNLOCK_LENGTH_14)
        string[0] = 14;
    if (wait == WAIT_LOCK_LENGTH_255)
        string[0] = 255;
}

/* A byte after the string of a used place becomes nonzero. */
static void byte_after(struct rng *rng, uint8_t *place)
{
    if (place[0] == 13)
        place[0] = 12;
    place[1 + place[0] + rng_below(rng, 13u - place[0])] = rng_nonzero(rng);
}

static void damage_list(struct rng *rng, struct state *state, unsigned entries,
                        enum state_damage damage)
{
    uint8_t *place = place_at(state, rng_below(rng, entries));
    uint8_t *unused = place_at(state, entries + rng_below(rng, PLACES - entries));
    switch (damage) {
    case STATE_LENGTH_14:   memset(place, 14, PLACE); break;
    case STATE_LENGTH_255:  memset(place, 255, PLACE); break;
    case STATE_BYTE_AFTER:  byte_after(rng, place); break;
    case STATE_TWICE:       memcpy(place_at(state, entries), place, PLACE); break;
    case STATE_GAP:         memset(place_at(state, rng_below(rng, entries - 1)), 0, PLACE); break;
    default:                unused[1 + rng_below(rng, 13)] = rng_nonzero(rng); break;
    }
}

static void damage_awaited(struct rng *rng, struct state *state, enum state_damage damage)
{
    static const uint8_t unknown[] = { 1, 0x11, 0x18, 0x1C, 0x41, 0x99, 0x9A, 0xFF };
    uint8_t *awaited = state->bytes + STATE_AWAITED;
    memset(awaited, 0, 15);
    if (damage == STATE_CODE_UNKNOWN) {
        awaited[0] = RNG_PICK(rng, unknown);
        return;
    }
    if (damage == STATE_TRACE_CLEAR)
        awaited[0] = 0x1B;
    awaited[1 + rng_below(rng, 14)] = rng_nonzero(rng);
}

void state_damaged(struct rng *rng, struct state *state, enum state_damage damage)
{
    unsigned entries = 2 + rng_below(rng, 62);
    state_good(rng, state, entries, (enum wait)rng_below(rng, WAITS));
    switch (damage) {
    case STATE_NO_BYTES:        state->len = 0; break;
    case STATE_SHORT_BY_1:      state->len -= 1; break;
    case STATE_LONG_BY_1:       state->len += 1; break;
    case STATE_SHORT_BY_PLACE:  state->len -= PLACE; break;
    case STATE_CODE_UNKNOWN:
    case STATE_TRACE_NO_WAIT:
    case STATE_TRACE_CLEAR:     damage_awaited(rng, state, damage); break;
    default:                    damage_list(rng, state, entries, damage); break;
    }
}

void state_scrambled(struct rng *rng, struct state *state)
{
    state_good(rng, state, rng_below(rng, 65), (enum wait)rng_below(rng, WAITS));
    for (unsigned n = 1 + rng_below(rng, 2); n > 0; n--)
        state->bytes[rng_below(rng, STATE_LEN)] ^= (uint8_t)(1u << rng_below(rng, 8));
}
