/*
 * Times the library against the plain C reference on the same inputs.
 *
 *   bench              every case in every shape: nanoseconds of both and their ratio
 *   bench count N [GOAL]
 *                      N calls of each, one after the other, for a counter of
 *                      instructions that looks at `call_often`: names them in turn.
 *                      With a goal only the shapes that have it
 *   bench one SIDE CASE SHAPE N
 *                      N calls of one case on one side (lib or ref), no clock
 *   bench names        the cases and the shapes
 *
 * Before each call of a case the tables and the station's state are put back;
 * the case "nothing" does only that, and its cost is taken off. For the frame on
 * the line the reference is bench/plain_line.c.
 */
#define _POSIX_C_SOURCE 199309L

#include "hinet.h"
#include "plain_line.h"
#include "reference.h"
#include "shapes.h"

#include <stdio.h>
#include <stdlib.h>
#include <string.h>
#include <time.h>

enum { RUNS = 7, BATCH_NS = 2000000 };

/* ---- the two sides ---- */

struct side {
    const char *name;
    uint64_t (*check_tables)(const uint8_t *, size_t, const uint8_t *, size_t);
    uint64_t (*check_site)(const uint8_t *, size_t);
    uint64_t (*frame)(uint32_t, const uint8_t *, size_t, const uint8_t *, size_t,
                      uint8_t *, size_t, uint8_t *, size_t);
    uint64_t (*place)(uint32_t, uint32_t, uint32_t, uint32_t, const uint8_t *, size_t);
    uint64_t (*due)(uint32_t, const uint8_t *, size_t, const uint8_t *, size_t);
    uint64_t (*poll)(uint32_t, uint32_t, uint8_t *, size_t, uint8_t *, size_t);
    uint64_t (*station_fresh)(uint8_t *, size_t);
    uint64_t (*station_lock)(uint8_t *, size_t, const uint8_t *);
    uint64_t (*station_unlock)(uint8_t *, size_t, const uint8_t *);
    uint64_t (*station_clear)(uint8_t *, size_t);
    uint64_t (*station_frame)(const uint8_t *, size_t, uint8_t *, size_t);
    uint64_t (*station_reply)(uint8_t *, size_t, uint32_t);
    uint64_t (*line_write)(uint8_t, const uint8_t *, size_t, uint8_t *, size_t);
    uint64_t (*line_read)(const uint8_t *, size_t, size_t, uint8_t *, size_t);
    uint64_t (*boot)(const uint8_t *, const uint8_t *, const uint8_t *, const uint8_t *, size_t,
                     const uint8_t *, size_t, const uint8_t *, size_t, const uint8_t *, size_t,
                     const uint8_t *, size_t, const uint8_t *, size_t, uint8_t *, size_t);
};

/* The place by plain numbers, as the reference has it. */
static uint64_t library_place(uint32_t volume, uint32_t partition, uint32_t track, uint32_t sector,
                              const uint8_t *site, size_t site_len)
{
    return hinet_place(hinet_volume_of(volume), hinet_partition_of(partition),
                       hinet_track_of(track), hinet_sector_of(sector), site, site_len);
}

static const struct side library = {
    "lib", hinet_check_tables, hinet_check_site, hinet_frame, library_place, hinet_due, hinet_poll,
    hinet_station_fresh, hinet_station_lock, hinet_station_unlock, hinet_station_clear,
    hinet_station_frame, hinet_station_reply, hinet_line_write, hinet_line_read,
    hinet_boot
};
static const struct side reference = {
    "ref", ref_check_tables, ref_check_site, ref_frame, ref_place, ref_due, ref_poll,
    ref_station_fresh, ref_station_lock, ref_station_unlock, ref_station_clear,
    ref_station_frame, ref_station_reply, plain_line_write, plain_line_read,
    ref_boot
};

/* ---- the cases ---- */

static struct inputs inputs;
static uint8_t locks[LOCKS], stations[STATIONS], state[STATE_LEN];
static uint8_t written[LINE_MOST];  /* bits, data, or a block */

enum what {
    NOTHING, CHECK_TABLES, CHECK_SITE, PLACE, FRAME, LOGIN_AGAIN, LOGIN_OTHER, DUE, POLL,
    STATION_FRESH, STATION_LOCK, STATION_UNLOCK, STATION_CLEAR, STATION_FRAME, STATION_REPLY,
    WRITE_SHORT, WRITE_LONG, READ_SHORT, READ_LONG, BOOT
};

struct bench_case {
    const char *name;
    enum what what;
    const struct tables *tables;
    uint8_t code;
    const struct state *state;
};

static const struct bench_case cases[] = {
    { "nothing", NOTHING, &inputs.empty, 0, &inputs.idle_empty },
    { "check-site", CHECK_SITE, &inputs.empty, 0, &inputs.idle_empty },
    { "place", PLACE, &inputs.empty, 0, &inputs.idle_empty },
    { "check-tables", CHECK_TABLES, &inputs.full, 0, &inputs.idle_empty },
    { "acknowledge", FRAME, &inputs.full, CODE_ACKNOWLEDGE, &inputs.idle_empty },
    { "read", FRAME, &inputs.full, CODE_READ, &inputs.idle_empty },
    { "write", FRAME, &inputs.full, CODE_WRITE, &inputs.idle_empty },
    { "login", FRAME, &inputs.full, CODE_LOGIN, &inputs.idle_empty },
    { "login-other", LOGIN_OTHER, &inputs.full, CODE_LOGIN, &inputs.idle_empty },
    { "login-again", LOGIN_AGAIN, &inputs.full, CODE_LOGIN, &inputs.idle_empty },
    { "login-all", LOGIN_AGAIN, &inputs.alike, CODE_LOGIN, &inputs.idle_empty },
    { "login-room", LOGIN_OTHER, &inputs.room, CODE_LOGIN, &inputs.idle_empty },
    { "login-room-zero", FRAME, &inputs.room, CODE_LOGIN, &inputs.idle_empty },
    { "assign", FRAME, &inputs.full, CODE_ASSIGN, &inputs.idle_empty },
    { "lock", FRAME, &inputs.full, CODE_LOCK, &inputs.idle_empty },
    { "unlock", FRAME, &inputs.full, CODE_UNLOCK, &inputs.idle_empty },
    { "clear", FRAME, &inputs.full, CODE_CLEAR, &inputs.idle_empty },
    { "logout", FRAME, &inputs.full, CODE_LOGOUT, &inputs.idle_empty },
    { "due", DUE, &inputs.full, 0, &inputs.idle_empty },
    { "poll", POLL, &inputs.full, 0, &inputs.idle_empty },
    { "poll-out", POLL, &inputs.last, 0, &inputs.idle_empty },
    { "check-tables-empty", CHECK_TABLES, &inputs.empty, 0, &inputs.idle_empty },
    { "login-empty", FRAME, &inputs.empty, CODE_LOGIN, &inputs.idle_empty },
    { "lock-empty", FRAME, &inputs.empty, CODE_LOCK, &inputs.idle_empty },
    { "poll-empty", POLL, &inputs.empty, 0, &inputs.idle_empty },
    { "station-fresh", STATION_FRESH, &inputs.empty, 0, &inputs.idle_full },
    { "station-lock", STATION_LOCK, &inputs.empty, 0, &inputs.idle_full },
    { "station-unlock", STATION_UNLOCK, &inputs.empty, 0, &inputs.idle_full },
    { "station-clear", STATION_CLEAR, &inputs.empty, 0, &inputs.idle_full },
    { "station-frame", STATION_FRAME, &inputs.empty, 0, &inputs.waits_full },
    { "station-reply", STATION_REPLY, &inputs.empty, 0, &inputs.waits_full },
    { "station-lock-empty", STATION_LOCK, &inputs.empty, 0, &inputs.idle_empty },
    { "station-reply-empty", STATION_REPLY, &inputs.empty, 0, &inputs.waits_empty },
    { "line-write-20", WRITE_SHORT, &inputs.empty, 0, &inputs.idle_empty },
    { "line-write-1024", WRITE_LONG, &inputs.empty, 0, &inputs.idle_empty },
    { "line-read-20", READ_SHORT, &inputs.empty, 0, &inputs.idle_empty },
    { "line-read-1024", READ_LONG, &inputs.empty, 0, &inputs.idle_empty },
    { "boot", BOOT, &inputs.empty, 0, &inputs.idle_empty }
};
enum { CASES = sizeof cases / sizeof *cases };

/* Does a case have inputs in a shape? */
static int in_shape(const struct bench_case *c, unsigned shape)
{
    if (c->what == NOTHING)
        return 1;
    switch (shapes[shape].goal) {
    case ON_LINE: return c->what >= WRITE_SHORT && c->what <= READ_LONG;
    case AT_BOOT: return c->what == BOOT;
    default:      return c->what < WRITE_SHORT;
    }
}

/* The number polled: the last station on full tables, else the only one. */
static uint8_t number_of(const struct bench_case *c)
{
    if (c->code == CODE_LOGIN)
        return 253;
    return c->tables == &inputs.empty ? 1 : 63;
}

static void fill_frame(struct frame *frame, const uint8_t *fields, size_t len)
{
    memcpy(frame->bytes + 1, fields, 14);
    frame->len = len;
}

/* The last sector of the last partition. */
static void disk_frame(struct frame *frame, uint8_t number)
{
    const uint8_t *row = site_partition(&inputs.site, 63);
    unsigned track = (16u << (row[16] - 1)) - 1;
    frame->bytes[2] = number;
    frame->bytes[3] = row[15];
    frame->bytes[4] = (uint8_t)(track & 0xFF);
    frame->bytes[5] = (uint8_t)(track >> 8);
    frame->bytes[6] = 128;
    frame->bytes[7] = row[14];
    frame->len = 8;
}

/* The serial of a login: that of the last station, one that nobody has, or
 * zero. */
static const uint8_t *serial_of(const struct bench_case *c)
{
    static const uint8_t zero[4];
    switch (c->what) {
    case LOGIN_AGAIN: return inputs.serials[62];
    case LOGIN_OTHER: return inputs.serials[63];
    default:          return zero;
    }
}

static void login_frame(struct frame *frame, const uint8_t *serial)
{
    fill_frame(frame, site_user(&inputs.site, 127), 20);
    memcpy(frame->bytes + 15, serial, 4);
}

/* Each look-up goes to the end: the last user, the last partition, a new
 * string for a lock and the last one for an unlock. */
static void frame_of(const struct bench_case *c, struct frame *frame)
{
    memset(frame, 0, sizeof *frame);
    frame->bytes[0] = c->code;
    frame->len = 1;
    switch (c->code) {
    case CODE_READ:
    case CODE_WRITE:  disk_frame(frame, number_of(c)); break;
    case CODE_LOGIN:  login_frame(frame, serial_of(c)); break;
    case CODE_ASSIGN: fill_frame(frame, site_partition(&inputs.site, 63), 15); break;
    case CODE_LOCK:   fill_frame(frame, inputs.strings[64], 15); break;
    case CODE_UNLOCK: fill_frame(frame, inputs.strings[63], 15); break;
    case CODE_LOGOUT: frame->bytes[1] = number_of(c); frame->len = 2; break;
    default:          break;
    }
}

/* Lock asks for a new string, unlock for the first of the list, so that all others move. */
static uint64_t call_station(const struct side *side, const struct bench_case *c)
{
    uint8_t buffer[15];
    switch (c->what) {
    case STATION_FRESH:  return side->station_fresh(state, STATE_LEN);
    case STATION_LOCK:   return side->station_lock(state, STATE_LEN, inputs.strings[64]);
    case STATION_UNLOCK: return side->station_unlock(state, STATE_LEN, inputs.strings[0]);
    case STATION_CLEAR:  return side->station_clear(state, STATE_LEN);
    case STATION_FRAME:  return side->station_frame(state, STATE_LEN, buffer, sizeof buffer);
    default:             return side->station_reply(state, STATE_LEN, 0x00);
    }
}

static uint64_t call_line(const struct side *side, const struct bench_case *c)
{
    const struct on_line *l =
        c->what == WRITE_SHORT || c->what == READ_SHORT ? &inputs.short_line : &inputs.long_line;
    if (c->what == WRITE_SHORT || c->what == WRITE_LONG)
        return side->line_write(1, l->data, l->data_len, written, LINE_MOST);
    return side->line_read(l->bits, LINE_MOST, l->count, written, DATA_MOST);
}

static uint64_t call_boot(const struct side *side)
{
    const struct boot *boot = &inputs.boot;
    return side->boot(boot->serial, boot->name, boot->password,
                      boot->bytes[BOOT_MACHINES], boot->len[BOOT_MACHINES],
                      boot->bytes[BOOT_PRODUCTS], boot->len[BOOT_PRODUCTS],
                      boot->bytes[BOOT_USERS], boot->len[BOOT_USERS],
                      boot->bytes[BOOT_CONFIGURATIONS], boot->len[BOOT_CONFIGURATIONS],
                      boot->bytes[BOOT_SYSTEMS], boot->len[BOOT_SYSTEMS],
                      boot->bytes[BOOT_DIRECTORY], boot->len[BOOT_DIRECTORY],
                      written, BLOCK);
}

static uint64_t call_once(const struct side *side, const struct bench_case *c,
                          const struct frame *frame)
{
    const struct site *site = &inputs.site;
    const uint8_t *row = site_partition(site, 63);
    memcpy(locks, c->tables->locks, LOCKS);
    memcpy(stations, c->tables->stations, STATIONS);
    memcpy(state, c->state->bytes, STATE_LEN);
    switch (c->what) {
    case CHECK_TABLES: return side->check_tables(locks, LOCKS, stations, STATIONS);
    case CHECK_SITE:   return side->check_site(site->bytes, site->len);
    case PLACE:        return side->place(row[14], row[15], 15, 128, site->bytes, site->len);
    case FRAME:
    case LOGIN_AGAIN:
    case LOGIN_OTHER:  return side->frame(number_of(c), frame->bytes, frame->len,
                                          site->bytes, site->len,
                                          locks, LOCKS, stations, STATIONS);
    case DUE:          return side->due(number_of(c), locks, LOCKS, stations, STATIONS);
    case POLL:         return side->poll(number_of(c), 0, locks, LOCKS, stations, STATIONS);
    case NOTHING:      return 0;
    case WRITE_SHORT:
    case WRITE_LONG:
    case READ_SHORT:
    case READ_LONG:    return call_line(side, c);
    case BOOT:         return call_boot(side);
    default:           return call_station(side, c);
    }
}

static volatile uint64_t sink;

/* Not inlined, so that a counter of instructions finds it. */
__attribute__((noinline))
static void call_often(const struct side *side, const struct bench_case *c, unsigned long count)
{
    struct frame frame;
    frame_of(c, &frame);
    for (unsigned long i = 0; i < count; i++)
        sink = call_once(side, c, &frame);
}

/* ---- the clock ---- */

static double nanoseconds(void)
{
    struct timespec now;
    clock_gettime(CLOCK_MONOTONIC, &now);
    return (double)now.tv_sec * 1e9 + (double)now.tv_nsec;
}

static double time_of(const struct side *side, const struct bench_case *c, unsigned long count)
{
    double start = nanoseconds();
    call_often(side, c, count);
    return (nanoseconds() - start) / (double)count;
}

/* How many calls fill a batch. */
static unsigned long batch(const struct bench_case *c)
{
    unsigned long count = 16;
    while (time_of(&reference, c, count) * (double)count < BATCH_NS)
        count *= 2;
    return count;
}

static double smaller(double a, double b)
{
    return a < b ? a : b;
}

/* The best of several runs in turn, for both sides. */
static void time_case(const struct bench_case *c, double *lib, double *ref)
{
    unsigned long count = batch(c);
    *lib = *ref = 1e18;
    for (unsigned run = 0; run < RUNS; run++) {
        *lib = smaller(*lib, time_of(&library, c, count));
        *ref = smaller(*ref, time_of(&reference, c, count));
    }
}

/* Both sides answer the same and leave the same. */
static int same_outcome(const struct bench_case *c)
{
    static uint8_t left[LOCKS + STATIONS + STATE_LEN], left_written[LINE_MOST];
    struct frame frame;
    frame_of(c, &frame);
    memset(written, 0xEE, LINE_MOST);
    uint64_t answer = call_once(&library, c, &frame);
    memcpy(left, locks, LOCKS);
    memcpy(left + LOCKS, stations, STATIONS);
    memcpy(left + LOCKS + STATIONS, state, STATE_LEN);
    memcpy(left_written, written, LINE_MOST);
    memset(written, 0xEE, LINE_MOST);
    return answer == call_once(&reference, c, &frame)
        && memcmp(left_written, written, LINE_MOST) == 0
        && memcmp(left, locks, LOCKS) == 0
        && memcmp(left + LOCKS, stations, STATIONS) == 0
        && memcmp(left + LOCKS + STATIONS, state, STATE_LEN) == 0;
}

/* The goal of a shape, in a word. */
static const char *goal_of(unsigned shape)
{
    static const char *const goals[] = {
        "in-order", "random", "colliding", "on-line", "at-boot"
    };
    return goals[shapes[shape].goal];
}

static int time_shape(unsigned shape)
{
    double lib, ref, none_lib, none_ref;
    shape_inputs(shape, &inputs);
    time_case(&cases[0], &none_lib, &none_ref);
    for (unsigned i = 1; i < CASES; i++) {
        if (!in_shape(&cases[i], shape))
            continue;
        if (!same_outcome(&cases[i])) {
            printf("%s %s: the two sides differ\n", cases[i].name, shapes[shape].name);
            return 1;
        }
        time_case(&cases[i], &lib, &ref);
        lib -= none_lib;
        ref -= none_ref;
        printf("%s %s %s %.0f %.0f %.3f\n", cases[i].name, shapes[shape].name,
               goal_of(shape), lib, ref, lib / ref);
    }
    return 0;
}

/* ---- arguments ---- */

/* Each case on each side, with "nothing" first in each shape. */
static void count_shape(unsigned shape, unsigned long count)
{
    shape_inputs(shape, &inputs);
    for (unsigned i = 0; i < CASES; i++) {
        if (!in_shape(&cases[i], shape))
            continue;
        printf("%s %s %s\n", cases[i].name, shapes[shape].name, goal_of(shape));
        call_often(&library, &cases[i], count);
        call_often(&reference, &cases[i], count);
    }
}

static int count_all(const char *count, const char *goal)
{
    for (unsigned shape = 0; shape < SHAPES; shape++)
        if (goal == NULL || strcmp(goal_of(shape), goal) == 0)
            count_shape(shape, strtoul(count, NULL, 10));
    return 0;
}

static int one(const char *side, const char *name, const char *shape, const char *count)
{
    for (unsigned s = 0; s < SHAPES; s++)
        for (unsigned i = 0; i < CASES; i++)
            if (strcmp(shapes[s].name, shape) == 0 && strcmp(cases[i].name, name) == 0
                && in_shape(&cases[i], s)) {
                shape_inputs(s, &inputs);
                call_often(strcmp(side, "lib") == 0 ? &library : &reference, &cases[i],
                           strtoul(count, NULL, 10));
                return 0;
            }
    fprintf(stderr, "no such case or shape: %s %s\n", name, shape);
    return 1;
}

static int names(void)
{
    for (unsigned s = 0; s < SHAPES; s++)
        for (unsigned i = 0; i < CASES; i++)
            if (in_shape(&cases[i], s))
                printf("%s %s %s\n", cases[i].name, shapes[s].name, goal_of(s));
    return 0;
}

int main(int argc, char **argv)
{
    if (argc == 6 && strcmp(argv[1], "one") == 0)
        return one(argv[2], argv[3], argv[4], argv[5]);
    if ((argc == 3 || argc == 4) && strcmp(argv[1], "count") == 0)
        return count_all(argv[2], argc == 4 ? argv[3] : NULL);
    if (argc == 2 && strcmp(argv[1], "names") == 0)
        return names();
    for (unsigned shape = 0; shape < SHAPES; shape++)
        if (time_shape(shape) != 0)
            return 1;
    return 0;
}
