/* Frames, by themselves and in runs. */
#include "generate.h"

#include <string.h>

const uint8_t codes[CODES] = {
    CODE_ACKNOWLEDGE, CODE_READ, CODE_WRITE, CODE_LOGIN, CODE_ASSIGN,
    CODE_LOCK, CODE_UNLOCK, CODE_CLEAR, CODE_LOGOUT
};

/* A volume and partition number of a row, or near one, or any. */
static void draw_row(struct rng *rng, const struct site *site, uint8_t *frame)
{
    unsigned rows = site_partitions(site);
    uint8_t *partition = frame + 3, *volume = frame + 7;
    if (rows == 0 || rng_one_in(rng, 8)) {
        *partition = (uint8_t)rng_below(rng, 66);
        *volume = (uint8_t)rng_below(rng, 6);
        return;
    }
    const uint8_t *row = site_partition(site, rng_below(rng, rows));
    *volume = row[14];
    *partition = row[15];
    switch (rng_below(rng, 24)) {
    case 0: *volume = row[15]; *partition = row[14]; break;
    case 1: *volume ^= 0x80; break;
    case 2: *partition ^= 0x40; break;
    case 3: *partition = (uint8_t)(*partition + 1); break;
    case 4: *volume = (uint8_t)(*volume + 1); break;
    default: break;
    }
}

/* A track and a sector, often at the edges of some size. */
static void draw_track_and_sector(struct rng *rng, uint8_t *frame)
{
    static const uint8_t sectors[] = { 0, 1, 1, 2, 64, 127, 128, 128, 129, 255 };
    static const uint16_t tracks[] = {
        0, 0, 1, 14, 15, 15, 16, 31, 32, 63, 64, 127, 128, 255, 256, 511, 512, 65535
    };
    unsigned track = rng_one_in(rng, 2) ? RNG_PICK(rng, tracks) : rng_below(rng, 16);
    frame[4] = (uint8_t)(track & 0xFF);
    frame[5] = (uint8_t)(track >> 8);
    frame[6] = rng_one_in(rng, 2) ? RNG_PICK(rng, sectors) : (uint8_t)(1 + rng_below(rng, 128));
}

/* Zeros and spaces at the end change places. */
static void turn_padding(uint8_t *bytes, unsigned len)
{
    for (; len > 0 && (bytes[len - 1] == 0 || bytes[len - 1] == ' '); len--)
        bytes[len - 1] ^= ' ';
}

/* A name and a password, from a row or near it; row is NULL for none. */
static void draw_name(struct rng *rng, const uint8_t *row, uint8_t *name)
{
    uint8_t *password = name + 8;
    if (row == NULL || rng_one_in(rng, 8))
        rng_bytes(rng, name, 14);
    else
        memcpy(name, row, 14);
    switch (rng_below(rng, 14)) {
    case 0: memset(password, 0, 6); break;
    case 1: password[rng_below(rng, 6)] ^= rng_nonzero(rng); break;
    case 2: name[rng_below(rng, 8)] ^= rng_nonzero(rng); break;
    case 3: memset(password, 0, 6); password[rng_below(rng, 6)] = 1; break;
    case 4: name_repadded(rng, name); break;
    case 5: turn_padding(name, 8); break;
    case 6: turn_padding(password, 6); break;
    case 7: memmove(name + 1, name, 7); name[0] = rng_one_in(rng, 2) ? 0 : ' '; break;
    default: break;
    }
}

static const uint8_t *any_user(struct rng *rng, const struct site *site)
{
    unsigned count = site_users(site);
    return count == 0 ? NULL : site_user(site, rng_below(rng, count));
}

static const uint8_t *any_partition(struct rng *rng, const struct site *site)
{
    unsigned count = site_partitions(site);
    return count == 0 ? NULL : site_partition(site, rng_below(rng, count));
}

void frame_good(struct rng *rng, struct frame *frame, uint8_t code,
                uint32_t number, const struct site *site)
{
    uint8_t *bytes = frame->bytes;
    memset(bytes, 0, FRAME_ROOM);
    bytes[0] = code;
    frame->len = 1;
    switch (code) {
    case CODE_READ:
    case CODE_WRITE:
        bytes[2] = (uint8_t)(number & 0xFF);
        draw_row(rng, site, bytes);
        draw_track_and_sector(rng, bytes);
        frame->len = 8;
        break;
    case CODE_LOGIN:
        draw_name(rng, any_user(rng, site), bytes + 1);
        any_serial(rng, bytes + 15);
        bytes[19] = rng_byte(rng);
        frame->len = 20;
        break;
    case CODE_ASSIGN:
        draw_name(rng, any_partition(rng, site), bytes + 1);
        frame->len = 15;
        break;
    case CODE_LOCK:
    case CODE_UNLOCK:
        any_string(rng, bytes + 1);
        frame->len = 15;
        break;
    case CODE_LOGOUT:
        bytes[1] = (uint8_t)(number & 0xFF);
        frame->len = 2;
        break;
    default:
        break;
    }
}

void frame_spoil(struct rng *rng, struct frame *frame, unsigned faults)
{
    static const uint8_t unknown[] = {
        0x00, 0x10, 0x14, 0x15, 0x16, 0x18, 0x1C, 0x1D, 0x1E, 0x20, 0x21, 0x40,
        0x42, 0x50, 0x55, 0x91, 0x93, 0x99, 0x9F, 0xC1, 0xFF
    };
    uint8_t code = frame->bytes[0];
    int disk = code == CODE_READ || code == CODE_WRITE;
    if ((faults & FAULT_DTN) != 0 && disk)
        frame->bytes[1] = rng_nonzero(rng);
    if ((faults & FAULT_SRC) != 0 && disk)
        frame->bytes[2] ^= rng_nonzero(rng);
    if ((faults & FAULT_SRC) != 0 && code == CODE_LOGOUT)
        frame->bytes[1] ^= rng_nonzero(rng);
    if ((faults & FAULT_CODE) != 0)
        frame->bytes[0] = RNG_PICK(rng, unknown);
    if ((faults & FAULT_SHORT) != 0 && frame->len > 0)
        frame->len--;
    if ((faults & FAULT_LONG) != 0)
        frame->len++;
    if ((faults & FAULT_EMPTY) != 0)
        frame->len = 0;
}

/* ---- runs of frames ---- */

uint32_t number_logged_in(struct rng *rng, const uint8_t *stations)
{
    uint32_t numbers[64];
    unsigned count = 0;
    for (uint32_t number = 0; number < 64; number++)
        if (stations[18 * number] == 1)
            numbers[count++] = number;
    return count == 0 ? 0 : numbers[rng_below(rng, count)];
}

void login_again(struct rng *rng, struct frame *frame, const uint8_t *stations)
{
    uint8_t *serial = frame->bytes + 15;
    memcpy(serial, stations + 18 * number_logged_in(rng, stations) + 12, 4);
    if (rng_one_in(rng, 4))
        serial[rng_below(rng, 4)] ^= rng_nonzero(rng);
}

uint32_t number_any(struct rng *rng)
{
    static const uint32_t odd[] = {
        0, 1, 62, 63, 64, 65, 127, 128, 191, 192, 251, 252, 253, 254, 255, 256,
        257, 319, 320, 509, 510, 65535, 65536, 65537, 65789, 0x80000000u,
        0x80000001u, 0xFFFFFFFFu, 0xFFFFFF01u
    };
    switch (rng_below(rng, 4)) {
    case 0:  return rng_below(rng, 256);
    case 1:  return 253;
    case 2:  return (uint32_t)rng_next(rng);
    default: return RNG_PICK(rng, odd);
    }
}

/* A command by the weights of a mood, in the order of codes. */
static uint8_t draw_code(struct rng *rng, enum mood mood)
{
    static const uint8_t weights[MOODS][CODES] = {
        /*               ack read write login assign lock unlock clear logout */
        [MOOD_MIXED]  = { 2,  4,   4,    3,    4,     8,   5,     1,    1 },
        [MOOD_LOGINS] = { 0,  0,   0,    9,    0,     3,   1,     0,    0 },
        [MOOD_LOCKS]  = { 0,  0,   0,    1,    0,    60,   1,     0,    0 },
        [MOOD_CHURN]  = { 0,  0,   0,    0,    0,     8,   8,     0,    0 },
        [MOOD_DISK]   = { 1,  8,   8,    1,    8,     0,   0,     0,    0 },
        [MOOD_LEAVE]  = { 0,  0,   0,    1,    0,     4,   2,     2,    4 },
        [MOOD_FAULTS] = { 1,  4,   4,    2,    1,     2,   1,     1,    4 }
    };
    unsigned total = 0, i = 0;
    for (unsigned k = 0; k < CODES; k++)
        total += weights[mood][k];
    unsigned left = rng_below(rng, total);
    while (left >= weights[mood][i])
        left -= weights[mood][i++];
    return codes[i];
}

/* Turns a lock or unlock towards a string that is held; gives the owner. */
static uint32_t towards_held(struct rng *rng, struct frame *frame,
                             const uint8_t *locks, uint32_t number)
{
    const uint8_t *row = locks + 16 * rng_below(rng, 64);
    if (row[0] == 0xFF)
        return number;
    memcpy(frame->bytes + 1, row + 1, 14);
    stray_bytes(rng, frame->bytes + 1);
    return row[0];
}

uint32_t next_frame(struct rng *rng, enum mood mood, const struct site *site,
                    const uint8_t *locks, const uint8_t *stations, struct frame *frame)
{
    uint8_t code = draw_code(rng, mood);
    unsigned odd = mood == MOOD_FAULTS ? 3 : 60;
    uint32_t number = code == CODE_LOGIN ? 253 : number_logged_in(rng, stations);
    if (rng_one_in(rng, odd))
        number = number_any(rng);
    frame_good(rng, frame, code, number, site);
    if ((code == CODE_LOCK || code == CODE_UNLOCK) && rng_one_in(rng, 3))
        number = towards_held(rng, frame, locks, number);
    if (code == CODE_LOGIN && rng_one_in(rng, 3))
        login_again(rng, frame, stations);
    if (rng_one_in(rng, odd))
        frame_spoil(rng, frame, 1u << rng_below(rng, 6));
    if (mood == MOOD_FAULTS && rng_one_in(rng, 4))
        frame_spoil(rng, frame, rng_below(rng, FAULTS_ALL + 1) & ~(unsigned)FAULT_EMPTY);
    return number;
}
