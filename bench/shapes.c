/* The shapes of the bench's inputs. */
#include "shapes.h"

#include "plain_line.h"
#include "reference.h"

#include <stdio.h>
#include <string.h>

enum { HEADER = 8, USER_ROW = 16, PARTITION_ROW = 24, USERS = 128, PARTITIONS = 64 };

/* How keys look beside each other. */
enum keys {
    NUMBERED,       /* CUSTOMER00042: they differ late */
    EARLY,          /* 00042CUSTOMER: they differ early and end alike */
    LAST,           /* STOCKCARD042X: they share the last byte too */
    PADDED,         /* names U7 and U42, padded with zeros and with spaces by turns */
    ANY,            /* random bytes, lock strings of random length */
    ONE_HASH,       /* random bytes, all with one hash */
    ONE_HASH_PADDED, /* the same, and names of six bytes padded by turns */
    ONE_HASH_LAST   /* STOCKCARD...X, all with one hash */
};

/* How the partition rows lie. */
enum rows {
    SORTED,         /* on four volumes, each in the order of its sectors */
    MIXED,          /* the same rows, mixed */
    ONE_VOLUME      /* 64 of size 4 that fill one volume, mixed */
};

/* A shape's place is its seed too: a new one goes to the end. */
const struct shape shapes[SHAPES] = {
    { "numbered", IN_ORDER },
    { "numbered-mixed", IN_ORDER },
    { "numbered-volume", IN_ORDER },
    { "early-mixed", IN_ORDER },
    { "last-mixed", IN_ORDER },
    { "last-volume", IN_ORDER },
    { "random-mixed", RANDOM },
    { "hash-mixed", COLLIDING },
    { "hash-last-volume", COLLIDING },
    { "zeros", ON_LINE },
    { "text", ON_LINE },
    { "random", ON_LINE },
    { "FF", ON_LINE },
    { "1F", ON_LINE },
    { "padded-mixed", IN_ORDER },
    { "hash-padded-mixed", COLLIDING },
    { "workshop", AT_BOOT },
    { "exact-last", AT_BOOT },
    { "options-last", AT_BOOT },
    { "smallest-last", AT_BOOT },
    { "small-last", AT_BOOT },
    { "menu", AT_BOOT },
    { "nobody", AT_BOOT },
    { "password", AT_BOOT },
    { "any-full", AT_BOOT },
    { "any-small", AT_BOOT }
};

/* The first shape on the line, the first of those with keys that came after, and
 * the first at boot (shapes_boot.c). */
enum { FIRST_ON_LINE = 9, FIRST_PADDED = 14, FIRST_AT_BOOT = 16 };

static const struct {
    enum keys keys;
    enum rows rows;
} made[SHAPES] = {
    { NUMBERED, SORTED }, { NUMBERED, MIXED }, { NUMBERED, ONE_VOLUME },
    { EARLY, MIXED }, { LAST, MIXED }, { LAST, ONE_VOLUME },
    { ANY, MIXED }, { ONE_HASH, MIXED }, { ONE_HASH_LAST, ONE_VOLUME },
    [FIRST_PADDED] = { PADDED, MIXED }, { ONE_HASH_PADDED, MIXED }
};

/* ---- keys ---- */

static uint32_t number_of(const uint8_t *bytes)
{
    return bytes[0] | (uint32_t)bytes[1] << 8 | (uint32_t)bytes[2] << 16 | (uint32_t)bytes[3] << 24;
}

/* The library's hash of a key of 8 or 13 bytes (crates/rows/specs/Marks.antt); of
 * a name only what is solid counts. Known here only to make keys that collide. */
static unsigned hash(const uint8_t *key, unsigned len)
{
    static const uint64_t weights[4] = { 811766591, 735356845, 227300033, 244215329 };
    uint8_t bytes[16] = { 0 };
    uint64_t sum = 0;
    memcpy(bytes, key, len);
    for (unsigned k = 0; k < 8 && len == 8; k++)
        bytes[k] &= 0xDF;
    for (unsigned k = 0; k < 4; k++)
        sum += weights[k] * number_of(bytes + 4 * k);
    return (unsigned)(sum >> 22 & 1023);
}

static void in_words(uint8_t *key, unsigned len, const char *format, unsigned i)
{
    char text[32];
    snprintf(text, sizeof text, format, i);
    memcpy(key, text, len);
}

/* Draws until the key has the hash 0. */
static void draw_hash(struct rng *rng, uint8_t *key, unsigned len, unsigned from, unsigned to)
{
    unsigned long tries = 0;
    rng_bytes(rng, key + from, to - from);
    while (hash(key, len) != 0) {
        try_again(&tries, "a key with the hash 0");
        rng_bytes(rng, key + from, to - from);
    }
}

/* Of a name that has zeros for its padding, every second one has spaces. */
static void pad_by_turns(uint8_t *name, unsigned i)
{
    for (unsigned k = 8; k > 0 && i % 2 == 1 && name[k - 1] == 0; k--)
        name[k - 1] = ' ';
}

/* Name i of a shape whose names are padded. */
static void make_padded(struct rng *rng, enum keys keys, uint8_t *name, unsigned i)
{
    memset(name, 0, 8);
    if (keys == PADDED)
        snprintf((char *)name, 8, "U%u", i);
    else
        draw_hash(rng, name, 8, 0, 6);
    pad_by_turns(name, i);
}

/* Key i, of 8 or 13 bytes. */
static void make_key(struct rng *rng, enum keys keys, uint8_t *key, unsigned len, unsigned i)
{
    int name = len == 8;
    if (name && (keys == PADDED || keys == ONE_HASH_PADDED)) {
        make_padded(rng, keys, key, i);
        return;
    }
    switch (keys) {
    case PADDED:
    case NUMBERED: in_words(key, len, name ? "USER%04u" : "CUSTOMER%05u", i); break;
    case EARLY:    in_words(key, len, name ? "%04uUSER" : "%05uCUSTOMER", i); break;
    case LAST:     in_words(key, len, name ? "USR%04uX" : "STOCKCARD%03uX", i); break;
    case ANY:      rng_bytes(rng, key, len); break;
    case ONE_HASH_PADDED:
    case ONE_HASH: draw_hash(rng, key, len, 0, len); break;
    default:
        in_words(key, len, name ? "USR%04uX" : "STOCKCARD%03uX", 0);
        draw_hash(rng, key, len, len - 5, len - 1);
        break;
    }
}

/* ---- the site file ---- */

static void put16(uint8_t *bytes, unsigned number)
{
    bytes[0] = (uint8_t)(number & 0xFF);
    bytes[1] = (uint8_t)(number >> 8 & 0xFF);
}

/* Partition row i: volume and number by turns, sizes 1 to 6 one after another. */
static void lay_row(uint8_t *row, unsigned i, enum rows rows)
{
    static const unsigned firsts[6] = { 0, 2048, 6144, 14336, 30720, 63488 };
    unsigned volume = i / 16, place = i % 16, size = 1 + place % 6;
    uint32_t first = 131072u * (place / 6) + firsts[place % 6] + 129;
    if (rows == ONE_VOLUME) {
        volume = 2;
        place = i;
        size = 4;
        first = 16384 * i;
    }
    row[14] = (uint8_t)volume;
    row[15] = (uint8_t)place;
    row[16] = (uint8_t)size;
    row[17] = 1;
    put16(row + 18, first & 0xFFFF);
    put16(row + 20, first >> 16);
}

static void mix_rows(struct rng *rng, uint8_t *rows)
{
    uint8_t row[PARTITION_ROW];
    for (unsigned i = PARTITIONS - 1; i > 0; i--) {
        unsigned j = rng_below(rng, i + 1);
        memcpy(row, rows + PARTITION_ROW * i, PARTITION_ROW);
        memmove(rows + PARTITION_ROW * i, rows + PARTITION_ROW * j, PARTITION_ROW);
        memcpy(rows + PARTITION_ROW * j, row, PARTITION_ROW);
    }
}

static void make_site(struct rng *rng, struct site *site, enum keys keys, enum rows rows)
{
    uint8_t *users = site->bytes + HEADER, *partitions = users + USER_ROW * USERS;
    memset(site->bytes, 0, SITE_ROOM);
    put16(site->bytes, USERS);
    put16(site->bytes + 2, HEADER);
    put16(site->bytes + 4, PARTITIONS);
    put16(site->bytes + 6, HEADER + USER_ROW * USERS);
    site->len = HEADER + USER_ROW * USERS + PARTITION_ROW * PARTITIONS;
    for (unsigned i = 0; i < USERS; i++) {
        make_key(rng, keys, users + USER_ROW * i, 8, i);
        memcpy(users + USER_ROW * i + 8, "SECRET", 6);
    }
    for (unsigned i = 0; i < PARTITIONS; i++)
        lay_row(partitions + PARTITION_ROW * i, i, rows);
    if (rows != SORTED)
        mix_rows(rng, partitions);
    for (unsigned i = 0; i < PARTITIONS; i++) {
        make_key(rng, keys, partitions + PARTITION_ROW * i, 8, i);
        memcpy(partitions + PARTITION_ROW * i + 8, "SECRET", 6);
    }
}

/* ---- tables and states ---- */

/* The strings: of 13 bytes, but for random ones, whose lengths are random. */
static void make_strings(struct rng *rng, struct inputs *inputs, enum keys keys)
{
    for (unsigned i = 0; i < 65; i++) {
        uint8_t *string = inputs->strings[i];
        memset(string, 0, 14);
        string[0] = (uint8_t)(keys == ANY ? 3 + rng_below(rng, 11) : 13);
        make_key(rng, keys, string + 1, 13, i);
        memset(string + 1 + string[0], 0, 13u - string[0]);
    }
}

/* Serial i, none of them zero. */
static void make_serial(struct rng *rng, enum keys keys, uint8_t *serial, unsigned i)
{
    memcpy(serial, "SERI", 4);
    switch (keys) {
    case PADDED:
    case NUMBERED: serial[3] = (uint8_t)(i + 1); break;
    case EARLY:    serial[0] = (uint8_t)(i + 1); break;
    case LAST:     serial[2] = (uint8_t)(i + 1); break;
    default:
        rng_bytes(rng, serial, 3);
        serial[3] = (uint8_t)(i + 1);
        break;
    }
}

static void serve(struct inputs *inputs, struct tables *tables, uint32_t number,
                  const uint8_t *frame, size_t len)
{
    ref_frame(number, frame, len, inputs->site.bytes, inputs->site.len,
              tables->locks, LOCKS, tables->stations, STATIONS);
}

static void make_tables(struct inputs *inputs, struct tables *tables,
                        unsigned logins, unsigned strings)
{
    uint8_t frame[20];
    ref_fresh(tables->locks, LOCKS, tables->stations, STATIONS);
    for (unsigned i = 0; i < logins; i++) {
        memset(frame, 0, sizeof frame);
        frame[0] = CODE_LOGIN;
        memcpy(frame + 1, site_user(&inputs->site, i), 14);
        memcpy(frame + 15, inputs->serials[i], 4);
        serve(inputs, tables, 253, frame, 20);
    }
    for (unsigned i = 0; i < strings; i++) {
        frame[0] = CODE_LOCK;
        memcpy(frame + 1, inputs->strings[i], 14);
        serve(inputs, tables, i, frame, 15);
    }
}

/* So many locks listed, and the one after them awaited or not. */
static void make_state(const struct inputs *inputs, struct state *state,
                       unsigned listed, int waits)
{
    memset(state, 0, sizeof *state);
    state->len = STATE_LEN;
    for (unsigned i = 0; i < listed; i++)
        memcpy(state->bytes + 14 * i, inputs->strings[i], 14);
    if (!waits)
        return;
    state->bytes[STATE_AWAITED] = CODE_LOCK;
    memcpy(state->bytes + STATE_AWAITED + 1, inputs->strings[listed], 14);
}

/* ---- the frame on the line ---- */

/* The shapes on the line, in their order. */
enum fill { FILL_ZEROS, FILL_TEXT, FILL_RANDOM, FILL_FF, FILL_1F };

static void make_text(uint8_t *data, size_t len)
{
    static const char text[] = "Dear Sir, we thank you for your order of 12 May. ";
    for (size_t i = 0; i < len; i++)
        data[i] = (uint8_t)text[i % (sizeof text - 1)];
}

static void make_data(struct rng *rng, enum fill fill, uint8_t *data, size_t len)
{
    switch (fill) {
    case FILL_ZEROS: memset(data, 0x00, len); break;
    case FILL_TEXT:  make_text(data, len); break;
    case FILL_FF:    memset(data, 0xFF, len); break;
    case FILL_1F:    memset(data, 0x1F, len); break;
    default:         rng_bytes(rng, data, len); break;
    }
}

static void make_line(struct rng *rng, enum fill fill, struct on_line *line, size_t len)
{
    memset(line, 0, sizeof *line);
    line->data_len = len;
    make_data(rng, fill, line->data, len);
    line->count = (size_t)(plain_line_write(1, line->data, len, line->bits, LINE_MOST) >> 16);
}

void shape_inputs(unsigned i, struct inputs *inputs)
{
    struct rng rng = rng_from(1982 + i);
    if (shapes[i].goal == ON_LINE) {
        make_line(&rng, (enum fill)(i - FIRST_ON_LINE), &inputs->short_line, 20);
        make_line(&rng, (enum fill)(i - FIRST_ON_LINE), &inputs->long_line, DATA_MOST);
        return;
    }
    if (shapes[i].goal == AT_BOOT) {
        boot_shape(&rng, i - FIRST_AT_BOOT, &inputs->boot);
        return;
    }
    make_site(&rng, &inputs->site, made[i].keys, made[i].rows);
    make_strings(&rng, inputs, made[i].keys);
    for (unsigned k = 0; k < 64; k++)
        make_serial(&rng, made[i].keys, inputs->serials[k], k);
    make_tables(inputs, &inputs->empty, 1, 0);
    make_tables(inputs, &inputs->room, 62, 63);
    make_tables(inputs, &inputs->full, 63, 64);
    inputs->alike = inputs->full;
    for (unsigned number = 1; number < 64; number++)
        memcpy(inputs->alike.stations + 18 * number + 12, inputs->serials[62], 4);
    inputs->last = inputs->full;
    inputs->last.stations[63 * 18 + 1] = 255;
    inputs->last.stations[63 * 18 + 3] = 11;
    make_state(inputs, &inputs->idle_empty, 0, 0);
    make_state(inputs, &inputs->idle_full, 64, 0);
    make_state(inputs, &inputs->waits_empty, 0, 1);
    make_state(inputs, &inputs->waits_full, 63, 1);
}
