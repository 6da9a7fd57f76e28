/*
 * Compares the library with the reference: frames written to the line, read
 * from it and served from it. Contents of every length and several shapes, in
 * buffers around the length they need; lines that are cut, flipped, go on
 * after the frame, or were never one.
 * Usage: drive_line [rounds [first round]]
 */
#include "desk.h"
#include "hinet.h"
#include "reference.h"

#include <string.h>

enum {
    SEED = 1662, ROUNDS = 6,
    DATA_MOST = 1024, BYTES_MOST = 1237, ROOM = 1300,
    SHORT = 6               /* data bytes of a frame that every bit is tried on */
};

static struct rng rng;
static struct lent lent_content, lent_bits, lent_data;
static uint8_t ref_bits[ROOM], ref_data[ROOM];

/* ---- a line in the making ---- */

/* `ones` is how many ones stand last in the content. */
struct line {
    size_t count;
    unsigned ones;
    uint8_t bytes[LENT_MOST];
};

static struct line line;

static void put_bit(struct line *to, unsigned bit)
{
    expect(to->count / 8 < LENT_MOST, "driver: line too long");
    if (to->count % 8 == 0)
        to->bytes[to->count / 8] = 0;
    to->bytes[to->count / 8] |= (uint8_t)(bit << to->count % 8);
    to->count++;
}

static unsigned bit_at(const struct line *from, size_t i)
{
    return from->bytes[i / 8] >> i % 8 & 1;
}

static void put_bits(struct line *to, const struct line *from, size_t begin, size_t end)
{
    for (size_t i = begin; i < end; i++)
        put_bit(to, bit_at(from, i));
}

static void put_ones(struct line *to, unsigned count)
{
    for (unsigned i = 0; i < count; i++)
        put_bit(to, 1);
}

static void put_flag(struct line *to)
{
    put_bit(to, 0);
    put_ones(to, 6);
    put_bit(to, 0);
    to->ones = 0;
}

/* A flag whose first zero is the last bit of the one before. */
static void put_shared_flag(struct line *to)
{
    put_ones(to, 6);
    put_bit(to, 0);
    to->ones = 0;
}

/* A bit of the content, and the zero after five ones. */
static void put_content_bit(struct line *to, unsigned bit)
{
    put_bit(to, bit);
    to->ones = bit == 0 ? 0 : to->ones + 1;
    if (to->ones < 5)
        return;
    put_bit(to, 0);
    to->ones = 0;
}

static void put_content(struct line *to, const uint8_t *bytes, size_t len)
{
    for (size_t i = 0; i < 8 * len; i++)
        put_content_bit(to, bytes[i / 8] >> i % 8 & 1);
}

static void begin_line(struct line *to)
{
    to->count = 0;
    to->ones = 0;
}

/* Two flags before the content and two after. */
static void put_frame(struct line *to, const uint8_t *content, size_t len)
{
    put_flag(to);
    put_flag(to);
    put_content(to, content, len);
    put_flag(to);
    put_flag(to);
}

/* ---- contents ---- */

enum shape { ZEROS, ONES, FLAGS, FIVES, RUNS, TEXT, RANDOM, LAST_FIVE, SHAPES };

/* Runs of four to eight ones with one to three zeros between. */
static void fill_runs(uint8_t *bytes, size_t len)
{
    unsigned bit = 0, left = 0;
    memset(bytes, 0, len);
    for (size_t i = 0; i < 8 * len; i++) {
        if (left == 0) {
            bit = !bit;
            left = bit ? 4 + rng_below(&rng, 5) : 1 + rng_below(&rng, 3);
        }
        bytes[i / 8] |= (uint8_t)(bit << i % 8);
        left--;
    }
}

/* A content of len bytes: user number, data and the check of both. */
static void add_check(uint8_t *content, size_t len)
{
    unsigned check = ref_line_check(content, len - 2);
    content[len - 2] = (uint8_t)(check & 0xFF);
    content[len - 1] = (uint8_t)(check >> 8);
}

/* Do the bits end in five ones that want a zero? */
static int ends_in_five(const uint8_t *content, size_t len)
{
    static struct line made;
    begin_line(&made);
    put_content(&made, content, len);
    return content[len - 1] >= 0x80 && made.ones == 0;
}

/* Draws the first data byte and the user number until the check does. */
static void draw_last_five(uint8_t *content, size_t len)
{
    unsigned long tries = 0;
    rng_bytes(&rng, content, len);
    add_check(content, len);
    while (!ends_in_five(content, len)) {
        try_again(&tries, "a check that ends in five ones");
        rng_bytes(&rng, content, 2);
        add_check(content, len);
    }
}

static void fill(uint8_t *bytes, size_t len, enum shape shape)
{
    static const uint8_t fives[] = { 0x1F, 0xF8, 0x3E, 0x7C, 0xF1, 0xE3, 0x8F, 0xFC, 0x3F };
    switch (shape) {
    case ZEROS: memset(bytes, 0x00, len); break;
    case ONES:  memset(bytes, 0xFF, len); break;
    case FLAGS: memset(bytes, 0x7E, len); break;
    case FIVES:
        for (size_t i = 0; i < len; i++)
            bytes[i] = RNG_PICK(&rng, fives);
        break;
    case RUNS:  fill_runs(bytes, len); break;
    case TEXT:
        for (size_t i = 0; i < len; i++)
            bytes[i] = (uint8_t)("ORDERS OF MAY 1983 "[i % 19]);
        break;
    default:    rng_bytes(&rng, bytes, len); break;
    }
}

/* A content with so many data bytes. */
static void make_content(uint8_t *content, size_t data_len, enum shape shape)
{
    if (shape == LAST_FIVE && data_len > 0) {
        draw_last_five(content, data_len + 3);
        return;
    }
    fill(content, data_len + 1, shape);
    if (rng_one_in(&rng, 2))
        content[0] = rng_byte(&rng);
    add_check(content, data_len + 3);
}

/* ---- the calls ---- */

/* Writes user number and data of a content into a buffer of random bytes. */
static uint64_t write_line(const uint8_t *content, size_t data_len, size_t bits_len)
{
    struct call call = { .entry = ENTRY_LINE_WRITE, .numbers = 1, .number = { content[0] }, .parts = 2,
        .part = { { "data", &lent_content, NULL }, { "bits", &lent_bits, ref_bits } } };
    lend(&lent_content, content + 1, data_len);
    rng_bytes(&rng, ref_bits, bits_len);
    lend(&lent_bits, ref_bits, bits_len);
    call.library = hinet_line_write(content[0], lent_content.bytes, data_len, lent_bits.bytes, bits_len);
    call.reference = ref_line_write(content[0], lent_content.before, data_len, ref_bits, bits_len);
    check_call(&call);
    return call.library;
}

/* Lends a line in so many bytes, with any bits after its own. */
static void lend_line(const struct line *from, size_t len)
{
    static uint8_t bytes[LENT_MOST];
    size_t whole = from->count / 8;
    rng_bytes(&rng, bytes, len);
    if (whole < len && from->count % 8 != 0) {
        bytes[whole] = (uint8_t)(bytes[whole] << from->count % 8);
        bytes[whole] |= (uint8_t)(from->bytes[whole] & ((1u << from->count % 8) - 1));
    }
    memcpy(bytes, from->bytes, whole < len ? whole : len);
    lend(&lent_bits, bytes, len);
}

/* Reads so many bits of the first bits_len bytes of what is lent. */
static uint64_t read_lent(size_t bits_len, size_t count, size_t data_len)
{
    struct call call = { .entry = ENTRY_LINE_READ, .numbers = 2, .number = { bits_len, count }, .parts = 2,
        .part = { { "bits", &lent_bits, NULL }, { "data", &lent_data, ref_data } } };
    rng_bytes(&rng, ref_data, data_len);
    lend(&lent_data, ref_data, data_len);
    call.library = hinet_line_read(lent_bits.bytes, bits_len, count, lent_data.bytes, data_len);
    call.reference = ref_line_read(lent_bits.before, bits_len, count, ref_data, data_len);
    check_call(&call);
    return call.library;
}

static size_t bytes_for(size_t count)
{
    return (count + 7) / 8;
}

/* Reads all bits of a line, in as many bytes as they need or some more. */
static uint64_t read_line(const struct line *from, size_t data_len)
{
    lend_line(from, bytes_for(from->count) + rng_below(&rng, 3));
    return read_lent(lent_bits.len, from->count, data_len);
}

/* Serves a line, over the site file and the tables of the desk. */
static uint64_t serve_line(uint32_t number, const struct line *from)
{
    struct call call = { .entry = ENTRY_LINE_FRAME, .numbers = 2, .number = { number, from->count }, .parts = 2,
        .part = { { "bits", &lent_bits, NULL }, { "site", &desk.site, NULL } } };
    lend_line(from, bytes_for(from->count) + rng_below(&rng, 3));
    lend_again(&desk.site);
    desk_lend_tables(&call);
    call.library = hinet_line_frame(number, lent_bits.bytes, lent_bits.len, from->count,
                                    desk.site.bytes, desk.site.len,
                                    desk.locks.bytes, desk.locks.len,
                                    desk.stations.bytes, desk.stations.len);
    call.reference = ref_line_frame(number, lent_bits.before, lent_bits.len, from->count,
                                    desk.site.before, desk.site.len,
                                    desk.ref_locks, desk.locks.len,
                                    desk.ref_stations, desk.stations.len);
    check_call(&call);
    return call.library;
}

/* The last read gave this content's user number and data. */
static void expect_content(uint64_t answer, const uint8_t *content, size_t data_len)
{
    expect_refusal(0);
    expect(hinet_answer_kind(answer) == HINET_KIND_LINE, "kind of a line");
    expect(hinet_answer_line_user(answer) == content[0], "not the user number");
    expect(hinet_answer_line_length(answer) == data_len, "not the data length");
    expect(memcmp(lent_data.bytes, content + 1, data_len) == 0, "not the data");
}

/* ---- published vectors ---- */

static void vectors(void)
{
    static const uint8_t digits[] = "123456789";
    uint8_t content[40];
    expect(ref_line_check(digits, 9) == 0x906E, "reference: the check of 123456789");
    for (size_t len = 3; len <= sizeof content; len++) {
        rng_bytes(&rng, content, len);
        add_check(content, len);
        expect((ref_line_check(content, len) ^ 0xFFFF) == 0xF0B8, "reference: a frame with its check");
    }
    uint64_t answer = write_line(digits, 8, 15);
    expect(hinet_answer_bit_count(answer) == 120, "bits of the vector");
    expect(memcmp(lent_bits.bytes, "\x7E\x7E" "123456789\x6E\x90\x7E\x7E", 15) == 0, "not the vector");
}

/* ---- every length and shape, in buffers of every length near the limit ---- */

/* The frame as the driver makes it has the same bits. */
static void same_as_made(uint64_t answer, const uint8_t *content, size_t data_len)
{
    static struct line made;
    begin_line(&made);
    put_frame(&made, content, data_len + 3);
    expect(hinet_answer_bit_count(answer) == made.count, "not as many bits as made");
    expect(memcmp(lent_bits.bytes, made.bytes, bytes_for(made.count)) == 0, "not the bits made");
}

/* Buffers from two bytes too short, or from none, to two too long. */
static void write_around(const uint8_t *content, size_t data_len, size_t need)
{
    for (size_t len = data_len <= SHORT ? 0 : need - 2; len <= need + 2; len++) {
        uint64_t answer = write_line(content, data_len, len);
        expect_refusal(len < need ? 13 : 0);
        if (len >= need)
            same_as_made(answer, content, data_len);
    }
}

static void read_around(const uint8_t *content, size_t data_len)
{
    begin_line(&line);
    put_frame(&line, content, data_len + 3);
    for (size_t len = data_len <= SHORT ? 0 : data_len - 2; len <= data_len + 2; len++) {
        uint64_t answer = read_line(&line, len);
        if (len < data_len)
            expect_refusal(13);
        else
            expect_content(answer, content, data_len);
    }
}

/* 1237 bytes always do, and 17 comes before 13. */
static void one_content(size_t data_len, enum shape shape)
{
    static uint8_t content[ROOM];
    make_content(content, data_len, shape);
    uint64_t answer = write_line(content, data_len, BYTES_MOST);
    if (data_len < 1 || data_len > DATA_MOST) {
        expect_refusal(17);
        write_line(content, data_len, rng_below(&rng, 9));
        expect_refusal(17);
        return;
    }
    expect_refusal(0);
    write_around(content, data_len, bytes_for(hinet_answer_bit_count(answer)));
    read_around(content, data_len);
}

/* The rounds take turns with the lengths between. */
static void lengths_and_shapes(void)
{
    for (unsigned shape = 0; shape < SHAPES; shape++) {
        for (size_t len = 0; len <= 24; len++)
            one_content(len, (enum shape)shape);
        for (size_t len = 25 + trace.round % ROUNDS; len < DATA_MOST - 2; len += ROUNDS)
            one_content(len, (enum shape)shape);
        for (size_t len = DATA_MOST - 2; len <= DATA_MOST + 3; len++)
            one_content(len, (enum shape)shape);
    }
}

/* ---- short frames: every bit, every cut, what comes after ---- */

static uint8_t content[ROOM];
static size_t data_len;

/* A short frame, its content kept. The closing flag ends 8 bits before the
 * line does. */
static void short_frame(struct line *to)
{
    data_len = 1 + rng_below(&rng, SHORT);
    make_content(content, data_len, (enum shape)rng_below(&rng, SHAPES));
    begin_line(to);
    put_frame(to, content, data_len + 3);
}

static void flip(struct line *at, size_t i)
{
    at->bytes[i / 8] ^= (uint8_t)(1u << i % 8);
}

/* Each bit alone, and each with another one, or back again. */
static void flips(void)
{
    short_frame(&line);
    for (size_t i = 0; i < line.count; i++) {
        flip(&line, i);
        read_line(&line, SHORT);
        size_t j = rng_below(&rng, (unsigned)line.count);
        flip(&line, j);
        read_line(&line, rng_below(&rng, SHORT + 1));
        flip(&line, j);
        flip(&line, i);
    }
    expect_content(read_line(&line, SHORT), content, data_len);
}

/* The first bits alone; the flag after the closing one may be missing. The
 * bytes lent are those of the bits, or more of them stand behind. */
static void cuts(void)
{
    short_frame(&line);
    size_t whole = line.count;
    for (size_t count = 0; count <= whole; count++) {
        line.count = count;
        read_line(&line, SHORT);
        expect_refusal(count < whole - 8 ? 18 : 0);
        line.count = whole;
        lend_line(&line, bytes_for(whole));
        read_lent(bytes_for(whole), count, SHORT);
        expect_refusal(count < whole - 8 ? 18 : 0);
    }
}

/* Anything after the closing flag, another frame too, is not looked at. */
static void what_comes_after(void)
{
    static struct line more;
    short_frame(&line);
    size_t closed = line.count - 8;
    for (unsigned kind = 0; kind < 6; kind++) {
        more = line;
        more.count = closed;
        more.bytes[closed / 8] &= (uint8_t)((1u << closed % 8) - 1);
        switch (kind) {
        case 0:  put_ones(&more, 7 + rng_below(&rng, 20)); break;
        case 1:  put_shared_flag(&more); break;
        case 2:  put_frame(&more, content, data_len + 2); break;
        case 3:  put_bits(&more, &line, 0, line.count); break;
        default:
            for (unsigned i = rng_below(&rng, 200); i > 0; i--)
                put_bit(&more, rng_below(&rng, 2));
            break;
        }
        expect_content(read_line(&more, SHORT), content, data_len);
    }
}

/* One to six flags before the content, each on its own or sharing a zero. */
static void flags_before(void)
{
    short_frame(&line);
    for (unsigned flags = 1; flags <= 6; flags++)
        for (unsigned shares = 0; shares < 1u << (flags - 1); shares++) {
            begin_line(&line);
            put_flag(&line);
            for (unsigned i = 0; i + 1 < flags; i++)
                if ((shares >> i & 1) != 0)
                    put_shared_flag(&line);
                else
                    put_flag(&line);
            put_content(&line, content, data_len + 3);
            put_flag(&line);
            expect_content(read_line(&line, SHORT), content, data_len);
        }
}

/* Flags alone, however many, are no frame. */
static void flags_alone(void)
{
    begin_line(&line);
    put_flag(&line);
    for (unsigned i = 0; i < 20; i++) {
        read_line(&line, SHORT);
        expect_refusal(18);
        if (rng_one_in(&rng, 2))
            put_shared_flag(&line);
        else
            put_flag(&line);
    }
}

/* So many ones put in at each place. Seven stop it from the opening
 * flag to the closing one; within the opening one they spoil it. */
static void ones_put_in(unsigned ones)
{
    static struct line with;
    short_frame(&line);
    for (size_t i = 0; i <= line.count; i++) {
        begin_line(&with);
        put_bits(&with, &line, 0, i);
        put_ones(&with, ones);
        put_bits(&with, &line, i, line.count);
        read_line(&with, SHORT);
        if (ones >= 7)
            expect_refusal(i < 8 ? 18 : i < line.count - 8 ? 19 : 0);
    }
}

/* Five ones before the flag without their zero are read as with it. */
static void five_ones_last(void)
{
    data_len = 1 + rng_below(&rng, SHORT);
    draw_last_five(content, data_len + 3);
    begin_line(&line);
    put_flag(&line);
    put_content(&line, content, data_len + 3);
    line.count--;
    put_flag(&line);
    expect_content(read_line(&line, SHORT), content, data_len);
}

/* ---- contents that are none ---- */

/* A content between flags, with any bits more at its end; what it is refused. */
static void content_gives(size_t len, unsigned extra, size_t room, unsigned refusal)
{
    begin_line(&line);
    put_flag(&line);
    put_content(&line, content, len);
    for (unsigned i = 0; i < extra; i++)
        put_content_bit(&line, rng_below(&rng, 2));
    put_flag(&line);
    read_line(&line, room);
    expect_refusal(refusal);
}

/* 20 before all others, then 21 and 17, whether the check is good or not, then
 * 22, then 13. */
static void content_of(size_t len, enum shape shape)
{
    unsigned refusal = len < 4 ? 21 : len > DATA_MOST + 3 ? 17 : 0;
    size_t room = len < 4 || len > DATA_MOST + 3 ? DATA_MOST + 40 : len - 3;
    fill(content, len, shape);
    if (len >= 2)
        add_check(content, len);
    content_gives(len, 0, room, refusal);
    if (refusal == 0)
        content_gives(len, 0, room - 1, 13);
    else
        content_gives(len, 0, 0, refusal);
    content_gives(len, 1 + rng_below(&rng, 7), rng_one_in(&rng, 2) ? 0 : room, 20);
    content[rng_below(&rng, (unsigned)len)] ^= (uint8_t)(1u << rng_below(&rng, 8));
    content_gives(len, 0, rng_one_in(&rng, 2) ? 0 : room, refusal != 0 ? refusal : 22);
}

static void contents(void)
{
    for (unsigned shape = 0; shape < LAST_FIVE; shape++) {
        for (size_t len = 1; len <= 8; len++)
            content_of(len, (enum shape)shape);
        for (size_t len = DATA_MOST; len <= DATA_MOST + 6; len++)
            content_of(len, (enum shape)shape);
    }
    content_of(ROOM - 1, RANDOM);
}

/* Every number of bits up to five bytes and some. */
static void few_bits(void)
{
    fill(content, 8, (enum shape)rng_below(&rng, LAST_FIVE));
    for (unsigned bits = 1; bits <= 44; bits++) {
        begin_line(&line);
        put_flag(&line);
        for (unsigned i = 0; i < bits; i++)
            put_content_bit(&line, content[i / 8] >> i % 8 & 1);
        put_flag(&line);
        read_line(&line, SHORT);
        if (bits % 8 != 0)
            expect_refusal(20);
        else if (bits < 32)
            expect_refusal(21);
    }
}

/* ---- bit counts past the bytes ---- */

/* Counts that are a good one where bits of a number are cut off. */
static void counts_past(void)
{
    short_frame(&line);
    size_t len = bytes_for(line.count);
    const size_t high[] = { (size_t)1 << 16, (size_t)1 << 31, (size_t)1 << 32, (size_t)1 << 60,
        (size_t)1 << 61, (size_t)1 << 62, (size_t)1 << 63, (size_t)3 << 61, (size_t)7 << 61 };
    lend_line(&line, len);
    for (size_t over = 1; over <= 40; over++) {
        read_lent(len, 8 * len + over, SHORT);
        expect_refusal(18);
        read_lent(len, SIZE_MAX - (over - 1), SHORT);
        expect_refusal(18);
    }
    for (unsigned i = 0; i < sizeof high / sizeof *high; i++)
        for (size_t count = 0; count <= 8 * len + 1; count++) {
            read_lent(len, high[i] + count, SHORT);
            expect_refusal(18);
            read_lent(len, high[i] - 1 - count, SHORT);
            expect_refusal(18);
        }
}

/* The bits are all there, and fewer bytes are lent than they need. */
static void bytes_short(void)
{
    short_frame(&line);
    size_t len = bytes_for(line.count);
    lend_line(&line, len);
    for (size_t fewer = 0; fewer < len; fewer++) {
        read_lent(fewer, line.count, SHORT);
        expect_refusal(18);
        read_lent(fewer, 8 * fewer, SHORT);
        expect_refusal(8 * fewer < line.count - 8 ? 18 : 0);
    }
}

/* ---- any bits behind a flag ---- */

static void any_piece(void)
{
    unsigned dense = 1 + rng_below(&rng, 9);
    switch (rng_below(&rng, 8)) {
    case 0:  put_flag(&line); break;
    case 1:  put_shared_flag(&line); break;
    case 2:  put_ones(&line, 4 + rng_below(&rng, 4)); break;
    case 3:  put_content(&line, content, data_len + 3); break;
    case 4:
        make_content(content, data_len = 1 + rng_below(&rng, 30), (enum shape)rng_below(&rng, SHAPES));
        put_content(&line, content, data_len + 3);
        break;
    default:
        for (unsigned i = rng_below(&rng, 70); i > 0; i--)
            put_bit(&line, rng_below(&rng, 10) < dense);
        break;
    }
}

static void any_bits(void)
{
    begin_line(&line);
    put_flag(&line);
    for (unsigned i = rng_below(&rng, 7); i > 0; i--)
        any_piece();
    if (rng_one_in(&rng, 3))
        put_flag(&line);
    if (rng_one_in(&rng, 40))
        flip(&line, rng_below(&rng, 8));
    read_line(&line, rng_one_in(&rng, 4) ? rng_below(&rng, 30) : 30);
}

/* Of all first bytes only 7E begins a frame. */
static void first_bytes(void)
{
    short_frame(&line);
    for (unsigned first = 0; first < 256; first++) {
        line.bytes[0] = (uint8_t)first;
        line.bytes[1] = rng_one_in(&rng, 2) ? 0x7E : rng_byte(&rng);
        read_line(&line, SHORT);
        if (first != 0x7E)
            expect_refusal(18);
    }
}

/* ---- frames that the master serves from the line ---- */

static struct site site, bad;
static struct tables tables;
static struct frame frame;

/* A frame to a user number, on the line. */
static void frame_to(uint8_t user, const uint8_t *data, size_t len)
{
    content[0] = user;
    memcpy(content + 1, data, len);
    add_check(content, len + 3);
    begin_line(&line);
    put_frame(&line, content, len + 3);
}

/* It came to somebody else: told as such, whatever else stands there. */
static void for_another(uint32_t number, uint8_t user)
{
    frame_to(user, frame.bytes, frame.len);
    uint64_t answer = serve_line(number, &line);
    expect_refusal(0);
    expect(hinet_answer_kind(answer) == HINET_KIND_LINE, "served what is for another");
    expect(hinet_answer_line_user(answer) == user, "not the user number");
    expect(hinet_answer_line_length(answer) == frame.len, "not the data length");
}

/* Spoils the line, each way that has a refusal of its own, which comes before
 * those of the master. */
static void spoiled(uint32_t number)
{
    static const unsigned refusals[] = { 18, 18, 19, 20, 21, 22 };
    unsigned kind = rng_below(&rng, 6);
    frame_to(0, frame.bytes, frame.len);
    switch (kind) {
    case 0: line.bytes[0] = 0x7C; break;
    case 1: line.count = 16 + rng_below(&rng, (unsigned)line.count - 24); break;
    case 2: begin_line(&line); put_flag(&line); put_ones(&line, 7); break;
    case 3: begin_line(&line); put_flag(&line); put_content_bit(&line, 0); put_flag(&line); break;
    case 4: begin_line(&line); put_frame(&line, content, 1 + rng_below(&rng, 3)); break;
    default:
        content[rng_below(&rng, (unsigned)frame.len + 3)] ^= (uint8_t)(1u << rng_below(&rng, 8));
        begin_line(&line);
        put_frame(&line, content, frame.len + 3);
        break;
    }
    serve_line(number, &line);
    expect_refusal(refusals[kind]);
}

/* Data of any length, with the code of a frame or without: 17, or what the
 * master says of it. */
static void long_data(uint32_t number)
{
    static const size_t lens[] = { 19, 20, 21, 22, 255, 256, 257, 271, 1023, 1024, 1025, 1100 };
    static uint8_t data[ROOM];
    size_t len = RNG_PICK(&rng, lens);
    rng_bytes(&rng, data, len);
    memcpy(data, frame.bytes, frame.len < len ? frame.len : len);
    frame_to(0, data, len);
    serve_line(number, &line);
    if (len > DATA_MOST)
        expect_refusal(17);
}

/* A frame as the moods draw it; one in a few is lost or for another. */
static void line_step(enum mood mood)
{
    uint32_t number = next_frame(&rng, mood, &site, desk.ref_locks, desk.ref_stations, &frame);
    if (frame.len == 0)
        return;
    if (rng_one_in(&rng, 8))
        spoiled(number);
    if (rng_one_in(&rng, 8))
        for_another(number, rng_one_in(&rng, 2) ? rng_nonzero(&rng) : (uint8_t)(number | 1));
    if (rng_one_in(&rng, 60))
        long_data(number);
    frame_to(0, frame.bytes, frame.len);
    serve_line(number, &line);
}

/* A bad site file, then bad tables: 10 and 11 where it is for the master, and
 * nothing of it where the line is bad or the frame is for another. */
static void bad_memory(void)
{
    uint32_t number = number_logged_in(&rng, desk.ref_stations);
    struct site_fault fault =
        site_damaged(&rng, &bad, (enum site_damage)rng_below(&rng, SITE_DAMAGES));
    frame_good(&rng, &frame, RNG_PICK(&rng, codes), number, &site);
    desk_put_site(&bad);
    spoiled(number);
    for_another(number, rng_nonzero(&rng));
    frame_to(0, frame.bytes, frame.len);
    serve_line(number, &line);
    expect_fault(fault.part, fault.row, fault.breach);
    tables_damaged(&rng, &tables, (enum tables_damage)rng_below(&rng, TABLES_DAMAGES));
    desk_put_tables(&tables);
    spoiled(number);
    for_another(number, rng_nonzero(&rng));
    frame_to(0, frame.bytes, frame.len);
    serve_line(number, &line);
    expect_refusal(11);
}

static void bad_memories(void)
{
    for (unsigned i = 0; i < 60; i++) {
        site_any(&rng, &site);
        tables_any(&rng, &tables);
        desk_put_tables(&tables);
        bad_memory();
    }
    for (unsigned breaches = 2; breaches <= BROKEN_ALL; breaches += 2) {
        struct site_fault fault = site_row_broken(&rng, &bad, breaches);
        tables_played(&rng, &tables, 2, 2);
        desk_put_tables(&tables);
        desk_put_site(&bad);
        frame_to(0, frame.bytes, frame.len);
        serve_line(0, &line);
        expect_fault(fault.part, fault.row, fault.breach);
    }
}

/* From fresh tables, and from full ones halfway. */
static void run(unsigned steps)
{
    enum mood mood = MOOD_LOGINS;
    tables_played(&rng, &tables, 0, 0);
    desk_put_tables(&tables);
    desk_fresh();
    for (unsigned i = 0; i < steps; i++) {
        if (i % 400 == 0) {
            site_any(&rng, &site);
            desk_put_site(&site);
        }
        if (i == steps / 2) {
            tables_played(&rng, &tables, 63, 64);
            desk_put_tables(&tables);
            mood = MOOD_LOCKS;
        }
        if (rng_one_in(&rng, 120))
            mood = (enum mood)rng_below(&rng, MOODS);
        line_step(mood);
    }
}

static void one_round(void)
{
    vectors();
    lengths_and_shapes();
    for (unsigned i = 0; i < 8; i++) {
        flips();
        cuts();
        what_comes_after();
        flags_before();
        flags_alone();
        for (unsigned ones = 1; ones <= 9; ones++)
            ones_put_in(ones);
        five_ones_last();
        few_bits();
        bytes_short();
        first_bytes();
    }
    contents();
    counts_past();
    for (unsigned i = 0; i < 6000; i++)
        any_bits();
    bad_memories();
    run(3000);
}

int main(int argc, char **argv)
{
    struct rounds rounds = rounds_from(argc, argv, ROUNDS);
    trace.driver = "drive_line";
    trace.seed = SEED;
    for (trace.round = rounds.first; trace.round < rounds.end; trace.round++) {
        trace.step = 0;
        rng = rng_from(((uint64_t)SEED << 32) + trace.round);
        one_round();
    }
    return report(ENTRY_LINE_WRITE, ENTRY_LINE_FRAME);
}
