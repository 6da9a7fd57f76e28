/*
 * Compares the library with the reference: request frames read and written by
 * themselves. What is written reads back, what reads well is written again,
 * and a disk frame that was written reaches the place of its numbers.
 * Usage: drive_requests [rounds [first round]]
 */
#include "desk.h"
#include "hinet.h"
#include "reference.h"

#include <string.h>

enum { SEED = 41, ROUNDS = 100 };

static struct rng rng;
static struct site site;
static struct tables tables;

/* The commands, their lengths by the rules, and the entries that write them. */
static const struct command {
    uint8_t code;
    size_t length;
    enum entry entry;
} commands[CODES] = {
    { 0x41, 1, ENTRY_WRITE_ACKNOWLEDGE },
    { 0x11, 8, ENTRY_WRITE_READ },
    { 0x12, 8, ENTRY_WRITE_WRITE },
    { 0x13, 20, ENTRY_WRITE_LOGIN },
    { 0x17, 15, ENTRY_WRITE_ASSIGN },
    { 0x19, 15, ENTRY_WRITE_LOCK },
    { 0x1A, 15, ENTRY_WRITE_UNLOCK },
    { 0x1B, 1, ENTRY_WRITE_CLEAR },
    { 0x1F, 2, ENTRY_WRITE_LOGOUT }
};

/* The command of a code, or NULL. */
static const struct command *command_of(uint8_t code)
{
    for (unsigned k = 0; k < CODES; k++)
        if (commands[k].code == code)
            return &commands[k];
    return NULL;
}

/* A command and the fields of all commands. */
struct request {
    const struct command *command;
    uint32_t src, volume, partition, track, sector;
    uint8_t name[8], password[6], serial[4], product, string[14];
};

/* ---- numbers and requests ---- */

static const uint32_t edges[] = {
    0, 1, 2, 3, 4, 62, 63, 64, 127, 128, 129, 253, 254, 255, 256, 257, 319, 509, 511, 512,
    65534, 65535, 65536, 65537, 0x01000001u, 0x80000000u, 0xFFFF0001u, 0xFFFFFF01u, 0xFFFFFFFFu
};
enum { EDGES = sizeof edges / sizeof *edges };

static uint32_t any_number(void)
{
    switch (rng_below(&rng, 8)) {
    case 0:  return (uint32_t)rng_next(&rng);
    case 1:  return rng_below(&rng, 65536);
    case 2:
    case 3:  return rng_below(&rng, 256);
    default: return RNG_PICK(&rng, edges);
    }
}

static struct request any_request(const struct command *command)
{
    struct request q = { .command = command };
    q.src = any_number();
    q.volume = any_number();
    q.partition = any_number();
    q.track = any_number();
    q.sector = any_number();
    q.product = rng_byte(&rng);
    rng_bytes(&rng, q.name, sizeof q.name);
    rng_bytes(&rng, q.password, sizeof q.password);
    rng_bytes(&rng, q.serial, sizeof q.serial);
    rng_bytes(&rng, q.string, sizeof q.string);
    if (rng_one_in(&rng, 2))
        any_string(&rng, q.string);
    return q;
}

/* ---- calls ---- */

static struct lent lent_frame, lent_name, lent_password, lent_serial, lent_string, lent_buffer;
static uint8_t ref_buffer[LENT_MOST];

static uint64_t read_frame(const uint8_t *frame, size_t len)
{
    struct call call = { .entry = ENTRY_READ_FRAME, .parts = 1, .part = {
        { "frame", &lent_frame, NULL }
    } };
    lend(&lent_frame, frame, len);
    call.library = hinet_read_frame(lent_frame.bytes, len);
    call.reference = ref_read_frame(frame, len);
    check_call(&call);
    return call.library;
}

static void add_number(struct call *call, uint32_t number)
{
    call->number[call->numbers++] = number;
}

static void add_bytes(struct call *call, const char *name, struct lent *lent,
                      const uint8_t *bytes, size_t len)
{
    struct part part = { name, lent, NULL };
    lend(lent, bytes, len);
    call->part[call->parts++] = part;
}

/* Lends the fields that the command has. */
static void add_fields(struct call *call, const struct request *q)
{
    switch (q->command->code) {
    case CODE_READ:
    case CODE_WRITE:
        add_number(call, q->src);
        add_number(call, q->volume);
        add_number(call, q->partition);
        add_number(call, q->track);
        add_number(call, q->sector);
        break;
    case CODE_LOGIN:
    case CODE_ASSIGN:
        add_bytes(call, "name", &lent_name, q->name, 8);
        add_bytes(call, "password", &lent_password, q->password, 6);
        if (q->command->code == CODE_ASSIGN)
            break;
        add_bytes(call, "serial", &lent_serial, q->serial, 4);
        add_number(call, q->product);
        break;
    case CODE_LOCK:
    case CODE_UNLOCK:
        add_bytes(call, "lockstring", &lent_string, q->string, 14);
        break;
    case CODE_LOGOUT:
        add_number(call, q->src);
        break;
    }
}

/* The library writes a request whose fields are lent. */
static uint64_t library_writes(const struct request *q, uint8_t *buffer, size_t len)
{
    hinet_volume volume = hinet_volume_of(q->volume);
    hinet_partition partition = hinet_partition_of(q->partition);
    hinet_track track = hinet_track_of(q->track);
    hinet_sector sector = hinet_sector_of(q->sector);
    switch (q->command->code) {
    case CODE_ACKNOWLEDGE:
        return hinet_write_acknowledge(buffer, len);
    case CODE_READ:
        return hinet_write_read(q->src, volume, partition, track, sector, buffer, len);
    case CODE_WRITE:
        return hinet_write_write(q->src, volume, partition, track, sector, buffer, len);
    case CODE_LOGIN:
        return hinet_write_login(lent_name.bytes, lent_password.bytes, lent_serial.bytes,
                                 q->product, buffer, len);
    case CODE_ASSIGN:
        return hinet_write_assign(lent_name.bytes, lent_password.bytes, buffer, len);
    case CODE_LOCK:
        return hinet_write_lock(lent_string.bytes, buffer, len);
    case CODE_UNLOCK:
        return hinet_write_unlock(lent_string.bytes, buffer, len);
    case CODE_CLEAR:
        return hinet_write_clear(buffer, len);
    default:
        return hinet_write_logout(q->src, buffer, len);
    }
}

static uint64_t reference_writes(const struct request *q, uint8_t *buffer, size_t len)
{
    switch (q->command->code) {
    case CODE_ACKNOWLEDGE:
        return ref_write_acknowledge(buffer, len);
    case CODE_READ:
        return ref_write_read(q->src, q->volume, q->partition, q->track, q->sector, buffer, len);
    case CODE_WRITE:
        return ref_write_write(q->src, q->volume, q->partition, q->track, q->sector, buffer, len);
    case CODE_LOGIN:
        return ref_write_login(q->name, q->password, q->serial, q->product, buffer, len);
    case CODE_ASSIGN:
        return ref_write_assign(q->name, q->password, buffer, len);
    case CODE_LOCK:
        return ref_write_lock(q->string, buffer, len);
    case CODE_UNLOCK:
        return ref_write_unlock(q->string, buffer, len);
    case CODE_CLEAR:
        return ref_write_clear(buffer, len);
    default:
        return ref_write_logout(q->src, buffer, len);
    }
}

/* Writes a request into a buffer of some bytes; 13 exactly when it is short. */
static uint64_t write_frame(const struct request *q, size_t len)
{
    struct call call = { .entry = q->command->entry };
    struct part part = { "buffer", &lent_buffer, ref_buffer };
    add_fields(&call, q);
    rng_bytes(&rng, ref_buffer, len);
    lend(&lent_buffer, ref_buffer, len);
    call.part[call.parts++] = part;
    call.library = library_writes(q, lent_buffer.bytes, len);
    call.reference = reference_writes(q, ref_buffer, len);
    check_call(&call);
    expect_refusal(len < q->command->length ? 13 : 0);
    return call.library;
}

/* ---- buffers of all lengths ---- */

static void buffers(const struct command *command)
{
    static const size_t long_ones[] = { 32, 64, 255, 256, 257, 1024, LENT_MOST };
    for (size_t len = 0; len <= command->length + 3; len++) {
        struct request q = any_request(command);
        write_frame(&q, len);
    }
    struct request q = any_request(command);
    write_frame(&q, RNG_PICK(&rng, long_ones));
}

/* ---- what is written reads back ---- */

static uint32_t at_most(uint32_t most, uint32_t number)
{
    return number > most ? most : number;
}

static void disk_reads_back(const struct request *q, const uint8_t *frame)
{
    expect(hinet_request_src(frame) == at_most(255, q->src), "src reads back");
    expect(hinet_request_volume(frame).number == at_most(255, q->volume), "volume reads back");
    expect(hinet_request_partition(frame).number == at_most(255, q->partition),
           "partition reads back");
    expect(hinet_request_track(frame).number == at_most(65535, q->track), "track reads back");
    expect(hinet_request_sector(frame).number == at_most(255, q->sector), "sector reads back");
}

static void names_read_back(const struct request *q, const uint8_t *frame)
{
    expect(memcmp(hinet_request_name(frame), q->name, 8) == 0, "name reads back");
    expect(memcmp(hinet_request_password(frame), q->password, 6) == 0, "password reads back");
    if (q->command->code != CODE_LOGIN)
        return;
    expect(memcmp(hinet_request_serial(frame), q->serial, 4) == 0, "serial reads back");
    expect(hinet_request_product(frame) == q->product, "product reads back");
}

static void fields_read_back(const struct request *q, const uint8_t *frame)
{
    switch (q->command->code) {
    case CODE_READ:
    case CODE_WRITE:
        disk_reads_back(q, frame);
        break;
    case CODE_LOGIN:
    case CODE_ASSIGN:
        names_read_back(q, frame);
        break;
    case CODE_LOCK:
    case CODE_UNLOCK:
        expect(memcmp(hinet_request_lockstring(frame), q->string, 14) == 0, "string reads back");
        break;
    case CODE_LOGOUT:
        expect(hinet_request_src(frame) == at_most(255, q->src), "src reads back");
        break;
    }
}

static void reads_back(const struct request *q)
{
    uint64_t written = write_frame(q, q->command->length + rng_below(&rng, 4));
    expect(hinet_answer_kind(written) == HINET_KIND_WRITTEN, "kind of a frame written");
    expect(hinet_answer_length(written) == q->command->length, "length of a frame written");
    uint64_t read = read_frame(lent_buffer.bytes, hinet_answer_length(written));
    expect_refusal(0);
    expect(hinet_answer_kind(read) == HINET_KIND_REQUEST, "kind of a frame read");
    expect(hinet_answer_code(read) == q->command->code, "code of a frame read");
    fields_read_back(q, lent_frame.bytes);
}

/* ---- what reads well is written again ---- */

/* The fields of a frame, taken by the header's functions. */
static struct request request_in(const struct command *command, const uint8_t *frame)
{
    struct request q = any_request(command);
    switch (command->code) {
    case CODE_READ:
    case CODE_WRITE:
        q.src = hinet_request_src(frame);
        q.volume = hinet_request_volume(frame).number;
        q.partition = hinet_request_partition(frame).number;
        q.track = hinet_request_track(frame).number;
        q.sector = hinet_request_sector(frame).number;
        break;
    case CODE_LOGIN:
    case CODE_ASSIGN:
        memcpy(q.name, hinet_request_name(frame), 8);
        memcpy(q.password, hinet_request_password(frame), 6);
        if (command->code == CODE_ASSIGN)
            break;
        memcpy(q.serial, hinet_request_serial(frame), 4);
        q.product = hinet_request_product(frame);
        break;
    case CODE_LOCK:
    case CODE_UNLOCK:
        memcpy(q.string, hinet_request_lockstring(frame), 14);
        break;
    case CODE_LOGOUT:
        q.src = hinet_request_src(frame);
        break;
    }
    return q;
}

/* A frame reads well exactly when its fields, written, are the frame. */
static void written_again(const struct frame *frame)
{
    const struct command *command = frame->len == 0 ? NULL : command_of(frame->bytes[0]);
    uint64_t read = read_frame(frame->bytes, frame->len);
    int reads = hinet_answer_refusal(read) == 0;
    if (command == NULL) {
        expect(!reads, "read a frame of no command");
        return;
    }
    struct request q = request_in(command, frame->bytes);
    write_frame(&q, command->length);
    int same = frame->len == command->length
        && memcmp(lent_buffer.bytes, frame->bytes, frame->len) == 0;
    expect(reads == same, "reads well and is not written again, or the other way");
    if (reads)
        expect(hinet_answer_code(read) == command->code, "code of a frame read");
}

static void all_codes_and_lengths(void)
{
    struct frame frame;
    for (unsigned code = 0; code < 256; code++)
        for (unsigned len = 0; len <= 25; len++)
            for (unsigned dtn = 0; dtn < 2; dtn++) {
                rng_bytes(&rng, frame.bytes, FRAME_ROOM);
                frame.bytes[0] = (uint8_t)code;
                frame.bytes[1] = dtn == 0 ? 0 : rng_nonzero(&rng);
                frame.len = len;
                written_again(&frame);
            }
}

/* Frames as stations send them, good ones and spoiled ones, and long ones. */
static void frames_of_stations(void)
{
    struct frame frame;
    for (unsigned k = 0; k < CODES; k++)
        for (unsigned faults = 0; faults <= FAULTS_ALL; faults++) {
            frame_good(&rng, &frame, commands[k].code, rng_byte(&rng), &site);
            frame_spoil(&rng, &frame, faults);
            written_again(&frame);
        }
    for (unsigned k = 0; k < CODES; k++) {
        frame_good(&rng, &frame, commands[k].code, rng_byte(&rng), &site);
        frame.len = FRAME_ROOM - rng_below(&rng, 2);
        written_again(&frame);
    }
}

/* ---- a disk frame reaches the place of its numbers ---- */

/* Draws a valid address and gives the first sector of its row. */
static uint32_t valid_address(struct request *q)
{
    const uint8_t *row = site_partition(&site, rng_below(&rng, site_partitions(&site)));
    unsigned tracks = 16u << (row[16] - 1);
    q->volume = row[14];
    q->partition = row[15];
    q->track = rng_one_in(&rng, 3) ? tracks - 1 : rng_below(&rng, tracks);
    q->sector = rng_one_in(&rng, 3) ? 128 : 1 + rng_below(&rng, 128);
    return row[18] | (uint32_t)row[19] << 8 | (uint32_t)row[20] << 16 | (uint32_t)row[21] << 24;
}

/* The frame of a disk request at a number is answered as hinet_place is on the
 * same numbers, or by 7 where src is another. */
static uint64_t served_as_place(const struct request *q, uint32_t number)
{
    struct frame frame;
    frame.len = hinet_answer_length(write_frame(q, FRAME_ROOM));
    memcpy(frame.bytes, lent_buffer.bytes, FRAME_ROOM);
    uint64_t served = desk_frame(number, &frame);
    if (q->src != number) {
        expect_refusal(7);
        return served;
    }
    uint64_t place = desk_place(q->volume, q->partition, q->track, q->sector);
    expect(served == place, "the frame and the place answer differently");
    return served;
}

static void places_of_valid(const struct command *command, uint32_t number)
{
    struct request q = any_request(command);
    uint32_t first = valid_address(&q);
    q.src = number;
    uint64_t answer = served_as_place(&q, number);
    expect(hinet_answer_kind(answer) == HINET_KIND_PLACE, "a valid address has no place");
    expect(hinet_answer_place_volume(answer).number == q.volume, "volume of the place");
    expect(hinet_answer_place_sector(answer) == first + q.track * 128 + q.sector - 1,
           "sector of the place");
}

/* Each field in turn has each edge number; the others are valid. */
static void places_of_edges(const struct command *command, uint32_t number)
{
    for (unsigned e = 0; e < EDGES; e++)
        for (unsigned field = 0; field < 5; field++) {
            struct request q = any_request(command);
            valid_address(&q);
            q.src = number;
            uint32_t *const fields[5] = { &q.src, &q.volume, &q.partition, &q.track, &q.sector };
            *fields[field] = edges[e];
            served_as_place(&q, number);
        }
}

static void places(void)
{
    unsigned volumes = 1 + rng_below(&rng, 4);
    site_good(&rng, &site, 2, 1 + rng_below(&rng, 6), volumes);
    tables_played(&rng, &tables, rng_below(&rng, 64), 3);
    desk_put_site(&site);
    desk_put_tables(&tables);
    uint32_t number = number_logged_in(&rng, tables.stations);
    for (unsigned k = 1; k <= 2; k++) {
        places_of_edges(&commands[k], number);
        for (unsigned i = 0; i < 20; i++) {
            places_of_valid(&commands[k], number);
            struct request q = any_request(&commands[k]);
            q.src = number;
            served_as_place(&q, number);
        }
    }
}

static void one_round(void)
{
    for (unsigned k = 0; k < CODES; k++)
        for (unsigned i = 0; i < 40; i++) {
            struct request q = any_request(&commands[k]);
            buffers(&commands[k]);
            reads_back(&q);
        }
    places();
    all_codes_and_lengths();
    frames_of_stations();
}

int main(int argc, char **argv)
{
    struct rounds rounds = rounds_from(argc, argv, ROUNDS);
    trace.driver = "drive_requests";
    trace.seed = SEED;
    for (trace.round = rounds.first; trace.round < rounds.end; trace.round++) {
        trace.step = 0;
        rng = rng_from(((uint64_t)SEED << 32) + trace.round);
        one_round();
    }
    return report(ENTRY_READ_FRAME, ENTRY_WRITE_LOGOUT);
}
