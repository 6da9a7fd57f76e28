/* A worked example: a station and a master that talk in bits, over a line that
 * spoils some. Each frame goes out by hinet_line_write and comes in by
 * hinet_line_frame at the master, by hinet_line_read at the station. */
#include "hinet.h"

#include <stdio.h>

static uint8_t locks[HINET_LOCKS_BYTES];        /* the master's memory */
static uint8_t stations[HINET_STATIONS_BYTES];
static uint8_t state[HINET_STATE_BYTES];        /* the station's memory */
static uint8_t number;                          /* the station's number */

/* A site file with no users and no partitions. */
static const uint8_t site[] = { 0x00, 0x00, 0x08, 0x00, 0x00, 0x00, 0x08, 0x00 };

static const uint8_t string_a[HINET_LOCKSTRING_BYTES] = { 1, 'A' };

/* ---- the line ---- */

static uint8_t line[HINET_LINE_BYTES_MOST];     /* holds any frame */
static size_t line_bits;

static void transmit(const char *who, uint8_t user, const uint8_t *data, size_t len)
{
    uint64_t written = hinet_line_write(user, data, len, line, sizeof line);
    if (hinet_answer_refusal(written) != 0) {
        printf("%s: %s\n", who, hinet_refusal_text(hinet_answer_refusal(written)));
        return;
    }
    line_bits = hinet_answer_bit_count(written);
    printf("%s to %u: length %u, %u bits\n", who, user, (unsigned)len, (unsigned)line_bits);
}

static void flip_bit(size_t i)
{
    line[i / 8] ^= (uint8_t)(1u << i % 8);
    printf("  on the line bit %u is flipped\n", (unsigned)i);
}

static void cut_short(size_t bits)
{
    line_bits = bits;
    printf("  on the line only %u bits get through\n", (unsigned)bits);
}

/* ---- the master ---- */

static void print_held(void)
{
    unsigned held = 0;
    for (unsigned i = 0; i < HINET_LOCK_ROWS; i++)
        held += hinet_row_owner(locks, i) != HINET_NO_OWNER;
    printf("locks held: %u\n", held);
}

static const char *status_text(uint8_t status)
{
    switch (status) {
    case HINET_STATUS_DONE:  return "done";
    case HINET_STATUS_TAKEN: return "held by another";
    case HINET_STATUS_HELD:  return "held by the sender already";
    case HINET_STATUS_FULL:  return "no free row";
    default:                 return "no";
    }
}

/* What the master did with the bits. The refusal comes first, then the kind. */
static void print_answer(uint64_t answer)
{
    printf("  master ");
    if (hinet_answer_refusal(answer) != 0)
        printf("refuses: %s", hinet_refusal_text(hinet_answer_refusal(answer)));
    else if (hinet_answer_kind(answer) == HINET_KIND_LINE)
        printf("passes over a frame to %u, length %u", hinet_answer_line_user(answer),
               hinet_answer_line_length(answer));
    else if (hinet_answer_kind(answer) == HINET_KIND_LOGIN)
        printf("gives number %u", hinet_answer_login_number(answer));
    else if (hinet_answer_kind(answer) == HINET_KIND_STATUS)
        printf("serves it: %s", status_text(hinet_answer_status(answer)));
    printf("; ");
    print_held();
}

/* The master takes what came on the line when it polled this number. */
static uint64_t master_hears(uint32_t polled)
{
    uint64_t answer = hinet_line_frame(polled, line, sizeof line, line_bits, site, sizeof site,
                                       locks, sizeof locks, stations, sizeof stations);
    print_answer(answer);
    return answer;
}

/* Sends a status back to the station that asked, and tells whether there is
 * one. A refused frame has none. */
static int master_replies(uint64_t answer)
{
    if (hinet_answer_refusal(answer) != 0 || hinet_answer_kind(answer) != HINET_KIND_STATUS)
        return 0;
    uint8_t status = hinet_answer_status(answer);
    transmit("master", number, &status, 1);
    return 1;
}

/* ---- the station ---- */

static void log_in(void)
{
    static const uint8_t name[HINET_NAME_BYTES] = { 'B', 'E', 'T', 'T', 'Y', ' ', ' ', ' ' };
    static const uint8_t password[HINET_PASSWORD_BYTES] = { 'S', 'E', 'C', 'R', 'E', 'T' };
    static const uint8_t serial[HINET_SERIAL_BYTES] = { 0x12, 0x34, 0x56, 0x78 };
    uint8_t frame[HINET_LENGTH_LOGIN];
    uint64_t written = hinet_write_login(name, password, serial, 5, frame, sizeof frame);
    transmit("station", HINET_LINE_MASTER, frame, hinet_answer_length(written));
    number = hinet_answer_login_number(master_hears(HINET_NUMBER_LOGIN));
    hinet_station_fresh(state, sizeof state);
}

/* Sends the frame whose reply it awaits. */
static void station_sends(void)
{
    uint8_t frame[HINET_LENGTH_MOST];
    uint64_t written = hinet_station_frame(state, sizeof state, frame, sizeof frame);
    transmit("station", HINET_LINE_MASTER, frame, hinet_answer_length(written));
}

/* Reads the line, and takes a reply that is its own: one byte. */
static void station_hears(void)
{
    uint8_t data[HINET_LENGTH_MOST];
    uint64_t read = hinet_line_read(line, sizeof line, line_bits, data, sizeof data);
    unsigned refusal = hinet_answer_refusal(read);
    if (refusal != 0) {
        printf("  station refuses: %s\n", hinet_refusal_text(refusal));
    } else if (hinet_answer_line_user(read) != number) {
        printf("  station passes over a frame to %u\n", hinet_answer_line_user(read));
    } else if (hinet_answer_line_length(read) == 1) {
        hinet_station_reply(state, sizeof state, data[0]);
        printf("  station takes it: %s\n", status_text(data[0]));
    }
}

static void show_list(void)
{
    unsigned listed = 0;
    for (unsigned i = 0; i < HINET_STATE_PLACES; i++)
        listed += hinet_lockstring_length(hinet_state_lockstring(state, i)) != 0;
    printf("locks listed: %u, %s\n", listed,
           hinet_state_awaited(state) != 0 ? "a reply is awaited" : "nothing is awaited");
}

/* ---- the example ---- */

/* A bit of the request is flipped: it is not served, and no reply comes. */
static void request_spoiled(void)
{
    hinet_station_lock(state, sizeof state, string_a);
    show_list();
    station_sends();
    flip_bit(30);
    if (!master_replies(master_hears(number)))
        printf("  no reply\n");
}

/* The same frame again: it is served, and the reply is cut short. */
static void reply_cut(void)
{
    station_sends();
    if (master_replies(master_hears(number))) {
        cut_short(line_bits - 20);
        station_hears();
    }
    show_list();
}

/* Once more, with nothing spoiled. */
static void settled(void)
{
    station_sends();
    if (master_replies(master_hears(number)))
        station_hears();
    show_list();
}

/* Both hear a frame for another station, and leave it alone. */
static void for_another(void)
{
    static const uint8_t poll = 0x50;
    transmit("master", 2, &poll, 1);
    station_hears();
    master_hears(number);
}

/* A station that awaits nothing has no data to send. A sender that stops in
 * the middle leaves ones, and so does a quiet line. */
static void no_frame(void)
{
    station_sends();
    for (unsigned i = 2; i < 8; i++)
        line[i] = 0xFF;
    printf("  on the line the sender stops, with ones\n");
    station_hears();
    line[0] = 0xFF;
    printf("  on the line there are ones alone\n");
    station_hears();
}

int main(void)
{
    hinet_fresh(locks, sizeof locks, stations, sizeof stations);
    log_in();
    request_spoiled();
    reply_cut();
    settled();
    for_another();
    no_frame();
    return 0;
}
