/*
 * A worked example: the main loop of a box, over a made-up wire with three
 * stations. One of them falls silent. In which turns it is then polled, and
 * when it is logged out, only the library knows. Another one is reset and logs
 * in again: its old number is then out without a turn that says so.
 */
#include "hinet.h"

#include <stdio.h>
#include <stdlib.h>
#include <string.h>

static uint8_t locks[HINET_LOCKS_BYTES];
static uint8_t stations[HINET_STATIONS_BYTES];
static unsigned rounds;

/* A site file with no users and no partitions. */
static const uint8_t site[] = { 0x00, 0x00, 0x08, 0x00, 0x00, 0x00, 0x08, 0x00 };

/* Prints what happens at a number, but not the same thing twice running. */
static void tell(uint32_t number, const char *what)
{
    static const char *last[HINET_NUMBER_LOGIN + 1];
    if (last[number] != what)
        printf("round %4u, number %u: %s\n", rounds, (unsigned)number, what);
    last[number] = what;
}

/* ---- the made-up wire ---- */

enum { RESET = 1320 };          /* the round in which the second station is reset */

/* The serials of the logins, in their order. The last one is the second
 * station's again. */
static const uint8_t serials[][HINET_SERIAL_BYTES] = {
    { 0x12, 0x34, 0x56, 0x01 }, { 0x12, 0x34, 0x56, 0x02 }, { 0x12, 0x34, 0x56, 0x03 },
    { 0x12, 0x34, 0x56, 0x02 }
};
static unsigned logins;         /* so many of them were answered */
static int over;                /* the third station has the lock */

static int wants_login(void)
{
    return logins < 3 || (logins == 3 && rounds == RESET);
}

/* The stations at 1 and 2 want the same lock, that at 3 wants it later. */
static int wants_lock(uint32_t number)
{
    switch (number) {
    case 1:  return rounds <= 3;
    case 2:  return rounds < RESET;
    case 3:  return rounds > 1316;
    default: return 0;
    }
}

/* Polls a number: the length of the frame heard before the time-out, or 0. The
 * third station wants to read before it wants the lock; the second, after its
 * reset, only acknowledges. */
static size_t wire_poll(uint32_t number, uint8_t *frame, size_t len)
{
    static const uint8_t name[HINET_NAME_BYTES] = { 'B', 'E', 'T', 'T', 'Y', ' ', ' ', ' ' };
    static const uint8_t password[HINET_PASSWORD_BYTES] = { 'S', 'E', 'C', 'R', 'E', 'T' };
    static const uint8_t stock[HINET_LOCKSTRING_BYTES] = { 5, 'S', 'T', 'O', 'C', 'K' };
    uint64_t written = 0;
    if (number == HINET_NUMBER_LOGIN && wants_login())
        written = hinet_write_login(name, password, serials[logins], 5, frame, len);
    else if (wants_lock(number))
        written = hinet_write_lock(stock, frame, len);
    else if (number == 3)
        written = hinet_write_read(number, hinet_volume_of(1), hinet_partition_of(0),
                                   hinet_track_of(15), hinet_sector_of(128), frame, len);
    else if (number == 1 && rounds > RESET)
        written = hinet_write_acknowledge(frame, len);
    return hinet_answer_length(written);
}

/* Does the station still wait for its answer? Once the box is too slow. */
static int wire_waits(uint32_t number)
{
    return number != 1 || rounds != 2;
}

/* The station gets the status of its lock. */
static void wire_status(uint32_t number, uint8_t status)
{
    switch (status) {
    case HINET_STATUS_DONE:  tell(number, "gets the lock"); over = number == 3; break;
    case HINET_STATUS_HELD:  tell(number, "has the lock already"); break;
    case HINET_STATUS_TAKEN: tell(number, "another has the lock"); break;
    default:                 tell(number, "no such status"); exit(1);
    }
}

/* The station gets its answer. */
static void wire_send(uint32_t number, uint64_t answer)
{
    switch (hinet_answer_kind(answer)) {
    case HINET_KIND_NONE:
        tell(number, "acknowledges");
        break;
    case HINET_KIND_LOGIN:
        logins++;
        tell(hinet_answer_login_number(answer), "logs in");
        break;
    case HINET_KIND_STATUS:
        wire_status(number, hinet_answer_status(answer));
        break;
    default:
        tell(number, "no such answer");
        exit(1);
    }
}

/* ---- the box ---- */

/* Serves a frame. Its answer is sent in this exchange or never. */
static void serve(uint32_t number, const uint8_t *frame, size_t len)
{
    uint64_t answer = hinet_frame(number, frame, len, site, sizeof site,
                                  locks, sizeof locks, stations, sizeof stations);
    if (hinet_answer_refusal(answer) != 0)
        tell(number, hinet_refusal_text(hinet_answer_refusal(answer)));
    else if (wire_waits(number))
        wire_send(number, answer);
    else
        tell(number, "the answer is late and is dropped");
}

/* Serves a login. It may log other numbers out, and its answer does not say
 * which; the records do. An old number that is given again is in the answer. */
static void serve_login(const uint8_t *frame, size_t len)
{
    uint8_t before[HINET_STATIONS_BYTES];
    memcpy(before, stations, sizeof before);
    serve(HINET_NUMBER_LOGIN, frame, len);
    for (uint32_t number = 1; number <= HINET_NUMBER_LAST; number++)
        if (hinet_record_logged_in(before, number) && !hinet_record_logged_in(stations, number))
            tell(number, "is logged out by that");
}

/* A turn of a station that is logged in. What hinet_due refuses, hinet_poll
 * refuses too. */
static void turn(uint32_t number)
{
    uint8_t frame[HINET_LENGTH_MOST];
    size_t len = 0;
    if (hinet_answer_due(hinet_due(number, locks, sizeof locks, stations, sizeof stations)))
        len = wire_poll(number, frame, sizeof frame);
    else
        tell(number, "is not due");
    uint64_t answer = hinet_poll(number, len != 0, locks, sizeof locks, stations, sizeof stations);
    if (hinet_answer_refusal(answer) != 0) {
        tell(number, hinet_refusal_text(hinet_answer_refusal(answer)));
        exit(1);                /* the tables are no longer good */
    }
    if (hinet_answer_out(answer))
        tell(number, "is logged out");
    if (len != 0)
        serve(number, frame, len);
}

/* Who is in is asked of the records in each round, and kept nowhere else. */
int main(void)
{
    uint8_t frame[HINET_LENGTH_MOST];
    hinet_fresh(locks, sizeof locks, stations, sizeof stations);
    for (rounds = 1; !over && rounds < 5000; rounds++) {
        for (uint32_t number = 1; number <= HINET_NUMBER_LAST; number++)
            if (hinet_record_logged_in(stations, number))
                turn(number);
        size_t len = wire_poll(HINET_NUMBER_LOGIN, frame, sizeof frame);
        if (len != 0)
            serve_login(frame, len);
    }
    return 0;
}
