/* A worked example: a station and a master, lost replies, and a late one. */
#include "hinet.h"

#include <stdio.h>
#include <stdlib.h>

static uint8_t locks[HINET_LOCKS_BYTES];        /* the master's memory */
static uint8_t stations[HINET_STATIONS_BYTES];
static uint8_t state[HINET_STATE_BYTES];        /* the station's memory */
static uint8_t number;                          /* the station's number */
static uint8_t frame[HINET_LENGTH_MOST];        /* the wire */

/* A site file with no users and no partitions. */
static const uint8_t site[] = { 0x00, 0x00, 0x08, 0x00, 0x00, 0x00, 0x08, 0x00 };

static const uint8_t string_a[HINET_LOCKSTRING_BYTES] = { 1, 'A' };
static const uint8_t string_b[HINET_LOCKSTRING_BYTES] = { 1, 'B' };

/* The master serves the frame that was just written. */
static uint64_t serve(uint32_t polled, uint64_t written)
{
    uint64_t answer = hinet_frame(polled, frame, hinet_answer_length(written), site, sizeof site,
                                  locks, sizeof locks, stations, sizeof stations);
    if (hinet_answer_refusal(answer) != 0) {
        printf("%s\n", hinet_refusal_text(hinet_answer_refusal(answer)));
        exit(1);
    }
    return answer;
}

static void print_string(const uint8_t *string)
{
    printf(" %.*s", hinet_lockstring_length(string), (const char *)hinet_lockstring_bytes(string));
}

/* What the station lists, what the master holds for it, and the wait. */
static void show(const char *what)
{
    printf("%-28s listed:", what);
    for (unsigned i = 0; i < HINET_STATE_PLACES; i++)
        if (hinet_lockstring_length(hinet_state_lockstring(state, i)) != 0)
            print_string(hinet_state_lockstring(state, i));
    printf(", held:");
    for (unsigned i = 0; i < HINET_LOCK_ROWS; i++)
        if (hinet_row_owner(locks, i) == number)
            print_string(hinet_row_lockstring(locks, i));
    printf(", awaited: %02X\n", hinet_state_awaited(state));
}

static void show_reply(uint8_t status, const char *what)
{
    char line[32];
    snprintf(line, sizeof line, "  reply %02X is %s", status, what);
    show(line);
}

/* The station sends the frame awaited; this is the master's status. */
static uint8_t send_awaited(void)
{
    uint64_t written = hinet_station_frame(state, sizeof state, frame, sizeof frame);
    return hinet_answer_status(serve(number, written));
}

static void take(uint8_t status)
{
    uint64_t answer = hinet_station_reply(state, sizeof state, status);
    show_reply(status, hinet_answer_refusal(answer) == 0 ? "taken" : "refused");
}

static void log_in(const char *what)
{
    static const uint8_t name[HINET_NAME_BYTES] = { 'B', 'E', 'T', 'T', 'Y', ' ', ' ', ' ' };
    static const uint8_t password[HINET_PASSWORD_BYTES] = { 'S', 'E', 'C', 'R', 'E', 'T' };
    static const uint8_t serial[HINET_SERIAL_BYTES] = { 0x12, 0x34, 0x56, 0x78 };
    hinet_fresh(locks, sizeof locks, stations, sizeof stations);
    number = hinet_answer_login_number(serve(HINET_NUMBER_LOGIN,
        hinet_write_login(name, password, serial, 5, frame, sizeof frame)));
    hinet_station_fresh(state, sizeof state);
    show(what);
}

/* Where a reply is lost, the same frame is sent again. */
static void lost_replies(void)
{
    log_in("logged in");
    hinet_station_lock(state, sizeof state, string_a);
    show("asks to lock A");
    show_reply(send_awaited(), "lost");
    uint64_t answer = hinet_station_lock(state, sizeof state, string_b);
    printf("  asks to lock B: %s\n", hinet_refusal_text(hinet_answer_refusal(answer)));
    take(send_awaited());
    hinet_station_unlock(state, sizeof state, string_a);
    show("asks to unlock A");
    show_reply(send_awaited(), "lost");
    take(send_awaited());
    take(0x00);
    hinet_station_clear(state, sizeof state);
    show("asks to clear all locks");
    take(send_awaited());
}

/* ---- the station's driver ---- */

static int careful;             /* does it know when an exchange is over? */
static int listening;           /* from the frame that is sent to the time-out */

static uint8_t driver_sends(void)
{
    listening = 1;
    return send_awaited();
}

/* A status byte comes. Nothing in it says which frame it answers. */
static void driver_hears(uint8_t status)
{
    if (careful && !listening) {
        show_reply(status, "dropped");
        return;
    }
    listening = 0;
    take(status);
}

/* User 0 holds B. The first reply to the lock of A comes after the time-out,
 * when the station has sent again, has its reply, and asks for B. */
static void late_reply(const char *driver)
{
    log_in(driver);
    serve(HINET_NUMBER_LOCAL, hinet_write_lock(string_b, frame, sizeof frame));
    hinet_station_lock(state, sizeof state, string_a);
    uint8_t late = driver_sends();
    listening = 0;              /* the time-out */
    show_reply(late, "late");
    driver_hears(driver_sends());
    hinet_station_lock(state, sizeof state, string_b);
    show("asks to lock B");
    driver_hears(late);
    if (hinet_state_awaited(state) != 0)
        driver_hears(driver_sends());
}

int main(void)
{
    lost_replies();
    late_reply("a driver that is wrong");   /* lists B, which user 0 holds */
    careful = 1;
    late_reply("a driver that is right");
    return 0;
}
