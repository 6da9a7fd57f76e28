/* A worked example: a station is heard once and then stays silent. */
#include "hinet.h"

#include <stdio.h>

static uint8_t locks[HINET_LOCKS_BYTES];
static uint8_t stations[HINET_STATIONS_BYTES];
static uint8_t frame[HINET_LENGTH_MOST];

/* A site file with no users and no partitions. */
static const uint8_t site[] = { 0x00, 0x00, 0x08, 0x00, 0x00, 0x00, 0x08, 0x00 };

static const uint8_t name[HINET_NAME_BYTES] = { 'B', 'E', 'T', 'T', 'Y', ' ', ' ', ' ' };
static const uint8_t password[HINET_PASSWORD_BYTES] = { 'S', 'E', 'C', 'R', 'E', 'T' };
static const uint8_t serial[HINET_SERIAL_BYTES] = { 0x12, 0x34, 0x56, 0x78 };
static const uint8_t string_a[HINET_LOCKSTRING_BYTES] = { 1, 'A' };

static uint64_t turn(uint32_t number, uint32_t heard)
{
    return hinet_poll(number, heard, locks, sizeof locks, stations, sizeof stations);
}

/* Serves the frame that was just written. */
static uint64_t serve(uint32_t number, uint64_t written)
{
    return hinet_frame(number, frame, hinet_answer_length(written), site, sizeof site,
                       locks, sizeof locks, stations, sizeof stations);
}

static void show(const char *what, uint64_t answer)
{
    unsigned refusal = hinet_answer_refusal(answer);
    printf("%-24s", what);
    if (refusal != 0)
        printf("refused, %u: %s\n", refusal, hinet_refusal_text(refusal));
    else if (hinet_answer_kind(answer) == HINET_KIND_TURN)
        printf("due: %s, out: %s\n", hinet_answer_due(answer) ? "yes" : "no",
               hinet_answer_out(answer) ? "yes" : "no");
    else if (hinet_answer_kind(answer) == HINET_KIND_STATUS)
        printf("status %02X\n", hinet_answer_status(answer));
    else
        printf("no such kind\n");
}

static uint64_t lock_a(uint32_t number)
{
    return serve(number, hinet_write_lock(string_a, frame, sizeof frame));
}

int main(void)
{
    hinet_fresh(locks, sizeof locks, stations, sizeof stations);
    uint64_t login = serve(HINET_NUMBER_LOGIN,
                           hinet_write_login(name, password, serial, 5, frame, sizeof frame));
    uint8_t station = hinet_answer_login_number(login);

    /* One exchange: first the poll turn, then the frame that was heard. */
    show("heard", turn(station, 1));
    show("its frame, lock A", lock_a(station));

    for (unsigned silent = 1; silent <= 1312; silent++) {
        char what[32];
        if (silent == 162)
            show("heard when not due", turn(station, 1));
        uint64_t answer = turn(station, 0);
        snprintf(what, sizeof what, "silent turn %u", silent);
        if (silent == 1 || silent == 160 || silent == 161 || silent == 172 || silent == 1312)
            show(what, answer);
    }
    show("one turn more", turn(station, 0));
    show("lock A by user 0", lock_a(HINET_NUMBER_LOCAL));
    return 0;
}
