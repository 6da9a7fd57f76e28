/* A worked example: a site file that is checked and two that break a rule, a
 * login, a partition that is assigned and read from, a lock that a second user
 * wants too, an unlock, and a login by a name that is padded otherwise. */
#include "hinet.h"

#include <stdio.h>
#include <string.h>

static uint8_t locks[HINET_LOCKS_BYTES];
static uint8_t stations[HINET_STATIONS_BYTES];
static uint8_t frame[HINET_LENGTH_MOST];

/* A site file with one user and one partition. */
static const uint8_t site[] = {
    1, 0, 8, 0, 1, 0, 24, 0,
    'B', 'E', 'T', 'T', 'Y', ' ', ' ', ' ', 'S', 'E', 'C', 'R', 'E', 'T', 0, 0,
    'S', 'T', 'O', 'C', 'K', ' ', ' ', ' ', 'S', 'H', 'E', 'L', 'V', 'E',
    1, 0, 1, 0,                 /* volume 1, partition 0, size code 1, control */
    0x00, 0x08, 0, 0, 0, 0      /* first sector 2048 */
};

/* Two users: the names differ in their padding alone. */
static const uint8_t twice[] = {
    2, 0, 8, 0, 0, 0, 40, 0,
    'B', 'E', 'T', 'T', 'Y', ' ', ' ', ' ', 'S', 'E', 'C', 'R', 'E', 'T', 0, 0,
    'B', 'E', 'T', 'T', 'Y', 0, 0, 0, 'H', 'I', 'D', 'D', 'E', 'N', 0, 0
};

static const uint8_t betty[HINET_NAME_BYTES] = { 'B', 'E', 'T', 'T', 'Y', ' ', ' ', ' ' };
static const uint8_t betty_dos[HINET_NAME_BYTES] = { 'B', 'E', 'T', 'T', 'Y', 0, 0, 0 };
static const uint8_t secret[HINET_PASSWORD_BYTES] = { 'S', 'E', 'C', 'R', 'E', 'T' };
static const uint8_t stock[HINET_NAME_BYTES] = { 'S', 'T', 'O', 'C', 'K', ' ', ' ', ' ' };
static const uint8_t shelve[HINET_PASSWORD_BYTES] = { 'S', 'H', 'E', 'L', 'V', 'E' };
static const uint8_t serial[HINET_SERIAL_BYTES] = { 0x12, 0x34, 0x56, 0x78 };
static const uint8_t serial_dos[HINET_SERIAL_BYTES] = { 0x12, 0x34, 0x56, 0x79 };
static const uint8_t string_a[HINET_LOCKSTRING_BYTES] = { 1, 'A' };

/* Serves the frame that was just written. */
static uint64_t serve(uint32_t number, uint64_t written)
{
    return hinet_frame(number, frame, hinet_answer_length(written), site, sizeof site,
                       locks, sizeof locks, stations, sizeof stations);
}

static void show_answer(uint64_t answer)
{
    switch (hinet_answer_kind(answer)) {
    case HINET_KIND_NONE:
        printf("done\n");
        break;
    case HINET_KIND_STATUS:
        printf("status %02X\n", hinet_answer_status(answer));
        break;
    case HINET_KIND_ASSIGN:
        printf("size code %u on volume %u\n", hinet_answer_assign_size(answer),
               (unsigned)hinet_answer_assign_volume(answer).number);
        break;
    case HINET_KIND_PLACE:
        printf("volume %u, sector %lu\n", (unsigned)hinet_answer_place_volume(answer).number,
               (unsigned long)hinet_answer_place_sector(answer));
        break;
    case HINET_KIND_LOGIN:
        printf("number %u, name found: %s\n", hinet_answer_login_number(answer),
               hinet_answer_login_found(answer) ? "yes" : "no");
        break;
    default:
        printf("no such kind\n");
        break;
    }
}

static void show(const char *what, uint64_t answer)
{
    unsigned refusal = hinet_answer_refusal(answer);
    printf("%-26s", what);
    if (refusal != 0)
        printf("refused, %u: %s\n", refusal, hinet_refusal_text(refusal));
    else
        show_answer(answer);
}

/* Checks a site file; of a bad one it tells the first fault in words. */
static void show_site(const char *what, const uint8_t *file, size_t len)
{
    uint64_t answer = hinet_check_site(file, len);
    show(what, answer);
    if (hinet_answer_refusal(answer) == HINET_REFUSED_SITE)
        printf("%-26s%s %u %s\n", "", hinet_part_text(hinet_fault_part(answer)),
               hinet_fault_row(answer), hinet_breach_text(hinet_fault_breach(answer)));
}

/* Reads from the partition that an answer to an assign tells. */
static uint64_t read_sector(uint8_t station, uint64_t assigned, uint32_t track, uint32_t sector)
{
    uint64_t written = hinet_write_read(station, hinet_answer_assign_volume(assigned),
                                        hinet_answer_assign_partition(assigned),
                                        hinet_track_of(track), hinet_sector_of(sector),
                                        frame, sizeof frame);
    return serve(station, written);
}

int main(void)
{
    uint8_t wrong[sizeof site];
    memcpy(wrong, site, sizeof site);
    wrong[40] = 7;
    show_site("site file", site, sizeof site);
    show_site("site file, size code 7", wrong, sizeof wrong);
    show_site("site file, BETTY twice", twice, sizeof twice);

    show("fresh tables", hinet_fresh(locks, sizeof locks, stations, sizeof stations));
    uint64_t answer = serve(HINET_NUMBER_LOGIN,
                            hinet_write_login(betty, secret, serial, 5, frame, sizeof frame));
    uint8_t station = hinet_answer_login_number(answer);
    show("login at 253", answer);

    answer = serve(station, hinet_write_assign(stock, shelve, frame, sizeof frame));
    show("assign STOCK", answer);
    show("read track 15, sector 128", read_sector(station, answer, 15, 128));
    show("read track 16, sector 1", read_sector(station, answer, 16, 1));

    show("lock A by the station", serve(station, hinet_write_lock(string_a, frame, sizeof frame)));
    show("lock A by user 0",
         serve(HINET_NUMBER_LOCAL, hinet_write_lock(string_a, frame, sizeof frame)));
    show("unlock A by the station",
         serve(station, hinet_write_unlock(string_a, frame, sizeof frame)));

    answer = serve(HINET_NUMBER_LOGIN,
                   hinet_write_login(betty_dos, secret, serial_dos, 5, frame, sizeof frame));
    station = hinet_answer_login_number(answer);
    show("login, zeros for spaces", answer);
    const uint8_t *name = hinet_record_name(stations, station);
    printf("%-26s", "");
    fwrite(name, 1, hinet_name_length(name), stdout);
    printf(", %s\n", hinet_name_equal(name, betty) ? "the same user" : "another user");
    return 0;
}
