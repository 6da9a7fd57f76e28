#include "desk.h"
#include "hinet.h"
#include "reference.h"

#include <string.h>

struct desk desk;

void desk_put_site(const struct site *site)
{
    lend(&desk.site, site->bytes, site->len);
}

void desk_put_tables(const struct tables *tables)
{
    lend(&desk.locks, tables->locks, tables->locks_len);
    lend(&desk.stations, tables->stations, tables->stations_len);
    memcpy(desk.ref_locks, tables->locks, tables->locks_len);
    memcpy(desk.ref_stations, tables->stations, tables->stations_len);
}

void desk_put_stations(const uint8_t *stations)
{
    memmove(desk.stations.bytes, stations, desk.stations.len);
    memmove(desk.ref_stations, stations, desk.stations.len);
}

static void add_part(struct call *call, const char *name, struct lent *lent,
                     const uint8_t *expected)
{
    struct part part = { name, lent, expected };
    lend_again(lent);
    call->part[call->parts++] = part;
}

void desk_lend_tables(struct call *call)
{
    add_part(call, "locks", &desk.locks, desk.ref_locks);
    add_part(call, "stations", &desk.stations, desk.ref_stations);
}

void desk_lend_tables_const(struct call *call)
{
    add_part(call, "locks", &desk.locks, NULL);
    add_part(call, "stations", &desk.stations, NULL);
}

uint64_t desk_fresh(void)
{
    struct call call = { .entry = ENTRY_FRESH };
    desk_lend_tables(&call);
    call.library = hinet_fresh(desk.locks.bytes, desk.locks.len,
                               desk.stations.bytes, desk.stations.len);
    call.reference = ref_fresh(desk.ref_locks, desk.locks.len,
                               desk.ref_stations, desk.stations.len);
    check_call(&call);
    return call.library;
}

uint64_t desk_check_tables(void)
{
    struct call call = { .entry = ENTRY_CHECK_TABLES };
    desk_lend_tables_const(&call);
    call.library = hinet_check_tables(desk.locks.bytes, desk.locks.len,
                                      desk.stations.bytes, desk.stations.len);
    call.reference = ref_check_tables(desk.ref_locks, desk.locks.len,
                                      desk.ref_stations, desk.stations.len);
    check_call(&call);
    return call.library;
}

uint64_t desk_check_site(void)
{
    struct call call = { .entry = ENTRY_CHECK_SITE };
    add_part(&call, "site", &desk.site, NULL);
    call.library = hinet_check_site(desk.site.bytes, desk.site.len);
    call.reference = ref_check_site(desk.site.before, desk.site.len);
    check_call(&call);
    return call.library;
}

uint64_t desk_frame(uint32_t number, const struct frame *frame)
{
    struct call call = { .entry = ENTRY_FRAME, .numbers = 1, .number = { number } };
    lend(&desk.frame, frame->bytes, frame->len);
    add_part(&call, "frame", &desk.frame, NULL);
    add_part(&call, "site", &desk.site, NULL);
    desk_lend_tables(&call);
    call.library = hinet_frame(number, desk.frame.bytes, desk.frame.len,
                               desk.site.bytes, desk.site.len,
                               desk.locks.bytes, desk.locks.len,
                               desk.stations.bytes, desk.stations.len);
    call.reference = ref_frame(number, desk.frame.before, desk.frame.len,
                               desk.site.before, desk.site.len,
                               desk.ref_locks, desk.locks.len,
                               desk.ref_stations, desk.stations.len);
    check_call(&call);
    return call.library;
}

uint64_t desk_place(uint32_t volume, uint32_t partition, uint32_t track, uint32_t sector)
{
    struct call call = {
        .entry = ENTRY_PLACE, .numbers = 4, .number = { volume, partition, track, sector }
    };
    add_part(&call, "site", &desk.site, NULL);
    call.library = hinet_place(hinet_volume_of(volume), hinet_partition_of(partition),
                               hinet_track_of(track), hinet_sector_of(sector),
                               desk.site.bytes, desk.site.len);
    call.reference = ref_place(volume, partition, track, sector,
                               desk.site.before, desk.site.len);
    check_call(&call);
    return call.library;
}
