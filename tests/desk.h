/*
 * The master's desk: the tables, the site file and the frame as they are lent
 * to the library, beside the reference's own copies of the tables. Each call
 * goes to both sides and is checked.
 */
#ifndef DESK_H
#define DESK_H

#include "check.h"
#include "generate.h"

struct desk {
    struct lent frame, site, locks, stations;
    uint8_t ref_locks[TABLE_ROOM], ref_stations[TABLE_ROOM];
};
extern struct desk desk;

void desk_put_site(const struct site *site);
void desk_put_tables(const struct tables *tables);

/* The station records as they stand, for both sides to be written. */
void desk_put_stations(const uint8_t *stations);

/* Gives the call its tables, to be written or as const, and takes their bytes
 * for the copies. */
void desk_lend_tables(struct call *call);
void desk_lend_tables_const(struct call *call);

/* Each returns the answer of both sides. */
uint64_t desk_fresh(void);
uint64_t desk_check_tables(void);
uint64_t desk_check_site(void);
uint64_t desk_frame(uint32_t number, const struct frame *frame);
uint64_t desk_place(uint32_t volume, uint32_t partition, uint32_t track, uint32_t sector);

#endif
