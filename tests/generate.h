/*
 * Seeded inputs: site files, frames, running tables and station states, good
 * ones and damaged ones. The same seed gives the same inputs everywhere.
 */
#ifndef GENERATE_H
#define GENERATE_H

#include <stddef.h>
#include <stdint.h>

/* ---- random numbers (splitmix64) ---- */

struct rng {
    uint64_t state;
};

struct rng rng_from(uint64_t seed);
uint64_t rng_next(struct rng *rng);
unsigned rng_below(struct rng *rng, unsigned count);    /* 0 to count - 1 */
int rng_one_in(struct rng *rng, unsigned count);
uint8_t rng_byte(struct rng *rng);
uint8_t rng_nonzero(struct rng *rng);
void rng_bytes(struct rng *rng, uint8_t *bytes, size_t count);

/* One of the values of an array. */
#define RNG_PICK(rng, array) \
    ((array)[rng_below((rng), (unsigned)(sizeof (array) / sizeof *(array)))])

/* A loop that looks for something calls this before each further try. Too many
 * without success end the program: the rules that it plays by are broken. */
void try_again(unsigned long *tries, const char *wanted);

/* ---- site files ---- */

enum { SITE_ROOM = 4096 };

struct site {
    size_t len;
    uint8_t bytes[SITE_ROOM];
};

/* A name stays the same name when its padding, the zeros and spaces at its end,
 * is drawn anew. */
void name_repadded(struct rng *rng, uint8_t name[8]);
int equal_names(const uint8_t a[8], const uint8_t b[8]);

/* A good file, its partitions on 1 to 4 volumes, some touching. */
void site_good(struct rng *rng, struct site *site,
               unsigned users, unsigned partitions, unsigned volumes);

/* A good file of random counts; now and then the largest or an empty one. */
void site_any(struct rng *rng, struct site *site);

/* Good files that stand just inside one limit. */
enum site_limit {
    LIMIT_EMPTY, LIMIT_LARGEST, LIMIT_FULL_VOLUME, LIMIT_NUMBER_63,
    LIMIT_ENDS_AT_LAST, LIMIT_TOUCHES_BELOW, LIMIT_TOUCHES_ABOVE,
    LIMIT_NUMBER_ON_TWO_VOLUMES, LIMIT_SECTORS_ON_TWO_VOLUMES,
    LIMIT_USER_NAMED_AS_PARTITION,
    SITE_LIMITS
};
void site_at_limit(struct rng *rng, struct site *site, enum site_limit limit);

/* What a bad file was made for: its first fault. */
enum { PART_HEADER = 0, PART_USER = 1, PART_PARTITION = 2 };
enum { BREACH_RANGE = 1, BREACH_NAME = 2, BREACH_NUMBER = 3, BREACH_OVERLAP = 4, BREACHES = 5 };
struct site_fault {
    unsigned part, row, breach;
};

/* Files that break one rule. */
enum site_damage {
    SITE_NO_BYTES, SITE_7_BYTES, SITE_SHORT_BY_1, SITE_LONG_BY_1,
    SITE_USERS_129, SITE_USERS_HIGH_BYTE, SITE_USERS_65535,
    SITE_PARTITIONS_65, SITE_PARTITIONS_HIGH_BYTE, SITE_PARTITIONS_65535,
    SITE_USER_OFFSET_7, SITE_USER_OFFSET_9, SITE_USER_OFFSET_HIGH_BYTE,
    SITE_PARTITION_OFFSET_LESS, SITE_PARTITION_OFFSET_MORE,
    SITE_PARTITION_OFFSET_HIGH_BYTE,
    SITE_VOLUME_4, SITE_VOLUME_128, SITE_NUMBER_64, SITE_NUMBER_255,
    SITE_SIZE_0, SITE_SIZE_7, SITE_SIZE_255,
    SITE_ENDS_1_BEYOND, SITE_FIRST_WRAPS, SITE_FIRST_HUGE,
    SITE_SPARE_1, SITE_SPARE_2,
    SITE_USER_TWICE, SITE_USER_PADDED, SITE_NAME_TWICE, SITE_NAME_PADDED, SITE_NUMBER_TWICE,
    SITE_OVERLAP_BELOW, SITE_OVERLAP_ABOVE, SITE_OVERLAP_INSIDE,
    SITE_DAMAGES
};
struct site_fault site_damaged(struct rng *rng, struct site *site, enum site_damage damage);

/* Files with one partition row that breaks several rules, bit b set for breach
 * b; the first of them counts. */
enum { BROKEN_ALL = (1 << BREACHES) - 2 };
struct site_fault site_row_broken(struct rng *rng, struct site *site, unsigned breaches);

/* Files with two faults of these kinds, the first in an earlier row where both
 * are in one part. */
enum fault_kind {
    FAULTY_HEADER, FAULTY_USER, FAULTY_RANGE, FAULTY_NAME, FAULTY_NUMBER, FAULTY_OVERLAP,
    FAULTY_KINDS
};
struct site_fault site_broken_twice(struct rng *rng, struct site *site,
                                    enum fault_kind first, enum fault_kind second);

/* A file with a few fields that are another row's or drawn anew: good or not. */
void site_spoiled(struct rng *rng, struct site *site);

/* A file with a few bytes changed, or of random bytes: good or not. */
void site_scrambled(struct rng *rng, struct site *site);

/* Rows of a good file. */
unsigned site_users(const struct site *site);
unsigned site_partitions(const struct site *site);
const uint8_t *site_user(const struct site *site, unsigned i);
const uint8_t *site_partition(const struct site *site, unsigned i);

/* ---- frames ---- */

enum { FRAME_ROOM = 256, CODES = 9 };

struct frame {
    size_t len;
    uint8_t bytes[FRAME_ROOM];
};

enum {
    CODE_ACKNOWLEDGE = 0x41, CODE_READ = 0x11, CODE_WRITE = 0x12,
    CODE_LOGIN = 0x13, CODE_ASSIGN = 0x17, CODE_LOCK = 0x19,
    CODE_UNLOCK = 0x1A, CODE_CLEAR = 0x1B, CODE_LOGOUT = 0x1F
};
extern const uint8_t codes[CODES];

/* A well formed frame whose fields are drawn towards what the site has. */
void frame_good(struct rng *rng, struct frame *frame, uint8_t code,
                uint32_t number, const struct site *site);

/* Faults of a frame; any of them together. */
enum {
    FAULT_EMPTY = 1, FAULT_CODE = 2, FAULT_SHORT = 4, FAULT_LONG = 8,
    FAULT_DTN = 16, FAULT_SRC = 32, FAULTS_ALL = 63
};
void frame_spoil(struct rng *rng, struct frame *frame, unsigned faults);

/* A lock string, length first, from a small pool of look-alikes. */
enum { POOL = 156 };
void pool_string(unsigned i, uint8_t string[14]);

/* A string of the pool with stray bytes after it; now and then a bad length. */
void legal_string(struct rng *rng, uint8_t string[14]);
void any_string(struct rng *rng, uint8_t string[14]);
void stray_bytes(struct rng *rng, uint8_t string[14]);

/* A serial from a small pool of look-alikes; the first is zero. */
enum { SERIALS = 16 };
void pool_serial(unsigned i, uint8_t serial[4]);

/* Zero, a serial of the pool, or any. */
void any_serial(struct rng *rng, uint8_t serial[4]);

/* Gives a login the serial of somebody who is in, now and then with a byte
 * changed. */
void login_again(struct rng *rng, struct frame *frame, const uint8_t *stations);

/* What a run of frames is mostly about. */
enum mood {
    MOOD_MIXED, MOOD_LOGINS, MOOD_LOCKS, MOOD_CHURN, MOOD_DISK, MOOD_LEAVE,
    MOOD_FAULTS,
    MOODS
};

/* The next number and frame of a run, given the tables as they stand. */
uint32_t next_frame(struct rng *rng, enum mood mood, const struct site *site,
                    const uint8_t *locks, const uint8_t *stations, struct frame *frame);

/* A number: mostly one that is logged in, or of every kind. */
uint32_t number_logged_in(struct rng *rng, const uint8_t *stations);
uint32_t number_any(struct rng *rng);

/* ---- running tables ---- */

enum { TABLE_ROOM = 1280 };

struct tables {
    size_t locks_len;
    size_t stations_len;
    uint8_t locks[TABLE_ROOM];
    uint8_t stations[TABLE_ROOM];
};

/* Good tables with so many stations and so many locks, reached by logins and
 * locks from fresh. */
void tables_played(struct rng *rng, struct tables *tables,
                   unsigned logins, unsigned strings);

/* Good tables of random counts, with unlocks and logouts too; now and then one
 * serial is at several numbers. */
void tables_any(struct rng *rng, struct tables *tables);

/* Legal misses and slow turns for those logged in. */
void stations_aged(struct rng *rng, uint8_t *stations);

/* A few serials of the pool for those logged in. No run of logins gives one
 * serial to several numbers, but for zero; good tables may hold it. */
void stations_alike(struct rng *rng, uint8_t *stations);

/* The tables when a number has logged out. */
void tables_without(struct tables *tables, unsigned number);

/* Good tables that stand just inside one limit. */
enum tables_limit {
    LIMIT_MISSES_255_SLOW_11, LIMIT_MISSES_160, LIMIT_MISSES_159,
    LIMIT_LENGTH_13, LIMIT_PREFIX, LIMIT_ZERO_STRINGS, LIMIT_SERIALS_SHARED,
    LIMIT_ROWS_64,
    TABLES_LIMITS
};
void tables_at_limit(struct rng *rng, struct tables *tables, enum tables_limit limit);

/* Tables that break one rule. */
enum tables_damage {
    LOCKS_NO_BYTES, LOCKS_SHORT_BY_1, LOCKS_LONG_BY_1,
    LOCKS_SHORT_BY_ROW, LOCKS_LONG_BY_ROW,
    STATIONS_NO_BYTES, STATIONS_SHORT_BY_1, STATIONS_LONG_BY_1,
    STATIONS_SHORT_BY_RECORD, STATIONS_LONG_BY_RECORD,
    MISSES_256, MISSES_65535, SLOW_12, SLOW_255, SLOW_AT_159, SLOW_AT_0,
    LOGGED_IN_2, LOGGED_IN_255, FOUND_2, FOUND_255,
    LOCAL_OUT, LOCAL_IN_2, LOCAL_TRACE, OUT_TRACE,
    OWNER_OUT, OWNER_64, OWNER_253, OWNER_254,
    LENGTH_0, LENGTH_14, LENGTH_255, BYTE_AFTER_STRING, SPARE_SET,
    STRING_TWICE_ONE_OWNER, STRING_TWICE_TWO_OWNERS, FREE_TRACE, FREE_OWNER_254,
    TABLES_DAMAGES
};
void tables_damaged(struct rng *rng, struct tables *tables, enum tables_damage damage);

/* Good tables with a few bytes changed: good or not. */
void tables_scrambled(struct rng *rng, struct tables *tables);

/* ---- station states ---- */

enum { STATE_LEN = 911, STATE_ROOM = 1024, STATE_AWAITED = 896 };

struct state {
    size_t len;
    uint8_t bytes[STATE_ROOM];
};

enum wait {
    WAIT_NONE, WAIT_LOCK, WAIT_LOCK_LISTED, WAIT_LOCK_LENGTH_0,
    WAIT_LOCK_LENGTH_14, WAIT_LOCK_LENGTH_255, WAIT_UNLOCK,
    WAIT_UNLOCK_LENGTH_0, WAIT_UNLOCK_LENGTH_14, WAIT_CLEAR,
    WAITS
};

/* A good state with so many entries in its list, in this wait. */
void state_good(struct rng *rng, struct state *state, unsigned entries, enum wait wait);

/* States that break one rule. */
enum state_damage {
    STATE_NO_BYTES, STATE_SHORT_BY_1, STATE_LONG_BY_1, STATE_SHORT_BY_PLACE,
    STATE_LENGTH_14, STATE_LENGTH_255, STATE_BYTE_AFTER, STATE_TWICE,
    STATE_GAP, STATE_UNUSED_TRACE, STATE_CODE_UNKNOWN, STATE_TRACE_NO_WAIT,
    STATE_TRACE_CLEAR,
    STATE_DAMAGES
};
void state_damaged(struct rng *rng, struct state *state, enum state_damage damage);

/* A good state with a few bytes changed: good or not. */
void state_scrambled(struct rng *rng, struct state *state);

/* ---- tables of the boot ---- */

enum boot_table {
    BOOT_MACHINES, BOOT_PRODUCTS, BOOT_USERS, BOOT_CONFIGURATIONS, BOOT_SYSTEMS,
    BOOT_DIRECTORY,
    BOOT_TABLES
};

/* The bytes of a row of each table, and the most rows. */
extern const size_t boot_row_len[BOOT_TABLES];
extern const unsigned boot_most[BOOT_TABLES];

/* A login and the tables that it is served from; there is room for a row over
 * the limit and some bytes. */
enum { BOOT_ROOM = 12544 };
struct boot {
    uint8_t serial[4], name[8], password[6];
    size_t len[BOOT_TABLES];
    uint8_t bytes[BOOT_TABLES][BOOT_ROOM];
};

unsigned boot_rows(const struct boot *boot, enum boot_table table);
uint8_t *boot_row(struct boot *boot, enum boot_table table, unsigned i);

/* Puts a row before row i, which may be the one after the last. */
void boot_insert(struct boot *boot, enum boot_table table, unsigned i, const uint8_t *row);

/* A row that this login passes over, for one of several reasons, where users'
 * OS numbers are below 80. A system is made from the first one. */
void boot_passed_over(struct rng *rng, const struct boot *boot, enum boot_table table,
                      uint8_t *row);

/* Whole tables of look-alike rows, and a login that mostly finds something. */
void boot_any(struct rng *rng, struct boot *boot);

/* A length of a table that is refused: bytes over whole rows, or rows over the
 * limit, one or the other. */
size_t boot_bad_length(struct rng *rng, enum boot_table table);

#endif
