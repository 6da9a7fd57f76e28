/*
 * What the drivers share: memory lent with canaries around it, the checks
 * after each call, the counts of outcomes, and the dump of a difference.
 */
#ifndef CHECK_H
#define CHECK_H

#include <stddef.h>
#include <stdint.h>

enum { MARGIN = 32, LENT_MOST = 12544, PARTS_MOST = 10 };

/* A lent slice with canaries on both sides, and a copy of what was lent. */
struct lent {
    uint8_t *bytes;
    size_t len;
    uint8_t before[LENT_MOST];
    uint8_t store[MARGIN + 8 + LENT_MOST + MARGIN];
};

/* Puts bytes into a slice, at a changing alignment, between fresh canaries. */
void lend(struct lent *slice, const uint8_t *bytes, size_t len);

/* Takes the bytes as they stand for the copy to compare with. */
void lend_again(struct lent *slice);

enum entry {
    ENTRY_FRESH, ENTRY_CHECK_TABLES, ENTRY_CHECK_SITE, ENTRY_FRAME, ENTRY_PLACE,
    ENTRY_READ_FRAME,
    ENTRY_WRITE_ACKNOWLEDGE, ENTRY_WRITE_READ, ENTRY_WRITE_WRITE,
    ENTRY_WRITE_LOGIN, ENTRY_WRITE_ASSIGN, ENTRY_WRITE_LOCK,
    ENTRY_WRITE_UNLOCK, ENTRY_WRITE_CLEAR, ENTRY_WRITE_LOGOUT,
    ENTRY_DUE, ENTRY_POLL,
    ENTRY_STATION_FRESH, ENTRY_STATION_LOCK, ENTRY_STATION_UNLOCK,
    ENTRY_STATION_CLEAR, ENTRY_STATION_FRAME, ENTRY_STATION_REPLY,
    ENTRY_CPM_PARAMETERS, ENTRY_MSDOS_PARAMETERS,
    ENTRY_LINE_WRITE, ENTRY_LINE_READ, ENTRY_LINE_FRAME,
    ENTRY_BOOT,
    ENTRIES
};

/* One slice of a call; expected is the reference's copy, NULL for const. */
struct part {
    const char *name;
    const struct lent *lent;
    const uint8_t *expected;
};

/* One call, made to the library and to the reference. */
struct call {
    enum entry entry;
    unsigned numbers;
    uint64_t number[5];
    unsigned parts;
    struct part part[PARTS_MOST];
    uint64_t library;
    uint64_t reference;
};

/*
 * Checks a call: equal answers, equal bytes, whole canaries, const memory as
 * it was; for a refusal no answer and no byte changed, and for 10 a fault that
 * can be. Counts the outcome. At the first difference it dumps the inputs and
 * ends the program.
 */
void check_call(const struct call *call);

/* The last call checked must have had this refusal, 0 for none. */
void expect_refusal(unsigned refusal);

/* The last call checked must have been refused 10 with this fault. */
void expect_fault(unsigned part, unsigned row, unsigned breach);

/* Ends the program with a reason and the inputs of the last call. */
void fail(const char *reason);

/* Fails with this reason where it is not true. */
void expect(int true_here, const char *reason);

/* Where a driver stands, for the dump. */
struct trace {
    const char *driver;
    uint64_t seed;
    unsigned long round;
    unsigned long step;
};
extern struct trace trace;

/* Arguments of a driver: [rounds [first round]]. */
struct rounds {
    unsigned long first;
    unsigned long end;
};
struct rounds rounds_from(int argc, char **argv, unsigned long usual);

/* Prints the counts of these entries; ends with failure if one is 0. */
int report(enum entry first, enum entry last);

#endif
