#include "check.h"

#include <stdio.h>
#include <stdlib.h>
#include <string.h>

struct trace trace;
static struct call last_call;

/* ---- lent memory ---- */

/* The first byte after a slice is 1: read by mistake, it says logged in. */
static uint8_t canary(size_t i)
{
    return (uint8_t)(1 + 29 * i);
}

void lend(struct lent *slice, const uint8_t *bytes, size_t len)
{
    static unsigned shift;
    shift = (shift + 3) % 8;
    if (len > LENT_MOST)
        fail("driver: slice too long");
    slice->bytes = slice->store + MARGIN + shift;
    slice->len = len;
    uint8_t *front = slice->bytes - MARGIN, *back = slice->bytes + len;
    for (size_t i = 0; i < MARGIN; i++)
        front[i] = back[i] = canary(i);
    memcpy(slice->bytes, bytes, len);
    memcpy(slice->before, bytes, len);
}

void lend_again(struct lent *slice)
{
    memcpy(slice->before, slice->bytes, slice->len);
}

static int margins_whole(const struct lent *slice)
{
    const uint8_t *front = slice->bytes - MARGIN, *back = slice->bytes + slice->len;
    for (size_t i = 0; i < MARGIN; i++)
        if (front[i] != canary(i) || back[i] != canary(i))
            return 0;
    return 1;
}

static int unchanged(const struct lent *slice)
{
    return memcmp(slice->bytes, slice->before, slice->len) == 0;
}

/* ---- outcomes ---- */

/* Refusals 1 to 23 have their own numbers as outcomes, but for 10: it has one
 * for each kind of fault. */
enum { REFUSAL_LAST = 23 };
enum outcome {
    FAULT_HEADER = 32, FAULT_USER_NAME,
    FAULT_RANGE, FAULT_NAME, FAULT_NUMBER, FAULT_OVERLAP,
    NONE,
    STATUS_00, STATUS_01, STATUS_02, STATUS_81, STATUS_82,
    ASSIGNED, ASSIGN_DENIED,
    PLACE,
    LOGIN_FOUND, LOGIN_UNKNOWN, LOGIN_FULL,
    TURN_NOT_DUE, TURN_DUE, TURN_OUT,
    WRITTEN_0, WRITTEN_1, WRITTEN_2, WRITTEN_8, WRITTEN_15, WRITTEN_20,
    LINE_BITS,
    LINE_MASTER, LINE_OTHER,
    BOOT_0, BOOT_1, BOOT_2, BOOT_3, BOOT_4,
    REQUEST_41, REQUEST_11, REQUEST_12, REQUEST_13, REQUEST_17, REQUEST_19,
    REQUEST_1A, REQUEST_1B, REQUEST_1F,
    OUTCOMES
};

static const char *const outcome_names[OUTCOMES] = {
    [FAULT_HEADER] = "refusal 10, header",
    [FAULT_USER_NAME] = "refusal 10, user, name",
    [FAULT_RANGE] = "refusal 10, row, range", [FAULT_NAME] = "refusal 10, row, name",
    [FAULT_NUMBER] = "refusal 10, row, number", [FAULT_OVERLAP] = "refusal 10, row, overlap",
    [NONE] = "kind 0, none",
    [STATUS_00] = "kind 1, status 00", [STATUS_01] = "kind 1, status 01",
    [STATUS_02] = "kind 1, status 02", [STATUS_81] = "kind 1, status 81",
    [STATUS_82] = "kind 1, status 82",
    [ASSIGNED] = "kind 2, assigned", [ASSIGN_DENIED] = "kind 2, denied",
    [PLACE] = "kind 3, place",
    [LOGIN_FOUND] = "kind 4, name found", [LOGIN_UNKNOWN] = "kind 4, name not found",
    [LOGIN_FULL] = "kind 4, 63 in use",
    [TURN_NOT_DUE] = "kind 5, not due", [TURN_DUE] = "kind 5, due",
    [TURN_OUT] = "kind 5, due and out",
    [WRITTEN_0] = "kind 6, length 0", [WRITTEN_1] = "kind 6, length 1",
    [WRITTEN_2] = "kind 6, length 2", [WRITTEN_8] = "kind 6, length 8",
    [WRITTEN_15] = "kind 6, length 15", [WRITTEN_20] = "kind 6, length 20",
    [LINE_BITS] = "kind 8, bits",
    [LINE_MASTER] = "kind 9, for number 0", [LINE_OTHER] = "kind 9, for another",
    [BOOT_0] = "kind 10, flag 0", [BOOT_1] = "kind 10, flag 1",
    [BOOT_2] = "kind 10, flag 2", [BOOT_3] = "kind 10, flag 3",
    [BOOT_4] = "kind 10, flag 4",
    [REQUEST_41] = "kind 13, code 41", [REQUEST_11] = "kind 13, code 11",
    [REQUEST_12] = "kind 13, code 12", [REQUEST_13] = "kind 13, code 13",
    [REQUEST_17] = "kind 13, code 17", [REQUEST_19] = "kind 13, code 19",
    [REQUEST_1A] = "kind 13, code 1A", [REQUEST_1B] = "kind 13, code 1B",
    [REQUEST_1F] = "kind 13, code 1F"
};

/* Sets of refusals, and of the outcomes from FAULT_HEADER on. */
#define NO(refusal) ((uint32_t)1 << (refusal))
#define NOS(first, last) (NO((last) + 1) - NO(first))
#define BIT(outcome) ((uint64_t)1 << ((outcome) - FAULT_HEADER))
#define BITS(first, last) (BIT((last) + 1) - BIT(first))
#define FAULTS BITS(FAULT_HEADER, FAULT_OVERLAP)

/* The entries, and the refusals and other outcomes each must be seen to have. */
static const struct {
    const char *name;
    uint32_t refusals;
    uint64_t outcomes;
} entries[ENTRIES] = {
    [ENTRY_FRESH] = { "hinet_fresh", NO(11), BIT(NONE) },
    [ENTRY_CHECK_TABLES] = { "hinet_check_tables", NO(11), BIT(NONE) },
    [ENTRY_CHECK_SITE] = { "hinet_check_site", 0, FAULTS | BIT(NONE) },
    [ENTRY_FRAME] = { "hinet_frame",
        NOS(1, 9) | NO(11), FAULTS | BITS(NONE, LOGIN_FULL) },
    [ENTRY_PLACE] = { "hinet_place", NO(8) | NO(9), FAULTS | BIT(PLACE) },
    [ENTRY_READ_FRAME] = { "hinet_read_frame",
        NO(1) | NO(3) | NO(4) | NO(6), BITS(REQUEST_41, REQUEST_1F) },
    [ENTRY_WRITE_ACKNOWLEDGE] = { "hinet_write_acknowledge", NO(13), BIT(WRITTEN_1) },
    [ENTRY_WRITE_READ] = { "hinet_write_read", NO(13), BIT(WRITTEN_8) },
    [ENTRY_WRITE_WRITE] = { "hinet_write_write", NO(13), BIT(WRITTEN_8) },
    [ENTRY_WRITE_LOGIN] = { "hinet_write_login", NO(13), BIT(WRITTEN_20) },
    [ENTRY_WRITE_ASSIGN] = { "hinet_write_assign", NO(13), BIT(WRITTEN_15) },
    [ENTRY_WRITE_LOCK] = { "hinet_write_lock", NO(13), BIT(WRITTEN_15) },
    [ENTRY_WRITE_UNLOCK] = { "hinet_write_unlock", NO(13), BIT(WRITTEN_15) },
    [ENTRY_WRITE_CLEAR] = { "hinet_write_clear", NO(13), BIT(WRITTEN_1) },
    [ENTRY_WRITE_LOGOUT] = { "hinet_write_logout", NO(13), BIT(WRITTEN_2) },
    [ENTRY_DUE] = { "hinet_due",
        NO(11) | NO(2) | NO(5), BIT(TURN_NOT_DUE) | BIT(TURN_DUE) },
    [ENTRY_POLL] = { "hinet_poll",
        NO(11) | NO(2) | NO(5) | NO(12), BITS(TURN_NOT_DUE, TURN_OUT) },
    [ENTRY_STATION_FRESH] = { "hinet_station_fresh", NO(11), BIT(NONE) },
    [ENTRY_STATION_LOCK] = { "hinet_station_lock", NO(11) | NO(14), BIT(NONE) },
    [ENTRY_STATION_UNLOCK] = { "hinet_station_unlock", NO(11) | NO(14), BIT(NONE) },
    [ENTRY_STATION_CLEAR] = { "hinet_station_clear", NO(11) | NO(14), BIT(NONE) },
    [ENTRY_STATION_FRAME] = { "hinet_station_frame",
        NO(11) | NO(13), BIT(WRITTEN_0) | BIT(WRITTEN_1) | BIT(WRITTEN_15) },
    [ENTRY_STATION_REPLY] = { "hinet_station_reply", NO(11) | NO(15), BIT(NONE) },
    [ENTRY_CPM_PARAMETERS] = { "hinet_cpm_parameters", NO(16) | NO(13), BIT(WRITTEN_15) },
    [ENTRY_MSDOS_PARAMETERS] = { "hinet_msdos_parameters", NO(16) | NO(13), BIT(WRITTEN_15) },
    [ENTRY_LINE_WRITE] = { "hinet_line_write", NO(17) | NO(13), BIT(LINE_BITS) },
    [ENTRY_LINE_READ] = { "hinet_line_read",
        NOS(17, 22) | NO(13), BIT(LINE_MASTER) | BIT(LINE_OTHER) },
    [ENTRY_LINE_FRAME] = { "hinet_line_frame",
        NOS(17, 22) | NOS(2, 9) | NO(11), FAULTS | BITS(NONE, LOGIN_FULL) | BIT(LINE_OTHER) },
    [ENTRY_BOOT] = { "hinet_boot", NO(23) | NO(13), BITS(BOOT_0, BOOT_4) }
};

/* Is this an outcome that the entry must be seen to have? */
static int has_outcome(unsigned entry, unsigned outcome)
{
    if (outcome < FAULT_HEADER)
        return (entries[entry].refusals >> outcome & 1) != 0;
    return (entries[entry].outcomes >> (outcome - FAULT_HEADER) & 1) != 0;
}

static unsigned long counts[ENTRIES][OUTCOMES];

static unsigned answer_byte(uint64_t answer, unsigned i)
{
    return (unsigned)(answer >> (16 + 8 * i) & 0xFF);
}

static enum outcome status_outcome(uint64_t answer)
{
    switch (answer_byte(answer, 0)) {
    case 0x00: return STATUS_00;
    case 0x01: return STATUS_01;
    case 0x02: return STATUS_02;
    case 0x81: return STATUS_81;
    case 0x82: return STATUS_82;
    default:   return OUTCOMES;
    }
}

static enum outcome login_outcome(uint64_t answer)
{
    if (answer_byte(answer, 0) == 0)
        return LOGIN_FULL;
    return answer_byte(answer, 1) != 0 ? LOGIN_FOUND : LOGIN_UNKNOWN;
}

/* A turn by due and out. */
static enum outcome turn_outcome(uint64_t answer)
{
    switch (answer_byte(answer, 0) << 8 | answer_byte(answer, 1)) {
    case 0x0000: return TURN_NOT_DUE;
    case 0x0100: return TURN_DUE;
    case 0x0101: return TURN_OUT;
    default:     return OUTCOMES;
    }
}

static enum outcome written_outcome(uint64_t answer)
{
    switch (answer_byte(answer, 0)) {
    case 0:  return WRITTEN_0;
    case 1:  return WRITTEN_1;
    case 2:  return WRITTEN_2;
    case 8:  return WRITTEN_8;
    case 15: return WRITTEN_15;
    case 20: return WRITTEN_20;
    default: return OUTCOMES;
    }
}

/* A frame has 64 bits or more, and the largest 9891 at most. */
static enum outcome bits_outcome(uint64_t answer)
{
    uint64_t count = answer >> 16;
    return count >= 64 && count <= 9891 ? LINE_BITS : OUTCOMES;
}

/* A frame by its user number; it has 1 to 1024 data bytes. */
static enum outcome line_outcome(uint64_t answer)
{
    uint64_t length = answer >> 24;
    if (length < 1 || length > 1024)
        return OUTCOMES;
    return answer_byte(answer, 0) == 0 ? LINE_MASTER : LINE_OTHER;
}

/* A choice at login by its honor flag. */
static enum outcome boot_outcome(uint64_t answer)
{
    unsigned flag = answer_byte(answer, 0);
    return flag <= 4 ? (enum outcome)(BOOT_0 + flag) : OUTCOMES;
}

static enum outcome request_outcome(uint64_t answer)
{
    switch (answer_byte(answer, 0)) {
    case 0x41: return REQUEST_41;
    case 0x11: return REQUEST_11;
    case 0x12: return REQUEST_12;
    case 0x13: return REQUEST_13;
    case 0x17: return REQUEST_17;
    case 0x19: return REQUEST_19;
    case 0x1A: return REQUEST_1A;
    case 0x1B: return REQUEST_1B;
    case 0x1F: return REQUEST_1F;
    default:   return OUTCOMES;
    }
}

/* A partition row's fault; row 0 has none before it to clash with. */
static enum outcome row_fault_outcome(unsigned row, unsigned breach)
{
    if (breach == 1)
        return row <= 63 ? FAULT_RANGE : OUTCOMES;
    if (row < 1 || row > 63)
        return OUTCOMES;
    switch (breach) {
    case 2:  return FAULT_NAME;
    case 3:  return FAULT_NUMBER;
    case 4:  return FAULT_OVERLAP;
    default: return OUTCOMES;
    }
}

/* A fault by part, row and breach. */
static enum outcome fault_outcome(uint64_t answer)
{
    unsigned row = answer_byte(answer, 1), breach = answer_byte(answer, 2);
    switch (answer_byte(answer, 0)) {
    case 0:  return row == 0 && breach == 1 ? FAULT_HEADER : OUTCOMES;
    case 1:  return row >= 1 && row <= 127 && breach == 2 ? FAULT_USER_NAME : OUTCOMES;
    case 2:  return row_fault_outcome(row, breach);
    default: return OUTCOMES;
    }
}

/* The outcome that an answer tells, or OUTCOMES for one that cannot be. */
static enum outcome outcome_of(uint64_t answer)
{
    unsigned refusal = (unsigned)(answer & 0xFF);
    if (refusal == 10)
        return fault_outcome(answer);
    if (refusal != 0)
        return refusal <= REFUSAL_LAST ? (enum outcome)refusal : OUTCOMES;
    switch (answer >> 8 & 0xFF) {
    case 0:  return NONE;
    case 1:  return status_outcome(answer);
    case 2:  return answer_byte(answer, 0) == 0xFF ? ASSIGN_DENIED : ASSIGNED;
    case 3:  return PLACE;
    case 4:  return login_outcome(answer);
    case 5:  return turn_outcome(answer);
    case 6:  return written_outcome(answer);
    case 8:  return bits_outcome(answer);
    case 9:  return line_outcome(answer);
    case 10: return boot_outcome(answer);
    case 13: return request_outcome(answer);
    default: return OUTCOMES;
    }
}

/* Are the bits above a refusal zero? Beside 10 stands kind 7 with three bytes. */
static int nothing_above_refusal(uint64_t answer)
{
    if ((answer & 0xFF) == 10)
        return (answer >> 8 & 0xFF) == 7 && answer >> 40 == 0;
    return answer >> 8 == 0;
}

/* Are the bits above the answer's own bytes zero? Kinds 7, 11 and 12 and those
 * above 13 have no answer. */
static int nothing_above(uint64_t answer)
{
    enum { NO_KIND = 7, KINDS = 14 };
    static const unsigned bytes[KINDS] = {
        0, 1, 4, 5, 6, 2, 1, NO_KIND, 4, 3, 1, NO_KIND, NO_KIND, 1
    };
    unsigned kind = (unsigned)(answer >> 8 & 0xFF);
    if ((answer & 0xFF) != 0)
        return nothing_above_refusal(answer);
    if (kind >= KINDS || bytes[kind] == NO_KIND)
        return 0;
    return bytes[kind] == 6 || answer >> (16 + 8 * bytes[kind]) == 0;
}

/* ---- a difference ---- */

static void dump(const char *name, const uint8_t *bytes, size_t len)
{
    printf("%s, %lu bytes:", name, (unsigned long)len);
    for (size_t i = 0; i < len; i++)
        printf(i % 32 == 0 ? "\n  %02X" : " %02X", bytes[i]);
    printf("\n");
}

static void dump_part(const struct part *part)
{
    const struct lent *lent = part->lent;
    dump(part->name, lent->before, lent->len);
    if (!margins_whole(lent))
        printf("  a canary around it is broken\n");
    for (size_t i = 0; i < lent->len; i++) {
        uint8_t expected = part->expected != NULL ? part->expected[i] : lent->before[i];
        if (lent->bytes[i] == expected)
            continue;
        printf("  byte %lu: library %02X, expected %02X\n",
               (unsigned long)i, lent->bytes[i], expected);
        break;
    }
}

static void dump_call(const struct call *call)
{
    printf("%s\n", entries[call->entry].name);
    for (unsigned i = 0; i < call->numbers; i++)
        printf("number argument %u: %llu\n", i, (unsigned long long)call->number[i]);
    printf("answer of the library:   %016llX\n", (unsigned long long)call->library);
    printf("answer of the reference: %016llX\n", (unsigned long long)call->reference);
    for (unsigned i = 0; i < call->parts; i++)
        dump_part(&call->part[i]);
}

void fail(const char *reason)
{
    printf("%s FAILED: %s\n", trace.driver, reason);
    printf("seed %llu, round %lu, step %lu\n",
           (unsigned long long)trace.seed, trace.round, trace.step);
    dump_call(&last_call);
    exit(1);
}

static void check_part(const struct call *call, const struct part *part)
{
    const struct lent *lent = part->lent;
    if (!margins_whole(lent))
        fail("wrote outside a slice");
    if (part->expected == NULL && !unchanged(lent))
        fail("wrote const memory");
    if ((call->library & 0xFF) != 0 && !unchanged(lent))
        fail("a refused call changed a byte");
    if (part->expected != NULL && memcmp(lent->bytes, part->expected, lent->len) != 0)
        fail("bytes differ from the reference");
}

void check_call(const struct call *call)
{
    last_call = *call;
    trace.step++;
    if (!nothing_above(call->library))
        fail("no such kind, or bits above the answer's bytes");
    for (unsigned i = 0; i < call->parts; i++)
        check_part(call, &call->part[i]);
    if (call->library != call->reference)
        fail("answers differ");
    enum outcome outcome = outcome_of(call->library);
    if (outcome == OUTCOMES || !has_outcome(call->entry, outcome))
        fail("an outcome that this entry does not have");
    counts[call->entry][outcome]++;
}

void expect_refusal(unsigned refusal)
{
    expect((last_call.library & 0xFF) == refusal,
           "not the refusal that this input was made for");
}

void expect_fault(unsigned part, unsigned row, unsigned breach)
{
    uint64_t word = (uint64_t)breach << 32 | (uint64_t)row << 24 | (uint64_t)part << 16 | 0x070A;
    expect(last_call.library == word, "not the fault that this input was made for");
}

void expect(int true_here, const char *reason)
{
    if (!true_here)
        fail(reason);
}

/* ---- start and end of a driver ---- */

struct rounds rounds_from(int argc, char **argv, unsigned long usual)
{
    unsigned long count = argc > 1 ? strtoul(argv[1], NULL, 10) : usual;
    struct rounds rounds;
    rounds.first = argc > 2 ? strtoul(argv[2], NULL, 10) : 0;
    rounds.end = rounds.first + count;
    return rounds;
}

static void print_outcome(unsigned outcome, unsigned long count)
{
    if (outcome < FAULT_HEADER)
        printf("  refusal %-19u %10lu\n", outcome, count);
    else
        printf("  %-27s %10lu\n", outcome_names[outcome], count);
}

int report(enum entry first, enum entry last)
{
    unsigned long calls = 0;
    int missing = 0;
    for (unsigned e = first; e <= last; e++) {
        printf("%s\n", entries[e].name);
        for (unsigned o = 1; o < OUTCOMES; o++) {
            if (!has_outcome(e, o))
                continue;
            print_outcome(o, counts[e][o]);
            calls += counts[e][o];
            missing += counts[e][o] == 0;
        }
    }
    printf("%s: %lu calls compared, %d outcomes missing\n", trace.driver, calls, missing);
    return missing == 0 ? 0 : 1;
}
