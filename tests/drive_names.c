/*
 * Compares the library with the reference: names that are padded with zeros or
 * with spaces, at login, at assign and in the check of a site file, beside
 * passwords and lock strings, which are not. Which names are equal is written
 * out by hand here. Usage: drive_names [rounds [first round]]
 */
#include "desk.h"
#include "hinet.h"

#include <stdio.h>
#include <string.h>

enum { SEED = 1986, ROUNDS = 4, NAME = 8, PASSWORD = 6, USER_ROW = 16, PARTITION_ROW = 24 };

static struct rng rng;
static struct site site;
static struct tables tables;
static struct frame frame;

/* In the names below a dot is a zero and an underline is a space. */
static void spell(uint8_t *bytes, const char *text, unsigned len)
{
    for (unsigned k = 0; k < len; k++)
        bytes[k] = (uint8_t)(text[k] == '.' ? 0 : text[k] == '_' ? ' ' : text[k]);
}

/* ---- which names are equal ---- */

static const struct pair {
    const char *one, *other;
    int equal;
} pairs[] = {
    { "BETTY...", "BETTY...", 1 },      /* byte by byte */
    { "BETTY...", "BETTY___", 1 },      /* either way */
    { "BETTY_._", "BETTY._.", 1 },      /* in any mix */
    { "BETTY.._", "BETTY...", 1 },
    { "A._.____", "A.......", 1 },
    { "A._.____", "A_______", 1 },
    { "........", "________", 1 },      /* nothing but padding */
    { "._._._._", "________", 1 },
    { ".......A", ".......A", 1 },
    { "BETTYBOB", "BETTYBOB", 1 },
    { "BETTYBO.", "BETTYBO_", 1 },
    { "\x80.......", "\x80_______", 1 },
    { "\x01.......", "\x01_______", 1 },
    { "!.......", "!_______", 1 },
    { "BETTY___", "BETTYX__", 0 },
    { "BETTYBO.", "BETTYBOB", 0 },
    { "BETTY...", "betty...", 0 },      /* case counts */
    { "BETTY...", "BETTy___", 0 },
    { "_BETTY__", "BETTY___", 0 },      /* leading blanks count */
    { ".BETTY..", "BETTY...", 0 },
    { "_BETTY__", ".BETTY__", 0 },      /* and which they are */
    { "__BETTY_", "_BETTY__", 0 },
    { "_______A", ".......A", 0 },
    { "_______A", "A_______", 0 },
    { "BE_TTY__", "BETTY___", 0 },      /* inner blanks count */
    { "BE_TTY__", "BE.TTY__", 0 },
    { "BE__TTY_", "BE_TTY__", 0 },
    { "A_B.....", "A.B.....", 0 },
    { "A_B.....", "A.......", 0 },
    { "A.......", "........", 0 },
    { "@.......", "`.......", 0 },      /* letters that differ in the space's bit */
    { "A_______", "a_______", 0 },
    { "\x01.......", "!.......", 0 },
    { "\xDF.......", "\xFF.......", 0 },
    { "\x80.......", "\xA0.......", 0 },
    { "\xA0.......", "________", 0 },   /* no other byte pads */
    { "\x09.......", "________", 0 },
    { "\x1F.......", "........", 0 },
    { "!.......", "________", 0 },
    { "BETTY\xA0__", "BETTY___", 0 },
    { "BETTY\x01..", "BETTY...", 0 }
};

enum { PAIRS = sizeof pairs / sizeof *pairs };

/* ---- what was compared ---- */

/* In generated files, the users and the partitions that were found by a name
 * padded otherwise than theirs: both must have been met. */
enum { BY_LOGIN, BY_ASSIGN };
static unsigned long names_compared, found_repadded[2];

/* Prints the counts; ends with failure if nobody was padded otherwise. */
static int report_names(void)
{
    printf("  users, padded otherwise     %10lu\n", found_repadded[BY_LOGIN]);
    printf("  partitions, likewise        %10lu\n", found_repadded[BY_ASSIGN]);
    printf("%s: %lu names compared\n", trace.driver, names_compared);
    return found_repadded[BY_LOGIN] != 0 && found_repadded[BY_ASSIGN] != 0 ? 0 : 1;
}

/* ---- a site file with few rows ---- */

static uint8_t *user(unsigned i)
{
    return site.bytes + 8 + USER_ROW * i;
}

static uint8_t *row(unsigned i)
{
    return site.bytes + 8 + USER_ROW * site.bytes[0] + PARTITION_ROW * i;
}

/* So many users and partitions, USER0 and DISK0 and so on, all with the password
 * SECRET; partition i has number i. */
static void few_rows(unsigned users, unsigned partitions)
{
    memset(site.bytes, 0, SITE_ROOM);
    site.bytes[0] = (uint8_t)users;
    site.bytes[2] = 8;
    site.bytes[4] = (uint8_t)partitions;
    site.bytes[6] = (uint8_t)(8 + USER_ROW * users);
    site.len = 8 + USER_ROW * users + PARTITION_ROW * partitions;
    for (unsigned i = 0; i < users; i++) {
        memcpy(user(i), "USER    SECRET", NAME + PASSWORD);
        user(i)[4] = (uint8_t)('0' + i);
    }
    for (unsigned i = 0; i < partitions; i++) {
        memcpy(row(i), "DISK\0\0\0\0SECRET\x02?\x01\x05", 18);
        row(i)[4] = (uint8_t)('0' + i);
        row(i)[15] = (uint8_t)i;
        row(i)[19] = (uint8_t)(8 * i);          /* first sector 2,048 times i */
    }
}

/* ---- login ---- */

/* A login on fresh tables is number 1, and its record has what was sent. */
static int login_finds(const uint8_t *name, const uint8_t *password)
{
    static const uint8_t front[4] = { 1, 0, 0, 0 };
    uint8_t *record;
    frame.len = 20;
    memcpy(frame.bytes, "\x13" "NAME    PASSWDSERI\x07", 20);
    memcpy(frame.bytes + 1, name, NAME);
    memcpy(frame.bytes + 9, password, PASSWORD);
    tables_played(&rng, &tables, 0, 0);
    desk_put_tables(&tables);
    uint64_t answer = desk_frame(253, &frame);
    int found = hinet_answer_login_found(answer);
    expect(answer == (UINT64_C(0x4952455300010400) | (uint64_t)found << 24), "word of a login");
    record = desk.stations.bytes + 18;
    expect(memcmp(record, front, 4) == 0, "front of the record");
    expect(memcmp(record + 4, name, NAME) == 0, "the name kept is not the name sent");
    expect(memcmp(record + 12, "SERI\x07", 5) == 0 && record[17] == found, "end of the record");
    names_compared++;
    return found;
}

/* The user is in the middle of others who are not met. */
static void login_by(const struct pair *pair)
{
    uint8_t sent[NAME];
    few_rows(5, 0);
    spell(user(2), pair->one, NAME);
    spell(sent, pair->other, NAME);
    desk_put_site(&site);
    expect(login_finds(sent, (const uint8_t *)"SECRET") == pair->equal, pair->other);
    expect(hinet_name_equal(sent, user(2)) == pair->equal, "header: names equal");
    expect(login_finds(user(2), (const uint8_t *)"SECRET") == 1, pair->one);
}

/* ---- assign ---- */

static int assign_grants(const uint8_t *name, const uint8_t *password)
{
    frame.len = 15;
    frame.bytes[0] = 0x17;
    memcpy(frame.bytes + 1, name, NAME);
    memcpy(frame.bytes + 9, password, PASSWORD);
    tables_played(&rng, &tables, 0, 0);
    desk_put_tables(&tables);
    uint64_t answer = desk_frame(0, &frame);
    names_compared++;
    if (answer == UINT64_C(0x000000FF0200))
        return 0;
    expect(answer == UINT64_C(0x020502010200), "word of an assign to partition 2");
    return 1;
}

static void assign_by(const struct pair *pair)
{
    uint8_t sent[NAME];
    few_rows(1, 5);
    spell(row(2), pair->one, NAME);
    spell(sent, pair->other, NAME);
    desk_put_site(&site);
    expect(assign_grants(sent, (const uint8_t *)"SECRET") == pair->equal, pair->other);
    expect(assign_grants(sent, (const uint8_t *)"\0\0\0\0\0\0") == pair->equal, pair->other);
    expect(assign_grants(row(2), (const uint8_t *)"SECRET") == 1, pair->one);
}

/* ---- the site check ---- */

/* Rows 1 and 3 of a table have the two names; the later one is at fault. */
static void rows_clash(const struct pair *pair, unsigned part, uint8_t *(*rows)(unsigned))
{
    few_rows(5, 5);
    spell(rows(1), pair->one, NAME);
    spell(rows(3), pair->other, NAME);
    desk_put_site(&site);
    desk_check_site();
    names_compared++;
    if (pair->equal)
        expect_fault(part, 3, BREACH_NAME);
    else
        expect_refusal(0);
}

/* A user and a partition may share a name. */
static void tables_apart(const struct pair *pair)
{
    few_rows(5, 5);
    spell(user(1), pair->one, NAME);
    spell(row(3), pair->other, NAME);
    desk_put_site(&site);
    desk_check_site();
    expect_refusal(0);
}

static void pairs_by_hand(void)
{
    for (unsigned i = 0; i < PAIRS; i++) {
        const struct pair turned = { pairs[i].other, pairs[i].one, pairs[i].equal };
        const struct pair *both[2] = { &pairs[i], &turned };
        for (unsigned k = 0; k < 2; k++) {
            login_by(both[k]);
            assign_by(both[k]);
            rows_clash(both[k], PART_USER, user);
            rows_clash(both[k], PART_PARTITION, row);
            tables_apart(both[k]);
        }
    }
}

/* ---- passwords are exact ---- */

static void passwords_by_hand(void)
{
    static const char *const words[] = {
        "......", "______", "._._._", "PASS..", "PASS__", "PASS._", "_PASS_", ".PASS.", "PASS_.",
        "pass.."
    };
    uint8_t kept[PASSWORD], sent[PASSWORD];
    enum { WORDS = sizeof words / sizeof *words };
    for (unsigned i = 0; i < WORDS; i++)
        for (unsigned k = 0; k < WORDS; k++) {
            few_rows(5, 5);
            spell(kept, words[i], PASSWORD);
            spell(sent, words[k], PASSWORD);
            memcpy(user(2) + NAME, kept, PASSWORD);
            memcpy(row(2) + NAME, kept, PASSWORD);
            desk_put_site(&site);
            expect(login_finds(user(2), sent) == (i == k), "a padded password at login");
            expect(assign_grants(row(2), sent) == (i == k || k == 0),
                   "a padded password at assign");
        }
}

/* ---- lock strings are exact ---- */

/* Each of these is a string of its own, so all are granted to one station and
 * none to the other. */
static void strings_by_hand(void)
{
    static const char *const strings[] = {
        "\1A", "\2A_", "\2A.", "\3A__", "\3A._", "\3A_.", "\3A..", "\2_A", "\2.A",
        "\1_", "\1.", "\2__", "\2.."
    };
    few_rows(0, 0);
    desk_put_site(&site);
    tables_played(&rng, &tables, 2, 0);
    desk_put_tables(&tables);
    for (unsigned number = 1; number <= 2; number++)
        for (unsigned i = 0; i < sizeof strings / sizeof *strings; i++) {
            frame.len = 15;
            memset(frame.bytes, 0, 15);
            frame.bytes[0] = 0x19;
            frame.bytes[1] = (uint8_t)strings[i][0];
            spell(frame.bytes + 2, strings[i] + 1, frame.bytes[1]);
            expect(desk_frame(number, &frame) == (number == 1 ? 0x000100 : 0x010100),
                   "a padded lock string");
        }
}

/* ---- all names of zeros, spaces and a letter ---- */

/* Each is looked up among users and partitions who have some of them: a name
 * with so much padding is found in so many forms. */
static void every_blank(void)
{
    static const uint8_t bytes[3] = { 0, ' ', 'A' };
    static const char *const kept[5] = {
        "A.......", "_A______", "........", "A__A....", ".......A"
    };
    uint8_t sent[NAME];
    unsigned users = 0, rows = 0;
    few_rows(5, 5);
    for (unsigned i = 0; i < 5; i++) {
        spell(user(i), kept[i], NAME);
        spell(row(i), kept[i], NAME);
    }
    desk_put_site(&site);
    desk_check_site();
    expect_refusal(0);
    for (unsigned n = 0; n < 6561; n++) {
        for (unsigned k = 0, rest = n; k < NAME; k++, rest /= 3)
            sent[k] = bytes[rest % 3];
        users += (unsigned)login_finds(sent, (const uint8_t *)"SECRET");
        frame.len = 15;
        frame.bytes[0] = 0x17;
        rows += desk_frame(1, &frame) != UINT64_C(0x000000FF0200);
    }
    expect(users == 128 + 64 + 256 + 16 + 1, "users found by names of blanks and a letter");
    expect(rows == 128 + 64 + 256 + 16 + 1, "partitions found by names of blanks and a letter");
}

/* ---- any names in any files ---- */

/* Every user and every partition is found by its name padded anew. */
static void found_in_any(void)
{
    uint8_t sent[NAME];
    site_any(&rng, &site);
    desk_put_site(&site);
    for (unsigned i = 0; i < site_users(&site); i++) {
        memcpy(sent, site_user(&site, i), NAME);
        name_repadded(&rng, sent);
        found_repadded[BY_LOGIN] += memcmp(sent, site_user(&site, i), NAME) != 0;
        expect(login_finds(sent, site_user(&site, i) + NAME) == 1, "a user in any file");
    }
    for (unsigned i = 0; i < site_partitions(&site); i++) {
        const uint8_t *row = site_partition(&site, i);
        frame.len = 15;
        frame.bytes[0] = 0x17;
        memcpy(frame.bytes + 1, row, NAME + PASSWORD);
        name_repadded(&rng, frame.bytes + 1);
        found_repadded[BY_ASSIGN] += memcmp(frame.bytes + 1, row, NAME) != 0;
        uint64_t told = row[16] | (uint64_t)row[15] << 8 | (uint64_t)row[17] << 16
                      | (uint64_t)row[14] << 24;
        expect(desk_frame(0, &frame) == (told << 16 | 0x0200), "a partition in any file");
    }
}

static void by_hand(void)
{
    pairs_by_hand();
    passwords_by_hand();
    strings_by_hand();
    every_blank();
}

int main(int argc, char **argv)
{
    struct rounds rounds = rounds_from(argc, argv, ROUNDS);
    trace.driver = "drive_names";
    trace.seed = SEED;
    rng = rng_from(SEED);
    by_hand();
    for (trace.round = rounds.first; trace.round < rounds.end; trace.round++) {
        trace.step = 0;
        rng = rng_from(((uint64_t)SEED << 32) + trace.round);
        for (unsigned i = 0; i < 60; i++)
            found_in_any();
    }
    return report_names();
}
