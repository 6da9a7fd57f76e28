/*
 * Writes site files, good ones and bad ones, and what `check-site` must print
 * for them. Usage: sites FOLDER
 * writes FOLDER/000-empty.bin and so on, and FOLDER/expected, a line for each
 * file in the order of their names.
 */
#include "generate.h"
#include "reference.h"

#include <stdio.h>
#include <stdlib.h>
#include <string.h>

enum { SEED = 10, HEADER = 8, USER_ROW = 16, PARTITION_ROW = 24, LONGEST = 3592 };

static struct rng rng;
static struct site site;
static const char *folder;
static FILE *expected;
static unsigned files;

/* ---- the words ---- */

static unsigned number16(const uint8_t *bytes)
{
    return bytes[0] | (unsigned)bytes[1] << 8;
}

/* Byte i of a word: 0 the part, 1 the row, 2 the breach. */
static unsigned byte_of(uint64_t word, unsigned i)
{
    return (unsigned)(word >> (16 + 8 * i) & 0xFF);
}

/* `1 user`, otherwise `N users`. */
static void print_count(unsigned count, const char *what)
{
    fprintf(expected, "%u %s%s", count, what, count == 1 ? "" : "s");
}

static void print_good(const uint8_t *bytes)
{
    fprintf(expected, "good, ");
    print_count(number16(bytes), "user");
    fprintf(expected, ", ");
    print_count(number16(bytes + 4), "partition");
    fprintf(expected, "\n");
}

/* The header's own numbers and the length of the file. */
static void print_header(const uint8_t *bytes, size_t len)
{
    fprintf(expected, "header: out of range: ");
    if (len < HEADER) {
        print_count((unsigned)len, "byte");
        fprintf(expected, " in all, and a header has 8\n");
        return;
    }
    print_count(number16(bytes), "user");
    fprintf(expected, " from byte %u, ", number16(bytes + 2));
    print_count(number16(bytes + 4), "partition");
    fprintf(expected, " from byte %u, ", number16(bytes + 6));
    if (len > LONGEST)
        fprintf(expected, "more than 3592 bytes in all\n");
    else
        fprintf(expected, "%lu bytes in all\n", (unsigned long)len);
}

/* The first and the last byte of a row, from where the first row stands. */
static void print_bytes(unsigned from, unsigned width, unsigned row)
{
    fprintf(expected, "%u to %u", from + width * row, from + width * row + width - 1);
}

static void print_pair(unsigned from, unsigned width, unsigned row, unsigned earlier)
{
    fprintf(expected, " (bytes ");
    print_bytes(from, width, row);
    fprintf(expected, " and ");
    print_bytes(from, width, earlier);
    fprintf(expected, ")\n");
}

static void print_user(unsigned row, unsigned earlier)
{
    fprintf(expected, "user row %u: repeats the name of the earlier row %u", row, earlier);
    print_pair(HEADER, USER_ROW, row, earlier);
}

/* Partition row: name 8, password 6, volume, number, size code, control, first
 * sector (4), two spare bytes. */
static void print_range(const uint8_t *bytes, unsigned from, unsigned row)
{
    const uint8_t *at = bytes + from + PARTITION_ROW * row;
    unsigned long first = number16(at + 18) | (unsigned long)number16(at + 20) << 16;
    fprintf(expected, "out of range: volume %u, number %u, size code %u, ", at[14], at[15], at[16]);
    fprintf(expected, "first sector %lu, spare bytes %u %u (bytes ", first, at[22], at[23]);
    print_bytes(from, PARTITION_ROW, row);
    fprintf(expected, ")\n");
}

/* A partition row that clashes with an earlier one. */
static void print_clash(const uint8_t *bytes, unsigned from, unsigned row,
                        unsigned breach, unsigned earlier)
{
    const uint8_t *at = bytes + from + PARTITION_ROW * row;
    switch (breach) {
    case BREACH_NAME:
        fprintf(expected, "repeats the name of the earlier row %u", earlier);
        break;
    case BREACH_NUMBER:
        fprintf(expected, "repeats volume %u and number %u of the earlier row %u",
                at[14], at[15], earlier);
        break;
    default:
        fprintf(expected, "overlaps the earlier row %u on volume %u", earlier, at[14]);
        break;
    }
    print_pair(from, PARTITION_ROW, row, earlier);
}

static void print_partition(const uint8_t *bytes, uint64_t word)
{
    unsigned from = HEADER + USER_ROW * number16(bytes);
    unsigned row = byte_of(word, 1), breach = byte_of(word, 2);
    fprintf(expected, "partition row %u: ", row);
    if (breach == BREACH_RANGE)
        print_range(bytes, from, row);
    else
        print_clash(bytes, from, row, breach, ref_earlier_row(bytes, word));
}

/* What is wrong with a file, by the reference. */
static void print_words(const uint8_t *bytes, size_t len)
{
    uint64_t word = ref_check_site(bytes, len);
    unsigned part = byte_of(word, 0);
    if (word == 0)
        print_good(bytes);
    else if (part == PART_HEADER)
        print_header(bytes, len);
    else if (part == PART_USER)
        print_user(byte_of(word, 1), ref_earlier_row(bytes, word));
    else
        print_partition(bytes, word);
}

/* ---- files ---- */

static FILE *open_in_folder(const char *name)
{
    char path[4096];
    snprintf(path, sizeof path, "%s/%s", folder, name);
    FILE *out = fopen(path, "wb");
    if (out == NULL) {
        perror(path);
        exit(1);
    }
    return out;
}

static void close_file(FILE *out)
{
    if (fclose(out) != 0) {
        perror(folder);
        exit(1);
    }
}

/* Writes the next file and its line. */
static void add_bytes(const char *what, const uint8_t *bytes, size_t len)
{
    char name[80];
    snprintf(name, sizeof name, "%03u-%s.bin", files++, what);
    FILE *out = open_in_folder(name);
    fwrite(bytes, 1, len, out);
    close_file(out);
    fprintf(expected, "%s: ", name);
    print_words(bytes, len);
}

static void add_site(const char *what)
{
    add_bytes(what, site.bytes, site.len);
}

/* ---- good files ---- */

static void good_files(void)
{
    static const char *const limits[SITE_LIMITS] = {
        "empty", "largest", "full-volume", "number-63", "ends-at-last", "touches-below",
        "touches-above", "number-on-two-volumes", "sectors-on-two-volumes",
        "user-named-as-partition"
    };
    static const unsigned counts[][2] = {
        { 1, 0 }, { 0, 1 }, { 1, 1 }, { 2, 1 }, { 1, 2 }, { 12, 9 },
        { 128, 0 }, { 0, 64 }, { 127, 63 }
    };
    for (unsigned limit = 0; limit < SITE_LIMITS; limit++) {
        site_at_limit(&rng, &site, (enum site_limit)limit);
        add_site(limits[limit]);
    }
    for (unsigned i = 0; i < sizeof counts / sizeof *counts; i++) {
        site_good(&rng, &site, counts[i][0], counts[i][1], 4);
        add_site("good");
    }
    for (unsigned i = 0; i < 10; i++) {
        site_any(&rng, &site);
        add_site("any");
    }
}

/* ---- bad files ---- */

static const char *const damages[SITE_DAMAGES] = {
    "no-bytes", "7-bytes", "short-by-1", "long-by-1",
    "users-129", "users-high-byte", "users-65535",
    "partitions-65", "partitions-high-byte", "partitions-65535",
    "user-offset-7", "user-offset-9", "user-offset-high-byte",
    "partition-offset-less", "partition-offset-more", "partition-offset-high-byte",
    "volume-4", "volume-128", "number-64", "number-255",
    "size-0", "size-7", "size-255", "ends-1-beyond", "first-wraps", "first-huge",
    "spare-1", "spare-2", "user-twice", "user-padded", "name-twice", "name-padded", "number-twice",
    "overlap-below", "overlap-above", "overlap-inside"
};

/* Each rule broken alone. */
static void damaged_files(void)
{
    for (unsigned damage = 0; damage < SITE_DAMAGES; damage++) {
        site_damaged(&rng, &site, (enum site_damage)damage);
        add_site(damages[damage]);
    }
}

/* Several rules broken in one row. */
static void broken_rows(void)
{
    static const char *const names[BREACHES] = { "", "-range", "-name", "-number", "-overlap" };
    for (unsigned breaches = 2; breaches <= BROKEN_ALL; breaches += 2) {
        char what[64] = "row";
        for (unsigned breach = BREACH_RANGE; breach < BREACHES; breach++)
            if (breaches & 1u << breach)
                strcat(what, names[breach]);
        site_row_broken(&rng, &site, breaches);
        add_site(what);
    }
}

/* Row 40 of a full volume lies across rows 10 and 11: the first of them is told. */
static void across_two_rows(void)
{
    site_at_limit(&rng, &site, LIMIT_FULL_VOLUME);
    uint8_t *first = site.bytes + HEADER + USER_ROW * site_users(&site) + 18;
    memcpy(first + PARTITION_ROW * 40, first + PARTITION_ROW * 10, 4);
    first[PARTITION_ROW * 40]++;
    add_site("across-two-rows");
}

/* Two faults, each kind before each. */
static void broken_twice(void)
{
    static const char *const names[FAULTY_KINDS] = {
        "header", "user", "range", "name", "number", "overlap"
    };
    for (unsigned first = 0; first < FAULTY_KINDS; first++)
        for (unsigned second = 0; second < FAULTY_KINDS; second++) {
            char what[64];
            snprintf(what, sizeof what, "%s-then-%s", names[first], names[second]);
            site_broken_twice(&rng, &site, (enum fault_kind)first, (enum fault_kind)second);
            add_site(what);
        }
}

/* A good file of 72 bytes, cut or with bytes after it, at each length to 104. */
static void cut_files(void)
{
    site_good(&rng, &site, 1, 2, 1);
    for (site.len = 0; site.len <= 104; site.len++)
        add_site("length");
}

/* Files around the longest good one, and far longer ones. */
static void long_files(void)
{
    static uint8_t bytes[200000];
    static const size_t lengths[] = {
        3568, 3591, 3592, 3593, 3616, 4095, 4096, 4097, 5000, 65536, 65544, 200000
    };
    site_good(&rng, &site, 128, 64, 4);
    memcpy(bytes, site.bytes, site.len);
    for (unsigned i = 0; i < sizeof lengths / sizeof *lengths; i++)
        add_bytes("long", bytes, lengths[i]);
    site_good(&rng, &site, 1, 1, 1);
    memcpy(bytes, site.bytes, LONGEST);
    add_bytes("long-of-two-rows", bytes, LONGEST);
    add_bytes("long-of-two-rows", bytes, 65536);
}

static void spoiled_files(void)
{
    for (unsigned i = 0; i < 80; i++) {
        site_spoiled(&rng, &site);
        add_site("spoiled");
    }
    for (unsigned i = 0; i < 20; i++) {
        site_scrambled(&rng, &site);
        add_site("scrambled");
    }
}

int main(int argc, char **argv)
{
    if (argc != 2) {
        fprintf(stderr, "usage: sites FOLDER\n");
        return 1;
    }
    folder = argv[1];
    rng = rng_from(SEED);
    expected = open_in_folder("expected");
    good_files();
    damaged_files();
    damaged_files();
    broken_rows();
    across_two_rows();
    broken_twice();
    cut_files();
    long_files();
    spoiled_files();
    close_file(expected);
    return 0;
}
