/*
 * Writes the input of a session and what the session program must print.
 * Usage: sessions SEED FOLDER
 * writes FOLDER/site.bin (for some seeds none), FOLDER/records and
 * FOLDER/expected.
 */
#include "generate.h"
#include "reference.h"

#include <stdio.h>
#include <stdlib.h>
#include <string.h>

static struct rng rng;

/* The site file of a session. */
static struct {
    int missing;
    size_t len;
    uint8_t bytes[6000];
} file;

/* The records of a session: number, length, frame. */
static struct {
    size_t len;
    uint8_t bytes[1 << 21];
} records;

/* The tables that the generator looks at to find good numbers. */
static struct tables tables;
static struct site site;

/* ---- the input ---- */

static void fresh(void)
{
    tables.locks_len = 1024;
    tables.stations_len = 1152;
    ref_fresh(tables.locks, 1024, tables.stations, 1152);
}

static void add_record(uint32_t number, const struct frame *frame)
{
    uint8_t *bytes = records.bytes + records.len;
    bytes[0] = (uint8_t)(number & 0xFF);
    bytes[1] = (uint8_t)frame->len;
    memcpy(bytes + 2, frame->bytes, frame->len);
    records.len += 2 + frame->len;
    ref_frame(bytes[0], frame->bytes, frame->len, site.bytes, site.len,
              tables.locks, 1024, tables.stations, 1152);
}

static void add_run(unsigned count)
{
    enum mood mood = MOOD_LOGINS;
    struct frame frame;
    for (unsigned i = 0; i < count; i++) {
        if (rng_one_in(&rng, 80))
            mood = (enum mood)rng_below(&rng, MOODS);
        uint32_t number = next_frame(&rng, mood, &site, tables.locks, tables.stations, &frame);
        if (rng_one_in(&rng, 300))
            frame.len = 21 + rng_below(&rng, 235);
        add_record(number, &frame);
    }
}

static void add_all_numbers(void)
{
    struct frame frame;
    for (uint32_t number = 0; number < 256; number++)
        for (unsigned k = 0; k < CODES; k++) {
            frame_good(&rng, &frame, codes[k], number, &site);
            add_record(number, &frame);
        }
}

static void add_empty_frames(void)
{
    struct frame frame = { 0, { 0 } };
    for (uint32_t number = 0; number < 256; number += 5)
        add_record(number, &frame);
}

/* A last record that is cut: after the number, the length, or in the frame. */
static void add_cut(unsigned left)
{
    struct frame frame;
    frame_good(&rng, &frame, CODE_LOCK, 0, &site);
    size_t start = records.len;
    add_record(0, &frame);
    records.len = start + left;
}

static void site_as_file(void)
{
    memcpy(file.bytes, site.bytes, site.len);
    file.len = site.len;
}

static void bad_file(void)
{
    struct site bad;
    site_damaged(&rng, &bad, (enum site_damage)rng_below(&rng, SITE_DAMAGES));
    memcpy(file.bytes, bad.bytes, bad.len);
    file.len = bad.len;
}

/* The largest good file, made longer or shorter. */
static void file_of_length(size_t len)
{
    site_good(&rng, &site, 128, 64, 4);
    site_as_file();
    memset(file.bytes + site.len, 0, sizeof file.bytes - site.len);
    file.len = len;
}

static void make_input(unsigned kind)
{
    fresh();
    site_any(&rng, &site);
    site_as_file();
    switch (kind) {
    case 0:  add_run(3000); break;
    case 1:  add_run(1 + rng_below(&rng, 30)); break;
    case 2:  break;
    case 3:  add_run(rng_below(&rng, 20)); add_cut(1); break;
    case 4:  add_run(rng_below(&rng, 20)); add_cut(2); break;
    case 5:  add_run(rng_below(&rng, 20)); add_cut(3 + rng_below(&rng, 14)); break;
    case 6:  add_run(10); file.missing = 1; break;
    case 7:  add_run(10); bad_file(); break;
    case 8:  add_run(10); file.len--; break;
    case 9:  add_run(10); file.len++; break;
    case 10: file_of_length(3593); add_run(10); break;
    case 11: file_of_length(5000); add_run(10); break;
    case 12: file_of_length(0); break;
    case 13: file_of_length(3592); add_run(3000); break;
    case 14: add_run(200); add_all_numbers(); add_empty_frames(); break;
    default: add_run(5000); add_cut(16); break;
    }
}

/* ---- what the program must print ---- */

static void print_session(FILE *out)
{
    if (file.missing || ref_check_site(file.bytes, file.len) != 0) {
        fprintf(out, "site 10\n");
        return;
    }
    fprintf(out, "rec num ref answer\n");
    fresh();
    size_t at = 0;
    for (unsigned long index = 0; at < records.len; index++) {
        const uint8_t *record = records.bytes + at;
        size_t left = records.len - at;
        if (left < 2 || left < 2 + (size_t)record[1]) {
            fprintf(out, "cut\n");
            return;
        }
        uint64_t answer = ref_frame(record[0], record + 2, record[1], file.bytes, file.len,
                                    tables.locks, 1024, tables.stations, 1152);
        ref_print_line(out, index, record[0], answer);
        at += 2 + (size_t)record[1];
    }
}

/* ---- files ---- */

static FILE *open_in(const char *folder, const char *name)
{
    char path[4096];
    snprintf(path, sizeof path, "%s/%s", folder, name);
    FILE *out = fopen(path, "wb");
    if (out == NULL) {
        perror(path);
        exit(1);
    }
    return out;
}

static void write_bytes(const char *folder, const char *name, const uint8_t *bytes, size_t len)
{
    FILE *out = open_in(folder, name);
    fwrite(bytes, 1, len, out);
    fclose(out);
}

int main(int argc, char **argv)
{
    if (argc != 3) {
        fprintf(stderr, "usage: sessions SEED FOLDER\n");
        return 1;
    }
    unsigned long seed = strtoul(argv[1], NULL, 10);
    rng = rng_from(seed);
    make_input((unsigned)(seed % 16));
    if (!file.missing)
        write_bytes(argv[2], "site.bin", file.bytes, file.len);
    write_bytes(argv[2], "records", records.bytes, records.len);
    FILE *out = open_in(argv[2], "expected");
    print_session(out);
    return fclose(out) == 0 ? 0 : 1;
}
