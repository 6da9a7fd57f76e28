/* Random numbers, lock strings and serials. */
#include "generate.h"

#include <stdio.h>
#include <stdlib.h>
#include <string.h>

/* ---- random numbers ---- */

struct rng rng_from(uint64_t seed)
{
    struct rng rng = { seed };
    return rng;
}

uint64_t rng_next(struct rng *rng)
{
    uint64_t z = rng->state += 0x9E3779B97F4A7C15u;
    z = (z ^ z >> 30) * 0xBF58476D1CE4E5B9u;
    z = (z ^ z >> 27) * 0x94D049BB133111EBu;
    return z ^ z >> 31;
}

unsigned rng_below(struct rng *rng, unsigned count)
{
    return (unsigned)(rng_next(rng) % count);
}

int rng_one_in(struct rng *rng, unsigned count)
{
    return rng_below(rng, count) == 0;
}

uint8_t rng_byte(struct rng *rng)
{
    return (uint8_t)rng_below(rng, 256);
}

uint8_t rng_nonzero(struct rng *rng)
{
    return (uint8_t)(1 + rng_below(rng, 255));
}

void rng_bytes(struct rng *rng, uint8_t *bytes, size_t count)
{
    for (size_t i = 0; i < count; i++)
        bytes[i] = rng_byte(rng);
}

void try_again(unsigned long *tries, const char *wanted)
{
    enum { TRIES_MOST = 100000 };
    if (++*tries < TRIES_MOST)
        return;
    fprintf(stderr, "generator: not found in %d tries: %s\n", TRIES_MOST, wanted);
    exit(1);
}

/* ---- lock strings ---- */

/* Twelve families of thirteen lengths: prefixes of each other, zero bytes,
   and strings that differ in the first or the last byte only. */
void pool_string(unsigned i, uint8_t string[14])
{
    unsigned length = 1 + i % 13, family = i / 13 % 12;
    uint8_t fill = 'A';
    if (family == 1 || family == 6)
        fill = 0;
    if (family == 5)
        fill = 0xFF;
    if (family > 7)
        fill = (uint8_t)('C' + family);
    memset(string, 0, 14);
    string[0] = (uint8_t)length;
    memset(string + 1, fill, length);
    if (family == 2)
        string[length] = 'B';
    if (family == 3)
        string[length] = 0;
    if (family == 4)
        string[1] = 'B';
    if (family == 6)
        string[length] = 1;
    if (family == 7)
        string[1] = 0;
}

/* Bytes after the string: none, one, or all of them. */
void stray_bytes(struct rng *rng, uint8_t string[14])
{
    unsigned length = string[0];
    if (length >= 13)
        return;
    switch (rng_below(rng, 4)) {
    case 0:
        rng_bytes(rng, string + 1 + length, 13 - length);
        break;
    case 1:
        string[1 + length] = rng_one_in(rng, 2) ? 'A' : 'B';
        break;
    case 2:
        string[13] = rng_nonzero(rng);
        break;
    default:
        break;
    }
}

void legal_string(struct rng *rng, uint8_t string[14])
{
    pool_string(rng_below(rng, POOL), string);
    stray_bytes(rng, string);
}

void any_string(struct rng *rng, uint8_t string[14])
{
    static const uint8_t bad[] = { 0, 14, 15, 16, 127, 128, 129, 255 };
    legal_string(rng, string);
    if (rng_one_in(rng, 12))
        string[0] = RNG_PICK(rng, bad);
}

/* ---- serials ---- */

/* Zero, one serial, and others that differ from it in one byte, or in its
   order, or begin or end with zeros. */
void pool_serial(unsigned i, uint8_t serial[4])
{
    static const uint8_t pool[SERIALS][4] = {
        { 0, 0, 0, 0 }, { 1, 2, 3, 4 },
        { 0x81, 2, 3, 4 }, { 1, 3, 3, 4 }, { 1, 2, 0x43, 4 }, { 1, 2, 3, 5 },
        { 4, 3, 2, 1 }, { 0, 2, 0, 0 },
        { 0, 2, 3, 4 }, { 0, 0, 3, 4 }, { 0, 0, 0, 4 }, { 0, 0, 3, 0 },
        { 1, 2, 3, 0 }, { 1, 2, 0, 0 }, { 1, 0, 0, 0 }, { 0xFF, 0xFF, 0xFF, 0xFF }
    };
    memcpy(serial, pool[i], 4);
}

void any_serial(struct rng *rng, uint8_t serial[4])
{
    switch (rng_below(rng, 4)) {
    case 0:  memset(serial, 0, 4); break;
    case 1:  pool_serial(rng_below(rng, SERIALS), serial); break;
    default: rng_bytes(rng, serial, 4); break;
    }
}
