/*
 * The inputs of the bench: the largest site file, full tables and a station's
 * state, in several shapes. A shape says how keys (lock strings, user names,
 * partition names, serials) look beside each other, and how the partition rows
 * lie. The frame on the line has shapes of its own: they say what its data are.
 * So has the choice of a system: they say what the boot tables are.
 */
#ifndef SHAPES_H
#define SHAPES_H

#include "generate.h"

enum { LOCKS = 1024, STATIONS = 1152, DATA_MOST = 1024, LINE_MOST = 1237,
       BLOCK = 194 };

/* How the keys of a shape go; what the goal for it is. ON_LINE and AT_BOOT have
 * inputs of their own. */
enum goal { IN_ORDER, RANDOM, COLLIDING, ON_LINE, AT_BOOT };

struct shape {
    const char *name;
    enum goal goal;
};

/* A frame on the line: its data, and its bits. */
struct on_line {
    size_t data_len, count;
    uint8_t data[DATA_MOST];
    uint8_t bits[LINE_MOST];
};

/* The inputs in one shape. One on the line has the two lines alone, one at boot
 * the boot tables. */
struct inputs {
    struct site site;           /* 128 users, 64 partitions */
    struct tables empty;        /* station 1, no locks */
    struct tables full;         /* 63 stations, 64 locks */
    struct tables last;         /* full, and station 63 at its last turn */
    struct tables alike;        /* full, and all have the serial of station 63 */
    struct tables room;         /* 62 stations, 63 locks */
    struct state idle_empty;    /* waits for nothing, lists none */
    struct state idle_full;     /* waits for nothing, lists 64 */
    struct state waits_empty;   /* waits for a lock, lists none */
    struct state waits_full;    /* waits for a lock, lists 63 */
    uint8_t strings[65][14];    /* the strings of the locks, and one more */
    uint8_t serials[64][4];     /* the serials from station 1 on, and one more */
    struct on_line short_line;  /* 20 data bytes */
    struct on_line long_line;   /* 1,024 */
    struct boot boot;           /* tables of the boot, and a login */
};

enum { SHAPES = 26 };
extern const struct shape shapes[SHAPES];

/* Makes the inputs of shape number i. */
void shape_inputs(unsigned i, struct inputs *inputs);

/* Makes the tables of shape number i at boot, and the login. */
void boot_shape(struct rng *rng, unsigned i, struct boot *boot);

#endif
