/*
 * A shop: small tables of the boot, written out by hand, and stories of logins
 * in it, each with what must come out.
 */
#ifndef SHOP_H
#define SHOP_H

#include "generate.h"

enum { NO_ROW = 255, EDITS = 4, STORIES = 87 };

extern struct boot shop;

/* Rows of the shop as they stand at first. */
extern const char *const shop_files[], *const shop_machines[], *const shop_products[],
    *const shop_users[];

/* Puts the shop as it stands at first, with ANNA at its first machine. */
void open_shop(void);

/* A flag; the files, as letters of directory rows of the shop; the row of the
 * drives, or NO_ROW; and the row of the machine. */
struct result {
    unsigned flag;
    const char *files;
    unsigned configuration, machine;
};

/* The 194 bytes that a result other than flag 4 leaves. */
void block_of(const struct result *result, uint8_t *block);

/* Bytes of a row of the shop that are others. */
struct edit {
    enum boot_table table;
    unsigned row, at;
    const char *bytes;
    unsigned len;
};

/* Who logs in at the machine of the result, what is changed in the shop before,
 * and what must come out. In the name that is sent a dot is a zero. */
struct story {
    const char *what, *name, *password;
    struct edit edits[EDITS];
    struct result result;
};
extern const struct story stories[STORIES];

/* Opens the shop with the edits and the login of a story. */
void begin_story(const struct story *story);

#endif
