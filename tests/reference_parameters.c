/*
 * Disk parameters, as the makers' protocol paper tables them: a line for each
 * field and a column for each size code. The paper prints "Directory count -
 * 163" for what is "- 1" and 63, and the third MS-DOS column as size 2.
 */
#include "reference.h"

enum { SIZES = 6, BLOCK = 15 };

/* A field: how many bytes it has, and its number for each size. */
struct field {
    unsigned bytes;
    unsigned of[SIZES];
};

static const struct field cpm[] = {
    { 2, { 128, 128, 128, 128, 128, 128 } },            /* sectors per track */
    { 1, { 3, 4, 4, 4, 4, 5 } },                        /* block shift */
    { 1, { 7, 15, 15, 15, 15, 31 } },                   /* its mask */
    { 1, { 0, 0, 0, 0, 0, 1 } },                        /* extent mask */
    { 2, { 255, 255, 511, 1023, 2047, 2047 } },         /* block count - 1 */
    { 2, { 63, 127, 255, 511, 1023, 1023 } },           /* directory count - 1 */
    { 1, { 0xC0, 0xC0, 0xF0, 0xFF, 0xFF, 0xFF } },      /* directory blocks */
    { 1, { 0, 0, 0, 0, 0xFF, 0 } },
    { 2, { 16, 32, 64, 128, 256, 256 } },               /* check vector size */
    { 2, { 0, 0, 0, 0, 0, 0 } }                         /* op sys tracks */
};

static const struct field msdos[] = {
    { 2, { 128, 128, 128, 128, 128, 128 } },            /* bytes per sector */
    { 1, { 8, 8, 8, 16, 16, 32 } },                     /* sectors per cluster */
    { 2, { 1, 1, 1, 1, 1, 1 } },                        /* reserved sectors */
    { 1, { 2, 2, 2, 2, 2, 2 } },                        /* no. FATs */
    { 2, { 64, 128, 256, 256, 256, 256 } },             /* root dir entries */
    { 2, { 2048, 4096, 8192, 16384, 32768, 65535 } },   /* no. sectors */
    { 1, { 0, 1, 2, 3, 4, 5 } },                        /* media byte */
    { 2, { 3, 6, 12, 12, 24, 24 } },                    /* sectors per FAT */
    { 2, { 128, 128, 128, 128, 128, 128 } }             /* sectors per track */
};

static uint64_t parameters(const struct field *fields, unsigned count,
                           uint32_t size, uint8_t *buffer, size_t buffer_len)
{
    if (size == 0 || size > SIZES)
        return 16;
    if (buffer_len < BLOCK)
        return 13;
    uint8_t *next = buffer;
    for (unsigned f = 0; f < count; f++) {
        *next++ = (uint8_t)(fields[f].of[size - 1] & 0xFF);
        if (fields[f].bytes == 2)
            *next++ = (uint8_t)(fields[f].of[size - 1] >> 8);
    }
    return 6 << 8 | BLOCK << 16;
}

uint64_t ref_cpm_parameters(uint32_t size, uint8_t *buffer, size_t buffer_len)
{
    return parameters(cpm, sizeof cpm / sizeof *cpm, size, buffer, buffer_len);
}

uint64_t ref_msdos_parameters(uint32_t size, uint8_t *buffer, size_t buffer_len)
{
    return parameters(msdos, sizeof msdos / sizeof *msdos, size, buffer, buffer_len);
}
