/*
 * The frame on the line, as text: a bit is the character 0 or 1. Flags are
 * looked for as words, and the check is the remainder of a long division.
 */
#include "reference.h"
#include "reference_parts.h"

#include <stdio.h>
#include <stdlib.h>
#include <string.h>

enum { DATA_MOST = 1024, LINE_MOST = 8 * 8192, CHECK = 16 };

static const char flag[] = "01111110";
static const char shared_flag[] = "1111110";        /* its zero is that of the flag before */
static const char seven_ones[] = "1111111";

/* Bits as text. There is room for what the drivers lend. */
struct text {
    size_t len;
    char bits[LINE_MOST + CHECK + 1];
};

static void add(struct text *text, char bit)
{
    if (text->len == LINE_MOST + CHECK) {
        fprintf(stderr, "reference: too many bits\n");
        exit(1);
    }
    text->bits[text->len++] = bit;
    text->bits[text->len] = '\0';
}

static void add_word(struct text *text, const char *word)
{
    for (; *word != '\0'; word++)
        add(text, *word);
}

static void add_byte(struct text *text, uint8_t byte)
{
    for (unsigned i = 0; i < 8; i++)
        add(text, (byte / (1u << i)) % 2 == 1 ? '1' : '0');
}

static void clear(struct text *text)
{
    text->len = 0;
    text->bits[0] = '\0';
}

static char other(char bit)
{
    return bit == '0' ? '1' : '0';
}

/* ---- the check ---- */

/* The first bit of the line is the highest power. Sixteen zeros are added, the
 * first sixteen bits are turned, and the remainder is turned too. */
static void check_of(const char *bits, size_t len, char check[CHECK])
{
    static const char divisor[] = "10001000000100001";      /* x16 + x12 + x5 + 1 */
    static char left[LINE_MOST + CHECK];
    memcpy(left, bits, len);
    memset(left + len, '0', CHECK);
    for (size_t i = 0; i < CHECK; i++)
        left[i] = other(left[i]);
    for (size_t i = 0; i < len; i++)
        if (left[i] == '1')
            for (size_t k = 0; k <= CHECK; k++)
                left[i + k] = left[i + k] == divisor[k] ? '0' : '1';
    for (size_t i = 0; i < CHECK; i++)
        check[i] = other(left[len + i]);
}

unsigned ref_line_check(const uint8_t *bytes, size_t len)
{
    static struct text text;
    char check[CHECK];
    unsigned number = 0;
    clear(&text);
    for (size_t i = 0; i < len; i++)
        add_byte(&text, bytes[i]);
    check_of(text.bits, text.len, check);
    for (unsigned i = 0; i < CHECK; i++)
        if (check[i] == '1')
            number += 1u << i;
    return number;
}

/* ---- zeros after five ones ---- */

static int five_ones(const char *bits, size_t end)
{
    return end >= 5 && memcmp(bits + end - 5, "11111", 5) == 0;
}

static void add_with_zeros(struct text *line, const struct text *content)
{
    size_t start = line->len;
    for (size_t i = 0; i < content->len; i++) {
        add(line, content->bits[i]);
        if (five_ones(line->bits + start, line->len - start))
            add(line, '0');
    }
}

/* A zero that was put in ends a run, so five ones are looked for in the bits
 * as they came. */
static void add_without_zeros(struct text *content, const char *bits, size_t len)
{
    for (size_t i = 0; i < len; i++)
        if (!five_ones(bits, i))
            add(content, bits[i]);
}

/* ---- writing ---- */

static void pack(const struct text *line, uint8_t *bytes)
{
    for (size_t i = 0; i < line->len; i++) {
        if (i % 8 == 0)
            bytes[i / 8] = 0;
        if (line->bits[i] == '1')
            bytes[i / 8] = (uint8_t)(bytes[i / 8] + (1u << i % 8));
    }
}

/* The bits between flags, two before and two after. */
static void flags_around(struct text *line, const struct text *content)
{
    clear(line);
    add_word(line, flag);
    add_word(line, flag);
    add_with_zeros(line, content);
    add_word(line, flag);
    add_word(line, flag);
}

uint64_t ref_line_write(uint8_t user, const uint8_t *data, size_t data_len,
                        uint8_t *bits, size_t bits_len)
{
    static struct text content, line;
    char check[CHECK];
    if (data_len == 0 || data_len > DATA_MOST)
        return 17;
    clear(&content);
    add_byte(&content, user);
    for (size_t i = 0; i < data_len; i++)
        add_byte(&content, data[i]);
    check_of(content.bits, content.len, check);
    for (unsigned i = 0; i < CHECK; i++)
        add(&content, check[i]);
    flags_around(&line, &content);
    if (bits_len * 8 < line.len)
        return 13;
    pack(&line, bits);
    return 8 << 8 | (uint64_t)line.len << 16;
}

/* ---- reading ---- */

static int starts(const char *bits, const char *word)
{
    return strncmp(bits, word, strlen(word)) == 0;
}

/* Behind the opening flag and all that follow it at once. */
static const char *behind_flags(const char *bits)
{
    bits += strlen(flag);
    for (;;) {
        if (starts(bits, flag))
            bits += strlen(flag);
        else if (starts(bits, shared_flag))
            bits += strlen(shared_flag);
        else
            return bits;
    }
}

/* The content between the flags: 18, 19, or 0 for none. A flag and seven ones
 * have no bit in common, so the one that begins first ends first. */
static unsigned between_flags(const struct text *line, struct text *content)
{
    clear(content);
    if (!starts(line->bits, flag))
        return 18;
    const char *begin = behind_flags(line->bits);
    const char *end = strstr(begin, flag), *seven = strstr(begin, seven_ones);
    if (end == NULL && seven == NULL)
        return 18;
    if (end == NULL || (seven != NULL && seven < end))
        return 19;
    add_without_zeros(content, begin, (size_t)(end - begin));
    return 0;
}

/* What is wrong with the content: 20, 21, 17, 22, or 0 for none. */
static unsigned content_refusal(const struct text *content)
{
    char check[CHECK];
    if (content->len % 8 != 0)
        return 20;
    if (content->len < 8 * 4)
        return 21;
    if (content->len > 8 * (1 + DATA_MOST + 2))
        return 17;
    check_of(content->bits, content->len - CHECK, check);
    return memcmp(check, content->bits + content->len - CHECK, CHECK) == 0 ? 0 : 22;
}

/* The content of the first frame: a refusal, or 0 for none. */
static unsigned take(const uint8_t *bits, size_t bits_len, size_t bit_count, struct text *content)
{
    static struct text line;
    if (bits_len < bit_count / 8 + (bit_count % 8 != 0))
        return 18;
    clear(&line);
    for (size_t i = 0; i < bits_len; i++)
        add_byte(&line, bits[i]);
    line.len = bit_count;
    line.bits[bit_count] = '\0';
    unsigned refused = between_flags(&line, content);
    return refused != 0 ? refused : content_refusal(content);
}

/* Byte i of the content. */
static uint8_t byte_at(const struct text *content, size_t i)
{
    unsigned byte = 0;
    for (unsigned k = 8; k > 0; k--)
        byte = 2 * byte + (content->bits[8 * i + k - 1] == '1');
    return (uint8_t)byte;
}

/* Kind 9: the user number, and the length low byte first. */
static uint64_t line_answer(uint8_t user, size_t len)
{
    return 9 << 8 | ref_byte(0, user) | ref_byte(1, (uint8_t)(len % 256))
         | ref_byte(2, (uint8_t)(len / 256));
}

uint64_t ref_line_read(const uint8_t *bits, size_t bits_len, size_t bit_count,
                       uint8_t *data, size_t data_len)
{
    static struct text content;
    unsigned refused = take(bits, bits_len, bit_count, &content);
    if (refused != 0)
        return refused;
    size_t len = content.len / 8 - 3;
    if (data_len < len)
        return 13;
    for (size_t i = 0; i < len; i++)
        data[i] = byte_at(&content, 1 + i);
    return line_answer(byte_at(&content, 0), len);
}

uint64_t ref_line_frame(uint32_t number,
                        const uint8_t *bits, size_t bits_len, size_t bit_count,
                        const uint8_t *site, size_t site_len,
                        uint8_t *locks, size_t locks_len,
                        uint8_t *stations, size_t stations_len)
{
    uint8_t data[DATA_MOST];
    uint64_t read = ref_line_read(bits, bits_len, bit_count, data, sizeof data);
    if ((read & 0xFF) != 0 || (read >> 16 & 0xFF) != 0)
        return read;
    return ref_frame(number, data, (size_t)(read >> 24), site, site_len,
                     locks, locks_len, stations, stations_len);
}
