/* Request frames by themselves: reading and writing. */
#include "reference.h"
#include "reference_parts.h"

#include <string.h>

size_t ref_frame_length(uint8_t code)
{
    switch (code) {
    case ACKNOWLEDGE: return 1;
    case READ:        return 8;
    case WRITE:       return 8;
    case LOGIN:       return 20;
    case ASSIGN:      return 15;
    case LOCK:        return 15;
    case UNLOCK:      return 15;
    case CLEAR:       return 1;
    case LOGOUT:      return 2;
    default:          return 0;
    }
}

int ref_has_dtn(uint8_t code)
{
    return code == READ || code == WRITE;
}

uint64_t ref_read_frame(const uint8_t *frame, size_t frame_len)
{
    if (frame_len == 0)
        return 1;
    if (ref_frame_length(frame[0]) == 0)
        return 3;
    if (frame_len != ref_frame_length(frame[0]))
        return 4;
    if (ref_has_dtn(frame[0]) && frame[1] != 0)
        return 6;
    return 13 << 8 | ref_byte(0, frame[0]);
}

/* ---- writing ---- */

static uint64_t written(const uint8_t *frame, uint8_t *buffer, size_t buffer_len)
{
    size_t length = ref_frame_length(frame[0]);
    if (buffer_len < length)
        return 13;
    memcpy(buffer, frame, length);
    return 6 << 8 | ref_byte(0, (uint8_t)length);
}

/* The number, or the most where it is more. */
static uint32_t at_most(uint32_t most, uint32_t number)
{
    return number > most ? most : number;
}

uint64_t ref_write_acknowledge(uint8_t *buffer, size_t buffer_len)
{
    uint8_t frame[1] = { ACKNOWLEDGE };
    return written(frame, buffer, buffer_len);
}

/* Frame: code, dtn, src, partition, track (2), sector, volume. */
static uint64_t disk(uint8_t code, uint32_t src, uint32_t volume, uint32_t partition,
                     uint32_t track, uint32_t sector, uint8_t *buffer, size_t buffer_len)
{
    uint8_t frame[8] = { code };
    frame[2] = (uint8_t)at_most(255, src);
    frame[3] = (uint8_t)at_most(255, partition);
    frame[4] = (uint8_t)(at_most(65535, track) % 256);
    frame[5] = (uint8_t)(at_most(65535, track) / 256);
    frame[6] = (uint8_t)at_most(255, sector);
    frame[7] = (uint8_t)at_most(255, volume);
    return written(frame, buffer, buffer_len);
}

uint64_t ref_write_read(uint32_t src, uint32_t volume, uint32_t partition,
                        uint32_t track, uint32_t sector,
                        uint8_t *buffer, size_t buffer_len)
{
    return disk(READ, src, volume, partition, track, sector, buffer, buffer_len);
}

uint64_t ref_write_write(uint32_t src, uint32_t volume, uint32_t partition,
                         uint32_t track, uint32_t sector,
                         uint8_t *buffer, size_t buffer_len)
{
    return disk(WRITE, src, volume, partition, track, sector, buffer, buffer_len);
}

/* Frame: code, name 8, password 6, serial 4, product. */
uint64_t ref_write_login(const uint8_t name[8], const uint8_t password[6],
                         const uint8_t serial[4], uint8_t product,
                         uint8_t *buffer, size_t buffer_len)
{
    uint8_t frame[20] = { LOGIN };
    memcpy(frame + 1, name, 8);
    memcpy(frame + 9, password, 6);
    memcpy(frame + 15, serial, 4);
    frame[19] = product;
    return written(frame, buffer, buffer_len);
}

/* Frame: code, name 8, password 6. */
uint64_t ref_write_assign(const uint8_t name[8], const uint8_t password[6],
                          uint8_t *buffer, size_t buffer_len)
{
    uint8_t frame[15] = { ASSIGN };
    memcpy(frame + 1, name, 8);
    memcpy(frame + 9, password, 6);
    return written(frame, buffer, buffer_len);
}

/* Frame: code, length, string 13. */
static uint64_t string_frame(uint8_t code, const uint8_t lockstring[14],
                             uint8_t *buffer, size_t buffer_len)
{
    uint8_t frame[15] = { code };
    memcpy(frame + 1, lockstring, 14);
    return written(frame, buffer, buffer_len);
}

uint64_t ref_write_lock(const uint8_t lockstring[14], uint8_t *buffer, size_t buffer_len)
{
    return string_frame(LOCK, lockstring, buffer, buffer_len);
}

uint64_t ref_write_unlock(const uint8_t lockstring[14], uint8_t *buffer, size_t buffer_len)
{
    return string_frame(UNLOCK, lockstring, buffer, buffer_len);
}

uint64_t ref_write_clear(uint8_t *buffer, size_t buffer_len)
{
    uint8_t frame[1] = { CLEAR };
    return written(frame, buffer, buffer_len);
}

/* Frame: code, src. */
uint64_t ref_write_logout(uint32_t src, uint8_t *buffer, size_t buffer_len)
{
    uint8_t frame[2] = { LOGOUT, (uint8_t)at_most(255, src) };
    return written(frame, buffer, buffer_len);
}
