/*
 * hinet.h: the tables and decisions of a HiNet master, called from C.
 *
 * The C program owns the wire, the drives, the clock and the boot code. It
 * lends its tables and frames to the entries below. Each entry returns one
 * answer word.
 *
 * Compiler and machine
 *   C99 or C++11. The archive libhinet.a is for x86-64 Linux. It calls
 *   memcpy, memmove and memset, and nothing else of the C library.
 *
 * Numbers
 *   A number is 32 bits and is never cut to a byte. 509 is not 253; it is
 *   refused. Bytes are the product of a login, like those of a name, and the
 *   user number of hinet_line_write: a larger one is cut by the compiler.
 *
 * Volume, partition, track and sector
 *   Each has a type of its own, so that a compiler refuses one where another
 *   is due: hinet_volume_of(1) is a volume and nothing else.
 *
 * Slices
 *   A slice is a pointer and then its length in bytes.
 *   The slices of one call must not overlap.
 *   A slice of length 0 still points somewhere. NULL is never allowed.
 *   What is lent as const is never written.
 *   Bytes need no alignment.
 *
 * The answer word
 *   bits  0 to  7   refusal, 0 for none
 *   bits  8 to 15   kind of answer
 *   bits 16 to 63   bytes of the answer: the first in bits 16 to 23, the
 *                   second in bits 24 to 31, and so on
 *   Bits above the answer's own bytes are zero. A refused call has zeros
 *   above bit 7, but for refusal 10: beside it stand kind FAULT and the bytes
 *   of the site file's first fault, which are no answer. An entry with nothing
 *   to tell returns exactly 0.
 *   Look at the refusal first, then at the kind, then at the bytes: those of a
 *   refused word are no answer, and a status of zero would mean granted.
 *   Compare a refusal number with the refusal, not with the word.
 *
 * Numbers of more than one byte have their low byte first, in answers,
 * frames, tables and the site file alike.
 *
 * Refusals
 *   A refused call returns its refusal number and no answer. Beside 10 stands
 *   the site file's first fault, beside every other nothing. Every lent byte
 *   then holds what it held before. Where several refusals apply, the first
 *   one in the order given with the entry is returned.
 *   After 10 the site file is bad: no frame is served with it. The tables are
 *   as good as they were, and poll turns go on. Load a good file, and check
 *   it by hinet_check_site before it takes the place of the old one. The
 *   functions hinet_fault_... tell what is wrong in a bad one, and where.
 *   After 11 the tables, or a station's state, were never made fresh, or were
 *   written to by somebody else, or a call on them was cut off, or a length
 *   is wrong. The entries never bring tables that were good to 11, and none
 *   mends them. Correct the length, or begin anew with hinet_fresh
 *   (hinet_station_fresh). Then every station is logged out and has to log in
 *   again.
 *
 * Memory, threads, and a call that is cut off
 *   The library has no memory of its own: nothing is kept from one call to
 *   the next but the bytes in the lent slices. Calls that are lent different
 *   tables may run at once; calls that are lent the same may not, but where
 *   both lend them as const. No entry waits, allocates or fails halfway.
 *   A call that is cut off midway (power, a killed process) may have written
 *   some of its bytes and not others. hinet_check_tables then tells whether
 *   the tables keep the rules; it cannot tell whether the call was done, not
 *   begun or half done. Go back to a copy made right before that call, or
 *   begin anew with hinet_fresh. Do not go back to an older copy: it would
 *   free locks that stations have been granted since.
 *
 * Stack
 *   Bytes that an entry needs on its deepest path, measured by bench/stack
 *   (memcpy and the like not counted):
 *     hinet_poll                                                1488
 *     hinet_boot                                                 728
 *     hinet_line_frame                                           688
 *     hinet_frame                                                576
 *     hinet_place                                                336
 *     hinet_check_site                                           288
 *     hinet_station_unlock, _reply                               272
 *     hinet_station_frame                                        240
 *     hinet_station_lock                                         224
 *     hinet_due, hinet_station_clear                             208
 *     hinet_check_tables                                         192
 *     hinet_line_read                                            152
 *     hinet_read_frame                                           120
 *     hinet_cpm_parameters, hinet_msdos_parameters               116
 *     hinet_write_...                                             88
 *     hinet_line_write                                            80
 *     hinet_fresh, hinet_station_fresh                            24
 */
#ifndef HINET_H
#define HINET_H

#include <stddef.h>
#include <stdint.h>

/* The version of this header and of the archive beside it. The first number
 * goes up where a program that kept to the header may have to be changed, the
 * second where something new can be called. */
#define HINET_VERSION_MAJOR 4
#define HINET_VERSION_MINOR 1
#define HINET_VERSION_PATCH 0
#define HINET_VERSION "4.1.0"

#ifdef __cplusplus
extern "C" {
#endif

/* ------------------------------------------------------------------------
 * The answer word
 * ------------------------------------------------------------------------ */

/* Refusal numbers. */
#define HINET_REFUSED_EMPTY 1       /* frame is empty */
#define HINET_REFUSED_NUMBER 2      /* not 0 to 63 or 253, or not logged in */
#define HINET_REFUSED_CODE 3        /* code is not in the frame table */
#define HINET_REFUSED_LENGTH 4      /* length is not that of the code */
#define HINET_REFUSED_COMMAND 5     /* not at this number: login not at 253,
                                       another command at 253, logout at 0,
                                       poll turn at 0 or 253 */
#define HINET_REFUSED_DTN 6         /* dtn is not 0 */
#define HINET_REFUSED_SRC 7         /* src differs from the number polled */
#define HINET_REFUSED_NO_ROW 8      /* volume and partition name no row */
#define HINET_REFUSED_OUTSIDE 9     /* track or sector outside the partition */
#define HINET_REFUSED_SITE 10       /* site file; its first fault stands beside
                                       it, as kind FAULT */
#define HINET_REFUSED_TABLES 11     /* tables or station state of another size
                                       or with a breach */
#define HINET_REFUSED_NOT_DUE 12    /* heard in a turn that was not due */
#define HINET_REFUSED_BUFFER 13     /* buffer too short for the frame, its bits,
                                       its data or the block */
#define HINET_REFUSED_WAITING 14    /* station asks while waiting */
#define HINET_REFUSED_REPLY 15      /* reply not fitting: hinet_station_reply */
#define HINET_REFUSED_SIZE 16       /* size code is not 1 to 6 */
#define HINET_REFUSED_DATA 17       /* data not 1 to 1024 bytes */
#define HINET_REFUSED_NO_FLAG 18    /* no flag at the first bit, the bits ended
                                       before the closing one, or the bit count
                                       is past the bytes */
#define HINET_REFUSED_STOPPED 19    /* stopped by seven ones */
#define HINET_REFUSED_BITS 20       /* bits not whole bytes */
#define HINET_REFUSED_SHORT 21      /* under four bytes between the flags */
#define HINET_REFUSED_CHECK 22      /* frame check */
#define HINET_REFUSED_ROWS 23       /* table not of whole rows, or of too many */

/* Kinds of answer, with their bytes. */
#define HINET_KIND_NONE 0           /* no bytes */
#define HINET_KIND_STATUS 1         /* status */
#define HINET_KIND_ASSIGN 2         /* size code, partition, control, volume */
#define HINET_KIND_PLACE 3          /* volume, sector (4) */
#define HINET_KIND_LOGIN 4          /* number, name found (0 or 1), serial (4) */
#define HINET_KIND_TURN 5           /* due (0 or 1), logged out (0 or 1) */
#define HINET_KIND_WRITTEN 6        /* length */
#define HINET_KIND_FAULT 7          /* part, row, breach; no answer: it stands
                                       beside refusal 10, in the one refused
                                       word with something above bit 7 */
#define HINET_KIND_BITS 8           /* bit count (4) */
#define HINET_KIND_LINE 9           /* user number, data length (2) */
#define HINET_KIND_BOOT 10          /* honor flag, 0 to 4 */
#define HINET_KIND_REQUEST 13       /* code */

/* The refusal number of an answer, 0 for none. */
static inline unsigned hinet_answer_refusal(uint64_t answer)
{
    return (unsigned)(answer & 0xFF);
}

/* The kind of an answer, one of HINET_KIND_... */
static inline unsigned hinet_answer_kind(uint64_t answer)
{
    return (unsigned)(answer >> 8 & 0xFF);
}

/* Byte i of an answer, i from 0 to 5. */
static inline uint8_t hinet_answer_byte(uint64_t answer, unsigned i)
{
    return (uint8_t)(answer >> (16 + 8 * i) & 0xFF);
}

/* What a refusal number means, as text in English. */
static inline const char *hinet_refusal_text(unsigned refusal)
{
    switch (refusal) {
    case 0:                      return "not refused";
    case HINET_REFUSED_EMPTY:    return "the frame is empty";
    case HINET_REFUSED_NUMBER:   return "the number is not 0 to 63 or 253, or is not logged in";
    case HINET_REFUSED_CODE:     return "the code is not in the frame table";
    case HINET_REFUSED_LENGTH:   return "the frame's length is not that of its code";
    case HINET_REFUSED_COMMAND:  return "the command is not for this number";
    case HINET_REFUSED_DTN:      return "dtn is not 0";
    case HINET_REFUSED_SRC:      return "src differs from the number polled";
    case HINET_REFUSED_NO_ROW:   return "volume and partition name no row of the site file";
    case HINET_REFUSED_OUTSIDE:  return "track or sector is outside the partition";
    case HINET_REFUSED_SITE:     return "the site file breaks a rule";
    case HINET_REFUSED_TABLES:   return "the tables or the station's state break a rule";
    case HINET_REFUSED_NOT_DUE:  return "heard in a turn that was not due";
    case HINET_REFUSED_BUFFER:   return "the buffer is too short for what goes into it";
    case HINET_REFUSED_WAITING:  return "the station asks while it waits for a reply";
    case HINET_REFUSED_REPLY:    return "the reply does not fit what the station waits for";
    case HINET_REFUSED_SIZE:     return "the size code is not 1 to 6";
    case HINET_REFUSED_DATA:     return "the data are not 1 to 1024 bytes";
    case HINET_REFUSED_NO_FLAG:  return "there is no flag at the first bit, the bits ended, or the bit count is past the bytes";
    case HINET_REFUSED_STOPPED:  return "seven ones stopped the frame";
    case HINET_REFUSED_BITS:     return "the bits are not whole bytes";
    case HINET_REFUSED_SHORT:    return "there are under four bytes between the flags";
    case HINET_REFUSED_CHECK:    return "the frame check differs";
    case HINET_REFUSED_ROWS:     return "a table is not whole rows, or has too many";
    default:                     return "no refusal number";
    }
}

/* ------------------------------------------------------------------------
 * Volume, partition, track and sector
 * ------------------------------------------------------------------------
 *
 * Four types, each with one number. A disk command on the wire has the
 * partition first and the volume last; the answer to an assign has the
 * partition second and the volume last. With these types and the functions
 * that read and write the fields by name, no C program needs to know.
 */
typedef struct { uint32_t number; } hinet_volume;
typedef struct { uint32_t number; } hinet_partition;
typedef struct { uint32_t number; } hinet_track;
typedef struct { uint32_t number; } hinet_sector;

/* A volume, a partition, a track: any number. */
static inline hinet_volume hinet_volume_of(uint32_t number)
{
    hinet_volume volume;
    volume.number = number;
    return volume;
}

static inline hinet_partition hinet_partition_of(uint32_t number)
{
    hinet_partition partition;
    partition.number = number;
    return partition;
}

static inline hinet_track hinet_track_of(uint32_t number)
{
    hinet_track track;
    track.number = number;
    return track;
}

/* A sector of a track, counted from 1 to 128. */
static inline hinet_sector hinet_sector_of(uint32_t number)
{
    hinet_sector sector;
    sector.number = number;
    return sector;
}

/* ------------------------------------------------------------------------
 * Request frames
 * ------------------------------------------------------------------------
 *
 * A frame is the data part, without user number, check or flags. Those are put
 * around it for the line, at the end of this header.
 *
 *   41 acknowledge      41
 *   11 read 128         11 dtn src dsk trk(2) sec vli
 *   12 write 128        12 dtn src dsk trk(2) sec vli
 *   13 login            13 name(8) password(6) serial(4) product
 *   17 assign           17 name(8) password(6)
 *   19 lock             19 len string(13)
 *   1A unlock           1A len string(13)
 *   1B clear all locks  1B
 *   1F instant logout   1F src
 *
 * dtn is 0, dsk is the partition number, vli is the volume. A lock string is
 * 14 bytes, its length first; the bytes after its length travel with it and
 * mean nothing.
 */

/* Codes of request frames, and the length of each frame. */
#define HINET_CODE_ACKNOWLEDGE 0x41
#define HINET_CODE_READ 0x11
#define HINET_CODE_WRITE 0x12
#define HINET_CODE_LOGIN 0x13
#define HINET_CODE_ASSIGN 0x17
#define HINET_CODE_LOCK 0x19
#define HINET_CODE_UNLOCK 0x1A
#define HINET_CODE_CLEAR 0x1B
#define HINET_CODE_LOGOUT 0x1F

#define HINET_LENGTH_ACKNOWLEDGE 1
#define HINET_LENGTH_READ 8
#define HINET_LENGTH_WRITE 8
#define HINET_LENGTH_LOGIN 20
#define HINET_LENGTH_ASSIGN 15
#define HINET_LENGTH_LOCK 15
#define HINET_LENGTH_UNLOCK 15
#define HINET_LENGTH_CLEAR 1
#define HINET_LENGTH_LOGOUT 2
#define HINET_LENGTH_MOST 20

#define HINET_NAME_BYTES 8
#define HINET_PASSWORD_BYTES 6
#define HINET_SERIAL_BYTES 4
#define HINET_LOCKSTRING_BYTES 14

/*
 * Reads a frame by itself.
 *
 * Refusals, in this order: 1 empty, 3 unknown code, 4 length, 6 dtn.
 * Memory: unchanged.
 * Answer: REQUEST with the frame's code. The fields of that code are then
 *   there, and the functions hinet_request_... read them.
 */
uint64_t hinet_read_frame(const uint8_t *frame, size_t frame_len);

/* Kind REQUEST: the code, one of HINET_CODE_... */
static inline uint8_t hinet_answer_code(uint64_t answer)
{
    return hinet_answer_byte(answer, 0);
}

/* Fields of a frame that hinet_read_frame or hinet_frame did not refuse; the
 * codes that have the field stand with each. */

/* All: the code, one of HINET_CODE_... */
static inline uint8_t hinet_request_code(const uint8_t *frame)
{
    return frame[0];
}

/* Read, write, logout: the station that sends. */
static inline uint8_t hinet_request_src(const uint8_t *frame)
{
    return hinet_request_code(frame) == HINET_CODE_LOGOUT ? frame[1] : frame[2];
}

/* Read, write. */
static inline hinet_volume hinet_request_volume(const uint8_t *frame)
{
    return hinet_volume_of(frame[7]);
}

/* Read, write. */
static inline hinet_partition hinet_request_partition(const uint8_t *frame)
{
    return hinet_partition_of(frame[3]);
}

/* Read, write. */
static inline hinet_track hinet_request_track(const uint8_t *frame)
{
    return hinet_track_of(frame[4] | (uint32_t)frame[5] << 8);
}

/* Read, write. */
static inline hinet_sector hinet_request_sector(const uint8_t *frame)
{
    return hinet_sector_of(frame[6]);
}

/* Login, assign: the eight bytes of the name. */
static inline const uint8_t *hinet_request_name(const uint8_t *frame)
{
    return frame + 1;
}

/* How many of the eight bytes of a name count: all but the zeros and spaces at
 * its end. */
static inline unsigned hinet_name_length(const uint8_t *name)
{
    unsigned length = HINET_NAME_BYTES;
    while (length != 0 && (name[length - 1] == 0 || name[length - 1] == ' '))
        length--;
    return length;
}

/* 1 when two names are equal, else 0. */
static inline int hinet_name_equal(const uint8_t *one, const uint8_t *other)
{
    unsigned length = hinet_name_length(one);
    if (length != hinet_name_length(other))
        return 0;
    while (length != 0 && one[length - 1] == other[length - 1])
        length--;
    return length == 0;
}

/* Login, assign: the six bytes of the password. */
static inline const uint8_t *hinet_request_password(const uint8_t *frame)
{
    return frame + 9;
}

/* Login: the four bytes of the serial. */
static inline const uint8_t *hinet_request_serial(const uint8_t *frame)
{
    return frame + 15;
}

/* Login. */
static inline uint8_t hinet_request_product(const uint8_t *frame)
{
    return frame[19];
}

/* Lock, unlock: the lock string, 14 bytes. */
static inline const uint8_t *hinet_request_lockstring(const uint8_t *frame)
{
    return frame + 1;
}

/* The length of a lock string, legal from 1 to 13. */
static inline uint8_t hinet_lockstring_length(const uint8_t *lockstring)
{
    return lockstring[0];
}

/* Its 13 bytes; those after its length mean nothing. */
static inline const uint8_t *hinet_lockstring_bytes(const uint8_t *lockstring)
{
    return lockstring + 1;
}

/*
 * Each of these writes a request frame at the start of the buffer.
 *
 * Refusals: 13 exactly when buffer_len is below the frame's HINET_LENGTH_...
 * Memory: the buffer holds the frame; the bytes after it stay.
 * Answer: WRITTEN with the frame's length.
 *
 * Any numbers and bytes are written. A src, volume, partition or sector above
 * 255 does not fit its byte and is written as 255, a track above 65535 as
 * 65535. Those are no station's, no row's and outside of every partition, as
 * the number itself is, so the master refuses the frame with 7, 8 or 9.
 *
 * A logout is sent only while no reply is awaited (see the station's end).
 */
uint64_t hinet_write_acknowledge(uint8_t *buffer, size_t buffer_len);

uint64_t hinet_write_read(uint32_t src,
                          hinet_volume volume, hinet_partition partition,
                          hinet_track track, hinet_sector sector,
                          uint8_t *buffer, size_t buffer_len);

uint64_t hinet_write_write(uint32_t src,
                           hinet_volume volume, hinet_partition partition,
                           hinet_track track, hinet_sector sector,
                           uint8_t *buffer, size_t buffer_len);

uint64_t hinet_write_login(const uint8_t name[HINET_NAME_BYTES],
                           const uint8_t password[HINET_PASSWORD_BYTES],
                           const uint8_t serial[HINET_SERIAL_BYTES],
                           uint8_t product,
                           uint8_t *buffer, size_t buffer_len);

uint64_t hinet_write_assign(const uint8_t name[HINET_NAME_BYTES],
                            const uint8_t password[HINET_PASSWORD_BYTES],
                            uint8_t *buffer, size_t buffer_len);

/* A station that keeps a list of its locks does not call these three: it asks
 * by hinet_station_lock, _unlock or _clear and sends hinet_station_frame's. */
uint64_t hinet_write_lock(const uint8_t lockstring[HINET_LOCKSTRING_BYTES],
                          uint8_t *buffer, size_t buffer_len);

uint64_t hinet_write_unlock(const uint8_t lockstring[HINET_LOCKSTRING_BYTES],
                            uint8_t *buffer, size_t buffer_len);

uint64_t hinet_write_clear(uint8_t *buffer, size_t buffer_len);

uint64_t hinet_write_logout(uint32_t src, uint8_t *buffer, size_t buffer_len);

/* Kind WRITTEN: the length of the frame or block written. */
static inline uint8_t hinet_answer_length(uint64_t answer)
{
    return hinet_answer_byte(answer, 0);
}

/* ------------------------------------------------------------------------
 * The master: tables, site file, frames, places
 * ------------------------------------------------------------------------
 *
 * Lock table: 64 rows of 16 bytes.
 *   0       owner, or FF for a free row
 *   1       length of the string, 1 to 13
 *   2 - 14  string, zeros after its length
 *   15      spare, zero
 * A free row has owner FF and zeros. An owner is logged in. No two used rows
 * hold the same string. Strings are the same when length and the first
 * length bytes are equal.
 *
 * Station records: 64 records of 18 bytes, one per user number.
 *   0       logged in, 0 or 1
 *   1 - 2   misses, 0 to 255
 *   3       slow turns, 0 to 11, and 0 while misses are below 160
 *   4 - 11  name
 *   12 - 15 serial
 *   16      product
 *   17      name found, 0 or 1
 * Record 0 is the local user: logged in, all else zero. A record that is not
 * logged in is zero throughout.
 *
 * Site file: a header, the user rows, the partition rows, and nothing after.
 *   Header, 8 bytes: user count (2), user offset (2), partition count (2),
 *   partition offset (2). At most 128 users and 64 partitions. The user
 *   offset is 8, the partition offset is 8 + 16 * users.
 *   User row, 16 bytes: name 8, password 6, OS number, size flag.
 *   Partition row, 24 bytes: name 8, password 6, volume 0 to 3, partition
 *   number 0 to 63, size code 1 to 6, control, first sector (4), two zeros.
 * Size code n has 16 * 2^(n-1) tracks of 128 sectors of 128 bytes. First
 * sector plus sectors is at most 1048576. No two users share a name. No two
 * partitions share a name, or both volume and number. No two partitions on
 * one volume overlap.
 *
 * Names. DOS stations pad a name with zeros, CP/M stations with spaces. Two
 * names are equal when they agree after the zeros and spaces at their ends, in
 * any mix, are dropped. Zeros and spaces in front or inside count, and so do
 * small and capital letters. This holds for users at login, for partitions at
 * assign, and where no two rows may share a name. A name of padding alone is a
 * name like others. Passwords and lock strings are compared byte by byte.
 *
 * Faults of a site file. Refusal 10 names the first one by part, row and
 * breach, in this order:
 *   The header, then the user rows, then the partition rows, each in file
 *   order. Rows are counted from 0, and the header has row 0.
 *   A wrong count, offset or length of the file is the header out of range. So
 *   is a file too short for a header.
 *   A user row can only repeat a name.
 *   Within a partition row: out of range, repeated name, repeated volume and
 *   number, overlap. Out of range can be the volume, the partition number, the
 *   size code, the end of the sectors, and the two zeros.
 *   Of two rows that clash the later one is named.
 */

#define HINET_LOCK_ROWS 64
#define HINET_LOCK_ROW_BYTES 16
#define HINET_LOCKS_BYTES 1024

#define HINET_STATION_RECORDS 64
#define HINET_STATION_RECORD_BYTES 18
#define HINET_STATIONS_BYTES 1152

#define HINET_SITE_USERS_MOST 128
#define HINET_SITE_PARTITIONS_MOST 64
#define HINET_SITE_BYTES_MOST 3592

/* Owner of a free row of the lock table. */
#define HINET_NO_OWNER 0xFF

/* Numbers polled: the local user, the last station, the number for logins. */
#define HINET_NUMBER_LOCAL 0
#define HINET_NUMBER_LAST 63
#define HINET_NUMBER_LOGIN 253

/* Status bytes that answer lock, unlock and clear. */
#define HINET_STATUS_DONE 0x00      /* lock granted, string freed, locks cleared */
#define HINET_STATUS_TAKEN 0x01     /* lock: held by another */
#define HINET_STATUS_NO 0x02        /* illegal length; unlock: not held by the sender */
#define HINET_STATUS_HELD 0x81      /* lock: held by the sender already */
#define HINET_STATUS_FULL 0x82      /* lock: no free row */

/* Size code in the answer to an assign that was denied. */
#define HINET_ASSIGN_DENIED 0xFF

/* Where a site file has its first fault. */
#define HINET_PART_HEADER 0
#define HINET_PART_USER 1           /* a user row */
#define HINET_PART_PARTITION 2      /* a partition row */

/* What is wrong there. */
#define HINET_BREACH_RANGE 1        /* out of range */
#define HINET_BREACH_NAME 2         /* the name of an earlier row */
#define HINET_BREACH_NUMBER 3       /* volume and number of an earlier row */
#define HINET_BREACH_OVERLAP 4      /* sectors of an earlier row */

/* Fields of a lock table of 1024 bytes; row is 0 to 63. */

/* The owner, or HINET_NO_OWNER. */
static inline uint8_t hinet_row_owner(const uint8_t *locks, unsigned row)
{
    return locks[HINET_LOCK_ROW_BYTES * row];
}

/* The lock string, 14 bytes, its length first. */
static inline const uint8_t *hinet_row_lockstring(const uint8_t *locks, unsigned row)
{
    return locks + HINET_LOCK_ROW_BYTES * row + 1;
}

/* Fields of station records of 1152 bytes; number is 0 to 63. */

/* 1 when the number is logged in, else 0. */
static inline uint8_t hinet_record_logged_in(const uint8_t *stations, unsigned number)
{
    return stations[HINET_STATION_RECORD_BYTES * number];
}

/* Polls missed, 0 to 255. */
static inline unsigned hinet_record_misses(const uint8_t *stations, unsigned number)
{
    const uint8_t *record = stations + HINET_STATION_RECORD_BYTES * number;
    return record[1] | (unsigned)record[2] << 8;
}

/* Turns since the last slow poll, 0 to 11. */
static inline uint8_t hinet_record_slow_turns(const uint8_t *stations, unsigned number)
{
    return stations[HINET_STATION_RECORD_BYTES * number + 3];
}

/* The eight bytes of the name, as it was sent. */
static inline const uint8_t *hinet_record_name(const uint8_t *stations, unsigned number)
{
    return stations + HINET_STATION_RECORD_BYTES * number + 4;
}

/* The four bytes of the serial. */
static inline const uint8_t *hinet_record_serial(const uint8_t *stations, unsigned number)
{
    return stations + HINET_STATION_RECORD_BYTES * number + 12;
}

/* The product sent at login. */
static inline uint8_t hinet_record_product(const uint8_t *stations, unsigned number)
{
    return stations[HINET_STATION_RECORD_BYTES * number + 16];
}

/* 1 when a user row had the name and password sent at login, else 0. */
static inline uint8_t hinet_record_found(const uint8_t *stations, unsigned number)
{
    return stations[HINET_STATION_RECORD_BYTES * number + 17];
}

/* The fields of an answer, by its kind. */

/* Kind STATUS: one of HINET_STATUS_... */
static inline uint8_t hinet_answer_status(uint64_t answer)
{
    return hinet_answer_byte(answer, 0);
}

/* Kind ASSIGN: the size code, or HINET_ASSIGN_DENIED. */
static inline uint8_t hinet_answer_assign_size(uint64_t answer)
{
    return hinet_answer_byte(answer, 0);
}

/* Kind ASSIGN: the partition. */
static inline hinet_partition hinet_answer_assign_partition(uint64_t answer)
{
    return hinet_partition_of(hinet_answer_byte(answer, 1));
}

/* Kind ASSIGN: the control byte. */
static inline uint8_t hinet_answer_assign_control(uint64_t answer)
{
    return hinet_answer_byte(answer, 2);
}

/* Kind ASSIGN: the volume. */
static inline hinet_volume hinet_answer_assign_volume(uint64_t answer)
{
    return hinet_volume_of(hinet_answer_byte(answer, 3));
}

/* Kind PLACE: the volume. */
static inline hinet_volume hinet_answer_place_volume(uint64_t answer)
{
    return hinet_volume_of(hinet_answer_byte(answer, 0));
}

/* Kind PLACE: the sector, counted from 0 at the start of the volume. It is no
 * hinet_sector, which counts in a track. */
static inline uint32_t hinet_answer_place_sector(uint64_t answer)
{
    return (uint32_t)(answer >> 24 & 0xFFFFFFFFu);
}

/* Kind LOGIN: the user number given, 0 when none is free. */
static inline uint8_t hinet_answer_login_number(uint64_t answer)
{
    return hinet_answer_byte(answer, 0);
}

/* Kind LOGIN: 1 when a user row has the sent name and password, else 0. */
static inline uint8_t hinet_answer_login_found(uint64_t answer)
{
    return hinet_answer_byte(answer, 1);
}

/* Kind LOGIN: the four serial bytes as sent. */
static inline void hinet_answer_login_serial(uint64_t answer,
                                             uint8_t serial[HINET_SERIAL_BYTES])
{
    unsigned i;
    for (i = 0; i < HINET_SERIAL_BYTES; i++)
        serial[i] = hinet_answer_byte(answer, 2 + i);
}

/* Refusal 10, kind FAULT: one of HINET_PART_... */
static inline uint8_t hinet_fault_part(uint64_t answer)
{
    return hinet_answer_byte(answer, 0);
}

/* Refusal 10, kind FAULT: the row, counted from 0; 0 for the header. */
static inline uint8_t hinet_fault_row(uint64_t answer)
{
    return hinet_answer_byte(answer, 1);
}

/* Refusal 10, kind FAULT: one of HINET_BREACH_... */
static inline uint8_t hinet_fault_breach(uint64_t answer)
{
    return hinet_answer_byte(answer, 2);
}

/* A part of the site file, as text in English: "user row", before its number. */
static inline const char *hinet_part_text(unsigned part)
{
    switch (part) {
    case HINET_PART_HEADER:    return "header";
    case HINET_PART_USER:      return "user row";
    case HINET_PART_PARTITION: return "partition row";
    default:                   return "no part";
    }
}

/* What a breach means, as text in English, after part and row. */
static inline const char *hinet_breach_text(unsigned breach)
{
    switch (breach) {
    case HINET_BREACH_RANGE:   return "is out of range";
    case HINET_BREACH_NAME:    return "repeats the name of an earlier row";
    case HINET_BREACH_NUMBER:  return "repeats volume and number of an earlier row";
    case HINET_BREACH_OVERLAP: return "overlaps an earlier row";
    default:                   return "no breach";
    }
}

/*
 * Fills fresh tables: 64 free rows, and only user 0 logged in.
 *
 * Refusals: 11 when locks_len is not 1024 or stations_len is not 1152. With
 *   one size wrong neither table is touched.
 * Memory: both tables are written whole.
 * Answer: none (0).
 */
uint64_t hinet_fresh(uint8_t *locks, size_t locks_len,
                     uint8_t *stations, size_t stations_len);

/*
 * Checks the running tables by the rules above.
 *
 * Refusals: 11 for another size or any breach.
 * Memory: unchanged.
 * Answer: none (0).
 */
uint64_t hinet_check_tables(const uint8_t *locks, size_t locks_len,
                            const uint8_t *stations, size_t stations_len);

/*
 * Checks a site file by the rules above.
 *
 * Refusals: 10 for any breach, with the first fault.
 * Memory: unchanged.
 * Answer: none (0).
 */
uint64_t hinet_check_site(const uint8_t *site, size_t site_len);

/*
 * Serves one request frame that came at the number polled.
 *
 * Refusals, in this order:
 *   11  tables
 *   10  site file, with its first fault
 *    1  frame is empty
 *    2  number is not 0 to 63 or 253, or is 0 to 63 and not logged in;
 *       every number above 255 is refused here too
 *    3  unknown code
 *    4  length differs from the code's
 *    5  login not at 253, another command at 253, logout at 0
 *    6  dtn is not 0 (read, write)
 *    7  src differs from the number (read, write, logout)
 *    8  volume and partition name no row (read, write)
 *    9  track or sector outside the partition (read, write)
 *
 * Answer and memory, by command:
 *   acknowledge  none (0); nothing changes.
 *   read, write  PLACE; nothing changes. The C program moves the 128 bytes,
 *                which way hinet_request_code(frame) tells.
 *   login        LOGIN. First every number from 1 to 63 that is logged in
 *                with the sent serial is logged out: its rows are freed and
 *                its record is cleared. All four bytes of the serial count,
 *                and nothing else. Serial 00 00 00 00 logs nobody out.
 *                Then the lowest free number from 1 to 63 is logged in
 *                with the sent name, serial and product. The record keeps
 *                the name as it was sent, with its padding. The C program adds
 *                the login time. Where somebody was logged out, the number
 *                given is the lowest of those, or a lower one. Who was logged
 *                out is not in the answer; see the poll turns.
 *                With 63 in use, and nobody to log out, the number is 0, name
 *                found is 0 and nothing changes; this is an answer, no
 *                refusal.
 *   assign       ASSIGN of the row with that name, if its password is equal
 *                or the sent one is six zeros. Otherwise FF 00 00 00; this
 *                is an answer, no refusal. Nothing changes.
 *   lock         STATUS. Length not 1 to 13: 02. Held by the sender: 81.
 *                Held by another: 01. No free row: 82. Otherwise 00, and the
 *                lowest free row is filled. Only 00 changes the table.
 *   unlock       STATUS. A string of legal length held by the sender is
 *                freed: 00. Anything else: 02, and nothing changes.
 *   clear        STATUS 00. Every row of the sender is freed.
 *   logout       none (0). The sender's rows are freed and its record is
 *                cleared.
 * A frame leaves misses and slow turns alone, except that both are 0 after it
 * at a number that it logs in or out.
 */
uint64_t hinet_frame(uint32_t number,
                     const uint8_t *frame, size_t frame_len,
                     const uint8_t *site, size_t site_len,
                     uint8_t *locks, size_t locks_len,
                     uint8_t *stations, size_t stations_len);

/*
 * The place of an address: the row's volume, and first sector + track * 128
 * + sector - 1. Sectors of a track are counted from 1 to 128.
 *
 * Refusals, in this order:
 *   10  site file, with its first fault
 *    8  volume and partition name no row; a volume or partition above 255
 *       names none
 *    9  track not below the row's tracks, or sector not 1 to 128; so is a
 *       track above 65535 or a sector above 255
 * Memory: unchanged.
 * Answer: PLACE.
 */
uint64_t hinet_place(hinet_volume volume, hinet_partition partition,
                     hinet_track track, hinet_sector sector,
                     const uint8_t *site, size_t site_len);

/* ------------------------------------------------------------------------
 * The master: poll turns
 * ------------------------------------------------------------------------
 *
 * One round of the main loop, for each number from 1 to 63 that is logged in:
 *   1. hinet_due tells whether the station is polled on the wire at all.
 *   2. Where it is due, poll it, and wait for its frame until the time-out.
 *   3. hinet_poll takes whether it was heard; not due is not heard.
 *   4. Where it was heard, hinet_frame takes its frame, and the answer is
 *      sent; for a refused frame nothing is. The poll turn comes first: a
 *      logout frame ends the number, and a poll turn after it would be
 *      refused.
 * Then 253 is polled for logins, and only hinet_frame is called.
 * tests/worked_loop.c is such a loop.
 *
 * A login may log other numbers out: those that had its serial. No turn says
 * so, and the answer does not list them. Keep no list of your own of who is
 * in: ask hinet_record_logged_in before each turn, as a number that is out is
 * refused 2. What the program keeps for a station beside the tables is void
 * where its number is out, and at the number given, which may be its old one.
 *
 * An exchange is a poll, the station's frame and the master's answer, and it
 * ends at the time-out. The master's driver sends the answer in it or never,
 * and begins the next exchange when the line is quiet. The promise about
 * locks rests on that: see the station's end below.
 */

/* Kind TURN: 1 when the station was due in this turn, else 0. */
static inline uint8_t hinet_answer_due(uint64_t answer)
{
    return hinet_answer_byte(answer, 0);
}

/* Kind TURN: 1 when the turn ended in a logout, else 0. */
static inline uint8_t hinet_answer_out(uint64_t answer)
{
    return hinet_answer_byte(answer, 1);
}

/*
 * Is a station due in its next poll turn?
 *
 * Refusals, in this order:
 *   11  tables
 *    2  number is not 0 to 63 or 253, or is 0 to 63 and not logged in
 *    5  number is 0 or 253
 * Memory: unchanged.
 * Answer: TURN with due as hinet_poll will tell it, and out 0.
 */
uint64_t hinet_due(uint32_t number,
                   const uint8_t *locks, size_t locks_len,
                   const uint8_t *stations, size_t stations_len);

/*
 * Plays one poll turn of a station. heard is 0 for not heard; any other
 * number is heard.
 *
 * With misses below 160 the station is due. From 160 on it is due where slow
 * turns stand at 11, and they return to 0; in the other turns it is not due
 * and slow turns go up by 1.
 *
 * Refusals, in this order:
 *   11  tables
 *    2  number is not 0 to 63 or 253, or is 0 to 63 and not logged in
 *    5  number is 0 or 253
 *   12  heard in a turn that was not due; slow turns stay too
 * Memory: in the station's record
 *   due, heard          misses and slow turns become 0
 *   due, not heard      misses go up by 1; at 256 the station is logged out:
 *                       its rows are freed and its record is cleared
 *   not due, not heard  slow turns go up by 1
 * Answer: TURN. A turn that ends in a logout says due 1, out 1.
 */
uint64_t hinet_poll(uint32_t number, uint32_t heard,
                    uint8_t *locks, size_t locks_len,
                    uint8_t *stations, size_t stations_len);

/* ------------------------------------------------------------------------
 * The station's end of the lock exchange
 * ------------------------------------------------------------------------
 *
 * Station state: 911 bytes.
 *   0 - 895    the list of locks: 64 places of 14 bytes, each a lock string,
 *              its length first. A place of length 0 is unused and zero, and
 *              none used follows it. Used places have length 1 to 13 and
 *              zeros after the string. No string stands twice.
 *   896 - 910  the frame awaited: code, length, 13 bytes as asked. For clear
 *              the code and zeros. 15 zeros when no reply is awaited.
 *
 * A station asks one thing at a time. It sends the frame awaited at as many
 * polls as it likes, until a reply to that frame comes. Only the answers to
 * that frame are given to hinet_station_reply; those to other commands are
 * not. Where a reply was lost, the same frame is sent again and the next one
 * settles it: a lock that was granted is then answered 81, an unlock 02.
 * While it waits it may also acknowledge, read, write or assign. It sends a
 * logout only while it waits for nothing, and then it stops. A login that is
 * answered with number 0 logs nobody in.
 *
 * A station that logs in again with its serial, as after a reset, has left its
 * old number: the master has logged that out and freed its locks. The old list
 * and the old wait are void. With serial 00 00 00 00 the old number stays in
 * and keeps its locks until its silence logs it out.
 *
 * A reply counts only in the exchange of its own frame. A status byte does
 * not say which frame it answers: one that comes late, after the time-out, is
 * taken for the reply to whatever is awaited then, and a lock may be listed
 * that is not held. tests/worked_station.c shows it. So the station's driver
 * takes a status byte only between its own frame and its time-out, and drops
 * any other; where a late byte could fall into the next exchange, the line
 * has to be quiet before that begins. Where the drivers see to it, and from
 * the login until the master logs the station out, every lock on the list is
 * the master's in the station's name, and while no reply is awaited both hold
 * the same strings.
 *
 * The list and the frame awaited are judged each by itself: a state is not
 * refused because a frame is awaited that does not fit the list.
 */

#define HINET_STATE_PLACES 64
#define HINET_STATE_PLACE_BYTES 14
#define HINET_STATE_AWAITED 896     /* where the frame awaited stands */
#define HINET_STATE_AWAITED_BYTES 15
#define HINET_STATE_BYTES 911

/* Fields of a state of 911 bytes. */

/* The lock string at a place from 0 to 63, 14 bytes, its length first. Length
 * 0 is an unused place. */
static inline const uint8_t *hinet_state_lockstring(const uint8_t *station, unsigned place)
{
    return station + HINET_STATE_PLACE_BYTES * place;
}

/* The code of the frame awaited, HINET_CODE_LOCK, _UNLOCK or _CLEAR, or 0 when
 * no reply is awaited. */
static inline uint8_t hinet_state_awaited(const uint8_t *station)
{
    return station[HINET_STATE_AWAITED];
}

/*
 * Fills a fresh state: an empty list, no reply awaited. Also called at each
 * login.
 *
 * Refusals: 11 when station_len is not 911.
 * Memory: the state is written whole.
 * Answer: none (0).
 */
uint64_t hinet_station_fresh(uint8_t *station, size_t station_len);

/*
 * Asks for a lock. lockstring points to 14 bytes, the length first. A string
 * of illegal length is asked like any other. All its bytes are kept.
 *
 * Refusals, in this order: 11 state, 14 a reply is awaited.
 * Memory: the lock frame becomes the frame awaited. The list stays.
 * Answer: none (0).
 */
uint64_t hinet_station_lock(uint8_t *station, size_t station_len,
                            const uint8_t lockstring[HINET_LOCKSTRING_BYTES]);

/*
 * Asks for an unlock. lockstring is as in hinet_station_lock.
 *
 * Refusals, in this order: 11 state, 14 a reply is awaited.
 * Memory: the same string is struck from the list, and the order of the rest
 *   stays. A string of illegal length strikes nothing. The unlock frame
 *   becomes the frame awaited.
 * Answer: none (0).
 */
uint64_t hinet_station_unlock(uint8_t *station, size_t station_len,
                              const uint8_t lockstring[HINET_LOCKSTRING_BYTES]);

/*
 * Asks to clear all locks.
 *
 * Refusals, in this order: 11 state, 14 a reply is awaited.
 * Memory: the list is emptied. The clear frame becomes the frame awaited.
 * Answer: none (0).
 */
uint64_t hinet_station_clear(uint8_t *station, size_t station_len);

/*
 * Writes the frame awaited at the start of the buffer.
 *
 * Refusals, in this order: 11 state, 13 the buffer is shorter than the
 *   frame. Lock and unlock frames have 15 bytes, a clear frame has 1.
 * Memory: the buffer holds the frame; the bytes after it stay. With no reply
 *   awaited any buffer will do and all of it stays. The state stays.
 * Answer: WRITTEN, with length 0 when no reply is awaited.
 */
uint64_t hinet_station_frame(const uint8_t *station, size_t station_len,
                             uint8_t *buffer, size_t buffer_len);

/*
 * Takes the status byte that answers the frame awaited.
 *
 * Refusals, in this order:
 *   11  state
 *   15  no reply is awaited;
 *       the byte is not listed for the request: lock 00 01 02 81 82,
 *       unlock 00 02, clear 00; a number above 255 never is;
 *       00 or 81 for a string of illegal length;
 *       or the string would be the 65th of the list.
 *       The wait goes on.
 * Memory: a lock reply 00 or 81 adds the string to the end of the list, if
 *   missing, with zeros after its length. Every reply taken ends the wait.
 * Answer: none (0).
 */
uint64_t hinet_station_reply(uint8_t *station, size_t station_len,
                             uint32_t reply);

/* ------------------------------------------------------------------------
 * Disk parameters
 * ------------------------------------------------------------------------
 *
 * What a station puts into its disk tables for a partition of each size, as
 * the makers' protocol paper tables it: CP/M 2.2's disk parameter block, and
 * MS-DOS 2.0's parameter block (BPB) up to sectors per track. Each block has 15
 * bytes. Numbers of two bytes have their low byte first.
 *
 * The size code is the one that the answer to an assign tells. Look at the
 * refusal of that answer first: the bytes beside refusal 10 are no answer, and
 * the first of them could pass for a size code.
 *
 *   CP/M 2.2                               MS-DOS 2.0
 *   0 - 1    SPT  sectors per track        0 - 1    bytes per sector
 *   2        BSH  block shift              2        sectors per cluster
 *   3        BLM  block mask               3 - 4    reserved sectors
 *   4        EXM  extent mask              5        FATs
 *   5 - 6    DSM  blocks - 1               6 - 7    root directory entries
 *   7 - 8    DRM  directory entries - 1    8 - 9    sectors
 *   9, 10    AL0, AL1  directory blocks    10       media byte
 *   11 - 12  CKS  check vector             11 - 12  sectors per FAT
 *   13 - 14  OFF  system tracks            13 - 14  sectors per track
 *
 * A CP/M sector has 128 bytes, and a block 128 * 2^BSH. Blocks times block
 * size is the size of the partition; so is MS-DOS's sectors times 128, but for
 * size code 6: two bytes count 65535 sectors at most, and the partition's last
 * one is not used. All numbers are as the paper has them, but for DRM of size
 * 1: it is 63, and the paper prints 163. EXM of size 2 is 0, though CP/M would
 * allow 1; a disk keeps the one that it was written with. CKS is the tabled
 * size; a station under HiDos, which keeps no check vectors, puts 0 there.
 * ./hinet parameters prints all of it.
 */

#define HINET_SIZE_FIRST 1
#define HINET_SIZE_LAST 6
#define HINET_PARAMETERS_BYTES 15

/*
 * Each of these writes the block of a size code at the start of the buffer.
 *
 * Refusals, in this order: 16 the size code is not 1 to 6; no number is cut,
 *   so 257 is refused, and so is 255, the size of an assign that was denied.
 *   13 buffer_len is below 15.
 * Memory: the buffer holds the block; the bytes after it stay.
 * Answer: WRITTEN with length 15.
 */
uint64_t hinet_cpm_parameters(uint32_t size, uint8_t *buffer, size_t buffer_len);

uint64_t hinet_msdos_parameters(uint32_t size, uint8_t *buffer, size_t buffer_len);

/* The number in two bytes of a block, the first of them at `at`. */
static inline uint16_t hinet_block_two(const uint8_t *block, unsigned at)
{
    return (uint16_t)(block[at] | (unsigned)block[at + 1] << 8);
}

/* Fields of a CP/M block. */

/* Sectors of 128 bytes in a track. */
static inline uint16_t hinet_cpm_spt(const uint8_t *block)
{
    return hinet_block_two(block, 0);
}

/* Block shift: a block has 128 * 2^BSH bytes. */
static inline uint8_t hinet_cpm_bsh(const uint8_t *block)
{
    return block[2];
}

/* Block mask: 2^BSH - 1. */
static inline uint8_t hinet_cpm_blm(const uint8_t *block)
{
    return block[3];
}

/* Extent mask. */
static inline uint8_t hinet_cpm_exm(const uint8_t *block)
{
    return block[4];
}

/* The last block: blocks - 1. */
static inline uint16_t hinet_cpm_dsm(const uint8_t *block)
{
    return hinet_block_two(block, 5);
}

/* The last directory entry: entries - 1. */
static inline uint16_t hinet_cpm_drm(const uint8_t *block)
{
    return hinet_block_two(block, 7);
}

/* Directory blocks: a bit for each of the first 16, the high bit of AL0 for
 * block 0. */
static inline uint8_t hinet_cpm_al0(const uint8_t *block)
{
    return block[9];
}

static inline uint8_t hinet_cpm_al1(const uint8_t *block)
{
    return block[10];
}

/* Bytes of the check vector: a quarter of the directory entries. */
static inline uint16_t hinet_cpm_cks(const uint8_t *block)
{
    return hinet_block_two(block, 11);
}

/* Tracks kept for the operating system. */
static inline uint16_t hinet_cpm_off(const uint8_t *block)
{
    return hinet_block_two(block, 13);
}

/* Fields of an MS-DOS block. */

static inline uint16_t hinet_msdos_bytes_per_sector(const uint8_t *block)
{
    return hinet_block_two(block, 0);
}

static inline uint8_t hinet_msdos_sectors_per_cluster(const uint8_t *block)
{
    return block[2];
}

static inline uint16_t hinet_msdos_reserved_sectors(const uint8_t *block)
{
    return hinet_block_two(block, 3);
}

/* How many FATs there are. */
static inline uint8_t hinet_msdos_fats(const uint8_t *block)
{
    return block[5];
}

/* Entries of the root directory. */
static inline uint16_t hinet_msdos_root_entries(const uint8_t *block)
{
    return hinet_block_two(block, 6);
}

/* Sectors in all. */
static inline uint16_t hinet_msdos_sectors(const uint8_t *block)
{
    return hinet_block_two(block, 8);
}

/* The media byte. */
static inline uint8_t hinet_msdos_media(const uint8_t *block)
{
    return block[10];
}

static inline uint16_t hinet_msdos_sectors_per_fat(const uint8_t *block)
{
    return hinet_block_two(block, 11);
}

static inline uint16_t hinet_msdos_sectors_per_track(const uint8_t *block)
{
    return hinet_block_two(block, 13);
}

/* ------------------------------------------------------------------------
 * Choosing the system at login
 * ------------------------------------------------------------------------
 *
 * What a station loads after its login, chosen from the tables of the makers'
 * boot paper. The C program reads them from its disk and lends them, each as
 * whole rows with nothing before or after. It also reads the Boot Phase 2
 * program, puts the 194 bytes of the block behind the first four of that
 * program, and sends it. The product row has its name; the C program finds the
 * row by the same two searches, machine and product.
 *
 *   table          bytes   most   a row
 *   machines          12    128   serial 4, product number, option map 6,
 *                                 IOBYTE
 *   products          25     40   product type, names of 8: Boot Phase 2,
 *                                 Login Please, OS Menu
 *   users             16    128   name 8, password 6, OS number, size flag
 *   configurations    64    128   names of drives A to D, of 8; type-ahead: its
 *                                 length and 31 bytes
 *   systems           96    128   OS number, product map 16, option map 6,
 *                                 load list: 8 names of 8, reserved 9
 *   directory         24    128   name 8, disk address 5, length 2, load
 *                                 address 4, offset to execution 2,
 *                                 program/data flag, reserved 2
 *
 * That is, the bytes of a row and the most rows of a table. A table may be
 * empty. A user row is that of a site file, so the file's own rows may be lent:
 * they begin at its byte 8. A disk address is volume, partition, track (2) and
 * sector. A length is in sectors of 128 bytes.
 *
 * A search takes the first row that fits:
 *   machine   the row with the serial. Its product number, option map and
 *             IOBYTE count; the product that a login frame sends does not.
 *   product   the row whose type is the machine's product number. The top bit
 *             of both is ignored. A row of type 0 ends the table: neither it
 *             nor a row after it is found. Type 80 hex ends nothing.
 *   user      the row with both name and password. Names of users are equal as
 *             they are in a site file, padding aside.
 *   system    one that fits. Upper halves of the user's and the system's OS
 *             number are equal, and so are the lower halves, unless the user's
 *             is 0. The product map has the bit of the machine's product
 *             number, its top bit dropped: bit n is bit n % 8 of byte n / 8,
 *             the low bit first. And the first name of the load list is in the
 *             directory.
 *   file      the directory row with the name. These names are compared byte by
 *             byte. A null name, eight zeros, ends a load list. It is never in
 *             the directory, though the row of the high-water mark has it.
 *
 * A user whose size flag has low bit 0 wants full service: the first system
 * that fits with an option map equal to the machine's. Where there is none, or
 * the low bit is 1, it is the smallest of the systems that fit: the one whose
 * first file has the smallest length, the lower row where two are equal.
 *
 *   honor flag   what is loaded
 *   0            the system with the machine's option map: its load list
 *   1            the smallest system that fits: its load list
 *   2            Login Please, as no user row has the name and password
 *   3            OS Menu, as no system fits
 *   4            nothing: no machine row, no product row, or a chosen name
 *                is not in the directory
 *
 * Of a chosen system every name up to the first null one must be in the
 * directory: where a later one is missing the flag is 4, and no other system
 * is tried. The Boot Phase 2 name is not looked up.
 *
 * The block, 194 bytes:
 *   0 - 31     names of drives A to D
 *   32         IOBYTE, the machine row's
 *   33 - 64    type-ahead, its length first
 *   65         honor flag
 *   66 - 193   eight load entries of 16 bytes, each a directory row without its
 *              name, in the order of the load list; unused ones are zero
 * Drives and type-ahead are those of the configuration row with the number of
 * the user row, zeros where there is no such row, and zeros with flag 2.
 * A station loads the entries up to the first of length 0, so a file of length
 * 0 does not belong into a load list.
 *
 * With flag 4 there is no block to send, and the paper has the master reject
 * the login. hinet_frame knows nothing of it: call hinet_boot with the fields
 * of the login frame first, and serve the frame where the flag is another.
 */

#define HINET_MACHINE_ROW_BYTES 12
#define HINET_MACHINES_MOST 128
#define HINET_PRODUCT_ROW_BYTES 25
#define HINET_PRODUCTS_MOST 40
#define HINET_USER_ROW_BYTES 16
#define HINET_USERS_MOST 128
#define HINET_CONFIGURATION_ROW_BYTES 64
#define HINET_CONFIGURATIONS_MOST 128
#define HINET_SYSTEM_ROW_BYTES 96
#define HINET_SYSTEMS_MOST 128
#define HINET_DIRECTORY_ROW_BYTES 24
#define HINET_DIRECTORY_MOST 128

#define HINET_BOOT_DRIVES 4             /* names of drives, at 0 */
#define HINET_BOOT_IOBYTE 32            /* where the IOBYTE stands */
#define HINET_BOOT_TYPEAHEAD 33         /* where the type-ahead's length stands */
#define HINET_BOOT_TYPEAHEAD_MOST 31    /* bytes after that length */
#define HINET_BOOT_HONOR 65             /* where the honor flag stands */
#define HINET_BOOT_ENTRY 66             /* where the first load entry stands */
#define HINET_BOOT_ENTRIES 8
#define HINET_BOOT_ENTRY_BYTES 16
#define HINET_BOOT_BYTES 194

/* Honor flags. */
#define HINET_HONOR_EXACT 0         /* a system with the machine's options */
#define HINET_HONOR_SMALLEST 1      /* the smallest system that fits */
#define HINET_HONOR_LOGIN 2         /* Login Please */
#define HINET_HONOR_MENU 3          /* OS Menu */
#define HINET_HONOR_NOTHING 4       /* nothing, and no block */

/* Kind BOOT: the honor flag, one of HINET_HONOR_... */
static inline uint8_t hinet_answer_honor(uint64_t answer)
{
    return hinet_answer_byte(answer, 0);
}

/* What an honor flag means, as text in English. */
static inline const char *hinet_honor_text(unsigned flag)
{
    switch (flag) {
    case HINET_HONOR_EXACT:    return "a system with the machine's options";
    case HINET_HONOR_SMALLEST: return "the smallest system that fits";
    case HINET_HONOR_LOGIN:    return "Login Please, as name or password is unknown";
    case HINET_HONOR_MENU:     return "OS Menu, as no system fits";
    case HINET_HONOR_NOTHING:  return "nothing can be loaded";
    default:                   return "no honor flag";
    }
}

/*
 * Chooses what a station loads, and writes the data block of Boot Phase 2 at
 * the start of the buffer `block`. The tables may hold any bytes.
 *
 * Refusals, in this order:
 *   23  a table is not whole rows, or has more rows than its limit
 *   13  block_len is below 194, also where the flag would be 4
 * Memory: with flags 0 to 3 the buffer holds the block; the bytes after it
 *   stay. With flag 4 all of it stays.
 * Answer: BOOT with the honor flag, which the block has too. Flag 4 is an
 *   answer, no refusal.
 */
uint64_t hinet_boot(const uint8_t serial[HINET_SERIAL_BYTES],
                    const uint8_t name[HINET_NAME_BYTES],
                    const uint8_t password[HINET_PASSWORD_BYTES],
                    const uint8_t *machines, size_t machines_len,
                    const uint8_t *products, size_t products_len,
                    const uint8_t *users, size_t users_len,
                    const uint8_t *configurations, size_t configurations_len,
                    const uint8_t *systems, size_t systems_len,
                    const uint8_t *directory, size_t directory_len,
                    uint8_t *block, size_t block_len);

/* Fields of a block of 194 bytes. */

/* The eight bytes of a drive's name; drive is 0 to 3, for A to D. */
static inline const uint8_t *hinet_boot_drive(const uint8_t *block, unsigned drive)
{
    return block + HINET_NAME_BYTES * drive;
}

static inline uint8_t hinet_boot_iobyte(const uint8_t *block)
{
    return block[HINET_BOOT_IOBYTE];
}

/* How many bytes of the type-ahead are used. It is the byte of the table, and
 * may be above 31 where the table is wrong. */
static inline uint8_t hinet_boot_typeahead_length(const uint8_t *block)
{
    return block[HINET_BOOT_TYPEAHEAD];
}

/* The 31 bytes of the type-ahead. */
static inline const uint8_t *hinet_boot_typeahead(const uint8_t *block)
{
    return block + HINET_BOOT_TYPEAHEAD + 1;
}

/* The honor flag, 0 to 3 in a block that was written. */
static inline uint8_t hinet_boot_honor(const uint8_t *block)
{
    return block[HINET_BOOT_HONOR];
}

/* A load entry, 16 bytes; i is 0 to 7. */
static inline const uint8_t *hinet_boot_entry(const uint8_t *block, unsigned i)
{
    return block + HINET_BOOT_ENTRY + HINET_BOOT_ENTRY_BYTES * i;
}

/* Fields of a load entry. */

static inline hinet_volume hinet_entry_volume(const uint8_t *entry)
{
    return hinet_volume_of(entry[0]);
}

static inline hinet_partition hinet_entry_partition(const uint8_t *entry)
{
    return hinet_partition_of(entry[1]);
}

static inline hinet_track hinet_entry_track(const uint8_t *entry)
{
    return hinet_track_of(entry[2] | (uint32_t)entry[3] << 8);
}

static inline hinet_sector hinet_entry_sector(const uint8_t *entry)
{
    return hinet_sector_of(entry[4]);
}

/* Sectors of 128 bytes. */
static inline uint16_t hinet_entry_length(const uint8_t *entry)
{
    return hinet_block_two(entry, 5);
}

/* Where in the station's memory the file is loaded. */
static inline uint32_t hinet_entry_load_address(const uint8_t *entry)
{
    return hinet_block_two(entry, 7) | (uint32_t)hinet_block_two(entry, 9) << 16;
}

/* How far from there execution begins. */
static inline uint16_t hinet_entry_start_offset(const uint8_t *entry)
{
    return hinet_block_two(entry, 11);
}

/* The program/data flag; its low bit is 1 for a program. */
static inline uint8_t hinet_entry_flag(const uint8_t *entry)
{
    return entry[13];
}

/* How many entries a station loads: those before the first of length 0. */
static inline unsigned hinet_boot_entry_count(const uint8_t *block)
{
    unsigned i = 0;
    while (i < HINET_BOOT_ENTRIES && hinet_entry_length(hinet_boot_entry(block, i)) != 0)
        i++;
    return i;
}

/* ------------------------------------------------------------------------
 * The frame on the line
 * ------------------------------------------------------------------------
 *
 * For a board without a serial chip: the SDLC frame in bits. The C program
 * moves them over its port, at the rate of its line, and finds where a frame
 * begins. The library knows no rate, no clock and no time-out.
 *
 *   flag flag content flag flag
 *
 *   flag      the bits 0 1 1 1 1 1 1 0
 *   content   user number, 1 to 1024 data bytes, check (2), each byte low bit
 *             first. After five ones stands a zero, which is not part of them,
 *             also where they end the check.
 *   check     the 16-bit one of RFC 1662 over user number and data, low byte
 *             first: polynomial 8408 (low bit first), start FFFF, complement
 *             sent. That of the text 123456789 is 906E.
 *
 * The user number is the one that the frame is for: 0 is the master.
 *
 * Bits stand in bytes low bit first: bit i of the line is bit i % 8 of byte
 * i / 8. A bit count says how many there are.
 *
 * Buffers. 1237 bytes hold the bits of any frame that hinet_line_write writes:
 * 32 of the flags, 8216 of the content, and a zero for every five of these at
 * most, 9891 in all. Received bits need more where more flags stand before the
 * content, a byte for each: HiNet sends several. 1024 bytes hold the data of
 * any frame; a shorter buffer does where the data are fewer,
 * as 20 bytes do for every request frame.
 *
 * Two different contents never have the same bits, and what hinet_line_write
 * wrote hinet_line_read reads back. Two contents of one length that differ in
 * one byte never have the same check. Other damage can pass a check of 16
 * bits, as with the serial chip.
 */

#define HINET_LINE_DATA_MOST 1024   /* data bytes of a frame */
#define HINET_LINE_BITS_MOST 9891   /* bits of a frame, no frame has more */
#define HINET_LINE_BYTES_MOST 1237  /* bytes that hold them */
#define HINET_LINE_MASTER 0         /* user number of the master */

/* Kind BITS: how many bits were written. */
static inline uint32_t hinet_answer_bit_count(uint64_t answer)
{
    return (uint32_t)(answer >> 16 & 0xFFFFFFFFu);
}

/* Kind LINE: the user number that the frame is for. */
static inline uint8_t hinet_answer_line_user(uint64_t answer)
{
    return hinet_answer_byte(answer, 0);
}

/* Kind LINE: how many data bytes the frame has. */
static inline uint16_t hinet_answer_line_length(uint64_t answer)
{
    return (uint16_t)(answer >> 24 & 0xFFFF);
}

/*
 * Writes the bits of a frame to `user` at the start of the buffer `bits`. The
 * user number is a byte: 256 would be cut to 0, the master.
 *
 * Refusals, in this order:
 *   17  data_len is not 1 to 1024
 *   13  the bytes that hold the bits do not fit; never with bits_len 1237 or
 *       more
 * Memory: the buffer holds the bits, and the unused bits of the last byte are
 *   zero; the bytes after it stay. A refused call changes nothing.
 * Answer: BITS with the bit count.
 */
uint64_t hinet_line_write(uint8_t user,
                          const uint8_t *data, size_t data_len,
                          uint8_t *bits, size_t bits_len);

/*
 * Reads a frame from the first bit_count bits, and puts its data at the start
 * of the buffer `data`.
 *
 * A flag stands at the first bit. Those that follow it at once are skipped,
 * also where two share a zero: 0 111111 0 111111 0. Then come the bits of the
 * content, up to the next flag; what stands after that flag is not looked at.
 * The bit after five ones is left out. Where five ones stand right before the
 * flag, they are read as if their zero were there.
 *
 * Refusals, in this order:
 *   18  no flag at the first bit; the bits ended before the closing flag; or
 *       bit_count is above 8 * bits_len, however good the bits are
 *   19  seven ones before the closing flag
 *   20  the bits of the content are not whole bytes
 *   21  the content is under four bytes
 *   17  over 1024 data bytes
 *   22  the check is not that of user number and data
 *   13  the data do not fit; never with data_len 1024 or more
 * Memory: the buffer holds the data; the bytes after them stay. A refused call
 *   changes nothing: a frame that was spoiled leaves no trace in it.
 * Answer: LINE, whoever the frame is for.
 */
uint64_t hinet_line_read(const uint8_t *bits, size_t bits_len, size_t bit_count,
                         uint8_t *data, size_t data_len);

/*
 * Reads a frame from the line and, where it is for the master, serves it as
 * one that came at the number polled. The number tells who sends; the user
 * number of the frame tells for whom it is.
 *
 * Refusals, in this order: 18, 19, 20, 21, 17, 22 as hinet_line_read has them.
 *   Then, for user number 0, those of hinet_frame: 11, 10 with the site file's
 *   first fault, and 1 to 9; 1 does not occur, as a frame has data.
 * Memory: for user number 0 as hinet_frame leaves it. For any other number
 *   nothing is served and nothing changes, nor where the call is refused.
 * Answer: for user number 0 that of hinet_frame to the frame's data. For any
 *   other number LINE; the tables and the site file are then not looked at.
 *   One refused with 18 to 22 was spoiled on its way: nobody answers it, and
 *   its sender sends it again.
 */
uint64_t hinet_line_frame(uint32_t number,
                          const uint8_t *bits, size_t bits_len, size_t bit_count,
                          const uint8_t *site, size_t site_len,
                          uint8_t *locks, size_t locks_len,
                          uint8_t *stations, size_t stations_len);

#ifdef __cplusplus
}
#endif

#endif
