/*
 * The relay frame of an ultrasonic gauge bench: router, map check, records, and nets added and dropped one by one.
 * For C99 and C++11 on x86-64.
 *
 * Every call takes every input there can be. It gives a code (the result) and a number (through the last pointer,
 * always written; 0 with FRAME_DONE). A refusal leaves lent room as it came. Nothing has to be tested beforehand,
 * and there is no default pattern: close relays only after FRAME_DONE. A result that is dropped is warned about.
 *
 * A frame has four sides of `size` terminals, 1 to 64: L, T, R, B, told as 1 to 4. Positions run clockwise from 1:
 *
 *              T: 1 2 .. size          L from the bottom up,
 *             +--------------+         T from left to right,
 *        size |              | 1       R from the top down,
 *     L:   .. |              | ..  :R  B from right to left.
 *           1 |              | size
 *             +--------------+
 *              size .. 2 1 :B
 *
 * A net joins two terminals of different sides through one relay. n1 to n6 are the nets of each type:
 *     type 1: L and R    2: T and B    3: L and T    4: T and R    5: R and B    6: L and B
 * Relay (c, p), of type c from 1 to 6 and position p from 1 to size, joins position p of the type's earlier side (the
 * one named first above) to position size + 1 - p of its later side; no other terminals are joined. Its number is
 * (c-1)*size + (p-1), and frame_relay_terminals tells type and terminals from that. In a map the relay is bit
 * number % 8 of byte number / 8, bit 0 the least significant; 1 means closed. A map has FRAME_MAP_BYTES(size) bytes;
 * bits past the last relay are 0.
 *
 * Sizes, counts, types and relays are 16 bits wide. C cuts a wider number without a word: a count of 65537 in an
 * int arrives as 1. Compile with -Wconversion, and test numbers that come from outside before they are narrowed.
 *
 * Pointers: a lent slice is a pointer and its length in bytes; NULL with length 0 is allowed. The other pointers
 * must not be NULL. What a call writes to must not overlap anything else that it is handed; `number` neither.
 * The calls keep no state, so they may be made from several threads at once.
 */
#ifndef YLVANTERI_FRAME_H
#define YLVANTERI_FRAME_H

#include <stddef.h>
#include <stdint.h>

#ifdef __cplusplus
extern "C" {
#endif

/*
 * The version of this header. Its first number stays 0 while declarations still change, until the fourteen requests
 * have landed: each change of a declaration raises the second number, and with it the shared library's soname,
 * libylvanteri_frame.so.0.5; the third counts what changes no declaration. A program that was compiled with one second
 * number must not be run with the library of another: see frame_version.
 */
#define FRAME_VERSION_MAJOR 0
#define FRAME_VERSION_MINOR 5
#define FRAME_VERSION_PATCH 0
#define FRAME_VERSION (FRAME_VERSION_MAJOR * 10000 + FRAME_VERSION_MINOR * 100 + FRAME_VERSION_PATCH)

/* A call whose code is not looked at is a fault of the program; compilers that can say so do. */
#if defined(__cplusplus) && __cplusplus >= 201703L
#define FRAME_NODISCARD [[nodiscard]]
#elif defined(__STDC_VERSION__) && __STDC_VERSION__ >= 202311L
#define FRAME_NODISCARD [[nodiscard]]
#elif defined(__GNUC__)
#define FRAME_NODISCARD __attribute__((warn_unused_result))
#else
#define FRAME_NODISCARD
#endif

/* The bytes of a map and of a pattern record of a size, and of every job record; and the largest of each. */
#define FRAME_MAP_BYTES(size) ((6 * (size_t)(size) + 7) / 8)
#define FRAME_PATTERN_BYTES(size) (22 + FRAME_MAP_BYTES(size))
#define FRAME_JOB_RECORD 19
#define FRAME_MOST_SIZE 64
#define FRAME_MOST_MAP 48
#define FRAME_MOST_PATTERN_RECORD 70

/* The codes: when each comes back, and with which number. CODES.md says how each comes about and what to do. */
enum frame_code {
    FRAME_DONE = 0,             /* done: 0 */
    FRAME_WRONG_SIZE = 1,       /* size not 1 to 64: the size */
    FRAME_WRONG_ROOM = 2,       /* room too short, or map not of the exact length: the length needed */
    FRAME_OVERFULL = 3,         /* one or more sides asked for more nets than the size: the sum of 1, 2, 4, 8 for L, T, R, B */
                                /* 4, 5, 6: retired, not used again */
    FRAME_RECORD_CUT = 7,       /* record ends inside a field or where a field must start: the offset of that field */
    FRAME_WRONG_TAG = 8,        /* wrong tag: the offset of that field */
    FRAME_WRONG_LENGTH = 9,     /* wrong length: the offset of that field */
    FRAME_BYTES_AFTER = 10,     /* bytes after the last field: the offset of the first */
    FRAME_SPARE_BIT = 11,       /* spare bit of the map set: 0 */
    FRAME_SHARED_TERMINAL = 12, /* two closed relays share a terminal: the lowest that shares one with a lower relay */
    FRAME_WRONG_COUNT = 13,     /* closed relays of a type not as many as its count: the first such type */
                                /* 14: retired, not used again */
                                /* 15, 16, 17: not in use */
    FRAME_WRONG_TYPE = 18,      /* type not 1 to 6: the type */
    FRAME_NONE_FREE = 19,       /* no relay of the type has both its terminals free: the type */
    FRAME_NOT_CLOSED = 20       /* relay not closed, or not there: that relay */
};

/* A code in words, without its number. For a message; compare codes, not texts. */
static inline const char *frame_code_text(uint32_t code)
{
    switch (code) {
    case FRAME_DONE: return "done";
    case FRAME_WRONG_SIZE: return "size not 1 to 64";
    case FRAME_WRONG_ROOM: return "room too short, or map not of the exact length";
    case FRAME_OVERFULL: return "one or more sides asked for more nets than the size";
    case FRAME_RECORD_CUT: return "record ends inside a field or where a field must start";
    case FRAME_WRONG_TAG: return "wrong tag";
    case FRAME_WRONG_LENGTH: return "wrong length";
    case FRAME_BYTES_AFTER: return "bytes after the last field";
    case FRAME_SPARE_BIT: return "spare bit of the map set";
    case FRAME_SHARED_TERMINAL: return "two closed relays share a terminal";
    case FRAME_WRONG_COUNT: return "closed relays of a type not as many as its count";
    case FRAME_WRONG_TYPE: return "type not 1 to 6";
    case FRAME_NONE_FREE: return "no relay of the type has both its terminals free";
    case FRAME_NOT_CLOSED: return "relay not closed, or not there";
    default: return "no code of this version";
    }
}

/* The version of the library that is linked, as FRAME_VERSION has it: 500 is 0.5.0. */
uint32_t frame_version(void);

/*
 * The bit of a side, 1 to 4 for L, T, R, B as in a terminal, in the number beside FRAME_OVERFULL: set if the side is
 * overfull. Its sum is sums[side - 1].
 */
#define FRAME_SIDE_BIT(side) (1u << ((side) - 1))

/*
 * Picks the relays for a job. The room may be longer than the map: on FRAME_DONE its first FRAME_MAP_BYTES(size)
 * bytes are the map, whatever they held before, and the rest is unchanged. On a refusal all of it is unchanged.
 * With FRAME_OVERFULL the number tells all overfull sides, and sums[0] to sums[3] are the nets that L, T, R, B are
 * asked for, those that are not overfull too. With any other code, FRAME_DONE too, all four are 0: sums is always
 * written. room, sums and number must not overlap. Counts are 16 bits: 65537 in an int arrives as 1.
 * Codes in this order: 1, 2, 3. The same job always gives the same map.
 */
FRAME_NODISCARD uint32_t frame_route(uint16_t size, uint16_t n1, uint16_t n2, uint16_t n3, uint16_t n4,
                                     uint16_t n5, uint16_t n6, uint8_t *room, size_t room_len, uint32_t sums[4],
                                     uint32_t *number);

/*
 * Says whether a map carries a job: of each type as many relays are closed as the job has nets, and no two closed
 * relays share a terminal. map_len must be exactly FRAME_MAP_BYTES(size), not the length of a longer room. Writes the
 * number alone, which must not overlap the map. Counts are 16 bits: 65537 in an int arrives as 1.
 * Codes in this order: 1, 2, 11, 12, 13.
 */
FRAME_NODISCARD uint32_t frame_check_map(uint16_t size, uint16_t n1, uint16_t n2, uint16_t n3, uint16_t n4,
                                         uint16_t n5, uint16_t n6, const uint8_t *map, size_t map_len,
                                         uint32_t *number);

/* A terminal: its side, 1 to 4 for L, T, R, B, and its position from 1 to the size. */
struct frame_terminal {
    uint16_t side;
    uint16_t position;
};

/*
 * Tells what a relay joins: *type is its type, *earlier its terminal on the type's earlier side, *later the one on the
 * later side. Their positions add up to size + 1. On a refusal all five numbers are 0. None of what is written may
 * overlap. Codes in this order: 1, and 20 where no relay has that number.
 */
FRAME_NODISCARD uint32_t frame_relay_terminals(uint16_t size, uint16_t relay, uint16_t *type,
                                               struct frame_terminal *earlier, struct frame_terminal *later,
                                               uint32_t *number);

/*
 * Reads a job record. On FRAME_DONE *size is the job's size and counts[0] to counts[5] are n1 to n6; on a refusal
 * they are 0. Counts are not held against the size. None of what is written may overlap, nor stand in the record.
 * Codes: 7, 8, 9, 1 as the fields come from the left, then 10.
 */
FRAME_NODISCARD uint32_t frame_read_job(const uint8_t *record, size_t record_len, uint16_t *size,
                                        uint16_t counts[6], uint32_t *number);

/*
 * Writes a job record of FRAME_JOB_RECORD bytes into the room, which may be longer. Past the record the room is
 * unchanged; on a refusal all of it is. room and number must not overlap. Counts are not looked at, and are 16 bits:
 * 65537 in an int arrives as 1. Codes in this order: 1, 2.
 */
FRAME_NODISCARD uint32_t frame_write_job(uint16_t size, uint16_t n1, uint16_t n2, uint16_t n3, uint16_t n4,
                                         uint16_t n5, uint16_t n6, uint8_t *room, size_t room_len,
                                         uint32_t *number);

/*
 * Reads a pattern record. On FRAME_DONE the map stands in the record, *map_len bytes from record + *map_at on, and
 * carries the job that is given back. On a refusal *size, all counts, *map_at and *map_len are 0. None of what is
 * written may overlap, nor stand in the record.
 * Codes: 7, 8, 9, 1 as the fields come from the left, then 10, then the map check's 11, 12, 13.
 */
FRAME_NODISCARD uint32_t frame_read_pattern(const uint8_t *record, size_t record_len, uint16_t *size,
                                            uint16_t counts[6], size_t *map_at, size_t *map_len,
                                            uint32_t *number);

/*
 * Writes a pattern record of FRAME_PATTERN_BYTES(size) bytes into the room, which may be longer. Past the record the
 * room is unchanged; on a refusal all of it is. map_len must be exactly FRAME_MAP_BYTES(size). The room must not
 * overlap the map, nor number either of them. Counts are 16 bits: 65537 in an int arrives as 1.
 * Codes in this order: the map check's, then 2 with the record's length.
 */
FRAME_NODISCARD uint32_t frame_write_pattern(uint16_t size, uint16_t n1, uint16_t n2, uint16_t n3, uint16_t n4,
                                             uint16_t n5, uint16_t n6, const uint8_t *map, size_t map_len,
                                             uint8_t *room, size_t room_len, uint32_t *number);

/*
 * Nets one by one, while the others stay closed. A start is an open frame (frame_open_all) or a map that may be
 * closed (frame_check_start says whether): one from the router, from a pattern record, or from calls made before.
 * The map is lent to each call, and each call makes the start's tests first, so nothing has to be remembered between
 * calls and no map is changed that was not tested.
 */

/* Beside a refused frame_add_net. No frame has a relay of this number, and dropping it is refused. */
#define FRAME_NO_RELAY 65535

/*
 * Opens all relays. The room may be longer than the map: on FRAME_DONE its first FRAME_MAP_BYTES(size) bytes are the
 * map of an open frame, and the rest is unchanged. On a refusal all of it is unchanged. room and number must not
 * overlap. Codes in this order: 1, 2.
 */
FRAME_NODISCARD uint32_t frame_open_all(uint16_t size, uint8_t *room, size_t room_len, uint32_t *number);

/*
 * Says whether a map may be closed, whatever its job: map_len is exactly FRAME_MAP_BYTES(size), no spare bit is set,
 * no terminal is touched by two closed relays. Writes the number alone, which must not overlap the map.
 * Codes in this order: 1, 2, 11, 12.
 */
FRAME_NODISCARD uint32_t frame_check_start(uint16_t size, const uint8_t *map, size_t map_len, uint32_t *number);

/*
 * Adds a net of a type: closes the lowest-numbered relay of that type that has both its terminals free, and says
 * which in *relay. No relay is opened. It is refused with 19 exactly if there is no such relay, even where another
 * map could carry one net more. On a refusal the map is unchanged and *relay is FRAME_NO_RELAY. map_len must be exactly
 * FRAME_MAP_BYTES(size). map, relay and number must not overlap. Codes in this order: 1, 2, 11, 12, 18, 19.
 */
FRAME_NODISCARD uint32_t frame_add_net(uint16_t size, uint8_t *map, size_t map_len, uint16_t type, uint16_t *relay,
                                       uint32_t *number);

/*
 * Drops the net of a relay: opens that relay and no other. On a refusal the map is unchanged. map_len must be exactly
 * FRAME_MAP_BYTES(size). map and number must not overlap. Codes in this order: 1, 2, 11, 12, 20.
 */
FRAME_NODISCARD uint32_t frame_drop_net(uint16_t size, uint8_t *map, size_t map_len, uint16_t relay,
                                        uint32_t *number);

#ifdef __cplusplus
}
#endif

#endif
