/* The records: what is written reads back, every cut and every changed byte of a record, lengths 0 to 80, against a plain reading. */
#include <string.h>

#include "check.h"
#include "frame.h"

enum { GUARD = 16, FILL = 0xA5, SPACE = 80 };

struct read {
    uint32_t code, number;
    uint16_t size, n[6];
    size_t at, len;
};

static struct read refusal(uint32_t code, size_t number)
{
    return (struct read){.code = code, .number = (uint32_t)number};
}

/* A field from the left; 0 where it is there, else the code. */
static uint32_t field(const uint8_t *s, size_t len, size_t at, uint8_t tag, size_t want)
{
    if (at >= len) {
        return FRAME_RECORD_CUT;
    }
    if (s[at] != tag) {
        return FRAME_WRONG_TAG;
    }
    if (len - at < 3) {
        return FRAME_RECORD_CUT;
    }
    if ((size_t)s[at + 1] * 256 + s[at + 2] != want) {
        return FRAME_WRONG_LENGTH;
    }
    return len - at - 3 < want ? FRAME_RECORD_CUT : FRAME_DONE;
}

/* A plain reading, from the scope; the map check is the library's, which has a test of its own. */
static struct read plain(const uint8_t *s, size_t len, int pattern)
{
    struct read r = {.code = field(s, len, 0, 1, 1)};
    if (r.code) {
        return refusal(r.code, 0);
    }
    if (s[3] < 1 || s[3] > 64) {
        return refusal(FRAME_WRONG_SIZE, s[3]);
    }
    r.size = s[3];
    r.code = field(s, len, 4, 2, 12);
    if (r.code) {
        return refusal(r.code, 4);
    }
    for (int c = 0; c < 6; c++) {
        r.n[c] = (uint16_t)(s[7 + 2 * c] * 256 + s[8 + 2 * c]);
    }
    size_t end = 19;
    if (pattern) {
        r.len = FRAME_MAP_BYTES(r.size);
        r.code = field(s, len, 19, 3, r.len);
        if (r.code) {
            return refusal(r.code, 19);
        }
        r.at = 22;
        end = FRAME_PATTERN_BYTES(r.size);
    }
    if (len > end) {
        return refusal(FRAME_BYTES_AFTER, end);
    }
    if (pattern) {
        uint32_t number;
        uint32_t code = frame_check_map(r.size, r.n[0], r.n[1], r.n[2], r.n[3], r.n[4], r.n[5], s + r.at, r.len, &number);
        if (code) {
            return refusal(code, number);
        }
    }
    return r;
}

/* Every out-parameter is filled with rubbish before the call. */
static struct read library(const uint8_t *s, size_t len, int pattern)
{
    struct read r;
    memset(&r, FILL, sizeof r);
    if (pattern) {
        r.code = frame_read_pattern(s, len, &r.size, r.n, &r.at, &r.len, &r.number);
    } else {
        r.at = r.len = 0;
        r.code = frame_read_job(s, len, &r.size, r.n, &r.number);
    }
    return r;
}

static void rewritten(const struct read *r, const uint8_t *s, size_t len, int pattern)
{
    uint8_t room[SPACE];
    uint32_t number;
    memset(room, FILL, sizeof room);
    uint32_t code = pattern
        ? frame_write_pattern(r->size, r->n[0], r->n[1], r->n[2], r->n[3], r->n[4], r->n[5], s + r->at, r->len, room, len, &number)
        : frame_write_job(r->size, r->n[0], r->n[1], r->n[2], r->n[3], r->n[4], r->n[5], room, len, &number);
    CHECK(code == FRAME_DONE && memcmp(room, s, len) == 0, "accepted record of %zu bytes is written otherwise, code %u", len, code);
}

static void compare(const uint8_t *s, size_t len)
{
    for (int pattern = 0; pattern < 2; pattern++) {
        struct read want = plain(s, len, pattern), got = library(s, len, pattern);
        int same = want.code == got.code && want.number == got.number && want.size == got.size && want.at == got.at && want.len == got.len
            && memcmp(want.n, got.n, sizeof want.n) == 0;
        CHECK(same, "%zu bytes, pattern %d: code %u, number %u and not %u, %u", len, pattern, got.code, got.number, want.code, want.number);
        if (got.code == FRAME_DONE) {
            rewritten(&got, s, len, pattern);
        }
    }
}

/* The record as it is, every cut, some bytes more, and every byte changed to some others. */
static void around(const uint8_t *record, size_t len)
{
    uint8_t s[SPACE + 4] = {0};
    for (size_t cut = 0; cut <= SPACE; cut++) {
        memset(s, 0, sizeof s);
        memcpy(s, record, cut < len ? cut : len);
        compare(s, cut);
    }
    for (size_t i = 0; i < len; i++) {
        for (int change = 1; change < 256; change++) {
            memcpy(s, record, len);
            s[i] ^= (uint8_t)change;
            compare(s, len);
        }
    }
}

/* Writes a job and a pattern into rooms of every length; past the record, and on a refusal, nothing changes. */
static void written(uint16_t w, const uint16_t n[6])
{
    uint8_t map[FRAME_MOST_MAP], space[GUARD + SPACE + GUARD];
    uint32_t number, sums[4];
    size_t m = FRAME_MAP_BYTES(w);
    CHECK(frame_route(w, n[0], n[1], n[2], n[3], n[4], n[5], map, sizeof map, sums, &number) == FRAME_DONE, "size %u", w);
    for (int pattern = 0; pattern < 2; pattern++) {
        size_t needed = pattern ? FRAME_PATTERN_BYTES(w) : FRAME_JOB_RECORD;
        for (size_t room = 0; room <= SPACE; room++) {
            memset(space, FILL, sizeof space);
            uint32_t code = pattern
                ? frame_write_pattern(w, n[0], n[1], n[2], n[3], n[4], n[5], map, m, space + GUARD, room, &number)
                : frame_write_job(w, n[0], n[1], n[2], n[3], n[4], n[5], space + GUARD, room, &number);
            size_t len = room < needed ? 0 : needed;
            CHECK(code == (len ? FRAME_DONE : FRAME_WRONG_ROOM) && number == (len ? 0 : needed), "size %u, room %zu: code %u, number %u", w, room, code, number);
            for (size_t i = 0; i < sizeof space; i++) {
                CHECK((i >= GUARD && i < GUARD + len) || space[i] == FILL, "size %u, room %zu: byte %zd changed", w, room, (ptrdiff_t)i - GUARD);
            }
            if (len) {
                struct read r = library(space + GUARD, len, pattern);
                CHECK(r.code == FRAME_DONE && r.size == w && memcmp(r.n, n, sizeof r.n) == 0, "size %u does not read back: code %u", w, r.code);
                CHECK(!pattern || (r.len == m && memcmp(space + GUARD + r.at, map, m) == 0), "size %u: another map", w);
                if (room == needed) {
                    around(space + GUARD, len);
                }
            }
        }
    }
}

static void random_bytes(unsigned rounds)
{
    uint64_t state = 88172645463325252u;
    for (unsigned i = 0; i < rounds; i++) {
        uint8_t s[SPACE];
        for (size_t k = 0; k < sizeof s; k++) {
            state ^= state << 13, state ^= state >> 7, state ^= state << 17;
            s[k] = (uint8_t)(state >> 32);
        }
        /* half of them begin as a record does, so that the later fields are reached */
        if (i % 2) {
            memcpy(s, (const uint8_t[]){1, 0, 1}, 3);
            s[3] = (uint8_t)(s[3] % 66);
            memcpy(s + 4, (const uint8_t[]){2, 0, 12}, 3);
        }
        compare(s, i % (SPACE + 1));
    }
}

/* The writers refuse a size that is not served, a map that does not carry the job, and take overfull counts in a job. */
static void refusals(void)
{
    uint8_t room[SPACE] = {0};
    uint32_t number;
    CHECK(frame_write_job(0, 0, 0, 0, 0, 0, 0, room, SPACE, &number) == FRAME_WRONG_SIZE && number == 0, "number %u", number);
    CHECK(frame_write_job(65, 0, 0, 0, 0, 0, 0, room, 0, &number) == FRAME_WRONG_SIZE && number == 65, "number %u", number);
    CHECK(frame_write_job(1, 65535, 65535, 65535, 65535, 65535, 65535, room, 19, &number) == FRAME_DONE, "number %u", number);
    CHECK(frame_write_pattern(2, 1, 0, 1, 0, 0, 0, (const uint8_t[]){0x11, 0x00}, 2, room, 0, &number) == FRAME_SHARED_TERMINAL && number == 4, "number %u", number);
    CHECK(frame_write_pattern(2, 1, 0, 1, 0, 0, 0, (const uint8_t[]){0x11}, 1, room, SPACE, &number) == FRAME_WRONG_ROOM && number == 2, "number %u", number);
}

int main(void)
{
    compare(NULL, 0);
    written(1, (const uint16_t[]){1, 1, 0, 0, 0, 0});
    written(2, (const uint16_t[]){1, 0, 1, 1, 0, 0});
    written(3, (const uint16_t[]){2, 1, 1, 1, 0, 0});
    written(64, (const uint16_t[]){20, 30, 21, 13, 30, 4});
    random_bytes(200000);
    refusals();
    puts("records: written and read back, every cut, every changed byte, lengths 0 to 80, random bytes: ok");
    return 0;
}
