/* The header's own parts: version, lengths, sides' bits and texts, each held against what the library's calls say. */
#include <string.h>

#include "check.h"
#include "frame.h"

/* both lengths serve where C asks for a constant */
static const uint8_t open_frame[FRAME_MAP_BYTES(8)];
static uint8_t record[FRAME_PATTERN_BYTES(FRAME_MOST_SIZE)];

static void versions(void)
{
    CHECK(frame_version() == FRAME_VERSION, "the library is %u, the header %u", frame_version(), FRAME_VERSION);
}

/* The length that a call asks for in a room of no bytes is the header's, and enough. */
static void lengths(void)
{
    uint32_t number;
    for (uint16_t w = 1; w <= FRAME_MOST_SIZE; w++) {
        uint8_t map[FRAME_MOST_MAP] = {0};
        size_t m = FRAME_MAP_BYTES(w), n = FRAME_PATTERN_BYTES(w);
        CHECK(frame_open_all(w, NULL, 0, &number) == FRAME_WRONG_ROOM && number == m, "size %u: %u", w, number);
        CHECK(frame_write_pattern(w, 0, 0, 0, 0, 0, 0, map, m, NULL, 0, &number) == FRAME_WRONG_ROOM && number == n, "size %u: %u", w, number);
        CHECK(frame_write_pattern(w, 0, 0, 0, 0, 0, 0, map, m, record, n, &number) == FRAME_DONE, "size %u: %u", w, number);
        CHECK(frame_write_job(w, 0, 0, 0, 0, 0, 0, NULL, 0, &number) == FRAME_WRONG_ROOM && number == FRAME_JOB_RECORD, "size %u: %u", w, number);
    }
    CHECK(frame_open_all(FRAME_MOST_SIZE + 1, NULL, 0, &number) == FRAME_WRONG_SIZE, "%u", number);
    CHECK(sizeof open_frame == 6, "%zu", sizeof open_frame);
    CHECK(FRAME_MAP_BYTES(FRAME_MOST_SIZE) == FRAME_MOST_MAP, "%zu", FRAME_MAP_BYTES(FRAME_MOST_SIZE));
    CHECK(sizeof record == FRAME_MOST_PATTERN_RECORD, "%zu", sizeof record);
}

/* The entry writes two numbers of 16 bits for a terminal, one behind the other. */
static void terminal_layout(void)
{
    CHECK(sizeof(struct frame_terminal) == 4, "%zu", sizeof(struct frame_terminal));
    CHECK(offsetof(struct frame_terminal, side) == 0 && offsetof(struct frame_terminal, position) == 2, "positions first");
}

/* Nets of one type too many overfill just the two sides that it joins: each has its bit in the number, and its sum. */
static void side_bits(void)
{
    for (uint16_t type = 1; type <= 6; type++) {
        uint16_t n[7] = {0}, joined;
        struct frame_terminal earlier, later;
        uint8_t room[FRAME_MAP_BYTES(1)];
        uint32_t number, sums[4];
        n[type] = 2;
        CHECK(frame_relay_terminals(1, (uint16_t)(type - 1), &joined, &earlier, &later, &number) == FRAME_DONE, "type %u", type);
        CHECK(frame_route(1, n[1], n[2], n[3], n[4], n[5], n[6], room, sizeof room, sums, &number) == FRAME_OVERFULL, "type %u", type);
        CHECK(number == (FRAME_SIDE_BIT(earlier.side) | FRAME_SIDE_BIT(later.side)), "type %u: number %u", type, number);
        CHECK(sums[earlier.side - 1] == 2 && sums[later.side - 1] == 2, "type %u: sums %u %u %u %u", type, sums[0], sums[1], sums[2], sums[3]);
    }
    CHECK(FRAME_SIDE_BIT(1) == 1 && FRAME_SIDE_BIT(2) == 2 && FRAME_SIDE_BIT(3) == 4 && FRAME_SIDE_BIT(4) == 8, "other bits");
}

/* Each code has words of its own; what is no code says so. */
static void texts(void)
{
    const char *none = frame_code_text(0xFFFFFFFF);
    CHECK(strcmp(frame_code_text(FRAME_DONE), "done") == 0, "'%s'", frame_code_text(FRAME_DONE));
    CHECK(strcmp(frame_code_text(FRAME_NOT_CLOSED), "relay not closed, or not there") == 0, "'%s'", frame_code_text(FRAME_NOT_CLOSED));
    for (uint32_t a = 0; a < 256; a++) {
        int unused = a > FRAME_NOT_CLOSED || (a > FRAME_OVERFULL && a < FRAME_RECORD_CUT) || (a > FRAME_WRONG_COUNT && a < FRAME_WRONG_TYPE);
        CHECK((strcmp(frame_code_text(a), none) == 0) == unused, "code %u: '%s'", a, frame_code_text(a));
        for (uint32_t b = 0; b < a && !unused; b++) {
            CHECK(strcmp(frame_code_text(a), frame_code_text(b)) != 0, "codes %u and %u: '%s'", a, b, frame_code_text(a));
        }
    }
}

int main(void)
{
    versions();
    lengths();
    terminal_layout();
    side_bits();
    texts();
    puts("frame.h: version, lengths of every size, a terminal's layout, each side's bit, a text for each code: ok");
    return 0;
}
