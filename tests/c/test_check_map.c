/* frame_check_map: the bench examples, every map of sizes 1 and 2 for every small job against a plain count, wrong lengths. */
#include <string.h>

#include "check.h"
#include "frame.h"

static uint32_t check(uint16_t w, const uint16_t n[6], const uint8_t *map, size_t len, uint32_t *number)
{
    *number = 0xFFFFFFFF;
    return frame_check_map(w, n[0], n[1], n[2], n[3], n[4], n[5], map, len, number);
}

static void gives(uint16_t w, const uint16_t n[6], const uint8_t *map, size_t len, uint32_t code, uint32_t number)
{
    uint32_t said;
    uint32_t back = check(w, n, map, len, &said);
    CHECK(back == code && said == number, "size %u, map %02X..: code %u, number %u and not %u, %u", w, len ? map[0] : 0, back, said, code, number);
}

static void bench_examples(void)
{
    gives(2, (const uint16_t[]){1, 0, 1, 0, 0, 0}, (const uint8_t[]){0x11, 0x00}, 2, FRAME_SHARED_TERMINAL, 4);
    gives(2, (const uint16_t[]){0, 1, 0, 0, 0, 0}, (const uint8_t[]){0x01, 0x00}, 2, FRAME_WRONG_COUNT, 1);
    gives(2, (const uint16_t[]){0, 0, 0, 0, 0, 0}, (const uint8_t[]){0x00, 0x10}, 2, FRAME_SPARE_BIT, 0);
    gives(2, (const uint16_t[]){1, 0, 1, 1, 0, 0}, (const uint8_t[]){0xA1, 0x00}, 2, FRAME_DONE, 0);
}

/* The expected answer, counted plainly: relays one by one, each against all lower ones. */
static uint32_t plain(unsigned w, const uint16_t n[6], unsigned bits, uint32_t *number)
{
    static const int earlier[6] = {0, 1, 0, 1, 2, 0};
    static const int later[6] = {2, 3, 1, 2, 3, 3};
    unsigned ends[12][2];
    for (unsigned k = 0; k < 6 * w; k++) {
        ends[k][0] = (unsigned)earlier[k / w] * 10 + k % w;
        ends[k][1] = (unsigned)later[k / w] * 10 + (w - 1 - k % w);
    }
    *number = 0;
    if (bits >> (6 * w)) {
        return FRAME_SPARE_BIT;
    }
    for (unsigned k = 0; k < 6 * w; k++) {
        for (unsigned j = 0; j < k; j++) {
            int both = (bits >> j & 1) && (bits >> k & 1);
            int share = ends[j][0] == ends[k][0] || ends[j][0] == ends[k][1] || ends[j][1] == ends[k][0] || ends[j][1] == ends[k][1];
            if (both && share) {
                *number = k;
                return FRAME_SHARED_TERMINAL;
            }
        }
    }
    for (unsigned c = 0; c < 6; c++) {
        unsigned closed = 0;
        for (unsigned p = 0; p < w; p++) {
            closed += bits >> (c * w + p) & 1;
        }
        if (closed != n[c]) {
            *number = c + 1;
            return FRAME_WRONG_COUNT;
        }
    }
    return FRAME_DONE;
}

/* Every map of sizes 1 and 2, spare bits too, for every job with counts 0 to 2 (0 to 1 at size 1). */
static void every_map(void)
{
    for (unsigned w = 1; w <= 2; w++) {
        unsigned base = w + 1, jobs = 1;
        size_t m = FRAME_MAP_BYTES(w);
        for (int c = 0; c < 6; c++) {
            jobs *= base;
        }
        for (unsigned v = 0; v < jobs; v++) {
            uint16_t n[6];
            for (unsigned c = 0, rest = v; c < 6; c++, rest /= base) {
                n[c] = (uint16_t)(rest % base);
            }
            for (unsigned bits = 0; bits < 1u << (8 * m); bits++) {
                uint8_t map[2] = {(uint8_t)bits, (uint8_t)(bits >> 8)};
                uint32_t said, number;
                uint32_t code = check((uint16_t)w, n, map, m, &said);
                uint32_t want = plain(w, n, bits, &number);
                CHECK(code == want && said == number, "size %u, job %u, map %04X: code %u, number %u and not %u, %u", w, v, bits, code, said, want, number);
            }
        }
    }
}

/* Wrong lengths at every size, sizes that are not served, and no map at all. */
static void lengths(void)
{
    static const uint16_t none[6] = {0};
    uint8_t map[64] = {0};
    for (uint16_t w = 0; w <= 66; w++) {
        size_t m = FRAME_MAP_BYTES(w);
        int served = w >= 1 && w <= 64;
        for (size_t len = 0; len <= sizeof map; len++) {
            if (!served) {
                gives(w, none, map, len, FRAME_WRONG_SIZE, w);
            } else if (len == m) {
                gives(w, none, map, len, FRAME_DONE, 0);
            } else {
                gives(w, none, map, len, FRAME_WRONG_ROOM, (uint32_t)m);
            }
        }
        gives(w, none, NULL, 0, served ? FRAME_WRONG_ROOM : FRAME_WRONG_SIZE, served ? (uint32_t)m : w);
    }
}

int main(void)
{
    bench_examples();
    every_map();
    lengths();
    puts("frame_check_map: bench examples, every map of sizes 1 and 2, lengths 0 to 64: ok");
    return 0;
}
