/* frame_route: the bench examples, Table I and Table II of the paper, each set of overfull sides, every size from 0 to 66, short and long rooms with guard bytes. */
#include <string.h>

#include "check.h"
#include "frame.h"

enum { GUARD = 16, FILL = 0xA5 };
static const uint32_t STALE = 0xA5A5A5A5;

/* The sides of each type, L, T, R, B as 0 to 3. */
static const int earlier[6] = {0, 1, 0, 1, 2, 0};
static const int later[6] = {2, 3, 1, 2, 3, 3};

struct job {
    uint16_t size;
    uint16_t n[6];
};

/* What the router gives beside the room. */
struct told {
    uint32_t code, number, sums[4];
};

/* Code 3 tells the nets of each side and the set of sides that have too many; any other code tells no sums. */
static void check_sums(const struct job *j, const struct told *t)
{
    uint32_t nets[4] = {0}, overfull = 0;
    for (int c = 0; c < 6; c++) {
        nets[earlier[c]] += j->n[c];
        nets[later[c]] += j->n[c];
    }
    for (int side = 0; side < 4; side++) {
        uint32_t want = t->code == FRAME_OVERFULL ? nets[side] : 0;
        CHECK(t->sums[side] == want, "size %u, code %u: sum %d is %u and not %u", j->size, t->code, side, t->sums[side], want);
        overfull += nets[side] > j->size ? 1u << side : 0;
    }
    CHECK(t->code != FRAME_OVERFULL || t->number == overfull, "size %u: number %u and not %u", j->size, t->number, overfull);
    CHECK(t->code != FRAME_DONE || overfull == 0, "size %u: done, and sides %u are overfull", j->size, overfull);
}

/* The one call of the router: every number that it has to write is stale before, and beside the sums nothing changes. */
static struct told route(const struct job *j, uint8_t *room, size_t room_len)
{
    uint32_t guarded[6] = {STALE, STALE, STALE, STALE, STALE, STALE};
    struct told t = {.number = STALE};
    t.code = frame_route(j->size, j->n[0], j->n[1], j->n[2], j->n[3], j->n[4], j->n[5], room, room_len, guarded + 1, &t.number);
    CHECK(guarded[0] == STALE && guarded[5] == STALE, "size %u, code %u: more than four sums", j->size, t.code);
    memcpy(t.sums, guarded + 1, sizeof t.sums);
    check_sums(j, &t);
    return t;
}

/* Routes into a room between guard bytes; nothing but the first m bytes on done may change. */
static struct told route_guarded(const struct job *j, size_t room_len, uint8_t *map)
{
    uint8_t space[GUARD + 512 + GUARD];
    CHECK(room_len <= 512, "room %zu", room_len);
    memset(space, FILL, sizeof space);
    struct told t = route(j, space + GUARD, room_len);
    size_t written = t.code == FRAME_DONE ? FRAME_MAP_BYTES(j->size) : 0;
    for (size_t i = 0; i < sizeof space; i++) {
        if (i < GUARD || i >= GUARD + written) {
            CHECK(space[i] == FILL, "size %u, code %u: byte %zd changed", j->size, t.code, (ptrdiff_t)i - GUARD);
        }
    }
    memcpy(map, space + GUARD, written);
    return t;
}

static struct told refused(struct job j, size_t room_len, uint32_t code, uint32_t number)
{
    uint8_t map[FRAME_MOST_MAP];
    struct told t = route_guarded(&j, room_len, map);
    CHECK(t.code == code && t.number == number, "size %u: code %u, number %u and not %u, %u", j.size, t.code, t.number, code, number);
    return t;
}

/* Refused for just this set of sides, in a room that is exact, with these four sums. */
static void overfull(struct job j, uint32_t number, const uint32_t sums[4])
{
    struct told t = refused(j, FRAME_MAP_BYTES(j.size), FRAME_OVERFULL, number);
    CHECK(memcmp(t.sums, sums, sizeof t.sums) == 0, "size %u: sums %u %u %u %u", j.size, t.sums[0], t.sums[1], t.sums[2], t.sums[3]);
}

static void routes_to(struct job j, const uint8_t *map)
{
    uint8_t got[FRAME_MOST_MAP];
    size_t m = FRAME_MAP_BYTES(j.size);
    for (size_t room = m; room < m + 3; room++) {
        struct told t = route_guarded(&j, room, got);
        CHECK(t.code == FRAME_DONE && t.number == 0, "size %u: code %u, number %u", j.size, t.code, t.number);
        for (size_t i = 0; i < m; i++) {
            CHECK(got[i] == map[i], "size %u, byte %zu: %02X and not %02X", j.size, i, got[i], map[i]);
        }
    }
    refused(j, m - 1, FRAME_WRONG_ROOM, (uint32_t)m);
}

static void bench_examples(void)
{
    uint8_t straight[FRAME_MOST_MAP] = {0};
    memset(straight, 0xFF, 16);
    routes_to((struct job){1, {1, 1, 0, 0, 0, 0}}, (const uint8_t[]){0x03});
    routes_to((struct job){2, {0, 0, 0, 0, 0, 0}}, (const uint8_t[]){0x00, 0x00});
    routes_to((struct job){2, {1, 0, 1, 1, 0, 0}}, (const uint8_t[]){0xA1, 0x00});
    routes_to((struct job){2, {1, 1, 1, 0, 1, 0}}, (const uint8_t[]){0x29, 0x01});
    routes_to((struct job){2, {0, 0, 1, 1, 1, 1}}, (const uint8_t[]){0x50, 0x09});
    routes_to((struct job){3, {2, 1, 1, 1, 0, 0}}, (const uint8_t[]){0x13, 0x09, 0x00});
    routes_to((struct job){64, {64, 64, 0, 0, 0, 0}}, straight);
    overfull((struct job){1, {1, 0, 1, 0, 0, 0}}, 1, (const uint32_t[]){2, 1, 1, 0});
    overfull((struct job){2, {0, 2, 0, 1, 0, 0}}, 2, (const uint32_t[]){0, 3, 1, 2});
    overfull((struct job){64, {65535, 0, 65535, 0, 0, 65535}}, 15, (const uint32_t[]){196605, 65535, 65535, 65535});
    refused((struct job){0, {0, 0, 0, 0, 0, 0}}, 48, FRAME_WRONG_SIZE, 0);
    refused((struct job){65, {0, 0, 0, 0, 0, 0}}, 48, FRAME_WRONG_SIZE, 65);
    refused((struct job){2, {9, 9, 9, 9, 9, 9}}, 1, FRAME_WRONG_ROOM, 2);
    /* 65535 + 1 is 65536 and not 0 */
    overfull((struct job){64, {65535, 0, 1, 0, 0, 0}}, 5, (const uint32_t[]){65536, 1, 65535, 0});
}

/* The closed relays of each type, counted plainly, and whether a terminal is touched twice. */
static void carries(const struct job *j, const uint8_t *map)
{
    int touched[4][FRAME_MOST_SIZE] = {{0}};
    unsigned w = j->size;
    for (unsigned c = 0; c < 6; c++) {
        unsigned closed = 0;
        for (unsigned p = 0; p < w; p++) {
            unsigned k = c * w + p;
            if (map[k / 8] >> (k % 8) & 1) {
                closed++;
                CHECK(!touched[earlier[c]][p]++, "size %u: relay %u shares a terminal", w, k);
                CHECK(!touched[later[c]][w - 1 - p]++, "size %u: relay %u shares a terminal", w, k);
            }
        }
        CHECK(closed == j->n[c], "size %u, type %u: %u closed for %u nets", w, c + 1, closed, j->n[c]);
    }
    for (size_t k = 6 * (size_t)w; k < 8 * FRAME_MAP_BYTES(j->size); k++) {
        CHECK(!(map[k / 8] >> (k % 8) & 1), "size %u: spare bit %zu is set", w, k);
    }
}

/* Table I: seven vectors that tell the six wirings of size 2 apart; ours carries all of them. */
static void table_one(void)
{
    static const uint16_t rows[7][6] = {
        {1, 1, 1, 0, 1, 0}, {1, 1, 0, 1, 0, 1}, {0, 0, 1, 1, 1, 1}, {1, 0, 1, 1, 0, 0},
        {1, 0, 0, 0, 1, 1}, {0, 1, 1, 0, 0, 1}, {0, 1, 0, 1, 1, 0},
    };
    for (int i = 0; i < 7; i++) {
        struct job j = {2, {0}};
        uint8_t map[FRAME_MOST_MAP];
        memcpy(j.n, rows[i], sizeof j.n);
        CHECK(route_guarded(&j, 2, map).code == FRAME_DONE, "row %d of Table I", i);
        carries(&j, map);
    }
}

/* Table II: how many vectors with entries 0 to W are carried. */
static void table_two(void)
{
    static const int capacity[6] = {0, 10, 56, 214, 641, 1620};
    for (uint16_t w = 1; w <= 5; w++) {
        int done = 0;
        struct job j = {w, {0}};
        uint8_t map[FRAME_MOST_MAP];
        unsigned all = 1;
        for (int c = 0; c < 6; c++) {
            all *= w + 1u;
        }
        for (unsigned v = 0; v < all; v++) {
            unsigned rest = v;
            for (int c = 0; c < 6; c++) {
                j.n[c] = (uint16_t)(rest % (w + 1u));
                rest /= w + 1u;
            }
            if (route_guarded(&j, FRAME_MAP_BYTES(w), map).code == FRAME_DONE) {
                carries(&j, map);
                done++;
            }
        }
        CHECK(done == capacity[w], "size %u: %d vectors and not %d", w, done, capacity[w]);
    }
}

/* Each set of sides, by a job that overfills just these: '1' is one net, 'W' as many as the size, '+' one more. */
static void every_set(uint16_t w)
{
    static const char *const jobs[16] = {
        "",       "W01000", "0W1000", "00+000", /* L, T, LT */
        "W00100", "+00000", "000+00", "W0WW00", /* R, LR, TR, LTR */
        "0W0010", "00000+", "0+0000", "0WW00W", /* B, LB, TB, LTB */
        "0000+0", "W000WW", "0W0WW0", "++0000", /* RB, LRB, TRB, all */
    };
    for (uint32_t set = 1; set <= 15; set++) {
        struct job j = {w, {0}};
        for (int c = 0; c < 6; c++) {
            char nets = jobs[set][c];
            j.n[c] = (uint16_t)(nets == 'W' ? w : nets == '+' ? w + 1 : nets - '0');
        }
        refused(j, FRAME_MAP_BYTES(w), FRAME_OVERFULL, set);
    }
}

/* Every size from 0 to 66: all-straight jobs, jobs that are one net too many, each set of overfull sides, and every room that is too short. */
static void every_size(void)
{
    for (uint16_t w = 0; w <= 66; w++) {
        struct job full = {w, {w, w, 0, 0, 0, 0}};
        struct job over = {w, {w, w, 0, 0, 0, 1}};
        size_t m = FRAME_MAP_BYTES(w);
        if (w < 1 || w > 64) {
            for (size_t room = 0; room < 60; room++) {
                refused(full, room, FRAME_WRONG_SIZE, w);
                refused(over, room, FRAME_WRONG_SIZE, w);
            }
            continue;
        }
        for (size_t room = 0; room < m; room++) {
            refused(full, room, FRAME_WRONG_ROOM, (uint32_t)m);
            refused(over, room, FRAME_WRONG_ROOM, (uint32_t)m);
        }
        uint8_t map[FRAME_MOST_MAP];
        CHECK(route_guarded(&full, m + 1, map).code == FRAME_DONE, "size %u", w);
        carries(&full, map);
        refused(over, m, FRAME_OVERFULL, FRAME_SIDE_BIT(1) + FRAME_SIDE_BIT(4));
        every_set(w);
    }
}

static void no_room_at_all(void)
{
    struct told t = route(&(struct job){2, {0}}, NULL, 0);
    CHECK(t.code == FRAME_WRONG_ROOM && t.number == 2, "code %u, number %u", t.code, t.number);
    t = route(&(struct job){0, {0}}, NULL, 0);
    CHECK(t.code == FRAME_WRONG_SIZE && t.number == 0, "code %u, number %u", t.code, t.number);
}

int main(void)
{
    bench_examples();
    table_one();
    table_two();
    every_size();
    no_room_at_all();
    puts("frame_route: bench examples, Tables I and II, each set of overfull sides, sizes 0 to 66, guard bytes: ok");
    return 0;
}
