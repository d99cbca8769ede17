/* Nets one by one: the bench example, a sequence by hand, every map of sizes 1 and 2 and long runs at every size against a plain count, every length. */
#include "lent.h"

/* A map of size 2 after a call. */
static void holds(const struct lent *l, uint8_t first, uint8_t second)
{
    const uint8_t *map = l->space + GUARD;
    CHECK(map[0] == first && map[1] == second, "map %02X %02X and not %02X %02X", map[0], map[1], first, second);
}

/* Relays 0 and 2 leave type 3 no relay, though a map for the same nets and one of type 3 exists. */
static void bench_example(void)
{
    struct lent l = holding(2, 0, 2);
    uint8_t other[2];
    uint32_t number, sums[4];
    l.space[GUARD] = 0x05;
    add(&l, 3, refused(FRAME_NONE_FREE, 3));
    holds(&l, 0x05, 0x00);
    CHECK(frame_route(2, 1, 1, 1, 0, 0, 0, other, 2, sums, &number) == FRAME_DONE, "number %u", number);
}

/*
 * The relays of size 2 by hand: 0 is L1 R2, 1 is L2 R1; 2 is T1 B2, 3 is T2 B1; 4 is L1 T2, 5 is L2 T1;
 * 6 is T1 R2, 7 is T2 R1; 8 is R1 B2, 9 is R2 B1; 10 is L1 B2, 11 is L2 B1.
 */
static void sequence_by_hand(void)
{
    struct lent l = opened(2);
    holds(&l, 0x00, 0x00);
    add(&l, 1, done(0)), holds(&l, 0x01, 0x00);
    add(&l, 2, done(2)), holds(&l, 0x05, 0x00);
    add(&l, 3, refused(FRAME_NONE_FREE, 3)), holds(&l, 0x05, 0x00);
    drop(&l, 0, done(0)), holds(&l, 0x04, 0x00);
    add(&l, 3, done(4)), holds(&l, 0x14, 0x00);
    add(&l, 3, refused(FRAME_NONE_FREE, 3)), holds(&l, 0x14, 0x00);
    drop(&l, 2, done(2)), holds(&l, 0x10, 0x00);
    add(&l, 3, done(5)), holds(&l, 0x30, 0x00);
    add(&l, 5, done(8)), holds(&l, 0x30, 0x01);
    add(&l, 5, done(9)), holds(&l, 0x30, 0x03);
    add(&l, 6, refused(FRAME_NONE_FREE, 6)), holds(&l, 0x30, 0x03);
    drop(&l, 4, done(4)), holds(&l, 0x20, 0x03);
    add(&l, 1, refused(FRAME_NONE_FREE, 1)), holds(&l, 0x20, 0x03);
    drop(&l, 9, done(9)), holds(&l, 0x20, 0x01);
    add(&l, 1, done(0)), holds(&l, 0x21, 0x01);
    drop(&l, 9, refused(FRAME_NOT_CLOSED, 9)), holds(&l, 0x21, 0x01);
    drop(&l, 12, refused(FRAME_NOT_CLOSED, 12)), holds(&l, 0x21, 0x01);
    add(&l, 7, refused(FRAME_WRONG_TYPE, 7)), holds(&l, 0x21, 0x01);
    add(&l, 257, refused(FRAME_WRONG_TYPE, 257)), holds(&l, 0x21, 0x01);
    add(&l, 2, done(3)), holds(&l, 0x29, 0x01);
    check_start(&l, done(FRAME_NO_RELAY));
}

static int closed(const struct lent *l, unsigned k)
{
    return l->space[GUARD + k / 8] >> k % 8 & 1;
}

/* A terminal as one number, its side and its position. */
static unsigned end(unsigned w, unsigned k, int later)
{
    static const unsigned sides[6][2] = {{0, 2}, {1, 3}, {0, 1}, {1, 2}, {2, 3}, {0, 3}};
    return sides[k / w][later] * 100 + (later ? w - 1 - k % w : k % w);
}

/* Whether one of the closed relays below the bound is on a terminal of relay k. */
static int taken(const struct lent *l, unsigned k, unsigned bound)
{
    for (unsigned j = 0; j < bound; j++) {
        for (int i = 0; closed(l, j) && i < 4; i++) {
            if (end(l->w, j, i / 2) == end(l->w, k, i % 2)) {
                return 1;
            }
        }
    }
    return 0;
}

/* The expected answers, counted plainly: relays one by one, each against all others. */
static struct given plain_start(const struct lent *l)
{
    for (unsigned k = 6u * l->w; k < 8 * l->len; k++) {
        if (closed(l, k)) {
            return refused(FRAME_SPARE_BIT, 0);
        }
    }
    for (unsigned k = 0; k < 6u * l->w; k++) {
        if (closed(l, k) && taken(l, k, k)) {
            return refused(FRAME_SHARED_TERMINAL, k);
        }
    }
    return done(FRAME_NO_RELAY);
}

static struct given plain_add(const struct lent *l, unsigned type)
{
    if (type < 1 || type > 6) {
        return refused(FRAME_WRONG_TYPE, type);
    }
    for (unsigned k = (type - 1) * l->w; k < type * l->w; k++) {
        if (!taken(l, k, 6u * l->w)) {
            return done(k);
        }
    }
    return refused(FRAME_NONE_FREE, type);
}

static struct given plain_drop(const struct lent *l, unsigned relay)
{
    return relay < 6u * l->w && closed(l, relay) ? done(relay) : refused(FRAME_NOT_CLOSED, relay);
}

/* Every map of sizes 1 and 2, spare bits and shared terminals too, with every type 0 to 7 and every relay 0 to 16. */
static void every_map(uint16_t w)
{
    size_t m = FRAME_MAP_BYTES(w);
    for (unsigned bits = 0; bits < 1u << (8 * m); bits++) {
        struct lent map = holding(w, 0, m), l;
        map.space[GUARD] = (uint8_t)bits;
        map.space[GUARD + m - 1] = (uint8_t)(bits >> 8 * (m - 1));
        struct given start = plain_start(&map);
        l = map;
        check_start(&l, start);
        for (uint16_t type = 0; type <= 7; type++) {
            l = map;
            add(&l, type, start.code ? start : plain_add(&map, type));
        }
        for (uint16_t relay = 0; relay <= 16; relay++) {
            l = map;
            drop(&l, relay, start.code ? start : plain_drop(&map, relay));
        }
    }
}

/* Nets of all types come and go, twice as many asked for as dropped; each call goes on with the library's own map. */
static void hours(uint16_t w, unsigned calls)
{
    uint64_t state = 88172645463325252u + w;
    struct lent l = opened(w);
    for (unsigned i = 0; i < calls; i++) {
        state ^= state << 13, state ^= state >> 7, state ^= state << 17;
        uint16_t any = (uint16_t)(state >> 32);
        if (i % 3) {
            add(&l, any % 8, plain_add(&l, any % 8));
        } else {
            uint16_t relay = (uint16_t)(any % (6u * w + 8));
            drop(&l, relay, plain_drop(&l, relay));
        }
        check_start(&l, done(FRAME_NO_RELAY));
    }
}

/* Just W nets of one type fit; a relay that is dropped is the one that comes back; what they leave serves the next type. */
static void every_type(uint16_t w)
{
    struct lent l = opened(w);
    drop(&l, FRAME_NO_RELAY, refused(FRAME_NOT_CLOSED, FRAME_NO_RELAY));
    for (uint16_t type = 1; type <= 6; type++) {
        uint16_t first = (uint16_t)((type - 1) * w), past = (uint16_t)(type * w);
        for (uint16_t k = first; k < past; k++) {
            add(&l, type, done(k));
        }
        add(&l, type, refused(FRAME_NONE_FREE, type));
        drop(&l, FRAME_NO_RELAY, refused(FRAME_NOT_CLOSED, FRAME_NO_RELAY));
        for (uint16_t k = first; k < past; k++) {
            drop(&l, k, done(k));
            drop(&l, k, refused(FRAME_NOT_CLOSED, k));
            add(&l, type, done(k));
        }
        for (uint16_t k = first; k < past; k++) {
            drop(&l, k, done(k));
        }
    }
    CHECK(memcmp(l.space, holding(w, 0, FRAME_MAP_BYTES(w)).space, sizeof l.space) == 0, "size %u: all dropped, and the frame is not open", w);
}

/* Every size and length: a start that is refused comes before the type and the relay, which would be refused too. */
static void every_length(uint16_t w, size_t len)
{
    struct lent room = holding(w, FILL, len), map = holding(w, 0, len);
    size_t m = FRAME_MAP_BYTES(w);
    int served = w >= 1 && w <= 64;
    struct given start = !served ? refused(FRAME_WRONG_SIZE, w) : len != m ? refused(FRAME_WRONG_ROOM, m) : done(FRAME_NO_RELAY);
    uint16_t past = (uint16_t)(6 * w);
    open_all(&room, served && len > m ? done(0) : start);
    check_start(&map, start);
    add(&map, 0, start.code ? start : refused(FRAME_WRONG_TYPE, 0));
    add(&map, 65535, start.code ? start : refused(FRAME_WRONG_TYPE, 65535));
    drop(&map, past, start.code ? start : refused(FRAME_NOT_CLOSED, past));
    add(&map, 6, start.code ? start : done(5u * w));
}

/* No bytes at all, and lengths that would be right if only 8 or 16 bits of them counted. */
static void odd_lengths(uint16_t w)
{
    static uint8_t zeros[65536 + SPACE];
    static const uint8_t open[sizeof zeros];
    const size_t m = FRAME_MAP_BYTES(w), lens[3] = {0, m + 256, m + 65536};
    uint32_t code = w >= 1 && w <= 64 ? FRAME_WRONG_ROOM : FRAME_WRONG_SIZE, want = code == FRAME_WRONG_SIZE ? w : (uint32_t)m, number = 7;
    CHECK(frame_open_all(w, NULL, 0, &number) == code && number == want, "size %u: number %u", w, number);
    for (int i = 0; i < 3; i++) {
        uint8_t *map = i ? zeros : NULL;
        uint16_t relay = 7;
        CHECK(frame_check_start(w, map, lens[i], &number) == code && number == want, "size %u, map of %zu: number %u", w, lens[i], number);
        CHECK(frame_add_net(w, map, lens[i], 1, &relay, &number) == code && number == want, "size %u, map of %zu: number %u", w, lens[i], number);
        CHECK(relay == FRAME_NO_RELAY, "size %u, map of %zu: relay %u", w, lens[i], relay);
        CHECK(frame_drop_net(w, map, lens[i], 0, &number) == code && number == want, "size %u, map of %zu: number %u", w, lens[i], number);
        CHECK(memcmp(zeros, open, sizeof zeros) == 0, "size %u, map of %zu: a byte changed", w, lens[i]);
    }
}

int main(void)
{
    bench_example();
    sequence_by_hand();
    every_map(1);
    every_map(2);
    for (uint16_t w = 1; w <= 64; w++) {
        every_type(w);
        hours(w, 1000);
    }
    for (uint16_t w = 0; w <= 66; w++) {
        for (size_t len = 0; len <= SPACE; len++) {
            every_length(w, len);
        }
        odd_lengths(w);
    }
    puts("nets one by one: bench example, a sequence by hand, every map of sizes 1 and 2, hours at sizes 1 to 64, lengths 0 to 64: ok");
    return 0;
}
