/* frame_relay_terminals: size 2 by hand, every relay of every size by walking through types and positions, and what is not there. */
#include "check.h"
#include "frame.h"

static const char sides[] = "?LTRB";

struct told {
    uint32_t code, number;
    uint16_t type;
    struct frame_terminal earlier, later;
};

static struct told ask(uint16_t size, uint16_t relay)
{
    struct told t = {0xA5A5A5A5, 0xA5A5A5A5, 0xA5A5, {0xA5A5, 0xA5A5}, {0xA5A5, 0xA5A5}};
    t.code = frame_relay_terminals(size, relay, &t.type, &t.earlier, &t.later, &t.number);
    return t;
}

/* The relay of a type joins position p of the first letter's side to position q of the second's. */
static void joins(uint16_t size, unsigned relay, unsigned type, const char letters[2], unsigned p, unsigned q)
{
    struct told t = ask(size, (uint16_t)relay);
    CHECK(t.code == FRAME_DONE && t.number == 0, "size %u, relay %u: code %u, number %u", size, relay, t.code, t.number);
    CHECK(t.type == type, "size %u, relay %u: type %u and not %u", size, relay, t.type, type);
    CHECK(sides[t.earlier.side] == letters[0] && t.earlier.position == p, "size %u, relay %u: earlier %u %u", size, relay, t.earlier.side, t.earlier.position);
    CHECK(sides[t.later.side] == letters[1] && t.later.position == q, "size %u, relay %u: later %u %u", size, relay, t.later.side, t.later.position);
}

static void refused(uint16_t size, uint16_t relay, uint32_t code, uint32_t number)
{
    struct told t = ask(size, relay);
    CHECK(t.code == code && t.number == number, "size %u, relay %u: code %u, number %u and not %u, %u", size, relay, t.code, t.number, code, number);
    CHECK(!t.type && !t.earlier.side && !t.earlier.position && !t.later.side && !t.later.position, "size %u, relay %u: a refusal names something", size, relay);
}

static void size_2_by_hand(void)
{
    joins(2, 0, 1, "LR", 1, 2), joins(2, 1, 1, "LR", 2, 1);
    joins(2, 2, 2, "TB", 1, 2), joins(2, 3, 2, "TB", 2, 1);
    joins(2, 4, 3, "LT", 1, 2), joins(2, 5, 3, "LT", 2, 1);
    joins(2, 6, 4, "TR", 1, 2), joins(2, 7, 4, "TR", 2, 1);
    joins(2, 8, 5, "RB", 1, 2), joins(2, 9, 5, "RB", 2, 1);
    joins(2, 10, 6, "LB", 1, 2), joins(2, 11, 6, "LB", 2, 1);
}

static void every_relay(void)
{
    static const char *const types[6] = {"LR", "TB", "LT", "TR", "RB", "LB"};
    for (uint16_t w = 1; w <= FRAME_MOST_SIZE; w++) {
        unsigned relay = 0;
        for (unsigned c = 0; c < 6; c++) {
            for (unsigned p = 1, q = w; p <= w; p++, q--) {
                joins(w, relay++, c + 1, types[c], p, q);
            }
        }
        for (; relay <= 65535; relay++) {
            refused(w, (uint16_t)relay, FRAME_NOT_CLOSED, relay);
        }
    }
}

static void sizes_not_served(void)
{
    for (unsigned w = 0; w <= 65535; w = w ? w + 1 : FRAME_MOST_SIZE + 1) {
        refused((uint16_t)w, 0, FRAME_WRONG_SIZE, w);
        refused((uint16_t)w, FRAME_NO_RELAY, FRAME_WRONG_SIZE, w);
    }
}

int main(void)
{
    size_2_by_hand();
    every_relay();
    sizes_not_served();
    puts("frame_relay_terminals: every relay number at every size, sizes that are not served: ok");
    return 0;
}
