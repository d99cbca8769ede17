/* Lent bytes between guards, and each call on them with what it must give: the code, the number, the relay and every byte. */
#ifndef LENT_H
#define LENT_H

#include <string.h>

#include "check.h"
#include "frame.h"

enum { GUARD = 16, FILL = 0xA5, SPACE = 64 };

/* A frame of size w whose lent bytes, a map or a room, stand between guard bytes. */
struct lent {
    uint16_t w;
    size_t len;
    uint8_t space[GUARD + SPACE + GUARD];
};

/* What a call gives; relay is the one that add closes or drop opens, and FRAME_NO_RELAY if there is none. */
struct given {
    uint32_t code, number;
    uint16_t relay;
};

static struct lent holding(uint16_t w, int value, size_t len)
{
    struct lent l = {w, len, {0}};
    memset(l.space, FILL, sizeof l.space);
    memset(l.space + GUARD, value, len);
    return l;
}

static struct given done(unsigned relay)
{
    return (struct given){FRAME_DONE, 0, (uint16_t)relay};
}

static struct given refused(uint32_t code, size_t number)
{
    return (struct given){code, (uint32_t)number, FRAME_NO_RELAY};
}

static int same(struct given one, struct given other)
{
    return one.code == other.code && one.number == other.number && one.relay == other.relay;
}

/* The lent bytes, for a message. */
static const char *hex(const struct lent *l)
{
    static char text[2 * SPACE + 1];
    text[0] = '\0';
    for (size_t i = 0; i < l->len; i++) {
        snprintf(text + 2 * i, 3, "%02X", l->space[GUARD + i]);
    }
    return text;
}

/* Every byte, the guards too, is as it was, but for one relay if there is one: closed or opened now. */
static int changed_only(const struct lent *before, const struct lent *after, uint16_t relay, int closed)
{
    struct lent want = *before;
    if (relay != FRAME_NO_RELAY) {
        uint8_t bit = (uint8_t)(1u << relay % 8), *byte = want.space + GUARD + relay / 8;
        *byte = (uint8_t)(closed ? *byte | bit : *byte & ~bit);
    }
    return memcmp(want.space, after->space, sizeof want.space) == 0;
}

static void check_start(struct lent *l, struct given want)
{
    struct lent before = *l;
    struct given got = {0, 0xFFFFFFFF, FRAME_NO_RELAY};
    got.code = frame_check_start(l->w, l->space + GUARD, l->len, &got.number);
    CHECK(same(got, want), "size %u, map '%s': code %u, number %u and not %u, %u", l->w, hex(&before), got.code, got.number, want.code, want.number);
    CHECK(changed_only(&before, l, FRAME_NO_RELAY, 0), "size %u, map '%s', code %u: a byte changed", l->w, hex(&before), got.code);
}

static void add(struct lent *l, uint16_t type, struct given want)
{
    struct lent before = *l;
    struct given got = {0, 0xFFFFFFFF, 0xA5A5};
    got.code = frame_add_net(l->w, l->space + GUARD, l->len, type, &got.relay, &got.number);
    CHECK(same(got, want), "size %u, map '%s', type %u: code %u, number %u, relay %u and not %u, %u, %u", l->w, hex(&before), type, got.code, got.number, got.relay, want.code, want.number, want.relay);
    CHECK(changed_only(&before, l, want.relay, 1), "size %u, map '%s', type %u, code %u: not just relay %u changed", l->w, hex(&before), type, got.code, want.relay);
}

static void drop(struct lent *l, uint16_t relay, struct given want)
{
    struct lent before = *l;
    uint32_t number = 0xFFFFFFFF;
    uint32_t code = frame_drop_net(l->w, l->space + GUARD, l->len, relay, &number);
    CHECK(code == want.code && number == want.number, "size %u, map '%s', relay %u: code %u, number %u and not %u, %u", l->w, hex(&before), relay, code, number, want.code, want.number);
    CHECK(changed_only(&before, l, want.relay, 0), "size %u, map '%s', relay %u, code %u: not just relay %u changed", l->w, hex(&before), relay, code, want.relay);
}

static void open_all(struct lent *l, struct given want)
{
    struct lent after = *l;
    uint32_t number = 0xFFFFFFFF;
    uint32_t code = frame_open_all(l->w, l->space + GUARD, l->len, &number);
    CHECK(code == want.code && number == want.number, "size %u, room %zu: code %u, number %u and not %u, %u", l->w, l->len, code, number, want.code, want.number);
    memset(after.space + GUARD, 0, want.code == FRAME_DONE ? FRAME_MAP_BYTES(l->w) : 0);
    CHECK(memcmp(after.space, l->space, sizeof after.space) == 0, "size %u, room %zu, code %u: other bytes than those of the map changed", l->w, l->len, code);
}

static struct lent opened(uint16_t w)
{
    struct lent l = holding(w, FILL, FRAME_MAP_BYTES(w));
    open_all(&l, done(0));
    return l;
}

#endif
