/*
 * A technician's hour at the bench: a job runs, and nets are added and dropped while all others stay closed.
 *
 * Prints a line for each step: the map in hex, and what was done. A net that is only tried may be refused, and the
 * line says why. Any other refusal ends the hour loudly: a message on standard error and exit status 1.
 */
#include <stdio.h>
#include <stdlib.h>

#include "frame.h"

enum { SIZE = 8 };
enum { GAUGE_TO_COUNTER = 1, GAUGE_TO_TARGET = 3 };

/* All that is kept between the calls. The map has room for every size; just its first `bytes` are lent. */
struct bench {
    uint16_t size;
    size_t bytes;
    uint8_t map[FRAME_MOST_MAP];
};

static void explain(FILE *to, uint32_t code, uint32_t number)
{
    fprintf(to, "%s (code %u, number %u)\n", frame_code_text(code), code, number);
}

static void must_be_done(const char *step, uint32_t code, uint32_t number)
{
    if (code != FRAME_DONE) {
        fprintf(stderr, "technician: %s refused: ", step);
        explain(stderr, code, number);
        exit(1);
    }
}

static void print_map(const struct bench *b)
{
    for (size_t i = 0; i < b->bytes; i++) {
        printf("%02X ", b->map[i]);
    }
    putchar(' ');
}

/* As the lister names them: the side's letter and the position. */
static void print_terminals(const struct bench *b, uint16_t relay, const char *between)
{
    static const char letters[] = "?LTRB";
    struct frame_terminal earlier, later;
    uint16_t type;
    uint32_t number;
    uint32_t code = frame_relay_terminals(b->size, relay, &type, &earlier, &later, &number);
    must_be_done("the relay", code, number);
    printf("%c%u%s%c%u", letters[earlier.side], earlier.position, between, letters[later.side], later.position);
}

static void print_added(const struct bench *b, uint16_t type, uint16_t relay)
{
    print_map(b);
    printf("add type %u: relay %u closes: ", type, relay);
    print_terminals(b, relay, " to ");
    putchar('\n');
}

/* A job of n[0] to n[5] nets of types 1 to 6, and the test that every map has to pass before it is closed. */
static void start(struct bench *b, const uint16_t n[6])
{
    uint32_t number, sums[4]; /* control.c names the overfull sides with their sums; the code's words are enough here */
    uint32_t code = frame_route(b->size, n[0], n[1], n[2], n[3], n[4], n[5], b->map, sizeof b->map, sums, &number);
    must_be_done("the router", code, number);
    print_map(b);
    printf("routed, size %u: %u %u %u %u %u %u nets of types 1 to 6\n", b->size, n[0], n[1], n[2], n[3], n[4], n[5]);
    /* the router's map always passes; a map from elsewhere is tested the same way */
    code = frame_check_start(b->size, b->map, b->bytes, &number);
    must_be_done("the start", code, number);
    print_map(b);
    printf("start tested: the map may be closed\n");
}

/* A net that must be there before the hour goes on; gives the relay that closed. */
static uint16_t add(struct bench *b, uint16_t type)
{
    uint16_t relay;
    uint32_t number;
    uint32_t code = frame_add_net(b->size, b->map, b->bytes, type, &relay, &number);
    must_be_done("the add", code, number);
    print_added(b, type, relay);
    return relay;
}

/* A net that would be good to have: where it is refused the map is as it was, and the hour goes on. */
static void try_to_add(struct bench *b, uint16_t type)
{
    uint16_t relay;
    uint32_t number;
    uint32_t code = frame_add_net(b->size, b->map, b->bytes, type, &relay, &number);
    if (code == FRAME_DONE) {
        print_added(b, type, relay);
        return;
    }
    print_map(b);
    printf("add type %u: refused: ", type);
    explain(stdout, code, number);
}

static void drop(struct bench *b, uint16_t relay)
{
    uint32_t number;
    uint32_t code = frame_drop_net(b->size, b->map, b->bytes, relay, &number);
    must_be_done("the drop", code, number);
    print_map(b);
    printf("drop relay %u: ", relay);
    print_terminals(b, relay, " and ");
    printf(" are free again\n");
}

int main(void)
{
    static const uint16_t job[6] = {1, 3, 2, 1, 1, 2};
    struct bench b = {.size = SIZE, .bytes = FRAME_MAP_BYTES(SIZE)};
    start(&b, job);
    uint16_t one_more = add(&b, GAUGE_TO_COUNTER);
    /* gauges and targets are free, but no relay joins two of them: the others would have to be opened */
    try_to_add(&b, GAUGE_TO_TARGET);
    drop(&b, one_more);
    /* now the gauge that was freed serves a target, and later a counter again */
    one_more = add(&b, GAUGE_TO_TARGET);
    drop(&b, one_more);
    add(&b, GAUGE_TO_COUNTER);
    return 0;
}
