/*
 * A bench control program in small: routes a job, checks the map, and closes relays only when both say done.
 *
 *     control SIZE N1 N2 N3 N4 N5 N6
 *
 * prints the map in hex, or refuses loudly: a message on standard error, with all overfull banks if there are any, and
 * exit status 1.
 */
#include <stdio.h>
#include <stdlib.h>

#include "frame.h"

static void refuse(const char *step, uint32_t code, uint32_t number)
{
    fprintf(stderr, "control: %s refused: code %u, number %u (%s)\n", step, code, number, frame_code_text(code));
    exit(1);
}

/* All overfull banks in one message, each with what it is asked for, so that the plan is put right at once. */
static void refuse_overfull(uint16_t size, uint32_t number, const uint32_t sums[4])
{
    static const char *const banks[4] = {"left (gauges)", "top (echo targets)", "right (counters)", "bottom (loads)"};
    fprintf(stderr, "control: the router refused: ");
    for (int i = 0; i < 4; i++) {
        if (number & FRAME_SIDE_BIT(i + 1)) {
            fprintf(stderr, "%s is asked for %u nets, %u too many; ", banks[i], sums[i], sums[i] - size);
        }
    }
    fprintf(stderr, "the size is %u (code %d, number %u)\n", size, FRAME_OVERFULL, number);
    exit(1);
}

/* One number from 0 to 65535, or a refusal: a count that was mistyped must not become another one. */
static uint16_t word(const char *text)
{
    char *end;
    unsigned long value = strtoul(text, &end, 10);
    if (text[0] < '0' || text[0] > '9' || *end != '\0' || value > 65535) {
        fprintf(stderr, "control: '%s' is not a number from 0 to 65535\n", text);
        exit(1);
    }
    return (uint16_t)value;
}

int main(int argc, char **argv)
{
    uint16_t n[7];
    uint8_t map[FRAME_MOST_MAP];
    uint32_t code, number, sums[4];

    if (argc != 8) {
        fprintf(stderr, "usage: control SIZE N1 N2 N3 N4 N5 N6\n");
        return 1;
    }
    for (int i = 0; i < 7; i++) {
        n[i] = word(argv[i + 1]);
    }
    code = frame_route(n[0], n[1], n[2], n[3], n[4], n[5], n[6], map, sizeof map, sums, &number);
    if (code == FRAME_OVERFULL) {
        refuse_overfull(n[0], number, sums);
    }
    if (code != FRAME_DONE) {
        refuse("the router", code, number);
    }
    /* the router's map always passes; a map from elsewhere is checked the same way before it is closed */
    size_t bytes = FRAME_MAP_BYTES(n[0]);
    code = frame_check_map(n[0], n[1], n[2], n[3], n[4], n[5], n[6], map, bytes, &number);
    if (code != FRAME_DONE) {
        refuse("the map check", code, number);
    }
    for (size_t i = 0; i < bytes; i++) {
        printf("%02X%c", map[i], i + 1 < bytes ? ' ' : '\n');
    }
    return 0;
}
