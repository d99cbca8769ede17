/* Drops the code of each entry that gives one: every line here has to be warned about. Compiled, never run. */
#include "frame.h"

void dropped(uint8_t *room, const uint8_t *map, size_t len, uint16_t *word, uint16_t counts[6], size_t *at,
             struct frame_terminal *ends, uint32_t sums[4], uint32_t *number);

void dropped(uint8_t *room, const uint8_t *map, size_t len, uint16_t *word, uint16_t counts[6], size_t *at,
             struct frame_terminal *ends, uint32_t sums[4], uint32_t *number)
{
    frame_route(2, 1, 0, 1, 1, 0, 0, room, len, sums, number);
    frame_check_map(2, 1, 0, 1, 1, 0, 0, map, len, number);
    frame_relay_terminals(2, 0, word, &ends[0], &ends[1], number);
    frame_read_job(map, len, word, counts, number);
    frame_write_job(2, 1, 0, 1, 1, 0, 0, room, len, number);
    frame_read_pattern(map, len, word, counts, &at[0], &at[1], number);
    frame_write_pattern(2, 1, 0, 1, 1, 0, 0, map, len, room, len, number);
    frame_open_all(2, room, len, number);
    frame_check_start(2, map, len, number);
    frame_add_net(2, room, len, 1, word, number);
    frame_drop_net(2, room, len, 0, number);
}
