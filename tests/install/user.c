/* A program as a user of the installed library would write it: prints the code and the map of the worked job, and 1 if header and library are of one version. */
#include <stdio.h>
#include <ylvanteri/frame.h>

int main(void)
{
    uint8_t map[FRAME_MAP_BYTES(2)];
    uint32_t number, sums[4];
    uint32_t code = frame_route(2, 1, 0, 1, 1, 0, 0, map, sizeof map, sums, &number);
    printf("%u %02X %02X %d\n", code, map[0], map[1], frame_version() == FRAME_VERSION);
    return 0;
}
