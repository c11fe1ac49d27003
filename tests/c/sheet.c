/* Sheets of the triangle, of one class and of two: their bytes, the values that come with the numbers, and what is left. */
#include "check.h"
#include "triangle.h"
#include <string.h>

static struct tally_kept kept;

static const char one[] = "             42                         \n"
                          " 0 1          5                         \n"
                          " 1 1          7                         \n"
                          " 2 1         11                         \n"
                          "T  1           23  0                    \n";

static const char two[] = "             42                         \n"
                          " 0 1          5                         \n"
                          " 0 2          4                         \n"
                          " 1 1          7                         \n"
                          " 1 2 ----------                         \n"
                          " 2 1         11                         \n"
                          " 2 2          3                         \n"
                          "T  1           23  0                    \n"
                          "T  2            7  1                    \n";

/* Seven draws take the triangle to its report. */
static struct tally_rendezvous reported(struct tally_map map)
{
    static const uint16_t draws[7] = {0, 1};
    struct tally_rendezvous net;
    CHECK(tally_rendezvous_fresh(&net, &kept, map, TALLY_SUM, 0) == 0);
    CHECK(tally_rendezvous_run(&net, &kept, draws, 7).answer == 256);
    return net;
}

static void laid(struct tally_map map, const char *lines, size_t length)
{
    uint8_t bytes[TALLY_SHEET_LINE * 10];
    const struct tally_rendezvous net = reported(map);
    CHECK(length == TALLY_SHEET_LENGTH(map.k, map.classes));
    memset(bytes, 0xa5, sizeof bytes);
    CHECK(tally_sheet(map, &net, &kept, bytes, length - 1) == 15 + 256 * length && bytes[0] == 0xa5);
    CHECK(tally_sheet(map, &net, &kept, bytes, length) == 256 * length);
    CHECK(memcmp(bytes, lines, length) == 0 && bytes[length] == 0xa5);
    memset(bytes, 0xa5, sizeof bytes);
    CHECK(tally_sheet(map, &net, &kept, bytes, sizeof bytes) == 256 * length);
    CHECK(memcmp(bytes, lines, length) == 0 && bytes[length] == 0xa5);
}

static void refused(struct tally_map map, const struct tally_rendezvous *net, uint64_t answer)
{
    uint8_t bytes[TALLY_SHEET_LINE * 5];
    memset(bytes, 0xa5, sizeof bytes);
    CHECK(tally_sheet(map, net, &kept, bytes, sizeof bytes) == answer);
    for (size_t i = 0; i < sizeof bytes; i++)
        CHECK(bytes[i] == 0xa5);
}

int main(void)
{
    laid(triangle, one, sizeof one - 1);
    laid(two_classes, two, sizeof two - 1);

    struct tally_rendezvous net = reported(triangle), other = net;
    struct tally_map map = triangle;
    refused(two_classes, &net, 20);
    refused(desk_at_2, &net, 20);
    map.lot = TALLY_LOT_LIMIT;
    other.stations[0].waits = 65;
    refused(map, &other, 18);
    refused(two_classes, &other, 11);
    map.neighbours[0] = 0;
    refused(map, &other, 9 + 256 * 1);
    other = net;
    other.stations[0].state = TALLY_ACTIVE;
    refused(triangle, &other, 21);
    refused(two_classes, &other, 20);
    other = net;
    other.stations[0].held.sums[0] = 1000000000000;
    refused(triangle, &other, 21);
    return 0;
}
