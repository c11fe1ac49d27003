/* The lot's total on every head's display. A net that is opened for carrying back goes on after the desk's report: whoever knows the total tells
   it to those that hang on him, until every head knows it.

   The map is document 01's triangle, in its second order: station 2 hangs on station 1, and that one on the desk. A head still has what it has
   sent up itself. */
#include "tally.h"
#include <inttypes.h>
#include <stdio.h>

static const struct tally_map map = {
    .k = 3,
    .classes = 1,
    .desk = 0,
    .lot = 42,
    .counts = {{5}, {7}, {11}},
    .neighbours = {1 << 1 | 1 << 2, 1 << 0 | 1 << 2, 1 << 0 | 1 << 1},
};

int main(void)
{
    static const uint16_t draws[] = {0, 1, 0, 0, 0, 0, 0, 0, 0}; /* twice the links, and one for each station */
    struct tally_rendezvous net;
    struct tally_kept kept;

    if (TALLY_NUMBER(tally_rendezvous_fresh(&net, &kept, map, TALLY_SUM, 1)) != 0)
        return 1;
    for (unsigned i = 0; i < sizeof draws / sizeof draws[0]; i++) {
        uint64_t answer = tally_rendezvous_draw(&net, &kept, draws[i]);
        if (TALLY_KIND(answer) == TALLY_REPORT)
            printf("report %" PRIu64 "\n", net.stations[map.desk].held.sums[0]);
        if (TALLY_KIND(answer) == TALLY_TELL)
            printf("tell %u %u\n", TALLY_SENDER(answer), TALLY_RECEIVER(answer));
    }
    for (uint8_t i = 0; i < map.k; i++)
        if (net.stations[i].state == TALLY_TOLD)
            printf("head %u shows %" PRIu64 ", and sent up %" PRIu64 "\n", i, kept.totals[i].sums[0], net.stations[i].held.sums[0]);
    printf("then: refused %u\n", TALLY_NUMBER(tally_rendezvous_draw(&net, &kept, 0)));
    return 0;
}
