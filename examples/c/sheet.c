/* A grower's sheet. The lot is document 01's triangle, with two classes of bruises; the lamp of station 1 failed for the second. The wave is
   run to the desk's report, and the sheet of map and net goes to standard output as it is. */
#include "tally.h"
#include <stdio.h>

int main(void)
{
    static const struct tally_map map = {
        .k = 3,
        .classes = 2,
        .desk = 0,
        .lot = 42,
        .counts = {{5, 4}, {7, TALLY_NO_READING}, {11, 3}},
        .neighbours = {1 << 1 | 1 << 2, 1 << 0 | 1 << 2, 1 << 0 | 1 << 1},
    };
    static const uint16_t draws[] = {0, 0, 0, 0, 0, 0, 0}; /* twice the links, and one */
    static uint8_t sheet[TALLY_SHEET_MOST];
    struct tally_rendezvous net;
    struct tally_kept kept; /* what is told of the total: nothing, as it is not carried back */

    if (TALLY_NUMBER(tally_rendezvous_fresh(&net, &kept, map, TALLY_SUM, 0)) != 0)
        return 1;
    printf("before the report: refused %u\n", TALLY_NUMBER(tally_sheet(map, &net, &kept, sheet, sizeof sheet)));
    tally_rendezvous_run(&net, &kept, draws, sizeof draws / sizeof draws[0]);

    uint64_t answer = tally_sheet(map, &net, &kept, sheet, sizeof sheet);
    if (TALLY_NUMBER(answer) != 0)
        return 1;
    fwrite(sheet, 1, TALLY_VALUE(answer), stdout);
    return 0;
}
