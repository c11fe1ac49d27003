/* A desk's side of the tally. It reads the line map that stands at the end of some bytes, opens a net on it, and lets draws pick the
   steps until the desk has reported. All it keeps is the map and the net.

   The map is document 01's triangle, lot 42, with one class of bruises. It is run twice: draw by draw, with a line for each step, and in
   another order in one call, which gives the same total. Then a lamp has failed: the total is that of the other heads, and one reading is
   missing. Then the heads count a second class too, and none is missing there; each class has its own total. Last the desk is another: a
   terminal that hangs on station 2, where no fruit passes, and which reports the same. */
#include "tally.h"
#include <inttypes.h>
#include <stdio.h>

static const uint8_t stored[] = {
    /* a row for each station: its counts (4 bytes each, here one), then a bit for each neighbour (8 bytes) */
    5, 0, 0, 0, 1 << 1 | 1 << 2, 0, 0, 0, 0, 0, 0, 0,
    7, 0, 0, 0, 1 << 0 | 1 << 2, 0, 0, 0, 0, 0, 0, 0,
    11, 0, 0, 0, 1 << 0 | 1 << 1, 0, 0, 0, 0, 0, 0, 0,
    /* stations and the desk, row length, distance back to the first row, lot, and the check word that makes all words add to zero */
    3, 0, 12, 0, 36, 0, 0, 0, 42, 0, 0, 0, 0x8a, 0xff, 0xf3, 0xff,
};

/* What stations keep of totals that are carried back; here none are. */
static struct tally_kept kept;

/* Sum and missing number for each class in turn. */
static void print_held(const struct tally_rendezvous *net, uint8_t station)
{
    for (uint8_t j = 0; j < net->config.classes; j++)
        printf(" %" PRIu64 " %u", net->stations[station].held.sums[j], net->stations[station].held.missing[j]);
}

/* One step, as its answer tells it. What the sender holds is what it answers or reports. */
static void print_step(const struct tally_rendezvous *net, uint64_t answer)
{
    static const char *const kinds[] = {"", "wake", "pass", "answer", "report"};
    uint8_t kind = TALLY_KIND(answer), sender = TALLY_SENDER(answer), receiver = TALLY_RECEIVER(answer);

    printf("%s %u", kinds[kind], sender);
    if (kind != TALLY_REPORT)
        printf(" %u", receiver);
    if (kind == TALLY_ANSWER || kind == TALLY_REPORT)
        print_held(net, sender);
    printf("\n");
}

/* Draw 0 picks the first of the allowed steps each time. 14 says that nothing is allowed any more: the desk has reported. */
static unsigned draw_by_draw(struct tally_rendezvous *net)
{
    unsigned steps = 0;
    uint64_t answer;

    while (TALLY_NUMBER(answer = tally_rendezvous_draw(net, &kept, 0)) == 0) {
        print_step(net, answer);
        steps++;
    }
    printf("refused %u\n", TALLY_NUMBER(answer));
    return steps;
}

/* All of it in one call. An accepted map opens a net. */
static void run(struct tally_map map)
{
    static const uint16_t draws[] = {0, 1, 0, 0, 0, 0, 0, 0, 0};
    struct tally_rendezvous net;

    tally_rendezvous_fresh(&net, &kept, map, TALLY_SUM, 0);
    struct tally_run run = tally_rendezvous_run(&net, &kept, draws, sizeof draws / sizeof draws[0]);
    printf("run: steps %" PRIu64 ", at rest %" PRIu64 ", station 2 hung on %u, reported", run.steps, TALLY_VALUE(run.answer),
           net.stations[2].parent);
    print_held(&net, net.config.desk);
    printf("\n");
}

int main(void)
{
    struct tally_map map;
    struct tally_rendezvous net;

    /* Bytes that came damaged, here with one missing, are refused, and nothing is written: the map may be asked for again. */
    printf("refused %u\n", TALLY_NUMBER(tally_map_read(&map, stored + 1, sizeof stored - 1)));

    uint64_t answer = tally_map_read(&map, stored, sizeof stored);
    if (TALLY_NUMBER(answer) != 0)
        return 1;
    uint64_t links = TALLY_VALUE(tally_map_links(map));

    tally_rendezvous_fresh(&net, &kept, map, TALLY_SUM, 0); /* a map that was read is accepted */
    unsigned steps = draw_by_draw(&net);
    printf("lot %" PRIu64 " steps %u links %" PRIu64 "\n", map.lot, steps, links);

    run(map);
    map.counts[1][0] = TALLY_NO_READING;
    run(map);
    map.classes = 2;
    for (uint8_t i = 0; i < map.k; i++)
        map.counts[i][1] = 100 + i;
    run(map);

    map.desk = map.k++;
    map.neighbours[map.desk] = 1 << 2;
    map.neighbours[2] |= 1 << map.desk;
    run(map);
    return 0;
}
