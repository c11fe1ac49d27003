/* A controller's side of the tally. It keeps one station record and lends it to each event, which alters it there; there is nothing to
   open, to close or to allocate.

   This one is station 1 of document 01's triangle, linked to 0, the desk, and to 2, and counts three classes of bruises: 7 stem punctures,
   1 finger bruise, and no russet reading. Its links bring a start from station 0, two spoiled frames, and the answer of station 2; what it
   sends is printed. */
#include "tally.h"
#include <inttypes.h>
#include <stdio.h>

enum { CLASSES = 3 };

struct frame {
    enum { START, ANSWER } kind;
    uint8_t from;
    struct tally_aggregate gathered; /* of an answer */
};

/* What the head's counts bring to its station: a class in which the lamp failed has no reading, which is counted as missing. */
static struct tally_aggregate gather(const uint32_t counts[CLASSES])
{
    struct tally_aggregate gathered = {{0}, {0}};

    for (int j = 0; j < CLASSES; j++)
        if (counts[j] == TALLY_NO_READING)
            gathered.missing[j] = 1;
        else
            gathered.sums[j] = counts[j];
    return gathered;
}

/* Sum and missing number for each class in turn. */
static void print(const struct tally_aggregate *gathered)
{
    for (int j = 0; j < CLASSES; j++)
        printf(" %" PRIu64 " %u", gathered->sums[j], gathered->missing[j]);
}

/* Hand a frame to the station. Nothing has to be checked before: what the station can't take is refused, and leaves the record. */
static void take(struct tally_process *p, const struct frame *f)
{
    uint64_t answer = f->kind == START ? tally_process_take_start(p, f->from) : tally_process_take_answer(p, f->gathered);

    printf("take %s", f->kind == START ? "start" : "answer");
    if (f->kind == ANSWER)
        print(&f->gathered);
    printf(" from %u: ", f->from);
    if (TALLY_NUMBER(answer) != 0) {
        printf("refused %u\n", TALLY_NUMBER(answer));
        return;
    }
    printf("parent %u, waits %u, holds", p->station.parent, p->station.waits);
    print(&p->station.held);
    printf("\n");
}

/* Send all that may be sent now: a start to each neighbour still to be started, and the answer once nothing is waited for. What may not
   be sent is refused with 13, so it is enough to try. */
static void send(struct tally_process *p)
{
    for (uint8_t to = 0; to < TALLY_STATIONS; to++)
        if (TALLY_NUMBER(tally_process_send_start(p, to)) == 0)
            printf("send start to %u\n", to);

    const struct tally_given given = tally_process_send_answer(p);
    if (TALLY_NUMBER(given.answer) == 0) {
        printf("send answer");
        print(&given.held);
        printf(" to %u\n", (unsigned)TALLY_VALUE(given.answer));
    }
}

int main(void)
{
    const uint32_t own[CLASSES] = {7, 1, TALLY_NO_READING}, of_station_2[CLASSES] = {11, 3, TALLY_NO_READING};

    /* At the end of a lot: what the counts bring, a bit for each neighbour, as many waits as neighbours, asleep. */
    struct tally_process station = {
        .own = 1,
        .classes = CLASSES,
        .desk = 0,
        .way = TALLY_SUM,
        .station = {.held = gather(own), .unstarted = 1u << 0 | 1u << 2, .parent = 0, .waits = 2, .state = TALLY_ASLEEP},
    };
    const struct frame inbox[] = {
        {.kind = START, .from = 0},
        {.kind = START, .from = 200},
        {.kind = ANSWER, .from = 2, .gathered = {.sums = {11, 3, 0}, .missing = {0, 0, 200}}},
        {.kind = ANSWER, .from = 2, .gathered = gather(of_station_2)},
    };

    for (size_t i = 0; i < sizeof inbox / sizeof inbox[0]; i++) {
        take(&station, &inbox[i]);
        send(&station);
    }
    return 0;
}
