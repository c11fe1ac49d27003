/* A net of stations that meet: steps, draws and runs on document 01's triangle, their values, what refusals leave, missing readings,
   classes, and a desk elsewhere. */
#include "check.h"
#include "triangle.h"

/* Without carrying back no call looks at these: they are zero after an opening, and stay. */
static struct tally_kept kept;

static void refusals(struct tally_rendezvous *net)
{
    struct tally_map apart = triangle;
    apart.neighbours[0] = 4;
    CHECK(tally_rendezvous_fresh(net, &kept, apart, TALLY_SUM, 0) == 9 + 256 * 1);
    CHECK(tally_rendezvous_step(net, &kept, TALLY_TELL, 0, 1) == 12);
    CHECK(tally_rendezvous_step(net, &kept, TALLY_WAKE, 0, 3) == 12);
    CHECK(tally_rendezvous_step(net, &kept, TALLY_REPORT, 0, 0) == 13);
    CHECK(are_fresh(net->config, net->stations));
    struct tally_rendezvous out_of_form = *net;
    out_of_form.stations[2].state = TALLY_FINISHED + 1;
    CHECK(tally_rendezvous_step(&out_of_form, &kept, TALLY_WAKE, 0, 1) == 11);
    CHECK(tally_rendezvous_draw(&out_of_form, &kept, 0) == 11);
    const uint16_t draws[1] = {0};
    struct tally_run run = tally_rendezvous_run(&out_of_form, &kept, draws, 1);
    CHECK(run.answer == 11 && run.steps == 0);
    out_of_form = *net;
    out_of_form.stations[2].held.missing[0] = TALLY_MOST_MISSING + 1;
    CHECK(tally_rendezvous_draw(&out_of_form, &kept, 0) == 11);
    CHECK(is(&out_of_form.stations[2], held(11, TALLY_MOST_MISSING + 1), 3, 0, 2, TALLY_ASLEEP));
    out_of_form = *net;
    out_of_form.config.classes = TALLY_CLASSES + 1;
    CHECK(tally_rendezvous_step(&out_of_form, &kept, TALLY_WAKE, 0, 1) == 11 && tally_rendezvous_draw(&out_of_form, &kept, 0) == 11);
}

/* Station 1 has no reading: nothing is added to the sum, and one to the missing number. */
static void missing(void)
{
    static const uint16_t draws[7] = {0};
    struct tally_rendezvous net;
    CHECK(tally_rendezvous_fresh(&net, &kept, lamp_failed, TALLY_SUM, 0) == 0);
    CHECK(is(&net.stations[1], held(0, 1), 5, 0, 2, TALLY_ASLEEP));
    struct tally_rendezvous full = net;
    CHECK(tally_rendezvous_run(&net, &kept, draws, 7).answer == 256);
    CHECK(is(&net.stations[0], held(16, 1), 0, 0, 0, TALLY_FINISHED));

    /* with the most at station 0, the fifth step, answer 1 0, leaves the form: a run stops there, and the net reached is refused */
    full.stations[0].held.missing[0] = TALLY_MOST_MISSING;
    struct tally_run stopped = tally_rendezvous_run(&full, &kept, draws, 7);
    CHECK(stopped.answer == 11 && stopped.steps == 5);
    CHECK(is(&full.stations[0], held(5, TALLY_MOST_MISSING + 1), 0, 0, 1, TALLY_ACTIVE));
    CHECK(tally_rendezvous_draw(&full, &kept, 0) == 11);
}

/* Two classes, each with its own total; what stands past them stays where it is. With a third in use the net is out of form. */
static void classes(void)
{
    static const uint16_t draws[7] = {0};
    struct tally_rendezvous net;
    CHECK(tally_rendezvous_fresh(&net, &kept, two_classes, TALLY_SUM, 0) == 0);
    CHECK(is(&net.stations[1], both(held(7, 0), held(0, 1)), 5, 0, 2, TALLY_ASLEEP));
    for (unsigned i = 0; i < 3; i++) {
        net.stations[i].held.sums[2] = UINT64_MAX - i;
        net.stations[i].held.missing[2] = 255;
    }
    struct tally_rendezvous wide = net;
    wide.config.classes = 3;
    CHECK(tally_rendezvous_draw(&wide, &kept, 0) == 11);
    CHECK(tally_rendezvous_run(&net, &kept, draws, 7).answer == 256);
    const struct tally_aggregate reported = {{23, 7, UINT64_MAX}, {0, 1, 255}};
    CHECK(is(&net.stations[0], reported, 0, 0, 0, TALLY_FINISHED));
}

/* The desk at station 2 starts, all hang on it at first, and it alone reports, the same total. A desk that is no station opens nothing, and
   is out of form. */
static void desks(void)
{
    static const uint16_t draws[7] = {0};
    struct tally_rendezvous net;
    CHECK(tally_rendezvous_fresh(&net, &kept, desk_at_2, TALLY_SUM, 0) == 0 && net.config.desk == 2);
    CHECK(is(&net.stations[0], held(5, 0), 6, 2, 2, TALLY_ASLEEP) && is(&net.stations[2], held(11, 0), 3, 2, 2, TALLY_ACTIVE));
    CHECK(tally_rendezvous_step(&net, &kept, TALLY_REPORT, 0, 0) == 12 && tally_rendezvous_step(&net, &kept, TALLY_REPORT, 2, 2) == 13);
    CHECK(made(tally_rendezvous_draw(&net, &kept, 0), TALLY_WAKE, 2, 0));
    CHECK(tally_rendezvous_run(&net, &kept, draws, 5).answer == 0);
    CHECK(made(tally_rendezvous_draw(&net, &kept, 0), TALLY_REPORT, 2, 2));
    CHECK(is(&net.stations[2], held(23, 0), 0, 2, 0, TALLY_FINISHED));

    struct tally_map none = desk_at_2;
    none.desk = 3;
    CHECK(tally_rendezvous_fresh(&net, &kept, none, TALLY_SUM, 0) == 19 && net.config.desk == 2);
    net.config.desk = 3;
    CHECK(tally_rendezvous_step(&net, &kept, TALLY_REPORT, 3, 3) == 11 && tally_rendezvous_draw(&net, &kept, 0) == 11);
    CHECK(tally_rendezvous_run(&net, &kept, draws, 1).answer == 11);
}

/* The triangle where station 1 has no reading, joined each way, told to all; a way that there is none of is refused, after the map's numbers. */
static void ways(void)
{
    static const uint16_t draws[16] = {0};
    static const uint64_t due[4] = {16, 11, 5, 2};
    struct tally_rendezvous net;
    for (uint8_t way = TALLY_SUM; way <= TALLY_READINGS; way++) {
        CHECK(tally_rendezvous_fresh(&net, &kept, lamp_failed, way, 1) == 0 && net.config.way == way);
        const int has_none = way == TALLY_GREATEST || way == TALLY_LEAST;
        CHECK(net.stations[1].held.sums[0] == (has_none ? TALLY_NONE : 0) && net.stations[1].held.missing[0] == 1);
        CHECK(tally_rendezvous_run(&net, &kept, draws, 16).steps == 9);
        CHECK(net.stations[0].held.sums[0] == due[way] && net.stations[0].held.missing[0] == 1);
        CHECK(kept.totals[2].sums[0] == due[way] && kept.totals[2].missing[0] == 1);
    }
    struct tally_map none = triangle;
    CHECK(tally_rendezvous_fresh(&net, &kept, none, TALLY_READINGS + 1, 0) == 12 && net.config.way == TALLY_READINGS);
    none.desk = 3;
    CHECK(tally_rendezvous_fresh(&net, &kept, none, 255, 0) == 19);
    net.config.way = 255;
    CHECK(tally_rendezvous_draw(&net, &kept, 0) == 11);
}

/* Totals carried back: the triangle takes 2 × 3 + 3 steps, and ends with all three knowing 23. */
static void told(void)
{
    static const uint16_t draws[16] = {0};
    static struct tally_kept others;
    struct tally_rendezvous net;
    memset(&kept, 0xa5, sizeof kept);
    CHECK(tally_rendezvous_fresh(&net, &kept, triangle, TALLY_SUM, 1) == 0 && net.carrying == 1);
    const struct tally_aggregate nothing = {{0}, {0}}, total = {{23}, {0}};
    for (unsigned i = 0; i < TALLY_STATIONS; i++)
        CHECK(same_held(&kept.totals[i], &nothing));
    CHECK(tally_rendezvous_step(&net, &kept, TALLY_TELL, 0, 1) == 13 && tally_rendezvous_step(&net, &kept, TALLY_TELL + 1, 0, 1) == 12);
    struct tally_run run = tally_rendezvous_run(&net, &kept, draws, 7);
    CHECK(run.answer == 0 && run.steps == 7 && net.stations[0].state == TALLY_FINISHED);
    CHECK(tally_rendezvous_step(&net, &kept, TALLY_TELL, 1, 2) == 13 && tally_rendezvous_step(&net, &kept, TALLY_TELL, 1, 0) == 13);
    CHECK(made(tally_rendezvous_draw(&net, &kept, 1), TALLY_TELL, 0, 2));
    CHECK(net.stations[2].state == TALLY_TOLD && same_held(&kept.totals[2], &total) && same_held(&kept.totals[1], &nothing));
    run = tally_rendezvous_run(&net, &kept, draws, 16);
    CHECK(run.answer == 256 && run.steps == 1 && same_held(&kept.totals[1], &total) && same_held(&kept.totals[0], &nothing));
    CHECK(is(&net.stations[1], held(7, 0), 0, 0, 0, TALLY_TOLD) && tally_rendezvous_draw(&net, &kept, 0) == 14);

    /* any number but 0 opens for carrying back; in a net only 0 and 1 are in form */
    struct tally_rendezvous other;
    CHECK(tally_rendezvous_fresh(&other, &others, triangle, TALLY_SUM, 255) == 0 && other.carrying == 1);
    other = net;
    other.carrying = 2;
    CHECK(tally_rendezvous_draw(&other, &kept, 0) == 11);
    other = net;
    other.carrying = 0;
    CHECK(tally_rendezvous_draw(&other, &kept, 0) == 11);
    other = net;
    other.stations[1].waits = 1;
    CHECK(tally_rendezvous_draw(&other, &kept, 0) == 11);
    other = net;
    other.stations[0].state = TALLY_TOLD;
    CHECK(tally_rendezvous_draw(&other, &kept, 0) == 11);
    kept.totals[2].missing[0] = TALLY_MOST_MISSING + 1;
    CHECK(tally_rendezvous_draw(&net, &kept, 0) == 11);
}

int main(void)
{
    struct tally_rendezvous net;
    CHECK(tally_rendezvous_fresh(&net, &kept, triangle, TALLY_SUM, 0) == 0);
    CHECK(are_fresh(net.config, net.stations));
    refusals(&net);
    CHECK(made(tally_rendezvous_step(&net, &kept, TALLY_WAKE, 0, 1), TALLY_WAKE, 0, 1));
    CHECK(made(tally_rendezvous_draw(&net, &kept, 1), TALLY_WAKE, 1, 2));
    const uint16_t draws[7] = {0};
    struct tally_run run = tally_rendezvous_run(&net, &kept, draws, 4);
    CHECK(run.answer == 0 && run.steps == 4);
    CHECK(is(&net.stations[2], held(11, 0), 0, 1, 0, TALLY_FINISHED) && is(&net.stations[1], held(18, 0), 0, 0, 0, TALLY_FINISHED));
    run = tally_rendezvous_run(&net, &kept, draws, 7);
    CHECK(TALLY_NUMBER(run.answer) == 0 && TALLY_VALUE(run.answer) == 1 && run.steps == 1);
    CHECK(is(&net.stations[0], held(23, 0), 0, 0, 0, TALLY_FINISHED));
    CHECK(tally_rendezvous_draw(&net, &kept, 0) == 14);
    missing();
    classes();
    desks();
    ways();
    told();
    return 0;
}
