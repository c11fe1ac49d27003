/* A net of stations with mail: steps, draws and runs on document 01's triangle, their values, what refusals leave, and how mailboxes are
   read from words and written to words; missing readings, classes, and a desk elsewhere. The order: deliveries 0 1, 1 2, 0 2, 2 0, 2 1 with
   11, 1 0 with 18; report 23. */
#include "check.h"
#include "triangle.h"

/* Sums on both sides of what the form allows. */
static const uint64_t most = ((uint64_t)1 << 62) - 1, too_much = (uint64_t)1 << 62;

/* Missing words of one class: of the most that the form allows and of one more, with something in the bytes that are not looked at. */
static const uint64_t idle = 0x0807060504030200, most_missing = 0x0807060504030240, too_many = 0x0807060504030241;

struct net {
    struct tally_line line;
    struct tally_mail mail;
};

/* All words of the mailboxes; between them there is nothing. */
static int same_mail(const struct tally_mail *a, const struct tally_mail *b)
{
    return memcmp(a, b, sizeof *a) == 0;
}

static int is_fresh(const struct net *net)
{
    static const struct tally_mail mail = {.starts = {6}};
    return are_fresh(net->line.config, net->line.stations) && same_mail(&net->mail, &mail);
}

static uint64_t deliver(struct net *net, uint8_t sender, uint8_t receiver)
{
    return tally_mailbox_step(&net->line, &net->mail, TALLY_DELIVERY, sender, receiver);
}

static uint64_t draw(struct net *net, uint16_t d)
{
    return tally_mailbox_draw(&net->line, &net->mail, d);
}

/* With draws of 0. */
static struct tally_run run(struct net *net, size_t count)
{
    static const uint16_t draws[7] = {0};
    return tally_mailbox_run(&net->line, &net->mail, draws, count);
}

static int delivered(uint64_t answer, uint8_t sender, uint8_t receiver)
{
    return made(answer, TALLY_DELIVERY, sender, receiver);
}

/* The sets of the three senders. */
static int starts_wait(const struct tally_mail *mail, uint64_t from_0, uint64_t from_1, uint64_t from_2)
{
    return mail->starts[0] == from_0 && mail->starts[1] == from_1 && mail->starts[2] == from_2;
}

static int answers_wait(const struct tally_mail *mail, uint64_t from_0, uint64_t from_1, uint64_t from_2)
{
    return mail->answers[0] == from_0 && mail->answers[1] == from_1 && mail->answers[2] == from_2;
}

static void refusals(struct net *net)
{
    struct tally_map one_way = triangle;
    one_way.neighbours[0] = 4;
    CHECK(tally_mailbox_fresh(&net->line, &net->mail, one_way, TALLY_SUM) == 9 + 256 * 1);
    CHECK(tally_mailbox_step(&net->line, &net->mail, 0, 0, 1) == 12);
    CHECK(tally_mailbox_step(&net->line, &net->mail, TALLY_MAIL_REPORT + 1, 0, 1) == 12);
    CHECK(tally_mailbox_step(&net->line, &net->mail, TALLY_MAIL_REPORT, 0, 1) == 12);
    CHECK(tally_mailbox_step(&net->line, &net->mail, TALLY_MAIL_REPORT, 0, 0) == 13);
    CHECK(deliver(net, 0, 3) == 12);
    CHECK(deliver(net, 1, 0) == 13);
    CHECK(deliver(net, 1, 1) == 13);
    CHECK(is_fresh(net));
}

/* An answer waits with a sum or a missing number that is out of form: every call refuses the net and leaves it. */
static void out_of_form(struct net net, uint64_t sum, uint64_t missing)
{
    net.mail.answers[1] = 1;
    net.mail.sums[0][1][0] = sum;
    net.mail.missing[1][0] = missing;
    const struct tally_mail before = net.mail;
    CHECK(deliver(&net, 0, 1) == 11);
    CHECK(draw(&net, 0) == 11);
    struct tally_run stopped = run(&net, 1);
    CHECK(stopped.answer == 11 && stopped.steps == 0);
    CHECK(are_fresh(net.line.config, net.line.stations) && same_mail(&net.mail, &before));
}

/* In form are the most of both, whatever stands past the class in use; both are added, and their words stay. */
static void most_is_taken(struct net net)
{
    net.mail.answers[1] = 1;
    net.mail.sums[0][1][0] = most - 5;
    net.mail.sums[1][1][0] = too_much;
    net.mail.missing[1][0] = most_missing;
    CHECK(TALLY_ANSWER_MISSING(&net.mail, 1, 0, 0) == TALLY_MOST_MISSING);
    CHECK(delivered(deliver(&net, 1, 0), 1, 0));
    CHECK(is(&net.line.stations[0], held(most, TALLY_MOST_MISSING), 6, 0, 1, TALLY_ACTIVE));
    CHECK(answers_wait(&net.mail, 0, 0, 0) && net.mail.sums[0][1][0] == most - 5 && net.mail.missing[1][0] == most_missing);
}

/* Where both bits are set a start waits, and goes with both bits; the words of the answer are not looked at, and stay. */
static void both_bits(struct net net)
{
    net.mail.answers[0] = 2;
    net.mail.sums[0][0][1] = too_much;
    net.mail.missing[0][1] = too_many;
    CHECK(TALLY_START_WAITS(&net.mail, 0, 1) && !TALLY_ANSWER_WAITS(&net.mail, 0, 1));
    CHECK(delivered(deliver(&net, 0, 1), 0, 1));
    CHECK(is(&net.line.stations[1], held(7, 0), 5, 0, 1, TALLY_ACTIVE));
    CHECK(starts_wait(&net.mail, 4, 4, 0) && answers_wait(&net.mail, 0, 0, 0));
    CHECK(net.mail.sums[0][0][1] == too_much && net.mail.missing[0][1] == too_many);
}

/* A post replaces what the mailbox held: a start an answer, whose words stay, and an answer a start; an answer fills its words whole. */
static void posts(struct net net)
{
    net.mail.answers[1] = 4;
    net.mail.sums[0][1][2] = most;
    net.mail.missing[1][2] = most_missing;
    CHECK(TALLY_ANSWER_WAITS(&net.mail, 1, 2) && !TALLY_START_WAITS(&net.mail, 1, 2));
    CHECK(delivered(deliver(&net, 0, 1), 0, 1));
    CHECK(starts_wait(&net.mail, 4, 4, 0) && answers_wait(&net.mail, 0, 0, 0));
    CHECK(net.mail.sums[0][1][2] == most && net.mail.missing[1][2] == most_missing);

    net.mail.starts[1] = 1;
    net.mail.starts[2] = 2;
    net.mail.missing[1][0] = idle;
    net.mail.sums[TALLY_CLASSES - 1][1][0] = most;
    net.line.stations[1].held.missing[0] = 3;
    CHECK(delivered(deliver(&net, 2, 1), 2, 1));
    CHECK(is(&net.line.stations[1], held(7, 3), 5, 0, 0, TALLY_FINISHED));
    CHECK(starts_wait(&net.mail, 4, 0, 0) && answers_wait(&net.mail, 0, 1, 0));
    CHECK(net.mail.sums[0][1][0] == 7 && net.mail.sums[TALLY_CLASSES - 1][1][0] == 0 && net.mail.missing[1][0] == 3);
}

/* Station 1 has no reading. Where an answer takes it out of form it hands that on; a single step is accepted, a run stops with 11. */
static void missing(struct net net)
{
    CHECK(tally_mailbox_fresh(&net.line, &net.mail, lamp_failed, TALLY_SUM) == 0);
    CHECK(is(&net.line.stations[1], held(0, 1), 5, 0, 2, TALLY_ASLEEP));
    struct net full = net;
    CHECK(run(&net, 7).answer == 256);
    CHECK(is(&net.line.stations[0], held(16, 1), 6, 0, 0, TALLY_FINISHED));

    CHECK(delivered(deliver(&full, 0, 1), 0, 1));
    full.mail.starts[0] = full.mail.starts[1] = 0;
    full.mail.answers[2] = 2;
    full.mail.missing[2][1] = TALLY_MOST_MISSING;
    struct net stepped = full;
    CHECK(delivered(deliver(&stepped, 2, 1), 2, 1) && deliver(&stepped, 1, 0) == 11);
    struct tally_run stopped = run(&full, 7);
    CHECK(stopped.answer == 11 && stopped.steps == 1);
    CHECK(is(&full.line.stations[1], held(0, TALLY_MOST_MISSING + 1), 5, 0, 0, TALLY_FINISHED));
    CHECK(answers_wait(&full.mail, 0, 1, 0) && full.mail.missing[1][0] == TALLY_MOST_MISSING + 1);
    CHECK(same_mail(&stepped.mail, &full.mail));
}

/* Two classes: what an answer brings stands class by class, and zero past them, whatever the sender holds there. An answer that waits is
   out of form by its second class, and not by a third. */
static void classes(struct net net)
{
    CHECK(tally_mailbox_fresh(&net.line, &net.mail, two_classes, TALLY_SUM) == 0);
    net.line.stations[1].held.sums[2] = net.mail.sums[2][1][0] = too_much;
    net.line.stations[1].held.missing[2] = 255;
    net.mail.missing[1][0] = idle;
    net.mail.starts[2] = 2;
    CHECK(delivered(deliver(&net, 0, 1), 0, 1) && delivered(deliver(&net, 2, 1), 2, 1));
    CHECK(answers_wait(&net.mail, 0, 1, 0) && net.mail.missing[1][0] == 0x100 && TALLY_ANSWER_MISSING(&net.mail, 1, 0, 1) == 1);
    CHECK(net.mail.sums[0][1][0] == 7 && net.mail.sums[1][1][0] == 0 && net.mail.sums[2][1][0] == 0);
    CHECK(net.line.stations[1].held.sums[2] == too_much && net.line.stations[1].held.missing[2] == 255);

    net.mail.sums[2][1][0] = too_much;
    net.mail.sums[1][1][0] = too_much;
    CHECK(deliver(&net, 1, 0) == 11);
    net.mail.sums[1][1][0] = 0;
    CHECK(delivered(deliver(&net, 1, 0), 1, 0));
    CHECK(is(&net.line.stations[0], both(held(12, 0), held(4, 1)), 6, 0, 1, TALLY_ACTIVE));

    net.line.config.classes = 0;
    CHECK(deliver(&net, 0, 2) == 11 && draw(&net, 0) == 11 && run(&net, 1).answer == 11);
}

/* The desk at station 2 has the first starts, and reports. */
static void desks(struct net net)
{
    CHECK(tally_mailbox_fresh(&net.line, &net.mail, desk_at_2, TALLY_SUM) == 0);
    CHECK(starts_wait(&net.mail, 0, 0, 3) && is(&net.line.stations[0], held(5, 0), 6, 2, 2, TALLY_ASLEEP));
    CHECK(tally_mailbox_step(&net.line, &net.mail, TALLY_MAIL_REPORT, 0, 0) == 12);
    CHECK(run(&net, 6).answer == 0);
    CHECK(made(draw(&net, 0), TALLY_MAIL_REPORT, 2, 2));
    CHECK(is(&net.line.stations[2], held(23, 0), 3, 2, 0, TALLY_FINISHED));
    net.line.config.desk = 64;
    CHECK(deliver(&net, 0, 1) == 11 && draw(&net, 0) == 11 && run(&net, 1).answer == 11);
}

/* Where station 1 has no reading, joined each way; an answer that brings TALLY_NONE is out of form under the sum and the number; a way that there is
   none of is refused. */
static void ways(struct net net)
{
    static const uint64_t due[4] = {16, 11, 5, 2};
    for (uint8_t way = TALLY_SUM; way <= TALLY_READINGS; way++) {
        CHECK(tally_mailbox_fresh(&net.line, &net.mail, lamp_failed, way) == 0 && net.line.config.way == way);
        CHECK(run(&net, 7).steps == 7);
        CHECK(net.line.stations[0].held.sums[0] == due[way] && net.line.stations[0].held.missing[0] == 1);
        CHECK(tally_mailbox_fresh(&net.line, &net.mail, lamp_failed, way) == 0);
        net.mail.answers[2] = 1;
        net.mail.sums[0][2][0] = TALLY_NONE;
        net.mail.missing[2][0] = 1;
        const int has_none = way == TALLY_GREATEST || way == TALLY_LEAST;
        CHECK(TALLY_NUMBER(deliver(&net, 2, 0)) == (has_none ? 0 : 11));
        CHECK(net.line.stations[0].held.sums[0] == (way == TALLY_READINGS ? 1 : 5) && net.line.stations[0].held.missing[0] == has_none);
    }
    CHECK(tally_mailbox_fresh(&net.line, &net.mail, triangle, 4) == 12 && net.line.config.way == TALLY_READINGS);
    net.line.config.way = 4;
    CHECK(deliver(&net, 0, 1) == 11 && draw(&net, 0) == 11 && run(&net, 1).answer == 11);
}

/* Past k, from a station to itself, and beside no answer, any words may stand: no call but an opening looks at them or touches them. */
static void strays(struct net net)
{
    const uint8_t last = TALLY_STATIONS - 1;
    memset(&net.mail, 0xff, sizeof net.mail);
    for (unsigned s = 0; s < 3; s++) {
        net.mail.starts[s] &= ~(uint64_t)7 | (uint64_t)1 << s;
        net.mail.answers[s] &= ~(uint64_t)7 | (uint64_t)1 << s;
    }
    struct tally_mail due = net.mail;
    CHECK(deliver(&net, 1, 1) == 13 && deliver(&net, 0, last) == 12 && draw(&net, 0) == 14);
    CHECK(same_mail(&net.mail, &due));

    net.mail.starts[0] |= 2;
    due.starts[1] |= 4;
    CHECK(delivered(draw(&net, 0), 0, 1));
    CHECK(same_mail(&net.mail, &due));
    CHECK(tally_mailbox_fresh(&net.line, &net.mail, triangle, TALLY_SUM) == 0);
    CHECK(is_fresh(&net));
}

static void wave(struct net *net)
{
    const struct tally_station *stations = net->line.stations;
    const struct tally_mail *mail = &net->mail;
    CHECK(delivered(deliver(net, 0, 1), 0, 1));
    CHECK(is(&stations[1], held(7, 0), 5, 0, 1, TALLY_ACTIVE));
    CHECK(starts_wait(mail, 4, 4, 0) && answers_wait(mail, 0, 0, 0));
    CHECK(delivered(draw(net, 1), 1, 2));
    CHECK(is(&stations[2], held(11, 0), 3, 1, 1, TALLY_ACTIVE));
    CHECK(starts_wait(mail, 4, 0, 1) && answers_wait(mail, 0, 0, 0));
    CHECK(delivered(draw(net, 0), 0, 2));
    CHECK(is(&stations[2], held(11, 0), 3, 1, 0, TALLY_FINISHED));
    CHECK(starts_wait(mail, 0, 0, 1) && answers_wait(mail, 0, 0, 2) && mail->sums[0][2][1] == 11);

    struct tally_run part = run(net, 2);
    CHECK(part.answer == 0 && part.steps == 2);
    CHECK(is(&stations[0], held(5, 0), 6, 0, 1, TALLY_ACTIVE) && is(&stations[1], held(18, 0), 5, 0, 0, TALLY_FINISHED));
    CHECK(starts_wait(mail, 0, 0, 0) && answers_wait(mail, 0, 1, 0) && mail->sums[0][1][0] == 18);
    struct tally_run rest = run(net, 7);
    CHECK(TALLY_NUMBER(rest.answer) == 0 && TALLY_VALUE(rest.answer) == 1 && rest.steps == 2);
    CHECK(is(&stations[0], held(23, 0), 6, 0, 0, TALLY_FINISHED));
    CHECK(draw(net, 0) == 14);

    static struct tally_mail due;
    due.sums[0][2][1] = 11;
    due.sums[0][1][0] = 18;
    CHECK(same_mail(mail, &due));
}

int main(void)
{
    static struct net net;
    memset(&net, 0xa5, sizeof net);
    CHECK(tally_mailbox_fresh(&net.line, &net.mail, triangle, TALLY_SUM) == 0);
    CHECK(is_fresh(&net));
    refusals(&net);
    out_of_form(net, too_much, 0);
    out_of_form(net, 0, too_many);
    most_is_taken(net);
    both_bits(net);
    posts(net);
    missing(net);
    classes(net);
    desks(net);
    ways(net);
    strays(net);
    wave(&net);
    return 0;
}
