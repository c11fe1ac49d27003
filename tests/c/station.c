/* Three station records carry document 01's triangle through the order wake 0 1, wake 1 2, pass 0 2, pass 2 0, answer 2 1 11,
   answer 1 0 18, report 0 23, and every refusal leaves the record that it was lent, and gives nothing. */
#include "check.h"
#include "triangle.h"

typedef struct tally_process process;

/* Sums on both sides of what the form allows. */
static const uint64_t most = ((uint64_t)1 << 62) - 1, too_much = (uint64_t)1 << 62;

/* What the fields of a record say; the bytes between them say nothing. */
static int same(const process *a, const process *b)
{
    const struct tally_station *s = &b->station;
    return a->own == b->own && a->classes == b->classes && a->desk == b->desk && a->way == b->way
        && is(&a->station, s->held, s->unstarted, s->parent, s->waits, s->state);
}

/* With one class. */
static int stands(const process *p, uint64_t sum, uint64_t unstarted, uint8_t parent, uint8_t waits, uint8_t state)
{
    return p->classes == 1 && is(&p->station, held(sum, 0), unstarted, parent, waits, state);
}

static void wave(process s[3])
{
    CHECK(tally_process_send_start(&s[0], 1) == 0);
    CHECK(tally_process_take_start(&s[1], 0) == 0);
    CHECK(stands(&s[0], 5, 4, 0, 2, 1));
    CHECK(stands(&s[1], 7, 4, 0, 1, 1));
    CHECK(tally_process_send_start(&s[1], 2) == 0);
    CHECK(tally_process_take_start(&s[2], 1) == 0);
    CHECK(stands(&s[2], 11, 1, 1, 1, 1));
    CHECK(tally_process_send_start(&s[0], 2) == 0);
    CHECK(tally_process_take_start(&s[2], 0) == 0);
    CHECK(stands(&s[2], 11, 1, 1, 0, 1));
    CHECK(tally_process_send_start(&s[2], 0) == 0);
    CHECK(tally_process_take_start(&s[0], 2) == 0);
    CHECK(stands(&s[0], 5, 0, 0, 1, 1));

    struct tally_given given = tally_process_send_answer(&s[2]);
    CHECK(TALLY_NUMBER(given.answer) == 0 && TALLY_VALUE(given.answer) == 1);
    CHECK(stands(&s[2], 11, 0, 1, 0, 2) && same_held(&given.held, &s[2].station.held));
    CHECK(tally_process_take_answer(&s[1], given.held) == 0);
    given = tally_process_send_answer(&s[1]);
    CHECK(TALLY_NUMBER(given.answer) == 0 && TALLY_VALUE(given.answer) == 0);
    CHECK(tally_process_take_answer(&s[0], given.held) == 0);
    given = tally_process_report(&s[0]);
    CHECK(given.answer == 0 && stands(&s[0], 23, 0, 0, 0, 2) && same_held(&given.held, &s[0].station.held));
}

/* All five events, with arguments in range. */
static void all_refuse(const process *p, uint64_t number)
{
    const struct tally_aggregate nothing = {{0}, {0}};
    process lent = *p;
    CHECK(tally_process_take_start(&lent, 1) == number);
    CHECK(tally_process_send_start(&lent, 1) == number);
    CHECK(tally_process_take_answer(&lent, held(1, 0)) == number);
    const struct tally_given answered = tally_process_send_answer(&lent), reported = tally_process_report(&lent);
    CHECK(answered.answer == number && same_held(&answered.held, &nothing));
    CHECK(reported.answer == number && same_held(&reported.held, &nothing));
    CHECK(same(&lent, p));
}

static void refusals(const process *finished)
{
    const process active = {1, 1, 0, TALLY_SUM, {held(7, 0), 4, 0, 1, 1}};
    process lent = active;
    CHECK(tally_process_take_start(&lent, TALLY_STATIONS) == 12);
    CHECK(tally_process_send_start(&lent, 255) == 12);
    CHECK(tally_process_take_answer(&lent, held(too_much, 0)) == 12);
    CHECK(tally_process_send_start(&lent, 0) == 13);
    CHECK(tally_process_send_answer(&lent).answer == 13);
    CHECK(tally_process_report(&lent).answer == 13);
    CHECK(same(&lent, &active));
    all_refuse(finished, 13);

    /* accepted, and out of form from then on */
    CHECK(tally_process_take_answer(&lent, held(most, 0)) == 0);
    CHECK(stands(&lent, 7 + most, 4, 0, 0, 1));
    all_refuse(&lent, 11);

    const uint8_t none[3] = {0, TALLY_CLASSES + 1, 255};
    for (unsigned i = 0; i < 3; i++) {
        lent = active;
        lent.classes = none[i];
        all_refuse(&lent, 11);
    }
}

/* Missing numbers on both sides of their bound, in the answer and in the record. */
static void missing(void)
{
    const process active = {1, 1, 0, TALLY_SUM, {held(7, 0), 0, 0, 3, 1}};
    process lent = active;
    CHECK(tally_process_take_answer(&lent, held(11, TALLY_MOST_MISSING + 1)) == 12);
    CHECK(same(&lent, &active));
    CHECK(tally_process_take_answer(&lent, held(11, TALLY_MOST_MISSING)) == 0);
    const process full = {1, 1, 0, TALLY_SUM, {held(18, TALLY_MOST_MISSING), 0, 0, 2, 1}};
    CHECK(same(&lent, &full));

    /* accepted, and out of form from then on, by the missing number alone */
    CHECK(tally_process_take_answer(&lent, held(11, 1)) == 0);
    const process over = {1, 1, 0, TALLY_SUM, {held(29, TALLY_MOST_MISSING + 1), 0, 0, 1, 1}};
    CHECK(same(&lent, &over));
    all_refuse(&lent, 11);
}

/* Two classes, and past them what no class may hold: it stays in the record, and is not given. */
static void classes(void)
{
    const process active = {1, 2, 0, TALLY_SUM, {{{7, 0, too_much}, {0, 1, 255}}, 0, 3, 1, 1}};
    const struct tally_aggregate answer = {{11, 4, UINT64_MAX}, {2, 0, 255}}, due = {{18, 4}, {2, 1}};
    process lent = active;
    CHECK(tally_process_take_answer(&lent, both(held(0, 0), held(too_much, 0))) == 12);
    CHECK(tally_process_take_answer(&lent, both(held(0, 0), held(0, TALLY_MOST_MISSING + 1))) == 12);
    CHECK(same(&lent, &active));
    CHECK(tally_process_take_answer(&lent, answer) == 0);
    const process taken = {1, 2, 0, TALLY_SUM, {{{18, 4, too_much}, {2, 1, 255}}, 0, 3, 0, 1}};
    CHECK(same(&lent, &taken));
    const struct tally_given given = tally_process_send_answer(&lent);
    const process finished = {1, 2, 0, TALLY_SUM, {{{18, 4, too_much}, {2, 1, 255}}, 0, 3, 0, 2}};
    CHECK(given.answer == 256 * 3 && same(&lent, &finished) && same_held(&given.held, &due));

    /* with a third class in use, the record is out of form */
    lent = active;
    lent.classes = 3;
    all_refuse(&lent, 11);
}

/* The desk's own record, wherever it is: it reports and never answers, and may be its own parent; all others answer, station 0 too. */
static void desks(void)
{
    const process desk = {5, 1, 5, TALLY_SUM, {held(7, 0), 0, 5, 0, 1}}, other = {0, 1, 5, TALLY_SUM, {held(7, 0), 0, 5, 0, 1}};
    process lent = desk;
    CHECK(tally_process_send_answer(&lent).answer == 13 && same(&lent, &desk));
    CHECK(tally_process_report(&lent).answer == 256 * 5 && lent.station.state == TALLY_FINISHED);
    lent = other;
    CHECK(tally_process_report(&lent).answer == 13 && same(&lent, &other));
    CHECK(tally_process_send_answer(&lent).answer == 256 * 5 && lent.station.state == TALLY_FINISHED);

    lent = other;
    lent.station.parent = 0;
    all_refuse(&lent, 11);
    const uint8_t none[2] = {TALLY_STATIONS, 255};
    for (unsigned i = 0; i < 2; i++) {
        lent = other;
        lent.desk = none[i];
        all_refuse(&lent, 11);
    }
}

/* Joined the greatest and the least way, with TALLY_NONE for no reading; under the sum and the number it is out of range, and a record that holds
   it out of form; so is a record of another way. */
static void ways(void)
{
    const process active = {1, 1, 0, TALLY_SUM, {held(7, 1), 0, 0, 9, 1}};
    const uint64_t answers[3] = {11, TALLY_NONE, 5}, due[4][3] = {{18, 18, 23}, {11, 11, 11}, {7, 7, 5}, {18, 18, 23}};
    for (uint8_t way = TALLY_SUM; way <= TALLY_READINGS; way++) {
        const int has_none = way == TALLY_GREATEST || way == TALLY_LEAST;
        process lent = active;
        lent.way = way;
        for (unsigned i = 0; i < 3; i++) {
            CHECK(tally_process_take_answer(&lent, held(answers[i], 1)) == (answers[i] == TALLY_NONE && !has_none ? 12 : 0));
            CHECK(lent.station.held.sums[0] == due[way][i]);
        }
        CHECK(lent.station.held.missing[0] == (has_none ? 4 : 3));
        lent.station.held.sums[0] = TALLY_NONE;
        if (has_none)
            CHECK(tally_process_take_answer(&lent, held(3, 0)) == 0 && lent.station.held.sums[0] == 3);
        else
            all_refuse(&lent, 11);
        lent.station.held.sums[0] = TALLY_NONE - 1;
        all_refuse(&lent, 11);
    }
    const uint8_t none[2] = {TALLY_READINGS + 1, 255};
    for (unsigned i = 0; i < 2; i++) {
        process lent = active;
        lent.way = none[i];
        all_refuse(&lent, 11);
    }
}

int main(void)
{
    process s[3] = {{0, 1, 0, TALLY_SUM, {held(5, 0), 6, 0, 2, 1}}, {1, 1, 0, TALLY_SUM, {held(7, 0), 5, 0, 2, 0}}, {2, 1, 0, TALLY_SUM, {held(11, 0), 3, 0, 2, 0}}};
    wave(s);
    refusals(&s[0]);
    missing();
    classes();
    desks();
    ways();
    return 0;
}
