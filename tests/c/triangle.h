/* Document 01's triangle, what its stations hold, and what a call says that it made. */
#ifndef TRIANGLE_H
#define TRIANGLE_H
#include "tally.h"
#include <string.h>

static const struct tally_map triangle = {3, 1, 0, 42, {{5}, {7}, {11}}, {6, 5, 3}};

/* The same where station 1 has no reading. */
static const struct tally_map lamp_failed = {3, 1, 0, 42, {{5}, {TALLY_NO_READING}, {11}}, {6, 5, 3}};

/* The same with a second class, in which station 1 has no reading: its total is 7, with one missing. */
static const struct tally_map two_classes = {3, 2, 0, 42, {{5, 4}, {7, TALLY_NO_READING}, {11, 3}}, {6, 5, 3}};

/* The same with the desk at station 2. */
static const struct tally_map desk_at_2 = {3, 1, 2, 42, {{5}, {7}, {11}}, {6, 5, 3}};

/* In one class. */
static inline struct tally_aggregate held(uint64_t sum, uint8_t missing)
{
    return (struct tally_aggregate){{sum}, {missing}};
}

/* In two. */
static inline struct tally_aggregate both(struct tally_aggregate first, struct tally_aggregate second)
{
    first.sums[1] = second.sums[0];
    first.missing[1] = second.missing[0];
    return first;
}

/* In all classes, those past the ones in use among them. */
static inline int same_held(const struct tally_aggregate *a, const struct tally_aggregate *b)
{
    return memcmp(a->sums, b->sums, sizeof a->sums) == 0 && memcmp(a->missing, b->missing, sizeof a->missing) == 0;
}

static inline int is(const struct tally_station *s, struct tally_aggregate due, uint64_t set, uint8_t parent, uint8_t waits, uint8_t state)
{
    return same_held(&s->held, &due) && s->unstarted == set && s->parent == parent && s->waits == waits && s->state == state;
}

static inline int are_fresh(struct tally_config config, const struct tally_station s[TALLY_STATIONS])
{
    return config.k == 3 && config.classes == 1 && config.desk == 0 && config.way == TALLY_SUM && is(&s[0], held(5, 0), 6, 0, 2, TALLY_ACTIVE)
        && is(&s[1], held(7, 0), 5, 0, 2, TALLY_ASLEEP) && is(&s[2], held(11, 0), 3, 0, 2, TALLY_ASLEEP)
        && is(&s[3], held(0, 0), 0, 0, 0, TALLY_ASLEEP) && is(&s[TALLY_STATIONS - 1], held(0, 0), 0, 0, 0, TALLY_ASLEEP);
}

static inline int made(uint64_t answer, uint8_t kind, uint8_t sender, uint8_t receiver)
{
    return TALLY_NUMBER(answer) == 0 && TALLY_KIND(answer) == kind && TALLY_SENDER(answer) == sender
        && TALLY_RECEIVER(answer) == receiver;
}

#endif
