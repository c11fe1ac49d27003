/* The header stands alone, in C and in C++: nothing before it, twice, and no more of the C library than a controller without one has. */
#include "tally.h"
#include "tally.h"

static struct tally_process asleep = {0, 1, 0, TALLY_SUM, {{{0}, {0}}, 0, 0, 0, TALLY_ASLEEP}};
static struct tally_mail mail;

static int answers_come_apart(void)
{
    return TALLY_NUMBER(0x0b) == 11 && TALLY_VALUE(0x0209) == 2 && TALLY_KIND(0x04030200) == 2 && TALLY_SENDER(0x04030200) == 3
        && TALLY_RECEIVER(0x04030200) == 4;
}

static int mail_waits(void)
{
    mail.starts[1] = 1;
    mail.answers[1] = 3;
    mail.missing[1][1] = 0xa540;
    return TALLY_START_WAITS(&mail, 1, 0) && !TALLY_ANSWER_WAITS(&mail, 1, 0) && TALLY_ANSWER_WAITS(&mail, 1, 1)
        && TALLY_ANSWER_MISSING(&mail, 1, 1, 0) == TALLY_MOST_MISSING && TALLY_ANSWER_MISSING(&mail, 1, 1, 1) == 0xa5
        && TALLY_ANSWER_MISSING(&mail, 1, 1, TALLY_CLASSES - 1) == 0;
}

int main(void)
{
    return answers_come_apart() && mail_waits() && TALLY_NO_READING == UINT32_MAX && tally_process_report(&asleep).answer == 13 ? 0 : 1;
}
