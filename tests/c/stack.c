/* How much stack each call takes: it is made on a stack of its own, painted before, and what is no longer painted was used. Prints a line
   for each call: its name, the bytes, the more of an accepted call on 64 stations all linked, with all classes, and of a refused one, and
   what the header says of its group. To be linked with all names bound, or the loader's own stack is measured with the first call of
   memcpy. */
#define _XOPEN_SOURCE 700
#include "check.h"
#include "tally.h"
#include <string.h>
#include <ucontext.h>

/* A wave on 64 stations all linked has 2 × 2,016 + 1 steps, and where totals are carried back 63 tells follow; one draw is left over. */
enum { SIZE = 1 << 22, PAINT = 0xa5, WAVE = 4033, MOST_DRAWS = WAVE + 63 + 1 };

static _Alignas(64) uint8_t stack[SIZE];
static ucontext_t caller, callee;

/* The bytes of stack that something takes. */
static size_t used(void (*act)(void))
{
    memset(stack, PAINT, SIZE);
    CHECK(getcontext(&callee) == 0);
    callee.uc_stack.ss_sp = stack;
    callee.uc_stack.ss_size = SIZE;
    callee.uc_link = &caller;
    makecontext(&callee, act, 0);
    CHECK(swapcontext(&caller, &callee) == 0);
    size_t painted = 0;
    while (painted < SIZE && stack[painted] == PAINT)
        painted++;
    CHECK(painted > 0);
    return SIZE - painted;
}

/* What the calls are lent. */
static struct tally_map map;
static struct tally_rendezvous net;
static struct tally_kept kept;
static uint8_t carrying, head;
static struct tally_line line;
static struct tally_mail mail;
static struct tally_process process;
static uint8_t bytes[(8 + 4 * TALLY_CLASSES) * TALLY_STATIONS + 16];
static uint8_t lines[TALLY_SHEET_MOST];
static uint16_t draws[MOST_DRAWS];
static volatile uint64_t answer;

static void take_start(void) { answer = tally_process_take_start(&process, 1); }
static void send_start(void) { answer = tally_process_send_start(&process, 2); }
static void take_answer(void) { answer = tally_process_take_answer(&process, (struct tally_aggregate){{1}, {1}}); }
static void send_answer(void) { answer = tally_process_send_answer(&process).answer; }
static void report(void) { answer = tally_process_report(&process).answer; }
static void map_read(void) { answer = tally_map_read(&map, bytes, sizeof bytes); }
static void map_write(void) { answer = tally_map_write(map, bytes, sizeof bytes); }
static void map_accept(void) { answer = tally_map_accept(map); }
static void map_links(void) { answer = tally_map_links(map); }
static void meet_fresh(void) { answer = tally_rendezvous_fresh(&net, &kept, map, TALLY_SUM, carrying); }
static void meet_step(void) { answer = tally_rendezvous_step(&net, &kept, TALLY_WAKE, 0, 1); }
static void meet_tell(void) { answer = tally_rendezvous_step(&net, &kept, TALLY_TELL, net.stations[head].parent, head); }
static void meet_draw(void) { answer = tally_rendezvous_draw(&net, &kept, 9640); }
static void meet_run(void) { answer = tally_rendezvous_run(&net, &kept, draws, MOST_DRAWS).answer; }
static void sheet(void) { answer = tally_sheet(map, &net, &kept, lines, sizeof lines); }
static void mail_fresh(void) { answer = tally_mailbox_fresh(&line, &mail, map, TALLY_SUM); }
static void mail_step(void) { answer = tally_mailbox_step(&line, &mail, TALLY_DELIVERY, 0, 1); }
static void mail_draw(void) { answer = tally_mailbox_draw(&line, &mail, 9640); }
static void mail_run(void) { answer = tally_mailbox_run(&line, &mail, draws, MOST_DRAWS).answer; }

/* The measure sees a deep frame. */
static void deep(void)
{
    volatile uint8_t frame[1 << 16];
    for (size_t i = 0; i < sizeof frame; i++)
        frame[i] = 1;
    answer = frame[0];
}

/* A call where it is accepted, and again where it is refused, since what it is lent was spoiled. */
static void measure(const char *name, int most, void (*call)(void), void (*spoil)(void))
{
    size_t accepted = used(call);
    CHECK(TALLY_NUMBER(answer) == 0);
    spoil();
    size_t refused = used(call);
    CHECK(TALLY_NUMBER(answer) != 0);
    printf("%s %zu %d\n", name, accepted > refused ? accepted : refused, most);
}

static void all_linked(void)
{
    map = (struct tally_map){.k = TALLY_STATIONS, .classes = TALLY_CLASSES, .lot = TALLY_LOT_LIMIT - 1};
    for (unsigned i = 0; i < TALLY_STATIONS; i++) {
        for (unsigned j = 0; j < TALLY_CLASSES; j++)
            map.counts[i][j] = (i + j) % 2 ? TALLY_NO_READING : TALLY_NO_READING - 1;
        map.neighbours[i] = ~((uint64_t)1 << i);
    }
}

static void spoil_map(void) { map.neighbours[TALLY_STATIONS - 1] = 0; }
static void spoil_bytes(void) { bytes[0]++; }
static void spoil_process(void) { process.station.state = TALLY_FINISHED + 1; }
static void spoil_net(void) { net.stations[TALLY_STATIONS - 1].waits = TALLY_STATIONS + 1; }
static void spoil_line(void) { line.stations[TALLY_STATIONS - 1].waits = TALLY_STATIONS + 1; }

static void stations(void)
{
    const struct tally_process asleep = {5, TALLY_CLASSES, 0, TALLY_LEAST, {{{1}, {0}}, 6, 0, 2, TALLY_ASLEEP}},
                               ready = {5, TALLY_CLASSES, 0, TALLY_LEAST, {{{1}, {0}}, 0, 1, 0, TALLY_ACTIVE}};
    process = asleep;
    measure("tally_process_take_start", TALLY_PROCESS_STACK, take_start, spoil_process);
    process = asleep;
    process.station.state = TALLY_ACTIVE;
    measure("tally_process_send_start", TALLY_PROCESS_STACK, send_start, spoil_process);
    process = ready;
    measure("tally_process_take_answer", TALLY_PROCESS_STACK, take_answer, spoil_process);
    process = ready;
    measure("tally_process_send_answer", TALLY_PROCESS_STACK, send_answer, spoil_process);
    process = ready;
    process.own = 0;
    measure("tally_process_report", TALLY_PROCESS_STACK, report, spoil_process);
}

static void maps(void)
{
    all_linked();
    measure("tally_map_write", TALLY_MAP_STACK, map_write, spoil_map);
    measure("tally_map_read", TALLY_MAP_STACK, map_read, spoil_bytes);
    all_linked();
    measure("tally_map_accept", TALLY_MAP_STACK, map_accept, spoil_map);
    all_linked();
    measure("tally_map_links", TALLY_MAP_STACK, map_links, spoil_map);
}

static void fresh_nets(void)
{
    all_linked();
    meet_fresh();
    mail_fresh();
}

static void meetings(void)
{
    all_linked();
    measure("tally_rendezvous_fresh", TALLY_RENDEZVOUS_STACK, meet_fresh, spoil_map);
    fresh_nets();
    measure("tally_rendezvous_step", TALLY_RENDEZVOUS_STACK, meet_step, spoil_net);
    fresh_nets();
    measure("tally_rendezvous_draw", TALLY_RENDEZVOUS_STACK, meet_draw, spoil_net);
    fresh_nets();
    measure("tally_rendezvous_run", TALLY_RENDEZVOUS_STACK, meet_run, spoil_net);
    fresh_nets();
    meet_run();
    measure("tally_sheet", TALLY_SHEET_STACK, sheet, spoil_net);
}

/* Opened for carrying back, after the report: only tells are left. The desk is station 0. */
static void reported(void)
{
    fresh_nets();
    CHECK(tally_rendezvous_run(&net, &kept, draws, WAVE).answer == 0 && net.stations[0].state == TALLY_FINISHED);
    for (head = 1; net.stations[head].parent != 0;)
        head++;
}

static void tells(void)
{
    reported();
    measure("tally_rendezvous_step", TALLY_RENDEZVOUS_STACK, meet_tell, spoil_net);
    reported();
    measure("tally_rendezvous_draw", TALLY_RENDEZVOUS_STACK, meet_draw, spoil_net);
}

static void mail_nets(void)
{
    all_linked();
    measure("tally_mailbox_fresh", TALLY_MAILBOX_STACK, mail_fresh, spoil_map);
    fresh_nets();
    measure("tally_mailbox_step", TALLY_MAILBOX_STACK, mail_step, spoil_line);
    fresh_nets();
    measure("tally_mailbox_draw", TALLY_MAILBOX_STACK, mail_draw, spoil_line);
    fresh_nets();
    measure("tally_mailbox_run", TALLY_MAILBOX_STACK, mail_run, spoil_line);
}

static void nets(void)
{
    for (unsigned i = 0; i < MOST_DRAWS; i++)
        draws[i] = (uint16_t)(40503 * i);
    meetings();
    carrying = 1;
    meetings();
    tells();
    mail_nets();
}

int main(void)
{
    CHECK(used(deep) >= 1 << 16);
    stations();
    maps();
    nets();
    return 0;
}
