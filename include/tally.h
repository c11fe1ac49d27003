/* The lot tally for C and C++: the functions of libcapi.a, which `rt lib` writes in crates/capi (x86-64 Linux, System V calling convention).
   Link it after the sources, -lcapi. It keeps nothing, writes nothing but what a call is lent without const, and of other code needs only
   memcpy, memmove, memset and memcmp.

   Every call is total: any bytes, numbers or records may be handed over. Its answer has the documents' number in the low byte, 0 where
   nothing is refused, and above it the value or values that come with that number:
       answer = number + 256 * value
   A refusal leaves all that was lent as it was, but for a run that stops with 11: it leaves the net reached. Pointers are never null, and
   point to that many elements, or to one record. What a call writes overlaps nothing else that it is lent. What stands between the fields
   of a record says nothing: a net keeps it, and from a map or a station it need not come back. */
#ifndef TALLY_H
#define TALLY_H
#include <stddef.h>
#include <stdint.h>

#ifdef __cplusplus
extern "C" {
#define TALLY_ASSERT(claim) static_assert(claim, #claim)
#else
#define TALLY_ASSERT(claim) _Static_assert(claim, #claim)
#endif

#define TALLY_NUMBER(answer) ((uint8_t)(answer))
#define TALLY_VALUE(answer) ((answer) >> 8)

enum { TALLY_STATIONS = 64, TALLY_CLASSES = 8 };

/* Bytes of stack that no call takes more than, its arguments included: events of a station, calls on maps, on stations that meet, for a
   sheet, and on stations with mail. */
enum {
    TALLY_PROCESS_STACK = 1280,
    TALLY_MAP_STACK = 16384,
    TALLY_RENDEZVOUS_STACK = 8192,
    TALLY_SHEET_STACK = 16384,
    TALLY_MAILBOX_STACK = 8192
};

/* ---- one station --------------------------------------------------------------------------------------------------------------------

   What a station has gathered, class by class: counts joined to a sum, and how many readings were missing. The record or the net that the station
   stands in says how many classes are in use, 1 to TALLY_CLASSES, and the way in which counts are joined:
       TALLY_SUM        a count gathers a sum of itself, and sums are added;
       TALLY_GREATEST   a count gathers itself, and of two the greater is kept; TALLY_NONE stands for no reading, and gives way to a count;
       TALLY_LEAST      as TALLY_GREATEST, with the lesser;
       TALLY_READINGS   a count gathers 1, and these are added: how many stations have a reading.
   TALLY_NO_READING gathers one missing, and a sum of 0, or TALLY_NONE under TALLY_GREATEST and TALLY_LEAST; any other count gathers none missing.
   Missing numbers are added whichever the way. In form are, in the classes in use, sums below 2^62, under TALLY_GREATEST and TALLY_LEAST
   TALLY_NONE too, and missing numbers up to TALLY_MOST_MISSING. What stands past the classes is not looked at, and every event and step leaves it
   as it was. */
struct tally_aggregate {
    uint64_t sums[TALLY_CLASSES];
    uint8_t missing[TALLY_CLASSES];
};

/* The count of a head whose lamp failed. */
#define TALLY_NO_READING ((uint32_t)4294967295)

/* The ways of joining counts; any other is out of form (11), and out of range (12) for an opening. */
enum { TALLY_SUM, TALLY_GREATEST, TALLY_LEAST, TALLY_READINGS };

/* The greatest or the least of no readings. */
#define TALLY_NONE UINT64_MAX

enum { TALLY_MOST_MISSING = 64 };

/* The states of a station. */
enum { TALLY_ASLEEP, TALLY_ACTIVE, TALLY_FINISHED };

/* A station: what it has gathered, the neighbours still to be started (bit j is station j), parent, waits and state. */
struct tally_station {
    struct tally_aggregate held;
    uint64_t unstarted;
    uint8_t parent;
    uint8_t waits;
    uint8_t state;
};

/* A station with its own number, its class count, the number of the desk and its way of joining counts, as a controller keeps it. */
struct tally_process {
    uint8_t own;
    uint8_t classes;
    uint8_t desk;
    uint8_t way;
    struct tally_station station;
};

TALLY_ASSERT(sizeof(struct tally_aggregate) == 72);
TALLY_ASSERT(offsetof(struct tally_aggregate, missing) == 64);
TALLY_ASSERT(sizeof(struct tally_station) == 88);
TALLY_ASSERT(offsetof(struct tally_station, unstarted) == 72);
TALLY_ASSERT(offsetof(struct tally_station, parent) == 80);
TALLY_ASSERT(offsetof(struct tally_station, waits) == 81);
TALLY_ASSERT(offsetof(struct tally_station, state) == 82);
TALLY_ASSERT(sizeof(struct tally_process) == 96);
TALLY_ASSERT(offsetof(struct tally_process, classes) == 1);
TALLY_ASSERT(offsetof(struct tally_process, desk) == 2);
TALLY_ASSERT(offsetof(struct tally_process, way) == 3);
TALLY_ASSERT(offsetof(struct tally_process, station) == 8);

/* The events: 0, or 11 (station out of form, classes not 1 to TALLY_CLASSES, desk not below TALLY_STATIONS, or no such way), 12 (station number, or a
   sum or missing number of a class in use, out of range, TALLY_NONE among it under TALLY_SUM and TALLY_READINGS), 13 (not allowed), which leave
   the record. An accepted event leaves the station after it. */
uint64_t tally_process_take_start(struct tally_process *p, uint8_t from);
uint64_t tally_process_send_start(struct tally_process *p, uint8_t to);
uint64_t tally_process_take_answer(struct tally_process *p, struct tally_aggregate v);

/* What an answer or a report answers, and what it gives: the sums and missing numbers that the station holds, and zero past the classes in
   use. A refusal gives nothing, zero in all. */
struct tally_given {
    uint64_t answer;
    struct tally_aggregate held;
};

TALLY_ASSERT(sizeof(struct tally_given) == 80);
TALLY_ASSERT(offsetof(struct tally_given, held) == 8);

/* 0 comes with the parent, as the value. The desk reports; the others answer. */
struct tally_given tally_process_send_answer(struct tally_process *p);
struct tally_given tally_process_report(struct tally_process *p);

/* ---- line maps ----------------------------------------------------------------------------------------------------------------------

   k stations, 1 to 64, numbered from 0; how many classes, 1 to TALLY_CLASSES; the desk, one of the stations; the lot, of which only writing
   asks that it is below TALLY_LOT_LIMIT, as every lot that was read is; and of each station the counts, one a class (TALLY_NO_READING among
   them), and the neighbours (bit j is station j). Places k and above, and counts past the classes, are zero after reading, and otherwise
   ignored. */
struct tally_map {
    uint8_t k;
    uint8_t classes;
    uint8_t desk;
    uint64_t lot;
    uint32_t counts[TALLY_STATIONS][TALLY_CLASSES];
    uint64_t neighbours[TALLY_STATIONS];
};

#define TALLY_LOT_LIMIT ((uint64_t)1 << 48)

TALLY_ASSERT(sizeof(struct tally_map) == 2576);
TALLY_ASSERT(offsetof(struct tally_map, classes) == 1);
TALLY_ASSERT(offsetof(struct tally_map, desk) == 2);
TALLY_ASSERT(offsetof(struct tally_map, lot) == 8);
TALLY_ASSERT(offsetof(struct tally_map, counts) == 16);
TALLY_ASSERT(offsetof(struct tally_map, neighbours) == 2064);

/* Reads the last map in the bytes: 0, or 1 to 10, or 19 (desk not below k; after 3), which leave *map; 7 to 10 come with the station. The
   row length says how many classes there are: 2 where it is not one of 12, 16, .. 40. */
uint64_t tally_map_read(struct tally_map *map, const uint8_t *bytes, size_t length);

/* Writes the stored form from the first byte: 0 with the number of bytes filled, or 2 (classes not 1 to TALLY_CLASSES), 3, 19 (desk not
   below k), 7 to 10 with the station, 18 (a lot of TALLY_LOT_LIMIT or more), 15 with the length needed, which leave the bytes. What stands
   past the bytes filled is left. */
uint64_t tally_map_write(struct tally_map map, uint8_t *bytes, size_t length);

/* Whether a map is accepted: 0, or 2, or 3, or 19, or 7 to 10 with the lowest offender. */
uint64_t tally_map_accept(struct tally_map map);

/* The number of links of an accepted map: 0 with it, or 2, or 3, or 19, or 7 to 10 with the station. */
uint64_t tally_map_links(struct tally_map map);

/* ---- stations that meet -------------------------------------------------------------------------------------------------------------

   What a net is opened with: its numbers of stations and of classes, its desk, and its way of joining counts. */
struct tally_config {
    uint8_t k;
    uint8_t classes;
    uint8_t desk;
    uint8_t way;
};

/* A net is lent in two parts. Its stations, and whether totals are carried back to them: 0 without, 1 with; another number is out of form. */
struct tally_rendezvous {
    struct tally_config config;
    uint8_t carrying;
    struct tally_station stations[TALLY_STATIONS];
};

/* And the totals that its stations keep, zero in a fresh net. Without carrying back they are neither looked at nor touched. */
struct tally_kept {
    struct tally_aggregate totals[TALLY_STATIONS];
};

/* The state of a station that was told the total; with carrying back alone. */
enum { TALLY_TOLD = 3 };

/* What a run answers, and the steps made. Number 0 comes with the value 1 where the net reached is at rest, and else 0; number 11 always
   with 0, as a run that stops with it is not called at rest. */
struct tally_run {
    uint64_t answer;
    uint64_t steps;
};

TALLY_ASSERT(sizeof(struct tally_config) == 4);
TALLY_ASSERT(offsetof(struct tally_config, classes) == 1);
TALLY_ASSERT(offsetof(struct tally_config, desk) == 2);
TALLY_ASSERT(offsetof(struct tally_config, way) == 3);
TALLY_ASSERT(sizeof(struct tally_rendezvous) == 5640);
TALLY_ASSERT(offsetof(struct tally_rendezvous, carrying) == 4);
TALLY_ASSERT(offsetof(struct tally_rendezvous, stations) == 8);
TALLY_ASSERT(sizeof(struct tally_kept) == 4608);
TALLY_ASSERT(sizeof(struct tally_run) == 16);
TALLY_ASSERT(offsetof(struct tally_run, steps) == 8);

/* The kinds of step. A report is from the desk to the desk. With carrying back a tell goes, after the report, from a station that knows the
   total (the desk, or one that was told) to a finished station but the desk whose parent it is: that one comes to TALLY_TOLD, and keeps the
   total, zero past the classes in use. Without, TALLY_TELL is out of range (12) and TALLY_TOLD out of form (11). With it, in form are told
   stations but the desk that wait for nothing, and kept totals within the bounds of sums and missing numbers. */
enum { TALLY_WAKE = 1, TALLY_PASS, TALLY_ANSWER, TALLY_REPORT, TALLY_TELL };

/* The step that an accepted step or draw made, in either kind of net. */
#define TALLY_KIND(answer) ((uint8_t)((answer) >> 8))
#define TALLY_SENDER(answer) ((uint8_t)((answer) >> 16))
#define TALLY_RECEIVER(answer) ((uint8_t)((answer) >> 24))

/* Opens the fresh net of a map, to join counts the way, and for carrying back unless carrying is 0: 0, or 2, or 3, or 19, or 7 to 10 with the
   station, then 12 (no such way), which leave *net and *kept. Past k and past the classes it is zero. */
uint64_t tally_rendezvous_fresh(struct tally_rendezvous *net, struct tally_kept *kept, struct tally_map map, uint8_t way, uint8_t carrying);

/* One step: 0 with the step made (kind, sender, receiver), or 11 (classes not 1 to TALLY_CLASSES, a desk not below k, or no such
   way, among it), 12, 13, which leave *net and *kept. */
uint64_t tally_rendezvous_step(struct tally_rendezvous *net, struct tally_kept *kept, uint8_t kind, uint8_t sender, uint8_t receiver);

/* The step that draw d picks: 0 with the step made, or 11, or 14 (nothing allowed), which leave *net and *kept. */
uint64_t tally_rendezvous_draw(struct tally_rendezvous *net, struct tally_kept *kept, uint16_t d);

/* The steps that the draws pick, until they are used up or the net is at rest. A run that starts outside the form or leaves it stops with
   11, and has left in *net and *kept the net that it reached. */
struct tally_run tally_rendezvous_run(struct tally_rendezvous *net, struct tally_kept *kept, const uint16_t *draws, size_t count);

/* ---- the grower sheet ----------------------------------------------------------------------------------------------------------------

   A sheet of one reported lot, in lines of exactly 40 bytes and a line feed, numbers right-aligned, blanks in all other columns: the lot in
   columns 1 to 15; then for each station, and in it for each class, rising, the station (2 columns), a blank, the class counted from 1 (1), a
   blank, the count (10), ten hyphens where it is TALLY_NO_READING; last for each class the letter T, two blanks, the class (1), a blank, the
   desk's sum (12), a blank, its missing number (2). */
enum { TALLY_SHEET_LINE = 41 };

/* The bytes of a map's sheet, and the most that one has. */
#define TALLY_SHEET_LENGTH(k, classes) ((size_t)TALLY_SHEET_LINE * (1 + (size_t)(k) * (classes) + (classes)))
enum { TALLY_SHEET_MOST = TALLY_SHEET_LINE * (1 + TALLY_STATIONS * TALLY_CLASSES + TALLY_CLASSES) };

TALLY_ASSERT(TALLY_SHEET_MOST == 21361);

/* Lays the sheet of a map and its net out, from the first byte: 0 with the number of bytes filled, or the numbers of tally_map_write but 15 for
   the map, 11 for the net, 20 (the net's k, class count or desk is not the map's, or its way not TALLY_SUM), 21 (the desk is not finished, or a sum
   has more than 12 digits), 15 with the length needed, which leave the bytes. What stands past the sheet is left. */
uint64_t tally_sheet(struct tally_map map, const struct tally_rendezvous *net, const struct tally_kept *kept, uint8_t *bytes, size_t length);

/* ---- stations with mail -------------------------------------------------------------------------------------------------------------

   A net is lent in two parts. Its stations; their sets hold the neighbours, and stay. */
struct tally_line {
    struct tally_config config;
    struct tally_station stations[TALLY_STATIONS];
};

/* And its mailboxes. The one from s to r holds a start where bit r of starts[s] is set, whatever answers[s] has there; else, where bit r of
   answers[s] is set, an answer, which brings for each class j the sum sums[j][s][r] and the missing number in byte j of missing[s][r], the
   lowest byte being that of class 0; else nothing.

   Any words are mailboxes; the bytes and the sums past the classes in use are not looked at. Emptying a mailbox clears its bit in both
   sets; posting sets its bit in one set and clears it in the other; only an answer that is posted writes its missing word and its sums, all
   TALLY_CLASSES of them, with zero past the classes in use. Beside no answer none of these words is looked at. Mailboxes past k, and of a
   station to itself, are neither looked at nor touched, but by an opening, which fills all words. */
struct tally_mail {
    uint64_t starts[TALLY_STATIONS];
    uint64_t answers[TALLY_STATIONS];
    uint64_t missing[TALLY_STATIONS][TALLY_STATIONS];
    uint64_t sums[TALLY_CLASSES][TALLY_STATIONS][TALLY_STATIONS];
};

/* Whether a start, or an answer, waits from s to r (both below TALLY_STATIONS). */
#define TALLY_START_WAITS(mail, s, r) ((mail)->starts[s] >> (r) & 1)
#define TALLY_ANSWER_WAITS(mail, s, r) (((mail)->answers[s] & ~(mail)->starts[s]) >> (r) & 1)

/* The missing number, in class j, of an answer that waits from s to r; its sum is sums[j][s][r]. */
#define TALLY_ANSWER_MISSING(mail, s, r, j) ((uint8_t)((mail)->missing[s][r] >> 8 * (j)))

TALLY_ASSERT(sizeof(struct tally_line) == 5640);
TALLY_ASSERT(offsetof(struct tally_line, stations) == 8);
TALLY_ASSERT(sizeof(struct tally_mail) == 295936);
TALLY_ASSERT(offsetof(struct tally_mail, answers) == 512);
TALLY_ASSERT(offsetof(struct tally_mail, missing) == 1024);
TALLY_ASSERT(offsetof(struct tally_mail, sums) == 33792);

/* The kinds of step with mail. A report is from the desk to the desk. */
enum { TALLY_DELIVERY = 1, TALLY_MAIL_REPORT };

/* Opens the fresh net of a map, to join counts the way: 0, or 2, or 3, or 19, or 7 to 10 with the station, then 12 (no such way), which leave
   *line and *mail. All words are zero then, but for the starts of the desk, which wait for its neighbours. */
uint64_t tally_mailbox_fresh(struct tally_line *line, struct tally_mail *mail, struct tally_map map, uint8_t way);

/* A step, a draw and a run answer, and leave what they are lent, as those of stations that meet. An answer that waits with a sum of 2^62 or
   more, but for TALLY_NONE under TALLY_GREATEST and TALLY_LEAST, or with a missing number above TALLY_MOST_MISSING, in a class in use, is out of form
   (11). */
uint64_t tally_mailbox_step(struct tally_line *line, struct tally_mail *mail, uint8_t kind, uint8_t sender, uint8_t receiver);
uint64_t tally_mailbox_draw(struct tally_line *line, struct tally_mail *mail, uint16_t d);
struct tally_run tally_mailbox_run(struct tally_line *line, struct tally_mail *mail, const uint16_t *draws, size_t count);

#undef TALLY_ASSERT
#ifdef __cplusplus
}
#endif
#endif
