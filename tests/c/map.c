/* Maps of one class and of several, with long lots and with any desk, written, read back, counted and refused: the values that come with
   the numbers, and what is left. */
#include "check.h"
#include "triangle.h"
#include <string.h>

/* Of document 01's triangle. */
static const uint8_t check_word[4] = {4294180746u & 255, 4294180746u >> 8 & 255, 4294180746u >> 16 & 255, 4294180746u >> 24};

static int same(const struct tally_map *a, const struct tally_map *b)
{
    return a->k == b->k && a->classes == b->classes && a->desk == b->desk && a->lot == b->lot
        && memcmp(a->counts, b->counts, sizeof a->counts) == 0 && memcmp(a->neighbours, b->neighbours, sizeof a->neighbours) == 0;
}

static void store(void)
{
    uint8_t bytes[64];
    memset(bytes, 0xa5, sizeof bytes);
    uint64_t answer = tally_map_write(triangle, bytes, 51);
    CHECK(TALLY_NUMBER(answer) == 15 && TALLY_VALUE(answer) == 52);
    CHECK(bytes[0] == 0xa5);
    answer = tally_map_write(triangle, bytes, sizeof bytes);
    CHECK(TALLY_NUMBER(answer) == 0 && TALLY_VALUE(answer) == 52);
    CHECK(memcmp(bytes + 48, check_word, 4) == 0);
    CHECK(bytes[52] == 0xa5);

    struct tally_map map = {1, 2, 6, 3, {{4}}, {5}};
    CHECK(tally_map_read(&map, bytes, 15) == 1);
    CHECK(tally_map_read(&map, bytes + 1, 51) == 5);
    bytes[0]++;
    CHECK(tally_map_read(&map, bytes, 52) == 6);
    CHECK(map.k == 1 && map.classes == 2 && map.desk == 6 && map.lot == 3 && map.counts[0][0] == 4 && map.neighbours[0] == 5);
    bytes[0]--;
    CHECK(tally_map_read(&map, bytes, 52) == 0);
    CHECK(same(&map, &triangle));
}

/* Two counts a station, with something past them: writing leaves it out, and reading gives zero there. */
static void classes(void)
{
    uint8_t bytes[64];
    struct tally_map map = two_classes;
    map.counts[0][2] = map.counts[2][TALLY_CLASSES - 1] = map.counts[3][0] = 9;
    CHECK(tally_map_write(map, bytes, 63) == 15 + 256 * 64);
    CHECK(tally_map_write(map, bytes, 64) == 256 * 64);
    const uint8_t row[16] = {7, 0, 0, 0, 255, 255, 255, 255, 5}, numbers[8] = {3, 0, 16, 0, 48, 0, 0, 0};
    CHECK(memcmp(bytes + 16, row, sizeof row) == 0 && memcmp(bytes + 48, numbers, sizeof numbers) == 0);
    CHECK(tally_map_read(&map, bytes, 64) == 0);
    CHECK(same(&map, &two_classes));

    bytes[50] = 14;
    CHECK(tally_map_read(&map, bytes, 64) == 2);
    bytes[50] = 44;
    CHECK(tally_map_read(&map, bytes, 64) == 2);
    bytes[50] = 12;
    CHECK(tally_map_read(&map, bytes, 64) == 4);
    CHECK(same(&map, &two_classes));
}

/* The upper part of a long lot stands beside the distance; a longer one is not written, and no other call looks at it. */
static void lots(void)
{
    uint8_t bytes[52];
    struct tally_map map = triangle, back;
    map.lot = 0x543210fedcba;
    CHECK(tally_map_write(map, bytes, sizeof bytes) == 256 * 52);
    const uint8_t halves[8] = {36, 0, 0x32, 0x54, 0xba, 0xdc, 0xfe, 0x10};
    CHECK(memcmp(bytes + 40, halves, sizeof halves) == 0);
    CHECK(tally_map_read(&back, bytes, sizeof bytes) == 0 && same(&back, &map));

    memset(bytes, 0xa5, sizeof bytes);
    map.lot = TALLY_LOT_LIMIT;
    CHECK(tally_map_accept(map) == 0 && tally_map_links(map) == 256 * 3);
    CHECK(tally_map_write(map, bytes, 51) == 18 && tally_map_write(map, bytes, sizeof bytes) == 18);
    CHECK(bytes[0] == 0xa5);
}

/* The desk stands above k in the trailer; one that is no station is neither written nor read. */
static void desks(void)
{
    uint8_t bytes[52];
    struct tally_map back;
    CHECK(tally_map_write(desk_at_2, bytes, sizeof bytes) == 256 * 52);
    const uint8_t numbers[4] = {3, 2, 12, 0};
    CHECK(memcmp(bytes + 36, numbers, sizeof numbers) == 0);
    CHECK(tally_map_read(&back, bytes, sizeof bytes) == 0 && same(&back, &desk_at_2));
    bytes[37] = 3;
    CHECK(tally_map_read(&back, bytes, sizeof bytes) == 19 && same(&back, &desk_at_2));
    bytes[36] = 0;
    CHECK(tally_map_read(&back, bytes, sizeof bytes) == 3);
}

/* Every call on a map handed over refuses it alike. */
static void refused(struct tally_map map, uint64_t number, uint64_t station)
{
    uint8_t bytes[1] = {0xa5};
    CHECK(tally_map_accept(map) == number + 256 * station);
    CHECK(tally_map_links(map) == number + 256 * station);
    CHECK(tally_map_write(map, bytes, sizeof bytes) == number + 256 * station);
    CHECK(bytes[0] == 0xa5);
}

int main(void)
{
    store();
    classes();
    lots();
    desks();
    CHECK(tally_map_accept(triangle) == 0);
    CHECK(tally_map_links(triangle) == 256 * 3);
    refused((struct tally_map){3, 0, 0, 0, {{0}}, {6, 5, 3}}, 2, 0);
    refused((struct tally_map){0, TALLY_CLASSES + 1, 0, 0, {{0}}, {0}}, 2, 0);
    refused((struct tally_map){65, 255, 0, 0, {{0}}, {0}}, 2, 0);
    refused((struct tally_map){0, 1, 0, 0, {{0}}, {0}}, 3, 0);
    refused((struct tally_map){65, TALLY_CLASSES, 0, 0, {{0}}, {0}}, 3, 0);
    refused((struct tally_map){65, TALLY_CLASSES, 65, 0, {{0}}, {0}}, 3, 0);
    refused((struct tally_map){3, 1, 3, 0, {{0}}, {6, 5, 3}}, 19, 0);
    refused((struct tally_map){2, 1, 255, 0, {{0}}, {2, 4 | 1}}, 19, 0);
    refused((struct tally_map){2, 1, 0, 0, {{0}}, {2, 4 | 1}}, 7, 1);
    refused((struct tally_map){1, 1, 0, 0, {{0}}, {1}}, 8, 0);
    refused((struct tally_map){3, 1, 0, 0, {{0}}, {2, 1, 2}}, 9, 2);
    refused((struct tally_map){2, 1, 0, UINT64_MAX, {{0}}, {0, 0}}, 10, 1);
    refused((struct tally_map){2, 1, 1, 0, {{0}}, {0, 0}}, 10, 0);
    return 0;
}
