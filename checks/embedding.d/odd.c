/* A caller that keeps the rules of blink.h and does all that is odd: numbers at and past their limits, places that are open already,
 * calls of closed seats, rooms that are too small, images that are cut or altered, seats of two maps, a map that is full. Each answer has to be
 * the one that the header promises. */
#include "blink.h"

#include <stdio.h>
#include <stdlib.h>
#include <string.h>

enum { PLACES = 80, PAGES = 4, LENGTH = 32 + 256 * PAGES };

static blink_seat seats[PLACES];
static blink_row rows[64];
static uint64_t value, length;
static int calls, faults;

static void want(const char *call, int32_t answer, int32_t wanted) {
    calls++;
    if (answer == wanted) return;
    faults++;
    fprintf(stderr, "%s: %s, in place of %s\n", call, blink_text(answer), blink_text(wanted));
}

#define WANT(call, wanted) want(#call, call, wanted)
#define HOLDS(fact) want(#fact, (fact) ? BLINK_OK : BLINK_ABSENT, BLINK_OK)

static void versions(void) {
    char wanted[32];
    snprintf(wanted, sizeof wanted, "%d.%d.%d", BLINK_VERSION_MAJOR, BLINK_VERSION_MINOR, BLINK_VERSION_PATCH);
    HOLDS(!strcmp(blink_version(), BLINK_VERSION) && !strcmp(wanted, BLINK_VERSION));
}

/* No code is told as another one, and what is none is told so. */
static void texts(void) {
    int32_t one, two;
    HOLDS(!strcmp(blink_text(-1), blink_text(BLINK_UNSTEADY + 1)));
    for (one = -1; one <= BLINK_UNSTEADY; one++) {
        for (two = -1; two < one; two++) HOLDS(strcmp(blink_text(one), blink_text(two)) != 0);
    }
}

static void limits(void) {
    blink_stats stats = {0, 0, 0, 0, 0, 0, 0};
    int32_t fault;
    WANT(blink_open(1, seats, 1), BLINK_BAD_PAGES);
    WANT(blink_open(3, seats, 1), BLINK_BAD_PAGES);
    WANT(blink_open((1u << 28) + 1, seats, 1), BLINK_BAD_PAGES);
    WANT(blink_open(UINT32_MAX, seats, 1), BLINK_BAD_PAGES);
    WANT(blink_open(PAGES, seats, 0), BLINK_BAD_SEATS);
    WANT(blink_open(PAGES, seats, 65), BLINK_BAD_SEATS);
    /* Of two faults one is told, whichever. */
    fault = blink_open(3, seats, 65);
    HOLDS(fault == BLINK_BAD_PAGES || fault == BLINK_BAD_SEATS);
    HOLDS(!seats[0].at && !seats[64].at);
    WANT(blink_open(0, seats, 1), BLINK_OK);
    WANT(blink_stat(&seats[0], false, &stats), BLINK_OK);
    HOLDS(stats.pages == 1024);
    WANT(blink_close(&seats[0]), BLINK_OK);
    HOLDS(blink_image_length(0) == 32 && blink_image_length(UINT32_MAX) == 32 + 256 * (uint64_t)UINT32_MAX);
}

/* Places that are open are not opened again, nor closed ones among them, and stay as they were. */
static void opened_twice(void) {
    static uint8_t bytes[LENGTH];
    int32_t fault;
    int i;
    WANT(blink_image_of(rows, 0, PAGES, 14, bytes, sizeof bytes, &length), BLINK_OK);
    WANT(blink_open(PAGES, seats, 64), BLINK_OK);
    value = 77;
    WANT(blink_find(&seats[63], 5, &value), BLINK_ABSENT);
    HOLDS(value == 77);
    WANT(blink_insert(&seats[0], 5, 50, &value), BLINK_OK);
    WANT(blink_open(PAGES, seats, 64), BLINK_IN_USE);
    WANT(blink_open_image(bytes, sizeof bytes, seats, 64), BLINK_IN_USE);
    /* Of two faults one is told, whichever. */
    fault = blink_open(3, seats, 2);
    HOLDS(fault == BLINK_BAD_PAGES || fault == BLINK_IN_USE);
    fault = blink_open_image(bytes, LENGTH - 1, seats, 2);
    HOLDS(fault == BLINK_BAD_IMAGE || fault == BLINK_IN_USE);
    for (i = 0; i < 64; i++) WANT(blink_find(&seats[i], 5, &value), BLINK_OK);
    HOLDS(value == 50);
    for (i = 0; i < 63; i++) WANT(blink_close(&seats[i]), BLINK_OK);
    WANT(blink_open(PAGES, seats, 64), BLINK_IN_USE);
    WANT(blink_open_image(bytes, sizeof bytes, seats, 64), BLINK_IN_USE);
    WANT(blink_find(&seats[63], 5, &value), BLINK_OK);
    HOLDS(!seats[0].at && !seats[62].at && value == 50);
    WANT(blink_open_image(bytes, sizeof bytes, seats, 63), BLINK_OK);
    for (i = 0; i < 64; i++) WANT(blink_close(&seats[i]), BLINK_OK);
}

static void closed(void) {
    blink_part part = {0, 0, true, 0};
    blink_stats stats = {1, 2, 3, 4, 5, 6, 7};
    const blink_stats before = stats;
    const uint32_t *place = NULL;
    static uint8_t bytes[LENGTH];
    size_t found = 9;
    uint64_t next = 9;
    bool more = false;
    WANT(blink_try_find(&seats[0], 1, &value), BLINK_CLOSED);
    WANT(blink_try_insert(&seats[0], 1, 1, &value), BLINK_CLOSED);
    WANT(blink_try_delete(&seats[0], 1, &value), BLINK_CLOSED);
    WANT(blink_try_change(&seats[0], 1, 1, 1, &value), BLINK_CLOSED);
    WANT(blink_try_put(&seats[0], 1, 1, &value), BLINK_CLOSED);
    WANT(blink_try_rows(&seats[0], 0, rows, 64, &part), BLINK_CLOSED);
    WANT(blink_try_rows_down(&seats[0], 9, rows, 64, &part), BLINK_CLOSED);
    WANT(blink_try_scan(&seats[0], 0, 9, rows, 64, &part), BLINK_CLOSED);
    WANT(blink_try_scan_down(&seats[0], 9, 0, rows, 64, &part), BLINK_CLOSED);
    WANT(blink_try_range(&seats[0], 0, 9, 1, rows, 64, &next), BLINK_CLOSED);
    WANT(blink_try_range(&seats[0], 9, 0, 1, rows, 64, &next), BLINK_CLOSED);
    HOLDS(next == 9);
    HOLDS(part.count == 0 && part.next == 0 && part.more);
    WANT(blink_scan_to(&seats[0], 5, 4, rows, 64, &found, &next, &more), BLINK_CLOSED);
    WANT(blink_scan_down(&seats[0], 5, rows, 64, &found, &next, &more), BLINK_CLOSED);
    HOLDS(more && found == 0 && next == 5);
    WANT(blink_try_upkeep(&seats[0], 5), BLINK_CLOSED);
    WANT(blink_upkeep(&seats[0], 5), BLINK_CLOSED);
    WANT(blink_upkeep_all(&seats[0]), BLINK_CLOSED);
    WANT(blink_meet(&seats[0], &seats[0]), BLINK_CLOSED);
    WANT(blink_try_meet(&seats[0], &seats[1]), BLINK_CLOSED);
    WANT(blink_close_image(seats, 1, bytes, sizeof bytes, &length), BLINK_CLOSED);
    WANT(blink_same_map(&seats[0], &seats[0]), BLINK_CLOSED);
    WANT(blink_place(&seats[0], &place), BLINK_CLOSED);
    HOLDS(!place);
    WANT(blink_stat(&seats[0], false, &stats), BLINK_CLOSED);
    WANT(blink_stat(&seats[0], true, &stats), BLINK_CLOSED);
    HOLDS(!memcmp(&stats, &before, sizeof stats));
    WANT(blink_save(&seats[0], 14, rows, 64, bytes, sizeof bytes, &length), BLINK_CLOSED);
    WANT(blink_try_close(&seats[0]), BLINK_CLOSED);
    WANT(blink_close(&seats[0]), BLINK_CLOSED);
}

/* A map of two seats that is filled until it has no room. Says how many rows it has: the keys from 0 on, each with itself. */
static uint64_t filled(void) {
    uint64_t key = 0;
    WANT(blink_open(PAGES, seats, 2), BLINK_OK);
    while (key < 1000 && blink_insert(&seats[0], key, key, &value) == BLINK_OK) key++;
    HOLDS(key >= BLINK_LEAF_ROWS && key <= (uint64_t)PAGES * BLINK_LEAF_ROWS);
    WANT(blink_insert(&seats[0], key, key, &value), BLINK_NO_ROOM);
    WANT(blink_find(&seats[1], key, &value), BLINK_ABSENT);
    return key;
}

static void full(uint64_t count) {
    blink_stats stats = {9, 9, 9, 9, 9, 9, 9};
    WANT(blink_insert(&seats[0], 0, 9, &value), BLINK_PRESENT);
    HOLDS(value == 0);
    WANT(blink_change(&seats[0], 0, 0, 5, &value), BLINK_OK);
    WANT(blink_change(&seats[0], 0, 0, 5, &value), BLINK_PRESENT);
    HOLDS(value == 5);
    WANT(blink_change(&seats[0], count + 5, 0, 5, &value), BLINK_ABSENT);
    WANT(blink_put(&seats[0], 0, 5, &value), BLINK_PRESENT);
    HOLDS(value == 5);
    WANT(blink_put(&seats[0], count + 5, 5, &value), BLINK_NO_ROOM);
    WANT(blink_delete(&seats[1], 0, &value), BLINK_OK);
    HOLDS(value == 5);
    WANT(blink_delete(&seats[1], 0, &value), BLINK_ABSENT);
    WANT(blink_upkeep(&seats[0], 64), BLINK_OK);
    WANT(blink_upkeep_all(&seats[0]), BLINK_OK);
    WANT(blink_stat(&seats[0], false, &stats), BLINK_OK);
    HOLDS(stats.pages == PAGES && stats.free_pages == 0 && stats.waiting == 0 && stats.dropped == 0);
    HOLDS(stats.used_pages == 9 && stats.frames == 9 && stats.free_frames == 9);
    WANT(blink_stat(&seats[0], true, &stats), BLINK_OK);
    HOLDS(stats.pages == PAGES && stats.used_pages == PAGES && stats.free_pages == 0 && stats.waiting == 0);
    HOLDS(stats.frames == 2 * PAGES + 8 * 2 && stats.free_frames <= stats.frames - PAGES);
    WANT(blink_same_map(&seats[0], &seats[0]), BLINK_OK);
    WANT(blink_same_map(&seats[0], &seats[1]), BLINK_OK);
    WANT(blink_meet(&seats[0], &seats[0]), BLINK_OK);
    WANT(blink_meet(&seats[0], &seats[1]), BLINK_OK);
}

/* All rows from a key on, read by so much room at a time, are those of the keys up to the other one, each with itself. */
static void scanned(bool down, uint64_t from, uint64_t last, size_t room) {
    uint64_t next = from, key = from;
    size_t found = 0, at;
    bool more = true;
    while (more) {
        rows[room].key = 77;
        WANT(down ? blink_scan_down_to(&seats[0], next, last, rows, room, &found, &next, &more)
                  : blink_scan_to(&seats[0], next, last, rows, room, &found, &next, &more), BLINK_OK);
        HOLDS(rows[room].key == 77 && (!more || found == room));
        for (at = 0; at < found; at++) {
            HOLDS(rows[at].key == key && rows[at].value == key);
            key += down ? UINT64_MAX : 1;
        }
        HOLDS(!more || next == key);
    }
    HOLDS(key == (down ? last - 1 : last + 1));
}

/* The parts of so much room, which are those of the keys 1 to count - 1. */
static void parted(bool down, uint64_t count, size_t room) {
    blink_part part = {0, down ? UINT64_MAX : 0, true, 0};
    uint64_t key = down ? count - 1 : 1, at;
    while (part.more) {
        WANT(down ? blink_rows_down(&seats[0], part.next, rows, room, &part) : blink_rows(&seats[0], part.next, rows, room, &part), BLINK_OK);
        HOLDS(part.count <= room && part.count <= BLINK_LEAF_ROWS);
        for (at = 0; at < part.count; at++) {
            HOLDS(rows[at].key == key && rows[at].value == key);
            key += down ? UINT64_MAX : 1;
        }
    }
    HOLDS(key == (down ? 0 : count));
}

/* Scans of nothing, of less than there is, and up to the ends of the map. */
static void scanned_at_once(uint64_t count) {
    blink_part part = {77, 77, false, 0};
    rows[0].key = 77;
    WANT(blink_try_scan(&seats[0], 6, 5, rows, 64, &part), BLINK_OK);
    HOLDS(part.count == 0 && !part.more);
    WANT(blink_try_scan_down(&seats[0], 5, 6, rows, 64, &part), BLINK_OK);
    HOLDS(part.count == 0 && !part.more);
    WANT(blink_try_scan(&seats[0], 3, 17, rows, 0, &part), BLINK_OK);
    HOLDS(part.count == 0 && part.more && part.next == 3 && rows[0].key == 77);
    WANT(blink_try_scan(&seats[0], 3, 17, rows, 10, &part), BLINK_OK);
    HOLDS(part.count == 10 && part.more && part.next == 13 && rows[0].key == 3 && rows[9].key == 12);
    WANT(blink_try_scan_down(&seats[0], 17, 3, rows, 10, &part), BLINK_OK);
    HOLDS(part.count == 10 && part.more && part.next == 7 && rows[0].key == 17 && rows[9].value == 8);
    WANT(blink_try_scan(&seats[0], 3, UINT64_MAX, rows, 64, &part), BLINK_OK);
    HOLDS(part.count == count - 3 && !part.more);
    WANT(blink_try_scan_down(&seats[0], 17, 0, rows, 64, &part), BLINK_OK);
    HOLDS(part.count == 17 && !part.more && rows[16].key == 1);
}

/* The rows of one moment, which are those of the keys 1 to count - 1. */
static void at_one_moment(uint64_t count) {
    uint64_t found = 77, at;
    WANT(blink_range(&seats[0], 0, UINT64_MAX, 0, rows, 64, &found), BLINK_OK);
    HOLDS(found == count - 1);
    for (at = 0; at < found; at++) HOLDS(rows[at].key == at + 1 && rows[at].value == at + 1);
    WANT(blink_range(&seats[0], 3, 17, 0, rows, 15, &found), BLINK_OK);
    HOLDS(found == 15 && rows[0].key == 3 && rows[14].key == 17);
    rows[0].key = 77;
    WANT(blink_range(&seats[0], 3, 17, 0, rows, 14, &found), BLINK_FEW_ROWS);
    HOLDS(found == 15 && rows[0].key == 77);
    WANT(blink_range(&seats[0], 5, 5, 0, rows, 1, &found), BLINK_OK);
    HOLDS(found == 1 && rows[0].key == 5);
    WANT(blink_range(&seats[0], UINT64_MAX, UINT64_MAX, 0, rows, 0, &found), BLINK_OK);
    HOLDS(found == 0);
    found = 77;
    WANT(blink_range(&seats[0], 6, 5, 0, rows, 0, &found), BLINK_OK);
    HOLDS(found == 0);
}

static void listed(uint64_t count) {
    blink_part part = {UINT64_MAX, UINT64_MAX, true, UINT32_MAX};
    size_t found = 0, room;
    uint64_t next = 0;
    bool more = true;
    at_one_moment(count);
    scanned_at_once(count);
    WANT(blink_rows(&seats[0], 0, rows, 0, &part), BLINK_FEW_ROWS);
    WANT(blink_rows_down(&seats[0], 0, rows, 0, &part), BLINK_FEW_ROWS);
    WANT(blink_scan(&seats[0], 0, rows, 0, &found, &next, &more), BLINK_FEW_ROWS);
    WANT(blink_scan_down(&seats[0], 0, rows, 0, &found, &next, &more), BLINK_FEW_ROWS);
    /* Any page will do as the one that is near. */
    WANT(blink_rows(&seats[0], 0, rows, 1, &part), BLINK_OK);
    HOLDS(part.count == 1 && part.more && part.next == 2 && rows[0].key == 1 && rows[0].value == 1);
    WANT(blink_scan(&seats[0], 0, rows, 64, &found, &next, &more), BLINK_OK);
    HOLDS(found == count - 1 && !more && rows[found - 1].key == count - 1);
    WANT(blink_scan_down(&seats[0], UINT64_MAX, rows, 64, &found, &next, &more), BLINK_OK);
    HOLDS(found == count - 1 && !more && rows[0].key == count - 1 && rows[found - 1].key == 1);
    for (room = 1; room <= BLINK_LEAF_ROWS + 1; room++) {
        scanned(false, 1, count - 1, room);
        scanned(true, count - 1, 1, room);
        scanned(false, 3, 17, room);
        scanned(true, 17, 3, room);
        scanned(false, 5, 5, room);
        scanned(true, 5, 5, room);
        parted(false, count, room);
        parted(true, count, room);
    }
}

/* Nothing behind an end that is at the other side, nor beyond the last key; and the least and the greatest key are listed. */
static void bounded(void) {
    size_t found = 0;
    uint64_t next = 0;
    bool more = true;
    WANT(blink_scan(&seats[0], UINT64_MAX, rows, 64, &found, &next, &more), BLINK_OK);
    HOLDS(found == 0 && !more);
    WANT(blink_scan_down(&seats[0], 0, rows, 64, &found, &next, &more), BLINK_OK);
    HOLDS(found == 0 && !more);
    WANT(blink_scan_to(&seats[0], 6, 5, rows, 64, &found, &next, &more), BLINK_OK);
    HOLDS(found == 0 && !more);
    WANT(blink_scan_down_to(&seats[0], 5, 6, rows, 64, &found, &next, &more), BLINK_OK);
    HOLDS(found == 0 && !more);
    WANT(blink_delete(&seats[0], 1, &value), BLINK_OK);
    WANT(blink_delete(&seats[0], 2, &value), BLINK_OK);
    WANT(blink_put(&seats[0], 0, 7, &value), BLINK_OK);
    WANT(blink_put(&seats[0], UINT64_MAX, 8, &value), BLINK_OK);
    WANT(blink_scan_to(&seats[0], UINT64_MAX, UINT64_MAX, rows, 1, &found, &next, &more), BLINK_OK);
    HOLDS(found == 1 && !more && rows[0].key == UINT64_MAX && rows[0].value == 8);
    WANT(blink_scan_down(&seats[0], UINT64_MAX, rows, 1, &found, &next, &more), BLINK_OK);
    HOLDS(found == 1 && more && rows[0].key == UINT64_MAX && next < UINT64_MAX);
    WANT(blink_scan_down_to(&seats[0], 0, 0, rows, 1, &found, &next, &more), BLINK_OK);
    HOLDS(found == 1 && !more && rows[0].key == 0 && rows[0].value == 7);
    WANT(blink_delete(&seats[0], 0, &value), BLINK_OK);
    WANT(blink_delete(&seats[0], UINT64_MAX, &value), BLINK_OK);
}

/* Images of rows: each refusal, and one that opens with these rows. */
static void saved(void) {
    enum { MANY = 64, ROOM = 32 + 256 * MANY, SPREAD = 5000 };
    static uint8_t bytes[ROOM + 1];
    static blink_row many[SPREAD];
    size_t found = 0, at;
    uint64_t next = 0;
    bool more = true;
    for (at = 0; at < SPREAD; at++) many[at] = (blink_row){3 * at, at};
    WANT(blink_image_of(many, 60, 3, 14, bytes, ROOM, &length), BLINK_BAD_PAGES);
    WANT(blink_image_of(many, 60, MANY, 0, bytes, ROOM, &length), BLINK_BAD_FILL);
    WANT(blink_image_of(many, 60, MANY, 15, bytes, ROOM, &length), BLINK_BAD_FILL);
    WANT(blink_image_of(many, SPREAD, MANY, 1, bytes, ROOM, &length), BLINK_BAD_FILL);
    WANT(blink_image_of(many, SPREAD, MANY, 14, bytes, ROOM, &length), BLINK_NO_ROOM);
    length = 0;
    WANT(blink_image_of(many, 60, MANY, 14, bytes, ROOM - 1, &length), BLINK_FEW_BYTES);
    HOLDS(length == ROOM);
    many[7].key = many[6].key;
    WANT(blink_image_of(many, 60, MANY, 14, bytes, ROOM, &length), BLINK_BAD_ROWS);
    many[7].key = 21;
    HOLDS(bytes[0] == 0 && bytes[ROOM] == 0);
    bytes[ROOM] = 99;
    length = 0;
    WANT(blink_image_of(many, 60, MANY, 10, bytes, ROOM + 1, &length), BLINK_OK);
    HOLDS(length == ROOM && bytes[ROOM] == 99);
    WANT(blink_open_image(bytes, ROOM, seats, 1), BLINK_OK);
    WANT(blink_scan(&seats[0], 0, rows, 64, &found, &next, &more), BLINK_OK);
    HOLDS(found == 60 && !more && rows[0].key == 0 && rows[59].key == 177 && rows[59].value == 59);
    WANT(blink_delete(&seats[0], 0, &value), BLINK_OK);
    WANT(blink_save(&seats[0], 14, rows, 58, bytes, ROOM, &length), BLINK_FEW_ROWS);
    WANT(blink_save(&seats[0], 14, rows, 0, bytes, ROOM, &length), BLINK_FEW_ROWS);
    WANT(blink_save(&seats[0], 0, rows, 59, bytes, ROOM, &length), BLINK_BAD_FILL);
    WANT(blink_save(&seats[0], 14, rows, 59, bytes, ROOM - 1, &length), BLINK_FEW_BYTES);
    WANT(blink_save(&seats[0], 14, rows, 59, bytes, ROOM, &length), BLINK_OK);
    HOLDS(length == ROOM);
    WANT(blink_close(&seats[0]), BLINK_OK);
    WANT(blink_open_image(bytes, ROOM, seats, 1), BLINK_OK);
    WANT(blink_scan_down(&seats[0], UINT64_MAX, rows, 64, &found, &next, &more), BLINK_OK);
    HOLDS(found == 59 && !more && rows[0].key == 177 && rows[58].key == 3 && rows[58].value == 1);
    for (at = 0; at < found; at++) WANT(blink_delete(&seats[0], rows[at].key, &value), BLINK_OK);
    WANT(blink_save(&seats[0], 14, rows, 0, bytes, ROOM, &length), BLINK_OK);
    WANT(blink_close(&seats[0]), BLINK_OK);
}

/* Closes that are refused, one that is not, and opens from what it has written. */
static void images(void) {
    static uint8_t bytes[2 * LENGTH];
    blink_seat other[2] = {BLINK_SEAT_INIT, BLINK_SEAT_INIT}, mixed[2];
    WANT(blink_open(PAGES, other, 2), BLINK_OK);
    mixed[0] = seats[0];
    mixed[1] = other[0];
    WANT(blink_same_map(&mixed[0], &mixed[1]), BLINK_OTHER_MAP);
    WANT(blink_meet(&mixed[0], &mixed[1]), BLINK_OTHER_MAP);
    WANT(blink_close_image(mixed, 2, bytes, sizeof bytes, &length), BLINK_OTHER_MAP);
    WANT(blink_close_image(seats, 1, bytes, sizeof bytes, &length), BLINK_SEATS_OPEN);
    WANT(blink_close_image(seats, 2, bytes, LENGTH - 1, &length), BLINK_FEW_BYTES);
    HOLDS(length == LENGTH);
    bytes[LENGTH] = 99;
    WANT(blink_close_image(seats, 2, bytes, sizeof bytes, &length), BLINK_OK);
    HOLDS(length == LENGTH && bytes[LENGTH] == 99 && !seats[0].at && !seats[1].at);
    WANT(blink_open_image(bytes, 0, seats, 2), BLINK_BAD_IMAGE);
    WANT(blink_open_image(bytes, LENGTH - 1, seats, 2), BLINK_BAD_IMAGE);
    WANT(blink_open_image(bytes, LENGTH + 1, seats, 2), BLINK_BAD_IMAGE);
    WANT(blink_open_image(bytes, LENGTH, seats, 0), BLINK_BAD_SEATS);
    WANT(blink_open_image(bytes, LENGTH, seats, 65), BLINK_BAD_SEATS);
    bytes[0] ^= 1;
    WANT(blink_open_image(bytes, LENGTH, seats, 2), BLINK_BAD_IMAGE);
    bytes[0] ^= 1;
    HOLDS(!seats[0].at);
    WANT(blink_open_image(bytes, LENGTH, seats, 2), BLINK_OK);
    WANT(blink_find(&seats[1], 3, &value), BLINK_OK);
    HOLDS(value == 3);
    WANT(blink_close_image(seats, 2, bytes, sizeof bytes, &length), BLINK_OK);
    WANT(blink_close_image(other, 2, bytes, sizeof bytes, &length), BLINK_OK);
}

/* One seat is closed early: there is no image of the map any more, and the others go on. */
static void closed_early(void) {
    static uint8_t bytes[32 + 256 * 8];
    blink_seat left[2];
    WANT(blink_open(8, seats, 3), BLINK_OK);
    WANT(blink_try_close(&seats[1]), BLINK_OK);
    WANT(blink_close_image(seats, 3, bytes, sizeof bytes, &length), BLINK_CLOSED);
    left[0] = seats[0];
    left[1] = seats[2];
    WANT(blink_close_image(left, 2, bytes, sizeof bytes, &length), BLINK_SEATS_OPEN);
    WANT(blink_insert(&left[0], UINT64_MAX, 1, &value), BLINK_OK);
    WANT(blink_find(&left[1], UINT64_MAX, &value), BLINK_OK);
    WANT(blink_close(&left[0]), BLINK_OK);
    WANT(blink_close(&left[1]), BLINK_OK);
}

int main(void) {
    uint64_t count;
    versions();
    texts();
    limits();
    opened_twice();
    closed();
    count = filled();
    full(count);
    listed(count);
    bounded();
    images();
    saved();
    closed_early();
    printf("%d answers, %d of them wrong\n", calls, faults);
    return faults > 0;
}
