/* Maps that get more pages and fewer, by all their seats, and what is refused: then the map is as it was. */
#define PROGRAM "resizing"
#include "needs.h"

#include <stdio.h>
#include <stdlib.h>

enum { SEATS = 3, PAGES = 64, LARGE = 4096, ROWS = 20000, LEFT = 100, LENGTH = 32 + 256 * LARGE };

static blink_seat seats[SEATS];
static blink_row rows[ROWS + 1];
static uint8_t bytes[LENGTH];

/* The map has so many pages, and so many rows from a key on, each with three times its key, by each seat. */
static void has(uint64_t pages, uint64_t from, uint64_t count) {
    size_t seat, at, found = 0;
    for (seat = 0; seat < SEATS; seat++) {
        blink_stats stats = { 0, 0, 0, 0, 0, 0, 0 };
        uint64_t next = 0;
        bool more = true;
        need(blink_stat(&seats[seat], false, &stats), BLINK_OK, "stat");
        holds(stats.pages == pages, "so many pages");
        need(blink_scan(&seats[seat], 0, rows, ROWS + 1, &found, &next, &more), BLINK_OK, "scan");
        holds(!more && found == count, "so many rows");
        for (at = 0; at < found; at++) holds(rows[at].key == from + at && rows[at].value == 3 * rows[at].key, "the rows");
    }
}

/* Inserts rows from a key on until the map is short of pages, or all are there: where it stops. */
static uint64_t fill(uint64_t key) {
    bool is_short = false;
    uint64_t there;
    for (; key < ROWS; key++) {
        need(blink_is_short(&seats[key % SEATS], &is_short), BLINK_OK, "is_short");
        if (is_short) return key;
        need(blink_insert(&seats[key % SEATS], key, 3 * key, &there), BLINK_OK, "insert");
    }
    return key;
}

/* What is refused of a map of so many pages with so many rows. */
static void refuses(uint32_t pages, uint64_t count) {
    blink_seat closed[2] = { BLINK_SEAT_INIT, BLINK_SEAT_INIT };
    uint64_t length = 0;
    need(blink_resize(seats, SEATS, pages - 1, bytes, LENGTH, &length), BLINK_BAD_PAGES, "fewer by resize");
    need(blink_resize(seats, SEATS, ((uint32_t)1 << 28) + 1, bytes, LENGTH, &length), BLINK_BAD_PAGES, "too many");
    need(blink_resize(seats, SEATS - 1, 2 * pages, bytes, LENGTH, &length), BLINK_SEATS_OPEN, "a seat is missing");
    need(blink_resize(seats, SEATS, 2 * pages, bytes, 32 + 256 * pages - 1, &length), BLINK_FEW_BYTES, "a byte too few");
    need(blink_shrink(seats, SEATS, 3, rows, ROWS + 1, bytes, LENGTH), BLINK_BAD_PAGES, "three pages");
    need(blink_shrink(seats, 0, pages, rows, ROWS + 1, bytes, LENGTH), BLINK_BAD_SEATS, "no seat");
    need(blink_shrink(closed, 2, pages, rows, ROWS + 1, bytes, LENGTH), BLINK_CLOSED, "closed seats");
    need(blink_shrink(seats, SEATS, pages, rows, (size_t)count - 1, bytes, LENGTH), BLINK_FEW_ROWS, "a row too few");
    need(blink_shrink(seats, SEATS, 8, rows, ROWS + 1, bytes, LENGTH), BLINK_NO_ROOM, "eight pages");
    need(blink_shrink(seats, SEATS, pages, rows, ROWS + 1, bytes, 32 + 256 * pages - 1), BLINK_FEW_BYTES, "a byte too few");
    has(pages, ROWS - count, count);
}

int main(void) {
    bool is_sparse = false, is_short = true;
    uint32_t pages = PAGES;
    uint64_t key, gone, length = 0, growths = 0, shrinks = 0;
    need(blink_open(pages, seats, SEATS), BLINK_OK, "open");
    while ((key = fill(growths ? key : 0)) < ROWS) {
        pages *= 2;
        need(blink_resize(seats, SEATS, pages, bytes, LENGTH, &length), BLINK_OK, "resize");
        has(pages, 0, key);
        growths++;
    }
    has(pages, 0, ROWS);
    refuses(pages, ROWS);
    for (key = 0; key < ROWS - LEFT; key++) {
        need(blink_delete(&seats[key % SEATS], key, &gone), BLINK_OK, "delete");
        need(blink_is_sparse(&seats[key % SEATS], &is_sparse), BLINK_OK, "is_sparse");
        if (!is_sparse) continue;
        pages /= 2;
        need(blink_shrink(seats, SEATS, pages, rows, ROWS + 1, bytes, LENGTH), BLINK_OK, "shrink");
        has(pages, key + 1, ROWS - key - 1);
        need(blink_is_short(&seats[0], &is_short), BLINK_OK, "is_short");
        holds(!is_short, "a map that has shrunk is not short");
        shrinks++;
    }
    refuses(pages, LEFT);
    has(pages, ROWS - LEFT, LEFT);
    for (key = 0; key < SEATS; key++) need(blink_close(&seats[key]), BLINK_OK, "close");
    need(blink_is_sparse(&seats[0], &is_sparse), BLINK_CLOSED, "is_sparse of a closed seat");
    printf("%d rows, %d growths to %d pages, %d shrinks\n", ROWS, (int)growths, (int)(PAGES << growths), (int)shrinks);
    return 0;
}
