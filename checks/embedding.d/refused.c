/* A map gets more pages, and fewer, while memory is refused: each allocation in turn, alone and with all behind it. It is as it was then, or,
 * where not even its old size could be had again, its image opens. */
#define PROGRAM "refused"
#include "needs.h"

#include <errno.h>
#include <stdio.h>
#include <stdlib.h>
#include <string.h>

enum { SEATS = 2, PAGES = 64, ROWS = 200, LENGTH = 32 + 256 * 2 * PAGES };

extern void *__libc_malloc(size_t size);
extern void *__libc_calloc(size_t count, size_t size);
extern void *__libc_realloc(void *old, size_t size);

static blink_seat seats[SEATS];
static blink_row rows[ROWS + 1];
static uint8_t bytes[LENGTH];
/* The allocation that is refused, counted from 1, and whether all behind it are; 0 where none is. */
static long wanted, seen;
static bool all_behind;

static bool is_refused(void) {
    if (wanted == 0) return false;
    seen++;
    if (seen != wanted && !(all_behind && seen > wanted)) return false;
    errno = ENOMEM;
    return true;
}

void *malloc(size_t size) { return is_refused() ? NULL : __libc_malloc(size); }
void *calloc(size_t count, size_t size) { return is_refused() ? NULL : __libc_calloc(count, size); }
void *realloc(void *old, size_t size) { return is_refused() ? NULL : __libc_realloc(old, size); }

/* The map has so many pages and all rows, by each seat, and takes one more. */
static void has(uint64_t pages) {
    uint64_t next = 0, value;
    size_t seat, at, found = 0;
    bool more = true;
    for (seat = 0; seat < SEATS; seat++) {
        blink_stats stats = { 0, 0, 0, 0, 0, 0, 0 };
        need(blink_stat(&seats[seat], false, &stats), BLINK_OK, "stat");
        holds(stats.pages == pages, "the pages");
        need(blink_scan(&seats[seat], 0, rows, ROWS + 1, &found, &next, &more), BLINK_OK, "scan");
        holds(!more && found == ROWS, "the rows");
        for (at = 0; at < found; at++) holds(rows[at].key == at && rows[at].value == 3 * at, "each row");
        need(blink_insert(&seats[seat], ROWS, 1, &value), BLINK_OK, "insert");
        need(blink_delete(&seats[seat], ROWS, &value), BLINK_OK, "delete");
    }
}

static void open_filled(void) {
    uint64_t key, there;
    size_t seat;
    for (seat = 0; seat < SEATS; seat++) blink_close(&seats[seat]);
    need(blink_open(PAGES, seats, SEATS), BLINK_OK, "open");
    for (key = 0; key < ROWS; key++) need(blink_insert(&seats[0], key, 3 * key, &there), BLINK_OK, "fill");
}

/* A call while that allocation is refused: its code. */
static int32_t call(bool shrinks, long number, bool behind, uint64_t *length) {
    int32_t answer;
    wanted = number;
    seen = 0;
    all_behind = behind;
    answer = shrinks ? blink_shrink(seats, SEATS, PAGES / 2, rows, ROWS + 1, bytes, LENGTH)
                     : blink_resize(seats, SEATS, 2 * PAGES, bytes, LENGTH, length);
    wanted = 0;
    return answer;
}

/* Refuses each allocation of the call in turn: how many there are. Where it is done all the same, it needs no such allocation. */
static long refuse_each(bool shrinks, bool behind) {
    const uint64_t other = shrinks ? PAGES / 2 : 2 * PAGES;
    long number, lost = 0;
    for (number = 1;; number++) {
        uint64_t length = 0;
        int32_t answer;
        open_filled();
        answer = call(shrinks, number, behind, &length);
        if (answer == BLINK_SEATS_LOST) {
            holds(!shrinks && behind && length == 32 + 256 * PAGES, "an image");
            need(blink_open_image(bytes, (size_t)length, seats, SEATS), BLINK_OK, "the image opens");
            lost++;
        } else if (answer != BLINK_OK) {
            need(answer, BLINK_NO_MEMORY, "refused");
        }
        has(answer == BLINK_OK ? other : PAGES);
        if (seen < number) break;
    }
    if (behind && !shrinks) holds(lost > 0, "some lose the map");
    return number - 1;
}

int main(void) {
    long more = refuse_each(false, false), fewer = refuse_each(true, false);
    long more_behind = refuse_each(false, true), fewer_behind = refuse_each(true, true);
    holds(more > 0 && fewer > 0, "some");
    printf("allocations refused for more pages %ld, for fewer %ld, with all behind them %ld and %ld\n", more, fewer, more_behind, fewer_behind);
    return 0;
}
