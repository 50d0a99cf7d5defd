/* Ranges at one moment beside writers: moments [RANGES]. Each writer moves 1 from a key to another one and back, by two calls, so what all keys
 * have is at every moment what it was, less at most 1 a writer. A range has rows of such a sum, always; plain scans have others too, and the
 * program says how many. */
#include "blink.h"

#include <pthread.h>
#include <stdio.h>
#include <stdlib.h>

enum { KEYS = 400, WRITERS = 3, AMOUNT = 1000 };
static blink_seat seats[WRITERS + 1];
static bool is_over;

static void must(bool holds, const char *what) {
    if (holds) return;
    fprintf(stderr, "moments: %s\n", what);
    exit(1);
}

static void *write_on(void *given) {
    blink_seat *seat = given;
    uint64_t drawn = 88172645463325252u + (uint64_t)(seat - seats), now;
    while (!__atomic_load_n(&is_over, __ATOMIC_RELAXED)) {
        drawn ^= drawn << 13;
        drawn ^= drawn >> 7;
        drawn ^= drawn << 17;
        must(blink_add(seat, drawn % KEYS, UINT64_MAX, &now) == BLINK_PRESENT, "a key is gone");
        must(blink_add(seat, drawn / KEYS % KEYS, 1, &now) == BLINK_PRESENT, "a key is gone");
    }
    return NULL;
}

/* Whether the rows are all keys with as much as they may have. */
static bool add_up(const blink_row *rows, uint64_t count) {
    uint64_t sum = 0, at;
    if (count != KEYS) return false;
    for (at = 0; at < count; at++) sum += rows[at].value;
    return sum <= KEYS * AMOUNT && sum + WRITERS >= KEYS * AMOUNT;
}

int main(int argc, char **argv) {
    const long wanted = argc > 1 ? atol(argv[1]) : 20000;
    static blink_row rows[KEYS + 1];
    pthread_t threads[WRITERS];
    uint64_t count = 0, next = 0, now = 0;
    long ranges = 0, unsteady = 0, torn = 0, at;
    size_t found = 0;
    bool more = false;
    must(blink_open(4096, seats, WRITERS + 1) == BLINK_OK, "it was not opened");
    for (at = 0; at < KEYS; at++) must(blink_insert(&seats[0], (uint64_t)at, AMOUNT, &now) == BLINK_OK, "a key was not inserted");
    for (at = 0; at < WRITERS; at++) must(!pthread_create(&threads[at], NULL, write_on, &seats[at + 1]), "no thread");
    while (ranges < wanted) {
        int32_t answer = blink_range(&seats[0], 0, UINT64_MAX, 64, rows, KEYS + 1, &count);
        must(answer == BLINK_OK || answer == BLINK_UNSTEADY, blink_text(answer));
        must(answer == BLINK_UNSTEADY || add_up(rows, count), "a range is of no one moment");
        if (answer == BLINK_OK) ranges++;
        else unsteady++;
        must(unsteady < 1000 + 10 * wanted, "ranges are answered too seldom");
        must(blink_scan(&seats[0], 0, rows, KEYS + 1, &found, &next, &more) == BLINK_OK, "a scan was refused");
        torn += !add_up(rows, found);
    }
    __atomic_store_n(&is_over, true, __ATOMIC_RELAXED);
    for (at = 0; at < WRITERS; at++) pthread_join(threads[at], NULL);
    for (at = 0; at <= WRITERS; at++) must(blink_close(&seats[at]) == BLINK_OK, "a seat was not closed");
    printf("moments: %ld ranges of one moment each, %ld unsteady; %ld of as many scans were torn\n", ranges, unsteady, torn);
    return 0;
}
