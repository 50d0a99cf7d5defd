/* What a call costs from C: calls ROWS ROUNDS. A line for each operation: its name, and the nanoseconds of one, by the round that took least. */
#include "blink.h"

#include <stdio.h>
#include <stdlib.h>
#include <time.h>

enum { FIND, INSERT, PUT, MANY, UP, DOWN, KINDS };
static const char *const names[KINDS] = { "find", "insert", "put", "find_many", "row up", "row down" };
static double best[KINDS];
static uint64_t rows;
static blink_seat seat;

static double now(void) {
    struct timespec time;
    clock_gettime(CLOCK_MONOTONIC, &time);
    return (double)time.tv_sec * 1e9 + (double)time.tv_nsec;
}

static uint64_t key_of(uint64_t n) { return n * 0x9E3779B97F4A7C15u; }

static void need(bool is_so) {
    if (!is_so) {
        fprintf(stderr, "calls: a call is not answered as it should be\n");
        exit(1);
    }
}

static void note(int kind, double begin) {
    double each = (now() - begin) / (double)rows;
    if (best[kind] == 0 || each < best[kind]) best[kind] = each;
}

static void many(uint64_t *keys, uint64_t *values, bool *found) {
    uint64_t hits = 0;
    double begin;
    for (uint64_t n = 0; n < rows; n++) keys[n] = key_of(n * 7919 % rows);
    begin = now();
    need(blink_find_many(&seat, keys, rows, values, found) == BLINK_OK);
    note(MANY, begin);
    for (uint64_t n = 0; n < rows; n++) hits += found[n];
    need(hits == rows);
}

static void lists(bool is_falling) {
    static blink_row buffer[512];
    uint64_t from = is_falling ? UINT64_MAX : 0, seen = 0;
    size_t count = 0;
    bool more = true;
    double begin = now();
    for (; more; seen += count)
        need((is_falling ? blink_scan_down : blink_scan)(&seat, from, buffer, 512, &count, &from, &more) == BLINK_OK);
    note(is_falling ? DOWN : UP, begin);
    need(seen == rows);
}

int main(int count, char **words) {
    uint64_t *keys, *values, value = 0;
    bool *found;
    if (count < 3) return 2;
    rows = strtoull(words[1], NULL, 10);
    keys = malloc(rows * 8);
    values = malloc(rows * 8);
    found = malloc(rows * sizeof *found);
    need(keys && values && found);
    for (long round = atol(words[2]); round > 0; round--) {
        double begin;
        need(blink_open(65536, &seat, 1) == BLINK_OK);
        begin = now();
        for (uint64_t n = 0; n < rows; n++) need(blink_insert(&seat, key_of(n), n, &value) == BLINK_OK);
        note(INSERT, begin);
        begin = now();
        for (uint64_t n = 0; n < rows; n++) need(blink_find(&seat, key_of(n * 7919 % rows), &value) == BLINK_OK);
        note(FIND, begin);
        begin = now();
        for (uint64_t n = 0; n < rows; n++) need(blink_put(&seat, key_of(n * 7919 % rows), n, &value) == BLINK_PRESENT);
        note(PUT, begin);
        many(keys, values, found);
        lists(false);
        lists(true);
        need(blink_close(&seat) == BLINK_OK);
    }
    for (int kind = 0; kind < KINDS; kind++) printf("%s\t%.0f\n", names[kind], best[kind]);
    return 0;
}
