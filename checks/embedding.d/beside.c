/* The calls that blink.h makes of others: random steps beside a sorted array, edges by hand, and sums by four threads: beside [STEPS]. */
#include "blink.h"

#include <pthread.h>
#include <stdio.h>
#include <stdlib.h>

#define CHECK(what)                                                                     \
    do {                                                                                \
        if (!(what)) {                                                                  \
            fprintf(stderr, "%s:%d: %s\n", __FILE__, __LINE__, #what);                  \
            exit(1);                                                                    \
        }                                                                               \
    } while (0)

enum { MOST = 4000, MANY = 64, THREADS = 4, TIMES = 20000, KEYS = 5 };
static blink_row model[MOST];
static size_t count;
static uint64_t drawn = 88172645463325252u;

static uint64_t draw(void) {
    drawn ^= drawn << 13;
    drawn ^= drawn >> 7;
    drawn ^= drawn << 17;
    return drawn;
}

/* How many rows of the array have lesser keys. */
static size_t place_of(uint64_t key) {
    size_t low = 0, high = count;
    while (low < high) {
        size_t middle = low + (high - low) / 2;
        if (model[middle].key < key) low = middle + 1;
        else high = middle;
    }
    return low;
}

/* The array's row of the key, or null. */
static blink_row *row_of(uint64_t key) {
    size_t at = place_of(key);
    return at < count && model[at].key == key ? &model[at] : NULL;
}

static void model_put(uint64_t key, uint64_t value) {
    size_t at = place_of(key), i;
    if (!row_of(key)) {
        for (i = count++; i > at; i--) model[i] = model[i - 1];
    }
    model[at].key = key;
    model[at].value = value;
}

static void model_delete(uint64_t key) {
    size_t at = place_of(key);
    if (!row_of(key)) return;
    for (count--; at < count; at++) model[at] = model[at + 1];
}

/* A call of one row answers that of the array, or that there is none, and then leaves the caller's as it was. */
static void same_row(int32_t answer, blink_row row, const blink_row *wanted) {
    CHECK(answer == (wanted ? BLINK_OK : BLINK_ABSENT));
    CHECK(row.key == (wanted ? wanted->key : 3) && row.value == (wanted ? wanted->value : 4));
}

/* The rows beside a key are those of the array, and so are the ends, and how many rows there are between two keys. */
static void looks_about(blink_seat *seat, uint64_t key) {
    blink_row first = { 3, 4 }, last = first, next = first, previous = first;
    size_t below = place_of(key), above = below + (row_of(key) ? 1 : 0), behind;
    uint64_t end = draw() % 2 ? key + draw() % 200 : draw(), rows = 9;
    same_row(blink_first(seat, &first), first, count ? &model[0] : NULL);
    same_row(blink_last(seat, &last), last, count ? &model[count - 1] : NULL);
    same_row(blink_next(seat, key, &next), next, above < count ? &model[above] : NULL);
    same_row(blink_previous(seat, key, &previous), previous, below ? &model[below - 1] : NULL);
    behind = place_of(end) + (row_of(end) ? 1 : 0);
    CHECK(blink_count(seat, key, end, &rows) == BLINK_OK && rows == (behind > below ? behind - below : 0));
    CHECK(blink_count(seat, 0, UINT64_MAX, &rows) == BLINK_OK && rows == count);
}

/* All rows from a key downwards are those of the array. */
static void falls_along(blink_seat *seat, uint64_t from, size_t room) {
    blink_row rows[256];
    size_t left = place_of(from) + (row_of(from) ? 1 : 0), found, i;
    uint64_t next = from;
    bool more = true;
    while (more) {
        CHECK(blink_scan_down(seat, next, rows, room, &found, &next, &more) == BLINK_OK);
        for (i = 0; i < found; i++) {
            CHECK(left > 0);
            left--;
            CHECK(rows[i].key == model[left].key && rows[i].value == model[left].value);
        }
    }
    CHECK(left == 0);
}

static uint64_t draw_key(int kind) {
    if (kind == 0) return draw() % 500;
    if (kind == 1) return draw();
    /* Clusters far from one another. */
    return (draw() % 5) * 0x2000000000000000u + draw() % 300;
}

static void finds_many(blink_seat *seat, int kind) {
    uint64_t keys[MANY], values[MANY];
    bool found[MANY];
    size_t i, some = draw() % (MANY + 1);
    for (i = 0; i < some; i++) keys[i] = draw_key(kind);
    CHECK(blink_find_many(seat, keys, some, values, found) == BLINK_OK);
    for (i = 0; i < some; i++) {
        const blink_row *row = row_of(keys[i]);
        CHECK(found[i] == (row != NULL) && values[i] == (row ? row->value : 0));
    }
}

/* Makes three times the value of it, and counts how often it is called. */
static uint64_t triple(uint64_t value, void *times) {
    ++*(int *)times;
    return value * 3;
}

/* One call that writes a key, there and in the array. */
static void writes(blink_seat *seat, uint64_t key, uint64_t value, uint64_t what) {
    const blink_row *row = row_of(key);
    uint64_t was = row ? row->value : 7, old = 7, now = 8;
    int times = 0;
    if (what < 2) {
        CHECK(blink_put(seat, key, value, &old) == (row ? BLINK_PRESENT : BLINK_OK) && old == was);
        model_put(key, value);
    } else if (what == 2) {
        CHECK(blink_add(seat, key, value, &now) == (row ? BLINK_PRESENT : BLINK_OK));
        CHECK(now == (row ? was + value : value));
        model_put(key, now);
    } else if (what == 3) {
        CHECK(blink_update(seat, key, triple, &times, &old, &now) == (row ? BLINK_OK : BLINK_ABSENT));
        CHECK(old == was && now == (row ? was * 3 : 8) && times == (row ? 1 : 0));
        if (row) model_put(key, now);
    } else {
        CHECK(blink_delete(seat, key, &old) == (row ? BLINK_OK : BLINK_ABSENT) && old == was);
        model_delete(key);
    }
}

static void beside_an_array(int kind, int steps) {
    blink_seat seat = BLINK_SEAT_INIT;
    int step;
    count = 0;
    CHECK(blink_open(4096, &seat, 1) == BLINK_OK);
    looks_about(&seat, 5);
    for (step = 0; step < steps; step++) {
        uint64_t key = draw_key(kind), value = draw(), what = draw() % 8;
        if (what < 6) writes(&seat, key, value, count < MOST ? what : 5);
        else if (what == 6) looks_about(&seat, key);
        else if (step % 4 == 0) falls_along(&seat, key, 1 + draw() % 256);
        else finds_many(&seat, kind);
    }
    falls_along(&seat, UINT64_MAX, 256);
    CHECK(blink_close(&seat) == BLINK_OK);
}

static void edges(void) {
    blink_seat seat = BLINK_SEAT_INIT;
    blink_row row = { 3, 4 };
    uint64_t old = 9, now = 9;
    int times = 0;
    CHECK(blink_open(16, &seat, 1) == BLINK_OK);
    CHECK(blink_first(&seat, &row) == BLINK_ABSENT && blink_last(&seat, &row) == BLINK_ABSENT && row.key == 3);
    CHECK(blink_next(&seat, 0, &row) == BLINK_ABSENT && blink_previous(&seat, UINT64_MAX, &row) == BLINK_ABSENT);
    CHECK(blink_put(&seat, 0, 1, &old) == BLINK_OK && old == 9);
    CHECK(blink_put(&seat, 0, 2, &old) == BLINK_PRESENT && old == 1);
    CHECK(blink_put(&seat, UINT64_MAX, 3, &old) == BLINK_OK);
    CHECK(blink_last(&seat, &row) == BLINK_OK && row.key == UINT64_MAX && row.value == 3);
    CHECK(blink_first(&seat, &row) == BLINK_OK && row.key == 0 && row.value == 2);
    CHECK(blink_next(&seat, 0, &row) == BLINK_OK && row.key == UINT64_MAX);
    CHECK(blink_next(&seat, UINT64_MAX - 1, &row) == BLINK_OK && row.key == UINT64_MAX);
    CHECK(blink_previous(&seat, UINT64_MAX, &row) == BLINK_OK && row.key == 0);
    CHECK(blink_previous(&seat, 1, &row) == BLINK_OK && row.key == 0);
    CHECK(blink_next(&seat, UINT64_MAX, &row) == BLINK_ABSENT && blink_previous(&seat, 0, &row) == BLINK_ABSENT);
    CHECK(blink_count(&seat, UINT64_MAX, UINT64_MAX, &now) == BLINK_OK && now == 1);
    CHECK(blink_count(&seat, 0, 0, &now) == BLINK_OK && now == 1);
    CHECK(blink_count(&seat, 1, UINT64_MAX - 1, &now) == BLINK_OK && now == 0);
    CHECK(blink_count(&seat, UINT64_MAX, 0, &now) == BLINK_OK && now == 0);
    /* Sums go round at 2^64. */
    CHECK(blink_add(&seat, 0, UINT64_MAX, &now) == BLINK_PRESENT && now == 1);
    CHECK(blink_add(&seat, 0, UINT64_MAX, &now) == BLINK_PRESENT && now == 0);
    CHECK(blink_add(&seat, 0, 0, &now) == BLINK_PRESENT && now == 0);
    CHECK(blink_add(&seat, 7, 0, &now) == BLINK_OK && now == 0 && blink_find(&seat, 7, &now) == BLINK_OK);
    CHECK(blink_close(&seat) == BLINK_OK);
    row.key = old = now = 9;
    CHECK(blink_put(&seat, 1, 1, &old) == BLINK_CLOSED && blink_add(&seat, 1, 1, &now) == BLINK_CLOSED);
    CHECK(blink_update(&seat, 1, triple, &times, &old, &now) == BLINK_CLOSED && times == 0);
    CHECK(blink_first(&seat, &row) == BLINK_CLOSED && blink_last(&seat, &row) == BLINK_CLOSED);
    CHECK(blink_next(&seat, UINT64_MAX, &row) == BLINK_CLOSED && blink_previous(&seat, 0, &row) == BLINK_CLOSED);
    CHECK(blink_count(&seat, 5, 4, &now) == BLINK_CLOSED && row.key == 9 && old == 9 && now == 9);
}

/* Where a map is full, nothing has changed. */
static void no_room(void) {
    blink_seat seat = BLINK_SEAT_INIT;
    uint64_t key = 0, now = 9, rows = 0;
    CHECK(blink_open(8, &seat, 1) == BLINK_OK);
    while (blink_add(&seat, key, key, &now) == BLINK_OK) key++;
    CHECK(key >= 14 && now == key - 1);
    CHECK(blink_add(&seat, key, 5, &now) == BLINK_NO_ROOM && now == key - 1);
    CHECK(blink_find(&seat, key, &now) == BLINK_ABSENT);
    CHECK(blink_count(&seat, 0, UINT64_MAX, &rows) == BLINK_OK && rows == key);
    CHECK(blink_add(&seat, 3, 5, &now) == BLINK_PRESENT && now == 8);
    CHECK(blink_close(&seat) == BLINK_OK);
}

static blink_seat seats[THREADS];

static uint64_t one_more(uint64_t value, void *context) {
    (void)context;
    return value + 1;
}

/* Adds to each of some keys, by both calls, and puts at another one: each value but the last one is told once as the old one. */
static void *count_up(void *place) {
    size_t me = (size_t)(uintptr_t)place;
    uint64_t *told = malloc(sizeof *told), old = 0, now = 0, n;
    CHECK(told);
    *told = 0;
    for (n = 1; n <= TIMES; n++) {
        int32_t answer = blink_add(&seats[me], n % KEYS, 1, &now);
        CHECK((answer == BLINK_OK && now == 1) || (answer == BLINK_PRESENT && now > 1));
        if (n > KEYS) CHECK(blink_update(&seats[me], n % KEYS, one_more, NULL, &old, &now) == BLINK_OK && now == old + 1);
        answer = blink_put(&seats[me], KEYS, n * THREADS + me, &old);
        CHECK(answer == BLINK_OK || answer == BLINK_PRESENT);
        if (answer == BLINK_PRESENT) *told += old;
    }
    return told;
}

static void by_threads(void) {
    pthread_t threads[THREADS];
    uint64_t told = 0, put = 0, sum = 0, value = 0;
    size_t t;
    CHECK(blink_open(64, seats, THREADS) == BLINK_OK);
    for (t = 0; t < THREADS; t++) CHECK(pthread_create(&threads[t], NULL, count_up, (void *)(uintptr_t)t) == 0);
    for (t = 0; t < THREADS; t++) {
        void *mine;
        pthread_join(threads[t], &mine);
        told += *(uint64_t *)mine;
        free(mine);
        for (uint64_t n = 1; n <= TIMES; n++) put += n * THREADS + t;
    }
    for (uint64_t key = 0; key < KEYS; key++) {
        CHECK(blink_find(&seats[0], key, &value) == BLINK_OK);
        sum += value;
    }
    CHECK(sum == THREADS * (2 * TIMES - KEYS));
    CHECK(blink_find(&seats[0], KEYS, &value) == BLINK_OK && told + value == put);
    for (t = 0; t < THREADS; t++) CHECK(blink_close(&seats[t]) == BLINK_OK);
}

int main(int words, char **word) {
    const int steps = words > 1 ? atoi(word[1]) : 8000;
    edges();
    no_room();
    for (int kind = 0; kind < 3; kind++) beside_an_array(kind, steps);
    by_threads();
    printf("%d steps as of an array, edges, sums of four threads\n", 3 * steps);
    return 0;
}
