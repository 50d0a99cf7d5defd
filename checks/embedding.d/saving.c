/* Saves a map while others change it: saving ROUNDS. Three threads insert and delete odd keys and count a row up, and each image has to open, with
 * rising keys, with each even key, and with a count that is not below the one of the image before. */
#define PROGRAM "saving"
#include "needs.h"

#include <pthread.h>
#include <stdio.h>
#include <stdlib.h>

enum { WRITERS = 3, PAGES = 1024, KEYS = 2000, MOST = KEYS + 1, LENGTH = 32 + 256 * PAGES };

static blink_seat seats[WRITERS + 1];
static bool is_over;
static uint8_t bytes[LENGTH];
static blink_row rows[MOST];

/* Each thread has odd keys of its own; the first one counts at key 0. */
static void *work(void *place) {
    size_t me = (size_t)(uintptr_t)place;
    uint64_t value, drawn = me + 1, count;
    for (count = 1; !__atomic_load_n(&is_over, __ATOMIC_SEQ_CST); count++) {
        uint64_t key;
        drawn = drawn * 6364136223846793005u + 1442695040888963407u;
        key = (drawn >> 33) % (KEYS / 2 / WRITERS) * 2 * WRITERS + 2 * me + 1;
        int32_t answer = count % 2 ? blink_insert(&seats[me], key, count, &value) : blink_delete(&seats[me], key, &value);
        holds(answer == BLINK_OK || answer == BLINK_PRESENT || answer == BLINK_ABSENT, "a change");
        if (me == 0) need(blink_put(&seats[0], 0, count, &value), BLINK_PRESENT, "a put");
    }
    return NULL;
}

/* Saves the map, and opens the image: what key 0 has there. */
static uint64_t save(void) {
    blink_seat seat = BLINK_SEAT_INIT;
    uint64_t length = 0, next = 0, counted, even = 0;
    size_t found = 0, at;
    bool more = true;
    need(blink_save(&seats[WRITERS], 14, rows, MOST, bytes, LENGTH, &length), BLINK_OK, "save");
    need(blink_open_image(bytes, (size_t)length, &seat, 1), BLINK_OK, "open");
    need(blink_scan(&seat, 0, rows, MOST, &found, &next, &more), BLINK_OK, "scan");
    counted = rows[0].value;
    for (at = 0; at < found; at++) {
        holds(at == 0 || rows[at - 1].key < rows[at].key, "the keys rise");
        even += rows[at].key % 2 == 0;
    }
    holds(!more && even == KEYS / 2, "the even keys");
    need(blink_close(&seat), BLINK_OK, "close");
    return counted;
}

int main(int count, char **words) {
    pthread_t threads[WRITERS];
    uint64_t key, value, before = 0;
    int round, rounds = count > 1 ? atoi(words[1]) : 100;
    size_t t;
    need(blink_open(PAGES, seats, WRITERS + 1), BLINK_OK, "open");
    for (key = 0; key < KEYS; key += 2) need(blink_insert(&seats[0], key, 0, &value), BLINK_OK, "insert");
    for (t = 0; t < WRITERS; t++)
        if (pthread_create(&threads[t], NULL, work, (void *)(uintptr_t)t)) exit(2);
    for (round = 0; round < rounds; round++) {
        uint64_t counted = save();
        holds(before <= counted, "the count");
        before = counted;
    }
    __atomic_store_n(&is_over, true, __ATOMIC_SEQ_CST);
    for (t = 0; t < WRITERS; t++) pthread_join(threads[t], NULL);
    for (t = 0; t <= WRITERS; t++) need(blink_close(&seats[t]), BLINK_OK, "close");
    printf("%d images while others changed the map\n", rounds);
    return 0;
}
