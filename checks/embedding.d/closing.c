/* What becomes of a map when seats are left or closed in the middle of things: closing finish|leave|others|idle [ROUNDS]. Seven threads write
 * the same keys, and each goes once it was told BLINK_AGAIN: with `finish` it makes the same call again before, and closes its seat; with
 * `leave` it closes its seat at once; with `others` it ends, and another thread closes its seat, as that of a thread that has died; with
 * `idle` nobody does before the end. Then the seat that is left makes 2,000 changes, and each has to be done.
 *
 * closing orders: the seats of a map with rows, and with upkeep that waits, are closed in each order, some by an image, some twice; a map that
 * is to be opened in their places is refused. Under valgrind it shows whether anything is lost. */
#define PROGRAM "closing"
#include "needs.h"

#include <pthread.h>
#include <stdio.h>
#include <stdlib.h>
#include <string.h>

enum { SEATS = 8, PAGES = 64, CHANGES = 2000, IN_ORDER = 4, ROWS = 200 };
enum way { FINISH, LEAVE, OTHERS, IDLE };

static blink_seat seats[SEATS];
static enum way way;
static int told_again, orders;

static int32_t write_key(blink_seat *seat, int round) {
    uint64_t value, key = (uint64_t)(round % 3);
    return round % 2 ? blink_try_insert(seat, key, 1, &value) : blink_try_delete(seat, key, &value);
}

/* Writes until it was told BLINK_AGAIN, and then goes. */
static void *work(void *place) {
    blink_seat *seat = place;
    int round;
    for (round = 0; round < 200000; round++) {
        if (write_key(seat, round) != BLINK_AGAIN) continue;
        __atomic_add_fetch(&told_again, 1, __ATOMIC_SEQ_CST);
        while (way == FINISH && write_key(seat, round) == BLINK_AGAIN) BLINK_YIELD();
        break;
    }
    if (way < OTHERS) need(blink_close(seat), BLINK_OK, "close");
    return NULL;
}

/* One seat alone inserts and deletes a key. Nobody is there who could hold it up. */
static void change(void) {
    uint64_t value;
    int round, tries;
    for (round = 0; round < CHANGES; round++) {
        int32_t answer = BLINK_AGAIN;
        for (tries = 0; answer == BLINK_AGAIN && tries < 100; tries++) {
            answer = round % 2 ? blink_try_delete(&seats[0], 77, &value) : blink_try_insert(&seats[0], 77, 7, &value);
        }
        need(answer, BLINK_OK, "a change by the seat that is left");
    }
}

/* Closes the seats but the first one, which the threads have closed already or not. */
static void close_others(void) {
    int i;
    for (i = 1; i < SEATS; i++) need(blink_close(&seats[i]), way >= OTHERS ? BLINK_OK : BLINK_CLOSED, "close of a seat whose thread has ended");
}

static void run_threads(int rounds) {
    pthread_t threads[SEATS];
    int round, i;
    for (round = 0; round < rounds; round++) {
        need(blink_open(PAGES, seats, SEATS), BLINK_OK, "open");
        for (i = 1; i < SEATS; i++)
            if (pthread_create(&threads[i], NULL, work, &seats[i])) exit(2);
        for (i = 1; i < SEATS; i++) pthread_join(threads[i], NULL);
        if (way != IDLE) close_others();
        change();
        if (way == IDLE) close_others();
        need(blink_close(&seats[0]), BLINK_OK, "close of the last seat");
    }
    printf("%d seats told BLINK_AGAIN; then %d changes, all done\n", told_again, rounds * CHANGES);
}

/* A map of four seats, each of which has inserted rows and deleted most of them. */
static void fill(void) {
    uint64_t key, value;
    need(blink_open(PAGES, seats, IN_ORDER), BLINK_OK, "open");
    for (key = 0; key < ROWS; key++) need(blink_insert(&seats[key % IN_ORDER], key, key, &value), BLINK_OK, "insert");
    for (key = 0; key < ROWS; key++) {
        if (key % 5) need(blink_delete(&seats[key * 7 % IN_ORDER], key, &value), BLINK_OK, "delete");
    }
}

/* Closes the seats in an order, one of them after a map that was to be opened in its place. Once one is closed there is no image any more. */
static void close_in(const int *order, int opened_over) {
    static uint8_t bytes[32 + 256 * PAGES];
    uint64_t length, value;
    int i;
    fill();
    for (i = 0; i < IN_ORDER; i++) {
        blink_seat *seat = &seats[order[i]];
        if (i > 0) need(blink_close_image(seats, IN_ORDER, bytes, sizeof bytes, &length), BLINK_CLOSED, "image of a map with a closed seat");
        if (i == opened_over) {
            need(blink_open(4, seat, 1), BLINK_IN_USE, "open over a seat");
            need(blink_open(4, seats, IN_ORDER), BLINK_IN_USE, "open over some seats");
            need(blink_find(seat, 0, &value), BLINK_OK, "find in the map that stays");
        }
        need(blink_close(seat), BLINK_OK, "close");
        need(blink_close(seat), BLINK_CLOSED, "close again");
    }
    orders++;
}

/* All orders of the seats from one place on. */
static void close_in_orders(int *order, int from) {
    int i, swapped;
    for (i = from; i < IN_ORDER; i++) {
        swapped = order[from], order[from] = order[i], order[i] = swapped;
        close_in_orders(order, from + 1);
        swapped = order[from], order[from] = order[i], order[i] = swapped;
    }
    if (from < IN_ORDER) return;
    for (i = -1; i < IN_ORDER; i++) close_in(order, i);
}

/* A map that is closed to its image, and opened from that, but not over open seats. */
static void close_by_image(void) {
    static uint8_t bytes[32 + 256 * PAGES];
    uint64_t length, value;
    int i;
    fill();
    need(blink_close_image(seats, IN_ORDER, bytes, sizeof bytes, &length), BLINK_OK, "image");
    need(blink_open_image(bytes, (size_t)length - 1, seats, IN_ORDER), BLINK_BAD_IMAGE, "open an image that is cut");
    need(blink_open_image(bytes, (size_t)length, seats, IN_ORDER), BLINK_OK, "open an image");
    need(blink_open_image(bytes, (size_t)length, seats, IN_ORDER), BLINK_IN_USE, "open an image over open seats");
    need(blink_find(&seats[1], 5, &value), BLINK_OK, "find");
    for (i = 0; i < IN_ORDER; i++) need(blink_close(&seats[i]), BLINK_OK, "close");
}

int main(int count, char **words) {
    static const char *const ways[] = {"finish", "leave", "others", "idle"};
    int order[IN_ORDER] = {0, 1, 2, 3};
    if (count < 2) return 2;
    for (way = FINISH; way <= IDLE; way++) {
        if (strcmp(words[1], ways[way])) continue;
        run_threads(count > 2 ? atoi(words[2]) : 10);
        return 0;
    }
    if (strcmp(words[1], "orders")) return 2;
    close_in_orders(order, 0);
    close_by_image();
    printf("%d closes of four seats in all orders\n", orders);
    return 0;
}
