/* Writes down calls of maps through blink.h, as `bench_map record` does for the library in Rattle, for the checker of checks/linearizable:
 * record SECONDS PAGES THREADS KEYS CALLS SEED OFTEN. One map after the other is opened, for so many seconds, and two at least. In each of the
 * three rounds of a map so many threads make so many calls each, on few keys: searches, insertions, puts, deletions, changes, and scans of
 * some keys side by side, which tell of each key that they pass; and blink_add and blink_update, of which what they have done is written
 * down, an insertion or a change. One in OFTEN answers BLINK_AGAIN lets a thread give its call up and make another one; with 0 nothing is
 * given up. What was given up has not been done, so no line tells of it: had it been, the others would have no order. Behind a round the map is
 * closed to its image, and opened anew from that; every second map gets twice its pages behind the first round instead, and its own number again
 * behind the second one. In the third one each thread other than the first gives a write up half-way and
 * goes, and its seat lies idle from then on, or is closed by itself, or by the main thread. The next map has other keys. A line is printed for each call:
 * the thread, the nanoseconds right before the call and right behind it, the key, what was asked, and what was answered; and behind each
 * round the line `round`. At the end it says on standard error how often what has happened. */
#include "blink.h"
#include "drawn.h"

#include <inttypes.h>
#include <pthread.h>
#include <stdio.h>
#include <stdlib.h>

enum { MOST = 64, SPAN = 24, ROUNDS = 3 };
enum asked { FIND, INSERT, PUT, DELETE, CHANGE };

typedef struct call {
    uint64_t begin, end, key, old_value, new_value, value;
    enum asked asked;
    int32_t answer;
} call;

typedef struct worker {
    blink_seat *seat;
    uint64_t drawn, stamp, key, value, given_up;
    call *calls;
    size_t count;
    bool has_left; /* with a write that it gave up */
} worker;

static worker workers[MOST];
static blink_seat seats[MOST];
static uint64_t first_key, keys, calls_each, often, maps, closed_midway, resized;
static uint32_t pages;
static int threads, round_of_map;

static void fail(const char *what, int32_t answer) {
    fprintf(stderr, "record: %s: %s\n", what, blink_text(answer));
    exit(1);
}

static void list(worker *me, uint64_t first) {
    blink_row rows[SPAN * 2 + BLINK_LEAF_ROWS];
    size_t count = 0, at = 0;
    uint64_t next = 0, begin = now(), end, last = first + draw(&me->drawn, SPAN);
    bool more = false;
    int32_t answer = blink_scan(me->seat, first, rows, SPAN * 2 + BLINK_LEAF_ROWS, &count, &next, &more);
    if (answer != BLINK_OK) fail("scan", answer);
    end = now();
    if (more && next <= last) last = next - 1;
    if (last >= first_key + keys) last = first_key + keys - 1;
    for (uint64_t key = first; key <= last; key++) {
        call *it = &me->calls[me->count++];
        while (at < count && rows[at].key < key) at++;
        *it = (call){begin, end, key, 0, 0, 0, FIND, BLINK_ABSENT};
        if (at < count && rows[at].key == key) {
            it->answer = BLINK_OK;
            it->value = rows[at].value;
        }
    }
}

static int32_t try_call(worker *me, call *it) {
    switch (it->asked) {
        case FIND: return blink_try_find(me->seat, it->key, &it->value);
        case INSERT: return blink_try_insert(me->seat, it->key, it->new_value, &it->value);
        case PUT: return blink_try_put(me->seat, it->key, it->new_value, &it->value);
        case DELETE: return blink_try_delete(me->seat, it->key, &it->value);
        default: return blink_try_change(me->seat, it->key, it->old_value, it->new_value, &it->value);
    }
}

/* Whether this thread is to go, in the last round of its map. */
static bool is_to_go(const worker *me) {
    return round_of_map == ROUNDS - 1 && me != workers && me->count > calls_each / 2;
}

/* Whether a call that was told BLINK_AGAIN is given up. */
static bool gives_up(worker *me, const call *it) {
    if (often == 0) return false;
    if (it->asked != FIND && is_to_go(me)) me->has_left = true;
    return me->has_left || draw(&me->drawn, often) == 0;
}

/* Makes a call until it is answered or given up. */
static void make(worker *me, call *it) {
    it->begin = now();
    while ((it->answer = try_call(me, it)) == BLINK_AGAIN) {
        if (gives_up(me, it)) {
            me->given_up++;
            me->count--;
            return;
        }
        BLINK_YIELD();
    }
    it->end = now();
    if ((it->answer == BLINK_PRESENT && it->asked != PUT) || (it->asked == FIND && it->answer == BLINK_OK)) {
        me->key = it->key;
        me->value = it->value;
    }
}

/* The new value of an update: another one each time. */
static uint64_t stamped(uint64_t value, void *context) {
    (void)value;
    return ++((worker *)context)->stamp;
}

/* Adds to a key, or makes a new value of the old one: calls of several calls, of which none is given up. */
static void make_of_several(worker *me, call *it, bool is_adding) {
    uint64_t old = 0, now_there = 0, begin = now();
    it->answer = is_adding ? blink_add(me->seat, it->key, it->new_value, &now_there) : blink_update(me->seat, it->key, stamped, me, &old, &now_there);
    it->begin = begin;
    it->end = now();
    it->asked = is_adding && it->answer == BLINK_OK ? INSERT : it->answer == BLINK_NO_ROOM ? PUT : CHANGE;
    it->old_value = is_adding ? now_there - it->new_value : old;
    it->new_value = now_there;
    if (it->answer == BLINK_PRESENT) it->answer = BLINK_OK;
}

/* A seat is closed in the middle of a map, by its thread or by another one. */
static void close_midway(worker *me) {
    int32_t answer = blink_close(me->seat);
    if (answer != BLINK_OK) fail("close", answer);
    __atomic_add_fetch(&closed_midway, 1, __ATOMIC_SEQ_CST);
}

static void *work(void *place) {
    worker *me = place;
    me->count = 0;
    while (me->count < calls_each && !me->has_left) {
        uint64_t key = first_key + draw(&me->drawn, keys), drawn = draw(&me->drawn, 100);
        if (drawn < 6) {
            list(me, key);
            continue;
        }
        call *it = &me->calls[me->count++];
        *it = (call){0, 0, key, 0, ++me->stamp, 0, drawn < 40 ? FIND : drawn < 60 ? INSERT : drawn < 68 ? PUT : drawn < 89 ? DELETE : CHANGE, 0};
        if (drawn >= 94) {
            make_of_several(me, it, drawn >= 97);
            continue;
        }
        if (it->asked == CHANGE && me->key >= first_key) {
            it->key = me->key;
            it->old_value = me->value;
        }
        make(me, it);
    }
    if (me->has_left && draw(&me->drawn, 3) == 0) close_midway(me);
    return NULL;
}

static void run_round(void) {
    pthread_t ids[MOST];
    for (int t = 0; t < threads; t++) {
        workers[t].has_left = false;
        if (pthread_create(&ids[t], NULL, work, &workers[t])) exit(2);
    }
    for (int t = 0; t < threads; t++) {
        pthread_join(ids[t], NULL);
        if (workers[t].has_left && workers[t].seat->at && draw(&workers[t].drawn, 2)) close_midway(&workers[t]);
    }
}

static void print(int thread, const call *it) {
    static const char *const done[] = {"Found", "Inserted", "Inserted", "Deleted", "Changed"};
    printf("%d %" PRIu64 " %" PRIu64 " %" PRIu64 " ", thread, it->begin, it->end, it->key);
    if (it->asked == FIND) printf("Find ");
    if (it->asked == INSERT) printf("Insert(%" PRIu64 ") ", it->new_value);
    if (it->asked == PUT) printf("Put(%" PRIu64 ") ", it->new_value);
    if (it->asked == DELETE) printf("Delete ");
    if (it->asked == CHANGE) printf("Change(%" PRIu64 ", %" PRIu64 ") ", it->old_value, it->new_value);
    if (it->answer == BLINK_ABSENT) printf("Absent\n");
    else if (it->answer == BLINK_NO_ROOM) printf("NoRoom\n");
    else if (it->answer == BLINK_PRESENT) printf("%s(%" PRIu64 ")\n", it->asked == INSERT ? "Present" : it->asked == PUT ? "Replaced" : "Differs", it->value);
    else if (it->answer != BLINK_OK) fail("a call", it->answer);
    else if (it->asked == FIND || it->asked == DELETE) printf("%s(%" PRIu64 ")\n", done[it->asked], it->value);
    else printf("%s\n", done[it->asked]);
}

static void print_round(void) {
    for (int t = 0; t < threads; t++)
        for (size_t i = 0; i < workers[t].count; i++) print(t, &workers[t].calls[i]);
    printf("round\n");
}

/* Closes the map to its image, and opens it anew from that. */
static void open_anew(uint8_t *bytes) {
    uint64_t length = blink_image_length(pages);
    int32_t answer = blink_close_image(seats, (size_t)threads, bytes, (size_t)length, &length);
    if (answer == BLINK_OK) answer = blink_open_image(bytes, (size_t)length, seats, (size_t)threads);
    if (answer != BLINK_OK) fail("close and open", answer);
}

/* Gives the map twice its pages behind its first round, and as many as it had behind the next one. */
static void resize(uint8_t *bytes) {
    const size_t room = (size_t)blink_image_length(2 * pages), most = (size_t)keys + 1;
    uint64_t length = 0;
    int32_t answer;
    if (round_of_map == 0) {
        answer = blink_resize(seats, (size_t)threads, 2 * pages, bytes, room, &length);
    } else {
        blink_row *rows = malloc(most * sizeof *rows);
        answer = rows ? blink_shrink(seats, (size_t)threads, pages, rows, most, bytes, room) : BLINK_NO_MEMORY;
        free(rows);
    }
    if (answer != BLINK_OK) fail("resize", answer);
    resized++;
}

static void run_map(uint8_t *bytes) {
    int32_t answer = blink_open(pages, seats, (size_t)threads);
    if (answer != BLINK_OK) fail("open", answer);
    for (round_of_map = 0; round_of_map < ROUNDS; round_of_map++) {
        run_round();
        print_round();
        if (round_of_map + 1 == ROUNDS) break;
        if (maps % 2) resize(bytes);
        else open_anew(bytes);
    }
    for (int t = 0; t < threads; t++) {
        answer = blink_close(&seats[t]);
        if (answer != BLINK_OK && answer != BLINK_CLOSED) fail("close", answer);
    }
    first_key += keys;
    maps++;
}

int main(int count, char **words) {
    uint64_t given_up = 0, until = now();
    if (count < 8) return 2;
    until += strtoull(words[1], NULL, 10) * 1000000000u;
    pages = (uint32_t)strtoul(words[2], NULL, 10);
    threads = atoi(words[3]);
    keys = strtoull(words[4], NULL, 10);
    calls_each = strtoull(words[5], NULL, 10);
    often = strtoull(words[7], NULL, 10);
    uint8_t *bytes = malloc((size_t)blink_image_length(2 * pages));
    if (!bytes || threads < 1 || threads > MOST) return 2;
    for (int t = 0; t < threads; t++) {
        workers[t].seat = &seats[t];
        workers[t].drawn = (strtoull(words[6], NULL, 10) + 1) * 0x9E3779B97F4A7C15u + (uint64_t)t * 7919;
        workers[t].stamp = (uint64_t)t << 40;
        workers[t].calls = malloc((calls_each + SPAN) * sizeof(call));
        if (!workers[t].calls) return 2;
    }
    /* One that is resized, and one that is not. */
    do run_map(bytes);
    while (now() < until || maps < 2);
    for (int t = 0; t < threads; t++) {
        given_up += workers[t].given_up;
        free(workers[t].calls);
    }
    free(bytes);
    fprintf(stderr, "%" PRIu64 " maps, resized %" PRIu64 " times, %" PRIu64 " calls given up, %" PRIu64 " seats closed midway\n", maps, resized, given_up, closed_midway);
    return 0;
}
