/* Each call of a crowd is answered: crowded THREADS KEYS CALLS. So many threads, each with a seat of its own, write so few keys of one map and
 * look them up. What was told BLINK_AGAIN the header makes again, and it has to be answered within a million tries. It says how many tries and
 * how much time the longest call took: it is the scheduler's, where there are more threads than processors. */
#include <sched.h>
#include <stdint.h>

static void try_again(void);
#define BLINK_YIELD() try_again()
#include "blink.h"
#include "drawn.h"

#include <inttypes.h>
#include <pthread.h>
#include <stdio.h>
#include <stdlib.h>

enum { MOST = 64, PAGES = 64, TRIES = 1000000 };

/* How often the call of this thread was made so far. */
static _Thread_local uint64_t tries;

typedef struct worker {
    blink_seat *seat;
    uint64_t drawn, made, again, most_tries, longest;
} worker;

static blink_seat seats[MOST];
static worker workers[MOST];
static uint64_t keys, calls_each;

/* What the header does between two tries. */
static void try_again(void) {
    if (++tries > TRIES) {
        fprintf(stderr, "crowded: a call is not answered\n");
        exit(1);
    }
    sched_yield();
}

/* The call of a kind. */
static int32_t call(worker *me, uint64_t kind, uint64_t key) {
    uint64_t value = 0;
    switch (kind) {
        case 0: return blink_find(me->seat, key, &value);
        case 1: return blink_insert(me->seat, key, me->made, &value);
        case 2: return blink_put(me->seat, key, me->made, &value);
        default: return blink_delete(me->seat, key, &value);
    }
}

static void *work(void *place) {
    worker *me = place;
    for (me->made = 0; me->made < calls_each; me->made++) {
        const uint64_t kind = draw(&me->drawn, 4), key = draw(&me->drawn, keys), begin = now();
        uint64_t took;
        int32_t answer;
        tries = 1;
        answer = call(me, kind, key);
        took = now() - begin;
        me->again += tries - 1;
        if (answer != BLINK_OK && answer != BLINK_ABSENT && answer != BLINK_PRESENT) {
            fprintf(stderr, "crowded: a call of kind %" PRIu64 " is told %s\n", kind, blink_text(answer));
            exit(1);
        }
        if (tries > me->most_tries) me->most_tries = tries;
        if (took > me->longest) me->longest = took;
    }
    return NULL;
}

int main(int count, char **words) {
    pthread_t ids[MOST];
    worker all = {0};
    int threads = count > 1 ? atoi(words[1]) : 16, t;
    keys = count > 2 ? strtoull(words[2], NULL, 10) : 8;
    calls_each = count > 3 ? strtoull(words[3], NULL, 10) : 100000;
    if (threads < 1 || threads > MOST || keys < 1) return 2;
    if (blink_open(PAGES, seats, (size_t)threads) != BLINK_OK) return 2;
    for (t = 0; t < threads; t++) {
        workers[t].seat = &seats[t];
        workers[t].drawn = (uint64_t)(t + 1) * 0x9E3779B97F4A7C15u;
        if (pthread_create(&ids[t], NULL, work, &workers[t])) return 2;
    }
    for (t = 0; t < threads; t++) {
        pthread_join(ids[t], NULL);
        all.made += workers[t].made;
        all.again += workers[t].again;
        if (workers[t].most_tries > all.most_tries) all.most_tries = workers[t].most_tries;
        if (workers[t].longest > all.longest) all.longest = workers[t].longest;
        if (blink_close(&seats[t]) != BLINK_OK) return 1;
    }
    printf("%" PRIu64 " calls answered, BLINK_AGAIN %" PRIu64 " times; the longest took %" PRIu64 " tries, %.1f ms\n", all.made, all.again, all.most_tries,
           (double)all.longest / 1e6);
    return 0;
}
