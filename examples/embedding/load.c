/* Four threads load a map of 400,000 rows, find them, take every third away again, and scan what is left: load [KEYS-EACH [PAGES [FILE]]].
 * It prints one line, and exits with 1 where anything is not as it should be. The map is closed to its image, which the file then has. */
#include "blink.h"

#include <pthread.h>
#include <stdio.h>
#include <stdlib.h>
#include <string.h>

enum { THREADS = 4 };

static uint64_t keys_each = 100000;
static blink_seat seats[THREADS];

/* Keys are spread over all 64 bits: an odd factor maps numbers one to one. */
static uint64_t key_of(uint64_t number) {
    return number * 0x9E3779B97F4A7C15u;
}

static void need(int32_t answer, int32_t wanted, const char *what) {
    if (answer != wanted) {
        fprintf(stderr, "%s: %s\n", what, blink_text(answer));
        exit(1);
    }
}

/* Looks up keys many at a time: of each two one that was inserted, and one that nobody inserts. */
static void find_many(blink_seat *seat, uint64_t first) {
    enum { MANY = 100 };
    uint64_t keys[MANY], values[MANY];
    bool found[MANY];
    for (uint64_t n = first; n + MANY / 2 <= first + keys_each; n += MANY / 2) {
        for (size_t i = 0; i < MANY; i++) keys[i] = key_of(i % 2 ? n + i / 2 + THREADS * keys_each : n + i / 2);
        need(blink_find_many(seat, keys, MANY, values, found), BLINK_OK, "find many");
        for (size_t i = 0; i < MANY; i++)
            if (found[i] == (i % 2 == 1) || values[i] != (i % 2 ? 0 : n + i / 2)) need(-1, BLINK_OK, "what many keys have");
    }
}

static void *work(void *place) {
    size_t me = (size_t)(uintptr_t)place;
    blink_seat *seat = &seats[me];
    uint64_t first = me * keys_each, value = 0;
    for (uint64_t n = first; n < first + keys_each; n++)
        need(blink_insert(seat, key_of(n), n, &value), BLINK_OK, "insert");
    for (uint64_t n = first; n < first + keys_each; n++) {
        need(blink_find(seat, key_of(n), &value), BLINK_OK, "find");
        if (value != n) need(-1, BLINK_OK, "the value found");
    }
    find_many(seat, first);
    for (uint64_t n = first; n < first + keys_each; n++)
        if (n % 3 == 0) {
            need(blink_delete(seat, key_of(n), &value), BLINK_OK, "delete");
            if (value != n) need(-1, BLINK_OK, "the value taken away");
        }
    need(blink_insert(seat, key_of(first + 1), 5, &value), first % 3 == 2 ? BLINK_OK : BLINK_PRESENT, "insert again");
    if (first % 3 == 2) need(blink_delete(seat, key_of(first + 1), &value), BLINK_OK, "delete again");
    return NULL;
}

/* Closes the map, and keeps its image in a file. */
static void keep(const char *name, uint32_t pages) {
    uint64_t length = blink_image_length(pages);
    uint8_t *bytes = malloc((size_t)length);
    FILE *file = fopen(name, "wb");
    if (!bytes || !file) need(BLINK_NO_MEMORY, BLINK_OK, name);
    need(blink_close_image(seats, THREADS, bytes, (size_t)length, &length), BLINK_OK, "close");
    if (fwrite(bytes, 1, (size_t)length, file) != length || fclose(file)) need(-1, BLINK_OK, name);
    free(bytes);
}

int main(int count, char **words) {
    uint32_t pages = 65536;
    pthread_t threads[THREADS];
    blink_row rows[1024];
    uint64_t left = 0, wrong = 0, last = 0, from = 0, wanted = 0;
    bool more = true, any = false;
    if (count > 1) keys_each = strtoull(words[1], NULL, 10);
    if (count > 2) pages = (uint32_t)strtoul(words[2], NULL, 10);
    need(blink_open(pages, seats, THREADS), BLINK_OK, "open");
    for (size_t t = 0; t < THREADS; t++) pthread_create(&threads[t], NULL, work, (void *)(uintptr_t)t);
    for (size_t t = 0; t < THREADS; t++) pthread_join(threads[t], NULL);
    while (more) {
        size_t found = 0;
        need(blink_scan(&seats[0], from, rows, 1024, &found, &from, &more), BLINK_OK, "scan");
        for (size_t i = 0; i < found; i++) {
            if ((any && rows[i].key <= last) || rows[i].key != key_of(rows[i].value) || rows[i].value % 3 == 0) wrong++;
            last = rows[i].key;
            any = true;
        }
        left += found;
    }
    for (uint64_t n = 0; n < THREADS * keys_each; n++) wanted += n % 3 != 0;
    printf("rows %llu, wanted %llu, wrong %llu\n", (unsigned long long)left, (unsigned long long)wanted, (unsigned long long)wrong);
    need(blink_meet(&seats[0], &seats[1]), BLINK_OK, "meet");
    for (size_t t = 0; t < THREADS; t++) blink_upkeep_all(&seats[t]);
    if (count > 3) keep(words[3], pages);
    /* Those of a map that was closed to its image are closed already. */
    for (size_t t = 0; t < THREADS; t++) need(blink_close(&seats[t]), count > 3 ? BLINK_CLOSED : BLINK_OK, "close");
    return left != wanted || wrong != 0;
}
