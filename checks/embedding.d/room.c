/* A window of rows moves over a map of 1,024 pages by two seats of one thread: one inserts, the other deletes what came so many before. No row
 * may be refused, and at the end, when all are gone, the image has one leaf: room INSERTIONS FILE. */
#include "blink.h"
#include <inttypes.h>
#include <stdio.h>
#include <stdlib.h>

enum { PAGES = 1024, LIVING = 4907 };

static void fail(const char *what, uint64_t key, int32_t code) {
    fprintf(stderr, "room: %s %" PRIu64 ": %s\n", what, key, blink_text(code));
    exit(1);
}

static void insert(blink_seat *seat, uint64_t key) {
    uint64_t there;
    int32_t code = blink_insert(seat, key, key, &there);
    if (code != BLINK_OK) fail("insert", key, code);
}

static void delete_row(blink_seat *seat, uint64_t key) {
    uint64_t value;
    int32_t code = blink_delete(seat, key, &value);
    if (code != BLINK_OK || value != key) fail("delete", key, code);
}

int main(int count, char **words) {
    if (count != 3) return 2;
    uint64_t insertions = strtoull(words[1], NULL, 10);
    blink_seat seats[2] = {BLINK_SEAT_INIT, BLINK_SEAT_INIT};
    int32_t code = blink_open(PAGES, seats, 2);
    if (code != BLINK_OK) fail("open", PAGES, code);
    for (uint64_t key = 0; key < insertions + LIVING; key++) {
        if (key < insertions) insert(&seats[0], key);
        if (key >= LIVING) delete_row(&seats[1], key - LIVING);
    }
    for (int seat = 0; seat < 2; seat++)
        if ((code = blink_upkeep_all(&seats[seat])) != BLINK_OK) fail("upkeep", (uint64_t)seat, code);
    size_t room = (size_t)blink_image_length(PAGES);
    uint8_t *bytes = malloc(room);
    uint64_t length = 0;
    if (!bytes) return 2;
    code = blink_close_image(seats, 2, bytes, room, &length);
    if (code != BLINK_OK) fail("close", 0, code);
    FILE *file = fopen(words[2], "wb");
    if (!file || fwrite(bytes, 1, (size_t)length, file) != (size_t)length || fclose(file) != 0) return 2;
    free(bytes);
    printf("%" PRIu64 " rows came and went, none refused\n", insertions);
    return 0;
}
