/* What the guard of blink.h refuses: refuse null, refuse closed, refuse twice. Each ends the program. And what is answered without an end: refuse
 * other, of seats of two maps; refuse open, of a close without all seats; refuse few, of a close into too little room. */
#include "blink.h"

#include <string.h>

/* Two maps: seats of both are refused, and a close of the first that lacks one of its seats. All are open then. */
static int answered(const char *which) {
    static uint8_t bytes[1 << 15];
    blink_seat seats[2] = {BLINK_SEAT_INIT, BLINK_SEAT_INIT}, both[2];
    blink_seat other = BLINK_SEAT_INIT;
    uint64_t length = 0, value = 0;
    int32_t answer = BLINK_OK, wanted = BLINK_OK;
    if (blink_open(64, seats, 2) != BLINK_OK || blink_open(64, &other, 1) != BLINK_OK) return 2;
    both[0] = seats[0];
    both[1] = other;
    if (!strcmp(which, "other")) {
        if (blink_meet(&seats[0], &other) != BLINK_OTHER_MAP || blink_meet(&seats[0], &seats[1]) != BLINK_OK) return 1;
        answer = blink_close_image(both, 2, bytes, sizeof bytes, &length), wanted = BLINK_OTHER_MAP;
    }
    if (!strcmp(which, "open")) answer = blink_close_image(seats, 1, bytes, sizeof bytes, &length), wanted = BLINK_SEATS_OPEN;
    if (!strcmp(which, "few")) {
        answer = blink_close_image(seats, 2, bytes, 100, &length), wanted = BLINK_FEW_BYTES;
        if (length != blink_image_length(64)) return 1;
    }
    if (answer != wanted || blink_find(&seats[0], 1, &value) != BLINK_ABSENT || blink_find(&other, 1, &value) != BLINK_ABSENT) return 1;
    if (blink_close_image(seats, 2, bytes, sizeof bytes, &length) != BLINK_OK || length != blink_image_length(64)) return 1;
    blink_close(&other);
    return seats[0].at || seats[1].at;
}

int main(int count, char **words) {
    blink_seat seat = BLINK_SEAT_INIT;
    uint64_t value = 0;
    if (count < 2 || blink_open(64, &seat, 1) != BLINK_OK || blink_insert(&seat, 1, 2, &value) != BLINK_OK) return 2;
    if (!strcmp(words[1], "none")) {
        int32_t answer = blink_find(&seat, 1, &value);
        /* A seat that is closed may be closed again. */
        if (blink_close(&seat) != BLINK_OK || blink_close(&seat) != BLINK_CLOSED) return 1;
        return answer != BLINK_OK || value != 2;
    }
    if (!strcmp(words[1], "other") || !strcmp(words[1], "open") || !strcmp(words[1], "few")) {
        blink_close(&seat);
        return answered(words[1]);
    }
    if (!strcmp(words[1], "null")) blink_find(NULL, 1, &value);
    if (!strcmp(words[1], "closed")) {
        blink_close(&seat);
        blink_find(&seat, 1, &value);
    }
#ifdef BLINK_GUARD
    if (!strcmp(words[1], "twice")) {
        blink_seat room = BLINK_SEAT_INIT;
        blink_enter_(&seat, &room, "another call");
        blink_find(&seat, 1, &value);
    }
#endif
    return 3;
}
