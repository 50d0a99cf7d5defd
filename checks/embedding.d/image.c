/* Opens a map from the bytes of an image, tells its rows, and opens one that is cut short and one whose first byte
 * is changed, which are to be refused. */
#include "blink.h"

#include <stdio.h>
#include <stdlib.h>

int main(int count, char **words) {
    blink_seat seats[2] = {BLINK_SEAT_INIT, BLINK_SEAT_INIT};
    blink_row rows[100];
    static uint8_t bytes[1 << 25];
    size_t length, found = 0;
    uint64_t from = 0, all = 0, sum = 0;
    bool more = true;
    FILE *file = count > 1 ? fopen(words[1], "rb") : NULL;
    if (!file) return 2;
    length = fread(bytes, 1, sizeof bytes, file);
    fclose(file);
    if (blink_open_image(bytes, length, seats, 2) != BLINK_OK) return 1;
    while (more) {
        if (blink_scan(&seats[1], from, rows, 100, &found, &from, &more) != BLINK_OK) return 1;
        for (size_t i = 0; i < found; i++) sum += rows[i].value;
        all += found;
    }
    blink_close(&seats[0]);
    blink_close(&seats[1]);
    if (blink_open_image(bytes, length - 1, seats, 2) != BLINK_BAD_IMAGE) return 1;
    bytes[0] ^= 1;
    if (blink_open_image(bytes, length, seats, 2) != BLINK_BAD_IMAGE) return 1;
    printf("rows %llu, sum of their values %llu\n", (unsigned long long)all, (unsigned long long)sum);
    return 0;
}
