/* Calls of a map from C, for checks/instructions: calls WHAT ROWS COUNT. calls.rattle says what each kind is, and makes the same calls from Rattle. */
#include <blink.h>

#include <stdio.h>
#include <stdlib.h>
#include <string.h>

enum { PAGES = 65536, WIDTH = 100 };
enum what { INSERT, FIND, PUT, CHANGE, DELETE, EMPTY, SCAN, RANGE, LIMITED, KINDS };
static const char *const names[KINDS] = { "insert", "find", "put", "change", "delete", "empty", "scan", "range", "limited" };
static blink_seat seat;

static uint64_t key_of(uint64_t row) {
    return row * 0x9E3779B97F4A7C15u;
}

/* Opens the map with an image of such rows. */
static int32_t load(uint64_t rows, uint32_t fill, uint64_t step) {
    blink_row *list = malloc(rows * sizeof *list);
    size_t room = (size_t)blink_image_length(PAGES);
    uint8_t *bytes = malloc(room);
    uint64_t length = 0;
    int32_t answer;
    if (!list || !bytes) return BLINK_NO_MEMORY;
    for (uint64_t row = 0; row < rows; row++) list[row] = (blink_row){ row * step, row };
    answer = blink_image_of(list, rows, PAGES, fill, bytes, room, &length);
    if (answer == BLINK_OK) answer = blink_open_image(bytes, (size_t)length, &seat, 1);
    free(list);
    free(bytes);
    return answer;
}

static int32_t begin(enum what what, uint64_t rows) {
    uint64_t there;
    int32_t answer;
    if (what == INSERT) return load(rows, 7, 2);
    if (what == DELETE) return load(rows, 14, 2);
    answer = blink_open(PAGES, &seat, 1);
    for (uint64_t row = 0; row < rows && answer == BLINK_OK; row++)
        answer = blink_insert(&seat, what >= SCAN ? row : key_of(row), row, &there);
    return answer;
}

static bool call(enum what what, uint64_t rows, uint64_t turn) {
    static blink_row list[WIDTH];
    uint64_t row = turn * 7919 % rows, value = 0, from, next;
    size_t count;
    bool more;
    switch (what) {
        case INSERT: return blink_insert(&seat, turn * 14 + 1, turn, &value) == BLINK_OK;
        case FIND: return blink_find(&seat, key_of(row), &value) == BLINK_OK && value == row;
        case PUT: return blink_put(&seat, key_of(row), turn, &value) == BLINK_PRESENT && value == row;
        case CHANGE: return blink_change(&seat, key_of(row), row, turn, &value) == BLINK_OK;
        case DELETE: return blink_delete(&seat, turn * 28, &value) == BLINK_OK && value == turn * 14;
        case EMPTY: return blink_delete(&seat, key_of(row), &value) == BLINK_OK && value == row;
        case RANGE:
            from = turn * 7919 % (rows - WIDTH);
            return blink_range(&seat, from, from + WIDTH - 1, 64, list, WIDTH, &next) == BLINK_OK && next == WIDTH;
        case LIMITED:
            from = turn * 7919 % (rows - WIDTH);
            return blink_scan(&seat, from, list, WIDTH, &count, &next, &more) == BLINK_OK && count == WIDTH;
        default:
            from = turn * 7919 % (rows - WIDTH);
            return blink_scan_to(&seat, from, from + WIDTH - 1, list, WIDTH, &count, &next, &more) == BLINK_OK && count == WIDTH;
    }
}

int main(int words, char **word) {
    uint64_t rows, count, done = 0;
    int what = 0;
    if (words != 4) return 2;
    while (what < KINDS && strcmp(word[1], names[what]) != 0) what++;
    rows = strtoull(word[2], NULL, 10);
    count = strtoull(word[3], NULL, 10);
    if (what == KINDS || rows <= WIDTH || begin((enum what)what, rows) != BLINK_OK) return 2;
    for (uint64_t turn = 0; turn < count; turn++) done += call((enum what)what, rows, turn);
    /* What deletions have left to do is theirs. */
    if (what == EMPTY) blink_upkeep_all(&seat);
    printf("%llu of %llu\n", (unsigned long long)done, (unsigned long long)count);
    return 0;
}
