/* What the Python package calls: a map with its seats, of which each call takes a free one. One call of Python is one call
 * here, so that no signal that Python handles, as that of Ctrl-C, comes between taking a seat and giving it back. cffi lets
 * other threads of Python run during each call. */
#include "blink.h"

#include <pthread.h>
#include <stdlib.h>

/* What find answers where there is no value to tell: the key may be absent, or have just this value. */
#define SHIM_UNSURE 0x8F3A61C5D27E90B4u

/* What a closed map has in place of the number of its rows. */
#define SHIM_CLOSED INT64_MIN

/* To so many pages a map shrinks, unless it began with fewer. */
#define SHIM_LEAST 4096

typedef struct shim_map {
    blink_seat *seats;
    uint64_t free;    /* a bit for each seat that is in no call */
    uint32_t waiting; /* how many threads wait for a seat */
    uint32_t takers;  /* how many of them wait for all seats: no other call takes one before them */
    uint32_t pages, count;
    uint32_t least, most; /* to so many pages it may shrink and grow */
    int64_t rows; /* how many rows there are: the library would go along them; SHIM_CLOSED where the map is closed */
    uint8_t *kept;    /* the image of a map that could not be opened again as it grew, or null */
    uint64_t kept_length;
    pthread_mutex_t lock;
    pthread_cond_t given;
} shim_map;

static uint64_t shim_all(const shim_map *map) {
    return map->count == 64 ? UINT64_MAX : ((uint64_t)1 << map->count) - 1;
}

/* Takes these seats, all of them, where all are free: whether it did. */
static bool shim_try_take(shim_map *map, uint64_t wanted) {
    uint64_t free = __atomic_load_n(&map->free, __ATOMIC_SEQ_CST);
    while ((free & wanted) == wanted)
        if (__atomic_compare_exchange_n(&map->free, &free, free & ~wanted, false, __ATOMIC_SEQ_CST, __ATOMIC_SEQ_CST))
            return true;
    return false;
}

/* Takes a free seat, if there is one and nobody wants all: its number, or -1. */
static int shim_try_one(shim_map *map) {
    uint64_t free = __atomic_load_n(&map->free, __ATOMIC_SEQ_CST);
    if (__atomic_load_n(&map->takers, __ATOMIC_SEQ_CST) > 0) return -1;
    while (free) {
        int place = __builtin_ctzll(free);
        if (__atomic_compare_exchange_n(&map->free, &free, free & (free - 1), false, __ATOMIC_SEQ_CST, __ATOMIC_SEQ_CST))
            return place;
    }
    return -1;
}

/* Waits for a free seat: its number. */
static int shim_take(shim_map *map) {
    int place = shim_try_one(map);
    if (place >= 0) return place;
    pthread_mutex_lock(&map->lock);
    __atomic_add_fetch(&map->waiting, 1, __ATOMIC_SEQ_CST);
    while ((place = shim_try_one(map)) < 0) pthread_cond_wait(&map->given, &map->lock);
    __atomic_sub_fetch(&map->waiting, 1, __ATOMIC_SEQ_CST);
    pthread_mutex_unlock(&map->lock);
    return place;
}

/* Waits until no seat is in a call, and takes them all. */
static void shim_take_all(shim_map *map) {
    pthread_mutex_lock(&map->lock);
    __atomic_add_fetch(&map->waiting, 1, __ATOMIC_SEQ_CST);
    __atomic_add_fetch(&map->takers, 1, __ATOMIC_SEQ_CST);
    while (!shim_try_take(map, shim_all(map))) pthread_cond_wait(&map->given, &map->lock);
    __atomic_sub_fetch(&map->takers, 1, __ATOMIC_SEQ_CST);
    __atomic_sub_fetch(&map->waiting, 1, __ATOMIC_SEQ_CST);
    pthread_mutex_unlock(&map->lock);
}

/* Gives seats back. Who began to wait before it looked sees them, or is counted here. */
static void shim_give(shim_map *map, uint64_t places) {
    __atomic_or_fetch(&map->free, places, __ATOMIC_SEQ_CST);
    if (__atomic_load_n(&map->waiting, __ATOMIC_SEQ_CST) == 0) return;
    pthread_mutex_lock(&map->lock);
    pthread_cond_broadcast(&map->given);
    pthread_mutex_unlock(&map->lock);
}

static int64_t shim_count(shim_map *map, int64_t more) { return __atomic_add_fetch(&map->rows, more, __ATOMIC_RELAXED); }

/* Does what makes a call with the seat `seat` and sets `answer`, between taking that seat and giving it back. */
#define SHIM_CALL(map, call)                       \
    int place_ = shim_take(map);                   \
    blink_seat *seat = &(map)->seats[place_];      \
    int32_t answer;                                \
    call;                                          \
    shim_give(map, (uint64_t)1 << place_);

/* Counts the rows of a map that was just opened. */
static void shim_count_all(shim_map *map) {
    uint64_t rows = 0;
    blink_count(&map->seats[0], 0, UINT64_MAX, &rows);
    map->rows = (int64_t)rows;
}

/* How many pages the map has now: it may grow meanwhile. */
static uint32_t shim_pages(shim_map *map) { return __atomic_load_n(&map->pages, __ATOMIC_SEQ_CST); }

/* Whether it is time to grow: insertions look long for room soon. */
static bool shim_is_short(shim_map *map) {
    bool is_short = false;
    SHIM_CALL(map, answer = blink_is_short(seat, &is_short))
    return answer == BLINK_OK && is_short;
}

/* Gives the map twice its pages, or as many as it may have, by all seats, unless it has more than so many by then. Where there is no memory
 * it stays as it is; where it could not be opened again, it is closed, and keeps its image. */
static void shim_resize(shim_map *map, uint32_t pages) {
    uint64_t length = 0;
    size_t room = (size_t)blink_image_length(pages);
    uint32_t wanted = pages > map->most / 2 ? map->most : 2 * pages;
    uint8_t *bytes;
    int32_t answer;
    if (map->rows == SHIM_CLOSED || map->pages != pages || pages >= map->most) return;
    bytes = malloc(room);
    if (!bytes) return;
    answer = blink_resize(map->seats, map->count, wanted, bytes, room, &length);
    if (answer == BLINK_OK) __atomic_store_n(&map->pages, wanted, __ATOMIC_SEQ_CST);
    if (answer == BLINK_SEATS_LOST) {
        map->rows = SHIM_CLOSED;
        map->kept = length ? bytes : NULL;
        map->kept_length = length;
    }
    if (!map->kept) free(bytes);
}

/* The same while no call is underway: whether it has another number of pages then, so that a write may find room. */
static bool shim_grow(shim_map *map, uint32_t pages) {
    if (pages >= map->most) return false;
    shim_take_all(map);
    shim_resize(map, pages);
    shim_give(map, shim_all(map));
    return shim_pages(map) != pages;
}

/* Gives the map half its pages, in which its rows are laid out anew. Where there is no memory for that it stays as it is. */
static void shim_lay_out(shim_map *map) {
    const size_t most = (size_t)map->rows + 1, room = (size_t)blink_image_length(map->pages / 2);
    blink_row *rows = malloc(most * sizeof *rows);
    uint8_t *bytes = malloc(room);
    if (rows && bytes && blink_shrink(map->seats, map->count, map->pages / 2, rows, most, bytes, room) == BLINK_OK)
        __atomic_store_n(&map->pages, map->pages / 2, __ATOMIC_SEQ_CST);
    free(bytes);
    free(rows);
}

/* Behind a call that has taken a row away, and left so many: where less than an eighth of the pages of a map that grows is used, it shrinks. */
static void shim_shrink(shim_map *map, int64_t rows) {
    const uint32_t pages = shim_pages(map);
    bool is_sparse = false;
    if (rows % 64 != 0 || pages / 2 < map->least || pages >= map->most) return;
    {
        SHIM_CALL(map, answer = blink_is_sparse(seat, &is_sparse))
        if (answer != BLINK_OK || !is_sparse) return;
    }
    shim_take_all(map);
    if (map->rows != SHIM_CLOSED && map->pages == pages) shim_lay_out(map);
    shim_give(map, shim_all(map));
}

/* Behind a call that began when the map had so many pages, and has entered so many rows: where it is short of pages it grows. Whether the
 * call found no room, and is to be made again. */
static bool shim_again(shim_map *map, uint32_t pages, int32_t answer, int64_t fresh) {
    if (fresh > 0) {
        const int64_t rows = shim_count(map, fresh);
        /* Seldom, since it is a look. */
        if (rows / 64 != (rows - fresh) / 64 && pages < map->most && shim_is_short(map)) shim_grow(map, pages);
    }
    return answer == BLINK_NO_ROOM && shim_grow(map, pages);
}

/* Makes a call that may enter a row, where the answer is_new says that it did, again and again while it finds no room and the map grows. */
#define SHIM_WRITE(map, call, is_new)                                     \
    int32_t answer_;                                                      \
    uint32_t pages_;                                                      \
    do {                                                                  \
        pages_ = shim_pages(map);                                         \
        SHIM_CALL(map, call)                                              \
        answer_ = answer;                                                 \
    } while (shim_again(map, pages_, answer_, (is_new) && answer_ == BLINK_OK));

/* Opens a map without rows, or, where `image` is not null, with the rows of an image. It may grow to `most` pages. */
static int32_t shim_open(uint32_t pages, uint32_t most, uint32_t count, const uint8_t *image, size_t length,
                         shim_map **made) {
    shim_map *map;
    blink_stats stats = { 0, 0, 0, 0, 0, 0, 0 };
    int32_t answer;
    if (count < 1 || count > 64) return BLINK_BAD_SEATS;
    map = calloc(1, sizeof *map);
    if (!map) return BLINK_NO_MEMORY;
    map->seats = calloc(count, sizeof *map->seats);
    answer = !map->seats ? BLINK_NO_MEMORY
             : image     ? blink_open_image(image, length, map->seats, count)
                         : blink_open(pages, map->seats, count);
    if (answer != BLINK_OK) {
        free(map->seats);
        free(map);
        return answer;
    }
    blink_stat(&map->seats[0], false, &stats);
    map->pages = (uint32_t)stats.pages;
    map->most = most > map->pages ? most : map->pages;
    map->least = most > map->pages && map->pages > SHIM_LEAST ? SHIM_LEAST : map->pages;
    map->count = count;
    map->free = shim_all(map);
    pthread_mutex_init(&map->lock, NULL);
    pthread_cond_init(&map->given, NULL);
    if (image) shim_count_all(map);
    *made = map;
    return BLINK_OK;
}

/* Waits until no call is underway, and closes all seats. Later calls are answered BLINK_CLOSED. */
static void shim_close(shim_map *map) {
    uint32_t at;
    shim_take_all(map);
    for (at = 0; at < map->count; at++) blink_close(&map->seats[at]);
    map->rows = SHIM_CLOSED;
    shim_give(map, shim_all(map));
}

static void shim_free(shim_map *map) {
    shim_close(map);
    pthread_cond_destroy(&map->given);
    pthread_mutex_destroy(&map->lock);
    free(map->kept);
    free(map->seats);
    free(map);
}

/* Closes the map, and writes its image to the array, which has room for it: `*size` bytes, and then says how many they are. Where it is to go on, it is opened from the
 * image again before other threads' calls, which wait meanwhile; `*goes_on` says whether it is open behind this. */
static int32_t shim_image(shim_map *map, uint8_t *bytes, size_t *size, bool *goes_on) {
    uint64_t length = 0;
    int32_t answer;
    shim_take_all(map);
    answer = blink_close_image(map->seats, map->count, bytes, *size, &length);
    if (answer == BLINK_OK) *size = (size_t)length;
    if (answer == BLINK_OK && *goes_on)
        *goes_on = blink_open_image(bytes, (size_t)length, map->seats, map->count) == BLINK_OK;
    if (answer == BLINK_OK && !*goes_on) map->rows = SHIM_CLOSED;
    shim_give(map, shim_all(map));
    return answer;
}

/* Opens a map that was closed again, from its image. */
static int32_t shim_reopen(shim_map *map, const uint8_t *bytes, size_t length) {
    int32_t answer;
    shim_take_all(map);
    answer = blink_open_image(bytes, length, map->seats, map->count);
    if (answer == BLINK_OK) shim_count_all(map);
    shim_give(map, shim_all(map));
    return answer;
}

/* The key's value, or SHIM_UNSURE, behind which shim_find_surely is called. */
static uint64_t shim_find(shim_map *map, uint64_t key) {
    uint64_t value = SHIM_UNSURE;
    SHIM_CALL(map, answer = blink_find(seat, key, &value))
    return answer == BLINK_OK ? value : SHIM_UNSURE;
}

static int32_t shim_find_surely(shim_map *map, uint64_t key, uint64_t *value) {
    SHIM_CALL(map, answer = blink_find(seat, key, value))
    return answer;
}

static int32_t shim_insert(shim_map *map, uint64_t key, uint64_t value, uint64_t *there) {
    SHIM_WRITE(map, answer = blink_insert(seat, key, value, there), true)
    return answer_;
}

/* Puts a value, and tells no old one: so BLINK_OK in place of BLINK_PRESENT. */
static int32_t shim_set(shim_map *map, uint64_t key, uint64_t value) {
    uint64_t old = 0;
    SHIM_WRITE(map, answer = blink_put(seat, key, value, &old), true)
    return answer_ == BLINK_PRESENT ? BLINK_OK : answer_;
}

static int32_t shim_put(shim_map *map, uint64_t key, uint64_t value, uint64_t *old) {
    SHIM_WRITE(map, answer = blink_put(seat, key, value, old), true)
    return answer_;
}

static int32_t shim_delete(shim_map *map, uint64_t key, uint64_t *gone) {
    SHIM_WRITE(map, answer = blink_delete(seat, key, gone), false)
    if (answer_ == BLINK_OK) shim_shrink(map, shim_count(map, -1));
    return answer_;
}

static int32_t shim_change(shim_map *map, uint64_t key, uint64_t old_value, uint64_t new_value, uint64_t *there) {
    SHIM_WRITE(map, answer = blink_change(seat, key, old_value, new_value, there), false)
    return answer_;
}

static int32_t shim_add(shim_map *map, uint64_t key, uint64_t delta, uint64_t *now) {
    SHIM_WRITE(map, answer = blink_add(seat, key, delta, now), true)
    return answer_;
}

/* The first row, or the last one. */
static int32_t shim_end(shim_map *map, bool is_last, blink_row *row) {
    SHIM_CALL(map, answer = is_last ? blink_last(seat, row) : blink_first(seat, row))
    return answer;
}

/* How far the rows of a range go: those that were written, and where further ones begin, if there may be any. */
typedef struct shim_range {
    uint64_t next, last;
    size_t count;
    bool more;
} shim_range;

/* Rows by rising or by falling keys, `range->next` to `range->last`, as keys and values apart: so many at most, 1 to 512. */
static int32_t shim_rows(shim_map *map, bool is_falling, size_t most, uint64_t *keys, uint64_t *values,
                         shim_range *range) {
    blink_row rows[512];
    uint64_t from = range->next;
    size_t at;
    SHIM_CALL(map, answer = (is_falling ? blink_scan_down_to : blink_scan_to)(
                       seat, from, range->last, rows, most, &range->count, &range->next, &range->more))
    if (answer != BLINK_OK) return answer;
    for (at = 0; at < range->count; at++) {
        keys[at] = rows[at].key;
        values[at] = rows[at].value;
    }
    return BLINK_OK;
}

/* All rows from a key up to another one as the map had them at one moment, where there is room for all; `*count` is how many. */
static int32_t shim_snapshot(shim_map *map, uint64_t from, uint64_t last, uint32_t rounds, blink_row *rows, size_t room,
                             uint64_t *count) {
    SHIM_CALL(map, answer = blink_range(seat, from, last, rounds, rows, room, count))
    return answer;
}

/* Looks many keys up, some at a time: writes the values of those that are there, and, if `found` is not null, which they are. */
static int32_t shim_get_many(shim_map *map, const uint64_t *keys, size_t count, uint64_t *values, uint8_t *found) {
    enum { SOME = 256 };
    uint64_t some[SOME];
    bool are_there[SOME];
    size_t done, at;
    SHIM_CALL(map, answer = BLINK_OK; for (done = 0; done < count && answer == BLINK_OK; done += SOME) {
        const size_t more = count - done < SOME ? count - done : SOME;
        answer = blink_find_many(seat, keys + done, more, some, are_there);
        for (at = 0; answer == BLINK_OK && at < more; at++) {
            if (are_there[at]) values[done + at] = some[at];
            if (found) found[done + at] = are_there[at];
        }
    })
    return answer;
}

/* Puts some pairs, in their order, up to the first that finds no room; `*done` says how many were put, `*fresh` how many keys were new. */
static int32_t shim_put_some(shim_map *map, const uint64_t *keys, const uint64_t *values, size_t count, size_t *done,
                             int64_t *fresh) {
    uint64_t old = 0;
    *done = 0;
    *fresh = 0;
    SHIM_CALL(map, answer = BLINK_OK;
              for (; *done < count && answer != BLINK_NO_ROOM && answer != BLINK_CLOSED; *done += answer <= BLINK_PRESENT) {
                  answer = blink_put(seat, keys[*done], values[*done], &old);
                  *fresh += answer == BLINK_OK;
              })
    return answer;
}

/* The same of many, some at a time, between which the map may grow: up to the first that finds no room all the same. */
static int32_t shim_put_many(shim_map *map, const uint64_t *keys, const uint64_t *values, size_t count, size_t *done) {
    enum { SOME = 64 };
    int32_t answer = BLINK_OK;
    *done = 0;
    while (*done < count) {
        const size_t some = count - *done < SOME ? count - *done : SOME;
        const uint32_t pages = shim_pages(map);
        size_t put = 0;
        int64_t fresh = 0;
        answer = shim_put_some(map, keys + *done, values + *done, some, &put, &fresh);
        *done += put;
        if (!shim_again(map, pages, answer, fresh) && answer > BLINK_PRESENT) return answer;
    }
    return BLINK_OK;
}

/* How many rows there are, or -1 where the map is closed. */
static int64_t shim_length(const shim_map *map) {
    int64_t rows = __atomic_load_n(&map->rows, __ATOMIC_RELAXED);
    return rows == SHIM_CLOSED ? -1 : rows < 0 ? 0 : rows;
}

/* The image of a map that could not be opened again as it grew: how long it is, and its bytes; 0 where there is none. */
static uint64_t shim_kept(const shim_map *map, uint8_t **bytes) {
    *bytes = map->kept;
    return map->kept ? map->kept_length : 0;
}

/* How many pages are free, about, or -1 where the map is closed. */
static int64_t shim_free_pages(shim_map *map) {
    blink_stats stats = { 0, 0, 0, 0, 0, 0, 0 };
    SHIM_CALL(map, answer = blink_stat(seat, false, &stats))
    return answer == BLINK_OK ? (int64_t)stats.free_pages : -1;
}
