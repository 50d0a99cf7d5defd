/* blink's ordered map as a data type of Redis and Valkey: a module of the server.
 *
 *     redis-server --loadmodule ./blink.so        valkey-server --loadmodule ./blink.so
 *     BLINK.SET prices 5 50        BLINK.RANGE prices - + COUNT 100        BLINK.NEXT prices 5
 *
 * README.md has the commands. A key of the server holds a map from u64 to u64; the server has the rest: network, users, replicas, RDB and
 * AOF, expiry, MULTI, Lua and the slots of a cluster. Commands that change a map are replicated as they came. Each does so by the map's
 * rows and its own words alone, never by how full pages are, so replicas and an AOF come to the same rows.
 *
 * A map of few rows is a sorted array. A larger one is parts by rising keys, each a map of the library. That has a fixed number of pages,
 * here some `blink.part-pages` at most: where they are full, the part is made anew with more pages, or as two. So no command holds the
 * server for longer than it takes to make two parts.
 *
 * Only the server's main thread writes; it has the first seat of each part. Where `blink.thread-rows` is not 0, a range of so many rows or
 * more is answered by one further thread, which has the second seats: such an answer is no snapshot. COPY shares parts, and a part that
 * two maps have is made anew before it is written. It goes with the last who has a share in it; many at once are freed by a thread.
 * The child that saves an RDB or rewrites an AOF reads by the first seats: the fork was made between the main thread's calls, a call
 * that reads neither allocates nor waits for others, and the child never returns to the server.
 */
#include "redismodule.h"
#include "blink.h"

#include <endian.h>
#include <pthread.h>
#include <stdatomic.h>
#include <string.h>

/* FEW: the most rows of a map that is an array. FILL: rows of a leaf in a part that is made anew, which leave room for some more.
 * LEAST_PAGES: what such a part has beside the pages for its rows. */
enum { ENCODING = 0, FEW = 128, FILL = 10, LEAST_PAGES = 16, ROWS_AT_ONCE = 256, AOF_ROWS = 64, PARTS_AT_ONCE = 64 };

static RedisModuleType *type;
static long long part_pages = 512, thread_rows = 0, max_rows = 0;
static pthread_t main_thread;

/* ---- Memory: the library's calls of malloc go to the server, which counts it (the linker's --wrap). ---- */

static _Thread_local size_t taken;

void *__wrap_malloc(size_t size);
void *__wrap_realloc(void *at, size_t size);
void __wrap_free(void *at);

/* The server ends where memory is refused, as for its own types. Small blocks too are aligned to 16 bytes. */
void *__wrap_malloc(size_t size) {
    void *at = RedisModule_Alloc(size < 16 ? 16 : size);
    taken += RedisModule_MallocSize(at);
    return at;
}

void *__wrap_realloc(void *at, size_t size) {
    if (at) taken -= RedisModule_MallocSize(at);
    at = RedisModule_Realloc(at, size < 16 ? 16 : size);
    taken += RedisModule_MallocSize(at);
    return at;
}

void __wrap_free(void *at) {
    if (!at) return;
    taken -= RedisModule_MallocSize(at);
    RedisModule_Free(at);
}

/* ---- Workers: threads beside the server's own. ---- */

typedef struct Job {
    struct Job *next;
    void (*run)(struct Job *job);
} Job;

typedef struct Worker {
    pthread_mutex_t lock;
    pthread_cond_t come;
    Job *first, **end;
    bool is_there;
} Worker;

#define NO_WORKER_YET {PTHREAD_MUTEX_INITIALIZER, PTHREAD_COND_INITIALIZER, NULL, NULL, false}
static Worker reader = NO_WORKER_YET, freer = NO_WORKER_YET;

static void *works(void *given) {
    Worker *worker = given;
    for (;;) {
        pthread_mutex_lock(&worker->lock);
        while (!worker->first) pthread_cond_wait(&worker->come, &worker->lock);
        Job *job = worker->first;
        worker->first = job->next;
        if (!worker->first) worker->end = &worker->first;
        pthread_mutex_unlock(&worker->lock);
        job->run(job);
    }
    return NULL;
}

/* Whether the worker is there. It begins when it is first asked for, by the main thread. */
static bool worker_is_there(Worker *worker) {
    pthread_t thread;
    if (worker->is_there) return true;
    worker->end = &worker->first;
    worker->is_there = pthread_create(&thread, NULL, works, worker) == 0;
    if (worker->is_there) pthread_detach(thread);
    return worker->is_there;
}

static void worker_add(Worker *worker, Job *job) {
    job->next = NULL;
    pthread_mutex_lock(&worker->lock);
    *worker->end = job;
    worker->end = &job->next;
    pthread_cond_signal(&worker->come);
    pthread_mutex_unlock(&worker->lock);
}

/* ---- Parts. ---- */

typedef struct Part {
    uint32_t pages, seats;
    size_t bytes;
    _Atomic unsigned maps;   /* how many maps have it */
    _Atomic unsigned shares; /* these and the ranges that go along it */
    blink_seat seat[2];      /* of the main thread, and of the one that reads */
} Part;

/* A part at its place in a map: with the keys from `first` to below that of the next place. */
typedef struct Place {
    uint64_t first, rows;
    Part *part;
} Place;

/* How the block begins that the server has as a map: Parts or Few. */
typedef struct Head {
    bool has_parts : 1;
    bool is_kept : 1; /* made by BLINK.CREATE: stays where it has no row */
} Head;

/* Places by rising keys, of which the first begins at 0, and none is without rows between two commands. */
typedef struct Parts {
    Head head;
    uint64_t rows, most;
    size_t count, room;
    size_t bytes; /* of the parts */
    Place place[];
} Parts;

/* Few rows by rising keys. All keys have as many bytes as the greatest wants, 4 at least, and so have all values, 1 at least: with 12 for both,
 * a map of one row is a block of 16 bytes, the least that there is. A map that is kept has `most` before its rows. */
typedef struct Few {
    Head head;
    uint8_t rows, key_bytes, value_bytes;
    uint8_t packed[];
} Few;

/* A map while a command is at it. Its block may move, of which the server hears at the end (map_store). */
typedef struct Map {
    uint64_t rows;
    uint64_t most; /* how many there may be, by BLINK.CREATE, or 0 */
    union {
        Few *few; /* null: there is no map */
        Parts *parts;
    };
    bool has_parts, is_kept;
} Map;

static void part_leave(Part *part) {
    if (atomic_fetch_sub(&part->shares, 1) != 1) return;
    for (uint32_t i = 0; i < part->seats; i++) blink_close(&part->seat[i]);
    RedisModule_Free(part);
}

static void places_leave_now(const Place *place, size_t count) {
    for (size_t i = 0; i < count; i++) {
        atomic_fetch_sub(&place[i].part->maps, 1);
        part_leave(place[i].part);
    }
}

typedef struct Leaving {
    Job job;
    size_t count;
    Place place[];
} Leaving;

static void leaving_run(Job *job) {
    Leaving *leaving = (Leaving *)job;
    places_leave_now(leaving->place, leaving->count);
    RedisModule_Free(leaving);
}

/* A map has these parts no more. The server's own thread that frees may take its time. So may the main thread where memory is scarce: a
 * server that evicts goes on until it sees enough of it come back. */
static void places_leave(const Place *place, size_t count) {
    if (count <= PARTS_AT_ONCE || !pthread_equal(pthread_self(), main_thread) ||
        (RedisModule_GetContextFlags(NULL) & REDISMODULE_CTX_FLAGS_OOM) || !worker_is_there(&freer)) {
        places_leave_now(place, count);
        return;
    }
    Leaving *leaving = RedisModule_Alloc(sizeof *leaving + count * sizeof *place);
    leaving->job.run = leaving_run;
    leaving->count = count;
    memcpy(leaving->place, place, count * sizeof *place);
    worker_add(&freer, &leaving->job);
}

/* Pages for so many rows, `fill` in each leaf, with those above, and a few more. */
static uint32_t pages_for(size_t rows, uint32_t fill) { return (uint32_t)(rows / (fill - 1) + LEAST_PAGES); }

/* The same, and a quarter more for rows to come. */
static uint32_t pages_to_grow(size_t rows, uint32_t fill) { return pages_for(rows, fill) * 5 / 4; }

/* A place with rows, `fill` of them in each leaf. A lone part has no seat for the thread that reads. */
static Place place_new(uint64_t first, const blink_row *rows, size_t count, uint32_t pages, uint32_t fill, bool is_lone) {
    const size_t before = taken;
    Part *part = RedisModule_Calloc(1, sizeof *part);
    part->pages = pages;
    part->seats = is_lone ? 1 : 2;
    part->maps = part->shares = 1;
    int32_t answer;
    if (count == 0) {
        answer = blink_open(pages, part->seat, part->seats);
    } else {
        const size_t size = blink_image_length(pages);
        uint8_t *image = RedisModule_Alloc(size);
        uint64_t length = 0;
        answer = blink_image_of(rows, count, pages, fill, image, size, &length);
        if (answer == BLINK_OK) answer = blink_open_image(image, length, part->seat, part->seats);
        RedisModule_Free(image);
    }
    RedisModule_Assert(answer == BLINK_OK);
    part->bytes = taken - before + sizeof *part;
    return (Place){first, count, part};
}

/* Puts places in the stead of `olds` others. Such a map has parts. */
static void map_splice(Map *map, size_t at, size_t olds, const Place *news, size_t count) {
    Parts *parts = map->parts;
    const size_t all = parts->count - olds + count;
    for (size_t i = 0; i < olds; i++) parts->bytes -= parts->place[at + i].part->bytes;
    places_leave(parts->place + at, olds);
    if (all > parts->room) {
        parts->room = all + all / 2;
        parts = map->parts = RedisModule_Realloc(parts, sizeof *parts + parts->room * sizeof *parts->place);
    }
    memmove(parts->place + at + count, parts->place + at + olds, (parts->count - at - olds) * sizeof *parts->place);
    for (size_t i = 0; i < count; i++) {
        parts->place[at + i] = news[i];
        parts->bytes += news[i].part->bytes;
    }
    parts->count = all;
    if (all > 0) parts->place[0].first = 0;
}

/* The place where a key belongs. */
static size_t place_find(const Map *map, uint64_t key) {
    const Place *place = map->parts->place;
    size_t low = 0, high = map->parts->count;
    while (high - low > 1) {
        const size_t middle = low + (high - low) / 2;
        if (place[middle].first <= key) low = middle;
        else high = middle;
    }
    return low;
}

/* The rows of some places, for the caller to free. */
static blink_row *rows_of(const Map *map, size_t at, size_t places, size_t *count) {
    const Place *place = map->parts->place + at;
    size_t all = 0;
    for (size_t i = 0; i < places; i++) all += place[i].rows;
    blink_row *rows = RedisModule_Alloc((all + 1) * sizeof *rows);
    *count = 0;
    for (size_t i = 0; i < places; i++) {
        size_t some = 0;
        uint64_t next = 0;
        bool more = false;
        /* With room for one more a scan goes on to the end, and says so. */
        const int32_t answer = blink_scan(&place[i].part->seat[0], 0, rows + *count, all + 1 - *count, &some, &next, &more);
        RedisModule_Assert(answer == BLINK_OK && !more && some == place[i].rows);
        *count += some;
    }
    return rows;
}

/* The most pages of a part: a quarter less or not, by its first key, so that parts of keys at random do not fill up in step. */
static uint32_t most_pages(uint64_t first) {
    const uint32_t most = (uint32_t)part_pages;
    return most - (uint32_t)((first * 0x9E3779B97F4A7C15u >> 32) % (most / 4));
}

/* More room for a key at its place: more pages; or, behind all rows, a new part; or two halves. Rows that come by rising keys leave full
 * leaves behind, and others such as have room. */
static void place_make_room(Map *map, size_t at, uint64_t key) {
    const Place old = map->parts->place[at];
    size_t count = 0, news = 1;
    blink_row *rows = rows_of(map, at, 1, &count);
    const bool is_lone = map->parts->count == 1, is_rising = at + 1 == map->parts->count && count > 0 && key > rows[count - 1].key;
    const uint32_t fill = is_rising ? BLINK_LEAF_ROWS : FILL, pages = pages_to_grow(count, fill);
    Place made[2];
    if (pages <= most_pages(old.first)) {
        made[0] = place_new(old.first, rows, count, pages, fill, is_lone);
    } else if (is_rising) {
        made[0] = place_new(old.first, rows, count, pages_for(count, fill), fill, false);
        made[1] = place_new(key, NULL, 0, 4 * LEAST_PAGES, 0, false);
        news = 2;
    } else {
        const size_t half = count / 2, other = count - half;
        made[0] = place_new(old.first, rows, half, pages_to_grow(half, fill), fill, false);
        made[1] = place_new(rows[half].key, rows + half, other, pages_to_grow(other, fill), fill, false);
        news = 2;
    }
    RedisModule_Free(rows);
    map_splice(map, at, 1, made, news);
}

/* ---- Maps of few rows, and how a map becomes one, or ceases to be. ---- */

/* How many bytes a number wants, one at least. */
static unsigned bytes_of(uint64_t number) { return (71 - (unsigned)__builtin_clzll(number | 1)) / 8; }

/* A number is packed with the least byte first. It is read with what is before it, eight bytes at once: these are of the block too, since
 * a key has four at least. */
static uint64_t number_before(const uint8_t *end, unsigned bytes) {
    uint64_t number;
    memcpy(&number, end - sizeof number, sizeof number);
    return le64toh(number) >> (64 - 8 * bytes);
}

static void number_pack(uint8_t *at, unsigned bytes, uint64_t number) {
    for (unsigned i = 0; i < bytes; i++) at[i] = (uint8_t)(number >> 8 * i);
}

static size_t few_offset(const Few *few, size_t at) {
    return (few->head.is_kept ? sizeof(uint64_t) : 0) + at * (few->key_bytes + few->value_bytes);
}

static uint64_t few_key(const Few *few, size_t at) {
    return number_before(few->packed + few_offset(few, at) + few->key_bytes, few->key_bytes);
}

static uint64_t few_value(const Few *few, size_t at) { return number_before(few->packed + few_offset(few, at + 1), few->value_bytes); }

static void few_set(Few *few, size_t at, blink_row row) {
    uint8_t *packed = few->packed + few_offset(few, at);
    number_pack(packed, few->key_bytes, row.key);
    number_pack(packed + few->key_bytes, few->value_bytes, row.value);
}

static void few_rows(const Map *map, blink_row *rows) {
    for (size_t i = 0; i < map->rows; i++) rows[i] = (blink_row){few_key(map->few, i), few_value(map->few, i)};
}

/* Makes a block of these rows the map's. Its numbers have bytes enough for those of the other row, too. */
static void few_pack(Map *map, const blink_row *rows, size_t count, blink_row other) {
    for (size_t i = 0; i < count; i++) other = (blink_row){other.key | rows[i].key, other.value | rows[i].value};
    const Few made = {{false, map->is_kept}, 0, (uint8_t)bytes_of(other.key | UINT32_MAX), (uint8_t)bytes_of(other.value)};
    map->few = RedisModule_Alloc(sizeof made + few_offset(&made, count));
    *map->few = made;
    if (map->is_kept) number_pack(map->few->packed, sizeof map->most, map->most);
    for (size_t i = 0; i < count; i++) few_set(map->few, i, rows[i]);
    map->rows = count;
    map->has_parts = false;
}

/* How many of few rows have lesser keys. */
static size_t few_below(const Map *map, uint64_t key) {
    size_t low = 0, high = map->rows;
    while (low < high) {
        const size_t middle = low + (high - low) / 2;
        if (few_key(map->few, middle) < key) low = middle + 1;
        else high = middle;
    }
    return low;
}

static bool few_has(const Map *map, size_t at, uint64_t key) { return at < map->rows && few_key(map->few, at) == key; }

/* Makes room for one of few rows, or takes some away. */
static void few_move(Map *map, size_t at, size_t olds, size_t news) {
    const size_t rows = map->rows - olds + news, size = sizeof *map->few + few_offset(map->few, rows);
    const size_t behind = few_offset(map->few, map->rows) - few_offset(map->few, at + olds);
    if (news > olds) map->few = RedisModule_Realloc(map->few, size);
    memmove(map->few->packed + few_offset(map->few, at + news), map->few->packed + few_offset(map->few, at + olds), behind);
    if (news < olds) map->few = RedisModule_Realloc(map->few, size);
    map->rows = rows;
}

/* Puts a row at its place among few, in the stead of the one with its key if that is there. For a greater number than all before, the
 * block is packed anew. */
static void few_put(Map *map, size_t at, bool had, blink_row row) {
    Few *old = map->few;
    if (!old || bytes_of(row.key) > old->key_bytes || bytes_of(row.value) > old->value_bytes) {
        blink_row rows[FEW];
        few_rows(map, rows);
        few_pack(map, rows, map->rows, row);
        RedisModule_Free(old);
    }
    if (!had) few_move(map, at, 0, 1);
    few_set(map->few, at, row);
}

/* Makes the map one of parts, as yet without any. */
static void parts_begin(Map *map) {
    map->parts = RedisModule_Calloc(1, sizeof *map->parts);
    map->parts->head = (Head){true, map->is_kept};
    map->parts->most = map->most;
    map->has_parts = true;
}

static void map_becomes_parts(Map *map) {
    blink_row rows[FEW];
    few_rows(map, rows);
    const Place made = place_new(0, rows, map->rows, pages_to_grow(map->rows, FILL), FILL, true);
    RedisModule_Free(map->few);
    parts_begin(map);
    map_splice(map, 0, 0, &made, 1);
}

static void map_becomes_few(Map *map) {
    Parts *parts = map->parts;
    size_t count = 0;
    blink_row *rows = rows_of(map, 0, parts->count, &count);
    places_leave(parts->place, parts->count);
    RedisModule_Free(parts);
    few_pack(map, rows, count, (blink_row){0, 0});
    RedisModule_Free(rows);
}

/* A place with few rows for its pages is joined with its neighbours, up to half as many rows as a part has, or has fewer pages from now on.
 * With few rows in all the map is an array again. */
static void map_shrink(Map *map, size_t at) {
    const Place *place = map->parts->place;
    if (map->rows <= FEW / 2) {
        map_becomes_few(map);
    } else if (place[at].rows == 0) {
        map_splice(map, at, 1, NULL, 0);
    } else if (place[at].rows < 2 * (uint64_t)(place[at].part->pages - LEAST_PAGES)) {
        const uint64_t most = 4 * (uint64_t)part_pages;
        size_t from = at, behind = at + 1, count = 0;
        uint64_t all = place[at].rows;
        while (behind < map->parts->count && all + place[behind].rows <= most) all += place[behind++].rows;
        while (from > 0 && all + place[from - 1].rows <= most) all += place[--from].rows;
        blink_row *rows = rows_of(map, from, behind - from, &count);
        const Place made = place_new(place[from].first, rows, count, pages_for(count, FILL), FILL, behind - from == map->parts->count);
        RedisModule_Free(rows);
        map_splice(map, from, behind - from, &made, 1);
    }
}

/* ---- The map's calls. ---- */

/* The map that the server has as this block. */
static Map map_of(const void *value) {
    const Head *head = value;
    Map map = {.has_parts = head->has_parts, .is_kept = head->is_kept};
    if (map.has_parts) {
        map.parts = (Parts *)value;
        map.rows = map.parts->rows;
        map.most = map.parts->most;
    } else {
        map.few = (Few *)value;
        map.rows = map.few->rows;
        if (map.is_kept) map.most = number_before(map.few->packed + sizeof map.most, sizeof map.most);
    }
    return map;
}

/* The block of a map, for the server. */
static void *map_value(const Map *map) {
    if (map->has_parts) {
        map->parts->rows = map->rows;
        return map->parts;
    }
    map->few->rows = (uint8_t)map->rows;
    return map->few;
}

static void map_free(void *value) {
    const Map map = map_of(value);
    if (map.has_parts) places_leave(map.parts->place, map.parts->count);
    RedisModule_Free(value);
}

static bool map_get(const Map *map, uint64_t key, uint64_t *value) {
    if (map->has_parts) return blink_find(&map->parts->place[place_find(map, key)].part->seat[0], key, value) == BLINK_OK;
    const size_t at = few_below(map, key);
    if (!few_has(map, at, key)) return false;
    *value = few_value(map->few, at);
    return true;
}

/* The place of a key that is to be written. A part that another map has too, since COPY, is made anew first. */
static size_t place_to_write(Map *map, uint64_t key) {
    const size_t at = place_find(map, key);
    const Place old = map->parts->place[at];
    if (atomic_load(&old.part->maps) > 1) {
        size_t count = 0;
        blink_row *rows = rows_of(map, at, 1, &count);
        const Place made = place_new(old.first, rows, count, pages_to_grow(count, FILL), FILL, map->parts->count == 1);
        RedisModule_Free(rows);
        map_splice(map, at, 1, &made, 1);
    }
    return at;
}

/* Answers whether the key was there, and with which value. */
static bool map_put(Map *map, uint64_t key, uint64_t value, uint64_t *old) {
    if (!map->has_parts) {
        const size_t at = few_below(map, key);
        const bool had = few_has(map, at, key);
        if (had || map->rows < FEW) {
            if (had) *old = few_value(map->few, at);
            few_put(map, at, had, (blink_row){key, value});
            return had;
        }
        map_becomes_parts(map);
    }
    for (;;) {
        const size_t at = place_to_write(map, key);
        const int32_t answer = blink_put(&map->parts->place[at].part->seat[0], key, value, old);
        if (answer == BLINK_PRESENT) return true;
        if (answer == BLINK_OK) {
            map->parts->place[at].rows++;
            map->rows++;
            return false;
        }
        RedisModule_Assert(answer == BLINK_NO_ROOM);
        place_make_room(map, at, key);
    }
}

static bool map_delete(Map *map, uint64_t key) {
    if (!map->has_parts) {
        const size_t at = few_below(map, key);
        if (!few_has(map, at, key)) return false;
        few_move(map, at, 1, 0);
        return true;
    }
    for (;;) {
        const size_t at = place_to_write(map, key);
        uint64_t gone = 0;
        const int32_t answer = blink_delete(&map->parts->place[at].part->seat[0], key, &gone);
        if (answer == BLINK_ABSENT) return false;
        if (answer == BLINK_OK) {
            map->parts->place[at].rows--;
            map->rows--;
            map_shrink(map, at);
            return true;
        }
        RedisModule_Assert(answer == BLINK_NO_ROOM);
        place_make_room(map, at, key);
    }
}

/* Takes many rows of one place away: what stays is made anew. */
static void place_delete(Map *map, size_t at, uint64_t from, uint64_t last) {
    size_t count = 0, kept = 0;
    blink_row *rows = rows_of(map, at, 1, &count);
    for (size_t i = 0; i < count; i++)
        if (rows[i].key < from || rows[i].key > last) rows[kept++] = rows[i];
    const Place made = place_new(map->parts->place[at].first, rows, kept, pages_for(kept, FILL), FILL, map->parts->count == 1);
    RedisModule_Free(rows);
    map_splice(map, at, 1, &made, 1);
    map->rows -= count - kept;
    map_shrink(map, at);
}

/* A walk along rows, upwards or downwards: of few rows, or of some places by one of the seats. */
typedef struct Walk {
    const Few *few;
    size_t low; /* the first of few rows */
    const Place *place;
    size_t at, count; /* of rows, or places: which is next, of how many */
    int seat;
    bool is_down, is_over;
    uint64_t next, last; /* where it goes on in its part, and the last key */
} Walk;

/* `from` is not behind `last`. */
static Walk walk_of(const Map *map, bool is_down, uint64_t from, uint64_t last) {
    Walk walk = {.is_down = is_down, .next = from, .last = last};
    const uint64_t least = is_down ? last : from, greatest = is_down ? from : last;
    if (map->has_parts) {
        const size_t low = place_find(map, least), high = place_find(map, greatest);
        walk.place = map->parts->place + low;
        walk.count = high - low + 1;
    } else {
        const size_t low = few_below(map, least), high = greatest == UINT64_MAX ? map->rows : few_below(map, greatest + 1);
        walk.few = map->few;
        walk.low = low;
        walk.count = high - low;
        walk.is_over = walk.count == 0;
    }
    if (is_down && !walk.is_over) walk.at = walk.count - 1;
    return walk;
}

/* Goes to the next row or place, if there is one. */
static void walk_on(Walk *walk) {
    walk->is_over = walk->at == (walk->is_down ? 0 : walk->count - 1);
    if (!walk->is_over) walk->at += walk->is_down ? (size_t)-1 : 1;
}

/* The next rows, of which there are more unless it answers 0. */
static size_t walk_rows(Walk *walk, blink_row *rows, size_t room) {
    size_t count = 0;
    if (!walk->place) {
        for (; count < room && !walk->is_over; walk_on(walk)) {
            const size_t at = walk->low + walk->at;
            rows[count++] = (blink_row){few_key(walk->few, at), few_value(walk->few, at)};
        }
        return count;
    }
    while (count == 0 && !walk->is_over) {
        blink_seat *seat = &walk->place[walk->at].part->seat[walk->seat];
        uint64_t next = 0;
        bool more = false;
        const int32_t answer = walk->is_down
                                   ? blink_scan_down_to(seat, walk->next, walk->last, rows, room, &count, &next, &more)
                                   : blink_scan_to(seat, walk->next, walk->last, rows, room, &count, &next, &more);
        RedisModule_Assert(answer == BLINK_OK);
        walk->next = more ? next : walk->is_down ? UINT64_MAX : 0;
        if (!more) walk_on(walk);
    }
    return count;
}

/* How many rows there are between two keys, both included: places between count as a whole. */
static uint64_t map_count(const Map *map, uint64_t from, uint64_t last) {
    const Walk walk = walk_of(map, false, from, last);
    if (!walk.place) return walk.count;
    uint64_t all = 0;
    for (size_t i = 0; i < walk.count; i++) {
        uint64_t some = walk.place[i].rows;
        if ((i == 0 && from > walk.place[i].first) || (i + 1 == walk.count && last < UINT64_MAX)) {
            const int32_t answer = blink_count(&walk.place[i].part->seat[0], from, last, &some);
            RedisModule_Assert(answer == BLINK_OK);
        }
        all += some;
    }
    return all;
}

/* Takes the rows between two keys away, both included, and answers how many: whole parts at once, and what is left at both ends. */
static uint64_t map_delete_range(Map *map, uint64_t from, uint64_t last) {
    const uint64_t before = map->rows;
    if (map->has_parts) {
        const Place *place = map->parts->place;
        size_t low = place_find(map, from), high = place_find(map, last);
        if (place[low].first < from) low++;
        if (last == UINT64_MAX) high++;
        for (size_t i = low; i < high; i++) map->rows -= place[i].rows;
        if (low < high) {
            map_splice(map, low, high - low, NULL, 0);
            if (map->rows <= FEW / 2) map_becomes_few(map);
        }
    }
    while (map->has_parts) {
        Walk walk = walk_of(map, false, from, last);
        blink_row rows[FEW];
        const size_t count = walk_rows(&walk, rows, FEW);
        if (count == 0) break;
        for (size_t i = 0; i < count && count < FEW; i++) map_delete(map, rows[i].key);
        if (count == FEW) place_delete(map, place_find(map, rows[0].key), from, last);
    }
    if (!map->has_parts) {
        const Walk walk = walk_of(map, false, from, last);
        if (walk.count > 0) few_move(map, walk.low, walk.count, 0);
    }
    return before - map->rows;
}

/* How large the block is. */
static size_t map_size(const Map *map) {
    if (!map->has_parts) return sizeof *map->few + few_offset(map->few, map->rows);
    return sizeof *map->parts + map->parts->room * sizeof *map->parts->place;
}

/* What it takes, as the server counts it. */
static size_t map_bytes(const Map *map) {
    return map->has_parts ? map_size(map) + map->parts->bytes : RedisModule_MallocSize(map->few);
}

/* ---- What the server calls. ---- */

/* RDB: kept, most, count; then each row as the distance from the key before, and the value. */
static void type_save(RedisModuleIO *rdb, void *value) {
    const Map map = map_of(value);
    Walk walk = walk_of(&map, false, 0, UINT64_MAX);
    blink_row rows[ROWS_AT_ONCE];
    uint64_t key = 0;
    size_t count;
    RedisModule_SaveUnsigned(rdb, map.is_kept);
    RedisModule_SaveUnsigned(rdb, map.most);
    RedisModule_SaveUnsigned(rdb, map.rows);
    while ((count = walk_rows(&walk, rows, ROWS_AT_ONCE)) > 0)
        for (size_t i = 0; i < count; i++) {
            RedisModule_SaveUnsigned(rdb, rows[i].key - key);
            RedisModule_SaveUnsigned(rdb, rows[i].value);
            key = rows[i].key;
        }
}

/* So many rows of an RDB, whose keys rise from the one before, which is changed; fewer where that is not what there is. */
static size_t load_rows(RedisModuleIO *rdb, blink_row *rows, size_t count, uint64_t *key, bool is_first) {
    for (size_t i = 0; i < count; i++, is_first = false) {
        const uint64_t step = RedisModule_LoadUnsigned(rdb), value = RedisModule_LoadUnsigned(rdb);
        if (RedisModule_IsIOError(rdb) || *key + step < *key || (step == 0 && !is_first)) return i;
        *key += step;
        rows[i] = (blink_row){*key, value};
    }
    return count;
}

/* The rows of an RDB, which become parts as they come, with twelve a leaf, or are few. */
static bool load_map(RedisModuleIO *rdb, Map *map, uint64_t all) {
    const uint64_t at_once = 9 * (uint64_t)part_pages;
    bool is_good = true;
    uint64_t key = 0;
    blink_row *rows = RedisModule_Alloc(((all < at_once ? all : at_once) + 1) * sizeof *rows);
    if (all > FEW) parts_begin(map);
    while (is_good && map->rows < all) {
        const size_t wanted = all - map->rows < at_once ? all - map->rows : at_once;
        const size_t count = load_rows(rdb, rows, wanted, &key, map->rows == 0);
        is_good = count == wanted;
        if (!is_good || !map->has_parts) break;
        const Place made = place_new(rows[0].key, rows, count, pages_for(count, 12), 12, all <= at_once);
        map_splice(map, map->parts->count, 0, &made, 1);
        map->rows += count;
    }
    if (!map->has_parts) few_pack(map, rows, is_good ? all : 0, (blink_row){0, 0});
    RedisModule_Free(rows);
    return is_good;
}

static void *type_load(RedisModuleIO *rdb, int encoding) {
    if (encoding != ENCODING) return NULL;
    const uint64_t kept = RedisModule_LoadUnsigned(rdb), most = RedisModule_LoadUnsigned(rdb), all = RedisModule_LoadUnsigned(rdb);
    Map map = {.is_kept = kept != 0, .most = most};
    /* What was not kept has a row, and no bound. */
    if (!RedisModule_IsIOError(rdb) && kept <= 1 && (kept == 1 || (most == 0 && all > 0))) {
        if (load_map(rdb, &map, all)) return map_value(&map);
        map_free(map_value(&map));
    }
    RedisModule_LogIOError(rdb, "warning", "blink: the rows of a map cannot be read");
    return NULL;
}

static size_t decimal(uint64_t number, char *to) {
    char digits[20];
    size_t count = 0;
    do digits[count++] = (char)('0' + number % 10);
    while ((number /= 10) > 0);
    for (size_t i = 0; i < count; i++) to[i] = digits[count - 1 - i];
    return count;
}

static RedisModuleString *string_of(uint64_t number) {
    char text[20];
    return RedisModule_CreateString(NULL, text, decimal(number, text));
}

static void type_rewrite(RedisModuleIO *aof, RedisModuleString *name, void *value) {
    const Map map = map_of(value);
    Walk walk = walk_of(&map, false, 0, UINT64_MAX);
    blink_row rows[AOF_ROWS];
    RedisModuleString *words[2 * AOF_ROWS];
    size_t count;
    if (map.is_kept && map.most > 0) {
        RedisModuleString *most = string_of(map.most);
        RedisModule_EmitAOF(aof, "BLINK.CREATE", "scs", name, "MAXROWS", most);
        RedisModule_FreeString(NULL, most);
    } else if (map.is_kept) {
        RedisModule_EmitAOF(aof, "BLINK.CREATE", "s", name);
    }
    while ((count = walk_rows(&walk, rows, AOF_ROWS)) > 0) {
        for (size_t i = 0; i < count; i++) {
            words[2 * i] = string_of(rows[i].key);
            words[2 * i + 1] = string_of(rows[i].value);
        }
        RedisModule_EmitAOF(aof, "BLINK.MSET", "sv", name, words, 2 * count);
        for (size_t i = 0; i < 2 * count; i++) RedisModule_FreeString(NULL, words[i]);
    }
}

static size_t type_memory(const void *value) {
    const Map map = map_of(value);
    return map_bytes(&map);
}

static void type_digest(RedisModuleDigest *digest, void *value) {
    const Map map = map_of(value);
    Walk walk = walk_of(&map, false, 0, UINT64_MAX);
    blink_row rows[ROWS_AT_ONCE];
    size_t count;
    while ((count = walk_rows(&walk, rows, ROWS_AT_ONCE)) > 0)
        for (size_t i = 0; i < count; i++) {
            RedisModule_DigestAddLongLong(digest, (long long)rows[i].key);
            RedisModule_DigestAddLongLong(digest, (long long)rows[i].value);
            RedisModule_DigestEndSequence(digest);
        }
}

/* Above 64 the server frees it in its thread. A part is a dozen large blocks. */
static size_t type_effort(RedisModuleString *name, const void *value) {
    const Map map = map_of(value);
    (void)name;
    return map.has_parts ? 16 * map.parts->count : 1;
}

/* The copy has the same parts, of which each is made anew when one of the two maps is to write to it. */
static void *type_copy(RedisModuleString *from, RedisModuleString *to, const void *value) {
    const Map map = map_of(value);
    const size_t size = map_size(&map);
    (void)from, (void)to;
    for (size_t i = 0; map.has_parts && i < map.parts->count; i++) {
        atomic_fetch_add(&map.parts->place[i].part->maps, 1);
        atomic_fetch_add(&map.parts->place[i].part->shares, 1);
    }
    return memcpy(RedisModule_Alloc(size), value, size);
}

/* ---- Words of commands. ---- */

static bool digits_of(const char *text, size_t length, uint64_t *number) {
    uint64_t made = 0;
    if (length == 0 || length > 20 || (length > 1 && text[0] == '0')) return false;
    for (size_t i = 0; i < length; i++) {
        const unsigned digit = (unsigned)(text[i] - '0');
        if (digit > 9 || made > (UINT64_MAX - digit) / 10) return false;
        made = made * 10 + digit;
    }
    *number = made;
    return true;
}

static bool number_of(const RedisModuleString *word, uint64_t *number) {
    size_t length = 0;
    const char *text = RedisModule_StringPtrLen(word, &length);
    return digits_of(text, length, number);
}

static bool are_numbers(RedisModuleString **words, int count) {
    uint64_t number;
    for (int i = 0; i < count; i++)
        if (!number_of(words[i], &number)) return false;
    return true;
}

static bool is_word(const RedisModuleString *word, const char *text) {
    size_t length = 0;
    const char *at = RedisModule_StringPtrLen(word, &length);
    return length == strlen(text) && strncasecmp(at, text, length) == 0;
}

/* A bound: a number, '-' or '+', or '(' and a number for the range without it. Where nothing is left, the range is empty. */
static bool bound_of(const RedisModuleString *word, bool is_least, uint64_t *number, bool *is_empty) {
    size_t length = 0;
    const char *text = RedisModule_StringPtrLen(word, &length);
    const bool is_open = length > 0 && text[0] == '(';
    if (length == 1 && (text[0] == '-' || text[0] == '+')) {
        *number = text[0] == '-' ? 0 : UINT64_MAX;
        return true;
    }
    if (!digits_of(text + is_open, length - is_open, number)) return false;
    if (!is_open) return true;
    if (*number == (is_least ? UINT64_MAX : 0)) *is_empty = true;
    else *number += is_least ? 1 : (uint64_t)-1;
    return true;
}

/* A range: its bounds, and whether it has no key. */
static bool range_of(RedisModuleString *least, RedisModuleString *greatest, uint64_t *from, uint64_t *last, bool *is_empty) {
    *is_empty = false;
    if (!bound_of(least, true, from, is_empty) || !bound_of(greatest, false, last, is_empty)) return false;
    *is_empty = *is_empty || *from > *last;
    return true;
}

/* ---- Answers. ---- */

static const char NO_NUMBER[] = "ERR value is not an unsigned 64-bit integer or out of range";
static const char NO_BOUND[] = "ERR min or max is not an unsigned 64-bit integer, '-', '+' or '(' before one";
static const char NO_SYNTAX[] = "ERR syntax error";
static const char FULL[] = "MAPFULL the map has as many rows as it may have";

static int answer_number(RedisModuleCtx *ctx, uint64_t number) {
    char text[20];
    return RedisModule_ReplyWithStringBuffer(ctx, text, decimal(number, text));
}

static int answer_maybe(RedisModuleCtx *ctx, bool is_there, uint64_t number) {
    return is_there ? answer_number(ctx, number) : RedisModule_ReplyWithNull(ctx);
}

/* Pairs in RESP3, as ZRANGE WITHSCORES has them; else key, value, key, value. */
static void answer_rows(RedisModuleCtx *ctx, Walk *walk, uint64_t most, bool is_pairs) {
    blink_row rows[ROWS_AT_ONCE];
    uint64_t all = 0;
    size_t count;
    RedisModule_ReplyWithArray(ctx, REDISMODULE_POSTPONED_LEN);
    while (all < most && (count = walk_rows(walk, rows, most - all < ROWS_AT_ONCE ? most - all : ROWS_AT_ONCE)) > 0) {
        for (size_t i = 0; i < count; i++) {
            if (is_pairs) RedisModule_ReplyWithArray(ctx, 2);
            answer_number(ctx, rows[i].key);
            answer_number(ctx, rows[i].value);
        }
        all += count;
    }
    RedisModule_ReplySetArrayLength(ctx, (long)(is_pairs ? all : 2 * all));
}

/* The map at a key of the server, which has no block and no row where there is none. Answers false where it has said why not. */
static bool map_at(RedisModuleCtx *ctx, RedisModuleString *name, int mode, RedisModuleKey **key, Map *map) {
    *key = RedisModule_OpenKey(ctx, name, mode);
    *map = (Map){0};
    if (!*key || RedisModule_KeyType(*key) == REDISMODULE_KEYTYPE_EMPTY) return true;
    if (RedisModule_ModuleTypeGetType(*key) != type) {
        RedisModule_ReplyWithError(ctx, REDISMODULE_ERRORMSG_WRONGTYPE);
        return false;
    }
    *map = map_of(RedisModule_ModuleTypeGetValue(*key));
    return true;
}

static bool map_to_read(RedisModuleCtx *ctx, RedisModuleString *name, Map *map) {
    RedisModuleKey *key;
    return map_at(ctx, name, REDISMODULE_READ, &key, map);
}

static bool map_to_write(RedisModuleCtx *ctx, RedisModuleString *name, RedisModuleKey **key, Map *map) {
    return map_at(ctx, name, REDISMODULE_READ | REDISMODULE_WRITE, key, map);
}

/* Gives the server the map's block, which may have moved even where no row has changed. */
static void map_store(RedisModuleKey *key, const Map *map) {
    if (!map->few) return;
    void *value = map_value(map);
    if (RedisModule_ModuleTypeReplaceValue(key, type, value, NULL) == REDISMODULE_ERR) RedisModule_ModuleTypeSetValue(key, type, value);
}

/* What each change is followed by. A map goes with its last row, where BLINK.CREATE has not made it. */
static void changed(RedisModuleCtx *ctx, RedisModuleString *name, RedisModuleKey *key, const Map *map, const char *event) {
    const bool is_gone = map->rows == 0 && !map->is_kept;
    map_store(key, map);
    if (is_gone) RedisModule_DeleteKey(key);
    RedisModule_ReplicateVerbatim(ctx);
    RedisModule_SignalModifiedKey(ctx, name);
    RedisModule_NotifyKeyspaceEvent(ctx, REDISMODULE_NOTIFY_MODULE, event, name);
    if (is_gone) RedisModule_NotifyKeyspaceEvent(ctx, REDISMODULE_NOTIFY_GENERIC, "del", name);
}

/* Whether so many more rows are too many. A replica, and what reads an AOF, do as the master did. */
static bool is_too_full(RedisModuleCtx *ctx, const Map *map, uint64_t more) {
    const uint64_t most = map->most > 0 ? map->most : (uint64_t)max_rows;
    if (most == 0 || more == 0 || map->rows + more <= most) return false;
    return (RedisModule_GetContextFlags(ctx) & (REDISMODULE_CTX_FLAGS_REPLICATED | REDISMODULE_CTX_FLAGS_LOADING)) == 0;
}

/* ---- Commands. ---- */

#define COMMAND(name) static int name##_command(RedisModuleCtx *ctx, RedisModuleString **argv, int argc)

COMMAND(create) {
    uint64_t most = 0;
    RedisModuleKey *key;
    Map map;
    if (argc != 2 && argc != 4) return RedisModule_WrongArity(ctx);
    RedisModule_AutoMemory(ctx);
    if (argc == 4 && !is_word(argv[2], "MAXROWS")) return RedisModule_ReplyWithError(ctx, NO_SYNTAX);
    if (argc == 4 && (!number_of(argv[3], &most) || most == 0)) return RedisModule_ReplyWithError(ctx, NO_NUMBER);
    if (!map_to_write(ctx, argv[1], &key, &map)) return REDISMODULE_OK;
    if (map.few) return RedisModule_ReplyWithError(ctx, "BUSYKEY Target key name already exists.");
    map = (Map){.is_kept = true, .most = most};
    few_pack(&map, NULL, 0, (blink_row){0, 0});
    changed(ctx, argv[1], key, &map, "blink.create");
    return RedisModule_ReplyWithSimpleString(ctx, "OK");
}

COMMAND(set) {
    uint64_t at, value, old = 0;
    bool is_new = false, is_old = false, is_get = false;
    RedisModuleKey *key;
    Map map;
    if (argc < 4) return RedisModule_WrongArity(ctx);
    RedisModule_AutoMemory(ctx);
    for (int i = 4; i < argc; i++) {
        if (is_word(argv[i], "NX")) is_new = true;
        else if (is_word(argv[i], "XX")) is_old = true;
        else if (is_word(argv[i], "GET")) is_get = true;
        else return RedisModule_ReplyWithError(ctx, NO_SYNTAX);
    }
    if (is_new && is_old) return RedisModule_ReplyWithError(ctx, NO_SYNTAX);
    if (!number_of(argv[2], &at) || !number_of(argv[3], &value)) return RedisModule_ReplyWithError(ctx, NO_NUMBER);
    if (!map_to_write(ctx, argv[1], &key, &map)) return REDISMODULE_OK;
    const bool had = map_get(&map, at, &old), is_done = had ? !is_new : !is_old;
    if (is_done && !had && is_too_full(ctx, &map, 1)) return RedisModule_ReplyWithError(ctx, FULL);
    if (is_done) {
        uint64_t before = 0;
        map_put(&map, at, value, &before);
        changed(ctx, argv[1], key, &map, "blink.set");
    }
    if (is_get) return answer_maybe(ctx, had, old);
    return is_done ? RedisModule_ReplyWithSimpleString(ctx, "OK") : RedisModule_ReplyWithNull(ctx);
}

/* How many of the keys are not there. One that is named twice counts twice. */
static uint64_t fresh_among(const Map *map, RedisModuleString **argv, int argc) {
    uint64_t fresh = 0, key = 0, value;
    for (int i = 2; i < argc; i += 2) {
        number_of(argv[i], &key);
        fresh += !map_get(map, key, &value);
    }
    return fresh;
}

COMMAND(mset) {
    RedisModuleKey *key;
    Map map;
    uint64_t at = 0, value = 0, old = 0;
    long long fresh = 0;
    if (argc < 4 || argc % 2 != 0) return RedisModule_WrongArity(ctx);
    RedisModule_AutoMemory(ctx);
    if (!are_numbers(argv + 2, argc - 2)) return RedisModule_ReplyWithError(ctx, NO_NUMBER);
    if (!map_to_write(ctx, argv[1], &key, &map)) return REDISMODULE_OK;
    if (is_too_full(ctx, &map, (uint64_t)argc / 2 - 1) && is_too_full(ctx, &map, fresh_among(&map, argv, argc)))
        return RedisModule_ReplyWithError(ctx, FULL);
    for (int i = 2; i < argc; i += 2) {
        number_of(argv[i], &at);
        number_of(argv[i + 1], &value);
        fresh += !map_put(&map, at, value, &old);
    }
    changed(ctx, argv[1], key, &map, "blink.mset");
    return RedisModule_ReplyWithLongLong(ctx, fresh);
}

COMMAND(get) {
    uint64_t at, value = 0;
    Map map;
    if (argc != 3) return RedisModule_WrongArity(ctx);
    RedisModule_AutoMemory(ctx);
    if (!number_of(argv[2], &at)) return RedisModule_ReplyWithError(ctx, NO_NUMBER);
    if (!map_to_read(ctx, argv[1], &map)) return REDISMODULE_OK;
    const bool had = map_get(&map, at, &value);
    return answer_maybe(ctx, had, value);
}

COMMAND(mget) {
    uint64_t at = 0, value = 0;
    Map map;
    if (argc < 3) return RedisModule_WrongArity(ctx);
    RedisModule_AutoMemory(ctx);
    if (!are_numbers(argv + 2, argc - 2)) return RedisModule_ReplyWithError(ctx, NO_NUMBER);
    if (!map_to_read(ctx, argv[1], &map)) return REDISMODULE_OK;
    RedisModule_ReplyWithArray(ctx, argc - 2);
    for (int i = 2; i < argc; i++) {
        number_of(argv[i], &at);
        const bool had = map_get(&map, at, &value);
        answer_maybe(ctx, had, value);
    }
    return REDISMODULE_OK;
}

COMMAND(del) {
    RedisModuleKey *key;
    Map map;
    uint64_t at = 0;
    long long gone = 0;
    if (argc < 3) return RedisModule_WrongArity(ctx);
    RedisModule_AutoMemory(ctx);
    if (!are_numbers(argv + 2, argc - 2)) return RedisModule_ReplyWithError(ctx, NO_NUMBER);
    if (!map_to_write(ctx, argv[1], &key, &map)) return REDISMODULE_OK;
    for (int i = 2; i < argc; i++) {
        number_of(argv[i], &at);
        gone += map_delete(&map, at);
    }
    if (gone > 0) changed(ctx, argv[1], key, &map, "blink.del");
    else map_store(key, &map);
    return RedisModule_ReplyWithLongLong(ctx, gone);
}

COMMAND(remrange) {
    RedisModuleKey *key;
    Map map;
    uint64_t from, last, gone = 0;
    bool is_empty;
    if (argc != 4) return RedisModule_WrongArity(ctx);
    RedisModule_AutoMemory(ctx);
    if (!range_of(argv[2], argv[3], &from, &last, &is_empty)) return RedisModule_ReplyWithError(ctx, NO_BOUND);
    if (!map_to_write(ctx, argv[1], &key, &map)) return REDISMODULE_OK;
    if (!is_empty) gone = map_delete_range(&map, from, last);
    if (gone > 0) changed(ctx, argv[1], key, &map, "blink.remrange");
    else map_store(key, &map);
    return RedisModule_ReplyWithLongLong(ctx, (long long)gone);
}

COMMAND(cas) {
    RedisModuleKey *key;
    Map map;
    uint64_t at, old, value, there = 0;
    if (argc != 5) return RedisModule_WrongArity(ctx);
    RedisModule_AutoMemory(ctx);
    if (!number_of(argv[2], &at) || !number_of(argv[3], &old) || !number_of(argv[4], &value))
        return RedisModule_ReplyWithError(ctx, NO_NUMBER);
    if (!map_to_write(ctx, argv[1], &key, &map)) return REDISMODULE_OK;
    if (!map_get(&map, at, &there)) return RedisModule_ReplyWithNull(ctx);
    if (there != old) return RedisModule_ReplyWithLongLong(ctx, 0);
    map_put(&map, at, value, &there);
    changed(ctx, argv[1], key, &map, "blink.cas");
    return RedisModule_ReplyWithLongLong(ctx, 1);
}

COMMAND(incrby) {
    RedisModuleKey *key;
    Map map;
    uint64_t at, step, value = 0, old = 0;
    size_t length = 0;
    if (argc != 4) return RedisModule_WrongArity(ctx);
    RedisModule_AutoMemory(ctx);
    const char *text = RedisModule_StringPtrLen(argv[3], &length);
    const bool is_less = length > 0 && text[0] == '-';
    if (!number_of(argv[2], &at) || !digits_of(text + is_less, length - is_less, &step))
        return RedisModule_ReplyWithError(ctx, NO_NUMBER);
    if (!map_to_write(ctx, argv[1], &key, &map)) return REDISMODULE_OK;
    const bool had = map_get(&map, at, &value);
    if (is_less ? step > value : step > UINT64_MAX - value)
        return RedisModule_ReplyWithError(ctx, "ERR increment or decrement would overflow");
    if (!had && is_too_full(ctx, &map, 1)) return RedisModule_ReplyWithError(ctx, FULL);
    value = is_less ? value - step : value + step;
    map_put(&map, at, value, &old);
    changed(ctx, argv[1], key, &map, "blink.incrby");
    return answer_number(ctx, value);
}

static int answer_nearest(RedisModuleCtx *ctx, RedisModuleString **argv, int argc, bool is_down) {
    uint64_t at;
    Map map;
    blink_row row;
    if (argc != 3) return RedisModule_WrongArity(ctx);
    RedisModule_AutoMemory(ctx);
    if (!number_of(argv[2], &at)) return RedisModule_ReplyWithError(ctx, NO_NUMBER);
    if (!map_to_read(ctx, argv[1], &map)) return REDISMODULE_OK;
    if (at == (is_down ? 0 : UINT64_MAX)) return RedisModule_ReplyWithNullArray(ctx);
    Walk walk = walk_of(&map, is_down, is_down ? at - 1 : at + 1, is_down ? 0 : UINT64_MAX);
    if (walk_rows(&walk, &row, 1) == 0) return RedisModule_ReplyWithNullArray(ctx);
    RedisModule_ReplyWithArray(ctx, 2);
    answer_number(ctx, row.key);
    return answer_number(ctx, row.value);
}

COMMAND(next) { return answer_nearest(ctx, argv, argc, false); }
COMMAND(prev) { return answer_nearest(ctx, argv, argc, true); }

COMMAND(count) {
    uint64_t from, last, count = 0;
    bool is_empty;
    Map map;
    if (argc != 4) return RedisModule_WrongArity(ctx);
    RedisModule_AutoMemory(ctx);
    if (!range_of(argv[2], argv[3], &from, &last, &is_empty)) return RedisModule_ReplyWithError(ctx, NO_BOUND);
    if (!map_to_read(ctx, argv[1], &map)) return REDISMODULE_OK;
    if (!is_empty) count = map_count(&map, from, last);
    return RedisModule_ReplyWithLongLong(ctx, (long long)count);
}

COMMAND(card) {
    Map map;
    if (argc != 2) return RedisModule_WrongArity(ctx);
    RedisModule_AutoMemory(ctx);
    if (!map_to_read(ctx, argv[1], &map)) return REDISMODULE_OK;
    return RedisModule_ReplyWithLongLong(ctx, (long long)map.rows);
}

COMMAND(info) {
    Map map;
    uint64_t pages = 0;
    if (argc != 2) return RedisModule_WrongArity(ctx);
    RedisModule_AutoMemory(ctx);
    if (!map_to_read(ctx, argv[1], &map)) return REDISMODULE_OK;
    if (!map.few) return RedisModule_ReplyWithError(ctx, "ERR no such key");
    const size_t parts = map.has_parts ? map.parts->count : 0;
    for (size_t i = 0; i < parts; i++) pages += map.parts->place[i].part->pages;
    const char *names[] = {"rows", "max-rows", "kept", "parts", "pages", "bytes"};
    const uint64_t numbers[] = {map.rows, map.most, map.is_kept, parts, pages, map_bytes(&map)};
    RedisModule_ReplyWithMap(ctx, 6);
    for (int i = 0; i < 6; i++) {
        RedisModule_ReplyWithCString(ctx, names[i]);
        RedisModule_ReplyWithLongLong(ctx, (long long)numbers[i]);
    }
    return REDISMODULE_OK;
}

/* ---- Ranges, which a thread may answer. ---- */

typedef struct Ranging {
    Job job;
    RedisModuleBlockedClient *client;
    Walk walk;
    uint64_t most;
    bool is_pairs;
    Place place[];
} Ranging;

static void ranging_run(Job *job) {
    Ranging *ranging = (Ranging *)job;
    RedisModuleCtx *ctx = RedisModule_GetThreadSafeContext(ranging->client);
    answer_rows(ctx, &ranging->walk, ranging->most, ranging->is_pairs);
    RedisModule_FreeThreadSafeContext(ctx);
    for (size_t i = 0; i < ranging->walk.count; i++) part_leave(ranging->place[i].part);
    RedisModule_UnblockClient(ranging->client, NULL);
    RedisModule_Free(ranging);
}

/* Whether a thread is to go along these places: it has a seat at each, and about so many rows are wanted. */
static bool is_for_reader(const Walk *walk, uint64_t most) {
    uint64_t about = 0;
    if (thread_rows == 0 || most < (uint64_t)thread_rows || !walk->place) return false;
    for (size_t i = 0; i < walk->count; i++) {
        if (walk->place[i].part->seats < 2) return false;
        about += walk->place[i].rows;
    }
    return about >= (uint64_t)thread_rows && worker_is_there(&reader);
}

/* Hands a walk to the thread, with a share in each of its parts. */
static void reader_add(RedisModuleCtx *ctx, const Walk *walk, uint64_t most, bool is_pairs) {
    Ranging *ranging = RedisModule_Alloc(sizeof *ranging + walk->count * sizeof *walk->place);
    ranging->job.run = ranging_run;
    ranging->client = RedisModule_BlockClient(ctx, NULL, NULL, NULL, 0);
    ranging->walk = *walk;
    ranging->walk.seat = 1;
    ranging->walk.place = memcpy(ranging->place, walk->place, walk->count * sizeof *walk->place);
    ranging->most = most;
    ranging->is_pairs = is_pairs;
    for (size_t i = 0; i < walk->count; i++) atomic_fetch_add(&walk->place[i].part->shares, 1);
    worker_add(&reader, &ranging->job);
}

static int answer_range(RedisModuleCtx *ctx, RedisModuleString **argv, int argc, bool is_down) {
    uint64_t least, greatest, most = UINT64_MAX;
    bool is_empty;
    Map map;
    if (argc != 4 && argc != 6) return RedisModule_WrongArity(ctx);
    RedisModule_AutoMemory(ctx);
    if (!range_of(argv[is_down ? 3 : 2], argv[is_down ? 2 : 3], &least, &greatest, &is_empty))
        return RedisModule_ReplyWithError(ctx, NO_BOUND);
    if (argc == 6 && !is_word(argv[4], "COUNT")) return RedisModule_ReplyWithError(ctx, NO_SYNTAX);
    if (argc == 6 && !number_of(argv[5], &most)) return RedisModule_ReplyWithError(ctx, NO_NUMBER);
    if (!map_to_read(ctx, argv[1], &map)) return REDISMODULE_OK;
    if (is_empty || most == 0) return RedisModule_ReplyWithEmptyArray(ctx);
    Walk walk = walk_of(&map, is_down, is_down ? greatest : least, is_down ? least : greatest);
    const int flags = RedisModule_GetContextFlags(ctx);
    const int atomic = REDISMODULE_CTX_FLAGS_MULTI | REDISMODULE_CTX_FLAGS_LUA | REDISMODULE_CTX_FLAGS_DENY_BLOCKING;
    const bool is_pairs = (flags & REDISMODULE_CTX_FLAGS_RESP3) != 0;
    if ((flags & atomic) == 0 && is_for_reader(&walk, most)) reader_add(ctx, &walk, most, is_pairs);
    else answer_rows(ctx, &walk, most, is_pairs);
    return REDISMODULE_OK;
}

COMMAND(range) { return answer_range(ctx, argv, argc, false); }
COMMAND(revrange) { return answer_range(ctx, argv, argc, true); }

/* ---- What COMMAND DOCS says, and loading. ---- */

#define ARG(name_, type_, ...) {.name = name_, .type = REDISMODULE_ARG_TYPE_##type_, .key_spec_index = -1, ##__VA_ARGS__}
#define OPTIONAL .flags = REDISMODULE_CMD_ARG_OPTIONAL
#define MULTIPLE .flags = REDISMODULE_CMD_ARG_MULTIPLE
#define THE_MAP {.name = "key", .type = REDISMODULE_ARG_TYPE_KEY, .key_spec_index = 0}
#define ARGS static RedisModuleCommandArg
#define END {0}

ARGS map_args[] = {THE_MAP, END};
ARGS row_args[] = {THE_MAP, ARG("rowkey", INTEGER), END};
ARGS rows_args[] = {THE_MAP, ARG("rowkey", INTEGER, MULTIPLE), END};
ARGS when_args[] = {ARG("nx", PURE_TOKEN, .token = "NX"), ARG("xx", PURE_TOKEN, .token = "XX"), END};
ARGS set_args[] = {THE_MAP, ARG("rowkey", INTEGER), ARG("value", INTEGER), ARG("condition", ONEOF, OPTIONAL, .subargs = when_args),
                   ARG("get", PURE_TOKEN, .token = "GET", OPTIONAL), END};
ARGS pair_args[] = {ARG("rowkey", INTEGER), ARG("value", INTEGER), END};
ARGS mset_args[] = {THE_MAP, ARG("data", BLOCK, MULTIPLE, .subargs = pair_args), END};
ARGS cas_args[] = {THE_MAP, ARG("rowkey", INTEGER), ARG("old", INTEGER), ARG("new", INTEGER), END};
ARGS incrby_args[] = {THE_MAP, ARG("rowkey", INTEGER), ARG("increment", INTEGER), END};
ARGS bounds_args[] = {THE_MAP, ARG("min", STRING), ARG("max", STRING), END};
ARGS range_args[] = {THE_MAP, ARG("min", STRING), ARG("max", STRING), ARG("count", INTEGER, .token = "COUNT", OPTIONAL), END};
ARGS revrange_args[] = {THE_MAP, ARG("max", STRING), ARG("min", STRING), ARG("count", INTEGER, .token = "COUNT", OPTIONAL), END};
ARGS create_args[] = {THE_MAP, ARG("maxrows", INTEGER, .token = "MAXROWS", OPTIONAL), END};

enum {
    READS = REDISMODULE_CMD_KEY_RO | REDISMODULE_CMD_KEY_ACCESS,
    INSERTS = REDISMODULE_CMD_KEY_RW | REDISMODULE_CMD_KEY_INSERT,
    UPDATES = REDISMODULE_CMD_KEY_RW | REDISMODULE_CMD_KEY_UPDATE | REDISMODULE_CMD_KEY_ACCESS,
    DELETES = REDISMODULE_CMD_KEY_RW | REDISMODULE_CMD_KEY_DELETE,
};

static const struct {
    const char *name;
    int (*run)(RedisModuleCtx *ctx, RedisModuleString **argv, int argc);
    const char *flags, *categories;
    int arity;
    uint64_t key;
    RedisModuleCommandArg *args;
    const char *summary, *complexity;
} commands[] = {
    {"blink.create", create_command, "write deny-oom fast", "write fast blink", -2, INSERTS, create_args,
     "Creates an empty map that stays when its last row goes.", "O(1)"},
    {"blink.set", set_command, "write deny-oom fast", "write fast blink", -4, UPDATES, set_args,
     "Sets the value of a key of a map.", "O(log(N))"},
    {"blink.mset", mset_command, "write deny-oom", "write slow blink", -4, INSERTS, mset_args,
     "Sets the values of keys of a map, all at once.", "O(M*log(N)) for M pairs"},
    {"blink.get", get_command, "readonly fast", "read fast blink", 3, READS, row_args,
     "Returns the value of a key of a map.", "O(log(N))"},
    {"blink.mget", mget_command, "readonly", "read slow blink", -3, READS, rows_args,
     "Returns the values of keys of a map.", "O(M*log(N)) for M keys"},
    {"blink.del", del_command, "write fast", "write fast blink", -3, DELETES, rows_args,
     "Deletes keys of a map, and the map with its last row.", "O(M*log(N)) for M keys"},
    {"blink.remrange", remrange_command, "write", "write slow blink", 4, DELETES, bounds_args,
     "Deletes the rows of a range of keys.", "O(N/P+P) with P rows a part"},
    {"blink.cas", cas_command, "write fast", "write fast blink", 5, UPDATES, cas_args,
     "Sets the value of a key that has the old value.", "O(log(N))"},
    {"blink.incrby", incrby_command, "write deny-oom fast", "write fast blink", 4, UPDATES, incrby_args,
     "Adds to the value of a key of a map, 0 where it is absent.", "O(log(N))"},
    {"blink.range", range_command, "readonly", "read slow blink", -4, READS, range_args,
     "Returns rows by rising keys.", "O(log(N)+M) for M rows returned"},
    {"blink.revrange", revrange_command, "readonly", "read slow blink", -4, READS, revrange_args,
     "Returns rows by falling keys.", "O(log(N)+M*log(P)) for M rows returned, P rows a part"},
    {"blink.next", next_command, "readonly fast", "read fast blink", 3, READS, row_args,
     "Returns the row of the least key above this one.", "O(log(N))"},
    {"blink.prev", prev_command, "readonly fast", "read fast blink", 3, READS, row_args,
     "Returns the row of the greatest key below this one.", "O(log(N))"},
    {"blink.count", count_command, "readonly", "read slow blink", 4, READS, bounds_args,
     "Counts the rows of a range of keys.", "O(N/P+P) with P rows a part"},
    {"blink.card", card_command, "readonly fast", "read fast blink", 2, READS, map_args,
     "Returns the number of rows of a map.", "O(1)"},
    {"blink.info", info_command, "readonly", "read slow blink", 2, READS, map_args,
     "Returns how large a map is.", "O(N/P) with P rows a part"},
};

static long long setting_get(const char *name, void *setting) {
    (void)name;
    return *(long long *)setting;
}

static int setting_set(const char *name, long long value, void *setting, RedisModuleString **why) {
    (void)name, (void)why;
    *(long long *)setting = value;
    return REDISMODULE_OK;
}

static int register_commands(RedisModuleCtx *ctx) {
    /* Categories of rights: Redis 7.2, Valkey; one of its own: Redis 7.4, Valkey 8. The header of 7.0 lacks them. */
    int (*set_categories)(RedisModuleCommand *, const char *) = NULL;
    int (*add_category)(RedisModuleCtx *, const char *) = NULL;
    RedisModule_GetApi("RedisModule_SetCommandACLCategories", (void *)&set_categories);
    RedisModule_GetApi("RedisModule_AddACLCategory", (void *)&add_category);
    const bool has_category = add_category && add_category(ctx, "blink") == REDISMODULE_OK;
    for (size_t i = 0; i < sizeof commands / sizeof *commands; i++) {
        if (RedisModule_CreateCommand(ctx, commands[i].name, commands[i].run, commands[i].flags, 1, 1, 1) == REDISMODULE_ERR)
            return REDISMODULE_ERR;
        RedisModuleCommand *command = RedisModule_GetCommand(ctx, commands[i].name);
        RedisModuleCommandKeySpec specs[] = {{.flags = commands[i].key,
                                              .begin_search_type = REDISMODULE_KSPEC_BS_INDEX, .bs.index.pos = 1,
                                              .find_keys_type = REDISMODULE_KSPEC_FK_RANGE, .fk.range = {0, 1, 0}}, END};
        const RedisModuleCommandInfo info = {.version = REDISMODULE_COMMAND_INFO_VERSION, .summary = commands[i].summary,
                                             .complexity = commands[i].complexity, .since = "0.1.0", .arity = commands[i].arity,
                                             .key_specs = specs, .args = commands[i].args};
        if (RedisModule_SetCommandInfo(command, &info) == REDISMODULE_ERR) return REDISMODULE_ERR;
        if (set_categories) {
            char names[32];
            const size_t length = strlen(commands[i].categories) - (has_category ? 0 : strlen(" blink"));
            memcpy(names, commands[i].categories, length);
            names[length] = 0;
            if (set_categories(command, names) == REDISMODULE_ERR) return REDISMODULE_ERR;
        }
    }
    return REDISMODULE_OK;
}

int RedisModule_OnLoad(RedisModuleCtx *ctx, RedisModuleString **argv, int argc);

__attribute__((visibility("default"))) int RedisModule_OnLoad(RedisModuleCtx *ctx, RedisModuleString **argv, int argc) {
    (void)argv, (void)argc;
    if (RedisModule_Init(ctx, "blink", BLINK_VERSION_MAJOR * 10000 + BLINK_VERSION_MINOR * 100 + BLINK_VERSION_PATCH,
                         REDISMODULE_APIVER_1) == REDISMODULE_ERR)
        return REDISMODULE_ERR;
    /* A server before 7.0 lacks what stands here: command docs, numbers in CONFIG. */
    if (!RedisModule_SetCommandInfo || !RedisModule_RegisterNumericConfig) {
        RedisModule_Log(ctx, "warning", "blink wants a server of version 7.0 or newer");
        return REDISMODULE_ERR;
    }
    main_thread = pthread_self();
    RedisModule_SetModuleOptions(ctx, REDISMODULE_OPTIONS_HANDLE_IO_ERRORS | REDISMODULE_OPTIONS_HANDLE_REPL_ASYNC_LOAD |
                                          REDISMODULE_OPTION_NO_IMPLICIT_SIGNAL_MODIFIED);
    RedisModuleTypeMethods methods = {.version = REDISMODULE_TYPE_METHOD_VERSION, .rdb_load = type_load, .rdb_save = type_save,
                                      .aof_rewrite = type_rewrite, .mem_usage = type_memory, .digest = type_digest, .free = map_free,
                                      .free_effort = type_effort, .copy = type_copy};
    type = RedisModule_CreateDataType(ctx, "blink-map", ENCODING, &methods);
    if (!type || register_commands(ctx) == REDISMODULE_ERR) return REDISMODULE_ERR;
    const struct {
        const char *name;
        long long *setting, least, most;
    } settings[] = {{"part-pages", &part_pages, 64, 4096}, {"thread-rows", &thread_rows, 0, INT64_MAX}, {"max-rows", &max_rows, 0, INT64_MAX}};
    for (size_t i = 0; i < sizeof settings / sizeof *settings; i++)
        if (RedisModule_RegisterNumericConfig(ctx, settings[i].name, *settings[i].setting, REDISMODULE_CONFIG_DEFAULT, settings[i].least,
                                              settings[i].most, setting_get, setting_set, NULL, settings[i].setting) == REDISMODULE_ERR)
            return REDISMODULE_ERR;
    return RedisModule_LoadConfigs(ctx);
}
