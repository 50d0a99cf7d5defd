/* blink's ordered map as a virtual table of SQLite: a loadable extension.
 *
 *     .load ./blink
 *     CREATE VIRTUAL TABLE t USING blink(pages=65536);
 *     CREATE VIRTUAL TABLE u USING blink(pages=65536, name=prices, seats=8);
 *     CREATE VIRTUAL TABLE w USING blink(image='w.image');
 *
 * A table is (k INTEGER PRIMARY KEY, v INTEGER NOT NULL), both signed 64-bit; k is the rowid too. The rows are in memory.
 * The map has unsigned keys: those from 0 to 2^63 - 1 are the same in both, and a negative k is the key of the same 64 bits, k + 2^64.
 *
 *   pages=N     so much room there is, 4 to 2^28: 6 N - 10 rows surely fit, and a full map is SQLITE_FULL. By default the map begins
 *               with 4096, or as many as the image has, grows by two as rows come, and shrinks again, while other statements wait.
 *   name=NAME   one map for all tables of this name in the process, of whatever connection and thread
 *   seats=N     how many tables may share a map with a name, 1 to 64, by default 16
 *   image=FILE  the table begins with the rows of an image
 *   create=1    where there is no file of image=, the table begins without rows
 *   snapshot=1  a range of keys is read at one moment, of 4096 rows at most; more are refused
 *
 *   blink_save(TABLE [, FILE])        writes the image of the table's map to a file, by default that of image=; answers its length
 *   blink_open(TABLE, FILE)           the rows of an image take the place of the table's; answers how many they are
 *   blink_add(TABLE, K, D)            adds D to the value at K, a K that is absent counting as 0; answers the sum
 *   blink_change(TABLE, K, OLD, NEW)  puts NEW at K where OLD is: answers 1, or 0 where another value is, or NULL where none is
 *   blink_rows(TABLE)                 how many rows there are, by going along them
 *   blink_pages(TABLE)                how many pages the map has
 *   blink_free_pages(TABLE)           how many of them are free, about
 *   blink_version()                   the version of the library
 *
 * Equality, ranges, ORDER BY k and ORDER BY k DESC go to the map. Tables that share a map see each other's changes at once, before
 * they are committed, and each row as it stood when it was read. No update is lost: a row is written only if its value is still the one
 * that the statement has read, and else the statement fails with SQLITE_BUSY, and may be tried again. The hidden column `was` has that
 * value. A DELETE takes the row away whatever its value is by then. A statement that fails, ROLLBACK and ROLLBACK TO put back what was
 * there, but for rows that another connection has written since, which stay. blink_add and blink_change are one step each and take
 * effect at once, and no ROLLBACK takes them back.
 *
 * SQLite's own ways with virtual tables differ from ordinary ones in this: a value of a wrong type undoes a whole statement
 * OR FAIL or OR IGNORE; UPDATE OR REPLACE of keys reads all rows before it changes the first; and an insertion without a key
 * is refused where the greatest key is taken. A table that is dropped inside of BEGIN keeps its memory until one of its name
 * is made or the connection is closed.
 */
#include <sqlite3ext.h>
SQLITE_EXTENSION_INIT1
#include "blink.h"

#include <errno.h>
#include <pthread.h>
#include <stdio.h>
#include <stdlib.h>
#include <string.h>
#include <sys/stat.h>
#include <unistd.h>

enum { SNAPSHOT_ROWS = 4096, SNAPSHOT_ROUNDS = 256 };
enum { MOST_SEATS = 64, DEFAULT_SEATS = 16, DEFAULT_PAGES = 4096, MOST_PAGES = 1 << 28, ROWS_AT_ONCE = 128, FIRST_ROWS = 32 };
enum { COLUMN_K, COLUMN_V, COLUMN_WAS };

/* How often, and after what time, what wants all transactions to be over looks again whether they are. */
enum { TRIES = 1000, TRY_MICROSECONDS = 1000 };

struct Table;

/* A map. Each table of it has a seat, which stands under a lock of its own, so that an image can be made between calls. */
typedef struct Map {
    struct Map *next;
    char *name; /* null where it is not shared */
    uint32_t pages, most; /* how many there are, and to how many it may grow */
    size_t seats, users;
    blink_seat seat[MOST_SEATS];
    pthread_mutex_t lock[MOST_SEATS];
    struct Table *table[MOST_SEATS];
    int64_t rows;  /* about how many there are, for the planner: the library would go along them */
    uint8_t *kept; /* an image that could neither be written nor opened again, or null */
    uint64_t kept_length;
} Map;

/* A change at a key: what was there before it, and what since. A value is 0 where there is no row. */
typedef struct Undo {
    uint64_t key, before, since;
    bool had, has;
} Undo;

/* A table of a connection. It stands until it is dropped or the connection is closed: SQLite may let go of a virtual table and
 * connect to it again at any time, as behind a statement that fails to make another one. */
typedef struct Table {
    struct Table *next; /* of its connection's */
    struct Home *home;
    int shown; /* by how many sqlite3_vtab */
    bool is_dropped;
    bool is_kept; /* dropped in a transaction, which may be rolled back */
    bool takes_snapshots;
    char *schema, *name, *image;
    char *before; /* its name before it was renamed, or null */
    Map *map;
    size_t place; /* of the seat */
    Undo *undo;
    size_t undos, room;
    size_t undos_as_read; /* how many there were when a cursor last began */
    size_t *marks; /* how many undos there were at each savepoint */
    int mark_count;
} Table;

/* What SQLite sees of a table. */
typedef struct Shown {
    sqlite3_vtab base;
    Table *table;
} Shown;

/* A connection that has loaded the extension, and its tables. */
typedef struct Home {
    struct Home *next;
    sqlite3 *db;
    Table *tables;
} Home;

/* Keys of the map from one to another, both included. */
typedef struct Keys {
    uint64_t low, high;
} Keys;

typedef struct Cursor {
    sqlite3_vtab_cursor base;
    blink_row some[ROWS_AT_ONCE], *all; /* room for the rows of a scan, and of a snapshot if there was one */
    blink_row *rows;                    /* those that are read, in either */
    size_t at, count, most;
    uint64_t next; /* where further rows begin */
    Keys wanted, later; /* those that are read now, and those behind them: negative keys and others are apart in the map */
    bool more, has_later, is_falling, is_over;
} Cursor;

/* What stands in the lists of maps and connections, and which seats are taken. */
static pthread_mutex_t lists_lock = PTHREAD_MUTEX_INITIALIZER;
static Map *maps;
static Home *homes;

static Table *table_of(sqlite3_vtab *base) { return ((Shown *)base)->table; }

/* A key of the map has the bits of the table's, so that an image has the keys that the table shows, and back. */
static uint64_t key_of(sqlite3_int64 k) { return (uint64_t)k; }
static sqlite3_int64 int_of(uint64_t key) { return (sqlite3_int64)key; }

/* The table's seat for the time of a call. */
static blink_seat *hold(Table *t) {
    pthread_mutex_lock(&t->map->lock[t->place]);
    return &t->map->seat[t->place];
}

static void let_go(Table *t) { pthread_mutex_unlock(&t->map->lock[t->place]); }

static void hold_all(Map *map) {
    for (size_t i = 0; i < map->seats; i++) pthread_mutex_lock(&map->lock[i]);
}

static void let_all_go(Map *map) {
    for (size_t i = map->seats; i > 0; i--) pthread_mutex_unlock(&map->lock[i - 1]);
}

static int fail(sqlite3_vtab *base, int code, const char *why) {
    sqlite3_free(base->zErrMsg);
    base->zErrMsg = sqlite3_mprintf("%s", why);
    return code;
}

/* What an answer of the library is to SQLite. */
static int told(sqlite3_vtab *base, int32_t answer) {
    switch (answer) {
        case BLINK_OK: return SQLITE_OK;
        case BLINK_PRESENT: return fail(base, SQLITE_CONSTRAINT, "UNIQUE constraint failed: k");
        case BLINK_NO_ROOM: return fail(base, SQLITE_FULL, "blink: no room; make the table with more pages");
        case BLINK_NO_MEMORY: return SQLITE_NOMEM;
        case BLINK_CLOSED: return fail(base, SQLITE_ERROR, "blink: the map is closed; blink_open gives the table rows again");
        default: return fail(base, SQLITE_ERROR, blink_text(answer));
    }
}

/* ---- Files. ---- */

/* The bytes of a file, or null with why. `*is_there` says whether there is one. */
static uint8_t *read_file(const char *name, size_t *length, bool *is_there, char **why) {
    FILE *file = fopen(name, "rb");
    uint8_t *bytes = NULL;
    long end = -1;
    *is_there = file || errno != ENOENT;
    if (file && fseek(file, 0, SEEK_END) == 0 && (end = ftell(file)) >= 0 && fseek(file, 0, SEEK_SET) == 0)
        bytes = malloc((size_t)end + 1);
    if (bytes && fread(bytes, 1, (size_t)end, file) != (size_t)end) {
        free(bytes);
        bytes = NULL;
    }
    if (!bytes) *why = sqlite3_mprintf("blink: cannot read %s: %s", name, strerror(errno));
    *length = bytes ? (size_t)end : 0;
    if (file) fclose(file);
    return bytes;
}

/* Writes a new file beside the named one, and puts it in its place: null, or why not. A link leads to the file that is
 * replaced, and that file's mode is kept. */
static char *write_file(const char *name, const uint8_t *bytes, size_t length) {
    char *place = realpath(name, NULL), *why = NULL;
    char *beside = sqlite3_mprintf("%s.%d.new", place ? place : name, (int)getpid());
    FILE *file = beside ? fopen(beside, "wbx") : NULL;
    struct stat old;
    bool is_written = file && fwrite(bytes, 1, length, file) == length && fflush(file) == 0 && fsync(fileno(file)) == 0;
    if (is_written && place && stat(place, &old) == 0) is_written = fchmod(fileno(file), old.st_mode & 07777) == 0;
    if (file && fclose(file) != 0) is_written = false;
    if (!is_written || rename(beside, place ? place : name) != 0) {
        why = sqlite3_mprintf("blink: cannot write %s: %s", name, strerror(errno));
        if (file) remove(beside);
    }
    sqlite3_free(beside);
    free(place);
    return why;
}

/* ---- Opening and closing. ---- */

/* Counts the rows of a map that was just opened, while nobody else has it. */
static void count_rows(Map *map) {
    uint64_t rows = 0;
    blink_count(&map->seat[0], 0, UINT64_MAX, &rows);
    map->rows = (int64_t)rows;
}

/* Takes the rows of an image in place of the map's. With any other answer than BLINK_OK nothing has changed. */
static int32_t take_image(Map *map, const uint8_t *bytes, size_t length) {
    blink_seat fresh[MOST_SEATS] = { BLINK_SEAT_INIT };
    blink_stats stats = { 0, 0, 0, 0, 0, 0, 0 };
    int32_t answer = blink_open_image(bytes, length, fresh, map->seats);
    if (answer != BLINK_OK) return answer;
    for (size_t i = 0; i < map->seats; i++) {
        blink_close(&map->seat[i]);
        map->seat[i] = fresh[i];
    }
    blink_stat(&map->seat[0], false, &stats);
    map->pages = (uint32_t)stats.pages;
    if (map->most < map->pages) map->most = map->pages;
    free(map->kept);
    map->kept = NULL;
    count_rows(map);
    return BLINK_OK;
}

static void free_map(Map *map) {
    for (size_t i = 0; i < map->seats && i < MOST_SEATS; i++) {
        blink_close(&map->seat[i]);
        pthread_mutex_destroy(&map->lock[i]);
    }
    free(map->kept);
    sqlite3_free(map->name);
    free(map);
}

/* Gives a map of which all seats are held twice its pages, or as many as it may have: whether it has more then. Where there is no memory it
 * stays as it is; where it could not be opened again, it is closed, and its image is kept. */
static bool grow_held(Map *map) {
    uint64_t length = 0;
    size_t room = (size_t)blink_image_length(map->pages);
    uint32_t wanted = map->pages > map->most / 2 ? map->most : 2 * map->pages;
    uint8_t *bytes = map->pages < map->most && !map->kept ? malloc(room) : NULL;
    int32_t answer;
    if (!bytes) return false;
    answer = blink_resize(map->seat, map->seats, wanted, bytes, room, &length);
    if (answer == BLINK_OK) map->pages = wanted;
    if (answer == BLINK_SEATS_LOST && length > 0) {
        map->kept = bytes;
        map->kept_length = length;
    } else {
        free(bytes);
    }
    return answer == BLINK_OK;
}

/* The same in between the calls of others, unless it has more than so many pages by then: whether it has. */
static bool grow(Map *map, uint32_t pages) {
    bool has_more;
    hold_all(map);
    has_more = map->pages > pages || grow_held(map);
    let_all_go(map);
    return has_more;
}

/* Whether it is time to grow, since insertions look long for room soon. Seldom, since it is a look. */
static bool is_short(Map *map, blink_seat *seat) {
    bool is_short = false;
    if (map->pages == map->most || __atomic_load_n(&map->rows, __ATOMIC_RELAXED) % 64 != 0) return false;
    return blink_is_short(seat, &is_short) == BLINK_OK && is_short;
}

/* Behind a call that entered a row: grows the map where it is short. */
static void grow_in_time(Table *t) {
    blink_seat *seat = hold(t);
    const uint32_t pages = t->map->pages;
    const bool wants_more = is_short(t->map, seat);
    let_go(t);
    if (wants_more) grow(t->map, pages);
}

/* Gives a map of which all seats are held half its pages, in which its rows are laid out anew. Where there is no memory it stays as it is. */
static void shrink_held(Map *map) {
    const size_t room = (size_t)blink_image_length(map->pages / 2);
    uint64_t count = 0;
    blink_row *rows = NULL;
    uint8_t *bytes = malloc(room);
    if (blink_count(&map->seat[0], 0, UINT64_MAX, &count) == BLINK_OK) rows = malloc(((size_t)count + 1) * sizeof *rows);
    if (rows && bytes && blink_shrink(map->seat, map->seats, map->pages / 2, rows, (size_t)count + 1, bytes, room) == BLINK_OK)
        map->pages /= 2;
    free(bytes);
    free(rows);
}

/* Behind a call that took a row away: shrinks the map where less than an eighth of its pages is used. */
static void shrink_in_time(Table *t) {
    blink_seat *seat = hold(t);
    const uint32_t pages = t->map->pages;
    bool is_sparse = false;
    if (pages < t->map->most && pages / 2 >= DEFAULT_PAGES && __atomic_load_n(&t->map->rows, __ATOMIC_RELAXED) % 64 == 0)
        blink_is_sparse(seat, &is_sparse);
    let_go(t);
    if (!is_sparse) return;
    hold_all(t->map);
    if (t->map->pages == pages && !t->map->kept) shrink_held(t->map);
    let_all_go(t->map);
}

/* The table's seat is free again, and with the last table of a map that goes. */
static void leave_map(Table *t) {
    pthread_mutex_lock(&lists_lock);
    hold(t);
    t->map->table[t->place] = NULL;
    let_go(t);
    if (--t->map->users == 0) {
        Map **at = &maps;
        while (*at != t->map) at = &(*at)->next;
        *at = t->map->next;
        free_map(t->map);
    }
    pthread_mutex_unlock(&lists_lock);
}

static void free_table(Table *t) {
    if (t->map) leave_map(t);
    sqlite3_free(t->schema);
    sqlite3_free(t->name);
    sqlite3_free(t->image);
    sqlite3_free(t->before);
    free(t->undo);
    free(t->marks);
    free(t);
}

/* The table goes out of its connection's list, and as soon as nothing shows it, it goes. */
static void drop_table(Home *home, Table *t) {
    Table **at = &home->tables;
    while (*at && *at != t) at = &(*at)->next;
    if (*at) *at = t->next;
    t->is_dropped = true;
    if (t->shown == 0) free_table(t);
}

/* Takes a key away that has this value, while all seats are held, so that nobody writes between the look and the deletion: else
 * BLINK_PRESENT, with the value that is there, or BLINK_ABSENT. */
static int32_t delete_if(blink_seat *seat, uint64_t key, uint64_t value, uint64_t *there) {
    int32_t answer = blink_find(seat, key, there);
    if (answer == BLINK_OK && *there != value) return BLINK_PRESENT;
    return answer == BLINK_OK ? blink_delete(seat, key, there) : answer;
}

/* Writes back what was there before a change, while all seats are held. What another connection has written there since stays. */
static int32_t write_back(Map *map, blink_seat *seat, const Undo *undo) {
    uint64_t there = 0;
    int32_t answer;
    if (undo->had && undo->has) {
        answer = blink_change(seat, undo->key, undo->since, undo->before, &there);
    } else if (undo->had) {
        answer = blink_insert(seat, undo->key, undo->before, &there);
        if (answer == BLINK_OK) __atomic_add_fetch(&map->rows, 1, __ATOMIC_RELAXED);
    } else {
        answer = delete_if(seat, undo->key, undo->since, &there);
        if (answer == BLINK_OK) __atomic_sub_fetch(&map->rows, 1, __ATOMIC_RELAXED);
    }
    return answer == BLINK_PRESENT || answer == BLINK_ABSENT ? BLINK_OK : answer;
}

/* Writes back what was there, down to so many undos. What was deleted may find no room, where others have filled the map since. */
static int32_t undo_to(Table *t, size_t count) {
    int32_t answer = BLINK_OK;
    if (t->undos <= count) return BLINK_OK;
    hold_all(t->map);
    while (answer == BLINK_OK && t->undos > count) {
        answer = write_back(t->map, &t->map->seat[t->place], &t->undo[t->undos - 1]);
        if (answer == BLINK_NO_ROOM && grow_held(t->map)) answer = write_back(t->map, &t->map->seat[t->place], &t->undo[t->undos - 1]);
        if (answer == BLINK_OK) t->undos--;
        if (is_short(t->map, &t->map->seat[t->place])) grow_held(t->map);
    }
    let_all_go(t->map);
    return answer;
}

/* What a table is made with. Numbers are 0 where they are not said. */
typedef struct Wish {
    sqlite3_int64 pages, seats, create, snapshot;
    char *name, *image;
} Wish;

static char *unquoted(const char *word) {
    size_t length = strlen(word);
    while (length > 0 && word[length - 1] == ' ') length--;
    if (length >= 2 && (word[0] == '\'' || word[0] == '"') && word[length - 1] == word[0]) {
        word++;
        length -= 2;
    }
    return sqlite3_mprintf("%.*s", (int)length, word);
}

/* A whole number of 1 to 2^40, or 0. */
static sqlite3_int64 number_of(const char *word) {
    char *end;
    long long number = strtoll(word, &end, 10);
    while (*end == ' ') end++;
    return *end || end == word || number < 1 || number > 1LL << 40 ? 0 : number;
}

/* Reads one word of CREATE VIRTUAL TABLE: null, or what is wrong with it. */
static char *read_word(const char *word, Wish *wish) {
    const char *is = strchr(word, '=');
    size_t length;
    word += strspn(word, " ");
    length = is ? strcspn(word, " =") : 0;
    if (is) is += 1 + strspn(is + 1, " ");
    if (is && length == 5 && !strncmp(word, "pages", 5)) {
        wish->pages = number_of(is);
        if (wish->pages == 0) return sqlite3_mprintf("blink: pages=N has a number of 4 to 2^28, not %s", is);
    } else if (is && length == 5 && !strncmp(word, "seats", 5)) {
        wish->seats = number_of(is);
        if (wish->seats == 0) return sqlite3_mprintf("blink: seats=N has a number of 1 to 64, not %s", is);
    } else if (is && length == 8 && !strncmp(word, "snapshot", 8)) {
        wish->snapshot = number_of(is);
        if (wish->snapshot != 1) return sqlite3_mprintf("blink: snapshot=1 is known, not snapshot=%s", is);
    } else if (is && length == 6 && !strncmp(word, "create", 6)) {
        wish->create = number_of(is);
        if (wish->create != 1) return sqlite3_mprintf("blink: create=1 is known, not create=%s", is);
    } else if (is && length == 4 && !strncmp(word, "name", 4) && !wish->name) {
        wish->name = unquoted(is);
    } else if (is && length == 5 && !strncmp(word, "image", 5) && !wish->image) {
        wish->image = unquoted(is);
    } else {
        return sqlite3_mprintf("blink: pages=N, seats=N, name=NAME, image=FILE, create=1 and snapshot=1 are known, once each, not %s", word);
    }
    return NULL;
}

static int refused(char **error, int code, char *why) {
    sqlite3_free(*error);
    *error = why;
    return why ? code : SQLITE_NOMEM;
}

/* The rows of a map that only its first seat has, in an image of so many pages: the image is the caller's to free. */
static int32_t image_with_pages(blink_seat *seat, uint32_t pages, uint8_t **made, size_t *length) {
    uint64_t rows = 0, needed = blink_image_length(pages), next = 0;
    size_t count = 0;
    bool more = false;
    int32_t answer = blink_count(seat, 0, UINT64_MAX, &rows);
    blink_row *row = malloc(((size_t)rows + 1) * sizeof *row);
    uint8_t *bytes = malloc((size_t)needed);
    if (answer == BLINK_OK && (!row || !bytes)) answer = BLINK_NO_MEMORY;
    if (answer == BLINK_OK) answer = blink_scan(seat, 0, row, (size_t)rows + 1, &count, &next, &more);
    if (answer == BLINK_OK) answer = blink_image_of(row, count, pages, BLINK_LEAF_ROWS, bytes, (size_t)needed, &needed);
    free(row);
    if (answer != BLINK_OK) {
        free(bytes);
        return answer;
    }
    *made = bytes;
    *length = (size_t)needed;
    return BLINK_OK;
}

/* How many pages the head of an image tells. */
static uint32_t pages_of_image(const uint8_t *bytes, size_t length) {
    uint32_t pages = 0;
    for (size_t i = 0; i < 4 && length >= 16; i++) pages |= (uint32_t)bytes[12 + i] << 8 * i;
    return pages;
}

/* Takes the rows of an image in place of the map's, with so many pages where that is not 0, and else with as many as the image. */
static int32_t take_image_as(Map *map, const uint8_t *bytes, size_t length, uint32_t pages) {
    blink_seat seat = BLINK_SEAT_INIT;
    uint8_t *sized = NULL;
    size_t sized_length = 0;
    int32_t answer;
    if (pages == 0 || pages_of_image(bytes, length) == pages) return take_image(map, bytes, length);
    answer = blink_open_image(bytes, length, &seat, 1);
    if (answer != BLINK_OK) return answer;
    answer = image_with_pages(&seat, pages, &sized, &sized_length);
    blink_close(&seat);
    if (answer == BLINK_OK) answer = take_image(map, sized, sized_length);
    free(sized);
    return answer;
}

/* Makes a map as it is wished. */
static int make_map(const Wish *wish, Map **made, char **error) {
    Map *map = calloc(1, sizeof *map);
    size_t length = 0;
    bool is_there = false;
    char *why = NULL;
    uint8_t *bytes = wish->image ? read_file(wish->image, &length, &is_there, &why) : NULL;
    int32_t answer;
    if (wish->image && !bytes && (is_there || !wish->create)) {
        free(map);
        if (!is_there && why) {
            char *reason = why;
            why = sqlite3_mprintf("%s; with create=1 the table begins without rows", reason);
            sqlite3_free(reason);
        }
        return refused(error, SQLITE_CANTOPEN, why);
    }
    sqlite3_free(why);
    if (!map) {
        free(bytes);
        return SQLITE_NOMEM;
    }
    map->pages = wish->pages ? (uint32_t)(wish->pages > UINT32_MAX ? UINT32_MAX : wish->pages) : DEFAULT_PAGES;
    map->most = wish->pages ? map->pages : MOST_PAGES;
    map->seats = wish->seats ? (size_t)wish->seats : wish->name ? DEFAULT_SEATS : 1;
    answer = map->seats > MOST_SEATS ? BLINK_BAD_SEATS
             : bytes                 ? take_image_as(map, bytes, length, wish->pages ? map->pages : 0)
                                     : blink_open(map->pages, map->seat, map->seats);
    free(bytes);
    if (answer != BLINK_OK) {
        free(map);
        if (answer == BLINK_NO_MEMORY) return SQLITE_NOMEM;
        if (is_there) return refused(error, SQLITE_ERROR, sqlite3_mprintf("blink: %s: %s", wish->image, blink_text(answer)));
        return refused(error, SQLITE_ERROR, sqlite3_mprintf("blink: %s", blink_text(answer)));
    }
    for (size_t i = 0; i < map->seats; i++) pthread_mutex_init(&map->lock[i], NULL);
    map->name = wish->name ? sqlite3_mprintf("%s", wish->name) : NULL;
    *made = map;
    return SQLITE_OK;
}

/* The map of the name, if there is one, or a new one; the lists are locked. */
static int find_map(const Wish *wish, Map **found, char **error) {
    Map *map = wish->name ? maps : NULL;
    int code;
    while (map && (!map->name || strcmp(map->name, wish->name) != 0)) map = map->next;
    if (map) {
        uint32_t pages;
        *found = map;
        pthread_mutex_lock(&map->lock[0]);
        pages = map->pages;
        pthread_mutex_unlock(&map->lock[0]);
        if (wish->pages && wish->pages != (sqlite3_int64)pages)
            return refused(error, SQLITE_ERROR, sqlite3_mprintf("blink: the map %s has %u pages", map->name, pages));
        if (wish->seats && wish->seats != (sqlite3_int64)map->seats)
            return refused(error, SQLITE_ERROR, sqlite3_mprintf("blink: the map %s has %d seats", map->name, (int)map->seats));
        return SQLITE_OK;
    }
    code = make_map(wish, found, error);
    if (code == SQLITE_OK) {
        (*found)->next = maps;
        maps = *found;
    }
    return code;
}

/* Gives the table a seat at a map; the lists are locked. */
static int take_seat(Table *t, const Wish *wish, char **error) {
    Map *map = NULL;
    int code = find_map(wish, &map, error);
    if (code != SQLITE_OK) return code;
    while (t->place < map->seats && map->table[t->place]) t->place++;
    if (t->place == map->seats)
        return refused(error, SQLITE_ERROR, sqlite3_mprintf("blink: all %d seats of the map %s are taken", (int)map->seats, map->name));
    t->map = map;
    map->users++;
    hold(t);
    map->table[t->place] = t;
    let_go(t);
    return SQLITE_OK;
}

/* The connection's table of a name, or null. */
static Table *find_table(const Home *home, const char *schema, const char *name) {
    Table *t = home->tables;
    while (t && (sqlite3_stricmp(t->schema, schema) != 0 || sqlite3_stricmp(t->name, name) != 0)) t = t->next;
    return t;
}

/* One that had the name before it was renamed. As SQLite asks for that name, the renaming was rolled back, and it has it again. */
static Table *find_renamed(const Home *home, const char *schema, const char *name) {
    for (Table *t = home->tables; t; t = t->next) {
        if (!t->before || sqlite3_stricmp(t->schema, schema) != 0 || sqlite3_stricmp(t->before, name) != 0) continue;
        sqlite3_free(t->name);
        t->name = t->before;
        t->before = NULL;
        return t;
    }
    return NULL;
}

/* A new table as the words wish it. */
static int make_table(Home *home, int count, const char *const *words, Table **made, char **error) {
    Wish wish = { 0, 0, 0, 0, NULL, NULL };
    Table *t = calloc(1, sizeof *t);
    int code = t ? SQLITE_OK : SQLITE_NOMEM;
    for (int i = 3; i < count && code == SQLITE_OK; i++) {
        char *why = read_word(words[i], &wish);
        if (why) code = refused(error, SQLITE_ERROR, why);
    }
    if (code == SQLITE_OK) {
        t->schema = sqlite3_mprintf("%s", words[1]);
        t->name = sqlite3_mprintf("%s", words[2]);
        if (!t->schema || !t->name) code = SQLITE_NOMEM;
    }
    if (code == SQLITE_OK) {
        pthread_mutex_lock(&lists_lock);
        code = take_seat(t, &wish, error);
        pthread_mutex_unlock(&lists_lock);
    }
    sqlite3_free(wish.name);
    if (code != SQLITE_OK) {
        sqlite3_free(wish.image);
        if (t) free_table(t);
        return code;
    }
    t->image = wish.image;
    t->takes_snapshots = wish.snapshot == 1;
    t->home = home;
    t->next = home->tables;
    home->tables = *made = t;
    return SQLITE_OK;
}

static int show_table(sqlite3 *db, Table *t, sqlite3_vtab **made) {
    Shown *shown = sqlite3_malloc(sizeof *shown);
    int code = shown ? sqlite3_declare_vtab(db, "CREATE TABLE x(k INTEGER PRIMARY KEY, v INTEGER NOT NULL, was INTEGER HIDDEN)") : SQLITE_NOMEM;
    if (code == SQLITE_OK) code = sqlite3_vtab_config(db, SQLITE_VTAB_CONSTRAINT_SUPPORT, 1);
    if (code != SQLITE_OK) {
        sqlite3_free(shown);
        return code;
    }
    memset(shown, 0, sizeof *shown);
    shown->table = t;
    t->shown++;
    *made = &shown->base;
    return SQLITE_OK;
}

/* Connects to a table that is there, or, as in another connection to a file, makes it. */
static int connect_table(sqlite3 *db, void *data, int count, const char *const *words, sqlite3_vtab **made, char **error) {
    Home *home = data;
    Table *t = find_table(home, words[1], words[2]);
    int code;
    if (!t) t = find_renamed(home, words[1], words[2]);
    code = t ? SQLITE_OK : make_table(home, count, words, &t, error);
    if (code == SQLITE_OK && t->is_kept) {
        /* The transaction was rolled back. What it changed before it dropped the table is still to be undone. */
        int32_t answer = undo_to(t, 0);
        if (answer != BLINK_OK) return refused(error, SQLITE_ERROR, sqlite3_mprintf("blink: a rollback: %s", blink_text(answer)));
        t->is_kept = false;
    }
    return code == SQLITE_OK ? show_table(db, t, made) : code;
}

static int create_table(sqlite3 *db, void *data, int count, const char *const *words, sqlite3_vtab **made, char **error) {
    Home *home = data;
    Table *old = find_table(home, words[1], words[2]), *t = NULL;
    int code;
    /* One whose making was rolled back, or whose end was committed. */
    if (old) drop_table(home, old);
    code = make_table(home, count, words, &t, error);
    if (code == SQLITE_OK) code = show_table(db, t, made);
    if (code != SQLITE_OK && t) drop_table(home, t);
    return code;
}

static int disconnect_table(sqlite3_vtab *base) {
    Table *t = table_of(base);
    sqlite3_free(base);
    if (--t->shown == 0 && t->is_dropped) free_table(t);
    return SQLITE_OK;
}

/* DROP TABLE. In a transaction the table is kept, since that may be rolled back: until one of its name is made, or the
 * connection is closed. */
static int destroy_table(sqlite3_vtab *base) {
    Table *t = table_of(base);
    t->is_kept = !sqlite3_get_autocommit(t->home->db);
    if (!t->is_kept) drop_table(t->home, t);
    return disconnect_table(base);
}

/* The connection's tables, of which SQLite has let go of all, go with it. */
static void free_home(void *data) {
    Home *home = data, **at = &homes;
    while (home->tables) drop_table(home, home->tables);
    pthread_mutex_lock(&lists_lock);
    while (*at != home) at = &(*at)->next;
    *at = home->next;
    pthread_mutex_unlock(&lists_lock);
    free(home);
}

/* ---- Reading. ---- */

/* A plan: which bounds there are, the arguments in this order, and whether rows fall. */
enum { EQUAL = 1, LOWER = 2, UPPER = 4, FALLING = 8 };

/* Where the usable constraints of k stand, or -1. */
static void find_constraints(const sqlite3_index_info *info, int *equal, int *lower, int *upper) {
    *equal = *lower = *upper = -1;
    for (int i = 0; i < info->nConstraint; i++) {
        if (!info->aConstraint[i].usable || info->aConstraint[i].iColumn > 0) continue;
        switch (info->aConstraint[i].op) {
            case SQLITE_INDEX_CONSTRAINT_EQ: *equal = i; break;
            case SQLITE_INDEX_CONSTRAINT_GE:
            case SQLITE_INDEX_CONSTRAINT_GT:
                if (*lower < 0) *lower = i;
                break;
            case SQLITE_INDEX_CONSTRAINT_LE:
            case SQLITE_INDEX_CONSTRAINT_LT:
                if (*upper < 0) *upper = i;
                break;
            default: break;
        }
    }
}

/* Costs are in rows read: a search costs as much as some ten rows of a scan, and a row downwards twice one upwards. Each
 * bound is taken to leave a quarter of the rows. Keys are unique, so that what else ORDER BY names behind k is of no weight. */
static int plan_query(sqlite3_vtab *base, sqlite3_index_info *info) {
    double rows = (double)__atomic_load_n(&table_of(base)->map->rows, __ATOMIC_RELAXED);
    int equal, lower, upper, arguments = 0;
    bool is_ordered = info->nOrderBy > 0 && info->aOrderBy[0].iColumn <= 0, is_falling = is_ordered && info->aOrderBy[0].desc;
    find_constraints(info, &equal, &lower, &upper);
    if (equal >= 0) {
        info->aConstraintUsage[equal].argvIndex = 1;
        info->idxNum = EQUAL;
        info->idxFlags = SQLITE_INDEX_SCAN_UNIQUE;
        info->estimatedRows = 1;
        info->estimatedCost = 10;
        info->orderByConsumed = 1;
        return SQLITE_OK;
    }
    info->idxNum = is_falling ? FALLING : 0;
    if (rows < 1) rows = 1;
    if (lower >= 0) {
        info->aConstraintUsage[lower].argvIndex = ++arguments;
        info->idxNum |= LOWER;
        rows /= 4;
    }
    if (upper >= 0) {
        info->aConstraintUsage[upper].argvIndex = ++arguments;
        info->idxNum |= UPPER;
        rows /= 4;
    }
    info->estimatedRows = (sqlite3_int64)rows + 1;
    info->estimatedCost = 10 + rows * (is_falling ? 2 : 1);
    info->orderByConsumed = is_ordered;
    return SQLITE_OK;
}

static int open_cursor(sqlite3_vtab *base, sqlite3_vtab_cursor **made) {
    Cursor *c = sqlite3_malloc(sizeof *c);
    (void)base;
    if (!c) return SQLITE_NOMEM;
    memset(c, 0, sizeof *c);
    c->rows = c->some;
    *made = &c->base;
    return SQLITE_OK;
}

static int close_cursor(sqlite3_vtab_cursor *base) {
    sqlite3_free(((Cursor *)base)->all);
    sqlite3_free(base);
    return SQLITE_OK;
}

/* The rows of these keys are to be read next. */
static void read_keys(Cursor *c, Keys keys) {
    c->wanted = keys;
    c->next = c->is_falling ? keys.high : keys.low;
    c->more = true;
}

/* Reads further rows until one stands or none is left. */
static int fill(Cursor *c) {
    Table *t = table_of(c->base.pVtab);
    while (!c->is_over && c->at == c->count) {
        if (!c->more && c->has_later) {
            c->has_later = false;
            read_keys(c, c->later);
        }
        if (!c->more) {
            c->is_over = true;
            return SQLITE_OK;
        }
        blink_seat *seat = hold(t);
        int32_t answer = c->is_falling ? blink_scan_down_to(seat, c->next, c->wanted.low, c->some, c->most, &c->count, &c->next, &c->more)
                                       : blink_scan_to(seat, c->next, c->wanted.high, c->some, c->most, &c->count, &c->next, &c->more);
        let_go(t);
        c->at = 0;
        /* Few at first, since many queries want few rows. */
        c->most = ROWS_AT_ONCE;
        if (answer != BLINK_OK) return told(c->base.pVtab, answer);
    }
    return SQLITE_OK;
}

/* A bound: the least integer that is not below the value, or the greatest that is not above it. SQLite looks at each row
 * again, so it may be wide. False where no row can fit, as with null. */
static bool read_bound(sqlite3_value *value, bool is_lower, sqlite3_int64 *k) {
    double number;
    switch (sqlite3_value_numeric_type(value)) {
        case SQLITE_NULL: return false;
        case SQLITE_INTEGER: *k = sqlite3_value_int64(value); return true;
        case SQLITE_FLOAT: break;
        default: *k = is_lower ? INT64_MIN : INT64_MAX; return true;
    }
    number = sqlite3_value_double(value);
    if (number <= -9223372036854775808.0) {
        *k = INT64_MIN;
    } else if (number >= 9223372036854774784.0) {
        *k = is_lower ? 9223372036854774784 : INT64_MAX;
    } else {
        *k = (sqlite3_int64)number;
        if (is_lower && (double)*k > number) *k -= 1;
        if (!is_lower && (double)*k < number) *k += 1;
    }
    return true;
}

/* One key: a search. */
static int find_row(Cursor *c, uint64_t key) {
    Table *t = table_of(c->base.pVtab);
    uint64_t value = 0;
    int32_t answer = blink_find(hold(t), key, &value);
    let_go(t);
    c->rows = c->some;
    c->rows[0] = (blink_row){ key, value };
    c->at = 0;
    c->count = answer == BLINK_OK;
    c->more = c->has_later = false;
    c->is_over = answer != BLINK_OK;
    return answer == BLINK_ABSENT ? SQLITE_OK : told(c->base.pVtab, answer);
}

/* The keys from one to another in the table's order: the negative ones are behind the others in the map, and come first here. */
static void choose_keys(Cursor *c, sqlite3_int64 low, sqlite3_int64 high) {
    Keys negative = { key_of(low), key_of(high < 0 ? high : -1) }, other = { key_of(low < 0 ? 0 : low), key_of(high) };
    c->has_later = low < 0 && high >= 0;
    c->later = c->is_falling ? negative : other;
    if (c->has_later) read_keys(c, c->is_falling ? other : negative);
    else read_keys(c, low < 0 ? negative : other);
}

/* Turns the rows from one place up to another one around. */
static void turn_around(blink_row *rows, size_t from, size_t to) {
    for (; from + 1 < to; from++, to--) {
        const blink_row kept = rows[from];
        rows[from] = rows[to - 1];
        rows[to - 1] = kept;
    }
}

/* Keeps the rows of the keys from one to another in the table's order, of rows in the map's, which has the negative keys behind the others. */
static void keep_in_order(Cursor *c, sqlite3_int64 low, sqlite3_int64 high) {
    size_t kept = 0, others = 0;
    for (size_t at = 0; at < c->count; at++) {
        const sqlite3_int64 k = int_of(c->all[at].key);
        if (k < low || k > high) continue;
        others += k >= 0;
        c->all[kept++] = c->all[at];
    }
    c->count = kept;
    /* Each of two parts, and then both, are turned around: so the second comes first. */
    turn_around(c->all, 0, others);
    turn_around(c->all, others, kept);
    if (!c->is_falling) turn_around(c->all, 0, kept);
}

/* Reads the rows of the keys from one to another at one moment. Keys on both sides of 0 lie at both ends of the map, which is read whole. */
static int take_snapshot(Cursor *c, sqlite3_int64 low, sqlite3_int64 high) {
    Table *t = table_of(c->base.pVtab);
    const bool is_apart = low < 0 && high >= 0;
    uint64_t count = 0;
    int32_t answer;
    if (!c->all) c->all = sqlite3_malloc(SNAPSHOT_ROWS * sizeof *c->all);
    if (!c->all) return SQLITE_NOMEM;
    answer = blink_range(hold(t), is_apart ? 0 : key_of(low), is_apart ? UINT64_MAX : key_of(high), SNAPSHOT_ROUNDS, c->all,
                         SNAPSHOT_ROWS, &count);
    let_go(t);
    if (answer == BLINK_FEW_ROWS)
        return fail(c->base.pVtab, SQLITE_ERROR, "blink: a snapshot has 4096 rows at most; ask for fewer keys, or make the table without snapshot=1");
    if (answer == BLINK_UNSTEADY)
        return fail(c->base.pVtab, SQLITE_BUSY, "blink: others changed the rows each time that they were read; try the statement again");
    if (answer != BLINK_OK) return told(c->base.pVtab, answer);
    c->rows = c->all;
    c->count = (size_t)count;
    c->more = c->has_later = false;
    keep_in_order(c, low, high);
    return SQLITE_OK;
}

static int filter_rows(sqlite3_vtab_cursor *base, int plan, const char *text, int count, sqlite3_value **values) {
    Cursor *c = (Cursor *)base;
    sqlite3_int64 low = INT64_MIN, high = INT64_MAX;
    bool can_fit = true;
    int at = 0;
    (void)text;
    (void)count;
    if (plan & EQUAL) can_fit = read_bound(values[0], true, &low) && read_bound(values[0], false, &high);
    if (plan & LOWER) can_fit = read_bound(values[at++], true, &low);
    if (plan & UPPER) can_fit = read_bound(values[at++], false, &high) && can_fit;
    table_of(base->pVtab)->undos_as_read = table_of(base->pVtab)->undos;
    if ((plan & EQUAL) && can_fit && low == high) return find_row(c, key_of(low));
    c->is_falling = (plan & FALLING) != 0;
    c->rows = c->some;
    c->at = c->count = 0;
    c->most = FIRST_ROWS;
    c->is_over = !can_fit || low > high;
    if (c->is_over) return SQLITE_OK;
    if (table_of(base->pVtab)->takes_snapshots) {
        int code = take_snapshot(c, low, high);
        if (code != SQLITE_OK) return code;
    } else {
        choose_keys(c, low, high);
    }
    return fill(c);
}

static int next_row(sqlite3_vtab_cursor *base) {
    Cursor *c = (Cursor *)base;
    c->at++;
    return fill(c);
}

static int is_at_end(sqlite3_vtab_cursor *base) { return ((Cursor *)base)->is_over; }

static int read_column(sqlite3_vtab_cursor *base, sqlite3_context *context, int number) {
    const blink_row *row = &((Cursor *)base)->rows[((Cursor *)base)->at];
    sqlite3_result_int64(context, number == COLUMN_K ? int_of(row->key) : (sqlite3_int64)row->value);
    return SQLITE_OK;
}

static int read_rowid(sqlite3_vtab_cursor *base, sqlite3_int64 *id) {
    *id = int_of(((Cursor *)base)->rows[((Cursor *)base)->at].key);
    return SQLITE_OK;
}

/* ---- Writing. ---- */

static int make_room_for_undo(Table *t, size_t more) {
    if (t->undos + more > t->room) {
        size_t room = 2 * t->room + 64;
        Undo *undo = realloc(t->undo, room * sizeof *undo);
        if (!undo) return SQLITE_NOMEM;
        t->undo = undo;
        t->room = room;
    }
    return SQLITE_OK;
}

/* Notes a change, under the seat's lock. */
static void note(Table *t, Undo change) {
    t->undo[t->undos++] = change;
    if (change.had != change.has) __atomic_add_fetch(&t->map->rows, change.has ? 1 : -1, __ATOMIC_RELAXED);
}

/* The last change at a key since this connection last began to read the table, or null: what it then read first is no longer there. */
static const Undo *own_change(const Table *t, uint64_t key) {
    for (size_t i = t->undos; i > t->undos_as_read; i--)
        if (t->undo[i - 1].key == key) return &t->undo[i - 1];
    return NULL;
}

/* Whether a row that is not as it was read is as the statement itself has left it. */
static bool is_own(const Table *t, uint64_t key, uint64_t there) {
    const Undo *own = own_change(t, key);
    return own && own->has && own->since == there;
}

/* A row was not as it was read: where the statement itself has taken it away there is nothing to do, and else another was first. */
static int told_stale(sqlite3_vtab *base, uint64_t key) {
    const Undo *own = own_change(table_of(base), key);
    if (own && !own->has) return SQLITE_OK;
    return fail(base, SQLITE_BUSY, "blink: another connection has changed the row since it was read; try the statement again");
}

/* Takes a row away, whatever its value is. */
static int take_away(sqlite3_vtab *base, uint64_t key) {
    Table *t = table_of(base);
    uint64_t old = 0;
    uint32_t pages;
    int32_t answer;
    do {
        blink_seat *seat = hold(t);
        pages = t->map->pages;
        answer = blink_delete(seat, key, &old);
        if (answer == BLINK_OK) note(t, (Undo){ key, old, 0, true, false });
        let_go(t);
    } while (answer == BLINK_NO_ROOM && grow(t->map, pages));
    if (answer == BLINK_OK) shrink_in_time(t);
    /* Where it is not there another connection was first. */
    return answer == BLINK_ABSENT ? SQLITE_OK : told(base, answer);
}

/* Takes a row away that was read with this value. */
static int take_away_as_read(sqlite3_vtab *base, uint64_t key, uint64_t was) {
    Table *t = table_of(base);
    blink_seat *seat = &t->map->seat[t->place];
    uint64_t there = 0;
    int32_t answer;
    hold_all(t->map);
    answer = delete_if(seat, key, was, &there);
    if (answer == BLINK_PRESENT && is_own(t, key, there)) {
        was = there;
        answer = delete_if(seat, key, was, &there);
    }
    if (answer == BLINK_OK) note(t, (Undo){ key, was, 0, true, false });
    let_all_go(t->map);
    if (answer == BLINK_OK) shrink_in_time(t);
    return answer == BLINK_PRESENT || answer == BLINK_ABSENT ? told_stale(base, key) : told(base, answer);
}

/* Puts a value at a row that was read with another one. */
static int set_value(sqlite3_vtab *base, uint64_t key, uint64_t was, uint64_t value) {
    Table *t = table_of(base);
    uint64_t there = 0;
    uint32_t pages;
    int32_t answer;
    do {
        blink_seat *seat = hold(t);
        pages = t->map->pages;
        answer = blink_change(seat, key, was, value, &there);
        if (answer == BLINK_PRESENT && is_own(t, key, there)) {
            was = there;
            answer = blink_change(seat, key, was, value, &there);
        }
        if (answer == BLINK_OK) note(t, (Undo){ key, was, value, true, true });
        let_go(t);
    } while (answer == BLINK_NO_ROOM && grow(t->map, pages));
    return answer == BLINK_PRESENT || answer == BLINK_ABSENT ? told_stale(base, key) : told(base, answer);
}

static int put_row(sqlite3_vtab *base, uint64_t key, uint64_t value, bool is_replacing) {
    Table *t = table_of(base);
    uint64_t old = 0;
    uint32_t pages;
    bool had;
    int32_t answer;
    do {
        blink_seat *seat = hold(t);
        pages = t->map->pages;
        answer = is_replacing ? blink_put(seat, key, value, &old) : blink_insert(seat, key, value, &old);
        had = is_replacing && answer == BLINK_PRESENT;
        if (had) answer = BLINK_OK;
        if (answer == BLINK_OK) note(t, (Undo){ key, old, value, had, true });
        let_go(t);
    } while (answer == BLINK_NO_ROOM && grow(t->map, pages));
    if (answer == BLINK_OK && !had) grow_in_time(t);
    return told(base, answer);
}

/* An integer of a column, or the number with a fraction of zero that is one. */
static int read_integer(sqlite3_vtab *base, sqlite3_value *value, sqlite3_int64 *k, const char *column) {
    int type = sqlite3_value_numeric_type(value), code;
    char *why;
    if (type == SQLITE_FLOAT) {
        double number = sqlite3_value_double(value);
        if (number >= -9223372036854775808.0 && number < 9223372036854775808.0 && (double)(sqlite3_int64)number == number) {
            *k = (sqlite3_int64)number;
            return SQLITE_OK;
        }
    }
    *k = sqlite3_value_int64(value);
    if (type == SQLITE_INTEGER) return SQLITE_OK;
    if (type != SQLITE_NULL) return fail(base, SQLITE_MISMATCH, "datatype mismatch");
    why = sqlite3_mprintf("NOT NULL constraint failed: %s", column);
    code = fail(base, SQLITE_CONSTRAINT, why ? why : "NOT NULL constraint failed");
    sqlite3_free(why);
    return code;
}

/* The key of an insertion that names none: the one behind the greatest. Negative ones are behind the others in the map. */
static int next_key(sqlite3_vtab *base, sqlite3_int64 *k) {
    Table *t = table_of(base);
    blink_seat *seat = hold(t);
    blink_row last;
    int32_t answer = blink_previous(seat, key_of(INT64_MIN), &last);
    if (answer == BLINK_ABSENT) answer = blink_last(seat, &last);
    let_go(t);
    *k = 1;
    if (answer == BLINK_ABSENT) return SQLITE_OK;
    if (answer != BLINK_OK) return told(base, answer);
    if (int_of(last.key) == INT64_MAX) return fail(base, SQLITE_FULL, "blink: the greatest key is taken");
    *k = int_of(last.key) + 1;
    return SQLITE_OK;
}

/* An insertion has null as its first value, a deletion one value alone; an update may change the key. Behind the row's old and new ids
 * stand the columns, of which `was` is as the statement's cursor read it. */
static int update_row(sqlite3_vtab *base, int count, sqlite3_value **values, sqlite3_int64 *id) {
    sqlite3 *db = table_of(base)->home->db;
    bool is_new = sqlite3_value_type(values[0]) == SQLITE_NULL;
    sqlite3_int64 k = 0, v = 0, was = 0, id_before = sqlite3_value_int64(values[0]);
    int code = make_room_for_undo(table_of(base), 2);
    if (code != SQLITE_OK) return code;
    if (count == 1) return take_away(base, key_of(id_before));
    if (is_new && sqlite3_value_type(values[2]) == SQLITE_NULL && sqlite3_value_type(values[1]) == SQLITE_NULL) {
        code = next_key(base, &k);
    } else {
        /* UPDATE .. SET rowid = .. comes as the second value, SET k = .. as the third one. */
        bool is_by_id = sqlite3_value_type(values[2]) == SQLITE_NULL || (!is_new && sqlite3_value_int64(values[1]) != id_before);
        code = read_integer(base, values[is_by_id ? 1 : 2], &k, "k");
    }
    if (code == SQLITE_OK) code = read_integer(base, values[2 + COLUMN_V], &v, "v");
    if (code == SQLITE_OK && !is_new) code = read_integer(base, values[2 + COLUMN_WAS], &was, "was");
    if (code != SQLITE_OK) return code;
    *id = k;
    if (!is_new && k == id_before) return set_value(base, key_of(k), (uint64_t)was, (uint64_t)v);
    code = put_row(base, key_of(k), (uint64_t)v, sqlite3_vtab_on_conflict(db) == SQLITE_REPLACE);
    return code == SQLITE_OK && !is_new ? take_away_as_read(base, key_of(id_before), (uint64_t)was) : code;
}

/* ---- Transactions. ---- */

static int begin_changes(sqlite3_vtab *base) {
    Table *t = table_of(base);
    hold(t);
    t->undos = 0;
    let_go(t);
    t->mark_count = 0;
    /* Outside of BEGIN and COMMIT a renaming is not rolled back any more. */
    if (sqlite3_get_autocommit(t->home->db)) {
        sqlite3_free(t->before);
        t->before = NULL;
    }
    return SQLITE_OK;
}

static int sync_changes(sqlite3_vtab *base) {
    (void)base;
    return SQLITE_OK;
}

static int commit_changes(sqlite3_vtab *base) { return begin_changes(base); }

static int roll_back(sqlite3_vtab *base) { return told(base, undo_to(table_of(base), 0)); }

static int set_savepoint(sqlite3_vtab *base, int number) {
    Table *t = table_of(base);
    size_t *marks = realloc(t->marks, ((size_t)number + 1) * sizeof *marks);
    if (!marks) return SQLITE_NOMEM;
    t->marks = marks;
    for (int i = t->mark_count; i < number; i++) marks[i] = t->undos;
    marks[number] = t->undos;
    t->mark_count = number + 1;
    return SQLITE_OK;
}

static int release_savepoint(sqlite3_vtab *base, int number) {
    Table *t = table_of(base);
    if (number < t->mark_count) t->mark_count = number;
    return SQLITE_OK;
}

static int roll_back_to(sqlite3_vtab *base, int number) {
    Table *t = table_of(base);
    return number < t->mark_count ? told(base, undo_to(t, t->marks[number])) : SQLITE_OK;
}

static int rename_table(sqlite3_vtab *base, const char *name) {
    Table *t = table_of(base);
    char *copy = sqlite3_mprintf("%s", name);
    if (!copy) return SQLITE_NOMEM;
    sqlite3_free(t->before);
    t->before = t->name;
    t->name = copy;
    return SQLITE_OK;
}

/* ---- Functions. ---- */

/* The table that the first argument names, perhaps with its schema before it; else the call has failed. */
static Table *named_table(sqlite3_context *context, sqlite3_value **values) {
    const char *name = (const char *)sqlite3_value_text(values[0]);
    Table *t = ((Home *)sqlite3_user_data(context))->tables;
    char *why;
    while (t && name && sqlite3_stricmp(t->name, name) != 0) {
        size_t length = strlen(t->schema);
        if (sqlite3_strnicmp(t->schema, name, (int)length) == 0 && name[length] == '.' && sqlite3_stricmp(t->name, name + length + 1) == 0)
            break;
        t = t->next;
    }
    if (t && name) return t;
    why = sqlite3_mprintf("blink: there is no table %s of blink in use; begin with a query of it", name ? name : "NULL");
    sqlite3_result_error(context, why ? why : "blink: there is no such table", -1);
    sqlite3_free(why);
    return NULL;
}

static void result_why(sqlite3_context *context, char *why) {
    if (why) sqlite3_result_error(context, why, -1);
    else sqlite3_result_error_nomem(context);
    sqlite3_free(why);
}

/* The image of a map, which is closed for it and opened again, in between the calls of others: it is `map->kept` then, and where
 * the map could not be opened again it stays there until it is written. */
static int32_t make_image(Map *map, bool *is_open) {
    uint64_t length = blink_image_length(map->pages);
    uint8_t *bytes = malloc((size_t)length);
    int32_t answer;
    if (!bytes) return BLINK_NO_MEMORY;
    answer = blink_close_image(map->seat, map->seats, bytes, (size_t)length, &length);
    if (answer != BLINK_OK) {
        free(bytes);
        return answer;
    }
    *is_open = blink_open_image(bytes, (size_t)length, map->seat, map->seats) == BLINK_OK;
    map->kept = bytes;
    map->kept_length = length;
    return BLINK_OK;
}

/* Whether a table of the map is in a transaction that has changed something: of the connection, or of any where that is null. */
static bool has_changes(const Map *map, const Home *home) {
    for (size_t i = 0; i < map->seats; i++)
        if (map->table[i] && map->table[i]->undos > 0 && (!home || map->table[i]->home == home)) return true;
    return false;
}

/* Holds all seats while no transaction has changed the map: it waits a while for those of other connections. Else the call has failed. */
static bool hold_all_committed(sqlite3_context *context, Table *t) {
    for (int tries = 0; tries < TRIES; tries++) {
        hold_all(t->map);
        if (!has_changes(t->map, NULL)) return true;
        if (has_changes(t->map, t->home)) tries = TRIES;
        let_all_go(t->map);
        if (tries < TRIES) usleep(TRY_MICROSECONDS);
    }
    sqlite3_result_error(context, "blink: a transaction has changed the map: commit it first", -1);
    sqlite3_result_error_code(context, SQLITE_BUSY);
    return false;
}

static void save_table(sqlite3_context *context, int count, sqlite3_value **values) {
    Table *t = named_table(context, values);
    const char *file;
    int32_t answer = BLINK_OK;
    bool is_open = true;
    char *why = NULL;
    if (!t) return;
    file = count > 1 ? (const char *)sqlite3_value_text(values[1]) : t->image;
    if (!file) {
        sqlite3_result_error(context, "blink: blink_save(TABLE, FILE) wants a file, where the table has no image=FILE", -1);
        return;
    }
    if (!hold_all_committed(context, t)) return;
    if (!t->map->kept) answer = make_image(t->map, &is_open);
    else is_open = false;
    if (answer == BLINK_OK) {
        why = write_file(file, t->map->kept, (size_t)t->map->kept_length);
        if (!why && !is_open) why = sqlite3_mprintf("blink: no memory to open the map again; its rows are in %s, for blink_open", file);
        else if (!why) sqlite3_result_int64(context, (sqlite3_int64)t->map->kept_length);
        if (is_open) {
            free(t->map->kept);
            t->map->kept = NULL;
        }
    }
    let_all_go(t->map);
    if (answer != BLINK_OK) sqlite3_result_error(context, blink_text(answer), -1);
    else if (why) result_why(context, why);
}

static void open_table(sqlite3_context *context, int count, sqlite3_value **values) {
    Table *t = named_table(context, values);
    const char *file = (const char *)sqlite3_value_text(values[1]);
    size_t length = 0;
    bool is_there = false;
    char *why = NULL;
    uint8_t *bytes;
    int32_t answer = BLINK_OK;
    (void)count;
    if (!t) return;
    if (!file) {
        sqlite3_result_error(context, "blink: blink_open(TABLE, FILE) wants a file", -1);
        return;
    }
    bytes = read_file(file, &length, &is_there, &why);
    if (!bytes) {
        result_why(context, why);
        return;
    }
    if (!hold_all_committed(context, t)) {
        free(bytes);
        return;
    }
    answer = take_image(t->map, bytes, length);
    if (answer == BLINK_OK) sqlite3_result_int64(context, t->map->rows);
    let_all_go(t->map);
    free(bytes);
    if (answer != BLINK_OK) why = sqlite3_mprintf("blink: %s: %s", file, blink_text(answer));
    if (why) result_why(context, why);
}

/* The table's answer to a function of its own, else why there is none. */
static void result_answer(sqlite3_context *context, int32_t answer, sqlite3_int64 value) {
    if (answer == BLINK_OK) sqlite3_result_int64(context, value);
    else if (answer == BLINK_ABSENT) sqlite3_result_null(context);
    else if (answer == BLINK_NO_ROOM) sqlite3_result_error_code(context, SQLITE_FULL);
    else sqlite3_result_error(context, blink_text(answer), -1);
}

/* Whether these arguments are integers; else the call has failed. */
static bool are_integers(sqlite3_context *context, int count, sqlite3_value **values) {
    for (int i = 1; i < count; i++)
        if (sqlite3_value_numeric_type(values[i]) != SQLITE_INTEGER) {
            sqlite3_result_error(context, "blink: keys and values are integers", -1);
            return false;
        }
    return true;
}

static void add_to_value(sqlite3_context *context, int count, sqlite3_value **values) {
    Table *t = named_table(context, values);
    uint64_t now = 0;
    uint32_t pages;
    int32_t answer;
    if (!t || !are_integers(context, count, values)) return;
    do {
        blink_seat *seat = hold(t);
        pages = t->map->pages;
        answer = blink_add(seat, key_of(sqlite3_value_int64(values[1])), (uint64_t)sqlite3_value_int64(values[2]), &now);
        let_go(t);
    } while (answer == BLINK_NO_ROOM && grow(t->map, pages));
    if (answer == BLINK_OK) {
        __atomic_add_fetch(&t->map->rows, 1, __ATOMIC_RELAXED);
        grow_in_time(t);
    }
    result_answer(context, answer == BLINK_PRESENT ? BLINK_OK : answer, (sqlite3_int64)now);
}

static void change_value(sqlite3_context *context, int count, sqlite3_value **values) {
    Table *t = named_table(context, values);
    uint64_t there = 0;
    int32_t answer;
    if (!t || !are_integers(context, count, values)) return;
    answer = blink_change(hold(t), key_of(sqlite3_value_int64(values[1])), (uint64_t)sqlite3_value_int64(values[2]),
                          (uint64_t)sqlite3_value_int64(values[3]), &there);
    let_go(t);
    result_answer(context, answer == BLINK_PRESENT ? BLINK_OK : answer, answer == BLINK_OK);
}

static void count_table(sqlite3_context *context, int count, sqlite3_value **values) {
    Table *t = named_table(context, values);
    uint64_t rows = 0;
    int32_t answer;
    (void)count;
    if (!t) return;
    answer = blink_count(hold(t), 0, UINT64_MAX, &rows);
    let_go(t);
    result_answer(context, answer, (sqlite3_int64)rows);
}

static void tell_pages(sqlite3_context *context, sqlite3_value **values, bool are_free) {
    Table *t = named_table(context, values);
    blink_stats stats = { 0, 0, 0, 0, 0, 0, 0 };
    int32_t answer;
    if (!t) return;
    answer = blink_stat(hold(t), false, &stats);
    let_go(t);
    result_answer(context, answer, (sqlite3_int64)(are_free ? stats.free_pages : stats.pages));
}

static void count_pages(sqlite3_context *context, int count, sqlite3_value **values) {
    (void)count;
    tell_pages(context, values, false);
}

static void count_free_pages(sqlite3_context *context, int count, sqlite3_value **values) {
    (void)count;
    tell_pages(context, values, true);
}

static void tell_version(sqlite3_context *context, int count, sqlite3_value **values) {
    (void)count;
    (void)values;
    sqlite3_result_text(context, blink_version(), -1, SQLITE_STATIC);
}

/* What statements may call, with how many arguments. */
static const struct {
    const char *name;
    int count;
    void (*call)(sqlite3_context *, int, sqlite3_value **);
} functions[] = {
    { "blink_save", 1, save_table },       { "blink_save", 2, save_table },
    { "blink_open", 2, open_table },       { "blink_add", 3, add_to_value },
    { "blink_change", 4, change_value },   { "blink_rows", 1, count_table },
    { "blink_pages", 1, count_pages },     { "blink_free_pages", 1, count_free_pages },
    { "blink_version", 0, tell_version },
};

static sqlite3_module module = {
    .iVersion = 2,
    .xCreate = create_table,
    .xConnect = connect_table,
    .xBestIndex = plan_query,
    .xDisconnect = disconnect_table,
    .xDestroy = destroy_table,
    .xOpen = open_cursor,
    .xClose = close_cursor,
    .xFilter = filter_rows,
    .xNext = next_row,
    .xEof = is_at_end,
    .xColumn = read_column,
    .xRowid = read_rowid,
    .xUpdate = update_row,
    .xBegin = begin_changes,
    .xSync = sync_changes,
    .xCommit = commit_changes,
    .xRollback = roll_back,
    .xRename = rename_table,
    .xSavepoint = set_savepoint,
    .xRelease = release_savepoint,
    .xRollbackTo = roll_back_to,
};

/* The connection's own, which is made at the first load; `*is_new` says whether it was. */
static Home *home_of(sqlite3 *db, bool *is_new) {
    Home *home;
    pthread_mutex_lock(&lists_lock);
    home = homes;
    while (home && home->db != db) home = home->next;
    *is_new = !home;
    if (!home && (home = calloc(1, sizeof *home))) {
        home->db = db;
        home->next = homes;
        homes = home;
    }
    pthread_mutex_unlock(&lists_lock);
    return home;
}

__attribute__((visibility("default"))) int sqlite3_blink_init(sqlite3 *db, char **error, const sqlite3_api_routines *api) {
    /* What reads and writes files is for statements of the program alone, not for triggers and views of a file from elsewhere. */
    const int flags = SQLITE_UTF8 | SQLITE_DIRECTONLY;
    bool is_new;
    Home *home;
    int code;
    SQLITE_EXTENSION_INIT2(api);
    (void)error;
    home = home_of(db, &is_new);
    if (!home) return SQLITE_NOMEM;
    /* Loaded once more, the connection keeps its tables. */
    if (!is_new) return SQLITE_OK;
    code = sqlite3_create_module_v2(db, "blink", &module, home, free_home);
    for (size_t i = 0; i < sizeof functions / sizeof functions[0] && code == SQLITE_OK; i++)
        code = sqlite3_create_function(db, functions[i].name, functions[i].count, flags, home, functions[i].call, NULL, NULL);
    return code;
}
