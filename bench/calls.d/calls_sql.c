/* The same as calls.c, by statements of SQLite that are prepared once, over the extension: calls_sql ROWS ROUNDS EXTENSION. Behind each operation
 * of the extension stands the same over an ordinary table WITHOUT ROWID in memory, with the name `plain NAME`. */
#include <sqlite3.h>
#include <stdbool.h>
#include <stdint.h>
#include <stdio.h>
#include <stdlib.h>
#include <time.h>

enum { INSERT, FIND, PUT, UPDATE, RANGE, UP, DOWN, DELETE, KINDS };
static const char *const names[KINDS] = { "insert", "find", "put", "update", "range of 100", "row up", "row down", "delete" };
static const char *const texts[KINDS] = {
    "INSERT INTO t VALUES(?1, ?2)",
    "SELECT v FROM t WHERE k = ?1",
    "REPLACE INTO t VALUES(?1, ?2)",
    "UPDATE t SET v = ?2 WHERE k = ?1",
    "SELECT v FROM t WHERE k >= ?1 ORDER BY k LIMIT 100",
    "SELECT v FROM t ORDER BY k",
    "SELECT v FROM t ORDER BY k DESC",
    "DELETE FROM t WHERE k = ?1",
};
static const char *const tables[2] = {
    "CREATE VIRTUAL TABLE t USING blink(pages=65536)",
    "CREATE TABLE t(k INTEGER PRIMARY KEY, v INTEGER NOT NULL) WITHOUT ROWID",
};
static double best[2][KINDS];

static double now(void) {
    struct timespec time;
    clock_gettime(CLOCK_MONOTONIC, &time);
    return (double)time.tv_sec * 1e9 + (double)time.tv_nsec;
}

static void need(int code, sqlite3 *db) {
    if (code != SQLITE_OK && code != SQLITE_DONE) {
        fprintf(stderr, "calls_sql: %s\n", sqlite3_errmsg(db));
        exit(1);
    }
}

static sqlite3_int64 key_of(sqlite3_int64 n) { return (sqlite3_int64)((uint64_t)n * 0x9E3779B97F4A7C15u); }

/* Runs a statement: how many rows it has. */
static sqlite3_int64 run(sqlite3 *db, sqlite3_stmt *statement, sqlite3_int64 key, sqlite3_int64 value) {
    sqlite3_int64 count = 0;
    int code;
    if (sqlite3_bind_parameter_count(statement) > 0) sqlite3_bind_int64(statement, 1, key);
    if (sqlite3_bind_parameter_count(statement) > 1) sqlite3_bind_int64(statement, 2, value);
    while ((code = sqlite3_step(statement)) == SQLITE_ROW) count += sqlite3_column_int64(statement, 0) >= 0;
    need(code, db);
    sqlite3_reset(statement);
    return count;
}

static void measure(sqlite3 *db, int table, int kind, sqlite3_int64 rows) {
    sqlite3_int64 times = kind == UP || kind == DOWN ? 1 : kind == RANGE ? rows / 100 : rows, seen = 0;
    sqlite3_stmt *statement;
    double begin, each;
    need(sqlite3_prepare_v3(db, texts[kind], -1, SQLITE_PREPARE_PERSISTENT, &statement, NULL), db);
    need(sqlite3_exec(db, "BEGIN", NULL, NULL, NULL), db);
    begin = now();
    for (sqlite3_int64 n = 0; n < times; n++) seen += run(db, statement, key_of(kind == INSERT ? n : n * 7919 % rows), n);
    need(sqlite3_exec(db, "COMMIT", NULL, NULL, NULL), db);
    each = (now() - begin) / (double)(times == 1 ? rows : times);
    if (best[table][kind] == 0 || each < best[table][kind]) best[table][kind] = each;
    if (((kind == FIND || kind == UP || kind == DOWN) && seen != rows) || (kind == RANGE && seen < times * 90)) need(SQLITE_ERROR, db);
    sqlite3_finalize(statement);
}

int main(int count, char **words) {
    if (count < 4) return 2;
    for (long round = atol(words[2]); round > 0; round--)
        for (int table = 0; table < 2; table++) {
            sqlite3 *db;
            need(sqlite3_open(":memory:", &db), db);
            sqlite3_enable_load_extension(db, 1);
            need(sqlite3_load_extension(db, words[3], NULL, NULL), db);
            need(sqlite3_exec(db, tables[table], NULL, NULL, NULL), db);
            for (int kind = 0; kind < KINDS; kind++) measure(db, table, kind, atoll(words[1]));
            sqlite3_close(db);
        }
    for (int kind = 0; kind < KINDS; kind++) printf("%s\t%.0f\nplain %s\t%.0f\n", names[kind], best[0][kind], names[kind], best[1][kind]);
    return 0;
}
