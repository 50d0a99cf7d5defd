// Changes by sections, each kept on the disk before the next one, by SQLite in its mode that is both quick and safe: a log beside the file (WAL), and
// a sync for each transaction. sqlite FILE SECTION < changes, a line `KEY VALUE` each.
#include <inttypes.h>
#include <sqlite3.h>
#include <stdio.h>
#include <stdlib.h>

static void must(int code, sqlite3* db) {
    if (code != SQLITE_OK && code != SQLITE_DONE && code != SQLITE_ROW) {
        fprintf(stderr, "sqlite: %s\n", sqlite3_errmsg(db));
        exit(1);
    }
}

int main(int count, char** words) {
    if (count != 3) return 2;
    sqlite3* db;
    sqlite3_stmt* put;
    must(sqlite3_open(words[1], &db), 0);
    must(sqlite3_exec(db, "PRAGMA journal_mode=WAL; PRAGMA synchronous=FULL; CREATE TABLE IF NOT EXISTS rows (k INTEGER PRIMARY KEY, v INTEGER)", 0, 0, 0), db);
    must(sqlite3_prepare_v2(db, "INSERT OR REPLACE INTO rows VALUES (?, ?)", -1, &put, 0), db);
    long section = atol(words[2]), done = 0;
    uint64_t key, value;
    while (scanf("%" SCNu64 " %" SCNu64, &key, &value) == 2) {
        if (done % section == 0) must(sqlite3_exec(db, "BEGIN", 0, 0, 0), db);
        sqlite3_bind_int64(put, 1, (int64_t)key);
        sqlite3_bind_int64(put, 2, (int64_t)value);
        must(sqlite3_step(put), db);
        must(sqlite3_reset(put), db);
        if (++done % section == 0) must(sqlite3_exec(db, "COMMIT", 0, 0, 0), db);
    }
    if (done % section) must(sqlite3_exec(db, "COMMIT", 0, 0, 0), db);
    sqlite3_finalize(put);
    must(sqlite3_close(db), db);
    return 0;
}
