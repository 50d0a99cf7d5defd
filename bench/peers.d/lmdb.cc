// LMDB, the map in a file that SQLite's and LevelDB's users compare with: a B+-tree of pages of 4 KiB, one writer at a time. The file lies in
// memory and nothing is synchronised, a thousand insertions are one transaction, and all threads take turns, so it needs no lock of its own.
#include "large.h"

#include <lmdb.h>
#include <mutex>
#include <stdlib.h>
#include <unistd.h>

struct Map {
    std::mutex turn;
    MDB_env* env = nullptr;
    MDB_txn* txn = nullptr;
    MDB_dbi dbi = 0;
    unsigned written = 0;
    char folder[64];

    static void must(int code) {
        if (code) {
            std::fprintf(stderr, "lmdb: %s\n", mdb_strerror(code));
            std::exit(1);
        }
    }

    Map() {
        std::snprintf(folder, sizeof folder, "/dev/shm/blink-lmdb-%d", (int)getpid());
        std::snprintf(folder + std::strlen(folder), 8, "XXXXXX");
        if (!mkdtemp(folder)) std::exit(1);
        must(mdb_env_create(&env));
        must(mdb_env_set_mapsize(env, size_t(8) << 30));
        must(mdb_env_open(env, folder, MDB_NOSYNC | MDB_WRITEMAP | MDB_NOLOCK, 0600));
        must(mdb_txn_begin(env, nullptr, 0, &txn));
        must(mdb_dbi_open(txn, nullptr, MDB_INTEGERKEY, &dbi));
    }

    ~Map() {
        mdb_txn_abort(txn);
        mdb_env_close(env);
        char file[96];
        for (const char* name : {"data.mdb", "lock.mdb"}) {
            std::snprintf(file, sizeof file, "%s/%s", folder, name);
            unlink(file);
        }
        rmdir(folder);
    }

    bool insert(u64 key, u64 value) {
        std::lock_guard<std::mutex> guard(turn);
        MDB_val k{sizeof key, &key}, v{sizeof value, &value};
        int code = mdb_put(txn, dbi, &k, &v, MDB_NOOVERWRITE);
        if (++written % 1000 == 0) {
            must(mdb_txn_commit(txn));
            must(mdb_txn_begin(env, nullptr, 0, &txn));
        }
        return code == 0;
    }

    bool find(u64 key, u64& value) {
        std::lock_guard<std::mutex> guard(turn);
        MDB_val k{sizeof key, &key}, v;
        if (mdb_get(txn, dbi, &k, &v)) return false;
        std::memcpy(&value, v.mv_data, sizeof value);
        return true;
    }

    void erase(u64 key) {
        std::lock_guard<std::mutex> guard(turn);
        MDB_val k{sizeof key, &key};
        mdb_del(txn, dbi, &k, nullptr);
    }

    void list(u64 from, u64 to, std::vector<Row>& listed) {
        std::lock_guard<std::mutex> guard(turn);
        MDB_cursor* cursor;
        must(mdb_cursor_open(txn, dbi, &cursor));
        MDB_val k{sizeof from, &from}, v;
        for (int code = mdb_cursor_get(cursor, &k, &v, MDB_SET_RANGE); !code; code = mdb_cursor_get(cursor, &k, &v, MDB_NEXT)) {
            u64 key, value;
            std::memcpy(&key, k.mv_data, sizeof key);
            std::memcpy(&value, v.mv_data, sizeof value);
            if (key >= to) break;
            listed.emplace_back(key, value);
        }
        mdb_cursor_close(cursor);
    }
};

int main(int count, char** words) { return loads<Map>(count, words); }
