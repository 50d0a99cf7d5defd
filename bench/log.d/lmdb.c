// Changes by sections, each kept on the disk before the next one, by LMDB: a transaction a section, with its sync. lmdb FOLDER SECTION < changes, a line
// `KEY VALUE` each.
#include <inttypes.h>
#include <lmdb.h>
#include <stdio.h>
#include <stdlib.h>

static void must(int code) {
    if (code) {
        fprintf(stderr, "lmdb: %s\n", mdb_strerror(code));
        exit(1);
    }
}

int main(int count, char** words) {
    if (count != 3) return 2;
    MDB_env* env;
    MDB_txn* txn;
    MDB_dbi dbi;
    must(mdb_env_create(&env));
    must(mdb_env_set_mapsize(env, (size_t)8 << 30));
    must(mdb_env_open(env, words[1], 0, 0600));
    must(mdb_txn_begin(env, 0, 0, &txn));
    must(mdb_dbi_open(txn, 0, MDB_INTEGERKEY, &dbi));
    must(mdb_txn_commit(txn));
    long section = atol(words[2]), done = 0;
    uint64_t key, value;
    while (scanf("%" SCNu64 " %" SCNu64, &key, &value) == 2) {
        if (done % section == 0) must(mdb_txn_begin(env, 0, 0, &txn));
        MDB_val k = {sizeof key, &key}, v = {sizeof value, &value};
        must(mdb_put(txn, dbi, &k, &v, 0));
        if (++done % section == 0) must(mdb_txn_commit(txn));
    }
    if (done % section) must(mdb_txn_commit(txn));
    mdb_env_close(env);
    return 0;
}
