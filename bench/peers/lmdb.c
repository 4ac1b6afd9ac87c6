// The generated load on LMDB, with a sync at each commit: four tables.
//     lmdb FOLDER SEED COUNT
#include <lmdb.h>
#include <stdint.h>
#include <stdio.h>
#include <stdlib.h>

static void must(int code) {
    if (code) exit(1);
}

int main(int argc, char **argv) {
    if (argc != 4) return 2;
    char key[16], other[16], value[16], name[8];
    uint32_t x = strtoul(argv[2], 0, 10);
    long count = atol(argv[3]);
    MDB_env *env;
    MDB_txn *txn;
    MDB_dbi table[5];
    must(mdb_env_create(&env));
    must(mdb_env_set_maxdbs(env, 4));
    must(mdb_env_set_mapsize(env, 1 << 28));
    must(mdb_env_open(env, argv[1], 0, 0666));
    must(mdb_txn_begin(env, 0, 0, &txn));
    for (int t = 1; t <= 4; t++) {
        snprintf(name, sizeof name, "t%d", t);
        must(mdb_dbi_open(txn, name, MDB_CREATE, &table[t]));
    }
    must(mdb_txn_commit(txn));
    for (long i = 1; i <= count; i++) {
        x = 1664525 * x + 1013904223;
        int t = 1 + (x / 65536) % 4, n = (x / 256) % 4096, q = (n + 1) % 4096;
        MDB_val k = {snprintf(key, sizeof key, "k%d", n), key}, got;
        MDB_val o = {snprintf(other, sizeof other, "k%d", q), other};
        MDB_val v = {snprintf(value, sizeof value, "v%ld", i), value};
        must(mdb_txn_begin(env, 0, 0, &txn));
        must(mdb_put(txn, table[t], &k, &v, 0));
        must(mdb_get(txn, table[t], &k, &got));
        int code = mdb_del(txn, table[t], &o, 0);
        if (code && code != MDB_NOTFOUND) return 1;
        must(mdb_txn_commit(txn));
    }
    return 0;
}
