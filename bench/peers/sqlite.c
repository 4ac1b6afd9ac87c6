// The generated load on SQLite in WAL mode, with a sync at each commit: four tables of blobs without
// row numbers. It ends without closing the database, as a stop does; with the folder alone it is a
// restart: it opens the database again and counts the rows.
//     sqlite FOLDER [SEED COUNT]
#include <sqlite3.h>
#include <stdint.h>
#include <stdio.h>
#include <stdlib.h>

static sqlite3 *db;

static sqlite3_stmt *prepared(const char *form, int table) {
    char text[200];
    sqlite3_stmt *it;
    snprintf(text, sizeof text, form, table);
    if (sqlite3_prepare_v2(db, text, -1, &it, 0)) exit(1);
    return it;
}

static int step(sqlite3_stmt *it) {
    int code = sqlite3_step(it);
    if (code != SQLITE_ROW && code != SQLITE_DONE) exit(1);
    sqlite3_reset(it);
    return code;
}

static int restart(const char *name) {
    if (sqlite3_open(name, &db)) return 1;
    for (int t = 1; t <= 4; t++) {
        sqlite3_stmt *rows = prepared("select count(*) from t%d", t);
        if (sqlite3_step(rows) != SQLITE_ROW) return 1;
        printf("%d rows\n", sqlite3_column_int(rows, 0));
        sqlite3_reset(rows);
    }
    return 0;
}

int main(int argc, char **argv) {
    if (argc != 2 && argc != 4) return 2;
    char name[4096], key[16], other[16], value[16];
    if (argc == 2) {
        snprintf(name, sizeof name, "%s/load.sqlite", argv[1]);
        return restart(name);
    }
    uint32_t x = strtoul(argv[2], 0, 10);
    long count = atol(argv[3]);
    snprintf(name, sizeof name, "%s/load.sqlite", argv[1]);
    if (sqlite3_open(name, &db)) return 1;
    if (sqlite3_exec(db, "pragma journal_mode=wal; pragma synchronous=full;", 0, 0, 0)) return 1;
    for (int t = 1; t <= 4; t++) {
        char text[100];
        snprintf(text, sizeof text, "create table t%d(k blob primary key, v blob) without rowid", t);
        if (sqlite3_exec(db, text, 0, 0, 0)) return 1;
    }
    sqlite3_stmt *put[5], *get[5], *del[5];
    for (int t = 1; t <= 4; t++) {
        put[t] = prepared("insert or replace into t%d values(?,?)", t);
        get[t] = prepared("select v from t%d where k=?", t);
        del[t] = prepared("delete from t%d where k=?", t);
    }
    sqlite3_stmt *begin = prepared("begin immediate -- %d", 0), *commit = prepared("commit -- %d", 0);
    for (long i = 1; i <= count; i++) {
        x = 1664525 * x + 1013904223;
        int t = 1 + (x / 65536) % 4, n = (x / 256) % 4096, q = (n + 1) % 4096;
        int k = snprintf(key, sizeof key, "k%d", n), o = snprintf(other, sizeof other, "k%d", q);
        int v = snprintf(value, sizeof value, "v%ld", i);
        step(begin);
        sqlite3_bind_blob(put[t], 1, key, k, SQLITE_STATIC);
        sqlite3_bind_blob(put[t], 2, value, v, SQLITE_STATIC);
        step(put[t]);
        sqlite3_bind_blob(get[t], 1, key, k, SQLITE_STATIC);
        step(get[t]);
        sqlite3_bind_blob(del[t], 1, other, o, SQLITE_STATIC);
        step(del[t]);
        step(commit);
    }
    return 0;
}
