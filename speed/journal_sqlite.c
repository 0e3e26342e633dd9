/* How many changes of 100 and of 4,000 bytes SQLite commits in a second, each of them in a transaction of its
   own that is safe before the next (WAL, synchronous=FULL), and how long it then takes to open the file and
   read them all.
   cc -O2 -o journal_sqlite journal_sqlite.c -lsqlite3; ./journal_sqlite TURNS FOLDER */
#include <sqlite3.h>
#include <stdio.h>
#include <stdlib.h>
#include <string.h>
#include <time.h>

static double now(void) {
    struct timespec t;
    clock_gettime(CLOCK_MONOTONIC, &t);
    return t.tv_sec + t.tv_nsec / 1e9;
}

static void must(int got, int want, sqlite3 *db) {
    if (got != want) {
        fprintf(stderr, "%s\n", sqlite3_errmsg(db));
        exit(1);
    }
}

static sqlite3 *opened(const char *name) {
    sqlite3 *db;
    must(sqlite3_open(name, &db), SQLITE_OK, db);
    must(sqlite3_exec(db, "PRAGMA journal_mode=WAL; PRAGMA synchronous=FULL;"
                          "CREATE TABLE IF NOT EXISTS state (key INTEGER PRIMARY KEY, value BLOB);", 0, 0, 0), SQLITE_OK, db);
    return db;
}

static void measure(const char *folder, int turns, int length) {
    char name[4096];
    char *value = malloc(length);
    sqlite3_stmt *put, *get;
    long read = 0;
    memset(value, 0x5a, length);
    snprintf(name, sizeof name, "%s/sqlite%d", folder, length);
    remove(name);
    sqlite3 *db = opened(name);
    must(sqlite3_prepare_v2(db, "INSERT OR REPLACE INTO state VALUES (?, ?)", -1, &put, 0), SQLITE_OK, db);
    double start = now();
    for (int i = 0; i < turns; i++) {
        sqlite3_bind_int(put, 1, i % 16);
        sqlite3_bind_blob(put, 2, value, length, SQLITE_STATIC);
        must(sqlite3_step(put), SQLITE_DONE, db);
        sqlite3_reset(put);
    }
    double took = now() - start;
    sqlite3_finalize(put);
    start = now();
    sqlite3 *again = opened(name);
    must(sqlite3_prepare_v2(again, "SELECT value FROM state", -1, &get, 0), SQLITE_OK, again);
    while (sqlite3_step(get) == SQLITE_ROW)
        read += sqlite3_column_bytes(get, 0);
    double reading = now() - start;
    sqlite3_finalize(get);
    sqlite3_close(again);
    sqlite3_close(db);
    fprintf(stderr, "%d changes of %d bytes: %.0f a second; %ld bytes read in %.0f us\n", turns, length, turns / took, read, reading * 1e6);
    free(value);
}

int main(int count, char **words) {
    int turns = count > 1 ? atoi(words[1]) : 200;
    const char *folder = count > 2 ? words[2] : ".";
    measure(folder, turns, 100);
    measure(folder, turns, 4000);
    return 0;
}
