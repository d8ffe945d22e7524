/* Posts as the program does, over stock SQLite: each posting with its spots in one transaction, by statements that are
   prepared once, in WAL, synchronous FULL, with pages of 2,048 bytes.   store_peer FILE POSTS SPOTS */
#include <sqlite3.h>
#include <stdio.h>
#include <stdlib.h>

static sqlite3 *db;

static void must(int code, int wanted) {
    if (code != wanted) {
        fprintf(stderr, "%s\n", sqlite3_errmsg(db));
        exit(1);
    }
}

static sqlite3_stmt *prepared(const char *text) {
    sqlite3_stmt *statement;
    must(sqlite3_prepare_v2(db, text, -1, &statement, NULL), SQLITE_OK);
    return statement;
}

static void run(sqlite3_stmt *statement) {
    must(sqlite3_step(statement), SQLITE_DONE);
    must(sqlite3_reset(statement), SQLITE_OK);
}

int main(int count, char **words) {
    if (count != 4) return 2;
    int posts = atoi(words[2]), spots = atoi(words[3]);
    must(sqlite3_open(words[1], &db), SQLITE_OK);
    must(sqlite3_exec(db, "PRAGMA page_size=2048; PRAGMA journal_mode=WAL; PRAGMA synchronous=FULL;"
        "CREATE TABLE posting (id INTEGER PRIMARY KEY, station INTEGER NOT NULL, n INTEGER NOT NULL, body TEXT NOT NULL,"
        " verdict INTEGER NOT NULL, UNIQUE (station, n)) STRICT;"
        "CREATE TABLE spot (thing INTEGER, k INTEGER, entry INTEGER NOT NULL, place INTEGER NOT NULL, day INTEGER NOT NULL,"
        " PRIMARY KEY (thing, k)) STRICT", NULL, NULL, NULL), SQLITE_OK);
    sqlite3_stmt *begin = prepared("BEGIN"), *commit = prepared("COMMIT");
    sqlite3_stmt *posting = prepared("INSERT INTO posting VALUES (?1, ?2, ?3, ?4, ?5)");
    sqlite3_stmt *spot = prepared("INSERT INTO spot VALUES (?1, ?2, ?3, ?4, ?5)");
    for (int n = 1; n <= posts; n++) {
        run(begin);
        sqlite3_bind_int64(posting, 1, n);
        sqlite3_bind_int64(posting, 2, 0);
        sqlite3_bind_int64(posting, 3, n);
        char body[80];
        int length = snprintf(body, sizeof body,
            "{\"day\":\"2024-05-01\",\"kind\":\"move\",\"place\":\"S%d\",\"thing\":\"C1\"}", 1 + n % 2);
        sqlite3_bind_text(posting, 4, body, length, SQLITE_TRANSIENT);
        sqlite3_bind_int64(posting, 5, 0);
        run(posting);
        for (int thing = 0; thing < spots; thing++) {
            sqlite3_bind_int64(spot, 1, thing);
            sqlite3_bind_int64(spot, 2, n);
            sqlite3_bind_int64(spot, 3, n);
            sqlite3_bind_int64(spot, 4, n % 2);
            sqlite3_bind_int64(spot, 5, 19844);
            run(spot);
        }
        run(commit);
    }
    sqlite3_finalize(begin), sqlite3_finalize(commit), sqlite3_finalize(posting), sqlite3_finalize(spot);
    return sqlite3_close(db) != SQLITE_OK;
}
