/* The calls of reads.cob by SQLite, on a table with an index. Rows with equal alternate keys are in the order of their arrival.
   peer FILE WHAT COUNT    WHAT is one of W N A R S U D, as in reads.cob, but U updates rows without reading them. It prints the last
                           prime key. */
#include <sqlite3.h>
#include <stdint.h>
#include <stdio.h>
#include <stdlib.h>
#include <string.h>

enum { KEY = 10, REST = 80 };

static void fail(const char *what, const char *why) {
    fprintf(stderr, "peer: %s: %s\n", what, why);
    exit(1);
}

static void run(sqlite3 *db, const char *sql) {
    char *why = NULL;
    if (sqlite3_exec(db, sql, NULL, NULL, &why) != SQLITE_OK)
        fail(sql, why);
}

static sqlite3_stmt *prepare(sqlite3 *db, const char *sql) {
    sqlite3_stmt *statement;
    if (sqlite3_prepare_v2(db, sql, -1, &statement, NULL) != SQLITE_OK)
        fail(sql, sqlite3_errmsg(db));
    return statement;
}

static void put_digits(char *digits, uint64_t number) {
    for (int i = KEY - 1; i >= 0; i--) {
        digits[i] = (char)('0' + number % 10);
        number /= 10;
    }
}

/* The next number of a sequence that meets each number below the limit once. */
static uint64_t following(uint64_t number, uint64_t step, uint64_t limit) {
    number += step;
    return number < limit ? number : number - limit;
}

static void bind(sqlite3_stmt *statement, int place, const char *bytes, int length) {
    if (sqlite3_bind_blob(statement, place, bytes, length, SQLITE_STATIC) != SQLITE_OK)
        fail("bind", "refused");
}

/* A row is copied to a record of 100 bytes. */
static void take_row(sqlite3_stmt *statement, char *record) {
    memcpy(record, sqlite3_column_blob(statement, 0), KEY);
    memcpy(record + KEY, sqlite3_column_blob(statement, 1), KEY);
    memcpy(record + 2 * KEY, sqlite3_column_blob(statement, 2), REST);
}

static const char *text_of(char what) {
    switch (what) {
    case 'W': return "INSERT INTO rows VALUES (?1, ?2, ?3, ?4)";
    case 'N': return "SELECT k, a, rest FROM rows ORDER BY k";
    case 'A': return "SELECT k, a, rest FROM rows ORDER BY a, arrival";
    case 'R': return "SELECT k, a, rest FROM rows WHERE k = ?1";
    case 'S': return "SELECT k, a, rest FROM rows WHERE k >= ?1 ORDER BY k LIMIT 1";
    case 'U': return "UPDATE rows SET rest = ?3 WHERE k = ?1";
    case 'D': return "DELETE FROM rows WHERE k = ?1";
    default: fail("WHAT", "no such call");
    }
    return NULL;
}

static void read_in_order(sqlite3_stmt *statement, uint64_t count, char *record) {
    for (uint64_t i = 0; i < count; i++) {
        if (sqlite3_step(statement) != SQLITE_ROW)
            fail("SELECT", "no row");
        take_row(statement, record);
    }
}

/* Each call is a transaction of its own. */
static void call_for_each(sqlite3_stmt *statement, char what, uint64_t count, char *record) {
    uint64_t prime = 0, other = 0;
    int is_read = what == 'R' || what == 'S';
    for (uint64_t i = 0; i < count; i++) {
        prime = following(prime, 48271, 1000003);
        other = following(other, 7919, 500009);
        put_digits(record, prime);
        bind(statement, 1, record, KEY);
        if (what == 'W') {
            put_digits(record + KEY, other);
            bind(statement, 2, record + KEY, KEY);
            if (sqlite3_bind_int64(statement, 4, (sqlite3_int64)i) != SQLITE_OK)
                fail("bind", "refused");
        }
        if (what == 'W' || what == 'U')
            bind(statement, 3, record + 2 * KEY, REST);
        if (sqlite3_step(statement) != (is_read ? SQLITE_ROW : SQLITE_DONE))
            fail("step", "refused");
        if (is_read)
            take_row(statement, record);
        sqlite3_reset(statement);
    }
}

int main(int argc, char **argv) {
    char record[2 * KEY + REST + 1];
    sqlite3 *db;
    if (argc != 4)
        fail("arguments", "FILE WHAT COUNT");
    char what = argv[2][0];
    uint64_t count = strtoull(argv[3], NULL, 10);
    memset(record, 'A', sizeof record);
    if (sqlite3_open_v2(argv[1], &db, SQLITE_OPEN_READWRITE | SQLITE_OPEN_CREATE | SQLITE_OPEN_NOMUTEX, NULL) != SQLITE_OK)
        fail(argv[1], sqlite3_errmsg(db));
    run(db, "PRAGMA journal_mode = WAL");
    run(db, "PRAGMA synchronous = FULL");
    run(db, "PRAGMA cache_size = 4096");
    if (what == 'W') {
        run(db, "CREATE TABLE rows (k BLOB PRIMARY KEY, a BLOB, rest BLOB, arrival INTEGER) WITHOUT ROWID");
        run(db, "CREATE INDEX by_a ON rows (a, arrival)");
    }
    sqlite3_stmt *statement = prepare(db, text_of(what));
    if (what == 'N' || what == 'A')
        read_in_order(statement, count, record);
    else
        call_for_each(statement, what, count, record);
    sqlite3_finalize(statement);
    sqlite3_close(db);
    printf("%.*s\n", KEY, record);
    return 0;
}
