/* The inserts of inserts.cob by SQLite and by LMDB, and the writes of ours in a raw file. Each command prints the nanoseconds that it took.

     peers sqlite|lmdb make|each FILE FIRST COUNT   inserts so many rows from the row of that number on, in one transaction, or each in
                                                    one of its own. It prints the keys of the last row as well
     peers raw FILE                                 writes and syncs what standard input says. A line has a place in the file and a number
                                                    of bytes, which is 0 for a sync */
#include <fcntl.h>
#include <lmdb.h>
#include <sqlite3.h>
#include <stdint.h>
#include <stdio.h>
#include <stdlib.h>
#include <string.h>
#include <time.h>
#include <unistd.h>

enum { KEY = 10, RECORD = 100, REST = RECORD - 2 * KEY, STEPS = 1 << 20, BYTES = 64 * 4096 };

static const uint64_t PRIME = 1000003;

static void must(int holds, const char *what, const char *why) {
    if (holds)
        return;
    fprintf(stderr, "peers: %s: %s\n", what, why);
    exit(1);
}

static uint64_t now(void) {
    struct timespec time;
    clock_gettime(CLOCK_MONOTONIC, &time);
    return (uint64_t)time.tv_sec * 1000000000u + (uint64_t)time.tv_nsec;
}

/* The power of a number, modulo the prime, in ten digits. */
static void put_power(char *digits, uint64_t number, int exponent) {
    uint64_t power = 1;
    while (exponent-- > 0)
        power = power * (number % PRIME) % PRIME;
    for (int i = KEY - 1; i >= 0; i--, power /= 10)
        digits[i] = (char)('0' + power % 10);
}

/* The records of so many rows: the prime key, the alternate one, and spaces. */
static char *make_records(uint64_t first, uint64_t count) {
    char *records = malloc(count * RECORD);
    memset(records, ' ', count * RECORD);
    for (uint64_t i = 0; i < count; i++) {
        put_power(records + i * RECORD, first + i, 5);
        put_power(records + i * RECORD + KEY, first + i, 7);
    }
    return records;
}

static void run(sqlite3 *db, const char *sql) {
    must(sqlite3_exec(db, sql, NULL, NULL, NULL) == SQLITE_OK, sql, sqlite3_errmsg(db));
}

static void insert_row(sqlite3_stmt *insert, const char *record) {
    sqlite3_bind_blob(insert, 1, record, KEY, SQLITE_STATIC);
    sqlite3_bind_blob(insert, 2, record + KEY, KEY, SQLITE_STATIC);
    sqlite3_bind_blob(insert, 3, record + 2 * KEY, REST, SQLITE_STATIC);
    must(sqlite3_step(insert) == SQLITE_DONE, "INSERT", "refused");
    sqlite3_reset(insert);
}

static uint64_t insert_sqlite(const char *path, const char *records, uint64_t count, int is_one) {
    sqlite3 *db;
    sqlite3_stmt *insert;
    must(sqlite3_open(path, &db) == SQLITE_OK, path, "not opened");
    run(db, "PRAGMA journal_mode = WAL");
    run(db, "PRAGMA synchronous = FULL");
    run(db, "PRAGMA cache_size = 4096");
    run(db, "CREATE TABLE IF NOT EXISTS sales (k BLOB PRIMARY KEY, a BLOB, rest BLOB) WITHOUT ROWID");
    run(db, "CREATE INDEX IF NOT EXISTS by_a ON sales (a)");
    must(sqlite3_prepare_v2(db, "INSERT INTO sales VALUES (?1, ?2, ?3)", -1, &insert, NULL) == SQLITE_OK, path, sqlite3_errmsg(db));
    uint64_t begun = now();
    if (is_one)
        run(db, "BEGIN");
    for (uint64_t i = 0; i < count; i++)
        insert_row(insert, records + i * RECORD);
    if (is_one)
        run(db, "COMMIT");
    uint64_t took = now() - begun;
    sqlite3_finalize(insert);
    sqlite3_close(db);
    return took;
}

static void must_lmdb(int answer, const char *what) {
    must(answer == 0, what, mdb_strerror(answer));
}

static void put_row(MDB_txn *txn, MDB_dbi rows, MDB_dbi alternate, char *record) {
    MDB_val prime = {KEY, record}, value = {RECORD, record}, other = {KEY, record + KEY};
    must_lmdb(mdb_put(txn, rows, &prime, &value, MDB_NOOVERWRITE), "mdb_put");
    must_lmdb(mdb_put(txn, alternate, &other, &prime, 0), "mdb_put");
}

static uint64_t insert_lmdb(const char *path, char *records, uint64_t count, int is_one) {
    MDB_env *env;
    MDB_txn *txn;
    MDB_dbi rows, alternate;
    must_lmdb(mdb_env_create(&env), "mdb_env_create");
    must_lmdb(mdb_env_set_maxdbs(env, 2), "mdb_env_set_maxdbs");
    must_lmdb(mdb_env_set_mapsize(env, (size_t)1 << 30), "mdb_env_set_mapsize");
    must_lmdb(mdb_env_open(env, path, MDB_NOSUBDIR, 0600), path);
    must_lmdb(mdb_txn_begin(env, NULL, 0, &txn), "mdb_txn_begin");
    must_lmdb(mdb_dbi_open(txn, "rows", MDB_CREATE, &rows), "mdb_dbi_open");
    must_lmdb(mdb_dbi_open(txn, "alternate", MDB_CREATE | MDB_DUPSORT, &alternate), "mdb_dbi_open");
    must_lmdb(mdb_txn_commit(txn), "mdb_txn_commit");
    uint64_t begun = now();
    for (uint64_t i = 0; i < count; i++) {
        if (!is_one || i == 0)
            must_lmdb(mdb_txn_begin(env, NULL, 0, &txn), "mdb_txn_begin");
        put_row(txn, rows, alternate, records + i * RECORD);
        if (!is_one || i + 1 == count)
            must_lmdb(mdb_txn_commit(txn), "mdb_txn_commit");
    }
    uint64_t took = now() - begun;
    mdb_env_close(env);
    return took;
}

static void take_step(int file, const char *bytes, size_t length, off_t place) {
    if (length == 0)
        must(fdatasync(file) == 0, "fdatasync", "refused");
    else
        must(pwrite(file, bytes, length, place) == (ssize_t)length, "pwrite", "refused");
}

static uint64_t take_steps(const char *path) {
    static struct { long place, length; } steps[STEPS];
    static char bytes[BYTES];
    int file = open(path, O_RDWR), count = 0;
    must(file >= 0, path, "not opened");
    while (count < STEPS && scanf("%ld %ld", &steps[count].place, &steps[count].length) == 2)
        must(steps[count++].length <= BYTES, path, "too many bytes at once");
    must(feof(stdin), path, "too many steps, or no numbers");
    uint64_t begun = now();
    for (int i = 0; i < count; i++) {
        bytes[0] = (char)i;
        take_step(file, bytes, (size_t)steps[i].length, steps[i].place);
    }
    return now() - begun;
}

static void insert_rows(int is_lmdb, int is_one, const char *path, uint64_t first, uint64_t count) {
    char *records = make_records(first, count);
    uint64_t took = is_lmdb ? insert_lmdb(path, records, count, is_one) : insert_sqlite(path, records, count, is_one);
    printf("%llu %.*s\n", (unsigned long long)took, 2 * KEY, records + (count - 1) * RECORD);
}

int main(int argc, char **argv) {
    if (argc == 6)
        insert_rows(!strcmp(argv[1], "lmdb"), !strcmp(argv[2], "make"), argv[3], strtoull(argv[4], NULL, 10), strtoull(argv[5], NULL, 10));
    else if (argc == 3)
        printf("%llu\n", (unsigned long long)take_steps(argv[2]));
    else
        must(0, "arguments", "sqlite|lmdb make|each FILE FIRST COUNT, or raw FILE");
    return 0;
}
