/* Times records in SQLite, a transaction for each, with a write-ahead log that is synced at each of them.
 *     sqlite_records FILE     the records on standard input
 * For each a line: `record` and its milliseconds. */
#define _GNU_SOURCE
#include <sqlite3.h>
#include <stdint.h>
#include "records.h"

static void put(sqlite3_stmt *insert, uint32_t key, const unsigned char *block) {
    check(sqlite3_bind_int(insert, 1, (int)key) == SQLITE_OK && sqlite3_bind_blob(insert, 2, block, SECTOR, SQLITE_STATIC) == SQLITE_OK);
    check(sqlite3_step(insert) == SQLITE_DONE && sqlite3_reset(insert) == SQLITE_OK);
}

static void run(sqlite3 *table, const char *text) {
    check(sqlite3_exec(table, text, NULL, NULL, NULL) == SQLITE_OK);
}

int main(int argc, char **argv) {
    static struct records records;
    unsigned char block[SECTOR];
    sqlite3 *table;
    sqlite3_stmt *insert;
    check(argc == 2);
    read_records(&records);
    check(sqlite3_open(argv[1], &table) == SQLITE_OK);
    run(table, "PRAGMA journal_mode = WAL; PRAGMA synchronous = FULL; CREATE TABLE blocks (place INTEGER PRIMARY KEY, bytes BLOB); BEGIN");
    check(sqlite3_prepare_v2(table, "INSERT OR REPLACE INTO blocks VALUES (?, ?)", -1, &insert, NULL) == SQLITE_OK);
    for (uint32_t key = 0; key < key_of(&records, records.files, 0); key++) {
        record_bytes(block, key);
        put(insert, key, block);
    }
    run(table, "COMMIT");
    for (uint32_t at = 0; at < records.count; at++) {
        record_bytes(block, at);
        double start = now();
        put(insert, key_of(&records, records.file[at], records.block[at]), block);
        printf("record %.4f\n", now() - start);
    }
    check(sqlite3_finalize(insert) == SQLITE_OK && sqlite3_close(table) == SQLITE_OK);
    return 0;
}
