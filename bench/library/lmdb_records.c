/* Times records in LMDB, a transaction for each.
 *     lmdb_records FILE     the records on standard input
 * For each a line: `record` and its milliseconds. */
#define _GNU_SOURCE
#include <lmdb.h>
#include <stdint.h>
#include "records.h"

enum { MOST_BYTES = 256 << 20 };

static MDB_dbi table;

static void put(MDB_txn *change, uint32_t key, unsigned char *block) {
    MDB_val at = {sizeof key, &key}, value = {SECTOR, block};
    check(mdb_put(change, table, &at, &value, 0) == 0);
}

static MDB_env *filled(const char *path, const struct records *records) {
    unsigned char block[SECTOR];
    MDB_env *env;
    MDB_txn *change;
    check(mdb_env_create(&env) == 0 && mdb_env_set_mapsize(env, MOST_BYTES) == 0);
    check(mdb_env_open(env, path, MDB_NOSUBDIR, 0600) == 0);
    check(mdb_txn_begin(env, NULL, 0, &change) == 0 && mdb_dbi_open(change, NULL, MDB_INTEGERKEY, &table) == 0);
    for (uint32_t key = 0; key < key_of(records, records->files, 0); key++) {
        record_bytes(block, key);
        put(change, key, block);
    }
    check(mdb_txn_commit(change) == 0);
    return env;
}

int main(int argc, char **argv) {
    static struct records records;
    unsigned char block[SECTOR];
    MDB_txn *change;
    check(argc == 2);
    read_records(&records);
    MDB_env *env = filled(argv[1], &records);
    for (uint32_t at = 0; at < records.count; at++) {
        record_bytes(block, at);
        double start = now();
        check(mdb_txn_begin(env, NULL, 0, &change) == 0);
        put(change, key_of(&records, records.file[at], records.block[at]), block);
        check(mdb_txn_commit(change) == 0);
        printf("record %.4f\n", now() - start);
    }
    mdb_env_close(env);
    return 0;
}
