/* A workload of bench/peers in LMDB, whose table is made in a new file, or overwritten in one that is there.
 *     lmdb_peer appends FILE       2,000 records of 512 bytes, a transaction for each
 *     lmdb_peer names FILE         280 names in one transaction, and then each second goes, a transaction for each
 *     lmdb_peer blocks FILE        2,048 blocks of 512 bytes, in one transaction
 *     lmdb_peer overwrites FILE    10,000 of those at random, a transaction for each hundred */
#define _GNU_SOURCE
#include <lmdb.h>
#include <stdint.h>
#include "../../clients/c/tests/check.h"
#include "places.h"

enum { MOST_BYTES = 64 << 20, RECORDS = 2000, NAMES = 280 };

static MDB_dbi table;

static MDB_txn *begun(MDB_env *env) {
    MDB_txn *change;
    check(mdb_txn_begin(env, NULL, 0, &change) == 0);
    return change;
}

static void commit(MDB_txn *change) { check(mdb_txn_commit(change) == 0); }

static void put(MDB_txn *change, uint32_t key, int byte, size_t size) {
    unsigned char block[SECTOR];
    MDB_val at = {sizeof key, &key}, value = {size, block};
    memset(block, byte, sizeof block);
    check(mdb_put(change, table, &at, &value, 0) == 0);
}

static void appends(MDB_env *env) {
    for (uint32_t key = 0; key < RECORDS; key++) {
        MDB_txn *change = begun(env);
        put(change, key, (int)(1 + key % 255), SECTOR);
        commit(change);
    }
}

static void names(MDB_env *env) {
    MDB_txn *change = begun(env);
    for (uint32_t key = 0; key < NAMES; key++) put(change, key, 'a', 1);
    commit(change);
    for (uint32_t key = 0; key < NAMES; key += 2) {
        MDB_val at = {sizeof key, &key};
        change = begun(env);
        check(mdb_del(change, table, &at, NULL) == 0);
        commit(change);
    }
}

static void blocks(MDB_env *env) {
    MDB_txn *change = begun(env);
    for (uint32_t key = 0; key < BLOCKS; key++) put(change, key, 1, SECTOR);
    commit(change);
}

static void overwrites(MDB_env *env) {
    for (uint32_t number = 0; number < WRITES; number += EACH) {
        MDB_txn *change = begun(env);
        for (uint32_t more = 0; more < EACH; more++) put(change, chance(BLOCKS), (int)(1 + (number + more) % 255), SECTOR);
        commit(change);
    }
}

static const struct { const char *name; void (*runs)(MDB_env *); } WORKLOADS[] = {
    {"appends", appends}, {"names", names}, {"blocks", blocks}, {"overwrites", overwrites}};

int main(int argc, char **argv) {
    MDB_env *env;
    check(argc == 3);
    check(mdb_env_create(&env) == 0 && mdb_env_set_mapsize(env, MOST_BYTES) == 0);
    check(mdb_env_open(env, argv[2], MDB_NOSUBDIR, 0600) == 0);
    MDB_txn *change = begun(env);
    check(mdb_dbi_open(change, NULL, MDB_INTEGERKEY | MDB_CREATE, &table) == 0);
    commit(change);
    for (size_t at = 0; at < sizeof WORKLOADS / sizeof *WORKLOADS; at++)
        if (!strcmp(argv[1], WORKLOADS[at].name)) {
            WORKLOADS[at].runs(env);
            mdb_env_close(env);
            return 0;
        }
    return 2;
}
