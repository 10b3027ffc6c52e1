/* 10,000 overwrites of 512 bytes at random keys of LMDB, a transaction for each hundred: the milliseconds from the opening on.
 *     lmdb FILE         makes the table, and overwrites it
 *     lmdb FILE fill    makes it alone */
#define _GNU_SOURCE
#include <lmdb.h>
#include <stdint.h>
#include "../../clients/c/tests/check.h"
#include "places.h"

enum { MOST_BYTES = 64 << 20 };

static MDB_dbi table;

static MDB_env *opened(const char *path) {
    MDB_env *env;
    MDB_txn *change;
    check(mdb_env_create(&env) == 0 && mdb_env_set_mapsize(env, MOST_BYTES) == 0);
    check(mdb_env_open(env, path, MDB_NOSUBDIR, 0600) == 0);
    check(mdb_txn_begin(env, NULL, 0, &change) == 0 && mdb_dbi_open(change, NULL, MDB_INTEGERKEY, &table) == 0);
    check(mdb_txn_commit(change) == 0);
    return env;
}

static void put(MDB_txn *change, uint32_t place, int byte) {
    unsigned char block[SECTOR];
    MDB_val key = {sizeof place, &place}, value = {sizeof block, block};
    memset(block, byte, sizeof block);
    check(mdb_put(change, table, &key, &value, 0) == 0);
}

static void fill(MDB_env *env) {
    MDB_txn *change;
    check(mdb_txn_begin(env, NULL, 0, &change) == 0);
    for (uint32_t place = 0; place < BLOCKS; place++) put(change, place, 1);
    check(mdb_txn_commit(change) == 0);
}

static void overwrite(MDB_env *env) {
    MDB_txn *change = NULL;
    for (uint32_t number = 0; number < WRITES; number++) {
        if (number % EACH == 0) check(mdb_txn_begin(env, NULL, 0, &change) == 0);
        put(change, chance(BLOCKS), (int)(1 + number % 255));
        if (number % EACH == EACH - 1) check(mdb_txn_commit(change) == 0);
    }
}

int main(int argc, char **argv) {
    check(argc == 2 || argc == 3);
    MDB_env *env = opened(argv[1]);
    fill(env);
    mdb_env_close(env);
    if (argc == 3) return 0;
    env = opened(argv[1]);
    double start = now();
    overwrite(env);
    printf("%.3f\n", now() - start);
    mdb_env_close(env);
    return 0;
}
