/* LMDB, a tree of pages that are mapped into memory: http://www.lmdb.tech/doc/
 *
 * lmdb DIR THREADS BATCH SECONDS
 *
 * With its default syncs. A batch is one transaction, of a put a message with MDB_APPEND, under increasing integer keys.
 * LMDB lets one transaction write at a time, and the threads wait for their turn.
 *
 * It promises that a transaction is on the disk once it is committed, all of it or nothing, and has an index by key and
 * readers at the same time. Each commit syncs the pages by fdatasync, and then writes the page that names the new root
 * through a descriptor with O_DSYNC: both count as syncs.
 */
#define _GNU_SOURCE
#include "peer.h"
#include <lmdb.h>

static MDB_env *environment;
static MDB_dbi table;
/* Guarded by the transaction that writes. */
static size_t next_key;

static void check(int status, const char *call) {
    if (status != MDB_SUCCESS) give_up(call, mdb_strerror(status));
}

static void begin(const struct run *run) {
    MDB_txn *transaction;
    check(mdb_env_create(&environment), "mdb_env_create");
    check(mdb_env_set_mapsize(environment, (size_t)16 << 30), "mdb_env_set_mapsize");
    check(mdb_env_open(environment, run->folder, 0, 0600), "mdb_env_open");
    check(mdb_txn_begin(environment, NULL, 0, &transaction), "mdb_txn_begin");
    check(mdb_dbi_open(transaction, NULL, MDB_INTEGERKEY | MDB_CREATE, &table), "mdb_dbi_open");
    check(mdb_txn_commit(transaction), "mdb_txn_commit");
}

static void store(const struct batch *batch) {
    MDB_txn *transaction;
    check(mdb_txn_begin(environment, NULL, 0, &transaction), "mdb_txn_begin");
    for (long i = 0; i < batch->count; i++) {
        size_t key = next_key++;
        MDB_val name = {sizeof key, &key}, message = {MESSAGE, (void *)(batch->bytes + i * MESSAGE)};
        check(mdb_put(transaction, table, &name, &message, MDB_APPEND), "mdb_put");
    }
    check(mdb_txn_commit(transaction), "mdb_txn_commit");
    count_sync();
}

static void end(void) {
    mdb_env_close(environment);
}

int main(int count, char **words) {
    static const struct peer peer = {"lmdb", begin, store, end};
    return run_peer(&peer, count, words);
}
