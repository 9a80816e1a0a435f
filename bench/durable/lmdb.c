/* lmdb FILE THREADS SECONDS: threads that change two entries of an LMDB by a leader, which puts the changes of all that wait by one
   transaction and then syncs (MDB_NOSYNC, and one mdb_env_sync for each group). Prints what example_durable prints. */
#include "peer.h"
#include <lmdb.h>

static MDB_env *env;
static MDB_dbi entries;

static void commit_led(struct change *group) {
    MDB_txn *txn;
    must(mdb_txn_begin(env, NULL, 0, &txn) == 0, "begin");
    for (; group; group = group->next)
        for (int at = 0; at < 2; at++) {
            MDB_val key = {sizeof group->keys[at], &group->keys[at]}, value = {sizeof group->number, &group->number};
            must(mdb_put(txn, entries, &key, &value, 0) == 0, "put");
        }
    must(mdb_txn_commit(txn) == 0, "commit");
    must(mdb_env_sync(env, 1) == 0, "sync");
}

static void change_led(struct change *mine, void *by) {
    (void)by;
    change_by_leader(mine, commit_led);
}

static void *work(void *place) {
    change_again((intptr_t)place, change_led, NULL);
    return NULL;
}

static void make(void) {
    MDB_txn *txn;
    must(mdb_env_create(&env) == 0 && mdb_env_set_mapsize(env, 64 << 20) == 0, "environment");
    must(mdb_env_open(env, file, MDB_NOSUBDIR | MDB_NOSYNC, 0600) == 0, "open");
    must(mdb_txn_begin(env, NULL, 0, &txn) == 0 && mdb_dbi_open(txn, NULL, MDB_INTEGERKEY, &entries) == 0, "entries");
    for (unsigned at = 0; at < KEYS; at++) {
        long none = 0;
        MDB_val key = {sizeof at, &at}, value = {sizeof none, &none};
        must(mdb_put(txn, entries, &key, &value, 0) == 0, "put");
    }
    must(mdb_txn_commit(txn) == 0 && mdb_env_sync(env, 1) == 0, "commit");
}

int main(int argc, char **argv) {
    must(argc == 4, "lmdb FILE THREADS SECONDS");
    file = argv[1], seconds = atol(argv[3]);
    make();
    run_threads(atoi(argv[2]), work);
    print_line();
}
