/* sqlite FILE THREADS SECONDS [leader]: threads that change two rows by each transaction of SQLite, with a connection each, or by a leader
   that has the one connection and commits for all that wait; a log (WAL) and synchronous=FULL. Prints what example_durable prints. With 0
   threads it writes a block and syncs it, again and again. */
#include "peer.h"
#include <fcntl.h>
#include <sqlite3.h>
#include <string.h>

struct connection {
    sqlite3 *db;
    sqlite3_stmt *begin, *change, *commit;
};

static struct connection of_leader;

static struct connection opened(void) {
    struct connection made;
    must(sqlite3_open(file, &made.db) == SQLITE_OK, "open");
    sqlite3_busy_timeout(made.db, 60000);
    must(sqlite3_exec(made.db, "PRAGMA journal_mode=WAL; PRAGMA synchronous=FULL", 0, 0, 0) == SQLITE_OK, "pragma");
    return made;
}

static struct connection prepared(void) {
    struct connection made = opened();
    must(sqlite3_prepare_v2(made.db, "BEGIN IMMEDIATE", -1, &made.begin, 0) == SQLITE_OK, "begin");
    must(sqlite3_prepare_v2(made.db, "UPDATE t SET v=?2 WHERE k=?1", -1, &made.change, 0) == SQLITE_OK, "update");
    must(sqlite3_prepare_v2(made.db, "COMMIT", -1, &made.commit, 0) == SQLITE_OK, "commit");
    return made;
}

static int step(sqlite3_stmt *statement) {
    int answer = sqlite3_step(statement);
    sqlite3_reset(statement);
    return answer == SQLITE_DONE;
}

static void commit_all(struct change *group, struct connection *by) {
    while (!step(by->begin))
        ;
    for (; group; group = group->next)
        for (int at = 0; at < 2; at++) {
            sqlite3_bind_int64(by->change, 1, group->keys[at]);
            sqlite3_bind_int64(by->change, 2, group->number);
            must(step(by->change), "change");
        }
    must(step(by->commit), "no commit");
}

static void commit_led(struct change *group) { commit_all(group, &of_leader); }

static void change_alone(struct change *mine, void *by) { commit_all(mine, by); }

static void change_led(struct change *mine, void *by) {
    (void)by;
    change_by_leader(mine, commit_led);
}

static void *work_alone(void *place) {
    struct connection own = prepared();
    change_again((intptr_t)place, change_alone, &own);
    return NULL;
}

static void *work_led(void *place) {
    change_again((intptr_t)place, change_led, NULL);
    return NULL;
}

static void make(void) {
    const char *rows = "CREATE TABLE t(k INTEGER PRIMARY KEY, v INTEGER); WITH RECURSIVE n(k) AS (SELECT 0 UNION ALL SELECT k+1 FROM n "
                       "WHERE k<1023) INSERT INTO t SELECT k, 0 FROM n";
    must(sqlite3_exec(opened().db, rows, 0, 0, 0) == SQLITE_OK, "rows");
}

static void probe(void) {
    static char block[4096];
    int fd = open(file, O_RDWR | O_CREAT, 0600);
    start = now();
    for (long begun; (begun = now()) - start < seconds * 1000000; durable(begun)) {
        must(pwrite(fd, block, sizeof block, handles % 256 * sizeof block) == sizeof block, "write");
        must(fdatasync(fd) == 0, "sync");
    }
}

int main(int argc, char **argv) {
    must(argc == 4 || (argc == 5 && !strcmp(argv[4], "leader")), "sqlite FILE THREADS SECONDS [leader]");
    int count = atoi(argv[2]);
    file = argv[1], seconds = atol(argv[3]);
    if (!count) {
        probe();
    } else {
        make();
        if (argc == 5)
            of_leader = prepared();
        run_threads(count, argc == 5 ? work_led : work_alone);
    }
    print_line();
}
