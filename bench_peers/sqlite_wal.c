/* SQLite with a write-ahead log: https://sqlite.org/wal.html
 *
 * sqlite_wal DIR THREADS BATCH SECONDS
 *
 * journal_mode=WAL and synchronous=FULL. A batch is one transaction, of an insert a message, into a table of blobs with an
 * integer key, by statements that were prepared before. Each thread has a connection with a busy timeout of a minute. What
 * the log holds is moved to the database as SQLite does by default, each 1,000 pages, by the thread that commits then.
 *
 * It promises that a transaction is on the disk once it is committed, all of it or nothing, and has an index by key and
 * readers at the same time. Frames of the log have checksums.
 */
#define _GNU_SOURCE
#include "peer.h"
#include <sqlite3.h>
#include <stdio.h>
#include <stdlib.h>

/* A connection, and its statements. */
struct connection {
    sqlite3 *base;
    sqlite3_stmt *begin, *insert, *commit;
};

static struct connection *connections;
static int threads;

static void check(struct connection *connection, int status, const char *call) {
    if (status != SQLITE_OK && status != SQLITE_DONE) give_up(call, sqlite3_errmsg(connection->base));
}

static void execute(struct connection *connection, const char *text) {
    check(connection, sqlite3_exec(connection->base, text, NULL, NULL, NULL), text);
}

static void prepare(struct connection *connection, const char *text, sqlite3_stmt **statement) {
    check(connection, sqlite3_prepare_v2(connection->base, text, -1, statement, NULL), text);
}

static void begin(const struct run *run) {
    char path[4096];
    snprintf(path, sizeof path, "%s/messages.db", run->folder);
    threads = run->threads;
    connections = calloc((size_t)threads, sizeof *connections);
    if (!connections) give_up("calloc", "out of memory");
    for (int i = 0; i < threads; i++) {
        struct connection *connection = &connections[i];
        check(connection, sqlite3_open(path, &connection->base), path);
        check(connection, sqlite3_busy_timeout(connection->base, 60000), "busy_timeout");
        execute(connection, "PRAGMA journal_mode=WAL; PRAGMA synchronous=FULL");
        execute(connection, "CREATE TABLE IF NOT EXISTS messages (key INTEGER PRIMARY KEY, message BLOB)");
        prepare(connection, "BEGIN IMMEDIATE", &connection->begin);
        prepare(connection, "INSERT INTO messages (message) VALUES (?)", &connection->insert);
        prepare(connection, "COMMIT", &connection->commit);
    }
}

static void step(struct connection *connection, sqlite3_stmt *statement, const char *call) {
    check(connection, sqlite3_step(statement), call);
    check(connection, sqlite3_reset(statement), call);
}

static void store(const struct batch *batch) {
    struct connection *connection = &connections[batch->thread];
    step(connection, connection->begin, "BEGIN");
    for (long i = 0; i < batch->count; i++) {
        int status = sqlite3_bind_blob(connection->insert, 1, batch->bytes + i * MESSAGE, MESSAGE, SQLITE_STATIC);
        check(connection, status, "bind");
        step(connection, connection->insert, "INSERT");
    }
    step(connection, connection->commit, "COMMIT");
}

static void end(void) {
    for (int i = 0; i < threads; i++) {
        sqlite3_finalize(connections[i].begin);
        sqlite3_finalize(connections[i].insert);
        sqlite3_finalize(connections[i].commit);
        sqlite3_close(connections[i].base);
    }
}

int main(int count, char **words) {
    static const struct peer peer = {"sqlite_wal", begin, store, end};
    return run_peer(&peer, count, words);
}
