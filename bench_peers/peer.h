/* What the peers have in common: threads that hand in batches of messages and wait until they are stored, and a line of
 * JSON that says how many that were a second, how long a batch waited, and how often the system was asked to sync. */
#ifndef PEER_H
#define PEER_H
#include <stddef.h>
#include <stdint.h>

#define MESSAGE 64

/* What a peer is run with: its folder, which is empty, and how many threads there are. */
struct run {
    const char *folder;
    int threads;
    long batch;
};

/* The messages of a batch, one after another, and the number of the thread that hands them in, from 0. */
struct batch {
    const unsigned char *bytes;
    long count;
    int thread;
};

/* A peer. `store` returns once the batch is stored, and several threads call it at once. A peer that fails ends the
 * program by `give_up`. */
struct peer {
    const char *name;
    void (*begin)(const struct run *run);
    void (*store)(const struct batch *batch);
    void (*end)(void);
};

/* Runs a peer with the arguments DIR THREADS BATCH SECONDS, prints its line, and returns the status of the program. */
int run_peer(const struct peer *peer, int count, char **words);

/* Ends the program: a call failed, for this reason. */
_Noreturn void give_up(const char *call, const char *reason);

/* Writes all of these bytes at this place of a file. */
void write_at(int file, const void *bytes, size_t length, uint64_t place);

/* Syncs a file by fdatasync. */
void sync_file(int file);

/* Counts a sync that is made by other means than fsync and fdatasync. */
void count_sync(void);

#endif
