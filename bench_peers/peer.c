/* The threads, the clock and the counts of the peers: see peer.h. */
#define _GNU_SOURCE
#include "peer.h"
#include <errno.h>
#include <pthread.h>
#include <stdatomic.h>
#include <stdio.h>
#include <stdlib.h>
#include <string.h>
#include <sys/syscall.h>
#include <time.h>
#include <unistd.h>

/* A thread, and how long each of its batches waited, in nanoseconds. */
struct client {
    const struct peer *peer;
    int number;
    long batch;
    uint64_t *waits;
    size_t count, room;
};

static atomic_bool is_over;
static atomic_ulong syncs;
static pthread_barrier_t start;

_Noreturn void give_up(const char *call, const char *reason) {
    fprintf(stderr, "%s: %s\n", call, reason);
    exit(1);
}

void count_sync(void) {
    atomic_fetch_add(&syncs, 1);
}

/* These are called in place of the C library's, by the libraries of the peers too. */
int fsync(int file) {
    count_sync();
    return (int)syscall(SYS_fsync, file);
}

int fdatasync(int file) {
    count_sync();
    return (int)syscall(SYS_fdatasync, file);
}

void sync_file(int file) {
    if (fdatasync(file) != 0) give_up("fdatasync", strerror(errno));
}

void write_at(int file, const void *bytes, size_t length, uint64_t place) {
    const unsigned char *next = bytes;
    while (length > 0) {
        ssize_t written = pwrite(file, next, length, (off_t)place);
        if (written <= 0) give_up("pwrite", strerror(errno));
        next += written, length -= (size_t)written, place += (uint64_t)written;
    }
}

static uint64_t now(void) {
    struct timespec time;
    clock_gettime(CLOCK_MONOTONIC, &time);
    return (uint64_t)time.tv_sec * 1000000000u + (uint64_t)time.tv_nsec;
}

static void keep_wait(struct client *client, uint64_t wait) {
    if (client->count == client->room) {
        client->room = client->room ? 2 * client->room : 1 << 16;
        client->waits = realloc(client->waits, client->room * sizeof *client->waits);
        if (!client->waits) give_up("realloc", "out of memory");
    }
    client->waits[client->count++] = wait;
}

static void *hand_in(void *given) {
    struct client *client = given;
    unsigned char *bytes = malloc((size_t)client->batch * MESSAGE);
    if (!bytes) give_up("malloc", "out of memory");
    struct batch batch = {bytes, client->batch, client->number};
    memset(bytes, 'a' + client->number % 26, (size_t)client->batch * MESSAGE);
    pthread_barrier_wait(&start);
    while (!is_over) {
        uint64_t begun = now();
        client->peer->store(&batch);
        keep_wait(client, now() - begun);
    }
    free(bytes);
    return NULL;
}

static int in_order(const void *one, const void *other) {
    uint64_t a = *(const uint64_t *)one, b = *(const uint64_t *)other;
    return (a > b) - (a < b);
}

/* Prints the line. A batch that began in time counts, and the time lasts until the last one was stored. */
static void print_line(const struct peer *peer, struct client *clients, const struct run *run, uint64_t took) {
    size_t count = 0, place = 0;
    for (int i = 0; i < run->threads; i++) count += clients[i].count;
    uint64_t *waits = malloc(count * sizeof *waits);
    if (!waits) give_up("malloc", "out of memory");
    for (int i = 0; i < run->threads; i++) {
        memcpy(waits + place, clients[i].waits, clients[i].count * sizeof *waits);
        place += clients[i].count;
    }
    qsort(waits, count, sizeof *waits, in_order);
    double seconds = (double)took / 1e9, messages = (double)count * (double)run->batch;
    printf("{\"impl\":\"%s\",\"threads\":%d,\"batch\":%ld,\"seconds\":%.3f,\"messages\":%.0f,\"messages_per_second\":%.0f,"
           "\"p50_us\":%.1f,\"p99_us\":%.1f,\"syncs_per_second\":%.0f}\n",
           peer->name, run->threads, run->batch, seconds, messages, messages / seconds,
           (double)waits[(count - 1) / 2] / 1e3, (double)waits[(count - 1) * 99 / 100] / 1e3, (double)syncs / seconds);
    free(waits);
}

int run_peer(const struct peer *peer, int count, char **words) {
    if (count != 5 || atoi(words[2]) < 1 || atol(words[3]) < 1 || atof(words[4]) <= 0) {
        fprintf(stderr, "usage: %s DIR THREADS BATCH SECONDS\n", words[0]);
        return 2;
    }
    struct run run = {words[1], atoi(words[2]), atol(words[3])};
    double seconds = atof(words[4]);
    struct client *clients = calloc((size_t)run.threads, sizeof *clients);
    pthread_t *threads = calloc((size_t)run.threads, sizeof *threads);
    if (!clients || !threads) give_up("calloc", "out of memory");
    peer->begin(&run);
    syncs = 0;
    pthread_barrier_init(&start, NULL, (unsigned)run.threads + 1);
    for (int i = 0; i < run.threads; i++) {
        clients[i] = (struct client){.peer = peer, .number = i, .batch = run.batch};
        if (pthread_create(&threads[i], NULL, hand_in, &clients[i]) != 0) give_up("pthread_create", "refused");
    }
    pthread_barrier_wait(&start);
    uint64_t begun = now();
    struct timespec left = {(time_t)seconds, (long)((seconds - (double)(time_t)seconds) * 1e9)};
    nanosleep(&left, NULL);
    is_over = 1;
    for (int i = 0; i < run.threads; i++) pthread_join(threads[i], NULL);
    print_line(peer, clients, &run, now() - begun);
    peer->end();
    return 0;
}
