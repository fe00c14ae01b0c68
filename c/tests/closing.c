/* A queue is closed while threads write, read and take. The writers end at CLOSED, all others at FINISHED. Each message that
 * was appended is read once by each reader, in the order in which its writer appended it, and taken once. No other one is
 * read or taken. The argument says how many rounds there are. */
#include "check.h"
#include <pthread.h>
#include <sched.h>
#include <stdatomic.h>
#include <stdlib.h>

enum { WRITERS = 4, READERS = 4, TAKERS = 2, CLOSERS = 2, THREADS = WRITERS + READERS + TAKERS + CLOSERS, MOST = 40000 };

static const linnetshelf_settings SETTINGS = {
    .cells = 16384, .index_count = 64, .index_spacing = 4, .cycles = 3, .roll = LINNETSHELF_DAILY};

static atomic_uint appended; /* by all writers */
static atomic_uint full;     /* how many writers have found the queue full */
static atomic_uint closed;   /* how many closers have closed it */
static uint32_t close_after; /* the closers begin when this many messages are appended, or the queue is full */

struct worker {
    uint32_t number;
    linnetshelf_handle endpoint;
    uint32_t count;         /* of a writer, the messages that were appended; of others, those that were read or taken */
    uint32_t next[WRITERS]; /* of a reader, for each writer the message that it reads next */
    uint32_t (*taken)[2];   /* of a taker, the messages that it has taken */
};

/* Appends a message: by one call, or in parts. */
static uint32_t append(struct worker *self, uint64_t moment, const uint32_t message[2]) {
    linnetshelf_handle *end = &self->endpoint;
    if (message[1] % 2 == 0)
        return linnetshelf_append(end, moment, message, 8).status;
    uint32_t status = linnetshelf_begin(end, moment, 8);
    if (status == STATUS(DONE)) {
        CHECK(linnetshelf_close(end) == STATUS(WRITING));
        CHECK(linnetshelf_put(end, &message[0], 4) == STATUS(DONE));
        CHECK(linnetshelf_put(end, &message[1], 4) == STATUS(DONE));
        CHECK(linnetshelf_complete(end).status == STATUS(DONE));
    }
    return status;
}

/* Appends messages until the queue is closed. */
static void *write_all(void *argument) {
    struct worker *self = argument;
    uint64_t moment = 0;
    int is_full = 0;
    while (failures == 0) {
        uint32_t message[2] = {self->number, self->count};
        uint32_t status = append(self, moment, message);
        if (status == STATUS(DONE)) {
            self->count++;
            appended++;
        } else if (status == STATUS(CYCLE_FULL)) {
            moment += DAY;
        } else if (status == STATUS(CLOSED)) {
            break;
        } else {
            CHECK(status == STATUS(BUSY) || status == STATUS(NO_CYCLE_LEFT));
            if (status == STATUS(NO_CYCLE_LEFT) && !is_full) {
                is_full = 1;
                full++;
            }
            sched_yield();
        }
    }
    CHECK(linnetshelf_append(&self->endpoint, 0, "x", 1).status == STATUS(CLOSED));
    CHECK(linnetshelf_begin(&self->endpoint, moment + DAY, 1) == STATUS(CLOSED));
    return NULL;
}

/* No message is at the cursor of an endpoint that has read all of a closed queue, and it stays after the last message. If a
 * cycle began after that, and got no message, then none can ever be there. */
static void check_at_cursor(linnetshelf_handle *end) {
    uint32_t message[2];
    uint64_t cursor = linnetshelf_cursor(end).index;
    uint32_t status = linnetshelf_read_at(end, cursor, message, sizeof message).status;
    linnetshelf_to_end(end);
    uint64_t last = linnetshelf_cursor(end).index;
    CHECK(status == (cursor >> 32 < last >> 32 ? STATUS(NEVER) : STATUS(FINISHED)));
}

/* Reads messages until none comes any more. */
static void *read_all(void *argument) {
    struct worker *self = argument;
    uint32_t message[2];
    linnetshelf_answer answer;
    while ((answer = linnetshelf_next(&self->endpoint, message, sizeof message)).status != STATUS(FINISHED) && failures == 0) {
        if (answer.status == STATUS(NOT_YET)) {
            sched_yield();
            continue;
        }
        CHECK(answer.status == STATUS(DONE) && answer.length == sizeof message);
        CHECK(message[0] < WRITERS && message[1] == self->next[message[0] % WRITERS]++);
        self->count++;
    }
    check_at_cursor(&self->endpoint);
    return NULL;
}

/* Takes messages until none comes any more. */
static void *take_all(void *argument) {
    struct worker *self = argument;
    uint32_t message[2];
    linnetshelf_answer answer;
    while (failures == 0) {
        answer = linnetshelf_take(&self->endpoint, "worker", 6, message, sizeof message);
        if (answer.status == STATUS(FINISHED))
            break;
        if (answer.status == STATUS(DONE)) {
            CHECK(answer.length == sizeof message && self->count < MOST);
            memcpy(self->taken[self->count++ % MOST], message, sizeof message);
        } else {
            CHECK(answer.status == STATUS(NOT_YET) || answer.status == STATUS(MOVED));
            sched_yield();
        }
    }
    CHECK(linnetshelf_take(&self->endpoint, "worker", 6, message, sizeof message).status == STATUS(FINISHED));
    return NULL;
}

/* Closes the queue, unless another one has. */
static void *close_queue(void *argument) {
    struct worker *self = argument;
    uint32_t status;
    while (appended < close_after && full < WRITERS && failures == 0)
        sched_yield();
    while ((status = linnetshelf_close(&self->endpoint)) == STATUS(BUSY) || status == STATUS(CYCLE_FULL))
        sched_yield();
    CHECK(status == STATUS(DONE) || status == STATUS(CLOSED));
    closed += status == STATUS(DONE);
    CHECK(linnetshelf_close(&self->endpoint) == STATUS(CLOSED));
    return NULL;
}

/* Counts how often each message was taken: once, and no message that was not appended. */
static void check_taken(const struct worker *writers, const struct worker *takers) {
    static unsigned char times[WRITERS][MOST];
    uint32_t count = 0;
    memset(times, 0, sizeof times);
    for (int t = 0; t < TAKERS; t++)
        for (uint32_t k = 0; k < takers[t].count; k++) {
            const uint32_t *message = takers[t].taken[k];
            CHECK(message[0] < WRITERS && message[1] < writers[message[0] % WRITERS].count);
            CHECK(times[message[0] % WRITERS][message[1] % MOST]++ == 0);
            count++;
        }
    CHECK(count == appended);
}

/* What was saved of the closed queue are the messages that were appended. Opened again, it takes more, unless it is full.
 * Returns whether it is. */
static int check_saved(linnetshelf_handle *queue, const struct worker *writers) {
    static char image[4 * 16384];
    linnetshelf_handle saved = {0}, again = {0};
    uint32_t message[2], next[WRITERS] = {0}, count = 0;
    CHECK(linnetshelf_stop(queue) == STATUS(DONE));
    CHECK(linnetshelf_saved_new(&SETTINGS, "worker", 6, &saved) == STATUS(DONE));
    for (uint32_t k = 0; k < linnetshelf_saved_count(queue).index; k++) {
        linnetshelf_answer answer = linnetshelf_saved_image(queue, k, image, sizeof image);
        CHECK(answer.status == STATUS(DONE));
        answer = linnetshelf_saved_add(&saved, (uint32_t)linnetshelf_saved_cycle(queue, k).index, image, answer.length);
        CHECK(answer.status == STATUS(DONE));
    }
    CHECK(linnetshelf_open(&saved, &again) == STATUS(DONE));
    while (linnetshelf_next(&again, message, sizeof message).status == STATUS(DONE)) {
        CHECK(message[0] < WRITERS && message[1] == next[message[0] % WRITERS]++);
        count++;
    }
    for (int k = 0; k < WRITERS; k++)
        CHECK(next[k] == writers[k].count);
    CHECK(count == appended);
    CHECK(linnetshelf_next(&again, message, sizeof message).status == STATUS(NOT_YET));
    uint32_t status = linnetshelf_append(&again, 0, "x", 1).status;
    CHECK(status == STATUS(DONE) || status == STATUS(CYCLE_FULL));
    linnetshelf_destroy(again);
    linnetshelf_destroy(saved);
    return status == STATUS(CYCLE_FULL);
}

static void run_round(void) {
    static struct worker workers[THREADS];
    static uint32_t taken[TAKERS][MOST][2];
    struct worker *writers = workers, *readers = writers + WRITERS, *takers = readers + READERS, *closers = takers + TAKERS;
    pthread_t threads[THREADS];
    linnetshelf_handle queue = {0};
    uint32_t message[2];
    appended = full = closed = 0;
    CHECK(linnetshelf_create(&SETTINGS, "worker", 6, 0, &queue) == STATUS(DONE));
    for (uint32_t k = 0; k < THREADS; k++) {
        workers[k] = (struct worker){.number = k};
        CHECK(linnetshelf_split(&queue, &workers[k].endpoint) == STATUS(DONE));
    }
    for (uint32_t k = 0; k < TAKERS; k++)
        takers[k].taken = taken[k];
    for (uint32_t k = 0; k < THREADS; k++) {
        struct worker *self = &workers[k];
        void *(*work)(void *) = self < readers ? write_all : self < takers ? read_all : self < closers ? take_all : close_queue;
        CHECK(pthread_create(&threads[k], NULL, work, self) == 0);
    }
    for (int k = 0; k < THREADS; k++)
        pthread_join(threads[k], NULL);

    for (int k = 0; k < READERS; k++) {
        CHECK(readers[k].count == appended);
        for (int j = 0; j < WRITERS; j++)
            CHECK(readers[k].next[j] == writers[j].count);
        CHECK(linnetshelf_next(&readers[k].endpoint, message, sizeof message).status == STATUS(FINISHED));
    }
    check_taken(writers, takers);
    for (int k = 0; k < THREADS; k++)
        linnetshelf_destroy(workers[k].endpoint);
    CHECK(linnetshelf_close(&queue) == STATUS(CLOSED));
    int is_full = check_saved(&queue, writers);
    CHECK(closed == 1 || (closed == CLOSERS && is_full));
    linnetshelf_destroy(queue);
}

/* A queue is closed in a cycle that has no message. */
static void close_empty_cycle(void) {
    linnetshelf_handle queue = {0};
    uint32_t message[2] = {0, 0};
    CHECK(linnetshelf_create(&SETTINGS, "worker", 6, 0, &queue) == STATUS(DONE));
    CHECK(linnetshelf_append(&queue, 0, message, sizeof message).status == STATUS(DONE));
    CHECK(linnetshelf_advance(&queue, DAY).index == 1);
    CHECK(linnetshelf_close(&queue) == STATUS(DONE));
    CHECK(linnetshelf_next(&queue, message, sizeof message).status == STATUS(DONE));
    CHECK(linnetshelf_next(&queue, message, sizeof message).status == STATUS(FINISHED));
    check_at_cursor(&queue);
    linnetshelf_destroy(queue);
}

int main(int count, char **words) {
    static const uint32_t places[] = {0, 1, 10, 100, 1000, 3000, 5000, UINT32_MAX};
    int rounds = count > 1 ? atoi(words[1]) : 80;
    close_empty_cycle();
    for (int k = 0; k < rounds && failures == 0; k++) {
        close_after = places[k % 8];
        run_round();
    }
    return failures != 0;
}
