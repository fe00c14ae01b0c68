/* Eight threads append and read, each by an endpoint of its own. Each reads the messages of all, every one once and
 * in the order in which its thread appended it. The argument says how many messages a thread appends. */
#include "check.h"
#include <pthread.h>
#include <sched.h>
#include <stdlib.h>

enum { THREADS = 8, CYCLES = 4 };

static uint32_t each = 40000; /* one cycle has room for all */

struct worker {
    uint32_t number;
    linnetshelf_handle endpoint;
    uint32_t next[THREADS]; /* of each thread, the message that it has not read yet */
    uint32_t read;
};

/* Reads a message, if one has come. */
static int read_one(struct worker *self) {
    uint32_t message[2];
    linnetshelf_answer answer = linnetshelf_next(&self->endpoint, message, sizeof message);
    if (answer.status == STATUS(NOT_YET))
        return 0;
    CHECK(answer.status == STATUS(DONE) && answer.length == sizeof message);
    CHECK(message[0] < THREADS && message[1] == self->next[message[0] % THREADS]++);
    self->read++;
    return 1;
}

/* Appends a message at the moment that its number gives it, or a cycle later if that one is full. */
static void append_one(struct worker *self, uint32_t k) {
    uint32_t message[2] = {self->number, k};
    uint64_t moment = (uint64_t)k * CYCLES / each * DAY;
    linnetshelf_answer answer;
    while ((answer = linnetshelf_append(&self->endpoint, moment, message, sizeof message)).status != STATUS(DONE)) {
        if (answer.status == STATUS(CYCLE_FULL))
            moment += DAY;
        else if (answer.status == STATUS(BUSY))
            sched_yield();
        else {
            CHECK(answer.status == STATUS(BUSY));
            return;
        }
    }
}

static void *work(void *argument) {
    struct worker *self = argument;
    for (uint32_t k = 0; k < each && failures == 0; k++) {
        append_one(self, k);
        read_one(self);
    }
    while (self->read < THREADS * each && failures == 0)
        if (!read_one(self))
            sched_yield();
    CHECK(!read_one(self));
    for (int k = 0; k < THREADS; k++)
        CHECK(self->next[k] == each);
    return NULL;
}

int main(int count, char **words) {
    static const linnetshelf_settings settings = {
        .cells = 1048576, .index_count = 1024, .index_spacing = 16, .cycles = CYCLES, .roll = LINNETSHELF_DAILY};
    static struct worker workers[THREADS];
    pthread_t threads[THREADS];
    if (count > 1)
        each = (uint32_t)atoi(words[1]);
    CHECK(linnetshelf_create(&settings, "", 0, 0, &workers[0].endpoint) == STATUS(DONE));
    for (uint32_t k = 1; k < THREADS; k++)
        CHECK(linnetshelf_split(&workers[0].endpoint, &workers[k].endpoint) == STATUS(DONE));
    for (uint32_t k = 0; k < THREADS; k++) {
        workers[k].number = k;
        CHECK(pthread_create(&threads[k], NULL, work, &workers[k]) == 0);
    }
    for (int k = 0; k < THREADS; k++)
        pthread_join(threads[k], NULL);
    for (int k = 0; k < THREADS; k++)
        linnetshelf_destroy(workers[k].endpoint);
    return failures != 0;
}
