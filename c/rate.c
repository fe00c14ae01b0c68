/* How many messages per second one thread appends and reads through the library: a line of JSON for each figure, as
 * the program cq_bench prints them for the same calls.
 *
 * The arguments are the cases, or both of them if there is none. REPS and CQ_SHAPE are as for cq_bench, and so is
 * each line that is printed, except for the name "c".
 */
#define _POSIX_C_SOURCE 199309L
#include "linnetshelf.h"
#include <stdbool.h>
#include <stdio.h>
#include <stdlib.h>
#include <string.h>
#include <time.h>

/* What every case is given. */
static linnetshelf_settings settings = {
    .cells = 1048576, .index_count = 256, .index_spacing = 16, .cycles = 1, .roll = LINNETSHELF_DAILY};
static unsigned repetitions = 3;

static const uint32_t PAYLOADS[] = {8, 64, 256, 1024};
static unsigned char message[1024], room[1024];

/* Nanoseconds of a monotonic clock. */
static uint64_t now(void) {
    struct timespec time;
    clock_gettime(CLOCK_MONOTONIC, &time);
    return (uint64_t)time.tv_sec * 1000000000u + (uint64_t)time.tv_nsec;
}

/* Ends the program, since a case has no figure. */
static void give_up(const char *call, const char *why) {
    fprintf(stderr, "rate: %s: %s\n", call, why);
    exit(1);
}

/* A call that a case needs was refused. */
static void refused(const char *call, uint32_t status) {
    char text[128];
    linnetshelf_text(status, text, sizeof text);
    give_up(call, text);
}

/* An endpoint of a new queue of one cycle. */
static linnetshelf_handle new_queue(void) {
    linnetshelf_handle queue = {0};
    uint32_t status = linnetshelf_create(&settings, "", 0, 0, &queue);
    if (status != LINNETSHELF_DONE) refused("create", status);
    return queue;
}

/* Appends until the cycle is full, and returns how many messages that were. */
static uint32_t append_all(linnetshelf_handle *queue, uint32_t length) {
    uint32_t count = 0, status;
    while ((status = linnetshelf_append(queue, 0, message, length).status) == LINNETSHELF_DONE) count++;
    if (status != LINNETSHELF_CYCLE_FULL || count == 0) refused("append", status);
    return count;
}

/* Reads until no message has come, each into the buffer, and returns how many there were. */
static uint32_t read_all(linnetshelf_handle *queue) {
    uint32_t count = 0, status;
    while ((status = linnetshelf_next(queue, room, sizeof room).status) == LINNETSHELF_DONE) count++;
    if (status != LINNETSHELF_NOT_YET) refused("next", status);
    return count;
}

/* Messages per second that are appended to a new queue, or read from a full one. */
static double rate(uint32_t length, bool is_append) {
    linnetshelf_handle queue = new_queue();
    uint64_t start = now();
    uint32_t count = append_all(&queue, length);
    if (!is_append) {
        start = now();
        if (read_all(&queue) != count || memcmp(room, message, length)) give_up("next", "a message is missing");
    }
    uint64_t end = now();
    linnetshelf_destroy(queue);
    return count * 1e9 / (double)(end - start);
}

/* Measures a case. Returns whether there is one of that name. */
static bool measure(const char *name) {
    bool is_append = !strcmp(name, "append_by_call");
    if (!is_append && strcmp(name, "read_into")) return false;
    for (size_t k = 0; k < sizeof PAYLOADS / sizeof *PAYLOADS; k++) {
        double best = 0;
        for (unsigned turn = 0; turn < repetitions; turn++) {
            double value = rate(PAYLOADS[k], is_append);
            if (value > best) best = value;
        }
        printf("{\"impl\":\"c\",\"case\":\"%s\",\"payload\":%u,\"threads\":\"1\",\"value\":%.2f,\"unit\":\"msg/s\"}\n", name,
               (unsigned)PAYLOADS[k], best);
        fflush(stdout);
    }
    return true;
}

int main(int count, char **words) {
    if (getenv("REPS")) repetitions = (unsigned)atoi(getenv("REPS"));
    if (getenv("CQ_SHAPE"))
        sscanf(getenv("CQ_SHAPE"), "%u,%u,%u", &settings.cells, &settings.index_count, &settings.index_spacing);
    memset(message, 'x', sizeof message);
    for (int k = 1; k < count; k++) {
        if (!measure(words[k])) {
            fprintf(stderr, "rate: there is no case %s\n", words[k]);
            return 2;
        }
    }
    if (count == 1) {
        measure("append_by_call");
        measure("read_into");
    }
    return 0;
}
