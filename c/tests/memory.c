/* Nothing is left of a queue, a shelf or a log once its last endpoint is ended. Each allocation that is refused in turn is reported,
 * and leaves nothing allocated. malloc, realloc and free are counted here: link with --wrap for each. */
#include "check.h"
#include <stdlib.h>

void *__real_malloc(size_t size);
void *__real_realloc(void *at, size_t size);
void __real_free(void *at);

static long blocks;     /* that are not freed */
static long left = -1;  /* how many allocations succeed before one is refused; all do if it is negative */

static int is_refused(void) {
    return left >= 0 && left-- == 0;
}

void *__wrap_malloc(size_t size) {
    void *at = is_refused() ? NULL : __real_malloc(size);
    blocks += at != NULL;
    return at;
}

void *__wrap_realloc(void *old, size_t size) {
    void *at = is_refused() ? NULL : __real_realloc(old, size);
    blocks += at != NULL && old == NULL;
    return at;
}

void __wrap_free(void *at) {
    blocks -= at != NULL;
    __real_free(at);
}

/* Appends, looks up and reads messages, and looks up the end, while each allocation would be refused. */
static void allocate_nothing(linnetshelf_handle *endpoint) {
    const uint32_t lengths[] = {1, 2};
    linnetshelf_answer answers[4];
    char room[16];
    long before = left;
    left = 0;
    CHECK(linnetshelf_append_many(endpoint, 0, "abb", 3, lengths, 2).count == 2);
    linnetshelf_answer peeked = linnetshelf_peek(endpoint);
    CHECK(peeked.status == STATUS(DONE) && peeked.index == 0 && peeked.length == 5);
    CHECK(linnetshelf_next_many(endpoint, room, sizeof room, answers, 4).count == 3);
    CHECK(linnetshelf_peek(endpoint).status == STATUS(NOT_YET));
    CHECK(linnetshelf_end(endpoint).index == 3);
    CHECK(left == 0);
    left = before;
}

/* Makes a queue, uses it, stops it, and opens it again. Returns whether all was done. If memory is refused it ends
 * what there is. */
static int use_queue(void) {
    linnetshelf_handle queue = {0}, other = {0}, saved = {0}, again = {0};
    static char image[65536];
    char room[16];
    int is_done = 0;
    if (linnetshelf_create(&SMALL, "reader", 6, 0, &queue) != STATUS(DONE))
        return 0;
    if (linnetshelf_split(&queue, &other) == STATUS(DONE)) {
        CHECK(linnetshelf_append(&other, 0, "hello", 5).status == STATUS(DONE));
        allocate_nothing(&other);
        CHECK(linnetshelf_next(&queue, room, sizeof room).status == STATUS(DONE));
        CHECK(linnetshelf_take(&queue, "reader", 6, room, sizeof room).status == STATUS(DONE));
        linnetshelf_destroy(other);
    }
    if (linnetshelf_snapshot(&queue, &other) == STATUS(DONE))
        linnetshelf_destroy(other);
    CHECK(linnetshelf_close(&queue) == STATUS(DONE));
    uint32_t stopped = linnetshelf_stop(&queue);
    if (stopped == STATUS(OUT_OF_MEMORY))
        stopped = linnetshelf_stop(&queue); /* it is read at the second try */
    CHECK(stopped == STATUS(DONE));
    linnetshelf_answer answer = linnetshelf_saved_image(&queue, 0, image, sizeof image);
    if (answer.status == STATUS(DONE) && linnetshelf_saved_new(&SMALL, "reader", 6, &saved) == STATUS(DONE)) {
        if (linnetshelf_saved_add(&saved, 0, image, answer.length).status == STATUS(DONE) &&
            linnetshelf_open(&saved, &again) == STATUS(DONE)) {
            is_done = linnetshelf_next(&again, room, sizeof room).status == STATUS(DONE);
            linnetshelf_destroy(again);
        }
        linnetshelf_destroy(saved);
    }
    linnetshelf_destroy(queue);
    return is_done;
}

/* Appends a message to a shelf, reads it and takes it. If memory is refused to the next queue it appends it once more. */
static void pass_on(linnetshelf_handle *writer, linnetshelf_handle *reader, linnetshelf_handle *taker) {
    char room[8];
    uint32_t status = linnetshelf_shelf_append(writer, 0, "message", 7).status;
    if (status == STATUS(OUT_OF_MEMORY))
        status = linnetshelf_shelf_append(writer, 0, "message", 7).status;
    CHECK(status == STATUS(DONE));
    CHECK(linnetshelf_shelf_next(reader, room, sizeof room).status == STATUS(DONE));
    CHECK(linnetshelf_shelf_take(taker, room, sizeof room).status == STATUS(DONE));
}

/* Makes a shelf, and uses several queues of it. Returns whether all was done. If memory is refused it ends what there is. */
static int use_shelf(void) {
    static const linnetshelf_shelf_settings settings = {
        .queue = {.cells = 64, .index_count = 8, .index_spacing = 1, .cycles = 1, .roll = LINNETSHELF_DAILY},
        .most = 2, .at_limit = LINNETSHELF_REFUSE};
    linnetshelf_handle writer = {0}, reader = {0}, taker = {0}, other = {0};
    int is_done = 0;
    if (linnetshelf_shelf_create(&settings, "worker", 6, 0, &writer) != STATUS(DONE))
        return 0;
    if (linnetshelf_shelf_reader(&writer, &reader) == STATUS(DONE)) {
        if (linnetshelf_shelf_taker(&writer, "worker", 6, &taker) == STATUS(DONE)) {
            for (int k = 0; k < 100; k++)
                pass_on(&writer, &reader, &taker);
            CHECK(linnetshelf_shelf_queue(&writer).index > 5 && linnetshelf_shelf_living(&writer).index == 1);
            linnetshelf_handle *users[] = {&writer, &reader, &taker};
            is_done = 1;
            for (int k = 0; k < 3; k++) {
                if (linnetshelf_shelf_split(users[k], &other) == STATUS(DONE))
                    linnetshelf_destroy(other);
                else
                    is_done = 0;
            }
            linnetshelf_destroy(taker);
        }
        linnetshelf_destroy(reader);
    }
    linnetshelf_destroy(writer);
    return is_done;
}

/* Refuses each allocation of a use in turn, up to the first that is not made. */
static void refuse_each(int (*use)(void)) {
    CHECK(use());
    CHECK(blocks == 0);
    for (long refused = 0; refused < 1000; refused++) {
        left = refused;
        int is_done = use();
        CHECK(blocks == 0);
        if (left >= 0) { /* fewer allocations are made than would be let through */
            CHECK(is_done);
            left = -1;
            return;
        }
    }
    CHECK(!"it allocates more than a thousand times");
}

/* A log in memory. */
static char log_bytes[65536];
static size_t log_length;

/* Makes the calls of a log that are left. */
static void make_calls(linnetshelf_handle *keeper) {
    static char room[8192];
    linnetshelf_call call;
    while ((call = linnetshelf_log_call(keeper, room, sizeof room)).status == STATUS(DONE)) {
        if (call.kind == LINNETSHELF_LOG_WRITE) {
            CHECK(call.place <= log_length && call.place + call.length <= sizeof log_bytes);
            memcpy(log_bytes + call.place, room, call.length);
            if (call.place + call.length > log_length)
                log_length = call.place + call.length;
        }
        CHECK(linnetshelf_log_done(keeper, true) == STATUS(DONE));
    }
    CHECK(call.status == STATUS(NO_CALL));
}

/* Puts a message into the log of a queue. Returns whether it is stored. */
static int keep_message(linnetshelf_handle *queue, linnetshelf_handle *keeper) {
    make_calls(keeper);
    uint64_t index = linnetshelf_append(queue, 0, "hello", 5).index;
    uint32_t turned = linnetshelf_turn(keeper);
    if (turned == STATUS(OUT_OF_MEMORY))
        turned = linnetshelf_turn(keeper); /* it is kept at the second try */
    CHECK(turned == STATUS(DONE) || turned == STATUS(LOG_STOPPED));
    make_calls(keeper);
    uint32_t settled = linnetshelf_settle(keeper);
    CHECK(settled == STATUS(DONE) || settled == STATUS(LOG_STOPPED));
    make_calls(keeper);
    CHECK((settled == STATUS(DONE)) == (linnetshelf_stored(keeper).index > index));
    return settled == STATUS(DONE);
}

/* Keeps a queue in a log, and plays that on what was saved. */
static int use_log(void) {
    linnetshelf_handle saved = {0}, queue = {0}, keeper = {0};
    int is_done = 0;
    log_length = 0;
    if (linnetshelf_create(&SMALL, "reader", 6, 0, &saved) != STATUS(DONE))
        return 0;
    uint32_t stopped = linnetshelf_stop(&saved);
    if (stopped == STATUS(OUT_OF_MEMORY))
        stopped = linnetshelf_stop(&saved);
    CHECK(stopped == STATUS(DONE));
    if (linnetshelf_keep(&saved, &queue, &keeper) == STATUS(DONE)) {
        is_done = keep_message(&queue, &keeper);
        linnetshelf_destroy(keeper);
        linnetshelf_destroy(queue);
        linnetshelf_answer played = linnetshelf_play(&saved, log_bytes, log_length);
        CHECK(played.status == STATUS(DONE) || played.status == STATUS(OUT_OF_MEMORY));
        is_done = is_done && played.status == STATUS(DONE) && played.index == 1;
    }
    linnetshelf_destroy(saved);
    return is_done;
}

/* Copies the name of a cycle, and reads and writes the text of settings. */
static int use_texts(void) {
    static const char text[] = "cq 2\nroll daily\nepoch 0\ncells 64\ncount 8\nspacing 1\ncycles 4\nname reader 0\n";
    linnetshelf_handle saved = {0};
    char room[256];
    int is_done = linnetshelf_cycle_name(LINNETSHELF_MINUTELY, 0, 1, room, sizeof room).status == STATUS(DONE);
    if (linnetshelf_config_read(text, sizeof text - 1, &saved).status != STATUS(DONE))
        return 0;
    is_done = linnetshelf_config_write(&saved, room, sizeof room).status == STATUS(DONE) && is_done;
    linnetshelf_destroy(saved);
    return is_done;
}

int main(void) {
    refuse_each(use_queue);
    refuse_each(use_texts);
    refuse_each(use_shelf);
    refuse_each(use_log);
    return failures != 0;
}
