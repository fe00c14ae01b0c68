/* Shelves. Each call with what it returns, on one thread. Then threads write, read and take over hundreds of queues, until the
 * shelf is closed: each message is read once by each reader, in the order in which its writer appended it, and taken once. Where
 * the oldest queue is dropped instead, what is read is in order, and the number of queues that were missed is right. The
 * argument says how many messages each writer appends. */
#include "check.h"
#include <pthread.h>
#include <sched.h>
#include <stdatomic.h>
#include <stdlib.h>

/* The library is not compiled with the thread sanitizer, which does not see its atomics. So it does not see that a queue goes from
 * one thread to another by them, before that one copies or frees it. */
const char *__tsan_default_options(void);
const char *__tsan_default_options(void) {
    return "ignore_interceptors_accesses=1";
}

/* A queue with few cells, so that few messages fit. */
#define NARROW {.cells = 64, .index_count = 8, .index_spacing = 1, .cycles = 1, .roll = LINNETSHELF_DAILY}

static linnetshelf_handle shelf_of(uint32_t most, uint32_t at_limit, const char *names) {
    linnetshelf_shelf_settings settings = {.queue = NARROW, .most = most, .at_limit = at_limit};
    linnetshelf_handle writer = {0};
    CHECK(linnetshelf_shelf_create(&settings, names, strlen(names), 0, &writer) == STATUS(DONE));
    return writer;
}

static linnetshelf_handle reader_of(linnetshelf_handle *writer) {
    linnetshelf_handle reader = {0};
    CHECK(linnetshelf_shelf_reader(writer, &reader) == STATUS(DONE));
    return reader;
}

static linnetshelf_handle taker_of(linnetshelf_handle *writer, const char *name) {
    linnetshelf_handle taker = {0};
    CHECK(linnetshelf_shelf_taker(writer, name, strlen(name), &taker) == STATUS(DONE));
    return taker;
}

static int is_at(linnetshelf_shelf_answer answer, uint64_t queue, uint64_t index, uint32_t length) {
    return answer.status == STATUS(DONE) && answer.queue == queue && answer.index == index && answer.length == length;
}

/* Whether an answer has a status alone. */
static int is_bare(linnetshelf_shelf_answer answer, uint32_t status) {
    return answer.status == status && answer.queue == 0 && answer.index == 0 && answer.length == 0;
}

static int is_missed(linnetshelf_shelf_answer answer, uint64_t queues) {
    return answer.status == STATUS(MISSED) && answer.index == queues && answer.queue == 0 && answer.length == 0;
}

/* Appends messages of eight bytes until one is in this queue. Returns how many each queue before it has, if there is one. */
static uint64_t fill_to(linnetshelf_handle *writer, uint64_t queue) {
    uint64_t count = 0;
    linnetshelf_shelf_answer answer, last = {0};
    while ((answer = linnetshelf_shelf_append(writer, 0, "message.", 8)).status == STATUS(DONE) && answer.queue < queue) {
        CHECK(answer.queue == last.queue || answer.index == 0);
        count = answer.index + 1;
        last = answer;
    }
    CHECK(is_at(answer, queue, 0, 0));
    return count;
}

/* Reads or takes this many messages, all that are left in a queue. Returns what comes then. */
static linnetshelf_shelf_answer drain(linnetshelf_handle *user,
                                      linnetshelf_shelf_answer (*next)(linnetshelf_handle *, void *, size_t), uint64_t count) {
    char room[8];
    for (uint64_t k = 0; k < count; k++) {
        linnetshelf_shelf_answer answer = next(user, room, sizeof room);
        CHECK(is_at(answer, answer.queue, k, 8) && memcmp(room, "message.", 8) == 0);
    }
    return next(user, room, sizeof room);
}

static void settings_are_tested(void) {
    linnetshelf_shelf_settings settings = {.queue = NARROW, .most = 2, .at_limit = LINNETSHELF_REFUSE};
    linnetshelf_handle out = {0};
    linnetshelf_shelf_settings bad = settings;
    bad.queue.cells = 10;
    CHECK(linnetshelf_shelf_create(&bad, "", 0, 0, &out) == STATUS(BAD_SETTINGS));
    bad = settings;
    bad.at_limit = 2;
    CHECK(linnetshelf_shelf_create(&bad, "", 0, 0, &out) == STATUS(BAD_SETTINGS));
    CHECK(linnetshelf_shelf_create(&settings, "a\na", 3, 0, &out) == STATUS(BAD_SETTINGS));
    for (bad = settings, bad.most = 0; bad.most < 2; bad.most++)
        CHECK(linnetshelf_shelf_create(&bad, "a", 1, 0, &out) == STATUS(BAD_SHELF));
    settings.queue.epoch = 10 * DAY;
    CHECK(linnetshelf_shelf_create(&settings, "a", 1, DAY, &out) == STATUS(BAD_MOMENT));
    CHECK(out.at == NULL);
    CHECK(linnetshelf_shelf_create(&settings, "a\nb\n", 4, 10 * DAY, &out) == STATUS(DONE));
    linnetshelf_destroy(out);
}

static void messages_go_on_to_the_next_queue(void) {
    linnetshelf_handle writer = shelf_of(4, LINNETSHELF_REFUSE, ""), reader = reader_of(&writer);
    char room[8];
    CHECK(is_bare(linnetshelf_shelf_next(&reader, room, sizeof room), STATUS(NOT_YET)));
    uint64_t each = fill_to(&writer, 2);
    CHECK(each > 5);
    CHECK(linnetshelf_shelf_queue(&writer).index == 2 && linnetshelf_shelf_queue(&reader).index == 0);
    CHECK(linnetshelf_shelf_living(&writer).index == 3);

    linnetshelf_shelf_answer answer = linnetshelf_shelf_next(&reader, room, 7);
    CHECK(answer.status == STATUS(NO_ROOM) && answer.length == 8 && answer.queue == 0 && answer.index == 0);
    CHECK(is_at(drain(&reader, linnetshelf_shelf_next, each), 1, 0, 8));
    CHECK(linnetshelf_shelf_queue(&reader).index == 1 && linnetshelf_shelf_living(&writer).index == 2);
    for (uint64_t k = 1; k < each; k++)
        CHECK(is_at(linnetshelf_shelf_next(&reader, room, sizeof room), 1, k, 8));
    CHECK(is_at(linnetshelf_shelf_position(&reader), 1, each, 0));
    CHECK(is_at(linnetshelf_shelf_next(&reader, room, sizeof room), 2, 0, 8));
    CHECK(is_bare(linnetshelf_shelf_next(&reader, room, sizeof room), STATUS(NOT_YET)));
    CHECK(linnetshelf_shelf_living(&writer).index == 1);

    linnetshelf_answer at = linnetshelf_shelf_advance(&writer, 5 * DAY);
    CHECK(at.status == STATUS(DONE) && at.index == 5 && at.length == 0 && linnetshelf_shelf_queue(&writer).index == 3);
    CHECK(linnetshelf_shelf_advance(&writer, DAY).index == 5);
    CHECK(is_at(linnetshelf_shelf_append(&writer, 0, "later", 5), 3, 5ull << 32, 0));
    CHECK(is_at(linnetshelf_shelf_next(&reader, room, sizeof room), 3, 5ull << 32, 5) && memcmp(room, "later", 5) == 0);
    linnetshelf_destroy(writer);
    linnetshelf_destroy(reader);
}

static void messages_are_refused(void) {
    linnetshelf_handle writer = shelf_of(2, LINNETSHELF_REFUSE, ""), other = {0};
    char message[200] = {0};
    CHECK(linnetshelf_shelf_append(&writer, 0, "", 0).status == STATUS(BAD_ROOM));
    CHECK(linnetshelf_shelf_append(&writer, 0, message, sizeof message).status == STATUS(BAD_ROOM));
    CHECK(is_bare(linnetshelf_shelf_append(&writer, UINT64_MAX, "a", 1), STATUS(BAD_MOMENT)));
    CHECK(linnetshelf_shelf_advance(&writer, UINT64_MAX).status == STATUS(BAD_MOMENT));
    CHECK(linnetshelf_shelf_begin(&writer, 0, 0) == STATUS(BAD_ROOM));
    CHECK(linnetshelf_shelf_begin(&writer, UINT64_MAX, 1) == STATUS(BAD_MOMENT));
    CHECK(linnetshelf_shelf_split(&writer, &other) == STATUS(DONE));
    CHECK(linnetshelf_shelf_begin(&writer, 0, 1) == STATUS(DONE));
    CHECK(linnetshelf_shelf_append(&other, 0, "a", 1).status == STATUS(BUSY));
    CHECK(linnetshelf_shelf_begin(&other, 0, 1) == STATUS(BUSY));
    CHECK(linnetshelf_shelf_advance(&other, DAY).status == STATUS(BUSY));
    CHECK(linnetshelf_shelf_close(&other) == STATUS(BUSY));
    linnetshelf_destroy(writer);
    CHECK(is_at(linnetshelf_shelf_append(&other, 0, "a", 1), 0, 0, 0));
    linnetshelf_destroy(other);
}

static void messages_are_put_in_parts(void) {
    linnetshelf_handle writer = shelf_of(2, LINNETSHELF_REFUSE, ""), reader = reader_of(&writer);
    char room[16];
    CHECK(linnetshelf_shelf_put(&writer, "a", 1) == STATUS(NOT_WRITING));
    CHECK(is_bare(linnetshelf_shelf_complete(&writer), STATUS(NOT_WRITING)));
    CHECK(linnetshelf_shelf_roll_back(&writer) == STATUS(NOT_WRITING));
    CHECK(linnetshelf_shelf_begin(&writer, 0, 8) == STATUS(DONE));
    CHECK(linnetshelf_shelf_begin(&writer, 0, 8) == STATUS(WRITING));
    CHECK(linnetshelf_shelf_append(&writer, 0, "a", 1).status == STATUS(WRITING));
    CHECK(linnetshelf_shelf_advance(&writer, DAY).status == STATUS(WRITING));
    CHECK(linnetshelf_shelf_close(&writer) == STATUS(WRITING));
    CHECK(is_bare(linnetshelf_shelf_complete(&writer), STATUS(EMPTY_MESSAGE)));
    CHECK(linnetshelf_shelf_put(&writer, "hello", 5) == STATUS(DONE));
    CHECK(linnetshelf_shelf_put(&writer, "world", 5) == STATUS(PAST_ROOM));
    CHECK(linnetshelf_shelf_put(&writer, "you", 3) == STATUS(DONE));
    CHECK(is_bare(linnetshelf_shelf_next(&reader, room, sizeof room), STATUS(NOT_YET)));
    CHECK(is_at(linnetshelf_shelf_complete(&writer), 0, 0, 0));
    CHECK(is_at(linnetshelf_shelf_next(&reader, room, sizeof room), 0, 0, 8) && memcmp(room, "helloyou", 8) == 0);
    CHECK(linnetshelf_shelf_begin(&writer, 0, 8) == STATUS(DONE));
    CHECK(linnetshelf_shelf_put(&writer, "never", 5) == STATUS(DONE));
    CHECK(linnetshelf_shelf_roll_back(&writer) == STATUS(DONE));
    CHECK(is_at(linnetshelf_shelf_append(&writer, 0, "next", 4), 0, 1, 0));
    CHECK(is_at(linnetshelf_shelf_next(&reader, room, sizeof room), 0, 1, 4));
    linnetshelf_destroy(writer);
    linnetshelf_destroy(reader);
}

/* An append is FULL until all that are at the oldest queue have gone on or are destroyed. */
static void a_shelf_is_full(void) {
    linnetshelf_handle writer = shelf_of(2, LINNETSHELF_REFUSE, "worker"), idle = {0};
    CHECK(linnetshelf_shelf_split(&writer, &idle) == STATUS(DONE));
    linnetshelf_handle reader = reader_of(&writer), taker = taker_of(&writer, "worker");
    uint64_t each = fill_to(&writer, 1);
    for (uint64_t k = 1; k < each; k++)
        CHECK(is_at(linnetshelf_shelf_append(&writer, 0, "message.", 8), 1, k, 0));
    for (int k = 0; k < 3; k++) {
        CHECK(is_bare(linnetshelf_shelf_append(&writer, 0, "message.", 8), STATUS(FULL)));
        CHECK(linnetshelf_shelf_begin(&writer, 0, 8) == STATUS(FULL));
        CHECK(linnetshelf_shelf_advance(&writer, DAY).status == STATUS(FULL));
        switch (k) {
        case 0: CHECK(is_at(drain(&reader, linnetshelf_shelf_next, each), 1, 0, 8)); break;
        case 1: CHECK(linnetshelf_shelf_follow(&idle) == STATUS(DONE)); break;
        case 2: CHECK(is_at(drain(&taker, linnetshelf_shelf_take, each), 1, 0, 8)); break;
        }
    }
    linnetshelf_destroy(writer);
    CHECK(linnetshelf_shelf_queue(&idle).index == 1 && linnetshelf_shelf_living(&idle).index == 1);
    CHECK(is_at(linnetshelf_shelf_append(&idle, 0, "message.", 8), 2, 0, 0));
    CHECK(linnetshelf_shelf_begin(&idle, 0, 1) == STATUS(DONE));
    CHECK(linnetshelf_shelf_follow(&idle) == STATUS(DONE));
    linnetshelf_destroy(idle);
    linnetshelf_destroy(reader);
    linnetshelf_destroy(taker);
}

static void a_shelf_is_closed(void) {
    linnetshelf_handle writer = shelf_of(3, LINNETSHELF_REFUSE, "worker"), other = {0};
    linnetshelf_handle reader = reader_of(&writer), taker = taker_of(&writer, "worker");
    char room[8];
    CHECK(linnetshelf_shelf_split(&writer, &other) == STATUS(DONE));
    uint64_t each = fill_to(&writer, 1);
    CHECK(linnetshelf_shelf_close(&writer) == STATUS(DONE));
    CHECK(linnetshelf_shelf_close(&writer) == STATUS(CLOSED));
    CHECK(linnetshelf_shelf_close(&other) == STATUS(CLOSED));
    CHECK(is_bare(linnetshelf_shelf_append(&other, 0, "a", 1), STATUS(CLOSED)));
    CHECK(linnetshelf_shelf_begin(&writer, 0, 1) == STATUS(CLOSED));
    CHECK(linnetshelf_shelf_advance(&writer, DAY).status == STATUS(CLOSED));
    CHECK(linnetshelf_shelf_follow(&writer) == STATUS(DONE));

    CHECK(is_at(drain(&reader, linnetshelf_shelf_next, each), 1, 0, 8));
    CHECK(is_at(drain(&taker, linnetshelf_shelf_take, each), 1, 0, 8));
    for (int k = 0; k < 2; k++) {
        CHECK(is_bare(linnetshelf_shelf_next(&reader, room, sizeof room), STATUS(FINISHED)));
        CHECK(is_bare(linnetshelf_shelf_take(&taker, room, sizeof room), STATUS(FINISHED)));
    }
    CHECK(linnetshelf_shelf_read_at(&reader, 1, 1, room, sizeof room).status == STATUS(NEVER));
    CHECK(linnetshelf_shelf_read_at(&reader, 2, 0, room, sizeof room).status == STATUS(NEVER));
    linnetshelf_destroy(writer);
    linnetshelf_destroy(other);
    linnetshelf_destroy(reader);
    linnetshelf_destroy(taker);
}

/* A reader and a taker that are at a queue which was dropped read and take the rest of it, and are told how many they missed. */
static void the_oldest_queue_is_dropped(void) {
    linnetshelf_handle writer = shelf_of(2, LINNETSHELF_DROP_OLDEST, "worker");
    linnetshelf_handle reader = reader_of(&writer), taker = taker_of(&writer, "worker");
    char room[8];
    uint64_t each = fill_to(&writer, 5);
    CHECK(linnetshelf_shelf_living(&writer).index == 2);
    CHECK(is_missed(drain(&reader, linnetshelf_shelf_next, each), 3));
    CHECK(is_missed(drain(&taker, linnetshelf_shelf_take, each), 3));
    CHECK(is_at(linnetshelf_shelf_position(&reader), 4, 0, 0) && is_at(linnetshelf_shelf_position(&taker), 4, 0, 0));
    CHECK(is_at(drain(&reader, linnetshelf_shelf_next, each), 5, 0, 8));
    CHECK(is_at(drain(&taker, linnetshelf_shelf_take, each), 5, 0, 8));
    CHECK(linnetshelf_shelf_read_at(&reader, 3, 0, room, sizeof room).status == STATUS(GONE));
    linnetshelf_destroy(writer);
    linnetshelf_destroy(reader);
    linnetshelf_destroy(taker);
}

static void readers_move(void) {
    linnetshelf_handle writer = shelf_of(4, LINNETSHELF_REFUSE, "worker"), reader = reader_of(&writer), other = {0};
    char room[8];
    uint64_t each = fill_to(&writer, 2);
    CHECK(linnetshelf_shelf_to_end(&reader) == STATUS(DONE));
    CHECK(is_at(linnetshelf_shelf_position(&reader), 2, 1, 0));
    CHECK(is_bare(linnetshelf_shelf_next(&reader, room, sizeof room), STATUS(NOT_YET)));
    CHECK(linnetshelf_shelf_direction(&reader, 2) == STATUS(BAD_DIRECTION));
    CHECK(linnetshelf_shelf_direction(&reader, LINNETSHELF_BACKWARDS) == STATUS(DONE));
    CHECK(is_at(linnetshelf_shelf_next(&reader, room, sizeof room), 2, 0, 8));
    for (uint64_t k = 2 * each; k-- > 0;)
        CHECK(is_at(linnetshelf_shelf_next(&reader, room, sizeof room), k / each, k % each, 8));
    CHECK(is_bare(linnetshelf_shelf_next(&reader, room, sizeof room), STATUS(BEFORE_START)));
    CHECK(linnetshelf_shelf_direction(&reader, LINNETSHELF_FORWARDS) == STATUS(DONE));
    CHECK(is_at(linnetshelf_shelf_next(&reader, room, sizeof room), 0, 0, 8));

    CHECK(linnetshelf_shelf_move_to(&reader, 1, 2) == STATUS(DONE));
    CHECK(is_at(linnetshelf_shelf_position(&reader), 1, 2, 0));
    CHECK(linnetshelf_shelf_move_to(&reader, 1, each) == STATUS(NO_MESSAGE));
    CHECK(linnetshelf_shelf_move_to(&reader, 2, 1) == STATUS(NO_MESSAGE));
    CHECK(linnetshelf_shelf_move_to(&reader, 3, 0) == STATUS(NO_MESSAGE));
    CHECK(is_at(linnetshelf_shelf_position(&reader), 1, 2, 0));
    CHECK(linnetshelf_shelf_split(&reader, &other) == STATUS(DONE));
    CHECK(is_at(linnetshelf_shelf_next(&other, room, sizeof room), 1, 0, 8));
    CHECK(is_at(linnetshelf_shelf_next(&reader, room, sizeof room), 1, 2, 8));

    linnetshelf_answer answer = linnetshelf_shelf_read_at(&reader, 0, each - 1, room, sizeof room);
    CHECK(answer.status == STATUS(DONE) && answer.length == 8 && memcmp(room, "message.", 8) == 0);
    answer = linnetshelf_shelf_read_at(&reader, 1, 0, room, 7);
    CHECK(answer.status == STATUS(NO_ROOM) && answer.length == 8);
    CHECK(linnetshelf_shelf_read_at(&reader, 0, each, room, sizeof room).status == STATUS(NEVER));
    CHECK(linnetshelf_shelf_read_at(&reader, 2, 1, room, sizeof room).status == STATUS(NOT_YET));
    CHECK(linnetshelf_shelf_read_at(&reader, 3, 0, room, sizeof room).status == STATUS(NOT_YET));
    CHECK(is_at(linnetshelf_shelf_position(&reader), 1, 3, 0));
    CHECK(linnetshelf_shelf_to_start(&reader) == STATUS(DONE));
    CHECK(is_at(linnetshelf_shelf_next(&reader, room, sizeof room), 0, 0, 8));
    linnetshelf_destroy(other);
    linnetshelf_destroy(reader);
    linnetshelf_destroy(writer);
}

/* What was freed is not read any more: readers begin at the oldest queue that is kept. */
static void queues_are_freed(void) {
    linnetshelf_handle writer = shelf_of(2, LINNETSHELF_REFUSE, ""), reader = {0};
    char room[8];
    fill_to(&writer, 20);
    CHECK(linnetshelf_shelf_living(&writer).index == 1);
    reader = reader_of(&writer);
    CHECK(linnetshelf_shelf_read_at(&reader, 19, 0, room, sizeof room).status == STATUS(GONE));
    CHECK(linnetshelf_shelf_move_to(&reader, 19, 0) == STATUS(NO_MESSAGE));
    CHECK(linnetshelf_shelf_to_start(&reader) == STATUS(DONE));
    CHECK(is_at(linnetshelf_shelf_next(&reader, room, sizeof room), 20, 0, 8));
    linnetshelf_destroy(writer);
    linnetshelf_destroy(reader);
}

static void names_take(void) {
    linnetshelf_handle writer = shelf_of(2, LINNETSHELF_REFUSE, "worker\nother"), taker = {0}, second = {0};
    char room[8];
    CHECK(linnetshelf_shelf_taker(&writer, "nobody", 6, &taker) == STATUS(NO_SUCH_NAME));
    CHECK(linnetshelf_shelf_taker(&writer, "\xff\xfe", 2, &taker) == STATUS(NO_SUCH_NAME));
    CHECK(linnetshelf_shelf_taker(&writer, "", 0, &taker) == STATUS(NO_SUCH_NAME) && taker.at == NULL);
    taker = taker_of(&writer, "worker");
    CHECK(is_bare(linnetshelf_shelf_take(&taker, room, sizeof room), STATUS(NOT_YET)));
    CHECK(is_at(linnetshelf_shelf_position(&taker), 0, 0, 0));
    fill_to(&writer, 1);
    linnetshelf_shelf_answer answer = linnetshelf_shelf_take(&taker, room, 7);
    CHECK(answer.status == STATUS(NO_ROOM) && answer.length == 8);
    CHECK(is_at(linnetshelf_shelf_take(&taker, room, sizeof room), 0, 0, 8));
    CHECK(linnetshelf_shelf_split(&taker, &second) == STATUS(DONE));
    CHECK(is_at(linnetshelf_shelf_take(&second, room, sizeof room), 0, 1, 8));
    CHECK(is_at(linnetshelf_shelf_take(&taker, room, sizeof room), 0, 2, 8));
    CHECK(is_at(linnetshelf_shelf_position(&second), 0, 3, 0));
    linnetshelf_destroy(second);
    second = taker_of(&writer, "other");
    CHECK(is_at(linnetshelf_shelf_take(&second, room, sizeof room), 0, 0, 8));
    linnetshelf_destroy(second);
    linnetshelf_destroy(taker);
    linnetshelf_destroy(writer);
}

/* A call on a handle that holds something else does nothing. */
static void kinds_are_tested(void) {
    linnetshelf_handle writer = shelf_of(2, LINNETSHELF_REFUSE, "worker"), reader = reader_of(&writer), queue = {0}, out = {0};
    linnetshelf_handle taker = taker_of(&writer, "worker");
    char room[8] = "........";
    CHECK(linnetshelf_create(&SMALL, "", 0, 0, &queue) == STATUS(DONE));
    linnetshelf_handle *no_writers[] = {&reader, &taker, &queue}, *no_readers[] = {&writer, &taker, &queue};
    linnetshelf_handle *no_takers[] = {&writer, &reader, &queue}, *shelves[] = {&writer, &reader, &taker};
    for (int k = 0; k < 3; k++) {
        linnetshelf_handle *it = no_writers[k];
        CHECK(linnetshelf_shelf_reader(it, &out) == STATUS(WRONG_KIND));
        CHECK(linnetshelf_shelf_taker(it, "worker", 6, &out) == STATUS(WRONG_KIND));
        CHECK(is_bare(linnetshelf_shelf_append(it, 0, "a", 1), STATUS(WRONG_KIND)));
        CHECK(linnetshelf_shelf_begin(it, 0, 1) == STATUS(WRONG_KIND));
        CHECK(linnetshelf_shelf_put(it, "a", 1) == STATUS(WRONG_KIND));
        CHECK(is_bare(linnetshelf_shelf_complete(it), STATUS(WRONG_KIND)));
        CHECK(linnetshelf_shelf_roll_back(it) == STATUS(WRONG_KIND));
        CHECK(linnetshelf_shelf_advance(it, DAY).status == STATUS(WRONG_KIND));
        CHECK(linnetshelf_shelf_follow(it) == STATUS(WRONG_KIND));
        CHECK(linnetshelf_shelf_close(it) == STATUS(WRONG_KIND));
        CHECK(linnetshelf_shelf_living(it).status == STATUS(WRONG_KIND));
        it = no_readers[k];
        CHECK(is_bare(linnetshelf_shelf_next(it, room, sizeof room), STATUS(WRONG_KIND)));
        CHECK(linnetshelf_shelf_read_at(it, 0, 0, room, sizeof room).status == STATUS(WRONG_KIND));
        CHECK(linnetshelf_shelf_direction(it, LINNETSHELF_BACKWARDS) == STATUS(WRONG_KIND));
        CHECK(linnetshelf_shelf_move_to(it, 0, 0) == STATUS(WRONG_KIND));
        CHECK(linnetshelf_shelf_to_start(it) == STATUS(WRONG_KIND));
        CHECK(linnetshelf_shelf_to_end(it) == STATUS(WRONG_KIND));
        CHECK(is_bare(linnetshelf_shelf_take(no_takers[k], room, sizeof room), STATUS(WRONG_KIND)));
        it = shelves[k];
        CHECK(linnetshelf_append(it, 0, "a", 1).status == STATUS(WRONG_KIND));
        CHECK(linnetshelf_next(it, room, sizeof room).status == STATUS(WRONG_KIND));
        CHECK(linnetshelf_split(it, &out) == STATUS(WRONG_KIND));
        CHECK(linnetshelf_meet(it, &queue) == STATUS(WRONG_KIND));
        CHECK(linnetshelf_close(it) == STATUS(WRONG_KIND));
        CHECK(linnetshelf_stop(it) == STATUS(WRONG_KIND));
        CHECK(linnetshelf_saved_count(it).status == STATUS(WRONG_KIND));
        CHECK(linnetshelf_open(it, &out) == STATUS(WRONG_KIND));
    }
    CHECK(linnetshelf_shelf_split(&queue, &out) == STATUS(WRONG_KIND));
    CHECK(is_bare(linnetshelf_shelf_position(&queue), STATUS(WRONG_KIND)));
    CHECK(is_bare(linnetshelf_shelf_position(&writer), STATUS(WRONG_KIND)));
    CHECK(linnetshelf_shelf_queue(&queue).status == STATUS(WRONG_KIND));
    CHECK(linnetshelf_shelf_queue(&taker).status == STATUS(WRONG_KIND));
    CHECK(out.at == NULL && memcmp(room, "........", 8) == 0);
    CHECK(is_at(linnetshelf_shelf_append(&writer, 0, "a", 1), 0, 0, 0));
    CHECK(is_at(linnetshelf_shelf_next(&reader, room, sizeof room), 0, 0, 1));
    CHECK(is_at(linnetshelf_shelf_take(&taker, room, sizeof room), 0, 0, 1));
    for (int k = 0; k < 3; k++)
        linnetshelf_destroy(*shelves[k]);
    linnetshelf_destroy(queue);
}

enum { WRITERS = 3, READERS = 3, TAKERS = 3, THREADS = WRITERS + READERS + TAKERS };

static uint32_t each = 2000; /* the messages of a writer */
static atomic_uint writing;  /* how many writers have not ended */

struct worker {
    uint32_t number;
    linnetshelf_handle user;
    uint32_t count;         /* of a writer, the messages that were appended; of others, those that were read or taken */
    uint32_t next[WRITERS]; /* of others, for each writer the message that may come next */
    uint64_t missed;        /* of a reader, the queues that it missed */
    unsigned char *taken;   /* of a taker, for each message of each writer how often it was taken */
    uint64_t queue, index;  /* where the last message was */
};

/* Appends a message: by one call, or in parts. */
static linnetshelf_shelf_answer append(linnetshelf_handle *writer, const uint32_t message[2]) {
    if (message[1] % 2 == 0)
        return linnetshelf_shelf_append(writer, 0, message, 8);
    linnetshelf_shelf_answer answer = {.status = linnetshelf_shelf_begin(writer, 0, 8)};
    if (answer.status == STATUS(DONE)) {
        CHECK(linnetshelf_shelf_put(writer, &message[0], 4) == STATUS(DONE));
        CHECK(linnetshelf_shelf_put(writer, &message[1], 4) == STATUS(DONE));
        answer = linnetshelf_shelf_complete(writer);
    }
    return answer;
}

/* Counts a message that was appended, read or taken: it is after the one before it. */
static void count_message(struct worker *self, linnetshelf_shelf_answer answer) {
    CHECK(self->count == 0 || answer.queue > self->queue || (answer.queue == self->queue && answer.index > self->index));
    self->queue = answer.queue;
    self->index = answer.index;
    self->count++;
}

/* Appends messages. The last writer closes the shelf. */
static void *write_all(void *argument) {
    struct worker *self = argument;
    while (self->count < each && failures == 0) {
        uint32_t message[2] = {self->number, self->count};
        linnetshelf_shelf_answer answer = append(&self->user, message);
        if (answer.status == STATUS(DONE)) {
            count_message(self, answer);
        } else {
            CHECK(answer.status == STATUS(BUSY) || answer.status == STATUS(FULL));
            sched_yield();
        }
    }
    uint32_t status = STATUS(DONE);
    if (--writing == 0)
        while ((status = linnetshelf_shelf_close(&self->user)) == STATUS(BUSY))
            sched_yield();
    CHECK(status == STATUS(DONE));
    linnetshelf_destroy(self->user);
    return NULL;
}

/* Reads messages until none comes any more. Those of a writer come in order. */
static void *read_all(void *argument) {
    struct worker *self = argument;
    uint32_t message[2];
    linnetshelf_shelf_answer answer;
    while ((answer = linnetshelf_shelf_next(&self->user, message, sizeof message)).status != STATUS(FINISHED) && failures == 0) {
        if (answer.status == STATUS(DONE)) {
            CHECK(answer.length == sizeof message && message[0] < WRITERS && message[1] >= self->next[message[0] % WRITERS]);
            CHECK(self->missed != 0 || message[1] == self->next[message[0] % WRITERS]);
            self->next[message[0] % WRITERS] = message[1] + 1;
            count_message(self, answer);
        } else if (answer.status == STATUS(MISSED)) {
            CHECK(linnetshelf_shelf_queue(&self->user).index == self->queue + 1 + answer.index);
            self->missed += answer.index;
        } else {
            CHECK(answer.status == STATUS(NOT_YET) || answer.status == STATUS(BUSY));
            sched_yield();
        }
    }
    linnetshelf_destroy(self->user);
    return NULL;
}

/* Takes messages until none comes any more. Those of a writer come in order. */
static void *take_all(void *argument) {
    struct worker *self = argument;
    uint32_t message[2];
    linnetshelf_shelf_answer answer;
    while ((answer = linnetshelf_shelf_take(&self->user, message, sizeof message)).status != STATUS(FINISHED) && failures == 0) {
        if (answer.status == STATUS(DONE)) {
            CHECK(answer.length == sizeof message && message[0] < WRITERS && message[1] < each);
            CHECK(message[1] >= self->next[message[0] % WRITERS]);
            self->next[message[0] % WRITERS] = message[1] + 1;
            self->taken[message[0] % WRITERS * each + message[1] % each]++;
            count_message(self, answer);
        } else {
            CHECK(answer.status == STATUS(NOT_YET) || answer.status == STATUS(MOVED) || answer.status == STATUS(BUSY));
            sched_yield();
        }
    }
    linnetshelf_destroy(self->user);
    return NULL;
}

/* Each message was taken once. */
static void check_taken(const struct worker *takers) {
    for (uint32_t k = 0; k < WRITERS * each; k++) {
        int times = 0;
        for (int t = 0; t < TAKERS; t++)
            times += takers[t].taken[k];
        CHECK(times == 1);
    }
}

static void run_threads(uint32_t at_limit, int takers) {
    static struct worker workers[THREADS];
    struct worker *readers = workers + WRITERS, *taking = readers + READERS;
    pthread_t threads[THREADS];
    int count = WRITERS + READERS + takers;
    linnetshelf_handle writer = shelf_of(6, at_limit, takers ? "worker" : "");
    writing = WRITERS;
    for (int k = 0; k < count; k++) {
        struct worker *self = &workers[k];
        *self = (struct worker){.number = (uint32_t)k, .taken = calloc(WRITERS, each)};
        if (self < readers)
            CHECK(linnetshelf_shelf_split(&writer, &self->user) == STATUS(DONE));
        else
            self->user = self < taking ? reader_of(&writer) : taker_of(&writer, "worker");
    }
    linnetshelf_destroy(writer);
    for (int k = 0; k < count; k++) {
        struct worker *self = &workers[k];
        void *(*work)(void *) = self < readers ? write_all : self < taking ? read_all : take_all;
        CHECK(pthread_create(&threads[k], NULL, work, self) == 0);
    }
    for (int k = 0; k < count; k++)
        pthread_join(threads[k], NULL);

    for (int k = 0; k < WRITERS; k++)
        CHECK(workers[k].count == each && workers[k].queue <= WRITERS * each);
    for (int k = 0; k < READERS; k++) {
        CHECK(readers[k].queue >= 200 || each < 2000);
        CHECK(at_limit == LINNETSHELF_DROP_OLDEST || (readers[k].missed == 0 && readers[k].count == WRITERS * each));
    }
    if (takers != 0)
        check_taken(taking);
    for (int k = 0; k < count; k++)
        free(workers[k].taken);
}

int main(int count, char **words) {
    if (count > 1)
        each = (uint32_t)atoi(words[1]);
    settings_are_tested();
    messages_go_on_to_the_next_queue();
    messages_are_refused();
    messages_are_put_in_parts();
    a_shelf_is_full();
    a_shelf_is_closed();
    the_oldest_queue_is_dropped();
    readers_move();
    queues_are_freed();
    names_take();
    kinds_are_tested();
    run_threads(LINNETSHELF_REFUSE, TAKERS);
    run_threads(LINNETSHELF_DROP_OLDEST, 0);
    return failures != 0;
}
