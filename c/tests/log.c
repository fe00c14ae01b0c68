/* A queue whose log the caller writes: its calls are made of a file in memory, which is played again. */
#include "check.h"
#include <stdlib.h>

static char disk[1 << 18];
static size_t disk_length;
static int syncs;

/* Makes a call of the file in memory. */
static bool make(const linnetshelf_call *call, const char *room) {
    switch (call->kind) {
    case LINNETSHELF_LOG_WRITE:
        CHECK(call->place <= disk_length && call->place + call->length <= sizeof disk);
        memcpy(disk + call->place, room, call->length);
        if (call->place + call->length > disk_length)
            disk_length = call->place + call->length;
        return true;
    case LINNETSHELF_LOG_CUT:
        disk_length = call->place;
        return true;
    default:
        syncs++;
        return call->kind == LINNETSHELF_LOG_SYNC || call->kind == LINNETSHELF_LOG_SYNC_FOLDER;
    }
}

/* Makes the calls that are left, and returns how many of them were syncs. */
static int make_all(linnetshelf_handle *keeper) {
    static char room[1 << 17];
    linnetshelf_call call;
    int before = syncs;
    while ((call = linnetshelf_log_call(keeper, room, sizeof room)).status == STATUS(DONE)) {
        CHECK(linnetshelf_log_done(keeper, make(&call, room)) == STATUS(DONE));
    }
    CHECK(call.status == STATUS(NO_CALL) && call.length == 0);
    CHECK(linnetshelf_log_done(keeper, true) == STATUS(NO_CALL));
    return syncs - before;
}

/* What is saved of a queue in which one cycle has begun, without a message. */
static linnetshelf_handle saved_queue(void) {
    linnetshelf_handle saved = {0};
    CHECK(linnetshelf_create(&SMALL, "reader", 6, 5 * DAY, &saved) == STATUS(DONE));
    CHECK(linnetshelf_stop(&saved) == STATUS(DONE));
    return saved;
}

static const uint64_t FIRST = (uint64_t)5 << 32;

/* Keeps three messages and a position of a name in the file in memory. */
static void keep_three(void) {
    linnetshelf_handle saved = saved_queue(), queue = {0}, keeper = {0};
    char room[16];
    disk_length = 0;
    syncs = 0;
    CHECK(linnetshelf_keep(&saved, &queue, &keeper) == STATUS(DONE));
    linnetshelf_destroy(saved);

    linnetshelf_call call = linnetshelf_log_call(&keeper, room, sizeof room);
    CHECK(call.status == STATUS(DONE) && call.kind == LINNETSHELF_LOG_SYNC && call.length == 0);
    CHECK(make_all(&keeper) == 5); /* two of the opening, and the empty log, its head and the gate of that */
    CHECK(linnetshelf_stored(&keeper).index == FIRST);

    CHECK(linnetshelf_append(&queue, 5 * DAY, "one", 3).index == FIRST);
    CHECK(linnetshelf_append(&queue, 5 * DAY, "two", 3).index == FIRST + 1);
    CHECK(linnetshelf_turn(&keeper) == STATUS(DONE));
    CHECK(make_all(&keeper) == 1);
    CHECK(linnetshelf_stored(&keeper).index == FIRST); /* the frame waits */

    CHECK(linnetshelf_append(&queue, 5 * DAY, "three", 5).index == FIRST + 2);
    CHECK(linnetshelf_take(&queue, "reader", 6, room, sizeof room).index == FIRST);
    CHECK(linnetshelf_turn(&keeper) == STATUS(DONE));
    CHECK(linnetshelf_stored(&keeper).index == FIRST); /* its calls are left */
    CHECK(make_all(&keeper) == 1);
    CHECK(linnetshelf_stored(&keeper).index == FIRST + 2);

    CHECK(linnetshelf_settle(&keeper) == STATUS(DONE));
    CHECK(linnetshelf_stored(&keeper).index == FIRST + 2);
    CHECK(make_all(&keeper) == 1);
    CHECK(linnetshelf_stored(&keeper).index == FIRST + 3);
    CHECK(linnetshelf_settle(&keeper) == STATUS(DONE) && make_all(&keeper) == 0);
    CHECK(linnetshelf_turn(&keeper) == STATUS(DONE) && make_all(&keeper) == 0);
    linnetshelf_destroy(keeper);
    linnetshelf_destroy(queue);
}

/* The log is played on what was saved, and each shorter one gives the turns that are whole. */
static void plays_back(void) {
    uint64_t most = 0;
    for (size_t length = 0; length <= disk_length; length++) {
        linnetshelf_handle saved = saved_queue(), queue = {0};
        char room[16];
        linnetshelf_answer answer = linnetshelf_play(&saved, disk, length);
        CHECK(answer.status == STATUS(DONE) && answer.index >= most && answer.index <= most + 1);
        most = answer.index;
        CHECK(linnetshelf_open(&saved, &queue) == STATUS(DONE));
        CHECK(linnetshelf_to_end(&queue).index == FIRST + (most == 0 ? 0 : most + 1));
        if (most == 2) {
            CHECK(linnetshelf_to_start(&queue) == STATUS(DONE));
            CHECK(linnetshelf_next(&queue, room, sizeof room).length == 3 && !memcmp(room, "one", 3));
            CHECK(linnetshelf_take(&queue, "reader", 6, room, sizeof room).length == 3 && !memcmp(room, "two", 3));
            CHECK(linnetshelf_read_at(&queue, FIRST + 2, room, sizeof room).length == 5 && !memcmp(room, "three", 5));
        }
        linnetshelf_destroy(queue);
        linnetshelf_destroy(saved);
    }
    CHECK(most == 2);
}

/* A log that is at fault, or that goes on from something else, is refused, and what is saved stays as it was. */
static void refuses(void) {
    linnetshelf_handle saved = saved_queue();
    char *copy = malloc(disk_length);
    memcpy(copy, disk, disk_length);
    copy[5]++;
    CHECK(linnetshelf_play(&saved, copy, disk_length).status == STATUS(BAD_HEAD));
    copy[5]--;
    size_t head = 5 + (unsigned char)copy[1] + 256 * (unsigned char)copy[2];
    copy[head + 5] = 9; /* no note begins with it */
    linnetshelf_answer answer = linnetshelf_play(&saved, copy, disk_length);
    CHECK(answer.status == STATUS(BAD_TURN) && answer.index == 1);
    free(copy);
    CHECK(linnetshelf_play(&saved, disk, disk_length).index == 2);
    CHECK(linnetshelf_play(&saved, disk, disk_length).status == STATUS(OTHER_LOG));
    linnetshelf_handle empty = {0}, out = {0}, other = {0};
    CHECK(linnetshelf_saved_new(&SMALL, "", 0, &empty) == STATUS(DONE));
    CHECK(linnetshelf_play(&empty, disk, disk_length).status == STATUS(BAD_CONTENTS));
    CHECK(linnetshelf_keep(&empty, &out, &other) == STATUS(BAD_CONTENTS));
    CHECK(out.at == NULL && other.at == NULL);
    linnetshelf_destroy(empty);
    linnetshelf_destroy(saved);
}

/* After a call that failed the log has stopped, and what was stored before is still said. */
static void stops(void) {
    linnetshelf_handle saved = saved_queue(), queue = {0}, keeper = {0};
    char room[8192];
    disk_length = 0;
    CHECK(linnetshelf_keep(&saved, &queue, &keeper) == STATUS(DONE));
    linnetshelf_destroy(saved);
    make_all(&keeper);
    CHECK(linnetshelf_append(&queue, 5 * DAY, "one", 3).status == STATUS(DONE));
    CHECK(linnetshelf_turn(&keeper) == STATUS(DONE));
    linnetshelf_call call = linnetshelf_log_call(&keeper, room, 3), again;
    CHECK(call.status == STATUS(NO_ROOM) && call.kind == LINNETSHELF_LOG_WRITE && call.length > 3);
    again = linnetshelf_log_call(&keeper, room, call.length);
    CHECK(again.status == STATUS(DONE) && again.length == call.length && again.place == call.place);
    CHECK(linnetshelf_log_done(&keeper, false) == STATUS(DONE));
    CHECK(linnetshelf_log_call(&keeper, room, sizeof room).status == STATUS(LOG_STOPPED));
    CHECK(linnetshelf_log_done(&keeper, true) == STATUS(LOG_STOPPED));
    CHECK(linnetshelf_turn(&keeper) == STATUS(LOG_STOPPED));
    CHECK(linnetshelf_settle(&keeper) == STATUS(LOG_STOPPED));
    CHECK(linnetshelf_stored(&keeper).index == FIRST);
    CHECK(linnetshelf_append(&queue, 5 * DAY, "two", 3).status == STATUS(DONE));
    linnetshelf_destroy(keeper);
    linnetshelf_destroy(queue);
}

/* A handle that holds something else is left as it is. */
static void wrong_kinds(void) {
    linnetshelf_handle saved = saved_queue(), queue = {0}, keeper = {0}, out = {0}, other = {0};
    char room[8];
    CHECK(linnetshelf_keep(&saved, &queue, &keeper) == STATUS(DONE));
    CHECK(linnetshelf_play(&queue, "", 0).status == STATUS(WRONG_KIND));
    CHECK(linnetshelf_keep(&queue, &out, &other) == STATUS(WRONG_KIND));
    CHECK(linnetshelf_turn(&queue) == STATUS(WRONG_KIND));
    CHECK(linnetshelf_settle(&saved) == STATUS(WRONG_KIND));
    CHECK(linnetshelf_stored(&saved).status == STATUS(WRONG_KIND));
    CHECK(linnetshelf_log_call(&queue, room, sizeof room).status == STATUS(WRONG_KIND));
    CHECK(linnetshelf_log_done(&queue, true) == STATUS(WRONG_KIND));
    CHECK(linnetshelf_append(&keeper, 5 * DAY, "x", 1).status == STATUS(WRONG_KIND));
    CHECK(linnetshelf_saved_count(&keeper).status == STATUS(WRONG_KIND));
    CHECK(linnetshelf_stop(&keeper) == STATUS(WRONG_KIND));
    CHECK(linnetshelf_shelf_follow(&keeper) == STATUS(WRONG_KIND));
    linnetshelf_destroy(keeper);
    linnetshelf_destroy(queue);
    linnetshelf_destroy(saved);
}

/* A long run: the list lets go of the calls that were made, so that the keeper stays small. The log grows over its zeros. */
static void goes_on(void) {
    linnetshelf_handle saved = saved_queue(), queue = {0}, keeper = {0};
    disk_length = 0;
    CHECK(linnetshelf_keep(&saved, &queue, &keeper) == STATUS(DONE));
    linnetshelf_destroy(saved);
    make_all(&keeper);
    for (int i = 0; i < 1000; i++) {
        CHECK(linnetshelf_append(&queue, 5 * DAY, "message", 7).status == STATUS(DONE));
        CHECK(linnetshelf_turn(&keeper) == STATUS(DONE));
        make_all(&keeper);
    }
    CHECK(linnetshelf_stored(&keeper).index == FIRST + 999);
    linnetshelf_destroy(keeper);
    linnetshelf_destroy(queue);
    saved = saved_queue();
    CHECK(linnetshelf_play(&saved, disk, disk_length).index == 999);
    linnetshelf_destroy(saved);
}

int main(void) {
    keep_three();
    plays_back();
    refuses();
    stops();
    wrong_kinds();
    goes_on();
    return failures != 0;
}
